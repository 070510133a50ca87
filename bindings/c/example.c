/* Measures the filter `ip`, lends the room that it asks for, compiles it, runs the program on one frame and says what became of it.
 *
 *     cc -Ibindings/c bindings/c/example.c target/staticlib/libbromaveluth.a && ./a.out
 */
#include "bromaveluth.h"

#include <stdio.h>
#include <stdlib.h>

/* docs/SHEET.md: no steps; one primitive of 24 bytes, kind 7 with protocol 1, IPv4; one token, that primitive. */
static const uint8_t sheet[31] = {0, 0, 0, 1, 7, 0, 1, [29] = 1};
static const uint8_t frame[60] = {[12] = 0x08, [13] = 0x00};

static int refused(uint8_t refusal, uint64_t place)
{
    fprintf(stderr, "refusal %u: %s (place %llu)\n", refusal, bromaveluth_refusal_text(refusal), (unsigned long long)place);
    return 1;
}

int main(void)
{
    uint64_t tokens, output_bytes, work_numbers, answer, r0, steps;
    uint8_t status = bromaveluth_measure(sheet, sizeof sheet, BROMAVELUTH_ETHERNET, BROMAVELUTH_MENDED, &tokens, &output_bytes,
                                         &work_numbers, &answer);
    if (status) return refused(status, answer);
    uint8_t *output = malloc(output_bytes);
    uint32_t *work = malloc(work_numbers * sizeof *work);
    if (!output || !work) return 1;
    status = bromaveluth_compile(sheet, sizeof sheet, BROMAVELUTH_ETHERNET, BROMAVELUTH_MENDED, output, output_bytes, work,
                                 work_numbers, &answer);
    free(work);
    if (status) return refused(status, answer);
    uint8_t stop = bromaveluth_run(output, output_bytes, frame, sizeof frame, 0, answer, &r0, &steps);
    printf("bromaveluth %s: %llu instructions; %s after %llu steps: the frame %s\n", BROMAVELUTH_VERSION, (unsigned long long)answer,
           bromaveluth_stop_text(stop), (unsigned long long)steps, r0 == 2 ? "passes" : "is dropped");
    free(output);
    return stop != BROMAVELUTH_EXIT;
}
