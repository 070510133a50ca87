/* count [--each] SHEET MODE FILE..: what libbromaveluth.a says of each capture, one line a file:
 *   status answer passed dropped cut
 * and with --each, after a space, one letter a record: P passed, D dropped, C cut (where the file is not refused).
 * Before it prints a line it checks that bromaveluth_capture_open agrees and that parts of 1, 7 and 1000 records compose to the whole.
 * Ends with 1 where they do not, with 2 where a file cannot be read. */
#include "bromaveluth.h"

#include <inttypes.h>
#include <stdio.h>
#include <stdlib.h>
#include <string.h>

struct bytes {
    uint8_t *at;
    size_t n;
};

struct counted {
    uint8_t status;
    uint64_t answer, passed, dropped, cut;
};

static uint8_t output[1 << 20];
static uint32_t work[1 << 20];
#define LENT output, sizeof output, work, sizeof work / sizeof *work

static struct bytes whole_file(const char *path)
{
    struct bytes b = {NULL, 0};
    FILE *f = fopen(path, "rb");
    if (!f || fseek(f, 0, SEEK_END) || ftell(f) < 0) {
        perror(path);
        exit(2);
    }
    b.n = (size_t)ftell(f);
    rewind(f);
    b.at = malloc(b.n ? b.n : 1);
    if (!b.at || fread(b.at, 1, b.n, f) != b.n) {
        perror(path);
        exit(2);
    }
    fclose(f);
    return b;
}

static struct counted whole(struct bytes file, struct bytes sheet, uint8_t mode)
{
    struct counted c;
    c.status = bromaveluth_capture(file.at, file.n, sheet.at, sheet.n, mode, LENT, &c.passed, &c.dropped, &c.cut, &c.answer);
    return c;
}

static struct counted part(struct bytes file, struct bytes sheet, uint8_t mode, uint64_t at, uint64_t most)
{
    struct counted c;
    c.status = bromaveluth_capture_part(file.at, file.n, sheet.at, sheet.n, mode, LENT, at, most, &c.passed, &c.dropped, &c.cut, &c.answer);
    return c;
}

static int same(struct counted a, struct counted b)
{
    return a.status == b.status && a.answer == b.answer && a.passed == b.passed && a.dropped == b.dropped && a.cut == b.cut;
}

/* A part looks at the header alone before the sheet: a refusal of the sheet comes before one of a later record. */
static int composes(struct counted of_whole, struct counted of_parts)
{
    return same(of_whole, of_parts) || (of_whole.status >= 40 && of_parts.status && of_parts.status < 40);
}

/* The whole made of parts. Where a part is refused, so is the whole, with counts of zero. `letters`, if there, gets one for each part. */
static struct counted of_parts(struct bytes file, struct bytes sheet, uint8_t mode, uint64_t most, char *letters)
{
    struct counted sum = {0, 24, 0, 0, 0};
    do {
        struct counted c = part(file, sheet, mode, sum.answer, most);
        if (c.status) return c;
        if (letters && sum.answer < file.n) *letters++ = c.passed ? 'P' : c.dropped ? 'D' : 'C';
        sum.answer = c.answer;
        sum.passed += c.passed;
        sum.dropped += c.dropped;
        sum.cut += c.cut;
    } while (sum.answer < file.n);
    return sum;
}

/* 40 to 43 are the same from both; where the file is fine, the open call names link 0, 1 or 2. */
static int opens_alike(struct bytes file, struct counted c)
{
    uint64_t answer;
    uint8_t status = bromaveluth_capture_open(file.at, file.n, &answer);
    return status ? status == c.status && answer == c.answer : c.status < 40 && answer < 3;
}

static int tell(const char *path, struct bytes sheet, uint8_t mode, int each)
{
    struct bytes file = whole_file(path);
    char *letters = calloc(file.n / 16 + 1, 1);
    struct counted c = whole(file, sheet, mode);
    int wrong = !letters || !opens_alike(file, c) || c.passed + c.dropped + c.cut > file.n / 16;
    static const uint64_t sizes[] = {7, 1000, 1};
    for (size_t i = 0; !wrong && i < 3; i++) wrong = !composes(c, of_parts(file, sheet, mode, sizes[i], sizes[i] == 1 ? letters : NULL));
    if (wrong) fprintf(stderr, "%s: the parts, or the open call, disagree with the whole\n", path);
    printf("%d %" PRIu64 " %" PRIu64 " %" PRIu64 " %" PRIu64, c.status, c.answer, c.passed, c.dropped, c.cut);
    if (each && !wrong && !c.status) printf(" %s", letters);
    puts("");
    free(letters);
    free(file.at);
    return wrong;
}

int main(int n, char **words)
{
    int each = n > 1 && !strcmp(words[1], "--each"), wrong = 0;
    if (n < 4 + each || strlen(words[2 + each]) != 1) {
        fputs("usage: count [--each] SHEET MODE FILE..\n", stderr);
        return 2;
    }
    struct bytes sheet = whole_file(words[1 + each]);
    for (int i = 3 + each; i < n; i++) wrong |= tell(words[i], sheet, (uint8_t)(words[2 + each][0] - '0'), each);
    free(sheet.at);
    return wrong;
}
