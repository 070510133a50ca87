/* bromaveluth_nots on good, bad and long sheets: every number and byte beside what document 02's A4 says. */
#include "checks.h"

#include <stdlib.h>
#include <string.h>

static uint64_t answer;

static uint8_t push(const uint8_t *sheet, size_t n, size_t out)
{
    lend();
    answer = JUNK;
    return bromaveluth_nots(sheet, n, output, out, &answer);
}

/* Two primitives `ip`, and these tokens behind them. */
static size_t of_two(uint8_t *sheet, const uint8_t *tokens, size_t count)
{
    memset(sheet, 0, 54);
    sheet[3] = 2;
    sheet[4] = sheet[28] = 7;
    sheet[6] = sheet[30] = 1;
    sheet[52] = (uint8_t)(count >> 8);
    sheet[53] = (uint8_t)count;
    memcpy(sheet + 54, tokens, count);
    return 54 + count;
}

static void pushes(void)
{
    static const uint8_t denied_and[] = {3, 1, 0, 0}, pushed[] = {2, 3, 0, 3, 0}, twice[] = {3, 3, 2, 0, 3, 3, 3, 0}, plain[] = {2, 0, 3, 0};
    uint8_t sheet[128], expected[128];
    size_t n = of_two(sheet, denied_and, sizeof denied_and), m = of_two(expected, pushed, sizeof pushed);
    SAME(push(sheet, n, ROOM), 0);
    SAME(answer, m);
    SAME(memcmp(output, expected, m), 0);
    untouched(__LINE__, m, 0);
    /* done twice; and with no byte to spare */
    SAME(push(expected, m, m), 0);
    SAME(answer, m);
    SAME(memcmp(output, expected, m), 0);
    untouched(__LINE__, m, 0);
    SAME(push(expected, m, m - 1), BROMAVELUTH_OUTPUT);
    SAME(answer, 0);
    untouched(__LINE__, 0, 0);
    n = of_two(sheet, twice, sizeof twice);
    m = of_two(expected, plain, sizeof plain);
    SAME(push(sheet, n, ROOM), 0);
    SAME(answer, m);
    SAME(memcmp(output, expected, m), 0);
    untouched(__LINE__, m, 0);
}

/* `ip` under so many Nots. */
static size_t under_nots(uint8_t *sheet, size_t count)
{
    memcpy(sheet, ip, 28);
    sheet[28] = (uint8_t)((count + 1) >> 8);
    sheet[29] = (uint8_t)(count + 1);
    memset(sheet + 30, 3, count);
    sheet[30 + count] = 0;
    return 31 + count;
}

static void refuses(void)
{
    uint8_t sheet[512];
    SAME(push(ip, sizeof ip - 1, ROOM), BROMAVELUTH_LENGTH);
    SAME(answer, 0);
    memcpy(sheet, ip, sizeof ip);
    sheet[27] = 1; /* the primitive's last byte is unused */
    SAME(push(sheet, sizeof ip, ROOM), BROMAVELUTH_WRONG_BYTE);
    SAME(answer, 27);
    memcpy(sheet, ip, sizeof ip);
    sheet[30] = 3; /* a Not above nothing */
    SAME(push(sheet, sizeof ip, ROOM), BROMAVELUTH_NOT_ONE_TREE);
    SAME(answer, 0);
    SAME(push(sheet, under_nots(sheet, 256), 0), BROMAVELUTH_TOO_DEEP);
    SAME(answer, 0);
    untouched(__LINE__, 0, 0);
    SAME(push(sheet, under_nots(sheet, 255), ROOM), 0);
    SAME(answer, 32);
    SAME(output[30], 3);
    SAME(output[31], 0);
    untouched(__LINE__, 32, 0);
    answer = JUNK;
    SAME(bromaveluth_nots(NULL, 0, NULL, 0, &answer), BROMAVELUTH_LENGTH);
    SAME(answer, 0);
    answer = JUNK;
    SAME(bromaveluth_nots(ip, sizeof ip, NULL, 0, &answer), BROMAVELUTH_OUTPUT);
    SAME(answer, 0);
}

/* The tokens of n primitives under And, as shallow as can be. */
static uint8_t *balanced(uint8_t *at, size_t n)
{
    if (n == 1) {
        *at = 0;
        return at + 1;
    }
    *at = 1;
    return balanced(balanced(at + 1, n / 2), n - n / 2);
}

enum { PRIMS = 21846, FRONT = 4 + 24 * PRIMS, TOKENS = 2 * PRIMS, LONGEST = FRONT + 2 + 65535 };

/* 21,846 primitives, so many of them below one Not: the new tree needs 43,691 tokens and one more for each of those. */
static void of_many(uint8_t *sheet, size_t denied)
{
    memset(sheet, 0, FRONT);
    sheet[2] = (uint8_t)(PRIMS >> 8);
    sheet[3] = (uint8_t)PRIMS;
    for (size_t i = 0; i < PRIMS; i++) {
        sheet[4 + 24 * i] = 7;
        sheet[6 + 24 * i] = 1;
    }
    sheet[FRONT] = (uint8_t)(TOKENS >> 8);
    sheet[FRONT + 1] = (uint8_t)TOKENS;
    sheet[FRONT + 2] = 1;
    sheet[FRONT + 3] = 3;
    balanced(balanced(sheet + FRONT + 4, denied), PRIMS - denied);
}

static void limits(void)
{
    uint8_t *sheet = malloc(FRONT + 2 + TOKENS), *long_output = malloc(LONGEST + 1);
    SAME(sheet != NULL && long_output != NULL, 1);
    if (!sheet || !long_output) exit(1);
    of_many(sheet, 21844);
    memset(long_output, FILL, LONGEST + 1);
    SAME(bromaveluth_nots(sheet, FRONT + 2 + TOKENS, long_output, LONGEST - 1, &answer), BROMAVELUTH_OUTPUT);
    SAME(long_output[0], FILL);
    SAME(bromaveluth_nots(sheet, FRONT + 2 + TOKENS, long_output, LONGEST, &answer), 0);
    SAME(answer, LONGEST);
    SAME(memcmp(long_output, sheet, FRONT), 0);
    SAME(long_output[FRONT] * 256 + long_output[FRONT + 1], 65535);
    SAME(long_output[LONGEST], FILL);
    of_many(sheet, 21845);
    memset(long_output, FILL, LONGEST + 1);
    SAME(bromaveluth_nots(sheet, FRONT + 2 + TOKENS, long_output, LONGEST + 1, &answer), BROMAVELUTH_TOKENS);
    SAME(answer, 0);
    SAME(bromaveluth_nots(sheet, FRONT + 2 + TOKENS, long_output, 0, &answer), BROMAVELUTH_TOKENS);
    for (size_t i = 0; i <= LONGEST; i++)
        if (long_output[i] != FILL) SAME(i, LONGEST + 1);
    free(sheet);
    free(long_output);
}

void nots(void)
{
    source = "nots.c";
    pushes();
    refuses();
    limits();
}
