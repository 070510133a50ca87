/* Calls each function of libbromaveluth.a on good, bad and empty input and compares every number and byte with what document 01 says. */
#include "checks.h"

#include <stdio.h>
#include <string.h>

static int checks, wrong;
const char *source = "calls.c";

void same(int line, const char *what, uint64_t got, uint64_t expected)
{
    checks++;
    if (got == expected) return;
    wrong++;
    fprintf(stderr, "%s:%d: %s is %llu, not %llu\n", source, line, what, (unsigned long long)got, (unsigned long long)expected);
}

uint8_t output[ROOM];
uint32_t work[ROOM];
static uint64_t answer, r0, steps;

const uint8_t ip[IP_SHEET] = {0, 0, 0, 1, 7, 0, 1, [28] = 0, 1, 0};

const uint8_t listing[LISTING] = {
    0x61, 0x12, 0, 0, 0, 0, 0, 0,    0x61, 0x13, 4, 0, 0, 0, 0, 0,    0xbf, 0x25, 0, 0, 0, 0, 0, 0,    0x07, 0x05, 0, 0, 14, 0, 0, 0,
    0x2d, 0x35, 5, 0, 0, 0, 0, 0,    0x69, 0x24, 12, 0, 0, 0, 0, 0,   0xdc, 0x04, 0, 0, 16, 0, 0, 0,   0x55, 0x04, 2, 0, 0, 8, 0, 0,
    0xb7, 0, 0, 0, 2, 0, 0, 0,       0x95, 0, 0, 0, 0, 0, 0, 0,       0xb7, 0, 0, 0, 1, 0, 0, 0,       0x95, 0, 0, 0, 0, 0, 0, 0,
};

const uint8_t ip_frame[60] = {[12] = 8, [13] = 0};
const uint8_t arp_frame[60] = {[12] = 8, [13] = 6};

void lend(void)
{
    memset(output, FILL, sizeof output);
    memset(work, FILL, sizeof work);
}

static void fresh(void)
{
    lend();
    answer = r0 = steps = JUNK;
}

static uint8_t compile(const uint8_t *sheet, size_t n, uint8_t link, uint8_t mode, size_t out, size_t numbers)
{
    fresh();
    return bromaveluth_compile(sheet, n, link, mode, output, out, work, numbers, &answer);
}

void untouched(int line, size_t bytes, size_t numbers)
{
    for (size_t i = bytes; i < ROOM; i++) same(line, "a byte of output", output[i], FILL);
    for (size_t i = numbers; i < ROOM; i++) same(line, "a number of work", work[i], FILL_WORD);
}

void zeroed_work(int line, size_t numbers)
{
    for (size_t i = 0; i < numbers; i++) same(line, "a cleared number of work", work[i], 0);
}

static void compiles(void)
{
    SAME(compile(ip, sizeof ip, BROMAVELUTH_ETHERNET, BROMAVELUTH_PLAIN, ROOM, ROOM), 0);
    SAME(answer, 12);
    SAME(memcmp(output, listing, sizeof listing), 0);
    zeroed_work(__LINE__, 20);
    untouched(__LINE__, 96, 20);
    /* mended mode differs in the class of the comparison alone */
    SAME(compile(ip, sizeof ip, BROMAVELUTH_ETHERNET, BROMAVELUTH_MENDED, ROOM, ROOM), 0);
    SAME(answer, 12);
    SAME(output[56], 0x56);
    output[56] = 0x55;
    SAME(memcmp(output, listing, sizeof listing), 0);
    /* RawIp, K1: the two exits and what they need */
    SAME(compile(ip, sizeof ip, BROMAVELUTH_RAW_IP, BROMAVELUTH_PLAIN, 48, 14), 0);
    SAME(answer, 6);
    untouched(__LINE__, 48, 14);
    /* Linux's cooked header: the half is asked for, and read, two bytes later */
    SAME(compile(ip, sizeof ip, BROMAVELUTH_LINUX_SLL, BROMAVELUTH_PLAIN, 96, 20), 0);
    SAME(answer, 12);
    SAME(output[28], 16);
    SAME(output[42], 14);
    output[28] = 14;
    output[42] = 12;
    SAME(memcmp(output, listing, sizeof listing), 0);
}

static uint64_t tokens, bytes, numbers;

static uint8_t measure(const uint8_t *sheet, size_t n, uint8_t link, uint8_t mode)
{
    answer = tokens = bytes = numbers = JUNK;
    return bromaveluth_measure(sheet, n, link, mode, &tokens, &bytes, &numbers, &answer);
}

/* A refusal to measure: its number, its place, and three zeros. */
static void unmeasured(int line, uint8_t status, uint8_t refusal, uint64_t place)
{
    same(line, "the status", status, refusal);
    same(line, "the place", answer, place);
    same(line, "tokens", tokens, 0);
    same(line, "bytes", bytes, 0);
    same(line, "numbers", numbers, 0);
}

static void measures(void)
{
    uint8_t sheet[sizeof ip];
    SAME(measure(ip, sizeof ip, BROMAVELUTH_ETHERNET, BROMAVELUTH_PLAIN), 0);
    SAME(answer, 12);
    SAME(tokens, 1);
    SAME(bytes, 96);
    SAME(numbers, 20);
    SAME(measure(ip, sizeof ip, BROMAVELUTH_RAW_IP, BROMAVELUTH_MENDED), 0);
    SAME(answer, 6);
    SAME(bytes, 48);
    SAME(numbers, 14);
    /* exactly that room is enough, one byte or one number less is not */
    SAME(compile(ip, sizeof ip, BROMAVELUTH_RAW_IP, BROMAVELUTH_MENDED, 48, 14), 0);
    SAME(compile(ip, sizeof ip, BROMAVELUTH_RAW_IP, BROMAVELUTH_MENDED, 47, 14), BROMAVELUTH_OUTPUT);
    SAME(compile(ip, sizeof ip, BROMAVELUTH_RAW_IP, BROMAVELUTH_MENDED, 48, 13), BROMAVELUTH_WORK);
    unmeasured(__LINE__, measure(ip, sizeof ip, 255, BROMAVELUTH_PLAIN), BROMAVELUTH_LINK_OR_MODE, 0);
    unmeasured(__LINE__, measure(ip, sizeof ip, BROMAVELUTH_ETHERNET, 2), BROMAVELUTH_LINK_OR_MODE, 0);
    unmeasured(__LINE__, measure(NULL, 0, BROMAVELUTH_ETHERNET, 2), BROMAVELUTH_LINK_OR_MODE, 0);
    unmeasured(__LINE__, measure(NULL, 0, BROMAVELUTH_ETHERNET, BROMAVELUTH_PLAIN), BROMAVELUTH_LENGTH, 0);
    memcpy(sheet, ip, sizeof ip);
    sheet[27] = 1;
    unmeasured(__LINE__, measure(sheet, sizeof sheet, BROMAVELUTH_ETHERNET, BROMAVELUTH_PLAIN), BROMAVELUTH_WRONG_BYTE, 27);
    /* what earns 16 is measured: it counts no instruction */
    memcpy(sheet, ip, sizeof ip);
    sheet[4] = 21;
    sheet[6] = 0;
    SAME(measure(sheet, sizeof sheet, BROMAVELUTH_ETHERNET, BROMAVELUTH_PLAIN), 0);
    SAME(answer, 6);
}

/* How many numbers have words of their own, and whether each has words. */
static int told(const char *(*text)(uint8_t), const char *other)
{
    int own = 0;
    for (int n = 0; n < 256; n++) {
        const char *words = text((uint8_t)n);
        SAME(words != NULL && strlen(words) > 3, 1);
        own += strcmp(words, other) != 0;
    }
    return own;
}

static void texts(void)
{
    SAME(told(bromaveluth_refusal_text, "unknown refusal"), 1 + 19 + 4 + 1);
    SAME(told(bromaveluth_stop_text, "unknown stop"), 7);
    SAME(strcmp(bromaveluth_refusal_text(BROMAVELUTH_JUMP), "jump distance above 32767"), 0);
    SAME(strcmp(bromaveluth_refusal_text(0), "no refusal"), 0);
    SAME(strcmp(bromaveluth_stop_text(BROMAVELUTH_BUDGET), "budget spent"), 0);
    SAME(bromaveluth_version(), BROMAVELUTH_VERSION_NUMBER);
    char version[32];
    snprintf(version, sizeof version, "%d.%d.%d", BROMAVELUTH_VERSION_MAJOR, BROMAVELUTH_VERSION_MINOR, BROMAVELUTH_VERSION_PATCH);
    SAME(strcmp(version, BROMAVELUTH_VERSION), 0);
}

static void refuses(void)
{
    uint8_t sheet[sizeof ip];
    SAME(compile(ip, sizeof ip, 3, BROMAVELUTH_PLAIN, ROOM, ROOM), BROMAVELUTH_LINK_OR_MODE);
    SAME(answer, 0);
    SAME(compile(ip, sizeof ip, BROMAVELUTH_ETHERNET, 255, ROOM, ROOM), BROMAVELUTH_LINK_OR_MODE);
    SAME(compile(ip, sizeof ip - 1, BROMAVELUTH_ETHERNET, BROMAVELUTH_PLAIN, ROOM, ROOM), BROMAVELUTH_LENGTH);
    SAME(answer, 0);
    memcpy(sheet, ip, sizeof ip);
    sheet[27] = 1; /* the primitive's last byte is unused */
    SAME(compile(sheet, sizeof sheet, BROMAVELUTH_ETHERNET, BROMAVELUTH_PLAIN, ROOM, ROOM), BROMAVELUTH_WRONG_BYTE);
    SAME(answer, 27);
    SAME(compile(ip, sizeof ip, BROMAVELUTH_ETHERNET, BROMAVELUTH_PLAIN, 95, ROOM), BROMAVELUTH_OUTPUT);
    SAME(answer, 0);
    SAME(compile(ip, sizeof ip, BROMAVELUTH_ETHERNET, BROMAVELUTH_PLAIN, 96, 19), BROMAVELUTH_WORK);
    SAME(answer, 0);
    untouched(__LINE__, 0, 0);
    /* Inbound, a primitive that counts no instruction: 8 x 6 bytes and 6 + 8 numbers are cleared */
    memcpy(sheet, ip, sizeof ip);
    sheet[4] = 21;
    sheet[6] = 0;
    SAME(compile(sheet, sizeof sheet, BROMAVELUTH_ETHERNET, BROMAVELUTH_PLAIN, ROOM, ROOM), BROMAVELUTH_DIRECTION);
    SAME(answer, 0);
    for (size_t i = 0; i < 48; i++) SAME(output[i], 0);
    zeroed_work(__LINE__, 14);
    untouched(__LINE__, 48, 14);
}

static void compiles_nothing(void)
{
    static const uint8_t no_counts[6];
    answer = JUNK;
    SAME(bromaveluth_compile(NULL, 0, 0, 0, NULL, 0, NULL, 0, &answer), BROMAVELUTH_LENGTH);
    SAME(answer, 0);
    SAME(compile(no_counts, sizeof no_counts, 0, 0, ROOM, ROOM), BROMAVELUTH_NOT_ONE_TREE);
    SAME(answer, 0);
    answer = JUNK;
    SAME(bromaveluth_compile(ip, sizeof ip, 0, 0, NULL, 0, NULL, 0, &answer), BROMAVELUTH_OUTPUT);
    SAME(answer, 0);
}

static uint8_t evaluate(const uint8_t *sheet, size_t n, uint8_t link, const uint8_t *frame, size_t m)
{
    fresh();
    return bromaveluth_evaluate(sheet, n, link, frame, m, &answer);
}

/* `ip` under so many Nots. */
static size_t under_nots(uint8_t *sheet, size_t nots)
{
    memcpy(sheet, ip, 28);
    sheet[28] = (uint8_t)((nots + 1) >> 8);
    sheet[29] = (uint8_t)(nots + 1);
    memset(sheet + 30, 3, nots);
    sheet[30 + nots] = 0;
    return 31 + nots;
}

static void evaluates(void)
{
    uint8_t sheet[512];
    SAME(evaluate(ip, sizeof ip, BROMAVELUTH_ETHERNET, ip_frame, 60), 0);
    SAME(answer, 1);
    SAME(evaluate(ip, sizeof ip, BROMAVELUTH_ETHERNET, arp_frame, 60), 0);
    SAME(answer, 0);
    SAME(evaluate(ip, sizeof ip, BROMAVELUTH_ETHERNET, ip_frame, 14), 0);
    SAME(answer, 1);
    SAME(evaluate(ip, sizeof ip, BROMAVELUTH_ETHERNET, ip_frame, 13), 0);
    SAME(answer, 0);
    SAME(evaluate(ip, sizeof ip, BROMAVELUTH_ETHERNET, NULL, 0), 0);
    SAME(answer, 0);
    SAME(evaluate(sheet, under_nots(sheet, 255), BROMAVELUTH_ETHERNET, arp_frame, 60), 0);
    SAME(answer, 1);
    SAME(evaluate(sheet, under_nots(sheet, 256), BROMAVELUTH_ETHERNET, arp_frame, 60), BROMAVELUTH_TOO_DEEP);
    SAME(answer, 0);
    SAME(evaluate(ip, sizeof ip, 3, ip_frame, 60), BROMAVELUTH_LINK_OR_MODE);
    SAME(answer, 0);
    SAME(evaluate(NULL, 0, BROMAVELUTH_ETHERNET, ip_frame, 60), BROMAVELUTH_LENGTH);
    SAME(answer, 0);
    memcpy(sheet, ip, sizeof ip);
    sheet[30] = 4; /* no such token */
    SAME(evaluate(sheet, sizeof ip, BROMAVELUTH_ETHERNET, ip_frame, 60), BROMAVELUTH_WRONG_BYTE);
    SAME(answer, 30);
}

static uint8_t run(size_t program, const uint8_t *frame, size_t m, uint64_t start, uint64_t budget)
{
    fresh();
    return bromaveluth_run(listing, program, frame, m, start, budget, &r0, &steps);
}

static void runs(void)
{
    static const uint8_t unknown[8] = {0xff};
    SAME(run(96, ip_frame, 60, 0, 12), BROMAVELUTH_EXIT);
    SAME(r0, 2);
    SAME(steps, 10);
    SAME(run(96, arp_frame, 60, 1000, 12), BROMAVELUTH_EXIT);
    SAME(r0, 1);
    SAME(steps, 10);
    SAME(run(96, NULL, 0, 0, 12), BROMAVELUTH_EXIT);
    SAME(r0, 1);
    SAME(steps, 7);
    SAME(run(96, ip_frame, 60, 0, 9), BROMAVELUTH_BUDGET);
    SAME(r0, 0);
    SAME(steps, 9);
    SAME(run(64, ip_frame, 60, 0, 12), BROMAVELUTH_NO_INSTRUCTION);
    SAME(r0, 0);
    SAME(steps, 8);
    SAME(run(95, ip_frame, 60, 0, 12), BROMAVELUTH_INPUT);
    SAME(r0, 0);
    SAME(steps, 0);
    SAME(run(96, ip_frame, 60, UINT64_MAX, 12), BROMAVELUTH_INPUT);
    SAME(run(96, ip_frame, 60, (1ull << 32) - 60, 12), BROMAVELUTH_INPUT);
    SAME(run(96, ip_frame, 60, (1ull << 32) - 61, UINT64_MAX), BROMAVELUTH_EXIT);
    SAME(r0, 2);
    fresh();
    SAME(bromaveluth_run(NULL, 0, NULL, 0, 0, 0, &r0, &steps), BROMAVELUTH_INPUT);
    SAME(r0, 0);
    SAME(steps, 0);
    fresh();
    SAME(bromaveluth_run(unknown, 8, ip_frame, 60, 0, 1, &r0, &steps), BROMAVELUTH_FORM);
    SAME(r0, 0);
    SAME(steps, 0);
}

int main(void)
{
    measures();
    texts();
    compiles();
    refuses();
    compiles_nothing();
    evaluates();
    runs();
    captures();
    nots();
    printf("C: %d checks, %d wrong\n", checks, wrong);
    return wrong != 0;
}
