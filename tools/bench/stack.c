/* How much stack each function of libbromaveluth.a takes, on x86-64: a call is made on a stack that is filled with one byte, and the lowest
 * byte that has changed afterwards is looked for; where that is much, the same is done with another byte. The call of a function that returns at once is taken off,
 * so that the caller's part is not counted; the return address is. Prints for each function its name, the most of one primitive and the
 * most of all calls. tools/bench/stack makes a table of it. */
#include "bromaveluth.h"

#include <stdio.h>
#include <stdlib.h>
#include <string.h>

enum { STACK = 128 << 10, ROOM = 1 << 20, RECORD = 24, MOST_TOKENS = 3000 };

static uint64_t stack[STACK / 8] __attribute__((aligned(16)));

static void on_stack(void (*f)(void))
{
    void *top = stack + STACK / 8;
    __asm__ volatile("movq %%rsp, %%rbx\n\tmovq %1, %%rsp\n\tcall *%0\n\tmovq %%rbx, %%rsp"
                     : "+r"(f), "+r"(top)
                     :
                     : "rax", "rbx", "rcx", "rdx", "rsi", "rdi", "r8", "r9", "r10", "r11", "memory", "cc", "xmm0", "xmm1", "xmm2", "xmm3",
                       "xmm4", "xmm5", "xmm6", "xmm7", "xmm8", "xmm9", "xmm10", "xmm11", "xmm12", "xmm13", "xmm14", "xmm15");
}

/* Where the lowest eight bytes begin that a call changes. */
static size_t lowest(void (*f)(void), int fill)
{
    uint64_t filled;
    size_t i = 0;
    memset(&filled, fill, sizeof filled);
    memset(stack, fill, STACK);
    on_stack(f);
    while (i < STACK / 8 && stack[i] == filled) i++;
    if (i == 0) {
        fprintf(stderr, "stack: a call took all of %d bytes\n", STACK);
        exit(1);
    }
    return 8 * i;
}

/* What a call is lent. */
static uint8_t sheet[1 << 16], output[ROOM], frame[128], file[1 << 12];
static uint32_t work[ROOM];
static size_t sheet_bytes, output_bytes, work_numbers, program_bytes, frame_bytes, file_bytes;
static uint8_t link, mode;
static uint64_t budget, most, a, b, c, answer;

/* A function that returns at once, under the type of each that is measured. */
__asm__(".text\nstack_nothing:\n\tret\n");
#define EACH(X) X(version) X(measure) X(compile) X(evaluate) X(run) X(nots) X(capture_open) X(capture) X(capture_part)
#define DECLARE(name) \
    extern __typeof__(bromaveluth_##name) nothing_##name __asm__("stack_nothing"); \
    static __typeof__(bromaveluth_##name) *volatile name = nothing_##name;
EACH(DECLARE)

static void call_version(void) { version(); }
static void call_measure(void) { measure(sheet, sheet_bytes, link, mode, &a, &b, &c, &answer); }
static void call_compile(void) { compile(sheet, sheet_bytes, link, mode, output, output_bytes, work, work_numbers, &answer); }
static void call_evaluate(void) { evaluate(sheet, sheet_bytes, link, frame, frame_bytes, &answer); }
static void call_run(void) { run(output, program_bytes, frame, frame_bytes, 0, budget, &a, &b); }
static void call_nots(void) { nots(sheet, sheet_bytes, output, output_bytes, &answer); }
static void call_capture_open(void) { capture_open(file, file_bytes, &answer); }
static void call_capture(void)
{
    capture(file, file_bytes, sheet, sheet_bytes, mode, output, output_bytes, work, work_numbers, &a, &b, &c, &answer);
}
static void call_capture_part(void)
{
    capture_part(file, file_bytes, sheet, sheet_bytes, mode, output, output_bytes, work, work_numbers, 24, most, &a, &b, &c, &answer);
}

enum function {
#define NAME(name) F_##name,
    EACH(NAME) FUNCTIONS
};
static const struct { const char *name; void (*call)(void); } functions[] = {
#define ROW(name) {"bromaveluth_" #name, call_##name},
    EACH(ROW)
};
static size_t before[FUNCTIONS], deepest[FUNCTIONS], alone[FUNCTIONS];
static int is_alone;

static void take(enum function f)
{
    size_t taken = before[f] - lowest(functions[f].call, 0x5a) + 8;
    if (taken + 64 > deepest[f]) { /* near the most: again, in case that the call wrote the byte itself */
        size_t again = before[f] - lowest(functions[f].call, 0xa5) + 8;
        if (again > taken) taken = again;
    }
    if (taken > deepest[f]) deepest[f] = taken;
    if (is_alone && taken > alone[f]) alone[f] = taken;
}

/* Frames of each ethertype that a test asks for, whole and cut. */
static const uint16_t ethertypes[] = {0x0800, 0x86dd, 0x0806, 0x8035, 0x8100, 0x8847, 0x8863, 0x8864};
static const size_t lengths[] = {0, 1, 13, 14, 16, 20, 23, 24, 30, 34, 37, 38, 54, 58, 62, 100};
#define COUNT(x) (sizeof(x) / sizeof *(x))

static void make_frame(size_t type, uint8_t protocol, size_t length)
{
    memset(frame, 0, sizeof frame);
    frame[12] = (uint8_t)(ethertypes[type] >> 8);
    frame[13] = (uint8_t)ethertypes[type];
    frame[0] = frame[14] = 0x45;
    frame[9] = frame[23] = frame[20] = frame[6] = protocol;
    frame_bytes = length;
}

static void judge(void)
{
    take(F_evaluate);
    if (program_bytes) take(F_run);
}

/* One filter: sized, compiled, with room and without, and judged. */
static void filter(int frames)
{
    static const uint8_t protocols[] = {6, 17, 58};
    take(F_measure);
    program_bytes = 0;
    for (int room = 0; room < 3; room++) {
        output_bytes = room > 0 ? ROOM : 0;
        work_numbers = room > 1 ? ROOM : 0;
        take(F_compile);
        take(F_nots);
    }
    if (bromaveluth_compile(sheet, sheet_bytes, link, mode, output, output_bytes, work, work_numbers, &answer) == 0) {
        program_bytes = 8 * answer;
        budget = answer;
    }
    if (!frames) {
        make_frame(0, 6, 100);
        judge();
        return;
    }
    for (size_t type = 0; type < COUNT(ethertypes); type++)
        for (size_t p = 0; p < (type < 2 ? COUNT(protocols) : 1); p++)
            for (size_t n = 0; n < COUNT(lengths); n++) {
                make_frame(type, protocols[p], lengths[n]);
                judge();
            }
}

static void on_each_link(int frames)
{
    for (link = 0; link < 4; link++)
        for (mode = 0; mode < 3; mode++) filter(frames && link < 3 && mode == 1);
}

/* The sections of a sheet. */
static uint8_t steps[5 * 16], records[RECORD * MOST_TOKENS], tokens[MOST_TOKENS];

static void count16(size_t n)
{
    sheet[sheet_bytes++] = (uint8_t)(n >> 8);
    sheet[sheet_bytes++] = (uint8_t)n;
}

static void section(const uint8_t *from, size_t n, size_t size)
{
    if (sheet_bytes + 2 + n * size > sizeof sheet) exit(1);
    count16(n);
    memcpy(sheet + sheet_bytes, from, n * size);
    sheet_bytes += n * size;
}

static void write_sheet(size_t s, size_t p, size_t t)
{
    sheet_bytes = 0;
    section(steps, s, 5);
    section(records, p, RECORD);
    section(tokens, t, 1);
}

/* A capture of the frames, for each link type, whole and cut. */
static void put32(uint8_t *at, size_t n)
{
    for (int i = 0; i < 4; i++) at[i] = (uint8_t)(n >> (8 * i));
}

static void make_file(size_t type)
{
    memset(file, 0, sizeof file);
    put32(file, 0xa1b2c3d4);
    put32(file + 20, type);
    file_bytes = 24;
    for (size_t n = 0; n < COUNT(lengths); n++) {
        make_frame(n % 2, 6, lengths[n]);
        put32(file + file_bytes + 8, frame_bytes);
        put32(file + file_bytes + 12, frame_bytes + n % 3 / 2);
        memcpy(file + file_bytes + 16, frame, frame_bytes);
        file_bytes += 16 + frame_bytes;
    }
}

static void count_captures(void)
{
    static const size_t types[] = {1, 101, 113, 7};
    output_bytes = work_numbers = ROOM;
    most = 1000;
    for (size_t t = 0; t < COUNT(types); t++) {
        make_file(types[t]);
        for (size_t cut = 0; cut < 3; cut++, file_bytes -= cut < 3 ? 30 : 0) {
            take(F_capture_open);
            for (mode = 0; mode < 3; mode++) {
                take(F_capture);
                take(F_capture_part);
            }
        }
    }
}

/* Each field of a record over the values that matter, for each kind. */
static void single(size_t kind, uint8_t one, uint8_t p, uint8_t q, uint32_t n, uint8_t rest, size_t s)
{
    uint8_t *r = records;
    memset(r, 0, RECORD);
    r[0] = (uint8_t)kind;
    r[1] = one;
    r[2] = p;
    r[3] = q;
    for (int i = 0; i < 4; i++) r[4 + i] = (uint8_t)(n >> (24 - 8 * i));
    if (kind == 2 || kind == 6) memset(r + 8, rest, 16);
    if (kind == 5) memset(r + 8, rest, 4);
    if (kind == 8) memset(r + 8, rest, 6);
    if (kind == 23) {
        r[13] = (uint8_t)s;
        r[14] = rest & 1;
        if (!r[14]) r[11] = rest;
    }
    tokens[0] = 0;
    write_sheet(kind == 23 ? s : 0, 1, 1);
}

/* A record of a kind that is accepted on Ethernet where there is one. */
static void usual(size_t kind)
{
    static const uint8_t p[24] = {[4] = 0, [6] = 128, [7] = 5, [14] = 1, [15] = 1, [17] = 1};
    single(kind, kind <= 8 && kind != 7 ? 2 : 0, p[kind], 0, kind == 4 ? 0x00500060 : kind == 1 || kind == 5 ? 0x0a000001 : 80 * (kind == 3), 2 * (kind < 23), 3);
}

static void each_field(size_t kind)
{
    static const uint32_t numbers[] = {0, 80, 0x00500060, 0x0a000001, 0xffffffff};
    static const uint8_t rests[] = {0, 1, 0xff};
    for (uint8_t one = 0; one < 4; one++)
        for (unsigned p = 0; p < 14; p++)
            for (size_t n = 0; n < COUNT(numbers); n++)
                for (size_t r = 0; r < COUNT(rests); r++) {
                    uint8_t q = kind == 23 ? (uint8_t)(p % 3) : p > 10 && kind < 8 ? 6 : 0;
                    single(kind, one, (uint8_t)(kind == 6 ? p * 10 : p), q, numbers[n], rests[r], p);
                    if (bromaveluth_measure(sheet, sheet_bytes, 0, 0, &a, &b, &c, &answer) == BROMAVELUTH_WRONG_BYTE) {
                        link = mode = 0;
                        take(F_measure);
                        continue;
                    }
                    on_each_link(one == 2 && r == 1 && n < 3);
                    if (r == 1 && n < 2) count_captures();
                }
}

/* Trees of one kind: n operators over it, one above the other, their other operand on the left or on the right. */
static void chain(size_t kind, uint8_t operator, size_t n, int left)
{
    size_t s = kind == 23 ? 3 : 0, prims = operator == 3 ? 1 : n + 1, t = 0;
    if (s * prims > 16 || prims > 2000) return;
    usual(kind);
    for (size_t i = 1; i < prims; i++) memcpy(records + RECORD * i, records, RECORD);
    for (size_t i = 0; i < n; i++) {
        tokens[t++] = operator;
        if (operator != 3 && left) tokens[t++] = 0;
    }
    tokens[t++] = 0;
    for (size_t i = 0; operator != 3 && !left && i < n; i++) tokens[t++] = 0;
    write_sheet(s * prims, prims, t);
    on_each_link(0);
    count_captures();
}

static void chains(void)
{
    static const size_t depths[] = {1, 2, 254, 255, 256, 257, 1400};
    for (size_t kind = 1; kind <= 23; kind++)
        for (uint8_t operator = 1; operator <= 3; operator++)
            for (size_t n = 0; n < COUNT(depths); n++)
                for (int left = 0; left < 2; left++) chain(kind, operator, depths[n], left);
}

/* Programs that nobody made: every stop. */
static void programs(void)
{
    uint32_t seed = 1;
    for (int i = 0; i < 20000; i++) {
        program_bytes = i % 65;
        for (size_t j = 0; j < program_bytes; j++) {
            seed = seed * 1664525 + 1013904223;
            output[j] = (uint8_t)(seed >> 24) & (j % 8 == 1 ? 0x65 : j % 8 > 1 ? 0x07 : 0xff);
        }
        budget = 40;
        make_frame(0, 6, lengths[i % COUNT(lengths)]);
        take(F_run);
    }
}

int main(void)
{
    for (int f = 0; f < FUNCTIONS; f++) before[f] = lowest(functions[f].call, 0x5a);
#define REAL(name) name = bromaveluth_##name;
    EACH(REAL)
    for (int i = 0; i < 16; i++) {
        steps[5 * i] = "\0\1\2\3\5\6\7\10\11\4"[i % 10]; /* Mod, which is refused, last */
        steps[5 * i + 4] = 7;
    }
    is_alone = 1;
    take(F_version);
    for (size_t kind = 0; kind <= 24; kind++) each_field(kind);
    programs();
    is_alone = 0;
    chains();
    for (int f = 0; f < FUNCTIONS; f++) printf("%s %zu %zu\n", functions[f].name, alone[f], deepest[f]);
    return 0;
}
