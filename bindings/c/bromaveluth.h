/* libbromaveluth.a: a packet-filter generator, an evaluator, an eBPF step machine, a reader of captures, and Nots pushed down, for x86-64 Linux.
 *
 * `tools/archive` proves the functions below against their contracts (crates/bromaveluth_c/src/lib.rt) and writes the archive.
 * A comment here says in words what a contract says in definitions. docs/SHEET.md says how a filter is written as a sheet,
 * docs/GLOSSARY.md what a word means that is used without a word here; bindings/c/example.c is a whole program.
 *
 * In short: bromaveluth_measure says how much output and work a sheet asks for, bromaveluth_compile makes the program there.
 *
 * What a caller owes, since C cannot be asked to prove it:
 * - a pointer and the count behind it name memory of so many elements, aligned for its type; where the count is 0, nothing is read or
 *   written through the pointer, and it may be NULL. The pointers without a count (answer, tokens, output_bytes, work_numbers, r0, steps,
 *   passed, dropped, cut) point to one number each.
 * - what a function writes overlaps nothing else that the call is lent; until it returns, no other thread writes what is lent or reads
 *   what the function writes.
 * Beyond that any bytes, numbers and counts may be passed. No function keeps a pointer, allocates, or calls anything of the C library
 * but memcpy, memmove and memset; calls from several threads at once are fine where the memory lent to each is its own.
 *
 * The program is eBPF of type XDP (BPF_PROG_TYPE_XDP): so many struct bpf_insn, little-endian. R1 is the context, whose words at 0 and 4
 * are the frame's first byte and its end; R0 at the exit is 2 (XDP_PASS) or 1 (XDP_DROP). It uses no map, no helper, no stack and no loop.
 * A kernel may still refuse it. Of 5,000 programs of mended mode the verifier of Linux 6.18 refused 187, of two kinds:
 * - an instruction that no path reaches: on RawIp the filter `ip` alone, under Not or in an Or; on Ethernet an IPv6 net of prefix 0 in
 *   either direction, under Not or left of an Or;
 * - a long program that leaves it with more than 8,192 branches to follow at once.
 * docs/DIFFERENCES.md has these runs. Kernels before 5.1 do not know the 32-bit comparisons of mended mode; and whether a program may be
 * loaded at all, and how long it may be, a kernel decides by the rights of the process.
 *
 * Stack in bytes, the return address counted and the caller's part not: the most of all calls that tools/bench/stack makes, which prints
 * this table, on x86-64 (each kind with each of its fields, links and modes, frames whole and cut, trees of up to 1,401 levels, refusals too).
 * It is measured and not proved. A program that binds memset lazily needs what its loader takes at the first call as well.
 *   function                   one primitive    any filter
 *   bromaveluth_version                    8             8
 *   bromaveluth_measure                  552           552
 *   bromaveluth_compile                1,096         1,096
 *   bromaveluth_evaluate                 832        49,792
 *   bromaveluth_run                      144           144
 *   bromaveluth_nots                     304        24,880
 *   bromaveluth_capture_open              64            64
 *   bromaveluth_capture                1,400         1,400
 *   bromaveluth_capture_part           1,416         1,416
 */
#ifndef BROMAVELUTH_H
#define BROMAVELUTH_H

#include <stddef.h>
#include <stdint.h>

#ifdef __cplusplus
extern "C" {
#endif

/* The version of this header; bromaveluth_version() is the archive's, and the two should be the same number. */
#define BROMAVELUTH_VERSION_MAJOR 0
#define BROMAVELUTH_VERSION_MINOR 1
#define BROMAVELUTH_VERSION_PATCH 0
#define BROMAVELUTH_VERSION "0.1.0"
#define BROMAVELUTH_VERSION_NUMBER \
    (1000000u * BROMAVELUTH_VERSION_MAJOR + 1000u * BROMAVELUTH_VERSION_MINOR + BROMAVELUTH_VERSION_PATCH)

/* Links and modes; any other number is refused (1). */
enum { BROMAVELUTH_ETHERNET = 0, BROMAVELUTH_RAW_IP = 1, BROMAVELUTH_LINUX_SLL = 2 /* Linux's cooked header */ };
enum { BROMAVELUTH_PLAIN = 0, BROMAVELUTH_MENDED = 1 };

/* Refusals, in the order in which they are looked for; the place is 0 where none is named. */
enum {
    BROMAVELUTH_LINK_OR_MODE = 1,    /* link above 2 or mode above 1 */
    BROMAVELUTH_LENGTH = 2,          /* sheet length differs from what its counts ask, or a count is cut */
    BROMAVELUTH_WRONG_BYTE = 3,      /* a code or unused byte is wrong; place: the lowest wrong byte */
    BROMAVELUTH_NOT_ONE_TREE = 4,    /* tokens are not one whole tree, or primitives or steps are left over or lacking */
    BROMAVELUTH_OFFSET = 5,          /* a byte access's left offset is negative as given, or above 32767 (Net: plus the header offset);
                                        place: the first such primitive */
    BROMAVELUTH_SHIFT = 6,           /* a shift by 32 or more; place: the first such primitive */
    BROMAVELUTH_OUTPUT = 7,          /* output below 8 x L bytes; of bromaveluth_nots: shorter than the new sheet */
    BROMAVELUTH_WORK = 8,            /* work below L + 8 x tokens numbers of 32 bits */
    BROMAVELUTH_TOO_DEEP = 9,        /* evaluator and bromaveluth_nots only: tree deeper than 256, the root counted */
    BROMAVELUTH_JUMP = 10,           /* jump distance above 32767 */
    BROMAVELUTH_ETHERTYPE = 11,      /* ethertype on RawIp other than 0x0800; place, here and below: the primitive */
    BROMAVELUTH_PORT_PROTOCOL = 12,  /* ports with p not 0, 5, 6 or 10 */
    BROMAVELUTH_ETHER_HOST = 13,     /* EtherHost on RawIp or Linux cooked */
    BROMAVELUTH_ETHER_MULTICAST = 14, /* EtherMulticast on RawIp or Linux cooked */
    BROMAVELUTH_MPLS = 15,           /* Mpls on RawIp */
    BROMAVELUTH_DIRECTION = 16,      /* Inbound, Outbound */
    BROMAVELUTH_LOAD = 17,           /* comparison with a load */
    BROMAVELUTH_DIVISION = 18,       /* first bad step: division by 0 */
    BROMAVELUTH_MODULO = 19,         /* first bad step: Mod */
    /* Of a capture, looked for in file order through the whole file, before all others; place: a byte of the file. */
    BROMAVELUTH_MAGIC = 40,          /* unknown magic; place: 0 */
    BROMAVELUTH_LINK_TYPE = 41,      /* other link type than 1 (Ethernet), 101 (raw IP) and 113 (Linux cooked), one 32-bit number; place: 20 */
    BROMAVELUTH_FILE_ENDS = 42,      /* file ends inside a header or record, a file below four bytes too; place: where that begins */
    BROMAVELUTH_CAPTURED_LENGTH = 43, /* captured length above 16,384, before the record's body; place: where the record begins */
    BROMAVELUTH_TOKENS = 50          /* bromaveluth_nots only, between 9 and 7: the new tree needs more than 65,535 tokens */
};

/* Stops of the machine. */
enum {
    BROMAVELUTH_EXIT = 0,            /* exit */
    BROMAVELUTH_FORM = 30,           /* a form emitted in neither mode */
    BROMAVELUTH_OUTSIDE = 31,        /* load outside the frame, or through R1 at other than 0 and 4 */
    BROMAVELUTH_NOT_WRITTEN = 32,    /* register not yet written */
    BROMAVELUTH_NO_INSTRUCTION = 33, /* no instruction there */
    BROMAVELUTH_BUDGET = 34,         /* budget spent */
    BROMAVELUTH_INPUT = 35           /* length zero or no multiple of 8, or start plus frame length 2^32 or more */
};

/* The words for a refusal; words too for 0 and for a number that no function returns. */
static inline const char *bromaveluth_refusal_text(uint8_t refusal)
{
    switch (refusal) {
    case 0: return "no refusal";
    case BROMAVELUTH_LINK_OR_MODE: return "link above 2 or mode above 1";
    case BROMAVELUTH_LENGTH: return "sheet length differs from what its counts ask, or a count is cut";
    case BROMAVELUTH_WRONG_BYTE: return "a code or unused byte is wrong";
    case BROMAVELUTH_NOT_ONE_TREE: return "tokens are not one whole tree, or primitives or steps are left over or lacking";
    case BROMAVELUTH_OFFSET: return "a byte access's left offset is negative as given, or above 32767 (Net: plus the header offset)";
    case BROMAVELUTH_SHIFT: return "a shift by 32 or more";
    case BROMAVELUTH_OUTPUT: return "output below 8 x L bytes, or shorter than the new sheet";
    case BROMAVELUTH_WORK: return "work below L + 8 x tokens numbers of 32 bits";
    case BROMAVELUTH_TOO_DEEP: return "tree deeper than 256, the root counted";
    case BROMAVELUTH_JUMP: return "jump distance above 32767";
    case BROMAVELUTH_ETHERTYPE: return "ethertype on RawIp other than 0x0800";
    case BROMAVELUTH_PORT_PROTOCOL: return "ports with p not 0, 5, 6 or 10";
    case BROMAVELUTH_ETHER_HOST: return "EtherHost on RawIp or Linux cooked";
    case BROMAVELUTH_ETHER_MULTICAST: return "EtherMulticast on RawIp or Linux cooked";
    case BROMAVELUTH_MPLS: return "Mpls on RawIp";
    case BROMAVELUTH_DIRECTION: return "Inbound, Outbound";
    case BROMAVELUTH_LOAD: return "comparison with a load";
    case BROMAVELUTH_DIVISION: return "first bad step: division by 0";
    case BROMAVELUTH_MODULO: return "first bad step: Mod";
    case BROMAVELUTH_MAGIC: return "unknown magic";
    case BROMAVELUTH_LINK_TYPE: return "other link type";
    case BROMAVELUTH_FILE_ENDS: return "file ends inside a header or record";
    case BROMAVELUTH_CAPTURED_LENGTH: return "captured length above 16,384";
    case BROMAVELUTH_TOKENS: return "the new tree needs more than 65,535 tokens";
    default: return "unknown refusal";
    }
}

/* The words for a stop of the machine; words too for a number that no run ends with. */
static inline const char *bromaveluth_stop_text(uint8_t stop)
{
    switch (stop) {
    case BROMAVELUTH_EXIT: return "exit";
    case BROMAVELUTH_FORM: return "a form emitted in neither mode";
    case BROMAVELUTH_OUTSIDE: return "load outside the frame, or through R1 at other than 0 and 4";
    case BROMAVELUTH_NOT_WRITTEN: return "register not yet written";
    case BROMAVELUTH_NO_INSTRUCTION: return "no instruction there";
    case BROMAVELUTH_BUDGET: return "budget spent";
    case BROMAVELUTH_INPUT: return "length zero or no multiple of 8, or start plus frame length 2^32 or more";
    default: return "unknown stop";
    }
}

/* The archive's version, as BROMAVELUTH_VERSION_NUMBER counts it. */
uint32_t bromaveluth_version(void);

/* Says what a sheet asks for. Returns 0, in *answer the number L of its program's instructions, in *tokens the tokens of its tree, and the
 * least room that bromaveluth_compile takes for it with the same link and mode: *output_bytes is 8 x L, *work_numbers is L + 8 x tokens,
 * in numbers of 32 bits. With that room or more it is never refused 7 or 8, with one byte or number less it is. Else a refusal (1 to 6),
 * its place in *answer and three zeros. What earns 10 to 19 is not looked for. Nothing else is written. */
uint8_t bromaveluth_measure(const uint8_t *sheet, size_t sheet_bytes, uint8_t link, uint8_t mode, uint64_t *tokens,
                            uint64_t *output_bytes, uint64_t *work_numbers, uint64_t *answer);

/* Compiles a sheet. Returns 0 and the number L of the program's instructions in *answer, or a refusal (1 to 8, 10 to 19) and its place
 * there. After 0 the first 8 x L bytes of output are the program; after 1 to 8 output and work are as they were; after 10 to 19 the
 * first 8 x L bytes of output are zero. Except after 1 to 8 the first L + 8 x tokens numbers of work are zero. Nothing else changes.
 * The program, run with a budget of L on a frame at a start with start + length below 2^32, exits within L steps, and R0 is 2 exactly
 * when the sheet's expression holds on the frame, else 1; in plain mode for sheets whose comparison constants are all below 2^31. */
uint8_t bromaveluth_compile(const uint8_t *sheet, size_t sheet_bytes, uint8_t link, uint8_t mode, uint8_t *output, size_t output_bytes,
                            uint32_t *work, size_t work_numbers, uint64_t *answer);

/* Evaluates a sheet on a frame, without a program. Returns 0 and in *answer 1 if the expression holds, 0 if it does not; or a refusal
 * (1 to 6, 9, 11 to 19) and its place there. Nothing else is written. */
uint8_t bromaveluth_evaluate(const uint8_t *sheet, size_t sheet_bytes, uint8_t link, const uint8_t *frame, size_t frame_bytes,
                             uint64_t *answer);

/* Runs a program's bytes on a frame that lies at start, for at most budget steps. Returns the stop; *r0 is R0 after stop 0 and 0 after
 * any other, *steps the number of steps carried out, an exit counted. Nothing else is written. */
uint8_t bromaveluth_run(const uint8_t *program, size_t program_bytes, const uint8_t *frame, size_t frame_bytes, uint64_t start,
                        uint64_t budget, uint64_t *r0, uint64_t *steps);

/* Pushes the Nots of a sheet down: writes a new sheet with the same steps and primitives in the same order, in which Not stands only directly
 * above a primitive and never twice. Returns 0 and the new sheet's length in *answer; the first so many bytes of output are then the new
 * sheet. Else a refusal (2 to 4, 9, 50, 7, looked for in this order), its place in *answer (0 but for 3), and output as it was. Nothing else
 * is written. No link is taken; on every link and frame the new sheet is evaluated as the old one is, and its tree is never deeper.
 * Of a sheet of N bytes the new one has at most N + 21,844. */
uint8_t bromaveluth_nots(const uint8_t *sheet, size_t sheet_bytes, uint8_t *output, size_t output_bytes, uint64_t *answer);

/* A capture below is a whole libpcap savefile in memory: a header of 24 bytes (magic a1b2c3d4, or a1b23c4d for nanoseconds, in either byte
 * order; the link type in its last four), then records, each a header of 16 bytes and the captured bytes. A record is cut when its
 * captured length is below its original one; a cut record is not judged. */

/* Looks through a whole capture. Returns 0 and in *answer the link that it picks; or 40 to 43 and in *answer the byte of the file where
 * what is refused begins: 0 for the magic and for a file that ends inside its header, 20 for the link type, the first byte of its header
 * for a record. Nothing else is written. */
uint8_t bromaveluth_capture_open(const uint8_t *file, size_t file_bytes, uint64_t *answer);

/* Compiles a sheet for the link that a capture picks and runs the program on every record that is not cut. Returns 0, how many frames
 * passed, were dropped and were cut, which add up to the records of the file, and in *answer file_bytes. Else a refusal, its place in
 * *answer and three zeros: 40 to 43 first, through the whole file, which leave output and work as they were; then 1 to 8 and 10 to 19, as
 * bromaveluth_compile gives them. Except after 40 to 43 output and work are as bromaveluth_compile leaves them. A frame passes exactly when
 * the sheet's expression holds on it; in plain mode for sheets whose comparison constants are all below 2^31. Nothing else is written. */
uint8_t bromaveluth_capture(const uint8_t *file, size_t file_bytes, const uint8_t *sheet, size_t sheet_bytes, uint8_t mode,
                            uint8_t *output, size_t output_bytes, uint32_t *work, size_t work_numbers, uint64_t *passed,
                            uint64_t *dropped, uint64_t *cut, uint64_t *answer);

/* A part of the same: after the file's header (40, 42, 41) the sheet is compiled (1 to 8, 10 to 19), then at most `most` records from the
 * byte `at` on are judged; 24 is where the first one begins. Returns 0, the counts of these records and in *answer the byte where to go on,
 * which is file_bytes when the file is through. Else a refusal, its place in *answer and three zeros; 42 and 43 are given when such a
 * record is met. Except after a refusal of the header, which leaves them as they were, output and work are as bromaveluth_compile leaves
 * them. Parts that begin at 24 and go on where the last one ended add up to what bromaveluth_capture answers; from another byte on, what
 * stands there is taken for a record, and at or past the end there is none and *answer is at. A part can refuse the sheet before a
 * fault of a later record is met: a caller who gets a refusal below 40 asks bromaveluth_capture_open, whose refusal comes first. */
uint8_t bromaveluth_capture_part(const uint8_t *file, size_t file_bytes, const uint8_t *sheet, size_t sheet_bytes, uint8_t mode,
                                 uint8_t *output, size_t output_bytes, uint32_t *work, size_t work_numbers, uint64_t at,
                                 uint64_t most, uint64_t *passed, uint64_t *dropped, uint64_t *cut, uint64_t *answer);

#ifdef __cplusplus
}
#endif

#endif
