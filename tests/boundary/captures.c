/* Calls the functions over captures on good, bad and empty files and compares every number and lent byte with what document 02 says. */
#include "checks.h"

#include <string.h>

enum { HEADER = 24, RECORD = 16, MOST = 16384, ETHERNET_TYPE = 1, RAW_TYPE = 101, COOKED_TYPE = 113 };
#define MICRO 0xa1b2c3d4u
#define NANO 0xa1b23c4du

/* The file that is being written, and its byte order. */
static uint8_t file[2 * MOST];
static size_t bytes;
static int big;

static uint64_t passed, dropped, cut, answer;

static void number(uint32_t n)
{
    for (int i = 0; i < 4; i++) file[bytes + (size_t)(big ? 3 - i : i)] = (uint8_t)(n >> 8 * i);
    bytes += 4;
}

/* A header whose version, zone and snap length are odd, since nothing looks at them. */
static void begin(uint32_t magic, uint32_t link_type)
{
    bytes = 0;
    number(magic);
    memset(file + bytes, 0xe7, 16);
    bytes += 16;
    number(link_type);
}

static void add_header(uint32_t captured, uint32_t original)
{
    number(0xffffffff);
    number(0xffffffff);
    number(captured);
    number(original);
}

static void add(const uint8_t *frame, uint32_t captured, uint32_t original)
{
    add_header(captured, original);
    memcpy(file + bytes, frame, captured);
    bytes += captured;
}

/* Four records, one for each way to be counted; captured above original is judged. */
enum { FOUR_PASSED = 2, FOUR_DROPPED = 1, FOUR_CUT = 1 };
static const size_t four_starts[5] = {24, 100, 176, 222, 258};

static void four(uint32_t magic, uint32_t link_type)
{
    begin(magic, link_type);
    add(ip_frame, 60, 60);
    add(arp_frame, 60, 60);
    add(ip_frame, 30, 60);
    add(ip_frame, 20, 10);
}

static uint8_t opened(size_t n)
{
    answer = JUNK;
    return bromaveluth_capture_open(file, n, &answer);
}

static uint8_t captured(size_t n, const uint8_t *sheet, size_t sheet_bytes, uint8_t mode, size_t out, size_t numbers)
{
    lend();
    passed = dropped = cut = answer = JUNK;
    return bromaveluth_capture(file, n, sheet, sheet_bytes, mode, output, out, work, numbers, &passed, &dropped, &cut, &answer);
}

static uint8_t part(size_t n, const uint8_t *sheet, size_t sheet_bytes, uint8_t mode, uint64_t at, uint64_t most)
{
    lend();
    passed = dropped = cut = answer = JUNK;
    return bromaveluth_capture_part(file, n, sheet, sheet_bytes, mode, output, ROOM, work, ROOM, at, most, &passed, &dropped, &cut,
                                    &answer);
}

static void counts(int line, uint64_t of_passed, uint64_t of_dropped, uint64_t of_cut)
{
    same(line, "passed", passed, of_passed);
    same(line, "dropped", dropped, of_dropped);
    same(line, "cut", cut, of_cut);
}

/* The program of `ip` on Ethernet in plain mode, and nothing else. */
static void compiled(int line)
{
    same(line, "the program", (uint64_t)memcmp(output, listing, LISTING), 0);
    zeroed_work(line, 20);
    untouched(line, LISTING, 20);
}

/* The file of n bytes is refused so by all three, before any mode and sheet; nothing lent is touched. */
static void refused(int line, size_t n, uint8_t refusal, uint64_t place)
{
    same(line, "open", opened(n), refusal);
    same(line, "open's place", answer, place);
    for (uint8_t mode = 0; mode < 3; mode++) {
        same(line, "capture", captured(n, ip, IP_SHEET, mode, ROOM, ROOM), refusal);
        same(line, "capture's place", answer, place);
        counts(line, 0, 0, 0);
        untouched(line, 0, 0);
    }
    same(line, "capture without a sheet", captured(n, NULL, 0, 0, 0, 0), refusal);
    same(line, "its place", answer, place);
    counts(line, 0, 0, 0);
    untouched(line, 0, 0);
}

/* The same for a fault of the file's header, which a part meets too, wherever it begins. */
static void refused_at_once(int line, size_t n, uint8_t refusal, uint64_t place)
{
    static const uint64_t places[4] = {0, HEADER, 25, UINT64_MAX};
    refused(line, n, refusal, place);
    for (int i = 0; i < 4; i++) {
        same(line, "part", part(n, ip, IP_SHEET, 2, places[i], (uint64_t)i), refusal);
        same(line, "part's place", answer, place);
        counts(line, 0, 0, 0);
        untouched(line, 0, 0);
    }
}

static void opens(void)
{
    for (big = 0; big < 2; big++) {
        for (int nano = 0; nano < 2; nano++) {
            four(nano ? NANO : MICRO, ETHERNET_TYPE);
            SAME(bytes, four_starts[4]);
            SAME(opened(bytes), 0);
            SAME(answer, BROMAVELUTH_ETHERNET);
            SAME(captured(bytes, ip, IP_SHEET, BROMAVELUTH_PLAIN, ROOM, ROOM), 0);
            SAME(answer, bytes);
            counts(__LINE__, FOUR_PASSED, FOUR_DROPPED, FOUR_CUT);
            compiled(__LINE__);
            four(nano ? NANO : MICRO, RAW_TYPE);
            SAME(opened(bytes), 0);
            SAME(answer, BROMAVELUTH_RAW_IP);
            /* on RawIp `ip` is true, K1: six instructions */
            SAME(captured(bytes, ip, IP_SHEET, BROMAVELUTH_MENDED, 48, 14), 0);
            SAME(answer, bytes);
            counts(__LINE__, 3, 0, 1);
            zeroed_work(__LINE__, 14);
            untouched(__LINE__, 48, 14);
            four(nano ? NANO : MICRO, COOKED_TYPE);
            SAME(opened(bytes), 0);
            SAME(answer, BROMAVELUTH_LINUX_SLL);
            begin(nano ? NANO : MICRO, ETHERNET_TYPE);
            SAME(opened(HEADER), 0);
            SAME(captured(HEADER, ip, IP_SHEET, BROMAVELUTH_PLAIN, LISTING, 20), 0);
            counts(__LINE__, 0, 0, 0);
            compiled(__LINE__);
        }
    }
}

static void refuses_magic(void)
{
    static const uint32_t near[6] = {0xa1b2d4c3, 0xb2a1d4c3, 0xb2a1c3d4, 0xa1b24d3c, 0xc3d4a1b2, 0x0a0d0d0a};
    for (big = 0; big < 2; big++) {
        for (int i = 0; i < 6 + 64; i++) {
            /* after the near ones each magic with one bit turned */
            uint32_t magic = i < 6 ? near[i] : (i % 2 ? MICRO : NANO) ^ 1u << (i - 6) / 2;
            four(magic, 7);
            refused_at_once(__LINE__, bytes, BROMAVELUTH_MAGIC, 0);
            refused_at_once(__LINE__, 4, BROMAVELUTH_MAGIC, 0);
            refused_at_once(__LINE__, 23, BROMAVELUTH_MAGIC, 0);
            refused_at_once(__LINE__, 3, BROMAVELUTH_FILE_ENDS, 0);
        }
    }
}

static void refuses_link_types(void)
{
    static const uint32_t others[8] = {0, 2, 100, 102, 114, 0x01000000, 0x65000000, 0xffffffff};
    for (big = 0; big < 2; big++) {
        for (int i = 0; i < 8 + 64; i++) {
            uint32_t type = i < 8 ? others[i] : (i % 2 ? ETHERNET_TYPE : RAW_TYPE) ^ 1u << (i - 8) / 2;
            four(MICRO, type);
            refused_at_once(__LINE__, bytes, BROMAVELUTH_LINK_TYPE, 20);
            refused_at_once(__LINE__, HEADER, BROMAVELUTH_LINK_TYPE, 20);
            refused_at_once(__LINE__, HEADER - 1, BROMAVELUTH_FILE_ENDS, 0);
        }
    }
}

/* A capture cut at every byte is refused 42 where what is cut begins, or counted as far as it goes. */
static void refuses_ends(void)
{
    static const uint64_t sums[5][3] = {{0, 0, 0}, {1, 0, 0}, {1, 1, 0}, {1, 1, 1}, {2, 1, 1}};
    for (big = 0; big < 2; big++) {
        four(NANO, ETHERNET_TYPE);
        for (size_t n = 0, whole = 0; n <= bytes; n++) {
            if (n == four_starts[whole]) {
                SAME(opened(n), 0);
                SAME(answer, BROMAVELUTH_ETHERNET);
                SAME(captured(n, ip, IP_SHEET, BROMAVELUTH_PLAIN, ROOM, ROOM), 0);
                SAME(answer, n);
                counts(__LINE__, sums[whole][0], sums[whole][1], sums[whole][2]);
                compiled(__LINE__);
                whole++;
            } else if (n < HEADER) {
                refused_at_once(__LINE__, n, BROMAVELUTH_FILE_ENDS, 0);
            } else {
                refused(__LINE__, n, BROMAVELUTH_FILE_ENDS, four_starts[whole - 1]);
            }
        }
    }
}

static void refuses_lengths(void)
{
    static const uint32_t long_ones[4] = {MOST + 1, 65535, 0x80000000, 0xffffffff};
    for (big = 0; big < 2; big++) {
        for (int i = 0; i < 4; i++) {
            four(MICRO, ETHERNET_TYPE);
            add_header(long_ones[i], 60);
            /* the whole header is there: 43, though the body is not; a header cut behind that length: 42 */
            refused(__LINE__, bytes, BROMAVELUTH_CAPTURED_LENGTH, four_starts[4]);
            refused(__LINE__, bytes - 1, BROMAVELUTH_FILE_ENDS, four_starts[4]);
            refused(__LINE__, bytes - 4, BROMAVELUTH_FILE_ENDS, four_starts[4]);
            /* the first fault of the file is the one that is told */
            add_header(60, 60);
            refused(__LINE__, bytes, BROMAVELUTH_CAPTURED_LENGTH, four_starts[4]);
        }
        begin(MICRO, ETHERNET_TYPE);
        add_header(MOST, MOST);
        refused(__LINE__, bytes, BROMAVELUTH_FILE_ENDS, HEADER);
        memset(file + bytes, 0, MOST);
        file[bytes + 12] = 8;
        bytes += MOST;
        refused(__LINE__, bytes - 1, BROMAVELUTH_FILE_ENDS, HEADER);
        SAME(captured(bytes, ip, IP_SHEET, BROMAVELUTH_PLAIN, ROOM, ROOM), 0);
        counts(__LINE__, 1, 0, 0);
        add_header(MOST + 1, 0);
        memset(file + bytes, 0, 1000);
        refused(__LINE__, bytes + 1000, BROMAVELUTH_CAPTURED_LENGTH, HEADER + RECORD + MOST);
    }
}

/* Captured below, at and above the original length; the numbers are unsigned and of all 32 bits. */
static void tells_cut(void)
{
    static const uint32_t originals[6] = {59, 60, 61, 0, 0x80000000, 0xffffffff};
    for (big = 0; big < 2; big++) {
        for (int i = 0; i < 6; i++) {
            begin(NANO, ETHERNET_TYPE);
            add(ip_frame, 60, originals[i]);
            SAME(captured(bytes, ip, IP_SHEET, BROMAVELUTH_PLAIN, ROOM, ROOM), 0);
            counts(__LINE__, originals[i] <= 60, 0, originals[i] > 60);
            refused(__LINE__, bytes - 1, BROMAVELUTH_FILE_ENDS, HEADER);
        }
        begin(MICRO, ETHERNET_TYPE);
        add(ip_frame, 0, 0);
        add(ip_frame, 0, 1);
        add(ip_frame, 14, 14);
        add(ip_frame, 13, 13);
        SAME(captured(bytes, ip, IP_SHEET, BROMAVELUTH_PLAIN, ROOM, ROOM), 0);
        counts(__LINE__, 1, 2, 1);
    }
}

/* After the file document 01's refusals, with the link that the file picks; buffers as compile leaves them. */
static void refuses_sheets(void)
{
    uint8_t sheet[IP_SHEET];
    big = 0;
    four(MICRO, ETHERNET_TYPE);
    SAME(captured(bytes, ip, IP_SHEET, 2, ROOM, ROOM), BROMAVELUTH_LINK_OR_MODE);
    SAME(answer, 0);
    counts(__LINE__, 0, 0, 0);
    untouched(__LINE__, 0, 0);
    SAME(captured(bytes, ip, IP_SHEET, 255, ROOM, ROOM), BROMAVELUTH_LINK_OR_MODE);
    SAME(captured(bytes, ip, IP_SHEET - 1, 0, ROOM, ROOM), BROMAVELUTH_LENGTH);
    SAME(answer, 0);
    memcpy(sheet, ip, IP_SHEET);
    sheet[27] = 1;
    SAME(captured(bytes, sheet, IP_SHEET, 0, ROOM, ROOM), BROMAVELUTH_WRONG_BYTE);
    SAME(answer, 27);
    counts(__LINE__, 0, 0, 0);
    SAME(captured(bytes, ip, IP_SHEET, 0, LISTING - 1, ROOM), BROMAVELUTH_OUTPUT);
    SAME(answer, 0);
    counts(__LINE__, 0, 0, 0);
    SAME(captured(bytes, ip, IP_SHEET, 0, LISTING, 19), BROMAVELUTH_WORK);
    SAME(answer, 0);
    counts(__LINE__, 0, 0, 0);
    untouched(__LINE__, 0, 0);
    SAME(captured(bytes, ip, IP_SHEET, 0, LISTING, 20), 0);
    compiled(__LINE__);
    /* ARP has no meaning on RawIp: what L names is cleared */
    four(MICRO, RAW_TYPE);
    memcpy(sheet, ip, IP_SHEET);
    sheet[6] = 3;
    SAME(captured(bytes, sheet, IP_SHEET, 0, ROOM, ROOM), BROMAVELUTH_ETHERTYPE);
    SAME(answer, 0);
    counts(__LINE__, 0, 0, 0);
    for (size_t i = 0; i < 48; i++) SAME(output[i], 0);
    zeroed_work(__LINE__, 14);
    untouched(__LINE__, 48, 14);
    SAME(part(bytes, sheet, IP_SHEET, 0, HEADER, 1), BROMAVELUTH_ETHERTYPE);
    SAME(answer, 0);
    counts(__LINE__, 0, 0, 0);
    untouched(__LINE__, 48, 14);
}

/* From a byte where no record begins what stands there is taken for one; past the end there is none, and nothing is read there. */
static void counts_from_anywhere(void)
{
    static const uint64_t past[4] = {41, 1000, UINT64_MAX - 15, UINT64_MAX};
    big = 1;
    begin(MICRO, ETHERNET_TYPE);
    memset(file + 4, 0, 16);
    memset(file + HEADER, 0, RECORD);
    bytes = HEADER + RECORD;
    for (int i = 0; i < 4; i++) {
        SAME(part(bytes, ip, IP_SHEET, BROMAVELUTH_PLAIN, past[i], 2), 0);
        SAME(answer, past[i]);
        counts(__LINE__, 0, 0, 0);
        compiled(__LINE__);
    }
    for (uint64_t at = 25; at < 40; at++) {
        SAME(part(bytes, ip, IP_SHEET, BROMAVELUTH_PLAIN, at, 1), BROMAVELUTH_FILE_ENDS);
        SAME(answer, at);
        counts(__LINE__, 0, 0, 0);
    }
    /* the link type, 1, as an original length above nothing captured: cut; then the record, an empty frame */
    SAME(part(bytes, ip, IP_SHEET, BROMAVELUTH_PLAIN, 8, 2), 0);
    SAME(answer, bytes);
    counts(__LINE__, 0, 1, 1);
}

/* Parts of so many records each: where each ends, and what they add up to. */
static void adds_up(uint64_t most)
{
    uint64_t at = HEADER, sum[3] = {0, 0, 0}, walked = 0;
    while (at != bytes) {
        uint64_t left = 4 - walked;
        SAME(part(bytes, ip, IP_SHEET, BROMAVELUTH_PLAIN, at, most), 0);
        compiled(__LINE__);
        SAME(passed + dropped + cut, most < left ? most : left);
        walked += passed + dropped + cut;
        SAME(answer, four_starts[walked]);
        if (answer == at) return;
        at = answer;
        sum[0] += passed;
        sum[1] += dropped;
        sum[2] += cut;
    }
    SAME(sum[0], FOUR_PASSED);
    SAME(sum[1], FOUR_DROPPED);
    SAME(sum[2], FOUR_CUT);
}

static void counts_parts(void)
{
    for (big = 0; big < 2; big++) {
        four(NANO, ETHERNET_TYPE);
        for (uint64_t most = 1; most < 6; most++) adds_up(most);
        adds_up(UINT64_MAX);
        /* no records are wanted, or none are left */
        SAME(part(bytes, ip, IP_SHEET, BROMAVELUTH_PLAIN, four_starts[1], 0), 0);
        SAME(answer, four_starts[1]);
        counts(__LINE__, 0, 0, 0);
        SAME(part(bytes, ip, IP_SHEET, BROMAVELUTH_PLAIN, bytes, 7), 0);
        SAME(answer, bytes);
        counts(__LINE__, 0, 0, 0);
        compiled(__LINE__);
        /* a fault is told by the part that meets it; a part before it counts */
        add_header(MOST + 1, 0);
        SAME(part(bytes, ip, IP_SHEET, BROMAVELUTH_PLAIN, HEADER, 4), 0);
        SAME(answer, four_starts[4]);
        counts(__LINE__, FOUR_PASSED, FOUR_DROPPED, FOUR_CUT);
        SAME(part(bytes, ip, IP_SHEET, BROMAVELUTH_PLAIN, HEADER, 5), BROMAVELUTH_CAPTURED_LENGTH);
        SAME(answer, four_starts[4]);
        counts(__LINE__, 0, 0, 0);
        compiled(__LINE__);
        SAME(part(bytes - 1, ip, IP_SHEET, BROMAVELUTH_PLAIN, four_starts[4], 1), BROMAVELUTH_FILE_ENDS);
        SAME(answer, four_starts[4]);
        counts(__LINE__, 0, 0, 0);
        SAME(part(bytes - 1, ip, IP_SHEET, BROMAVELUTH_PLAIN, four_starts[4], 0), 0);
        /* the sheet can be refused before that fault is met: open tells what comes first */
        SAME(part(bytes, ip, IP_SHEET, 2, HEADER, UINT64_MAX), BROMAVELUTH_LINK_OR_MODE);
        SAME(answer, 0);
        counts(__LINE__, 0, 0, 0);
        untouched(__LINE__, 0, 0);
        SAME(opened(bytes), BROMAVELUTH_CAPTURED_LENGTH);
        SAME(answer, four_starts[4]);
    }
}

static void counts_nothing(void)
{
    answer = JUNK;
    SAME(bromaveluth_capture_open(NULL, 0, &answer), BROMAVELUTH_FILE_ENDS);
    SAME(answer, 0);
    passed = dropped = cut = answer = JUNK;
    SAME(bromaveluth_capture(NULL, 0, NULL, 0, 9, NULL, 0, NULL, 0, &passed, &dropped, &cut, &answer), BROMAVELUTH_FILE_ENDS);
    SAME(answer, 0);
    counts(__LINE__, 0, 0, 0);
    passed = dropped = cut = answer = JUNK;
    SAME(bromaveluth_capture_part(NULL, 0, NULL, 0, 9, NULL, 0, NULL, 0, 24, 1, &passed, &dropped, &cut, &answer), BROMAVELUTH_FILE_ENDS);
    SAME(answer, 0);
    counts(__LINE__, 0, 0, 0);
    big = 1;
    four(MICRO, ETHERNET_TYPE);
    SAME(bromaveluth_capture(file, bytes, NULL, 0, 0, NULL, 0, NULL, 0, &passed, &dropped, &cut, &answer), BROMAVELUTH_LENGTH);
    passed = dropped = cut = answer = JUNK;
    SAME(bromaveluth_capture(file, bytes, ip, IP_SHEET, 0, NULL, 0, NULL, 0, &passed, &dropped, &cut, &answer), BROMAVELUTH_OUTPUT);
    SAME(answer, 0);
    counts(__LINE__, 0, 0, 0);
}

void captures(void)
{
    source = "captures.c";
    opens();
    refuses_magic();
    refuses_link_types();
    refuses_ends();
    refuses_lengths();
    tells_cut();
    refuses_sheets();
    counts_parts();
    counts_from_anywhere();
    counts_nothing();
}
