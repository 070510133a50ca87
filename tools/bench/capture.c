/* capture SHEET FILE: maps a capture, runs bromaveluth_capture over it once in mended mode, and prints how many frames passed.
 * capture steps SHEET FILE: the steps of the filter's program on all records, as bromaveluth_run counts them (little-endian files, none cut). */
#include "bromaveluth.h"

#include <fcntl.h>
#include <inttypes.h>
#include <stdio.h>
#include <stdlib.h>
#include <string.h>
#include <sys/mman.h>
#include <sys/stat.h>

static uint8_t output[1 << 16];
static uint32_t work[1 << 14];
#define LENT output, sizeof output, work, sizeof work / sizeof *work

struct bytes {
    const uint8_t *at;
    size_t n;
};

static struct bytes mapped(const char *path)
{
    struct stat s;
    int fd = open(path, O_RDONLY);
    if (fd < 0 || fstat(fd, &s)) {
        perror(path);
        exit(2);
    }
    void *at = mmap(NULL, (size_t)s.st_size, PROT_READ, MAP_PRIVATE, fd, 0);
    if (at == MAP_FAILED) {
        perror(path);
        exit(2);
    }
    return (struct bytes){at, (size_t)s.st_size};
}

static uint64_t steps_of(struct bytes file, uint64_t length)
{
    uint64_t all = 0, r0, steps;
    uint32_t captured;
    for (size_t at = 24; at < file.n; at += 16 + captured) {
        memcpy(&captured, file.at + at + 8, 4);
        if (bromaveluth_run(output, 8 * length, file.at + at + 16, captured, 0x1000, length, &r0, &steps)) exit(1);
        all += steps;
    }
    return all;
}

int main(int n, char **words)
{
    int steps = n == 4 && !strcmp(words[1], "steps");
    if (n != 3 + steps) {
        fputs("usage: capture [steps] SHEET FILE\n", stderr);
        return 2;
    }
    struct bytes sheet = mapped(words[1 + steps]), file = mapped(words[2 + steps]);
    uint64_t passed, dropped, cut, answer;
    if (steps) {
        if (bromaveluth_compile(sheet.at, sheet.n, BROMAVELUTH_ETHERNET, BROMAVELUTH_MENDED, LENT, &answer)) return 1;
        printf("%" PRIu64 "\n", steps_of(file, answer));
        return 0;
    }
    if (bromaveluth_capture(file.at, file.n, sheet.at, sheet.n, BROMAVELUTH_MENDED, LENT, &passed, &dropped, &cut, &answer)) return 1;
    printf("%" PRIu64 "\n", passed);
    return 0;
}
