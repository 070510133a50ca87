/* What the calls of calls.c, captures.c and nots.c are compared with, and by what. */
#ifndef CHECKS_H
#define CHECKS_H

#include "bromaveluth.h"

/* Counts a comparison, and tells a difference in a line of `source`. */
extern const char *source;
void same(int line, const char *what, uint64_t got, uint64_t expected);
#define SAME(got, expected) same(__LINE__, #got, (got), (expected))

enum { ROOM = 256, FILL = 0xaa, IP_SHEET = 31, LISTING = 96 };
#define FILL_WORD 0xaaaaaaaau
#define JUNK 0x1122334455667788u

/* What is lent to a call; `lend` fills it. */
extern uint8_t output[ROOM];
extern uint32_t work[ROOM];
void lend(void);

/* From here on output and work are as they were lent. */
void untouched(int line, size_t bytes, size_t numbers);
/* The first numbers of work are zero. */
void zeroed_work(int line, size_t numbers);

/* The sheet `ip`: no steps, one primitive (kind 7, p 1), one token. */
extern const uint8_t ip[IP_SHEET];
/* Its program on Ethernet in plain mode: document 01, K2. */
extern const uint8_t listing[LISTING];
/* An Ethernet frame of IPv4, and one of ARP. */
extern const uint8_t ip_frame[60], arp_frame[60];

/* Captures: captures.c. */
void captures(void);
/* Nots pushed down: nots.c. */
void nots(void);

#endif
