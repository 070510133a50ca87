/* Runs the cases that end with exit in DPDK's BPF interpreter and compares R0.
 * usage: dpdk STDIN STDOUT
 * The frame is mapped at the case's own start; the context is the two words {start, end}.
 * A program that DPDK's loader refuses (it checks more than it runs) goes to the interpreter
 * directly, in a handle made here: the interpreter reads only prm.ins, the handle's first member. */
#include <rte_bpf.h>
#include <rte_log.h>
#include <err.h>
#include <inttypes.h>
#include <stdio.h>
#include <stdlib.h>
#include <string.h>
#include <sys/mman.h>

struct handle { struct rte_bpf_prm prm; char rest[64]; };

static void take(FILE *f, void *to, size_t n)
{
	if (fread(to, 1, n, f) != n)
		errx(1, "cases cut short");
}

static uint64_t number(FILE *f, int n)
{
	uint64_t v = 0;
	unsigned char c;
	while (n--) {
		take(f, &c, 1);
		v = v << 8 | c;
	}
	return v;
}

int main(int argc, char **argv)
{
	FILE *in = argc == 3 ? fopen(argv[1], "rb") : NULL;
	FILE *want = argc == 3 ? fopen(argv[2], "r") : NULL;
	static struct ebpf_insn ins[65536];
	static unsigned char frame[65536];
	unsigned cases = 0, stopped = 0, class6 = 0, loaded = 0, direct = 0, agreed = 0, loads = 0, ran[256] = {0};
	int c;

	if (!in || !want)
		errx(2, "usage: dpdk STDIN STDOUT");
	rte_log_set_global_level(RTE_LOG_EMERG);
	for (; (c = fgetc(in)) != EOF; cases++) {
		if (c != 'M')
			errx(1, "case %u: no mark", cases);
		uint64_t len = number(in, 4);
		if (len > sizeof ins)
			errx(1, "case %u: program too long", cases);
		take(in, ins, len);
		uint64_t flen = number(in, 4);
		if (flen > sizeof frame)
			errx(1, "case %u: frame too long", cases);
		take(in, frame, flen);
		uint64_t start = number(in, 8), r0, steps;
		int stop, no = 0, has_load = 0;
		number(in, 4);
		if (fscanf(want, "%d %" SCNu64 " %" SCNu64, &stop, &r0, &steps) != 3)
			errx(1, "answers cut short");
		if (stop != 0) {
			stopped++;
			continue;
		}
		for (uint64_t k = 0; k < len / 8; k++) {
			no |= (ins[k].code & 7) == 6;
			has_load |= (ins[k].code & 7) == 1 && ins[k].src_reg != 1;
		}
		if (no) {	/* this DPDK has no JMP32 */
			class6++;
			continue;
		}
		uint64_t page = start & ~4095ull, span = start + flen - page;
		void *at = NULL;
		if (flen) {
			at = mmap((void *)page, span, PROT_READ | PROT_WRITE,
				MAP_PRIVATE | MAP_ANONYMOUS | MAP_FIXED_NOREPLACE, -1, 0);
			if (at != (void *)page)
				err(1, "case %u: no memory at %#" PRIx64, cases, start);
			memcpy((void *)start, frame, flen);
		}
		uint32_t ctx[2] = {start, start + flen};
		struct handle own = {.prm = {.ins = ins, .nb_ins = len / 8,
			.prog_arg = {.type = RTE_BPF_ARG_PTR, .size = sizeof ctx}}};
		struct rte_bpf *bpf = rte_bpf_load(&own.prm);
		uint64_t got = rte_bpf_exec(bpf ? bpf : (struct rte_bpf *)&own, ctx);
		*(bpf ? &loaded : &direct) += 1;
		rte_bpf_destroy(bpf);
		if (flen)
			munmap(at, span);
		loads += has_load;
		agreed += got == r0;
		for (uint64_t k = 0; k < len / 8; k++)
			ran[ins[k].code]++;
		if (got != r0)
			printf("case %u: DPDK %" PRIu64 ", stored %" PRIu64 "\n", cases, got, r0);
	}
	unsigned forms = 0;
	for (c = 0; c < 256; c++)
		forms += ran[c] != 0;
	printf("%u cases: %u not ended by exit, %u with JMP32 left out; compared %u "
		"(%u past DPDK's loader, %u directly; %u with frame loads; %u opcodes), agreed %u\n",
		cases, stopped, class6, loaded + direct, loaded, direct, loads, forms, agreed);
	return agreed != loaded + direct;
}
