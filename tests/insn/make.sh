#!/bin/sh
# make.sh: assembles forms.s with GNU bpf-as into the input of the program insn_forms, and writes what the program must print:
# for each instruction its number, its bytes twice (the assembler's and ours) and the word same.
set -eu
cd "$(dirname "$0")"
out=../../crates/insn_forms
command -v bpf-as >/dev/null || apt-get install -y --no-install-recommends binutils-bpf
obj=$(mktemp)
trap 'rm -f "$obj"' EXIT
bpf-as -EL -o "$obj" forms.s
bpf-objcopy -O binary -j .text "$obj" "$out/stdin"
[ "$(wc -c <"$out/stdin")" -eq 336 ] || { echo "not 42 instructions of 8 bytes" >&2; exit 1; }
od -An -v -tx1 -w8 "$out/stdin" | tr -d ' ' |
    awk '{ print NR - 1, $1, $1, "same" } END { print NR " instructions, " NR " the same" }' >"$out/stdout"
