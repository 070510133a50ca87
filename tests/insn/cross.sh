#!/bin/sh
# cross.sh: assembles cross.s, the same instructions in LLVM's notation, and compares the bytes with those of GNU bpf-as.
set -eu
cd "$(dirname "$0")"
command -v llvm-mc-19 >/dev/null || apt-get install -y --no-install-recommends llvm-19
obj=$(mktemp)
raw=$(mktemp)
trap 'rm -f "$obj" "$raw"' EXIT
llvm-mc-19 -triple=bpfel -filetype=obj -o "$obj" cross.s
llvm-objcopy-19 -O binary -j .text "$obj" "$raw"
cmp "$raw" ../../crates/insn_forms/stdin
echo "42 instructions agree"
