#!/bin/sh
# dpdk.sh DIR: build dpdk.c against Debian's libdpdk-dev and compare the cases that cases.py wrote to DIR. Needs root (low addresses).
set -eu
dir=$(dirname "$0")
[ -e /usr/include/dpdk/rte_bpf.h ] || apt-get install -y --no-install-recommends libdpdk-dev pkg-config gcc libc6-dev
out=$(mktemp)
trap 'rm -f "$out"' EXIT
cc -O1 -Wall $(pkg-config --cflags libdpdk) -o "$out" "$dir/dpdk.c" $(pkg-config --libs libdpdk)
"$out" "$1/stdin" "$1/stdout"
