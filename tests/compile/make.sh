#!/bin/sh
# make.sh [FOLDER]: makes the stored cases and has the oracle answer them; FOLDER holds pktbaffle/src, as for tools/differential.
set -eu
cd "$(dirname "$0")"
oracle=$(../../tools/differential/build "$@")
python3 cases.py write .
"$oracle" cases <stdin >stdout
"$oracle" cases <limits.stdin >limits.stdout
python3 cases.py check .
