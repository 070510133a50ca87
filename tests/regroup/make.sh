#!/bin/sh
# make.sh [FOLDER]: makes the stored pairs and has the oracle answer them; FOLDER holds pktbaffle/src, as for tools/differential.
set -eu
cd "$(dirname "$0")"
oracle=$(../../tools/differential/build "$@")
python3 cases.py write .
"$oracle" cases <stdin >stdout
python3 cases.py check .
