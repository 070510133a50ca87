#!/bin/sh
# replay.sh: makes the cases of the program replay and their answers: the machine's, the sheet's, the evaluator's, the listing's, the
# captures' and those of Nots pushed down, then the compiler's, which are stored in compile/ and, in pairs, in regroup/.
set -eu
cd "$(dirname "$0")"
work=$(mktemp -d)
trap 'rm -rf "$work"' EXIT
python3 machine/cases.py "$work/machine"
python3 sheet/cases.py "$work/sheet"
mkdir "$work/listing"
python3 listing/cases.py "$work/listing"
python3 captures/cases.py "$work/captures"
python3 nots/cases.py "$work/nots"
cat "$work/machine/stdin" "$work/sheet/stdin" "$work/listing/stdin" "$work/captures/stdin" "$work/nots/stdin" compile/stdin compile/limits.stdin regroup/stdin >../crates/replay/stdin
cat "$work/machine/stdout" "$work/sheet/stdout" "$work/listing/stdout" "$work/captures/stdout" "$work/nots/stdout" compile/stdout compile/limits.stdout regroup/stdout >../crates/replay/stdout
