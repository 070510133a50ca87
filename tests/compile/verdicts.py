#!/usr/bin/env python3
"""verdicts.py ORACLE: runs the oracle's programs, by the model of the machine, on the frames of tests/sheet and holds the
verdicts to the answers there.  So a sheet that the oracle reads wrongly shows, though its program has the right length."""

import os
import subprocess
import sys
import tempfile

sys.dont_write_bytecode = True
here = os.path.dirname(os.path.abspath(__file__))
sys.path[:0] = [os.path.join(here, '../machine'), os.path.join(here, '../../tools/differential')]
from cases import run as machine        # of tests/machine; first, for there are others of that name
import generate
import compare


def evaluator_cases(folder):
    """(link, sheet, frame, answer) of each E case."""
    subprocess.run([sys.executable, os.path.join(here, '../sheet/cases.py'), folder], check=True, stdout=subprocess.DEVNULL,
                   env={**os.environ, 'PYTHONDONTWRITEBYTECODE': '1'})
    with open(os.path.join(folder, 'stdin'), 'rb') as f, open(os.path.join(folder, 'stdout')) as g:
        for line in g:
            tag = f.read(1)
            head = f.read({b'S': 2, b'A': 18, b'E': 1}[tag])
            sheet = f.read(int.from_bytes(f.read(4), 'big'))
            if tag == b'E':
                yield head[0], sheet, f.read(int.from_bytes(f.read(4), 'big')), line


def constants_are_low(sheet):
    """No comparison constant of 2^31 or more, where plain mode is not the meaning."""
    for r, _ in generate.content(sheet)[0]:
        n, a, kind = generate.number(r[4:8]), generate.number(r[8:12]), generate.KINDS[r[0]]
        constant = {'host4': n, 'net': n & a, 'etherhost': a, 'mpls': n, 'ipbroadcast': 2 ** 32 - 1,
                    'ipmulticast': 2 ** 31}.get(kind, 0)
        if kind in ('len', 'byteaccess') and generate.COMPARISONS[r[2]] != 'bitand':
            constant = n if kind == 'len' else a
        if constant >= 2 ** 31:
            return False
    return True


def main(oracle):
    with tempfile.TemporaryDirectory() as folder:
        cases = [c for c in evaluator_cases(folder) if c[3].startswith('0 ')]
        stream, out = os.path.join(folder, 'stream'), os.path.join(folder, 'out')
        cases = [(mode, *c) for mode in (0, 1) for c in cases if mode == 1 or constants_are_low(c[1])]
        with open(stream, 'wb') as f:
            for mode, link, sheet, *_ in cases:
                f.write(generate.case(link, mode, generate.MOST, generate.MOST, sheet))
        with open(stream, 'rb') as f, open(out, 'wb') as g:
            subprocess.run([oracle, 'cases'], stdin=f, stdout=g, check=True)
        same = [0, 0]
        for (mode, link, sheet, frame, line), answer in zip(cases, compare.answers(out), strict=True):
            program = bytes.fromhex(b''.join(answer[1:]).decode())
            stop, r0, _ = machine(program, frame, 0x1000, 10 ** 6, [])
            want = 2 if line == '0 1\n' else 1
            assert (stop, r0) == (0, want), (mode, link, sheet.hex(), frame.hex(), 'wanted', want, 'stop and R0', stop, r0)
            same[mode] += 1
        print('verdicts the same: %d of plain programs, %d of mended ones' % tuple(same))


if __name__ == '__main__':
    if len(sys.argv) != 2:
        sys.exit('usage: verdicts.py ORACLE')
    main(sys.argv[1])
