#!/usr/bin/env python3
"""usage: tests/nots/cases.py FOLDER

Writes FOLDER/stdin and FOLDER/stdout: cases of tag N for the program `replay`, and the model's answers. Always the same bytes.
"""

import os
import sys

sys.dont_write_bytecode = True
from pushed import *

IP = protocol('ip')


def by_hand():
    """Each operator below a Not, Nots on top of each other, depth 256 and 257, and the limit of tokens from both sides."""
    a, b, c = IP, protocol('tcp'), port('source', 80)
    trees = [a, no(a), nots(2, a), nots(3, a), no(both(a, b)), no(either(a, b)), no(both(no(a), either(b, no(c)))),
             either(no(no(both(a, b))), no(c)), nots(255, a), nots(256, a), nots(254, both(a, b)), nots(255, both(a, b))]
    for tree in trees:
        sheet = write(tree)
        said = push(sheet, 1 << 20)
        room = said[1] if said[0] == 0 else 100
        yield from ((sheet, room), (sheet, room + 7), (sheet, room - 1), (sheet, 0))
    yield b'', 100
    yield raw_sheet([], [], b''), 100
    yield write(no(access('net', 4, 0, 'eq', 5, [('add', 3), ('div', 0)]))), 100       # earns 18, which is not looked for
    yield write(no(access('raw', 1, 2 ** 31, 'eq', 5))), 100                           # 5 neither
    yield from ((many(n), 0) for n in (21844, 21845))


def main(folder):
    os.makedirs(folder, exist_ok=True)
    dice = Dice(4)
    cases = list(by_hand())
    for _ in range(200):
        sheet = some_sheet(dice, dice.below(2))
        cases.append((sheet, some_output(dice, sheet)))
    with open(os.path.join(folder, 'stdin'), 'wb') as stdin, open(os.path.join(folder, 'stdout'), 'wb') as stdout:
        for sheet, output in cases:
            stdin.write(nots_case(sheet, output))
            stdout.write(answer(sheet, output))


if __name__ == '__main__':
    if len(sys.argv) != 2:
        sys.exit(__doc__.rstrip())
    main(sys.argv[1])
