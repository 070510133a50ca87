#!/usr/bin/env python3
"""cases.py write DIR: writes the fixed cases of tag C to DIR/stdin and the two at the jump's limit to DIR/limits.stdin.
cases.py check DIR: holds the answers in DIR/stdout and DIR/limits.stdout to what document 01 and tests/sheet/model.py say."""

import os
import sys

sys.dont_write_bytecode = True
here = os.path.dirname(os.path.abspath(__file__))
sys.path.insert(0, os.path.join(here, '../../tools/differential'))
from generate import *
import compare

PLAIN, MENDED = 0, 1

K1 = K2 = write(IP)
K5 = write(host4('either', A))
with open(os.path.join(here, '../../crates/listing/stdout')) as file:
    K2_LISTING = file.read()        # document 01's text, which the program listing is held to


def fit(link, mode, tree):
    sheet = tree if isinstance(tree, bytes) else write(tree)
    return (link, mode, *enough(link, sheet), sheet)


def worked():
    """(case, its whole answer or its first line)."""
    yield fit(ETHERNET, PLAIN, K2), K2_LISTING
    yield fit(RAWIP, PLAIN, K1), '0 6\n'
    yield fit(ETHERNET, PLAIN, K5), '0 24\n'
    yield (ETHERNET, PLAIN, 65536, 16384, K2), K2_LISTING


def limits():
    """RawIp raw access of one byte, compared for equality, with 32,763 and 32,764 add steps."""
    for steps, line in ((32763, '0 32774\n'), (32764, '10 0\n')):
        yield fit(RAWIP, PLAIN, long_one(steps + 5)), line


def jumps():
    """Each place where a jump can be too long, met first, on small sheets; just below only if a refused test ends the answer."""
    seen = {}
    for make in (long_and, long_or):
        for shape in SHAPES:
            n = limit(lambda n: shape(make(n)), ETHERNET, 33200)
            for m in (32700,) if n is None else (n - 1, n):
                sheet = write(shape(make(m)))
                event, where = first_event(*content(sheet), ETHERNET)
                seen[where] = seen.get(where, 0) + 1
                if event[0] and seen[where] <= (9 if where else 12):
                    yield fit(ETHERNET, PLAIN, sheet)


def fixed():
    yield from (c for c, _ in worked())
    for i, tree in enumerate(ALL_TESTS):
        yield fit(ETHERNET, PLAIN, tree)
        yield fit(RAWIP, PLAIN, tree)
        if i % 4 == 0:
            yield fit(i // 4 % 2, MENDED, tree)
    for tree in ALL_LIMITS[::3]:
        yield fit(ETHERNET, PLAIN, tree)
    for i, tree in enumerate(ALL_LIMITS[1::7]):
        yield fit(RAWIP, i % 2, tree)
    for i, n in enumerate(WORDS):
        for j, tree in enumerate(with_word(n)):
            if (i + j) % 4 == 0:
                yield fit(RAWIP if i % 2 else ETHERNET, (i + j) // 4 % 2, tree)
    for prefix in range(0, 256, 5):
        yield fit(ETHERNET, PLAIN, net6(DIRECTIONS[prefix % 4], SIX, prefix))
    for link, mode in ((3, 0), (0, 2), (255, 255)):
        yield (link, mode, 4096, 4096, K2)
    for n in (0, 1, 2, 3, 4, 5, 27, 28, 29, 30, 32):
        yield (ETHERNET, PLAIN, 96, 20, (K2 + b'\0')[:n])
    for link in (ETHERNET, RAWIP):
        for tree in (IP, E4, no(PR), either(IN, IP), both(E6, nots(3, IP))):
            sheet = write(tree)
            output, work = enough(link, sheet)
            yield from ((link, PLAIN, output - 1, work, sheet), (link, PLAIN, 0, 0, sheet), (link, MENDED, output, work - 1, sheet),
                        (link, PLAIN, output + 1, work + 1, sheet), (link, MENDED, MOST, MOST, sheet))
    for i, tree in enumerate(every_chain()):
        sheet = write(tree)
        if length(sheet, ETHERNET) < 300:
            yield fit(i % 2, PLAIN, sheet)
    yield from jumps()
    dice = Dice(2068)
    for i in range(390):
        link, mode = dice.below(2), PLAIN if dice.below(4) else MENDED
        sheet = write(any_tree(dice, 1 + dice.below(5), lambda: any_test(dice, link)))
        if i % 3 == 0:
            sheet = damaged(dice, sheet)
        yield (link, mode, *some_room(dice, link, mode, sheet), sheet)
    yield from cooked(dice)


def cooked(dice):
    """Link 2: every test, and trees of them."""
    for i, tree in enumerate(ALL_TESTS):
        yield fit(COOKED, i % 2, tree)
    for i in range(60):
        sheet = write(any_tree(dice, 2 + dice.below(5), lambda: any_test(dice, COOKED)))
        yield (COOKED, i % 2, *some_room(dice, COOKED, i % 2, sheet), sheet)


def write_cases(folder):
    counts = Counts()
    with open(os.path.join(folder, 'stdin'), 'wb') as f:
        for c in fixed():
            f.write(case(*c))
            counts.add(c)
    with open(os.path.join(folder, 'limits.stdin'), 'wb') as f:
        f.write(b''.join(case(*c) for c, _ in limits()))
    counts.tell(sys.stdout)


def check_answers(folder):
    def answers(name):
        return [b''.join(x).decode() for x in compare.answers(os.path.join(folder, name))]
    got = answers('stdout')
    cases = list(fixed())
    assert len(got) == len(cases), 'as many answers as cases'
    for i, (c, answer) in enumerate(zip(cases, got)):
        first_line = '%d %d\n' % expected(*c)[0][:2]
        assert answer.startswith(first_line), (i, 'model', first_line, 'answer', answer[:60])
    for (c, want), answer in list(zip(worked(), got)) + list(zip(limits(), answers('limits.stdout'))):
        assert answer == want or want.count('\n') == 1 and answer.startswith(want), (want, answer[:60])
    modes = [sum(1 for c, a in zip(cases, got) if a.startswith('0 ') and c[1] == mode) for mode in (PLAIN, MENDED)]
    print('%d answers checked: %d plain programs, %d mended' % (len(got), *modes))


if __name__ == '__main__':
    if len(sys.argv) != 3 or sys.argv[1] not in ('write', 'check'):
        sys.exit('usage: cases.py write DIR | cases.py check DIR')
    (write_cases if sys.argv[1] == 'write' else check_answers)(sys.argv[2])
