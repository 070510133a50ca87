#!/usr/bin/env python3
"""cases.py write DIR: writes the stored pairs to DIR/stdin, as cases of tag C, the two of a pair one behind the other.
cases.py check DIR: the answers in DIR/stdout are what document 02's A7 says of each pair."""

import os
import sys

sys.dont_write_bytecode = True
from pairs import *
import compare

REGROUPED, DOUBLED, LONGEST = 32, 8, 420                # pairs of each sort, and the most bytes of a sheet


def stored():
    """(whether a double Not, first case, second case); few of each refusal, so that many are met."""
    dice, met, left = Dice(17), {}, [REGROUPED, DOUBLED]
    while any(left):
        link, mode = dice.below(2), dice.below(2)
        sheet, other, twice = any_three(dice, link)
        if len(twice) > LONGEST:
            continue
        room = some_room(dice, link, mode, sheet)
        number = expected(link, mode, *room, sheet)[0][0]
        if left[0] and met.get(number, 0) < (12 if number == 0 else 2 if number > 6 else 1):
            met[number] = met.get(number, 0) + 1
            left[0] -= 1
            yield False, (link, mode, *room, sheet), (link, mode, *room, other)
        room = enough(link, twice)
        if left[1] and expected(link, mode, *room, sheet)[0][0] == expected(link, mode, *room, twice)[0][0] == 0:
            left[1] -= 1
            yield True, (link, mode, *room, sheet), (link, mode, *room, twice)


def write_cases(folder):
    counts = Counts()
    with open(os.path.join(folder, 'stdin'), 'wb') as file:
        for _, *pair in stored():
            for c in pair:
                file.write(case(*c))
                counts.add(c)
    counts.tell(sys.stdout)


def check_answers(folder):
    answers = list(compare.answers(os.path.join(folder, 'stdout')))
    pairs = list(stored())
    assert len(answers) == 2 * len(pairs), 'as many answers as cases'
    for i, (doubled, *_) in enumerate(pairs):
        one, two = answers[2 * i:2 * i + 2]
        if doubled:
            assert one[0][:2] == two[0][:2] == b'0 ' and len(two) == len(one) + 2, (i, 'two more instructions', one[0], two[0])
        else:
            assert one == two, (i, 'the same answer', one[0], two[0])
    print('%d pairs checked' % len(pairs))


if __name__ == '__main__':
    if len(sys.argv) != 3 or sys.argv[1] not in ('write', 'check'):
        sys.exit('usage: cases.py write DIR | cases.py check DIR')
    (write_cases if sys.argv[1] == 'write' else check_answers)(sys.argv[2])
