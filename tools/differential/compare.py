#!/usr/bin/env python3
"""usage: compare.py STREAM ORACLE OURS EXPECTED FIRST

Holds our answers to the oracle's, line by line, and the first line of each answer to what the model expects.  Writes the first
differing case to FIRST; ends with 1 if there is one."""

import os
import sys

sys.dont_write_bytecode = True
sys.path.insert(0, os.path.join(os.path.dirname(os.path.realpath(__file__)), '..'))
import hand


def cases(path):
    """The cases of a stream of tag C, as bytes."""
    with open(path, 'rb') as f:
        while head := f.read(15):
            yield head + f.read(int.from_bytes(head[11:15], 'big'))


def answers(path):
    """A file of listings, cut into one answer after the other: its first line says how many lines follow."""
    with open(path, 'rb') as f:
        while line := f.readline():
            numbers = line.split()
            more = 0
            if len(numbers) == 2 and all(x.isdigit() for x in numbers):
                number, count = map(int, numbers)
                more = count if number == 0 else number in range(10, 20) and number != 12
            yield [line] + [f.readline() for _ in range(more)]


def main(stream, oracle, ours, expected, first):
    same, different, lines, by_refusal = 0, 0, 0, {}
    modes = [0, 0]
    ours = answers(ours)
    with open(expected, 'rb') as f:
        models = f.read().splitlines(keepends=True)
    theirs = answers(oracle)
    i = -1
    for i, c in enumerate(cases(stream)):
        want, got = next(theirs, []), next(ours, [])
        model = models[i] if i < len(models) else b''
        if want and want == got and want[0] == model:
            same += 1
            lines += len(want)
            number = int(want[0].split()[0])
            by_refusal[number] = by_refusal.get(number, 0) + 1
            if number == 0:
                modes[c[2]] += 1
            continue
        different += 1
        if different == 1:
            with open(first, 'wb') as f:
                f.write(c)
            print('first difference: case %d (from 0), link %d, mode %d, %d bytes of sheet; written to %s'
                  % (i, c[1], c[2], len(c) - 15, first))
            at = next((k for k, (a, b) in enumerate(zip(want, got)) if a != b), min(len(want), len(got)))
            for name, text in (('oracle', want[at:at + 1]), ('ours', got[at:at + 1])):
                print('  line %d, %s: %s' % (at + 1, name, text[0].decode(errors='replace').strip() if text else 'none'))
            print('  line 1, model: %s' % model.decode().strip())
    extra = sum(1 for _ in ours) + sum(1 for _ in theirs) + max(0, len(models) - i - 1)
    print('%d cases the same, %d lines; %d different; %d answers too many' % (same, lines, different, extra))
    print('the same, by refusal: ' + ', '.join('%s %d' % (n or 'accepted', by_refusal[n]) for n in sorted(by_refusal)))
    print('programs the same: %d plain, %d mended' % tuple(modes))
    return 1 if different or extra or same == 0 else 0


def begun(words):
    if len(words) != 5:
        raise hand.Wrong('five files are compared')
    return main(*words)


if __name__ == '__main__':
    hand.run('compare.py', __doc__, begun)
