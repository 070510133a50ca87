"""Document 02's A4 in plain Python: no recursion, the tokens from left to right and a stack of the parts to come, each wanted or denied."""

import os
import sys

sys.dont_write_bytecode = True
sys.path.insert(0, os.path.join(os.path.dirname(os.path.abspath(__file__)), '../../tools/differential'))
from generate import *      # noqa: document 01's codes and refusals, the sheet writer, tests and trees from a seed


def turned(tokens):
    """The tokens of the new tree."""
    out, to_come = bytearray(), [False]
    for t in tokens:
        denied = to_come.pop()
        if t == NOT:
            to_come.append(not denied)
        elif t == 0:
            out += b'\3\0' if denied else b'\0'
        else:
            out.append({AND: OR, OR: AND}[t] if denied else t)
            to_come += [denied, denied]
    return bytes(out)


def push(sheet, output):
    """(number, place), or (0, length, the new sheet): refusals 2 to 4, 9, 50, 7."""
    if sections(sheet) is None:
        return (2, 0)
    wrong = lowest_wrong_byte(sheet)
    if wrong is not None:
        return (3, wrong)
    start, tokens = sections(sheet)[2]
    if not one_whole_tree(tokens) or not all_used(sheet):
        return (4, 0)
    if depth(tokens) > 256:
        return (9, 0)
    new = turned(tokens)
    if len(new) > 65535:
        return (50, 0)
    made = sheet[:start - 2] + len(new).to_bytes(2, 'big') + new
    return (7, 0) if output < len(made) else (0, len(made), made)


def answer(sheet, output):
    """The line that `replay` prints for a case of tag N."""
    said = push(sheet, output)
    return b'%d %d\n' % said if said[0] else b'0 %d %s\n' % (said[1], said[2].hex().encode())


def nots_case(sheet, output):
    return b'N' + output.to_bytes(4, 'big') + len(sheet).to_bytes(4, 'big') + sheet


# ------------------------------------------------------------------------ sheets

def with_nots(dice, leaves, test):
    """A tree of so many tests, with Nots anywhere, also on top of each other."""
    if leaves == 1:
        tree = test()
    else:
        left = 1 + dice.below(leaves - 1)
        tree = (dice.pick(['and', 'or']), with_nots(dice, left, test), with_nots(dice, leaves - left, test))
    return nots(dice.pick([0, 0, 0, 1, 1, 2, 3]), tree)


def some_sheet(dice, link):
    """A random sheet, one in six of them damaged."""
    sheet = write(with_nots(dice, 1 + dice.below(12), lambda: any_test(dice, link)))
    return damaged(dice, sheet) if dice.one_in(6) else sheet


def some_output(dice, sheet):
    """Exactly enough, one too few, more, or none."""
    said = push(sheet, 1 << 20)
    enough = said[1] if said[0] == 0 else 0
    return dice.pick([enough, enough, enough, enough + dice.below(50), max(enough - 1, 0), 0])


def balanced(n):
    """The tokens of a tree of n tests, as shallow as can be."""
    return b'\0' if n == 1 else b'\1' + balanced(n // 2) + balanced(n - n // 2)


def many(denied):
    """21,846 tests, so many of them below one Not: the new tree needs 43,691 tokens and one more for each of those."""
    n = 21846
    return raw_sheet([], [protocol('ip')[0]] * n, b'\1\3' + balanced(denied) + balanced(n - denied))
