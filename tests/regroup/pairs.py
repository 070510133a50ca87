"""Sheets as document 02's A7 pairs them: the same tests with other brackets, or with one double Not more."""

import os
import sys

sys.dont_write_bytecode = True
sys.path.insert(0, os.path.join(os.path.dirname(os.path.realpath(__file__)), '../../tools/differential'))
from generate import *      # noqa: document 01's codes, the sheet writer, tests and trees from a seed

sys.setrecursionlimit(20000)


def is_test(tree):
    return isinstance(tree[0], bytes)


# ------------------------------------------------------------------ other brackets

def operands(tree, join):
    """What a chain of one join holds, from left to right, however it is bracketed."""
    out, to_come = [], [tree]
    while to_come:
        node = to_come.pop()
        if node[0] == join:
            to_come += [node[2], node[1]]
        else:
            out.append(node)
    return out


def bracketed(dice, items, join):
    """The same chain, its brackets anywhere."""
    items = list(items)
    while len(items) > 1:
        i = dice.below(len(items) - 1)
        items[i:i + 2] = [(join, items[i], items[i + 1])]
    return items[0]


def rebracketed(dice, tree):
    """Every chain of the tree with brackets of its own."""
    if is_test(tree):
        return tree
    if tree[0] == 'not':
        return no(rebracketed(dice, tree[1]))
    return bracketed(dice, [rebracketed(dice, x) for x in operands(tree, tree[0])], tree[0])


def has_chain(tree):
    """Whether brackets can stand otherwise: three operands under one join, somewhere."""
    to_come = [tree]
    while to_come:
        node = to_come.pop()
        if not is_test(node):
            if node[0] != 'not' and any(x[0] == node[0] for x in node[1:]):
                return True
            to_come += node[1:]
    return False


# ---------------------------------------------------------------------- double Not

def places(tree):
    return 1 + sum(places(x) for x in tree[1:]) if not is_test(tree) else 1


def negated(tree, at, times):
    """So many Nots more above place `at`, the root being 0."""
    if at == 0:
        return nots(times, tree)
    out, at = [tree[0]], at - 1
    for x in tree[1:]:
        n = places(x)
        out.append(negated(x, at, times) if 0 <= at < n else x)
        at -= n
    return tuple(out)


# ------------------------------------------------------------------------- filters

def any_chains(dice, leaves, join, test):
    """Chains in chains: And and Or in turn, some under Not, with about so many tests."""
    if leaves <= 1:
        return no(test()) if dice.one_in(5) else test()
    parts, left = [], leaves
    while left > 0:
        n = min(left, 1 if dice.below(3) else 1 + dice.below(left))
        parts.append(n)
        left -= n
    other = {'and': 'or', 'or': 'and'}[join]
    tree = bracketed(dice, [any_chains(dice, n if n < leaves else n - 1, other, test) for n in parts], join)
    return no(tree) if dice.one_in(6) else tree


def any_filter(dice, link):
    """A tree with a chain to be bracketed otherwise."""
    while True:
        family = dice.below(100)
        if family < 70:
            tree = any_chains(dice, 3 + dice.below(8), dice.pick(['and', 'or']), lambda: any_test(dice, link))
        elif family < 85:
            tree = any_tree(dice, 3 + dice.below(9), lambda: any_test(dice, link))
        elif family < 94:
            tree = joined([any_test(dice, link) for _ in range(3 + dice.below(50))], dice.pick(['and', 'or']), dice.below(2))
        elif link == ETHERNET:                          # near a jump's limit: 10, or just not
            shape, make = dice.pick(SHAPES), dice.pick([long_and, long_or])
            n = limit(lambda n: shape(make(n)), link, 33200)
            tree = shape(make(32700 + dice.below(100) if n is None else n + dice.pick([-2, -1, 0, 1])))
        else:
            continue
        if has_chain(tree):
            return tree


def any_front(dice, sheet):
    """Steps and primitives of a sheet; rarely one byte of them is changed or a record is too many, so that 3 to 6 are met."""
    (s0, steps), (p0, primitives), _ = sections(sheet)
    steps, primitives = steps_of(steps), records(primitives, 24)
    way = dice.below(40)
    if way == 0:
        i = dice.below(len(primitives))
        primitives[i] = put(primitives[i], dice.below(24), bytes([dice.pick([1, 3, 24, 128, 255])]))
    elif way == 1:
        primitives = primitives + [IP[0]] if dice.below(2) else primitives[:-1]
    elif way == 2:
        steps = steps + [(dice.below(11), dice.word())]
    elif way == 3:
        i = dice.below(len(primitives))
        primitives[i], more = access('raw', 1, dice.pick([-1, 32768]), 'eq', 0)
    elif way == 4 and steps:
        steps[dice.below(len(steps))] = (STEPS.index('shl'), 32 + dice.below(9))
    return steps, primitives


def on_front(front, tree):
    """The sheet with these steps and primitives, and the tokens of a tree."""
    return raw_sheet(*front, flat(tree)[1])


def any_three(dice, link, wrong=''):
    """A sheet, the same with other brackets, the same with one double Not more. `wrong` spoils one of the pairs on purpose."""
    tree = any_filter(dice, link)
    front = any_front(dice, write(tree))
    other = mixed(tree) if wrong == 'mixed' else tree
    while wrong != 'mixed' and flat(other)[1] == flat(tree)[1]:
        other = rebracketed(dice, tree)
    at = dice.below(places(tree))
    twice = negated(tree, at, 1 if wrong in ('single', 'apart') else 2)
    if wrong == 'apart':                                # two more instructions, and another meaning
        twice = negated(twice, dice.pick([i for i in range(places(twice)) if i not in (at, at + 1)]), 1)
    return on_front(front, tree), on_front(front, other), on_front(front, twice)


def mixed(tree):
    """(a and b) or c as a and (b or c), and so on at the first such place from the root; else the tree itself."""
    if is_test(tree):
        return tree
    if tree[0] == 'not':
        return no(mixed(tree[1]))
    join, x, y = tree
    if not is_test(x) and x[0] != 'not' and x[0] != join:
        return (x[0], x[1], (join, x[2], y))
    changed = mixed(x)
    return (join, changed, y) if changed != x else (join, x, mixed(y))


def some_frame(dice, link):
    """A frame that many tests look into: types, protocols, addresses and ports that sheets of a seed ask for."""
    frame = bytes([0x45 + dice.below(2)]) + dice.bytes(8) + bytes([dice.pick([6, 17, 132, 1, 2, dice.below(256)])]) + dice.bytes(2)
    frame += b''.join(dice.pick(WORDS).to_bytes(4, 'big') for _ in range(2))
    frame += b''.join(dice.pick(HALVES).to_bytes(2, 'big') for _ in range(2)) + dice.bytes(dice.below(40))
    if link == ETHERNET:
        frame = dice.pick([MAC, MAC2, bytes(6)]) + MAC2 + dice.pick(TYPES + [0x0800] * 9).to_bytes(2, 'big') + frame
    return frame[:dice.below(len(frame))] if dice.one_in(6) else frame
