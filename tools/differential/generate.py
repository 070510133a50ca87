#!/usr/bin/env python3
"""usage: generate.py SEED COUNT [EXPECTED] > STREAM

Writes COUNT cases of tag C to standard output, the same for the same seed.

First every kind, limit and shape in turn, then random trees, damaged copies and lent places too small.  Counts by refusal
and kind go to standard error.  EXPECTED gets the first line each answer must have, from tests/sheet/model.py and, for
refusal 10, from the walk below.
"""

import os
import sys

sys.dont_write_bytecode = True
HERE = os.path.dirname(os.path.realpath(__file__))
sys.path[:0] = [os.path.join(HERE, '../../tests/sheet'), os.path.join(HERE, '..')]
import hand
from model import *         # noqa: the names of document 01's codes, the sheet writer, refusals 1 to 8 and 11 to 19, L

MOST = 2 ** 20              # output bytes and work numbers of one case, at most


class Dice:
    """Numbers from a seed (xorshift64*), the same under every Python."""
    def __init__(self, seed):
        self.x = (seed * 0x9e3779b97f4a7c15 + 0x1234567) % 2 ** 64 or 1

    def word(self):
        self.x ^= self.x >> 12
        self.x = (self.x ^ self.x << 25) % 2 ** 64
        self.x ^= self.x >> 27
        return self.x * 0x2545f4914f6cdd1d % 2 ** 64 >> 32

    def below(self, n):
        return self.word() % n

    def pick(self, items):
        return items[self.below(len(items))]

    def one_in(self, n):
        return self.below(n) == 0

    def bytes(self, n):
        return bytes(self.below(256) for _ in range(n))


# ------------------------------------------------------------- what must come

def open_jumps(r, steps, link):
    """A primitive's instructions, and where the first jump on success and on failure that it leaves open stands in them."""
    n = instructions(r, steps, link)
    kind, p = KINDS[r[0]], r[2]
    failure = None if n == 0 else 3 if kind == 'len' and COMPARISONS[p] == 'bitand' else 2
    success = None
    if kind in HAS_DIRECTION and DIRECTIONS[r[1]] == 'either':
        ip = 0 if TYPE[link] is None else 6
        success = {'host4': lambda: ip + 5, 'net': lambda: ip + 6,      # jeq after the first word
                   'host6': lambda: 6 + 48, 'net6': lambda: 6 + net6_halves(p), 'etherhost': lambda: 12,    # ja
                   'port': lambda: port_prereqs(p, link) + 2,
                   'portrange': lambda: port_prereqs(p, link) + 4}[kind]()
    return n, success, failure


def far(start, target):
    return start is not None and target - start - 1 > 32767


def first(a, b):
    return b if a is None else a if b is None else min(a, b)


def first_event(primitives, tokens, link):
    """Of 10 to 19 the one that is met first, its place, and for 10 where a jump is closed: ((number, place), where).
    Only the first open jump of a list matters: it is the longest."""
    at, leaf, operators = 2, 0, []
    for t in tokens:
        if t:
            operators.append((t, False, None))
            continue
        r, steps = primitives[leaf]
        refusal = refusal_of(r, steps, link)
        if refusal:
            return (refusal, leaf), ''
        n, success, failure = open_jumps(r, steps, link)
        success, failure = [x if x is None else at + x for x in (success, failure)]
        at, leaf = at + n, leaf + 1
        while operators:                                # the operators that this operand ends
            t, right, kept = operators.pop()
            if t == NOT:
                at += 1
                if far(failure, at):
                    return (10, 0), 'Not'
                success, failure = None, first(success, at - 1)
            elif right and t == AND:
                failure = first(kept, failure)
            elif right:
                success = first(kept, success)
            elif t == AND:
                if far(success, at):
                    return (10, 0), 'And'
                operators.append((AND, True, failure))
                break
            else:
                at += 1
                if far(failure, at):
                    return (10, 0), 'Or'
                operators.append((OR, True, first(success, at - 1)))
                break
    if far(success, at):
        return (10, 0), 'pass'
    if far(failure, at + 2):
        return (10, 0), 'drop'
    return (0, at + 4), ''


def expected(link, mode, output, work, sheet):
    """The first line of the answer as (number, place or L), and where a jump is too long."""
    answer = admit(link, mode, sheet, output, work)
    if answer[0]:
        return answer, ''
    event, where = first_event(*content(sheet), link)
    assert event[0] or event[1] == answer[4]
    return event, where


# -------------------------------------------------------------- single tests

A, C = 0x0a000001, 0xc0a80114
SIX = bytes.fromhex('20010db8a55a0f0f123456789abcdef1')
MAC, MAC2 = bytes.fromhex('aabbccddeeff'), bytes.fromhex('021122334455')
IP = protocol('ip')
IN = bare('inbound')

WORDS = [0, 1, 2, 255, 65535, 65536, A, C, 2 ** 31 - 2, 2 ** 31 - 1, 2 ** 31, 2 ** 31 + 1, 2 ** 32 - 2, 2 ** 32 - 1]
HALVES = [0, 1, 80, 443, 2047, 2048, 4095, 4096, 32767, 32768, 65534, 65535]
OFFSETS = [0, 1, 12, 13, 14, 255, 32752, 32753, 32754, 32763, 32766, 32767, 32768, 65535, 65536, 2 ** 31 - 14,
           2 ** 31 - 1, -1, -14, -32768, -2 ** 31]
SHIFTS = [0, 1, 15, 16, 30, 31, 32, 33, 63, 64, 255, 256, 2 ** 31, 2 ** 32 - 1]
TYPES = [0x0800, 0, 0x00ab, 0x0801, 0x0806, 0x8035, 0x8100, 0x86dd, 0xffff]
BARE = ['ethermulticast', 'ipbroadcast', 'ipmulticast', 'ip6multicast', 'pppoediscovery', 'inbound', 'outbound']
NAMES = [(p, 200) if p in ('num', 'ip6proto') else p for p in PROTOS]


def put(sheet, at, new):
    return sheet[:at] + new + sheet[at + len(new):]


def every_test():
    """Each kind with each direction, protocol, comparison, layer and size."""
    for d in DIRECTIONS:
        yield from (host4(d, A), host4(d, C), host6(d, SIX), etherhost(d, MAC), etherhost(d, MAC2))
        yield from (net4(d, C, mask) for mask in (0, 0xff000000, 0x00ff00ff, 0xffffffff))
        yield from (net6(d, SIX, prefix) for prefix in (0, 1, 16, 17, 127, 128, 129))
        for name in NAMES:
            yield port(d, 443, name)
            yield portrange(d, 1, 1024, name)
    yield from (protocol(name) for name in NAMES[1:])
    yield from (etherproto(n) for n in TYPES)
    yield from (bare(kind) for kind in BARE)
    for kind in ('vlan', 'mpls', 'pppoesession'):
        yield from (tagged(kind, n) for n in (None, 0, 7, 65535))
    yield tagged('mpls', 2 ** 32 - 1)
    for kind in ('ipprotochain', 'ip6protochain'):
        yield from (chain(kind, p) for p in (0, 6, 255))
    for c in COMPARISONS:
        yield frame_len(c, 60)
        for layer in LAYERS:
            yield from (access(layer, size, 6, c, 7) for size in SIZES)
    for layer in LAYERS:
        yield from (access_load(layer, size, 6, 'eq', 'net', 2, -5) for size in SIZES)


def with_word(n):
    """A constant in each place that can hold one."""
    yield from (host4('source', n), net4('destination', n, 2 ** 32 - 1), net4('either', 2 ** 32 - 1, n), tagged('mpls', n),
                etherhost('source', n.to_bytes(4, 'big') + bytes(2)), portrange('either', n >> 16, n & 0xffff),
                host6('both', n.to_bytes(4, 'big') * 4))
    for c in COMPARISONS:
        yield from (frame_len(c, n), access('raw', 4, 26, c, n))
    yield from (access('net', 2, 2, 'eq', 3, [(op, n)]) for op in STEPS)


def every_limit():
    for offset in OFFSETS:
        yield from (access(layer, size, offset, 'eq', 0) for layer in LAYERS for size in SIZES)
        yield access_load('net', 1, offset, 'ne', 'raw', 4, 0)
    for by in SHIFTS:
        yield from (access('raw', 1, 0, 'eq', 0, [('add', 1), (op, by)]) for op in ('shl', 'shr'))
        yield both(IP, access_load('raw', 1, 0, 'eq', 'raw', 1, 0, [('shr', by)]))
    for n in HALVES:
        yield from (port('either', n, 'tcp'), portrange('source', n, 65535), portrange('both', 0, n), etherproto(n),
                    tagged('vlan', n), tagged('pppoesession', n))
    bad = [('div', 0), ('mod', 3)]
    for steps in (bad, bad[::-1], [('div', 1)] + bad, [('shl', 31)] + bad[1:], [('div', 2 ** 31)]):
        yield access('trans', 2, 4, 'ge', 9, steps)
    # 5 before 6, 6 before 17 to 19, the first of them
    yield both(access('raw', 1, 0, 'eq', 0, [('shl', 32)]), access('raw', 1, -1, 'eq', 0))
    yield both(access('raw', 1, 0, 'eq', 0, bad), access('raw', 1, 0, 'eq', 0, [('shl', 32)]))
    yield both(IP, both(access('raw', 1, -1, 'eq', 0), access('raw', 1, 32768, 'eq', 0)))


# ------------------------------------------------------------ chains and jumps

def joined(items, join, left_deep=True):
    tree = items[0] if left_deep else items[-1]
    for x in items[1:] if left_deep else items[-2::-1]:
        tree = (join, tree, x) if left_deep else (join, x, tree)
    return tree


def nots(n, tree):
    for _ in range(n):
        tree = no(tree)
    return tree


def flat(tree):
    """A tree's primitives and tokens, as in its sheet."""
    primitives, tokens, to_come = [], [], [tree]
    while to_come:
        node = to_come.pop()
        if isinstance(node[0], bytes):
            primitives.append(node)
            tokens.append(0)
        else:
            tokens.append({'and': AND, 'or': OR, 'not': NOT}[node[0]])
            to_come += reversed(node[1:])
    return primitives, tokens


def every_chain():
    mixed = [IP, host4('either', A), frame_len('bitand', 8), port('source', 53, 'udp'), no(access('raw', 1, 0, 'lt', 9))]
    for n in (2, 3, 17, 100):
        for join in ('and', 'or'):
            for left_deep in (True, False):
                yield joined((mixed * n)[:n], join, left_deep)
    for n in (1, 2, 3, 255, 256, 257, 1000):
        yield nots(n, host4('either', A))
    for n in (10, 100, 1000):
        yield access('raw', 1, 0, 'eq', 1, [('add', 1), ('xor', 2), ('mul', 3), ('or', 4), ('sub', 5)] * (n // 5))
        yield access('raw', 1, 0, 'eq', 1, [('add', 1)] * n + [('mod', 2)])


def large():
    """Near the most that a case may hold: (link, tree)."""
    yield ETHERNET, nots(65534, IP)
    yield RAWIP, nots(65533, E4)
    for join in ('and', 'or'):
        for left_deep in (True, False):
            yield RAWIP, joined([IP] * 20000, join, left_deep)
            yield ETHERNET, joined([LE, no(IP)] * 1500, join, left_deep)


def long_one(n):
    """A byte access of n instructions, 5 or more."""
    record, _ = access('raw', 1, 0, 'eq', 7)
    return put(record, 12, (n - 5).to_bytes(2, 'big')), [(STEPS.index('add'), 1)] * (n - 5)


def long_and(n):
    """The same, of many short tests and a small sheet: hosts of 102 instructions on Ethernet."""
    return joined([host6('both', SIX)] * ((n - 5) // 102) + [long_one(5 + (n - 5) % 102)], 'and')


def long_or(n):
    """Tests joined by Or: each passes by a jump of its own."""
    return joined([host6('both', SIX)] * ((n - 5) // 103) + [long_one(5 + (n - 5) % 103)], 'or')


E4, E6 = host4('either', A), net6('either', SIX, 20)        # these leave a jump on success open
PR = portrange('either', 1, 1024)
LE, BIT = frame_len('eq', 1), frame_len('bitand', 1)

# Shapes over a long operand x: a jump is first too long at an And, Or or Not, or at the end, to pass or to drop.
SHAPES = [
    lambda x: x, lambda x: both(IP, x), lambda x: both(x, BIT), lambda x: no(either(LE, x)),
    lambda x: no(both(IP, either(E4, x))), lambda x: either(LE, x), lambda x: either(E4, x), lambda x: either(PR, x),
    lambda x: either(E6, no(no(x))), lambda x: either(LE, no(no(x))), lambda x: either(x, LE), lambda x: no(x),
    lambda x: both(either(LE, x), IP),
    # a refused test after it: 10 only if the jump is met before
    lambda x: either(x, IN), lambda x: either(both(E4, x), IN), lambda x: either(no(both(LE, either(E4, x))), IN),
    lambda x: both(no(x), IN), lambda x: both(no(both(IP, x)), IN), lambda x: both(no(no(x)), IN),
    lambda x: both(either(IP, x), IN), lambda x: both(either(E4, x), IN), lambda x: both(either(PR, x), IN),
    lambda x: both(x, IN), lambda x: either(IN, x)]


def limit(tree_of, link, high):
    """The least n for which a jump of tree_of(n) is too long, or None."""
    def too_long(n):
        return first_event(*flat(tree_of(n)), link)[0][0] == 10
    low = 32000
    if too_long(low) or not too_long(high):
        return None
    while high - low > 1:
        middle = (low + high) // 2
        low, high = (low, middle) if too_long(middle) else (middle, high)
    return high


def every_jump():
    """Each shape at its limit, just below and above: (link, tree)."""
    for make, links in ((long_one, (ETHERNET, RAWIP)), (long_and, (ETHERNET,)), (long_or, (ETHERNET,))):
        for shape in SHAPES:
            for link in links:
                n = limit(lambda n: shape(make(n)), link, 33200)
                for m in (32700, 33000) if n is None else (n - 1, n, n + 1):
                    yield link, shape(make(m))


# --------------------------------------------------------------- random sheets

def any_steps(dice, n):
    steps = []
    for _ in range(n):
        op, by = dice.pick(STEPS), dice.pick(WORDS + [3, 7, 12, dice.word()])
        if op in ('shl', 'shr') and not dice.one_in(40):
            by %= 32
        if (op == 'mod' or op == 'div' and by == 0) and not dice.one_in(4):
            op = 'xor'
        steps.append(('div', 0) if dice.one_in(50) else (op, by))
    return steps


def any_offset(dice):
    return dice.pick(OFFSETS) if dice.one_in(40) else dice.pick([0, 1, 2, 9, 12, 20, 32752 + dice.below(2), dice.below(32754)])


def any_test(dice, link):
    """A test of any kind; on RawIp and behind a cooked header mostly one that is not refused."""
    kind = KINDS[dice.pick([1, 3, 4, 5, 7, 9, 11, 12, 18, 20, 23]) if link == RAWIP and dice.below(8) else 1 + dice.below(23)]
    if kind in ('inbound', 'outbound') and dice.below(3):
        kind = 'byteaccess'
    if kind in ('etherhost', 'ethermulticast') and link == COOKED and dice.below(3):
        kind = 'vlan'
    d, word = dice.pick(DIRECTIONS), dice.pick(WORDS + [dice.word()] * 4)
    half = dice.pick(HALVES + [dice.below(65536)] * 4)
    name = dice.pick([None, 'tcp', 'udp', 'sctp']) if dice.below(8) else dice.pick(PROTOS)
    name = (name, dice.below(256)) if name in ('num', 'ip6proto') else name
    if kind == 'host4':
        return host4(d, word)
    if kind == 'host6':
        return host6(d, dice.bytes(16))
    if kind == 'port':
        return port(d, half, name)
    if kind == 'portrange':
        return portrange(d, half, dice.pick(HALVES), name)
    if kind == 'net':
        return net4(d, word, dice.pick(WORDS + [2 ** 32 - 2 ** dice.below(33)] * 8))
    if kind == 'net6':
        return net6(d, dice.bytes(16), dice.below(129) if dice.below(4) else dice.below(256))
    if kind == 'proto':
        name = dice.pick(['ip', 'tcp', 'udp', 'icmp', 'igmp', 'sctp', 'num']) if link == RAWIP and dice.below(8) else dice.pick(PROTOS[1:])
        return protocol((name, dice.below(256)) if name in ('num', 'ip6proto') else name)
    if kind == 'etherhost':
        return etherhost(d, dice.bytes(6))
    if kind == 'etherproto':
        return etherproto(0x0800 if link == RAWIP and dice.below(8) else dice.pick(TYPES + HALVES))
    if kind in ('vlan', 'mpls', 'pppoesession'):
        return tagged(kind, dice.pick([None, half, word if kind == 'mpls' else half]))
    if kind in ('ipprotochain', 'ip6protochain'):
        return chain(kind, dice.below(256))
    if kind == 'len':
        return frame_len(dice.pick(COMPARISONS), word)
    if kind == 'byteaccess':
        steps = any_steps(dice, dice.pick([0, 0, 0, 1, 1, 2, 3, 5]))
        place = dice.pick(LAYERS), dice.pick(SIZES), any_offset(dice), dice.pick(COMPARISONS)
        if dice.one_in(12):
            return access_load(*place, dice.pick(LAYERS), dice.pick(SIZES), dice.pick(OFFSETS), steps)
        return access(*place, word, steps)
    return bare(kind)


def any_tree(dice, leaves, test):
    """A tree of any shape over so many tests: joins neighbours until one is left."""
    trees = [test() for _ in range(leaves)]
    while True:
        i = dice.below(len(trees))
        if dice.one_in(4):
            trees[i] = no(trees[i])
        elif len(trees) == 1:
            return trees[0]
        elif i + 1 < len(trees):
            trees[i:i + 2] = [(dice.pick(['and', 'or']), trees[i], trees[i + 1])]


def damaged(dice, sheet):
    """One byte changed, cut, lengthened; or a record, step or token too many or too few, the counts kept right."""
    (s0, steps), (p0, primitives), (t0, tokens) = sections(sheet)
    steps = steps_of(steps)
    rs = records(primitives, 24)
    way = dice.below(10)
    if way == 0:
        return sheet[:dice.below(len(sheet))] if dice.below(2) else sheet[:-1]
    if way == 1:
        return sheet + dice.bytes(1 + dice.below(3))
    if way == 2:                                        # one of the counts
        at = dice.pick([s0, p0, t0]) - dice.pick([1, 1, 1, 2])
        return put(sheet, at, bytes([(sheet[at] + dice.pick([1, 255, dice.below(256)])) % 256]))
    if way == 3:                                        # a token
        return put(sheet, t0 + dice.below(len(tokens)), bytes([dice.pick([0, 1, 2, 3, 4, 255])]))
    if way == 4:                                        # something left over or lacking
        tokens = list(tokens)
        at = dice.below(4)
        if at == 0:
            steps = steps + [(0, 1)] if dice.below(2) or not steps else steps[:-1]
        elif at == 1:
            rs = rs + [IP[0]] if dice.below(2) else rs[:-1]
        else:
            tokens = tokens + [dice.below(4)] if dice.below(2) else tokens[:-1]
        return raw_sheet(steps, rs, tokens)
    if way == 5 and steps:                              # an operator
        return put(sheet, s0 + 5 * dice.below(len(steps)), bytes([dice.pick([4, 9, 10, 255])]))
    at = p0 + 24 * dice.below(len(rs))
    at += dice.pick([0, 1, 2, 3, 4, 5, 6, 7, 8, 11, 12, 13, 14, 14, 15, 16, 17, 20, 21, 23, dice.below(24)])
    new = dice.pick([0, 1, 2, 3, 4, 6, 7, 11, 12, 13, 23, 24, 128, 255, dice.below(256)])
    sheet = put(sheet, at, bytes([new]))
    return damaged(dice, sheet) if dice.one_in(8) else sheet


def some_room(dice, link, mode, sheet):
    """Output bytes and work numbers: exactly enough, one too few, more."""
    answer = check(link, mode, sheet)
    if answer[0]:
        return dice.pick([0, 64, 4096, MOST]), dice.pick([0, 64, 4096, MOST])
    L = length(sheet, link)
    output, work = 8 * L, L + 8 * answer[3]
    output += dice.pick([0] * 12 + [1, 7, 8, 800, MOST, -1, -1, -8, -output])
    work += dice.pick([0] * 12 + [1, 8, 800, MOST, -1, -1, -8, -work])
    return max(0, min(output, MOST)), max(0, min(work, MOST))


def enough(link, sheet):
    answer = check(link, 0, sheet)
    if answer[0]:
        return 4096, 4096
    L = length(sheet, link)
    return min(8 * L, MOST), min(L + 8 * answer[3], MOST)


def any_sheet(dice, link):
    """A sheet of one of the random families."""
    family = dice.below(1000)
    if family < 250:
        return write(any_test(dice, link))
    if family < 850:
        sheet = write(any_tree(dice, 1 + dice.below(7), lambda: any_test(dice, link)))
        return damaged(dice, sheet) if family < 450 else sheet
    if family < 950:                                    # limits
        n = dice.pick(WORDS)
        return write(dice.pick(dice.pick([ALL_LIMITS, list(with_word(n)), ALL_TESTS])))
    if family < 975:                                    # chains
        n = 2 + dice.below(1 << dice.below(8))
        tests = [any_test(dice, link) for _ in range(1 + dice.below(5))]
        items = [dice.pick(tests) for _ in range(n)]
        tree = joined(items, dice.pick(['and', 'or']), dice.below(2)) if dice.below(3) else any_tree(dice, n, lambda: items.pop())
        return write(nots(dice.pick([0, 0, 1, 2, dice.below(300)]), tree))
    if family < 995:                                    # many steps
        return write(either(any_test(dice, link), access(
            dice.pick(LAYERS), 1, 0, 'eq', 0, [('add', 1)] * (10 + dice.below(200)) + any_steps(dice, 10))))
    # near a jump's limit: a random tree with one long operand
    if dice.below(5) == 0 or link == RAWIP:
        make = long_one
    else:
        make = dice.pick([long_and, long_or])
    leaves = [any_test(dice, link) for _ in range(dice.below(4))]
    seed, at, shape = dice.word(), dice.below(len(leaves) + 1), dice.pick([lambda x: x, dice.pick(SHAPES)])

    def tree_of(n):
        rest = leaves[:at] + [make(n)] + leaves[at:]
        rest.reverse()
        return shape(any_tree(Dice(seed), len(rest), rest.pop))
    n = limit(tree_of, link, 33200)
    return write(tree_of(32700 + dice.below(100) if n is None else n + dice.pick([-2, -1, -1, 0, 0, 1])))


ALL_TESTS, ALL_LIMITS = list(every_test()), list(every_limit())


def in_turn():
    """Every kind, limit and shape: (link, mode, output, work, sheet)."""
    def fit(link, mode, tree):
        sheet = write(tree)
        return (link, mode, *enough(link, sheet), sheet)
    for link in LINKS:
        for mode in (0, 1):
            for tree in ALL_TESTS:
                yield fit(link, mode, tree)
        for i, tree in enumerate(ALL_LIMITS):
            yield fit(link, i % 2, tree)
        for i, n in enumerate(WORDS):
            for j, tree in enumerate(with_word(n)):
                yield fit(link, (i + j) % 2, tree)
    for prefix in range(256):
        for i, d in enumerate(DIRECTIONS):
            if prefix < 40 or prefix % 16 in (0, 1, 15) or prefix % 4 == i:
                yield fit(ETHERNET, prefix % 2, net6(d, SIX, prefix))
    for link, mode in ((3, 0), (255, 1), (0, 2), (1, 255), (2, 2), (3, 3)):
        for sheet in (b'', bytes(6), write(IP)):
            yield (link, mode, 0, 0, sheet)
    for n in range(32):                                 # cut everywhere
        yield (ETHERNET, 0, 96, 20, write(IP)[:n])
    for link in LINKS:                      # 7 and 8
        for tree in (IP, E4, no(PR), either(IN, IP), both(E6, nots(3, IP)), long_one(50), joined([E4] * 20, 'or')):
            sheet = write(tree)
            output, work = enough(link, sheet)
            for less in (0, 1, 7, 8, output):
                yield (link, less % 2, output - less, work, sheet)
                yield (link, 0, output - less, 0, sheet)
            for less in (1, 2, 8, work):
                yield (link, less % 2, output, work - less, sheet)
                yield (link, 1, output + 100, work - less, sheet)
            yield (link, 0, MOST, MOST, sheet)
    for i, tree in enumerate(every_chain()):
        for link in LINKS:
            yield fit(link, (i + link) % 2, tree)
    for i, (link, tree) in enumerate((*large(), *every_jump())):
        yield fit(link, i % 2, tree)


def at_random(dice):
    while True:
        link, mode = dice.below(3), dice.below(2)
        sheet = any_sheet(dice, link)
        if dice.one_in(200):
            link, mode = dice.pick([(3, 0), (0, 2), (255, 255)])
        yield (link, mode, *some_room(dice, link, mode, sheet), sheet)


# ------------------------------------------------------------------------ main

def case(link, mode, output, work, sheet):
    return (b'C' + bytes([link, mode]) + output.to_bytes(4, 'big') + work.to_bytes(4, 'big')
            + len(sheet).to_bytes(4, 'big') + sheet)


class Counts:
    """Cases by refusal, jumps too long by where they are met, and kinds by accepted and refused."""
    def __init__(self):
        self.numbers, self.places, self.kinds, self.bytes = {}, {}, {}, 0

    def add(self, c):
        link, mode, output, work, sheet = c
        answer, where = expected(*c)
        self.numbers[answer[0]] = self.numbers.get(answer[0], 0) + 1
        if where:
            self.places[where] = self.places.get(where, 0) + 1
        parts = sections(sheet)
        for kind in {r[0] for r in records(parts[1][1], 24)} if parts else ():
            if 1 <= kind <= 23:
                self.kinds.setdefault(kind, [0, 0])[answer[0] > 0] += 1
        self.bytes += 15 + len(sheet)
        return '%d %d\n' % answer[:2]

    def tell(self, file):
        print('%d cases, %d bytes' % (sum(self.numbers.values()), self.bytes), file=file)
        print('by refusal: ' + ', '.join('%s %d' % (n or 'accepted', self.numbers[n]) for n in sorted(self.numbers)), file=file)
        print('jumps too long, first met at: ' + ', '.join('%s %d' % x for x in sorted(self.places.items())), file=file)
        print('sheets by kind, accepted + refused: ' + ', '.join(
            '%s %d + %d' % (KINDS[k], *self.kinds[k]) for k in sorted(self.kinds)), file=file)


def main(seed, count, lines):
    counts = Counts()
    made = 0
    for source in (in_turn(), at_random(Dice(seed))):
        for c in source:
            if made == count:
                break
            made += 1
            sys.stdout.buffer.write(case(*c))
            line = counts.add(c)
            if lines:
                lines.write(line)
    counts.tell(sys.stderr)


def begun(words):
    if len(words) not in (2, 3) or not all(x.isdigit() for x in words[:2]):
        raise hand.Wrong('a seed and a count are numbers')
    if sys.stdout is None:
        raise hand.Lacking('standard output is closed')
    if len(words) == 3:
        with open(words[2], 'w') as f:
            main(int(words[0]), int(words[1]), f)
    else:
        main(int(words[0]), int(words[1]), None)


if __name__ == '__main__':
    hand.run('generate.py', __doc__, begun)
