"""Frames for a filter: some meant to pass or to drop, some cut or off by a bit, some of random bytes.

What is meant need not come true (two tests may want the same byte): the answers come from elsewhere.
"""

import os
import sys

sys.dont_write_bytecode = True
sys.path.insert(0, os.path.join(os.path.dirname(os.path.realpath(__file__)), '../../tests/sheet'))
from model import *         # noqa: the codes, the sheet's content, what each test means

LEAST = 14                  # the kernel's test run takes no shorter frame
MOST = 3000                 # and no more than a page less its own head and tail: 3520 bytes of 4096


class Draft:
    """A frame in the making: it grows to hold what is put, and remembers where that was."""
    def __init__(self, dice, link):
        self.dice, self.link, self.net, self.length, self.fields = dice, link, NET[link], None, []
        size = dice.pick([LEAST, 60, 60, LEAST + dice.below(100)])
        self.data = bytearray(dice.bytes(size) if dice.below(3) else size)
        # A header length, for ports and transport bytes.  Not among the fields: it is no test's own.
        self.reach(self.net + 1)
        self.data[self.net] = 0x40 + dice.pick([5, 5, 5, 6, 15, dice.below(16)])

    def reach(self, size):
        self.data += self.dice.bytes(max(0, size - len(self.data)))

    def put(self, at, value, size):
        if at + size <= MOST:
            self.reach(at + size)
            self.data[at:at + size] = value.to_bytes(size, 'big')
            self.fields.append((at, size))

    def ethertype(self, x):
        if TYPE[self.link] is not None:
            self.put(TYPE[self.link], x, 2)

    def turn_a_bit(self, since=0):
        """In one of the fields put since then, if any."""
        if self.fields[since:]:
            at, size = self.dice.pick(self.fields[since:])
            self.data[at + self.dice.below(size)] ^= 1 << self.dice.below(8)

    def cut(self):
        """Behind a field or in it, or anywhere."""
        ends = [at + self.dice.below(size) for at, size in self.fields] + [at + size for at, size in self.fields]
        ends = [n for n in ends if n >= LEAST] + [LEAST + self.dice.below(max(1, len(self.data) - LEAST))]
        self.length = min(self.dice.pick(ends), len(self.data))

    def frame(self):
        self.reach(self.length or LEAST)
        return bytes(self.data[:min(self.length or MOST, MOST)])


def sides(dice, direction, source, destination):
    return {'source': [source], 'destination': [destination], 'both': [source, destination],
            'either': dice.pick([[source], [destination], [source, destination]])}[DIRECTIONS[direction]]


def undone(value, steps):
    """A number that the steps may turn into this one: exact but for lost bits."""
    for op, by in reversed(steps):
        name = STEPS[op]
        value = {'add': value - by, 'sub': value + by, 'xor': value ^ by, 'or': value & ~by, 'and': value & by,
                 'mul': value * pow(by, -1, 2 ** 32) if by % 2 else value // max(by, 1), 'div': value * by,
                 'shl': value >> by % 32, 'shr': value << by % 32}[name] % 2 ** 32
    return value


def loaded(dice, r, steps):
    """What a byte access may load so that its comparison holds."""
    constant, top, value = number(r[8:12]), 256 ** SIZES[r[3]], 0
    for _ in range(6):
        value = undone((constant + dice.pick([0, 0, 1, -1, dice.word()])) % 2 ** 32, steps) % top
        result = value
        for s in steps:
            result = step(result, *s)
        if compare(result, r[2], constant):
            break
    return value


def satisfy(d, r, steps):
    """Puts what one primitive asks for; where it leaves a choice, any."""
    dice, net, kind, direction, p, q, n, a = d.dice, d.net, KINDS[r[0]], r[1], r[2], r[3], number(r[4:8]), number(r[8:24])

    def ip(p, six):
        d.ethertype(0x86dd if six else 0x0800)
        d.put(net + (6 if six else 9), p, 1)

    def under(mask, value, bits):
        return value & mask | int.from_bytes(dice.bytes(bits // 8), 'big') & ~mask

    if kind in ('host4', 'net'):
        mask = number(r[8:12]) if kind == 'net' else 2 ** 32 - 1
        d.ethertype(0x0800)
        for at in sides(dice, direction, 12, 16):
            d.put(net + at, under(mask, n, 32), 4)
    elif kind in ('host6', 'net6'):
        free = 0 if kind == 'host6' else 128 - min(p, 128)
        d.ethertype(0x86dd)
        for at in sides(dice, direction, 8, 24):
            d.put(net + at, under(2 ** 128 - 2 ** free, a, 128), 16)
    elif kind in ('port', 'portrange'):
        lo, hi = (n, n) if kind == 'port' else (n >> 16, n & 0xffff)
        six = TYPE[d.link] is not None and dice.one_in(2)
        ip(dice.pick({0: (6, 17), 5: (6,), 6: (17,), 10: (132,)}[p]), six)
        start = net + 40 if six else ipv4_transport(d.link, d.data)
        for at in sides(dice, direction, 0, 2):
            d.put(start + at, dice.pick([lo, hi, lo + dice.below(max(1, hi - lo))]), 2)
        d.reach(start + 4)
    elif kind == 'proto':
        name = PROTOS[p]
        if name in ('ip', 'ip6', 'arp', 'rarp'):
            d.ethertype({'ip': 0x0800, 'ip6': 0x86dd, 'arp': 0x0806, 'rarp': 0x8035}[name])
        elif name in ('tcp', 'udp', 'sctp'):
            ip({'tcp': 6, 'udp': 17, 'sctp': 132}[name], TYPE[d.link] is not None and dice.one_in(2))
        else:
            ip({'icmp': 1, 'igmp': 2, 'icmp6': 58}.get(name, q), name in ('icmp6', 'ip6proto'))
    elif kind in ('ipprotochain', 'ip6protochain'):
        ip(p, kind == 'ip6protochain')
    elif kind == 'etherhost':
        for at in sides(dice, direction, 6, 0):
            d.put(at, number(r[8:14]), 6)
    elif kind in ('etherproto', 'pppoediscovery'):
        d.ethertype(n if kind == 'etherproto' else 0x8863)
    elif kind == 'ethermulticast':
        d.put(0, d.data[0] | 1, 1)
    elif kind in ('ipbroadcast', 'ipmulticast'):
        d.ethertype(0x0800)
        d.put(net + 16, 2 ** 32 - 1 if kind == 'ipbroadcast' else under(0xf0000000, 0xe0000000, 32), 4)
    elif kind == 'ip6multicast':
        d.ethertype(0x86dd)
        d.put(net + 24, 0xff, 1)
    elif kind in ('vlan', 'mpls', 'pppoesession'):
        d.ethertype({'vlan': 0x8100, 'mpls': dice.pick([0x8847, 0x8848]), 'pppoesession': 0x8864}[kind])
        if p:
            at, size, mask, value = {'vlan': (14, 2, 0xfff, n), 'mpls': (14, 4, 0xfffff000, n << 12),
                                     'pppoesession': (16, 2, 0xffff, n)}[kind]
            d.put(at, under(mask, value, 8 * size), size)
    elif kind == 'len':
        fits = [x for x in (n - 1, n, n + 1, n & -n, LEAST, LEAST + dice.below(MOST - LEAST))
                if LEAST <= x <= MOST and compare(x, p, n)]
        d.length = dice.pick(fits) if fits else None
    elif kind == 'byteaccess':
        start = {'raw': 0, 'net': net, 'trans': ipv4_transport(d.link, d.data)}[LAYERS[r[1]]]
        d.put(start + n, loaded(dice, r, steps), SIZES[r[3]])


def wanted(dice, tokens, want):
    """For each primitive in turn True, False or None (no matter), so that the tree comes out as wanted."""
    to_come, out = [want], []
    for t in tokens:
        w = to_come.pop()
        if t == 0:
            out.append(w)
        elif t == NOT:
            to_come.append(None if w is None else not w)
        elif w is None or w == (t == AND):
            to_come += [w, w]
        else:
            to_come += dice.pick([[w, None], [None, w]])
    return out


def meant(dice, link, primitives, tokens, want):
    d = Draft(dice, link)
    for (r, steps), w in zip(primitives, wanted(dice, tokens, want)):
        since = len(d.fields)
        if w or w is False and dice.one_in(2):
            satisfy(d, r, steps)
            if not w:
                d.turn_a_bit(since)         # all but one bit of what it asks for
    return d


def frames(dice, link, sheet, count):
    """So many frames for an accepted sheet: the first five of each sort, then any."""
    primitives, tokens = content(sheet)
    out = []
    for i in range(count):
        sort = i if i < 5 else dice.below(5)
        if sort == 4:
            out.append(dice.bytes(dice.pick([LEAST, LEAST + dice.below(100), LEAST + dice.below(MOST - LEAST)])))
            continue
        d = meant(dice, link, primitives, tokens, sort != 1)
        if sort == 2:
            d.cut()
        elif sort == 3:
            d.turn_a_bit()
        out.append(d.frame())
    return out
