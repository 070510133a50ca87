"""Writes the stored cases: python3 cases.py OUTDIR gives OUTDIR/stdin and
OUTDIR/stdout.  Answers come from model.py; wherever a case was written with
an answer in mind, that answer is stated here and must be the model's."""

import os
import sys

from model import *

# ------------------------------------------------------------- the case book

cases = []                  # (kind of case, bytes, answer, stated?)
seen = set()


def add(letter, data, answer, stated):
    if data not in seen:    # the same case twice tells nothing new
        seen.add(data)
        cases.append((letter, data, answer, stated))


def four(n):
    return n.to_bytes(4, 'big')


def show(sheet):
    return sheet.hex() if len(sheet) < 400 else '%d bytes' % len(sheet)


def answer_s(link, mode, sheet):
    answer = check(link, mode, sheet)
    return answer if answer[0] else answer + (length(sheet, link),) + first_refused(sheet, link)


def S(link, mode, sheet, want=None, L=None, R=None):
    """A sheet.  Stated: want, the whole refusal or number 0 alone; L; R, the
    first refused primitive."""
    answer = answer_s(link, mode, sheet)
    if want is not None:
        ok = answer[0] == 0 if want == 0 else answer == want
        assert ok, ('S', link, mode, show(sheet), 'meant', want, 'model', answer)
    if L is not None:
        assert answer[0] == 0 and answer[4] == L, ('S', link, show(sheet), 'meant L', L, 'model', answer)
    if R is not None:
        assert answer[0] == 0 and answer[5:] == R, ('S', link, show(sheet), 'meant R', R, 'model', answer)
    add('S', b'S' + bytes([link, mode]) + four(len(sheet)) + sheet, answer,
        (want, L, R) != (None, None, None))
    if answer[0] == 0 and answer[5]:        # the evaluator gives it, whatever the frame
        E(link, sheet, b'', R)


def admitted(link, mode, sheet, output, work, want):
    """A sheet and the sizes of the lent places.  Stated: want, the refusal or number 0 alone."""
    answer = admit(link, mode, sheet, output, work)
    ok = answer[0] == 0 if want == 0 else answer == want
    assert ok, ('A', link, mode, show(sheet), output, work, 'meant', want, 'model', answer)
    add('A', b'A' + output.to_bytes(8, 'big') + work.to_bytes(8, 'big') + bytes([link, mode])
        + four(len(sheet)) + sheet, answer, True)


def E(link, sheet, frame, want=None):
    """A sheet and a frame.  Stated: want, True, False or the refusal."""
    if not isinstance(sheet, bytes):
        sheet = write(sheet)
    answer = evaluate(link, sheet, frame)
    if want is not None:
        meant = want if isinstance(want, tuple) else (0, int(want))
        assert answer == meant, ('E', link, show(sheet), frame.hex(), 'meant', meant, 'model', answer)
    add('E', b'E' + bytes([link]) + four(len(sheet)) + sheet + four(len(frame)) + frame,
        answer, want is not None)


class Dice:
    """Fixed numbers (xorshift), the same under every Python."""
    def __init__(self, seed):
        self.x = seed

    def word(self):
        x = self.x
        x ^= x << 13 & 0xffffffff
        x ^= x >> 17
        x ^= x << 5 & 0xffffffff
        self.x = x
        return x

    def below(self, n):
        return self.word() % n

    def pick(self, items):
        return items[self.below(len(items))]

    def bytes(self, n):
        return bytes(self.word() >> 8 & 255 for _ in range(n))


dice = Dice(20011)
turn = 0


def mode():
    """Modes 0 and 1 by turns: neither length nor refusals 1 to 6 depend on it."""
    global turn
    turn += 1
    return turn % 2


def chain_of(items, join, left_deep=True):
    tree = items[0]
    for x in items[1:]:
        tree = (join, tree, x) if left_deep else (join, x, tree)
    return tree


def nots(n, tree):
    for _ in range(n):
        tree = no(tree)
    return tree


# --------------------------------------------------------- addresses, frames

A, B, C = 0x0a000001, 0x0a000002, 0xc0a80114        # the last is 192.168.1.20
SIX = bytes.fromhex('20010db8a55a0f0f123456789abcdef1')
SIX2 = bytes.fromhex('fe8000000000000002005efffe001234')
MAC = bytes.fromhex('aabbccddeeff')
MAC2 = bytes.fromhex('021122334455')
IP = protocol('ip')


def eth(ethertype, rest=b'', destination=MAC2, source=MAC):
    return destination + source + ethertype.to_bytes(2, 'big') + rest


def ip4(p, source=A, destination=B, rest=b'', ihl=5):
    """An IPv4 header of 20 bytes or what ihl asks above that, then the rest."""
    return (bytes([0x40 + ihl, 0x11, 0x22, 0x33, 4, 5, 0x40, 7, 64, p, 10, 11])
            + four(source) + four(destination) + bytes(range(1, 1 + max(0, 4 * ihl - 20))) + rest)


def ip6(p, source=SIX, destination=SIX2, rest=b''):
    return bytes([0x60, 1, 2, 3, 0, len(rest), p, 64]) + source + destination + rest


def two(source, destination):
    return source.to_bytes(2, 'big') + destination.to_bytes(2, 'big')


def on(link, p=6, source=A, destination=B, rest=b'', ihl=5):
    """An IPv4 frame of a link."""
    body = ip4(p, source, destination, rest, ihl)
    return eth(0x0800, body) if link == ETHERNET else body


def six(p=6, source=SIX, destination=SIX2, rest=b''):
    return eth(0x86dd, ip6(p, source, destination, rest))


def put(frame, at, new):
    return frame[:at] + new + frame[at + len(new):]


def flip(frame, bit):
    """The frame with one bit turned, counted from its first byte's top bit."""
    return put(frame, bit // 8, bytes([frame[bit // 8] ^ 0x80 >> bit % 8]))


def needs(link, tree, frame, need, more=()):
    """The tree holds on the frame's first n bytes exactly when n >= need."""
    rarely = {0, need + 1} if dice.below(4) == 0 else set()
    for n in sorted({need - 1, need, len(frame)} | rarely | set(more)):
        if 0 <= n <= len(frame):
            E(link, tree, frame[:n], n >= need)
    n = max(need - dice.below(3), 0)        # under Not the other way round
    E(link, no(tree), frame[:n], n < need)


def never(link, tree, frame):
    E(link, tree, frame, False)


# ============================================================== document 01's K

def worked_examples():
    k1, k5 = write(IP), write(host4('either', A))
    S(RAWIP, 0, k1, L=6, R=(0, 0))                                  # K1
    S(ETHERNET, 0, k1, L=12, R=(0, 0))                              # K2
    S(ETHERNET, 1, k1, L=12)
    S(ETHERNET, 0, put(k1, 4, b'\0'), (3, 4))                       # K2's sheet, kind 0
    S(ETHERNET, 0, write(net6('source', SIX, 17)), L=25)            # K3: 6 + 6 + 6 + 7
    S(ETHERNET, 0, write(net6('source', SIX, 0)), L=12)             # K4: no address byte
    S(ETHERNET, 0, write(net6('either', SIX, 0)), L=13)
    S(ETHERNET, 0, k5, L=24)                                        # K5
    frame = on(ETHERNET, 6, A, B)[:30]
    E(ETHERNET, k5, frame, True)
    E(ETHERNET, k5, frame[:29], False)
    E(ETHERNET, no(host4('either', A)), frame[:29], True)
    E(ETHERNET, no(host4('either', A)), frame, False)
    for link in (ETHERNET, RAWIP):                                  # K6: the meaning
        for address in (C, 0x7fffffff):
            tree = host4('source', address)
            S(link, 0, write(tree), L=18 if link == ETHERNET else 12)
            E(link, tree, on(link, 17, address, B), True)
            E(link, tree, on(link, 17, address ^ 1, address), False)
    k7 = port('source', 0x1234)                                     # K7
    frame = on(RAWIP, 6, A, B, two(0x1234, 80))
    assert len(frame) == 24
    S(RAWIP, 0, write(k7), L=27)
    E(RAWIP, k7, frame, True)
    E(RAWIP, k7, frame[:23], False)
    needs(RAWIP, k7, frame + b'\0', 24, range(25))
    for layer, offset, want in [('raw', 32767, 0), ('raw', 32768, (5, 0)), ('raw', -1, (5, 0)),
                                ('net', 32753, 0), ('net', 32754, (5, 0)), ('net', -1, (5, 0)),
                                ('trans', 32767, 0), ('trans', 32768, (5, 0)), ('trans', -1, (5, 0))]:
        S(ETHERNET, mode(), write(access(layer, 1, offset, 'eq', 0)), want)     # K8
    for shift in ('shl', 'shr'):
        S(ETHERNET, 0, write(access('raw', 1, 0, 'eq', 0, [(shift, 31)])), 0, L=12)
        S(ETHERNET, 0, write(access('raw', 1, 0, 'eq', 0, [(shift, 32)])), (6, 0))
    S(ETHERNET, 0, bytes(6), (4, 0))                                # no tokens
    E(ETHERNET, bytes(6), b'', (4, 0))


# ==================================================================== S cases

# The Rust's instructions for one primitive, counted by hand: for either,
# source, destination, both; on Ethernet, then on RawIp (or its refusal).
NONE11 = (-11,) * 4
COUNTS = {
    'host4': ((18, 12, 12, 18), (12, 6, 6, 12)),
    'host6': ((103, 54, 54, 102), NONE11),
    'port': ((43, 40, 40, 43), (24, 21, 21, 24)),           # no protocol
    'port tcp': ((41, 38, 38, 41), (23, 20, 20, 23)),       # tcp, udp, sctp
    'range': ((46, 41, 41, 45), (27, 22, 22, 26)),
    'range tcp': ((44, 39, 39, 43), (26, 21, 21, 25)),
    'net': ((20, 13, 13, 20), (14, 7, 7, 14)),
    'etherhost': ((25, 12, 12, 24), (-13,) * 4),
}
PROTO_COUNTS = {'ip': (6, 0), 'ip6': (6, -11), 'arp': (6, -11), 'rarp': (6, -11),
                'tcp': (18, 5), 'udp': (18, 5), 'sctp': (18, 5), 'icmp': (11, 5), 'igmp': (11, 5),
                'icmp6': (11, -11), 'num': (11, 5), 'ip6proto': (11, -11)}
OTHER_COUNTS = [
    (etherproto(0x0800), 6, 0), (etherproto(0x0806), 6, -11), (etherproto(0), 6, -11),
    (etherproto(0x0801), 6, -11), (etherproto(0x0008), 6, -11), (etherproto(65535), 6, -11),
    (bare('ethermulticast'), 6, -14), (bare('ipbroadcast'), 12, 6), (bare('ipmulticast'), 13, 7),
    (bare('ip6multicast'), 11, -11), (bare('pppoediscovery'), 6, -11),
    (tagged('vlan'), 6, -11), (tagged('vlan', 0), 13, -11), (tagged('vlan', 4095), 13, -11),
    (tagged('vlan', 65535), 13, -11), (tagged('mpls'), 7, -15), (tagged('mpls', 0), 14, -15),
    (tagged('mpls', 0xfffff), 14, -15), (tagged('mpls', 0xffffffff), 14, -15),
    (tagged('pppoesession'), 6, -11), (tagged('pppoesession', 0), 12, -11),
    (tagged('pppoesession', 65535), 12, -11),
    (chain('ipprotochain', 0), 11, 5), (chain('ipprotochain', 255), 11, 5),
    (chain('ip6protochain', 0), 11, -11), (chain('ip6protochain', 255), 11, -11),
    (bare('inbound'), -16, -16), (bare('outbound'), -16, -16)]


def counted(primitive, link, count):
    """A sheet of one primitive: its count, or minus its refusal."""
    if count < 0:
        S(link, mode(), write(primitive), 0, L=6, R=(-count, 0))
    else:
        S(link, mode(), write(primitive), 0, L=6 + count, R=(0, 0))


def every_kind():
    for link in (ETHERNET, RAWIP):
        for d, direction in enumerate(DIRECTIONS):
            def count(key):
                return COUNTS[key][link][d]
            counted(host4(direction, C), link, count('host4'))
            counted(host6(direction, SIX), link, count('host6'))
            counted(net4(direction, C, 0xffffff00), link, count('net'))
            counted(net4(direction, 0, 0), link, count('net'))
            counted(etherhost(direction, MAC), link, count('etherhost'))
            for p in PROTOS:
                name = (p, 200) if p in ('num', 'ip6proto') else p
                kind = {None: '', 'tcp': ' tcp', 'udp': ' tcp', 'sctp': ' tcp'}.get(p)
                counted(port(direction, 443, name), link, -12 if kind is None else count('port' + kind))
                counted(portrange(direction, 1, 65535, name), link,
                        -12 if kind is None else count('range' + kind))
        for name, counts in PROTO_COUNTS.items():
            counted(protocol((name, 6) if name in ('num', 'ip6proto') else name), link, counts[link])
        for primitive, *counts in OTHER_COUNTS:
            counted(primitive, link, counts[link])
        for c in COMPARISONS:
            more = c == 'bitand'                    # two instructions, not one
            counted(frame_len(c, 60), link, 3 + more)
            for size in SIZES:
                for layer, count in (('raw', 5), ('net', 5), ('trans', 14)):
                    if c in ('eq', 'bitand') or (size, layer) == (2, 'trans'):
                        counted(access(layer, size, 2, c, 7), link, count + (size > 1) + more)
        steps = [('add', 1), ('xor', 2), ('shr', 3)]
        for n in range(4):                          # one instruction a step
            counted(access('raw', 1, 0, 'eq', 7, steps[:n]), link, 5 + n)
            counted(access('trans', 4, 0, 'bitand', 7, steps[:n]), link, 16 + n)


def prefixes():
    """L for every prefix: 6 a half, one more for a half it ends in."""
    def one(prefix):
        p = min(prefix, 128)
        return p // 16 * 6 + (7 if p % 16 else 0)
    for prefix in range(0, 256, 4):         # every prefix in every direction, four a sheet
        four_ = range(prefix, prefix + 4)
        ts = [net6(d, SIX, p) for d in DIRECTIONS for p in four_]
        S(ETHERNET, mode(), write(chain_of(ts, 'or')),
          L=6 + 15 + 16 * 6 + 6 * sum(one(p) for p in four_) + 4)
    for prefix in (0, 1, 15, 16, 17, 32, 33, 112, 113, 127, 128, 129, 255):
        for direction, n, ja in (('either', 2, 1), ('source', 1, 0), ('destination', 1, 0), ('both', 2, 0)):
            counted(net6(direction, SIX, prefix), ETHERNET, 6 + n * one(prefix) + ja)
        counted(net6(direction, SIX, prefix), RAWIP, -11)
    for prefix, count in ((16, 12), (17, 19), (127, 55), (128, 54), (129, 54), (255, 54)):
        counted(net6('source', SIX, prefix), ETHERNET, count)


# Valid records and, for each byte, what may stand there: 0 nothing but zero;
# 1, 2, 3, 6 up to that; p up to 12, P 1 to 12; * anything; K the kind;
# d and D as 1 and p, but other bytes depend on it, so only wrong values are
# tried; a blank is tried elsewhere (offset and step count of kind 23).
MOST = {'0': 0, '1': 1, '2': 2, '3': 3, '6': 6, 'p': 12, 'P': 12, '*': 255, 'd': 1, 'D': 12}
BASES = [
    (host4('source', C),                    'K300****0000000000000000'),
    (host4('either', 0),                    'K300****0000000000000000'),
    (host6('destination', SIX),             'K3000000****************'),
    (port('source', 443, 'tcp'),            'K3p000**0000000000000000'),
    (port('either', 0),                     'K3p000**0000000000000000'),
    (port('both', 65535, ('num', 255)),     'K3D*00**0000000000000000'),
    (portrange('source', 1, 1024, 'udp'),   'K3p0****0000000000000000'),
    (portrange('both', 65535, 0),           'K3p0****0000000000000000'),
    (portrange('either', 0, 0, ('ip6proto', 1)), 'K3D*****0000000000000000'),
    (net4('both', C, 0xffffff00),           'K300********000000000000'),
    (net4('source', 0, 0),                  'K300********000000000000'),
    (net6('either', SIX, 64),               'K3*00000****************'),
    (protocol('ip'),                        'K0P000000000000000000000'),
    (protocol('sctp'),                      'K0P000000000000000000000'),
    (protocol(('num', 6)),                  'K0D*00000000000000000000'),
    (etherhost('source', MAC),              'K3000000******0000000000'),
    (etherproto(0x0800),                    'K00000**0000000000000000'),
    (etherproto(65535),                     'K00000**0000000000000000'),
    (bare('ethermulticast'),                'K00000000000000000000000'),
    (bare('ipbroadcast'),                   'K00000000000000000000000'),
    (bare('ipmulticast'),                   'K00000000000000000000000'),
    (bare('ip6multicast'),                  'K00000000000000000000000'),
    (tagged('vlan'),                        'K01000000000000000000000'),
    (tagged('vlan', 100),                   'K0d000**0000000000000000'),
    (tagged('mpls'),                        'K01000000000000000000000'),
    (tagged('mpls', 0xfffff),               'K0d0****0000000000000000'),
    (bare('pppoediscovery'),                'K00000000000000000000000'),
    (tagged('pppoesession'),                'K01000000000000000000000'),
    (tagged('pppoesession', 65535),         'K0d000**0000000000000000'),
    (chain('ipprotochain', 6),              'K0*000000000000000000000'),
    (chain('ip6protochain', 255),           'K0*000000000000000000000'),
    (frame_len('ge', 60),                   'K060****0000000000000000'),
    (frame_len('bitand', 0xffffffff),       'K060****0000000000000000'),
    (bare('inbound'),                       'K00000000000000000000000'),
    (bare('outbound'),                      'K00000000000000000000000'),
    (access('raw', 1, 0, 'eq', 0),          'K262    ****  1000000000'),
    (access('trans', 4, 99, 'bitand', C),   'K262    ****  d000000000'),
    (access_load('net', 2, 4, 'ne', 'trans', 4, -1), 'K262    0000  d22****000'),
    (access_load('raw', 1, 0, 'eq', 'raw', 1, 0),    'K262    0000  122****000'),
]


def shaped(shape, r):
    """A record alone; as second primitive; after steps; before other faults.
    The sheet and where the record starts."""
    fine, bad = IP[0], b'\xff' * 24
    if shape == 0:
        return raw_sheet([], [r], [0]), 4
    if shape == 1:
        return raw_sheet([], [fine, r, fine], [1, 0, 1, 0, 0]), 28
    if shape == 2:
        return raw_sheet([(9, 255), (0, 0)], [r], [0]), 14
    return raw_sheet([], [r, bad], [1, 0, 9]), 4


def wrong_values(c, nth):
    """Values that are wrong where c stands, for a kind's nth record."""
    if c in '* ':
        return []
    if c == 'K':
        return [0, 24, 255] if nth == 0 else []
    if c == '0':
        return [(1, 255, 16, 128)[nth]]
    return [MOST[c] + 1] + ([255] if nth == 0 else []) + ([0] if c == 'P' else [])


def tried(i, c, nth):
    """Of a kind's first record every byte is tried, of later ones fewer."""
    return nth == 0 or c != '0' or i < 6 or i == 8 or nth == 1 and i % 4 == 3


LEGAL_ENDS = {'p': [0, 12], 'P': [1, 12], '1': [0, 1], '2': [0, 2], '3': [0, 3], '6': [0, 6]}


def wrong_bytes():
    """Every byte of a valid record wrong alone, two wrong at once, and each
    byte at the ends of what is legal."""
    shape, count = 0, {}
    for (r, steps), spec in BASES:
        assert len(spec) == 24, spec
        nth = count[r[0]] = count.get(r[0], -1) + 1
        S(ETHERNET, mode(), write((r, steps)), 0)
        S(RAWIP, mode(), write((r, steps)), 0)
        for i, c in enumerate(spec):
            for value in wrong_values(c, nth):
                if tried(i, c, nth):
                    sheet, start = shaped(shape % 4, put(r, i, bytes([value])))
                    shape += 1
                    S(shape % 2, mode(), sheet, (3, start + i))
            for value in LEGAL_ENDS.get(c, []):
                S(shape % 2, mode(), write((put(r, i, bytes([value])), steps)), 0)
        free = [i for i, c in enumerate(spec) if c == '*']
        for value in (b'\0', b'\xff'):
            full = r
            for i in free:
                full = put(full, i, value)
            S(shape % 2, mode(), write((full, steps)), 0)
            for i in free[:1] + free[-1:] if nth == 0 else []:
                S(shape % 2, mode(), write((put(r, i, value), steps)), 0)
        places = [i for i, c in enumerate(spec) if c not in '* ' and (r[0], i) != (23, 14)]
        for _ in range(2 if nth == 0 else 1):       # the lower wins
            i, j = sorted((dice.pick(places), dice.pick(places)))
            sheet, start = shaped(shape % 4, put(put(r, j, b'\xfd'), i, b'\xfe'))
            shape += 1
            S(shape % 2, mode(), sheet, (3, start + i))


def wrong_dependent():
    """Bytes whose rule hangs on another byte (all places in a sheet of one)."""
    def one(r, at):
        S(dice.below(2), mode(), raw_sheet([], [r], [0]), (3, 4 + at))

    def fine(r):
        S(dice.below(2), mode(), raw_sheet([], [r], [0]), 0)
    for kind in (3, 4, 7):                          # q is the number of 11 and 12, else zero
        for p in range(13):
            if p in (11, 12):
                fine(record(kind, 0, p, 0))
                fine(record(kind, 0, p, 255))
            elif p or kind != 7:
                one(record(kind, 0, p, 1), 3)
        one(record(kind, 0, 13, 9), 2)
    one(record(7, 0, 0, 0), 2)
    one(record(7, 0, 0, 9), 2)
    for kind in (14, 15, 17):                       # p 0: none, n 0, byte by byte
        for n, at in ((7, 7), (0x100, 6), (0x10000, 5), (0x1000000, 4), (0xffffffff, 4)):
            one(record(kind, 0, 0, 0, n), at)
        one(record(kind, 0, 2, 0, 0), 2)
        one(record(kind, 0, 2, 0, 7), 2)
        one(record(kind, 0, 1, 7, 7), 3)
    for kind in (14, 17):
        for n, at in ((0x10000, 5), (0x1000000, 4), (0x00ff0000, 5)):
            one(record(kind, 0, 1, 0, n), at)
        fine(record(kind, 0, 1, 0, 65535))
    for n in (0x10000, 0x100000, 0x1000000, 0xffffffff):
        fine(record(15, 0, 1, 0, n))
    for kind, p in ((3, 0), (9, 0)):
        for n, at in ((0x10000, 5), (0x1000000, 4), (0x01010000, 4)):
            one(record(kind, 0, p, 0, n), at)
    # byte 14 of a byte access
    load = lambda constant, b15=0, b16=0, b17=0, b21=0: record(
        23, 0, 0, 0, 0, four(constant) + bytes([0, 0, 1, b15, b16]) + four(b17) + bytes([b21]))
    for constant, at in ((1, 11), (0x100, 10), (0x10000, 9), (0x1000000, 8), (0xffffffff, 8)):
        one(load(constant), at)                     # 8-11 zero under a load
    fine(load(0))
    fine(load(0, 2, 2, 0xffffffff))
    one(load(0, 3), 15)
    one(load(0, 0, 3), 16)
    one(load(0, 3, 3), 15)
    one(load(0, 2, 2, 0x80000000, 1), 21)
    one(load(1, 3, 3, 0, 1), 11)
    for at in range(15, 24):                        # unused after a constant
        one(put(record(23), at, b'\x01'), at)
        one(put(record(23, 2, 6, 2, 5, b'\xff' * 4), at, b'\xff'), at)
    for at in (21, 22, 23):                         # unused after a load
        one(put(record(23, a=bytes(6) + b'\x01'), at, b'\x01'), at)
    for value in (2, 3, 128, 255):                  # neither: the only fault looked for in 8-23
        r = put(record(23), 14, bytes([value]))
        one(r, 14)
        one(put(r, 8, b'\xff' * 6), 14)
        one(put(r, 15, b'\xff' * 9), 14)
        one(put(put(r, 8, b'\xff' * 6), 15, b'\xff' * 9), 14)
        one(put(r, 4, b'\xff' * 4), 14)
        one(put(r, 1, b'\x03'), 1)                  # faults of 1-3 still come first
        one(put(r, 2, b'\x07'), 2)
        one(put(r, 3, b'\x03'), 3)
        one(put(put(r, 3, b'\xff'), 2, b'\xff'), 2)
    # such a record, then a worse one before or after it
    r = put(record(23), 14, b'\x02')
    S(0, 0, raw_sheet([], [r, record(0)], [1, 0, 0]), (3, 4 + 14))
    S(0, 0, raw_sheet([], [record(24), r], [1, 0, 0]), (3, 4))
    S(0, 0, raw_sheet([], [IP[0], r], [1, 0, 0]), (3, 28 + 14))
    # an unknown kind is the lowest fault of its record
    for kind in (0, 24, 25, 127, 128, 255):
        for rest in (bytes(23), b'\xff' * 23):
            S(dice.below(2), mode(), raw_sheet([], [bytes([kind]) + rest], [0]), (3, 4))


def wrong_sections():
    """Step operators and tokens, and faults in several sections."""
    ok = access('raw', 1, 0, 'eq', 0, [('add', 1), ('sub', 2), ('and', 3)])
    r, steps = ok
    for op in range(10):
        S(0, 0, raw_sheet([(op, 5)], [access('raw', 1, 0, 'eq', 0, [('add', 5)])[0]], [0]), 0)
    for op in (10, 15, 255):
        for at in range(3):
            bad = list(steps)
            bad[at] = (op, 0xffffffff)
            S(0, mode(), raw_sheet(bad, [r], [0]), (3, 2 + 5 * at))
            S(1, mode(), raw_sheet(bad, [record(0)], [7]), (3, 2 + 5 * at))
        S(0, 1, raw_sheet([(op, 0)], [], []), (3, 2))           # 3 before 4
    for t in (4, 7, 255):
        S(0, mode(), raw_sheet([], [IP[0]], [t]), (3, 2 + 2 + 24 + 2))
        S(0, mode(), raw_sheet([], [IP[0]], [0, t]), (3, 31))
        S(1, mode(), raw_sheet([], [], [t]), (3, 6))
        S(1, mode(), raw_sheet(steps, [r], [3, 3, t, 0]), (3, 2 + 15 + 2 + 24 + 2 + 2))
        S(1, mode(), raw_sheet(steps, [r], [t, 255, 0]), (3, 45))
        S(0, mode(), raw_sheet(steps, [r, put(r, 23, b'\x01')], [1, 0, t]), (3, 2 + 15 + 2 + 24 + 23))
    # the same wrong record in each place of five
    for i in range(5):
        rs = [IP[0]] * 5
        rs[i] = put(IP[0], 9, b'\x05')
        S(0, 0, raw_sheet([(1, 1)], rs, [0]), (3, 2 + 5 + 2 + 24 * i + 9))
    for _ in range(28):                     # a few wrong bytes anywhere: the lowest one
        ss = [(dice.pick([0, 4, 9, 9, 10]), dice.word()) for _ in range(dice.below(4))]
        rs = [put(IP[0], dice.below(24), bytes([dice.pick([0, 1, 1, 200])])) for _ in range(dice.below(4))]
        ts = [dice.pick([0, 1, 2, 3, 4]) for _ in range(dice.below(4))]
        S(dice.below(2), mode(), raw_sheet(ss, rs, ts))


def lengths():
    """Refusal 2: cut and too long, at every border."""
    ok = write(both(access('raw', 1, 0, 'eq', 0, [('add', 1), ('or', 2)]), no(IP)))
    S(0, 0, ok, 0, L=6 + 7 + 6 + 1)
    borders = [0, 1, 2, 6, 7, 8, 11, 12, 13, 14, 15, 37, 38, 39, 61, 62, 63, 64, 65, 66, 67]
    assert len(ok) == 68
    for n in borders:
        S(n % 2, mode(), ok[:n], (2, 0))
    for more in (b'\0', b'\0\0', b'\xff', bytes(24)):
        S(0, 0, ok + more, (2, 0))
    for n in range(6):                      # counts alone
        S(0, 0, bytes(n), (2, 0))
    S(0, 0, bytes(6), (4, 0))
    S(0, 0, bytes(7), (2, 0))
    for at in (0, 12, 62):                  # one more, one fewer, many
        for n in (0, 1, 3, 0x0100, 0x7fff, 0x8000, 0xffff):
            if n != number(ok[at:at + 2]):
                bad = put(ok, at, n.to_bytes(2, 'big'))
                S(0, mode(), bad, (2, 0))
    # section borders: each section too short and too long by one record
    for s in (0, 1, 2):
        for p in (0, 1, 2):
            for t in (0, 1, 2):
                head = (s.to_bytes(2, 'big') + bytes(5 * s) + p.to_bytes(2, 'big') + IP[0] * p
                        + t.to_bytes(2, 'big') + bytes(t))
                if (s + p + t) % 2:
                    S(0, mode(), head[:-1], (2, 0))
                    S(0, mode(), head + b'\0', (2, 0))
                S(0, mode(), head, 0 if (s, p, t) == (0, 1, 1) else (4, 0))
    # lengths that agree only in their low 16 bits: 13108 steps are 65540 bytes
    S(0, 0, b'\x33\x34' + bytes(4) + b'\0\0\0\0', (2, 0))
    S(0, 0, b'\x33\x34' + bytes(4) + b'\0\1' + IP[0] + b'\0\1\0', (2, 0))
    S(0, 0, b'\0\0\x15\x56' + bytes(16) + b'\0\1\0', (2, 0))       # 5462 records: 131088 bytes
    for counts in ((0xffff, 0, 0), (0, 0xffff, 0), (0, 0, 0xffff)):
        S(0, 0, b''.join(n.to_bytes(2, 'big') for n in counts), (2, 0))
    # 2 before 3, and before 4, 5, 6
    S(0, 0, raw_sheet([(255, 0)], [b'\xff' * 24], [255]) + b'\0', (2, 0))
    S(0, 0, raw_sheet([(255, 0)], [b'\xff' * 24], [255])[:-1], (2, 0))
    S(0, 0, write(access('raw', 1, -1, 'eq', 0))[:-1], (2, 0))
    S(0, 0, write(access('raw', 1, 0, 'eq', 0, [('shl', 32)])) + b'\0', (2, 0))


def links_and_modes():
    ok, bad = write(IP), b'\xff'
    for link in (0, 1, 2, 3, 128, 255):
        for m in (0, 1, 2, 255):
            fine = link < 3 and m < 2
            S(link, m, ok, 0 if fine else (1, 0))
            S(link, m, bad, (2, 0) if fine else (1, 0))
    for sheet in (b'', bytes(6), put(ok, 4, b'\0'), write(access('raw', 1, -1, 'eq', 0))):
        S(3, 0, sheet, (1, 0))
        S(0, 2, sheet, (1, 0))
        E(3, sheet, b'', (1, 0))
    for link in (3, 128, 255):
        E(link, ok, eth(0x0800), (1, 0))
        E(link, bad, b'', (1, 0))


def trees():
    """Refusal 4, and L of Or and Not."""
    def t(tokens, primitives, want, L=None):
        S(dice.below(2), mode(), raw_sheet([], [IP[0]] * primitives, tokens), want, L)
    for tokens, primitives in [
            ([], 0), ([], 1), ([0], 0), ([0], 2), ([0, 0], 2), ([0, 0], 1), ([1], 0), ([1], 1), ([1], 2),
            ([2], 2), ([3], 0), ([3], 1), ([1, 0], 1), ([1, 0], 2), ([2, 0], 1), ([2, 0], 2), ([3, 3], 0),
            ([3, 3], 1), ([1, 0, 0], 1), ([1, 0, 0], 3), ([1, 0, 0, 0], 3), ([0, 1, 0], 2), ([0, 3], 1),
            ([3, 0, 0], 2), ([3, 0, 3], 1), ([0, 3, 0], 2), ([0, 0, 1], 2), ([1, 0, 3], 1), ([1, 3, 0], 1),
            ([1, 1, 0, 0], 2), ([1, 1, 0, 0, 0, 0], 4), ([2, 1, 0, 0], 2), ([1, 0, 2, 0], 2),
            ([1, 0, 1, 0, 1, 0], 3), ([3, 1, 0, 0, 0], 3), ([0, 1, 2, 3], 1), ([1, 1, 1, 0, 0, 0], 3)]:
        t(tokens, primitives, (4, 0))
    for tokens, primitives, more in [
            ([0], 1, 0), ([3, 0], 1, 1), ([3, 3, 0], 1, 2), ([1, 0, 0], 2, 0), ([2, 0, 0], 2, 1),
            ([1, 1, 0, 0, 0], 3, 0), ([1, 0, 1, 0, 0], 3, 0), ([2, 2, 0, 0, 0], 3, 2), ([2, 0, 2, 0, 0], 3, 2),
            ([3, 2, 3, 0, 3, 0], 2, 4), ([1, 2, 0, 0, 2, 0, 0], 4, 2), ([2, 1, 0, 0, 3, 1, 0, 0], 4, 2)]:
        S(ETHERNET, mode(), raw_sheet([], [IP[0]] * primitives, tokens), 0, L=6 + 6 * primitives + more)
        S(RAWIP, mode(), raw_sheet([], [IP[0]] * primitives, tokens), 0, L=6 + more)
    # every string of up to four tokens, with as many primitives as zeros
    for n in range(1, 5):
        for code in range(4 ** n):
            if n < 4 or code % 13 == 0:
                tokens = [code >> 2 * i & 3 for i in range(n)]
                t(tokens, tokens.count(0), 0 if grows(tokens) else (4, 0))
    # steps left over or lacking
    def s(steps, takes, want):
        rs = [record(23, a=bytes(4) + n.to_bytes(2, 'big')) for n in takes]
        S(dice.below(2), mode(), raw_sheet([(0, 1)] * steps, rs, [1] * (len(rs) - 1) + [0] * len(rs)), want)
    for steps, takes_, want in [
            (0, [0], 0), (1, [0], (4, 0)), (0, [1], (4, 0)), (1, [1], 0), (2, [1], (4, 0)), (1, [2], (4, 0)),
            (3, [1, 2], 0), (3, [2, 1], 0), (3, [3, 0], 0), (3, [0, 3], 0), (3, [1, 1], (4, 0)),
            (3, [2, 2], (4, 0)), (3, [0, 0], (4, 0)), (0, [65535], (4, 0)), (0, [32768, 32768], (4, 0)),
            (1, [65535, 2], (4, 0)), (0, [65535, 1], (4, 0)), (2, [32769, 32769], (4, 0)),
            (5, [256], (4, 0)), (0, [256], (4, 0)), (1, [256], (4, 0)), (4, [1, 1, 1, 1], 0), (255, [255], 0),
            (256, [256], 0), (257, [256], (4, 0)), (300, [44, 256], 0)]:
        s(steps, takes_, want)
    S(0, 0, raw_sheet([(0, 1)], [IP[0]], [0]), (4, 0))              # no byte access takes it
    # bytes 12-13 of other kinds are no step count
    S(0, 0, raw_sheet([], [host6('source', b'\xff' * 16)[0]], [0]), 0, L=60)
    S(0, 0, raw_sheet([], [etherhost('source', b'\xff' * 6)[0]], [0]), 0, L=18)
    # a load takes its steps too
    two_steps = [('add', 1), ('add', 2)]
    r, steps = access_load('raw', 1, 0, 'eq', 'raw', 1, 1, two_steps)
    S(0, 0, raw_sheet(steps, [r], [0]), 0, L=6, R=(17, 0))
    S(0, 0, raw_sheet(steps[:1], [r], [0]), (4, 0))
    S(0, 0, raw_sheet([], [r], [0]), (4, 0))
    # 4 before 5 and 6
    S(0, 0, raw_sheet([], [access('raw', 1, -1, 'eq', 0)[0]], [0, 0]), (4, 0))
    S(0, 0, raw_sheet([(8, 99)], [access('raw', 1, 0, 'eq', 0, [('shl', 99)])[0]], [3]), (4, 0))
    # 3 before 4
    S(0, 0, raw_sheet([], [IP[0]], [1, 4]), (3, 31))


def grows(tokens):
    """Whether tokens are one whole tree, found by taking leaves away: the
    last operator whose operands follow it becomes a leaf."""
    tokens = list(tokens)
    while True:
        for i in range(len(tokens) - 1, -1, -1):
            n = {1: 2, 2: 2, 3: 1}.get(tokens[i])
            if n and tokens[i + 1:i + 1 + n] == [0] * n:
                tokens[i:i + 1 + n] = [0]
                break
        else:
            return tokens == [0]


def large():
    """Counts of 65535 tokens and what fits beside them."""
    last = access('raw', 1, 0, 'eq', 0)
    S(ETHERNET, 0, write(nots(65534, last)), 0, L=6 + 65534 + 5)    # a chain of Not
    records_ = [bytes([20, 0, i % 7, 0]) + four(i) + bytes(16) for i in range(20000)]
    tokens = [AND] * 19999 + [0] * 20000                            # a left-deep chain of And
    bitands = sum(1 for i in range(20000) if i % 7 == 6)
    S(RAWIP, 1, raw_sheet([], records_, tokens), 0, L=6 + 3 * 20000 + bitands)
    S(0, 0, raw_sheet([], [], [AND] * 4000), (4, 0))
    S(0, 0, raw_sheet([], [IP[0]] * 3, [NOT] * 4000), (4, 0))
    many = [('add', i) for i in range(1000)]
    S(0, 0, write(access('trans', 2, 0, 'bitand', 1, many)), 0, L=6 + 16 + 1000)
    many[999] = ('shr', 32)
    S(0, 0, write(both(IP, access('trans', 2, 0, 'bitand', 1, many))), (6, 1))
    many[999] = ('mod', 1)
    S(0, 0, write(either(IP, access('trans', 2, 0, 'bitand', 1, many))), 0, L=6 + 6 + 1, R=(19, 1))
    right = chain_of([IP] * 300, 'or', left_deep=False)
    S(ETHERNET, 0, write(right), 0, L=6 + 299 + 1800)
    S(RAWIP, 0, write(right), 0, L=6 + 299)


OFFSETS = [0, 256, 32752, 32753, 32754, 32767, 32768, 65535, 65536, 0x7ffffff1, 0x7ffffff2, 0x7fffffff,
           0x80000000, 0xfffffff2, 0xffffffff]


def offsets():
    """Refusal 5."""
    for layer in LAYERS:
        for link in (ETHERNET, RAWIP):
            most = 32753 if (layer, link) == ('net', ETHERNET) else 32767
            for offset in OFFSETS:
                want = 0 if offset <= most else (5, 0)
                size = dice.pick(SIZES)
                S(link, mode(), write(access(layer, size, offset, 'lt', 1)), want)
                if offset in (32753, 32754, 32767, 32768, 0x7fffffff, 0xffffffff):
                    # 5 before 17; the right offset is not looked at
                    S(link, mode(), write(access_load(layer, 1, offset, 'eq', 'net', 4, offset)), want)
            S(link, 0, write(access_load(layer, 1, 0, 'eq', layer, 4, -1)), 0, R=(17, 0))
            S(link, 0, write(access_load(layer, 1, most, 'eq', layer, 4, 0x7fffffff)), 0, R=(17, 0))
    # no other kind has an offset
    S(0, 0, write(frame_len('eq', 0xffffffff)), 0)
    S(0, 0, write(host4('either', 0xffffffff)), 0)
    # the first such primitive
    good, far, minus = (access('raw', 1, n, 'eq', 0) for n in (0, 32768, -1))
    at_net = access('net', 1, 32760, 'eq', 0)
    for items, place in [([IP, far], 1), ([good, IP, minus], 2), ([far, minus], 0), ([good, far, minus], 1),
                         ([good, minus, far], 1), ([IP, IP, IP, IP, far, IP], 4)]:
        S(0, mode(), write(chain_of(items, 'and')), (5, place))
        S(1, mode(), write(chain_of(items, 'or', left_deep=False)),
          (5, min(i for i, x in enumerate(reversed(items)) if x in (far, minus))))
    S(0, 0, write(both(at_net, far)), (5, 0))
    S(1, 0, write(both(at_net, far)), (5, 1))
    S(1, 0, write(both(at_net, IP)), 0)
    S(0, 0, write(both(bare('inbound'), far)), (5, 1))              # before 11 to 19


def shifts():
    """Refusal 6."""
    for op in ('shl', 'shr'):
        for by in (0, 1, 16, 30, 31, 32, 33, 64, 255, 256, 0x7fffffff, 0x80000000, 0xffffffff):
            S(dice.below(2), mode(), write(access('net', 2, 3, 'gt', 1, [(op, by)])), 0 if by < 32 else (6, 0))
    for op in ('add', 'sub', 'mul', 'div', 'mod', 'and', 'or', 'xor'):
        for by in (32, 0xffffffff):
            S(0, mode(), write(access('raw', 1, 0, 'eq', 0, [(op, by)])), 0)
    bad = [('shl', 32)]
    for before in ([], [('add', 1)], [('div', 0)], [('mod', 3)], [('shr', 31)]):
        for after in ([], [('div', 0)], [('mod', 3)], [('shl', 0)]):    # also where 18, 19 would come
            steps = before + bad + after
            x = (access('raw', 1, 0, 'eq', 0, steps) if dice.below(2) else
                 access_load('raw', 1, 0, 'eq', 'raw', 1, 1, steps))
            S(dice.below(2), mode(), write(x), (6, 0))
    good, shift = access('raw', 1, 0, 'eq', 0, [('shl', 31)]), access('raw', 1, 0, 'eq', 0, bad)
    far = access('raw', 1, 40000, 'eq', 0)
    far_shift = access('raw', 1, 40000, 'eq', 0, bad)
    for items, want in [([IP, shift], (6, 1)), ([good, shift], (6, 1)), ([shift, shift], (6, 0)),
                        ([good, good, shift, good], (6, 2)), ([shift, far], (5, 1)), ([far, shift], (5, 0)),
                        ([far_shift], (5, 0)), ([shift, IP, far_shift], (5, 2)), ([good, good], 0),
                        ([bare('inbound'), shift], (6, 1)), ([shift, bare('inbound')], (6, 0))]:
        for link in (0, 1):
            S(link, mode(), write(chain_of(items, dice.pick(['and', 'or']))), want)
    # the primitive, not the step; steps belong to the access that takes them
    three = [('add', 1)] * 3
    S(0, 0, write(both(access('raw', 1, 0, 'eq', 0, three), access('raw', 1, 0, 'eq', 0, bad))), (6, 1))
    S(0, 0, write(both(access('raw', 1, 0, 'eq', 0, three + bad), access('raw', 1, 0, 'eq', 0))), (6, 0))
    S(0, 0, write(both(access('raw', 1, 0, 'eq', 0), access('raw', 1, 0, 'eq', 0, three + bad))), (6, 1))


def first_refusals():
    """11 to 19: which primitive, and the order inside one."""
    D0, M = ('div', 0), ('mod', 5)
    good = ('add', 0)
    for steps, R in [([D0], 18), ([M], 19), ([D0, M], 18), ([M, D0], 19), ([good, D0], 18), ([good, M], 19),
                     ([good, M, D0], 19), ([good, D0, M], 18), ([('mod', 0)], 19), ([('mod', 0), D0], 19),
                     ([('div', 1)], 0), ([('div', 0x80000000)], 0), ([('div', 0xffffffff)], 0), ([('and', 0)], 0),
                     ([('mul', 0)], 0), ([('div', 1), ('div', 0)], 18), ([('shr', 31), M], 19)]:
        for layer, link in (('raw', ETHERNET), ('net', RAWIP), ('trans', ETHERNET)):
            x = access(layer, 2, 1, 'ne', 9, steps)
            count = (15 if layer == 'trans' else 6) + len(steps)
            S(link, mode(), write(x), 0, L=6 + (0 if R else count), R=(R, 0))
        x = access_load('raw', 2, 1, 'ne', 'net', 1, 3, steps)      # 17 before 18 and 19
        S(dice.below(2), mode(), write(x), 0, L=6, R=(17, 0))
    # the first primitive in the sheet's order; the others still count in L
    i, div = bare('inbound'), access('raw', 1, 0, 'eq', 0, [D0])
    mod, load = access('raw', 1, 0, 'eq', 0, [M]), access_load('raw', 1, 0, 'eq', 'raw', 1, 0)
    mac, multi, mpls = etherhost('either', MAC), bare('ethermulticast'), tagged('mpls', 3)
    icmp_port, host = port('either', 1, 'icmp'), host4('source', A)
    for items, eth_answer, raw_answer in [
            ([IP, i], (12, (16, 1)), (6, (16, 1))), ([i, IP], (12, (16, 0)), (6, (16, 0))),
            ([i, div], (6, (16, 0)), (6, (16, 0))), ([div, i], (6, (18, 0)), (6, (18, 0))),
            ([mod, div], (6, (19, 0)), (6, (19, 0))), ([div, mod], (6, (18, 0)), (6, (18, 0))),
            ([load, div], (6, (17, 0)), (6, (17, 0))), ([div, load], (6, (18, 0)), (6, (18, 0))),
            ([host, icmp_port, i], (18, (12, 1)), (12, (12, 1))),
            ([mac, i], (31, (16, 1)), (6, (13, 0))), ([multi, mac], (37, (0, 0)), (6, (14, 0))),
            ([mpls, multi, mac], (51, (0, 0)), (6, (15, 0))), ([host, mpls], (32, (0, 0)), (12, (15, 1))),
            ([host, host, host6('both', SIX), i], (132, (16, 3)), (18, (11, 2))),
            ([protocol('arp'), mac], (37, (0, 0)), (6, (11, 0))),
            ([IP, protocol('tcp'), protocol('icmp6')], (41, (0, 0)), (11, (11, 2)))]:
        for link, (L, R) in ((ETHERNET, eth_answer), (RAWIP, raw_answer)):
            S(link, mode(), write(chain_of(items, 'and')), 0, L=L, R=R)
            S(link, mode(), write(chain_of([no(x) for x in items], 'or')), 0, L=L + 2 * len(items) - 1, R=R)
    # ports: 12 on both links, never 11
    for p in ('ip', 'ip6', 'arp', 'rarp', 'icmp', 'icmp6', 'igmp', ('num', 6), ('num', 17), ('ip6proto', 6)):
        S(RAWIP, mode(), write(both(IP, port('source', 9, p))), 0, R=(12, 1))


def any_primitive():
    """Some primitive that is not refused 3; offsets and shifts may earn 5 and 6."""
    d = dice.pick(DIRECTIONS)
    kind = 1 + dice.below(23)
    p = dice.pick(PROTOS)
    name = (p, dice.below(256)) if p in ('num', 'ip6proto') else p
    steps = [(dice.pick(STEPS), dice.pick([0, 1, 3, 31, 7, 12, 0xffff, dice.word()])) for _ in range(dice.below(4))]
    steps = [(op, by % 32 if op in ('shl', 'shr') and dice.below(8) else by) for op, by in steps]
    if kind == 1:
        return host4(d, dice.pick([A, B, C]))
    if kind == 2:
        return host6(d, dice.pick([SIX, SIX2]))
    if kind == 3:
        return port(d, dice.pick([80, 443, 0x1234]), name)
    if kind == 4:
        return portrange(d, dice.pick([0, 80, 443]), dice.pick([80, 443, 65535]), name)
    if kind == 5:
        return net4(d, dice.pick([A, B, C]), dice.pick([0, 0xff000000, 0xffffff00, 0x00ff00ff, 0xffffffff]))
    if kind == 6:
        return net6(d, dice.pick([SIX, SIX2]), dice.below(256))
    if kind == 7:
        return protocol(name or 'tcp')
    if kind == 8:
        return etherhost(d, dice.pick([MAC, MAC2]))
    if kind == 9:
        return etherproto(dice.pick([0x0800, 0x0800, 0x86dd, 0x0806, dice.below(65536)]))
    if kind in (14, 15, 17):
        return tagged(KINDS[kind], dice.pick([None, 0, 7, 100, 4096]))
    if kind in (18, 19):
        return chain(KINDS[kind], dice.pick([6, 17, 58, dice.below(256)]))
    if kind == 20:
        return frame_len(dice.pick(COMPARISONS), dice.pick([0, 14, 34, 38, 60, dice.word()]))
    if kind == 23:
        offset = dice.pick([0, 1, 2, 9, 12, 20, 32750 + dice.below(30)])
        if dice.below(6) == 0:
            return access_load(dice.pick(LAYERS), dice.pick(SIZES), offset, dice.pick(COMPARISONS),
                               dice.pick(LAYERS), dice.pick(SIZES), dice.word(), steps)
        return access(dice.pick(LAYERS), dice.pick(SIZES), offset, dice.pick(COMPARISONS), dice.word(), steps)
    return bare(KINDS[kind])


def any_tree(leaves, primitive):
    if leaves == 1:
        return no(primitive()) if dice.below(4) == 0 else primitive()
    left = 1 + dice.below(leaves - 1)
    tree = (dice.pick(['and', 'or']), any_tree(left, primitive), any_tree(leaves - left, primitive))
    return no(tree) if dice.below(5) == 0 else tree


def any_sheets():
    """Mixed trees, some with a few bytes changed: the model alone answers."""
    for i in range(60):
        sheet = write(any_tree(1 + dice.below(6), any_primitive))
        if i % 3 == 2:
            for _ in range(1 + dice.below(2)):
                sheet = put(sheet, dice.below(len(sheet)), bytes([dice.pick([0, 1, 2, 3, 4, 12, 255])]))
        S(dice.below(2), mode(), sheet)


# ==================================================================== E cases

LINKS = (ETHERNET, RAWIP)
X4 = 0x7f010203                             # an address no test asks for
X6 = bytes(range(16))


def directed(direction, source, destination):
    """What a direction makes of its two sides (stated apart from the model)."""
    if direction == 'source':
        return source
    if direction == 'destination':
        return destination
    return (source or destination) if direction == 'either' else (source and destination)


def hosts4():
    for link in LINKS:
        net = 14 if link == ETHERNET else 0
        for d in DIRECTIONS:
            address = (A, C)[link]
            for src, dst in ((address, address), (address, X4), (X4, address), (X4, X4)):
                E(link, host4(d, address), on(link, 17, src, dst), directed(d, src == address, dst == address))
            end = net + {'either': 16, 'source': 16, 'destination': 20, 'both': 20}[d]
            for tree in (host4(d, A), net4(d, A, 0xffffffff)):
                needs(link, tree, on(link, 6, A, A) + b'zz', end, [14, net + 13, net + 16])
                if d == 'either':           # destination alone: all 20 bytes; the source's are there then
                    needs(link, tree, on(link, 6, X4, A), net + 20, [net + 16])
            for i in range(4) if d in ('source', 'both') else ():    # one bit wrong in each byte
                frame = on(link, 6, A, A)
                frame = flip(flip(frame, 8 * (net + 12 + i) + 2 * i), 8 * (net + 16 + i) + 7 - i)
                never(link, host4(d, A), frame)
        if link == ETHERNET:
            for x in (0x0801, 0x0900, 0x0008, 0x86dd, 0x0806, 0):
                never(link, host4('either', A), put(on(link, 6, A, A), 12, x.to_bytes(2, 'big')))
        else:                               # the version is never looked at
            E(link, host4('either', A), put(on(link, 6, A, A), 0, b'\x65'), True)
            E(link, host4('either', A), bytes(16) + four(A), True)


def nets4():
    for link in LINKS:
        net = 14 if link == ETHERNET else 0
        for d in DIRECTIONS:
            for mask in (0, 0x80000001, 0xff000000, 0x00ff00ff):
                inside = 0xc0a80114 ^ (~mask & 0xffffffff)      # every bit outside the mask turned
                lowest = mask & -mask
                outside = 0xc0a80114 ^ lowest
                E(link, net4(d, 0xc0a80114, mask), on(link, 1, inside, inside), True)
                if mask and d != 'destination':
                    E(link, net4(d, 0xc0a80114, mask), on(link, 1, outside, inside), directed(d, False, True))
                if mask and d != 'source':
                    E(link, net4(d, 0xc0a80114, mask), on(link, 1, inside, outside), directed(d, True, False))
            # the whole word is read, whatever the mask
            end = net + {'either': 16, 'source': 16, 'destination': 20, 'both': 20}[d]
            for mask in (0, 0xff0000ff):
                needs(link, net4(d, A, mask), on(link, 6, A, A), end, [net + 13, net + 17])
        # an address with bits outside its mask, above and below 2^31
        E(link, net4('source', 0xffffffff, 0x7fffffff), on(link, 1, 0x7fffffff), True)
        E(link, net4('source', 0xffffffff, 0x7fffffff), on(link, 1, 0xffffffff), True)
        E(link, net4('source', 0xffffffff, 0x7fffffff), on(link, 1, 0xfffffffe), False)


def hosts6():
    for d in DIRECTIONS:
        for src, dst in ((SIX, SIX), (SIX, X6), (X6, SIX), (X6, X6)):
            E(ETHERNET, host6(d, SIX), six(6, src, dst), directed(d, src == SIX, dst == SIX))
        end = {'either': 38, 'source': 38, 'destination': 54, 'both': 54}[d]
        needs(ETHERNET, host6(d, SIX), six(6, SIX, SIX) + b'zz', end, [13, 14, 22, 36, 38, 39, 53])
        if d == 'either':
            needs(ETHERNET, host6(d, SIX), six(6, X6, SIX), 54, [38, 39, 52])
        for i in range(16):                 # each byte of each side
            source = flip(six(6, SIX, SIX), 8 * (22 + i) + i % 8)
            destination = flip(six(6, SIX, SIX), 8 * (38 + i) + (i + 3) % 8)
            if d == 'source' or i % 4 == 1:
                E(ETHERNET, host6(d, SIX), source, directed(d, False, True))
            if d == 'destination' or i % 4 == 2:
                E(ETHERNET, host6(d, SIX), destination, directed(d, True, False))
    for x in (0x0800, 0x86dc, 0x86df, 0xdd86):
        never(ETHERNET, host6('either', SIX), put(six(6, SIX, SIX), 12, x.to_bytes(2, 'big')))
    E(ETHERNET, host6('source', SIX), put(six(6, SIX, SIX), 14, b'\x45'), True)     # version not looked at


def nets6():
    for d in DIRECTIONS:
        for prefix in (0, 1, 15, 16, 17, 127, 128, 255) + ((129,) if d == 'source' else ()):
            p = min(prefix, 128)
            read = 2 * ((p + 15) // 16)     # bytes of the halves it enters
            tree = net6(d, SIX, prefix)
            frame = six(6, SIX, SIX)
            for bit in range(p, 128, 11):   # nothing outside the prefix matters
                frame = flip(flip(frame, 8 * 22 + bit), 8 * 38 + bit)
            start = {'either': 22, 'source': 22, 'destination': 38, 'both': 38}[d]
            needs(ETHERNET, tree, frame, start + read if read else 14, [] if read else [13, 22])
            if p:                           # the last bit inside it, then the first
                for bit in (0, p - 1) if d == 'both' else (p - 1,):
                    if d != 'destination':
                        E(ETHERNET, tree, flip(frame, 8 * 22 + bit), directed(d, False, True))
                    E(ETHERNET, tree, flip(frame, 8 * 38 + bit), directed(d, True, False))
            if p and d == 'either':         # one side alone
                needs(ETHERNET, tree, flip(frame, 8 * 22), 38 + read, [38])
        never(ETHERNET, net6(d, SIX, 0), on(ETHERNET))
    # prefix 0 reads no address byte; mask 0 reads a whole word
    E(ETHERNET, net6('both', SIX, 0), six()[:14], True)
    E(ETHERNET, net4('both', A, 0), on(ETHERNET)[:33], False)
    E(ETHERNET, net4('both', A, 0), on(ETHERNET)[:34], True)
    # 17 and 16: four bytes and two
    E(ETHERNET, net6('source', SIX, 17), six()[:26], True)
    E(ETHERNET, net6('source', SIX, 17), six()[:25], False)
    E(ETHERNET, net6('source', SIX, 16), six()[:24], True)
    E(ETHERNET, net6('source', SIX, 16), six()[:23], False)
    E(ETHERNET, net6('source', SIX, 15), six()[:23], False)


STACKS = {                                  # a frame with ports: where they start, and the protocol byte
    'eth4': (ETHERNET, 34, 23, lambda p, s, d: on(ETHERNET, p, A, B, two(s, d))),
    'eth6': (ETHERNET, 54, 20, lambda p, s, d: six(p, SIX, SIX2, two(s, d))),
    'raw4': (RAWIP, 20, 9, lambda p, s, d: on(RAWIP, p, A, B, two(s, d))),
}
PORT_PROTOS = {None: (6, 17), 'tcp': (6,), 'udp': (17,), 'sctp': (132,)}


def ports_():
    for stack, (link, start, proto_at, build) in STACKS.items():
        for d in DIRECTIONS:
            names = list(PORT_PROTOS)
            for name in (names[DIRECTIONS.index(d)], names[(DIRECTIONS.index(d) + link + 1) % 4]):
                numbers = PORT_PROTOS[name]
                tree = dice.pick([port(d, 443, name), portrange(d, 400, 500, name)])
                for p in (6, 17, 132, dice.pick([0, 1, 58, 255])):
                    E(link, tree, build(p, 443, 443), p in numbers)
            p = 17
            for s, t in ((443, 443), (443, 444), (442, 443), (0x01ba, 0xbb01)):
                E(link, port(d, 443), build(p, s, t), directed(d, s == 443, t == 443))
            # all four bytes must be there, even for one port
            needs(link, port(d, 443), build(p, 443, 443) + b'zz', start + 4, [proto_at, start + 2])
            # ranges
            for lo, hi, pairs in ((100, 200, ((100, 200), (99, 200), (100, 201), (201, 99), (200, 100))),
                                  (0, 65535, ((0, 65535),)), (443, 443, ((443, 442), (444, 443))),
                                  (200, 100, ((200, 100), (150, 150))), (65535, 0, ((0, 65535),))):
                for s, t in pairs:
                    E(link, portrange(d, lo, hi), build(6, s, t), directed(d, lo <= s <= hi, lo <= t <= hi))
            needs(link, portrange(d, 100, 200, 'sctp'), build(132, 150, 150) + b'z', start + 4)
            E(link, portrange(d, 100, 200, 'tcp'), build(17, 150, 150), False)
            E(link, portrange(d, 100, 200), build(132, 150, 150), False)
    for x in (0x0806, 0x8100, 0x0801, 0x86de):
        never(ETHERNET, port('either', 443), put(on(ETHERNET, 6, A, B, two(443, 443)), 12, x.to_bytes(2, 'big')))
    # an IPv6 packet on RawIp is read as IPv4: protocol at 9, start from byte 0
    never(RAWIP, port('either', 443), ip6(6, SIX, SIX2, two(443, 443)))
    E(RAWIP, port('source', 443), b'\x65' + bytes(8) + b'\x06' + bytes(10) + two(443, 1), True)
    # fragments and extension headers are not looked at
    E(ETHERNET, port('source', 443), put(on(ETHERNET, 6, A, B, two(443, 1)), 20, b'\x1f\xff'), True)


def header_lengths():
    """Low four bits 0 to 15: the transport start, for ports and byte access."""
    for link in LINKS:
        net = 14 if link == ETHERNET else 0
        for ihl in range(16):
            head = bytearray((eth(0x0800) if link == ETHERNET else b'') + bytes(range(100, 170)))
            head[net], head[net + 9] = 0xf0 + ihl, 6
            t = net + 4 * ihl
            head[t + 2:t + 4] = b'\x12\x34'         # destination port; never byte net or net+9
            source = number(head[t:t + 2])
            frame, end = bytes(head), max(t + 4, net + 10)
            needs(link, port('destination', 0x1234), frame[:end], end)
            frame = frame[:end]
            E(link, port('source', source ^ ihl % 2, 'tcp'), frame, ihl % 2 == 0)
            if ihl % 2 == link or ihl in (0, 5, 15):
                needs(link, access('trans', 2, 2, 'eq', 0x1234), frame[:t + 4], t + 4, [net, net + 1])


def protocols():
    fours = {'icmp': 1, 'igmp': 2, 'tcp': 6, 'udp': 17, 'sctp': 132, 'num': 89}
    sixes = {'icmp6': 58, 'tcp': 6, 'udp': 17, 'sctp': 132, 'ip6proto': 89}
    for link in LINKS:
        net = 14 if link == ETHERNET else 0
        for name, p in fours.items():
            trees = [protocol((name, p) if name == 'num' else name)]
            trees += [chain('ipprotochain', p)] if name == 'num' else []
            for tree in trees:
                needs(link, tree, on(link, p)[:net + 14], net + 10, [14])
                for other in (p ^ 1, p ^ 128):
                    never(link, tree, on(link, other))
                if link == ETHERNET:
                    E(link, tree, six(p), name in sixes)
                    never(link, tree, eth(0x0806, ip4(p)))
    for name, p in sixes.items():
        trees = [protocol((name, p) if name == 'ip6proto' else name)]
        trees += [chain('ip6protochain', p)] if name == 'ip6proto' else []
        for tree in trees:
            needs(ETHERNET, tree, six(p)[:26], 21, [14])
            for other in (p ^ 1, p ^ 64):
                never(ETHERNET, tree, six(other))
            E(ETHERNET, tree, on(ETHERNET, p), name in fours)
            E(RAWIP, tree, ip6(p), (11, 0) if name not in fours else False)
    for q in (0, 255):
        for link in LINKS:
            E(link, protocol(('num', q)), on(link, q), True)
            E(link, chain('ipprotochain', q), on(link, q), True)
        E(ETHERNET, protocol(('ip6proto', q)), six(q), True)
        E(ETHERNET, chain('ip6protochain', q), six(q), True)
    for tree, x in ((IP, 0x0800), (protocol('ip6'), 0x86dd), (protocol('arp'), 0x0806),
                    (protocol('rarp'), 0x8035), (etherproto(0x0800), 0x0800), (etherproto(0x88cc), 0x88cc),
                    (etherproto(0), 0), (etherproto(65535), 65535), (bare('pppoediscovery'), 0x8863)):
        needs(ETHERNET, tree, eth(x, b'abc'), 14, [12])
        for wrong in (x ^ 1, x ^ 0x8000, (x >> 8) | (x & 255) << 8):
            E(ETHERNET, tree, eth(wrong), wrong == x)
        E(RAWIP, tree, b'', True if x == 0x0800 else (11, 0))


def macs():
    for d in DIRECTIONS:
        for src, dst in ((MAC, MAC), (MAC, MAC2), (MAC2, MAC), (MAC2, MAC2)):
            E(ETHERNET, etherhost(d, MAC), eth(0x0800, b'', dst, src), directed(d, src == MAC, dst == MAC))
        end = {'either': 6, 'destination': 6, 'source': 12, 'both': 12}[d]
        needs(ETHERNET, etherhost(d, MAC), eth(0, b'', MAC, MAC), end, [4, 6, 10, 11])
        if d == 'either':
            needs(ETHERNET, etherhost(d, MAC), eth(0, b'', MAC2, MAC), 12, [6])
        for i in range(6):
            E(ETHERNET, etherhost(d, MAC), flip(eth(0, b'', MAC, MAC), 8 * i + i), directed(d, True, False))
            E(ETHERNET, etherhost(d, MAC), flip(eth(0, b'', MAC, MAC), 48 + 8 * i + 7 - i), directed(d, False, True))
        E(RAWIP, etherhost(d, MAC), eth(0), (13, 0))
    multi = bare('ethermulticast')
    needs(ETHERNET, multi, b'\x01\0\0', 1)
    for first in (0, 1, 2, 0xfe, 0xff, 0x80, 0x81, 0x33):
        E(ETHERNET, multi, eth(0x0800, b'', bytes([first, 1, 1, 1, 1, 1])), first in (1, 0xff, 0x81, 0x33))
    E(RAWIP, multi, b'\x01', (14, 0))


def groups():
    for link in LINKS:
        net = 14 if link == ETHERNET else 0
        needs(link, bare('ipbroadcast'), on(link, 1, A, 0xffffffff) + b'z', net + 20, [14, net + 16, net + 17])
        for address in (0xfffffffe, 0x7fffffff, 0xffffff7f, 0):
            never(link, bare('ipbroadcast'), on(link, 1, 0xffffffff, address))
        needs(link, bare('ipmulticast'), on(link, 1, A, 0xe00000fb) + b'z', net + 20, [14, net + 16, net + 17])
        for address, want in ((0xe0000000, True), (0xefffffff, True), (0xdfffffff, False), (0xf0000000, False),
                              (0x60000000, False), (0xffffffff, False)):
            E(link, bare('ipmulticast'), on(link, 1, 0xe0000001 if not want else A, address), want)
        never(link, bare('ipmulticast'), on(link, 1, 0xe0000001, A))
    for kind in ('ipbroadcast', 'ipmulticast'):
        never(ETHERNET, bare(kind), put(on(ETHERNET, 1, A, 0xffffffff if kind == 'ipbroadcast' else 0xe0000001),
                                        12, b'\x86\xdd'))
    group = b'\xff\x02' + bytes(14)
    needs(ETHERNET, bare('ip6multicast'), six(58, SIX, group), 39, [13, 14, 37])
    for first in (0xfe, 0x7f, 0):
        never(ETHERNET, bare('ip6multicast'), six(58, group, bytes([first]) + group[1:]))
    never(ETHERNET, bare('ip6multicast'), eth(0x0800, ip6(58, SIX, group)))
    E(RAWIP, bare('ip6multicast'), ip6(58, SIX, group), (11, 0))


def tags():
    def vlan(tci, x=0x8100):
        return eth(x, tci.to_bytes(2, 'big') + b'\x08\0')
    needs(ETHERNET, tagged('vlan'), vlan(7), 14, [12, 13])
    for n, tci, want in ((7, 7, True), (7, 0xf007, True), (7, 0x1007, True), (7, 8, False), (0, 0, True),
                         (0, 0xf000, True), (0, 1, False), (4095, 4095, True), (4095, 0xffff, True),
                         (4095, 0x0ffe, False), (4096, 0, False), (4096, 0x1000, False), (4096, 4096, False),
                         (65535, 65535, False), (0x1007, 0x1007, False), (0x0800, 0x0800, True)):
        E(ETHERNET, tagged('vlan', n), vlan(tci), want)
    needs(ETHERNET, tagged('vlan', 7), vlan(0x2007), 16, [14, 15])
    for x in (0x8101, 0x88a8, 0x0800, 0x9100):
        never(ETHERNET, tagged('vlan'), vlan(7, x))
        never(ETHERNET, tagged('vlan', 7), vlan(7, x))

    def mpls(word, x=0x8847):
        return eth(x, four(word))
    for x in (0x8847, 0x8848):
        needs(ETHERNET, tagged('mpls'), mpls(0, x), 14, [13])
        needs(ETHERNET, tagged('mpls', 0x12345), mpls(0x12345fff, x) + b'z', 18, [14, 16, 17])
    for n, word, want in ((0, 0x00000fff, True), (0, 0x1000, False), (1, 0x1000, True), (0xfffff, 0xffffffff, True),
                          (0xfffff, 0xffffe000, False), (0x100000, 0, False), (0x100000, 0xffffffff, False),
                          (0xffffffff, 0xffffffff, False), (0x80000000, 0, False), (0x80000, 0x80000000, True)):
        E(ETHERNET, tagged('mpls', n), mpls(word), want)
        never(ETHERNET, tagged('mpls', n), mpls(word, 0x8849))
    for x in (0x8846, 0x8849, 0x0800):
        never(ETHERNET, tagged('mpls'), mpls(0, x))

    def session(n, x=0x8864):
        return eth(x, b'\x11\0' + n.to_bytes(2, 'big'))
    needs(ETHERNET, tagged('pppoesession'), session(1), 14, [13])
    needs(ETHERNET, tagged('pppoesession', 0x1234), session(0x1234) + b'z', 18, [14, 15, 16, 17])
    for n, got in ((0, 0), (0, 1), (65535, 65535), (65535, 0x7fff), (0x1100, 0), (1, 0x100)):
        E(ETHERNET, tagged('pppoesession', n), session(got), n == got)
    for x in (0x8863, 0x8865, 0x0800):
        never(ETHERNET, tagged('pppoesession'), session(1, x))
        E(ETHERNET, bare('pppoediscovery'), session(1, x), x == 0x8863)
    for kind, refusal in (('vlan', 11), ('pppoesession', 11), ('mpls', 15)):
        E(RAWIP, tagged(kind), b'', (refusal, 0))
        E(RAWIP, tagged(kind, 7), eth(0x8100), (refusal, 0))


def frame_lengths():
    for link in LINKS:
        for c in COMPARISONS:
            for n, size in ((30, 29), (30, 30), (30, 31), (0, 0), (0, 1), (1, 0), (0xffffffff, 3), (0x80000000, 3)):
                want = {'eq': size == n, 'ne': size != n, 'lt': size < n, 'le': size <= n, 'gt': size > n,
                        'ge': size >= n, 'bitand': size & n > 0}[c]
                if size > 28 if link == ETHERNET else size < 4:
                    E(link, frame_len(c, n), bytes(size), want)
        E(link, frame_len('bitand', 4), bytes(3), False)
        E(link, frame_len('bitand', 4), bytes(4), True)
        E(link, frame_len('bitand', 0xfffffff8), bytes(7), False)
        E(link, frame_len('bitand', 0xfffffff8), bytes(8), True)
        E(link, frame_len('eq', 1514), bytes(1514), True)


def accesses():
    for link in LINKS:
        net = 14 if link == ETHERNET else 0
        frame = on(link, 6, A, B, bytes.fromhex('80ff7f01c3a50f5a'))
        start = {'raw': 0, 'net': net, 'trans': net + 20}
        for layer in LAYERS:
            for size in SIZES:
                offset = {'raw': len(frame) - 8, 'net': 20, 'trans': 0}[layer] + dice.below(3)
                at = start[layer] + offset
                value = number(frame[at:at + size])
                for c in COMPARISONS if link == ETHERNET else COMPARISONS[dice.below(3)::3]:
                    for k in (value, (value + (-1 if c in ('le', 'gt') else 1)) % 2 ** 32):
                        want = {'eq': value == k, 'ne': value != k, 'lt': value < k, 'le': value <= k,
                                'gt': value > k, 'ge': value >= k, 'bitand': value & k > 0}[c]
                        E(link, access(layer, size, offset, c, k), frame, want)
                needs(link, access(layer, size, offset, 'ge', 0), frame, at + size, [net, at])
                # a missing byte is false, also for "not equal"
                needs(link, access(layer, size, offset, 'ne', value ^ 1), frame, at + size)
        for c, k, want in (('lt', 0x80000000, False), ('gt', 0x7fffffff, True), ('le', 0xffffffff, True),
                           ('ge', 0x80ff7f01, True), ('eq', 0x80ff7f01, True), ('bitand', 0x80000000, True),
                           ('bitand', 0x00008000, False), ('bitand', 0, False), ('ne', 0xffffffff, True)):
            E(link, access('trans', 4, 0, c, k), frame, want)       # no signs
        far = access('raw', 1, 32767, 'ge', 0)                      # the largest offsets
        E(link, far, frame, False)
        E(link, access('trans', 4, 32767, 'ge', 0), frame, False)
    big = on(ETHERNET) + bytes(32768 - 34 + 3)
    ends = both(access('raw', 4, 32767, 'eq', 0), access('net', 4, 32753, 'eq', 0))
    past = either(access('trans', 1, 32737, 'ge', 0), access('trans', 4, 32734, 'ge', 0))
    E(ETHERNET, both(both(ends, access('trans', 4, 32733, 'eq', 0)), no(past)), big, True)
    # transport layer: no ethertype and no protocol test
    arp = eth(0x0806, bytes([0x02, 1, 8, 0, 6, 4, 0, 1, 0xab, 0xcd, 0xee]))
    needs(ETHERNET, access('trans', 2, 0, 'eq', 0xabcd), arp, 14 + 8 + 2, [14, 15, 22])
    needs(ETHERNET, access('trans', 1, 2, 'eq', 0xee), arp, 25, [24])
    v6 = six(6, SIX, SIX2, two(1, 2))       # version 6, class 0: low four bits 0
    needs(ETHERNET, access('trans', 1, 0, 'eq', 0x60), v6, 15, [14])
    needs(ETHERNET, access('trans', 4, 4, 'eq', number(v6[18:22])), v6, 22, [21])
    needs(RAWIP, access('trans', 1, 0, 'eq', 0x40), b'\x40', 1)
    needs(RAWIP, access('trans', 1, 1, 'eq', 7), b'\xf0\x07', 2)
    needs(RAWIP, access('trans', 1, 0, 'eq', 9), b'\xff' + bytes(59) + b'\x09', 61, [1, 2, 59])
    # net and raw: no ethertype test either
    E(ETHERNET, access('net', 1, 0, 'eq', 2), arp, True)
    E(ETHERNET, access('raw', 2, 12, 'eq', 0x0806), arp, True)
    E(RAWIP, access('net', 2, 12, 'eq', 0x0806), arp, True)


def steps_():
    word = 0x80ff7f01
    frame = four(word) + b'\x07'

    def result(op, by, value=word):
        return {'add': value + by, 'sub': value - by, 'mul': value * by, 'div': value // (by or 1),
                'and': value & by, 'or': value | by, 'xor': value ^ by, 'shl': value << by % 32,
                'shr': value >> by % 32}[op] & 0xffffffff
    operands = {'add': [0, 1, 0x7f0080ff, 0xffffffff, 0x80000000], 'sub': [0, 1, word, 0x80ff7f02, 0xffffffff],
                'mul': [0, 1, 2, 0x10000, 0xffffffff, 0x80ff7f01], 'div': [1, 2, 3, word, 0x80ff7f02, 0x80000000,
                                                                         0xffffffff],
                'and': [0, 0xff, 0xffffffff, 0x80000000], 'or': [0, 0xff, 0xffffffff, 0x80000000],
                'xor': [0, word, 0xffffffff, 0x80000000], 'shl': [0, 1, 16, 31], 'shr': [0, 1, 16, 31]}
    for op, list_ in operands.items():
        for by in list_:
            want = result(op, by)
            E(dice.below(2), access('raw', 4, 0, 'eq', want, [(op, by)]), frame, True)
            if dice.below(2):
                E(dice.below(2), access('raw', 4, 0, 'eq', want ^ 0x10000, [(op, by)]), frame, False)
            small = result(op, by, 7)
            c = dice.pick(['ge', 'gt'])
            E(dice.below(2), access('raw', 1, 4, c, small, [(op, by)]), frame, c == 'ge')
    # computed by hand
    for steps, size, k in (([('sub', 8)], 1, 0xffffffff), ([('add', 0xfffffff9)], 1, 0),
                           ([('sub', 8), ('add', 1)], 1, 0), ([('mul', 0x40000000)], 1, 0xc0000000),
                           ([('shl', 31)], 1, 0x80000000), ([('shl', 31), ('shr', 31)], 1, 1),
                           ([('shl', 30), ('shr', 30)], 1, 3), ([('div', 2), ('mul', 2)], 1, 6),
                           ([('mul', 2), ('div', 2)], 1, 7), ([('add', 1), ('mul', 3)], 1, 24),
                           ([('mul', 3), ('add', 1)], 1, 22), ([('sub', 8), ('div', 0x80000000)], 1, 1),
                           ([('sub', 8), ('div', 0xffffffff)], 1, 1), ([('sub', 9), ('div', 0xffffffff)], 1, 0),
                           ([('sub', 8), ('shr', 1)], 1, 0x7fffffff), ([('xor', 0xffffffff)], 1, 0xfffffff8),
                           ([('and', 5), ('or', 8)], 1, 13), ([('or', 8), ('and', 5)], 1, 5),
                           ([('sub', 8), ('mul', 0xffffffff)], 1, 1)):
        E(0, access('raw', size, 4, 'eq', k, steps), frame, True)
        E(1, no(access('raw', size, 4, 'eq', k, steps)), frame[:4], True)
    # each access takes its own steps
    x = access('raw', 1, 4, 'eq', 9, [('add', 2)])
    y = access('raw', 1, 4, 'eq', 70, [('mul', 9), ('add', 7)])
    E(0, both(x, y), frame, True)
    E(0, both(y, x), frame, True)
    E(0, both(x, both(access('raw', 1, 4, 'eq', 7), y)), frame, True)
    E(0, either(access('raw', 1, 4, 'eq', 9, [('add', 3)]), access('raw', 1, 4, 'eq', 70, [('add', 7), ('mul', 9)])),
      frame, False)
    many = [('add', 3), ('xor', 5), ('mul', 7)] * 40
    value = 7
    for op, by in many:
        value = result(op, by, value)
    E(0, access('raw', 1, 4, 'eq', value, many), frame, True)
    E(0, access('raw', 1, 4, 'eq', value ^ 1, many), frame, False)


def logic():
    """Trees: small ones on every row of their truth table, then mixed ones."""
    bits = [access('raw', 1, 0, 'bitand', 1 << i) for i in range(4)]
    a, b, c, d = bits
    shapes = [
        (both(a, b), lambda a, b, c, d: a and b), (either(a, b), lambda a, b, c, d: a or b),
        (no(both(a, b)), lambda a, b, c, d: not (a and b)), (no(either(a, b)), lambda a, b, c, d: not (a or b)),
        (both(no(a), b), lambda a, b, c, d: not a and b), (both(a, no(b)), lambda a, b, c, d: a and not b),
        (either(no(a), b), lambda a, b, c, d: not a or b), (either(a, no(b)), lambda a, b, c, d: a or not b),
        (no(no(both(no(a), no(b)))), lambda a, b, c, d: not a and not b),
        (both(either(a, b), c), lambda a, b, c, d: (a or b) and c),
        (either(both(a, b), c), lambda a, b, c, d: a and b or c),
        (both(a, either(b, c)), lambda a, b, c, d: a and (b or c)),
        (either(a, both(b, c)), lambda a, b, c, d: a or b and c),
        (no(both(no(either(a, b)), c)), lambda a, b, c, d: not (not (a or b) and c)),
        (either(both(a, b), both(c, d)), lambda a, b, c, d: a and b or c and d),
        (both(either(a, b), either(c, d)), lambda a, b, c, d: (a or b) and (c or d)),
        (no(either(both(a, no(b)), no(both(c, d)))), lambda a, b, c, d: not (a and not b or not (c and d))),
        (both(no(both(a, no(either(b, c)))), d), lambda a, b, c, d: not (a and not (b or c)) and d)]
    for tree, meaning in shapes:
        rows = 2 ** content(write(tree))[1].count(0)
        for row in range(rows):
            E(row % 2, tree, bytes([row]), meaning(row & 1 > 0, row & 2 > 0, row & 4 > 0, row & 8 > 0))
        never(0, both(tree, a), b'')
    for n in range(1, 6):                           # chains of Not
        E(0, nots(n, a), b'\1', n % 2 == 0)
        E(0, nots(n, a), b'\0', n % 2 == 1)
        E(0, nots(n, a), b'', n % 2 == 1)
    # a filter of the gateway's sort
    gate = both(IP, both(either(net4('source', 0x0a000000, 0xff000000), host4('source', C)),
                         both(port('destination', 502, 'tcp'), no(bare('ipmulticast')))))
    for src, p, to, want in ((A, 6, 502, True), (C, 6, 502, True), (X4, 6, 502, False), (A, 17, 502, False),
                             (A, 6, 503, False)):
        for link in LINKS:
            E(link, gate, on(link, p, src, B, two(40000, to)), want)
            if want:
                E(link, no(gate), on(link, p, src, B, two(40000, to)), False)
                E(link, gate, on(link, p, src, 0xe0000001, two(40000, to)), False)
                E(link, gate, on(link, p, src, B, two(40000, to))[:-1], False)
    # the model alone answers
    frames = {ETHERNET: [on(ETHERNET, 6, A, C, two(80, 443)), on(ETHERNET, 17, B, A, two(0x1234, 80)), six(6, SIX, SIX2,
              two(443, 80)), six(17, SIX2, SIX, two(80, 80)), eth(0x0806, bytes(28)), eth(0x8100, b'\x20\x64\x08\0'),
              eth(0x8847, four(7 << 12)), eth(0x8864, b'\x11\0\0\7\0\0'), b'\xff' * 60],
              RAWIP: [on(RAWIP, 6, C, A, two(443, 80)), on(RAWIP, 17, A, B, two(80, 0x1234)), b'\x45' * 40]}
    for i in range(100):
        link = dice.pick([ETHERNET, ETHERNET, RAWIP])
        while True:                                 # mostly trees that are not refused
            sheet = write(any_tree(1 + dice.below(7), any_primitive))
            if i % 12 == 0 or evaluate(link, sheet, b'')[0] == 0:
                break
        frame = dice.pick(frames[link])
        if dice.below(3) == 0:
            frame = frame[:dice.below(len(frame) + 1)]
        if dice.below(3) == 0 and frame:
            frame = put(frame, dice.below(len(frame)), dice.bytes(1))
        E(link, sheet, frame)


def depths():
    """Refusal 9: deeper than 256, the root counted."""
    yes = bytes([1])
    a = access('raw', 1, 0, 'eq', 1)
    for n, want in ((254, True), (255, False), (256, (9, 0)), (257, (9, 0)), (300, (9, 0)), (1000, (9, 0))):
        E(0, nots(n, a), yes, want)                 # n Nots over a primitive: depth n + 1
        E(1, nots(n, bare('inbound')), yes, (9, 0) if n > 255 else (16, 0))     # 9 before 11 to 19
    few = [frame_len('eq', 1)]
    for n in (255, 256):                            # chains of n + 1 primitives: depth n + 1
        want = True if n < 256 else (9, 0)
        E(0, chain_of([a] + few * n, 'and', left_deep=True), yes, want)
        E(0, chain_of([a] + few * n, 'or', left_deep=False), yes, want)
    ladder = a
    for i in range(255):                            # And, Or, Not by turns, either side
        ladder = [both(ladder, a), either(a, ladder), no(no(ladder))][i % 3] if i < 200 else both(a, ladder)
    d = depth(content(write(ladder))[1])
    assert d > 256
    E(0, ladder, yes, (9, 0))
    # only one path too deep, left and right of the root
    E(0, both(a, nots(254, a)), yes, True)
    E(0, both(a, nots(255, a)), yes, (9, 0))
    E(0, either(nots(254, a), a), yes, True)
    E(0, either(nots(255, a), a), yes, (9, 0))
    E(0, either(nots(254, a), nots(254, a)), yes, True)
    # many tokens, few levels
    level = [a] * 128
    while len(level) > 1:
        level = [both(x, y) for x, y in zip(level[::2], level[1::2])]
    E(0, level[0], yes, True)
    E(0, level[0], b'\0', False)
    # 2 to 6 before 9
    deep = write(nots(300, a))
    E(0, deep[:-1], yes, (2, 0))
    E(0, deep[:-1] + b'\4', yes, (3, len(deep) - 1))
    E(0, deep[:-1] + b'\3', yes, (4, 0))
    E(0, nots(300, access('raw', 1, -1, 'eq', 1)), yes, (5, 0))
    E(0, nots(300, access('raw', 1, 0, 'eq', 1, [('shl', 32)])), yes, (6, 0))
    E(3, deep, yes, (1, 0))
    # beyond the limit the meaning itself goes on
    assert holds(0, write(nots(2000, a)), yes) and not holds(0, write(nots(2001, a)), yes)
    assert holds(0, write(nots(65534, a)), yes)


def refused():
    """Each refusal through the evaluator, whatever the frame."""
    for frame in (b'', on(ETHERNET, 6, A, B, two(80, 80))):
        for sheet, want in [
                (b'', (2, 0)), (b'\0', (2, 0)), (bytes(5), (2, 0)), (bytes(7), (2, 0)), (write(IP) + b'\0', (2, 0)),
                (put(write(IP), 4, b'\0'), (3, 4)), (put(write(IP), 27, b'\1'), (3, 27)),
                (put(write(IP), 30, b'\4'), (3, 30)), (raw_sheet([(10, 0)], [], []), (3, 2)),
                (bytes(6), (4, 0)), (raw_sheet([], [IP[0]] * 2, [0]), (4, 0)), (raw_sheet([], [IP[0]], [3]), (4, 0)),
                (raw_sheet([(0, 0)], [IP[0]], [0]), (4, 0)),
                (write(access('raw', 1, 32768, 'eq', 0)), (5, 0)), (write(access('trans', 1, -1, 'eq', 0)), (5, 0)),
                (write(both(IP, access('raw', 1, 0, 'eq', 0, [('shr', 32)]))), (6, 1)),
                (write(both(access('raw', 1, 0, 'eq', 0, [('shr', 32)]), access('raw', 1, -1, 'eq', 0))), (5, 1)),
                (write(port('either', 80, 'icmp')), (12, 0)), (write(portrange('source', 1, 2, ('num', 6))), (12, 0)),
                (write(bare('inbound')), (16, 0)), (write(either(IP, bare('outbound'))), (16, 1)),
                (write(access_load('raw', 1, 0, 'eq', 'raw', 1, 0)), (17, 0)),
                (write(access_load('raw', 1, 0, 'eq', 'raw', 1, 0, [('div', 0)])), (17, 0)),
                (write(access('raw', 1, 0, 'eq', 0, [('div', 0)])), (18, 0)),
                (write(access('raw', 1, 0, 'eq', 0, [('mod', 2)])), (19, 0)),
                (write(access('raw', 1, 0, 'eq', 0, [('mod', 2), ('div', 0)])), (19, 0)),
                (write(access('raw', 1, 0, 'eq', 0, [('div', 0), ('mod', 2)])), (18, 0)),
                (write(both(IP, both(bare('inbound'), access('raw', 1, 0, 'eq', 0, [('mod', 2)])))), (16, 1)),
                (write(both(access('raw', 1, 0, 'eq', 0, [('mod', 2)]), bare('inbound'))), (19, 0))]:
            E(RAWIP if frame else ETHERNET, sheet, frame, want)
        # the net layer's limit hangs on the link
        E(ETHERNET, access('net', 1, 32754, 'eq', 0), frame, (5, 0))
        E(RAWIP, access('net', 1, 32754, 'eq', 0), frame, False)
        # refused although the other side decides
        E(RAWIP, either(IP, protocol('arp')), frame, (11, 1))
        E(RAWIP, both(no(IP), etherhost('source', MAC)), frame, (13, 1))
        E(RAWIP, either(IP, bare('ethermulticast')), frame, (14, 1))
        E(RAWIP, either(IP, tagged('mpls')), frame, (15, 1))
        # RawIp: 11 of every kind that can earn it
        for tree in (host6('either', SIX), net6('source', SIX, 0), protocol('ip6'), protocol('rarp'),
                     protocol('icmp6'), protocol(('ip6proto', 6)), etherproto(0x0801), etherproto(0x86dd),
                     bare('ip6multicast'), tagged('vlan'), bare('pppoediscovery'), tagged('pppoesession'),
                     chain('ip6protochain', 6)):
            E(RAWIP, tree, frame, (11, 0))


# ------------------------------------------------------------ link 2

def moves(sheet):
    """Whether all that a sheet reads stands behind the link's header: no MAC address, no byte from the frame's start, no length; and no offset at its limit."""
    return all(not bad_offset(r, COOKED) and KINDS[r[0]] not in ('etherhost', 'ethermulticast', 'len')
               and not (KINDS[r[0]] == 'byteaccess' and LAYERS[r[1]] == 'raw') for r, _ in content(sheet)[0])


def cooked():
    """Document 02, A9.  Linux's cooked header has its protocol at 14 and 16 bytes, where Ethernet has 12 and 14: what holds on an Ethernet
    frame holds on a cooked one with two bytes more in front, and costs the same.  MAC addresses are not there."""
    for letter, data, answer, _ in list(cases):
        if letter == 'A' or data[1] != ETHERNET or len(data) > 400 or answer[0] not in (0, 11, 12, 15, 16, 17, 18, 19) or dice.below(6):
            continue
        at = {'S': 7, 'E': 6}[letter]
        end = at + number(data[at - 4:at])
        sheet = data[at:end]
        if moves(sheet):
            if letter == 'E':
                E(COOKED, sheet, dice.bytes(2) + data[end + 4:], answer if answer[0] else answer[1] == 1)
            elif answer[0] == 0:
                S(COOKED, data[2], sheet, 0, L=answer[4])
    frame = bytes.fromhex('0000000100060011223344550000') + b'\x08\x00' + ip4(6, A, B, two(443, 80))
    for tree, want in ((protocol('ip'), True), (host4('source', A), True), (host4('source', B), False), (port('destination', 80), True),
                       (etherproto(0x0800), True), (etherproto(0x0806), False), (protocol('ip6'), False),
                       (access('raw', 2, 14, 'eq', 0x0800), True), (access('net', 1, 9, 'eq', 6), True), (access('trans', 2, 2, 'eq', 80), True)):
        E(COOKED, tree, frame, want)
        E(COOKED, no(tree), frame, not want)
    front = frame[:14]
    needs(COOKED, tagged('vlan', 5), front + bytes.fromhex('8100f005'), 18)
    needs(COOKED, tagged('vlan'), front + bytes.fromhex('8100f005'), 16)
    needs(COOKED, tagged('mpls', 0x12345), front + bytes.fromhex('884712345fff'), 20)
    needs(COOKED, tagged('pppoesession', 7), front + bytes.fromhex('886400000007'), 20)
    for tree, want in ((etherhost('either', MAC), 13), (bare('ethermulticast'), 14), (either(protocol('ip'), etherhost('source', MAC)), 13)):
        place = 1 if tree[0] == 'or' else 0
        S(COOKED, mode(), write(tree), 0, R=(want, place))
        E(COOKED, tree, frame, (want, place))
    for layer, offset, want in (('net', 32751, 0), ('net', 32752, (5, 0)), ('raw', 32767, 0), ('raw', 32768, (5, 0)), ('trans', 32767, 0)):
        S(COOKED, mode(), write(access(layer, 1, offset, 'eq', 0)), want)


# ------------------------------------------------------------ refusals 7 and 8

def room():
    """The sheets of the S cases, with lent places of exactly the size, one less, none and the most."""
    most = 2 ** 64 - 1
    sheets = [(d[1], d[2], d[7:], answer) for letter, d, answer, _ in cases if letter == 'S']
    lengths = set()
    told = {}
    for link, mode, sheet, answer in sheets:
        if answer[0]:                               # 1 to 6 come first
            told[answer[0]] = told.get(answer[0], 0) + 1
            if told[answer[0]] <= 5:
                admitted(link, mode, sheet, 0, 0, answer)
            continue
        L, tokens = answer[4], answer[3]
        if (L, tokens) in lengths or len(sheet) > 4096:
            continue
        lengths.add((L, tokens))
        admitted(link, mode, sheet, 8 * L, L + 8 * tokens, 0)
        admitted(link, mode, sheet, most, most, 0)
        admitted(link, mode, sheet, 8 * L - 1, most, (7, 0))
        admitted(link, mode, sheet, 8 * L - 1, 0, (7, 0))
        admitted(link, mode, sheet, 0, L + 8 * tokens, (7, 0))
        admitted(link, mode, sheet, 8 * L, L + 8 * tokens - 1, (8, 0))
        admitted(link, mode, sheet, most, 0, (8, 0))


# ======================================================================= main

PARTS = [worked_examples, every_kind, prefixes, wrong_bytes, wrong_dependent, wrong_sections, lengths,
         links_and_modes, trees, large, offsets, shifts, first_refusals, any_sheets,
         hosts4, nets4, hosts6, nets6, ports_, header_lengths, protocols, macs, groups, tags, frame_lengths,
         accesses, steps_, logic, depths, refused, cooked, room]


def kinds_of(data):
    """The kinds in a case's sheet, if its sections can be found."""
    at = {b'S': 7, b'A': 23, b'E': 6}[data[:1]]
    parts = sections(data[at:at + number(data[at - 4:at])])
    return {r[0] for r in records(parts[1][1], 24)} if parts else set()


def tell():
    for letter in 'SAE':
        mine = [x for x in cases if x[0] == letter]
        print('%s: %d cases, %d with a stated answer' % (letter, len(mine), sum(x[3] for x in mine)))
        count = {}
        for _, _, answer, _ in mine:
            if letter == 'E':
                key = {0: 'does not hold', 1: 'holds'}[answer[1]] if answer[0] == 0 else 'refusal %d' % answer[0]
            else:
                key = ('accepted' if letter == 'A' or answer[5] == 0 else 'accepted, first refused primitive %d' % answer[5]
                       ) if answer[0] == 0 else 'refusal %d' % answer[0]
            count[key] = count.get(key, 0) + 1
        for key in sorted(count, key=lambda k: (k[0], len(k), k)):
            print('  %-40s %d' % (key, count[key]))
    print('kind              S accepted  S refused   E holds  E does not  E refused')
    table = {}
    for letter, data, answer, _ in cases:
        if letter == 'A':
            continue
        column = (0 if answer[0] == 0 else 1) if letter == 'S' else (
            4 if answer[0] else 2 if answer[1] == 1 else 3)
        for kind in kinds_of(data):
            if 1 <= kind <= 23:
                table.setdefault(kind, [0] * 5)[column] += 1
    for kind in sorted(table):
        print('%2d %-14s' % (kind, KINDS[kind]) + '%11d%11d%10d%12d%11d' % tuple(table[kind]))


def main(outdir):
    sys.setrecursionlimit(10000)                    # any_tree is the only recursion
    for part in PARTS:
        part()
    os.makedirs(outdir, exist_ok=True)
    with open(os.path.join(outdir, 'stdin'), 'wb') as f:
        f.write(b''.join(x[1] for x in cases))
    with open(os.path.join(outdir, 'stdout'), 'w') as f:
        f.write(''.join(' '.join(map(str, x[2][:5])) + '\n' for x in cases))
    tell()


if __name__ == '__main__':
    if len(sys.argv) != 2:
        sys.exit('usage: python3 cases.py OUTDIR')
    main(sys.argv[1])
