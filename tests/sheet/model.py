"""Document 01 in plain Python: the sheet, refusals 1 to 9 and 11 to 19,
the program's length L, and what each test means.

Byte strings in, plain tuples and numbers out.  Quoted lines are document 01's.
Nothing here recurses, so trees may have any depth.
"""

ETHERNET, RAWIP, COOKED = 0, 1, 2
LINKS = (ETHERNET, RAWIP, COOKED)
# Document 02, A9: "where the ethertype is, if anywhere; where the network
# header starts; whether MAC addresses are there".
TYPE = {ETHERNET: 12, RAWIP: None, COOKED: 14}
NET = {ETHERNET: 14, RAWIP: 0, COOKED: 16}
MACS = {ETHERNET: True, RAWIP: False, COOKED: False}

# Codes, each list in the order of its Rust type.
DIRECTIONS = ['either', 'source', 'destination', 'both']            # Dir
PROTOS = [None, 'ip', 'ip6', 'arp', 'rarp', 'tcp', 'udp', 'icmp', 'icmp6',
          'igmp', 'sctp', 'num', 'ip6proto']                        # Proto, 1 to 12
COMPARISONS = ['eq', 'ne', 'lt', 'le', 'gt', 'ge', 'bitand']        # CmpOp
STEPS = ['add', 'sub', 'mul', 'div', 'mod', 'and', 'or', 'xor', 'shl', 'shr']
LAYERS = ['raw', 'net', 'trans']
SIZES = [1, 2, 4]                                                   # bytes of a size code
KINDS = [None, 'host4', 'host6', 'port', 'portrange', 'net', 'net6', 'proto',
         'etherhost', 'etherproto', 'ethermulticast', 'ipbroadcast',
         'ipmulticast', 'ip6multicast', 'vlan', 'mpls', 'pppoediscovery',
         'pppoesession', 'ipprotochain', 'ip6protochain', 'len', 'inbound',
         'outbound', 'byteaccess']
KIND = {name: code for code, name in enumerate(KINDS)}
AND, OR, NOT = 1, 2, 3                                              # tokens; 0 a primitive


def number(b):
    """"Numbers in frames are unsigned, big-endian", and so is the sheet."""
    return int.from_bytes(b, 'big')


# ---------------------------------------------------------------- the sheet

def sections(sheet):
    """"Three sections in this order, each after its 16-bit count": steps of 5
    bytes, primitives of 24, tokens of 1.  None for refusal 2, else each
    section's start and bytes."""
    parts, at = [], 0
    for size in (5, 24, 1):
        if at + 2 > len(sheet):
            return None                                 # a count is cut
        start = at + 2
        at = start + size * number(sheet[at:start])
        parts.append((start, sheet[start:at]))
    return parts if at == len(sheet) else None


def records(part, size):
    return [part[i:i + size] for i in range(0, len(part), size)]


def steps_of(part):
    """The steps section as (operator, operand) pairs."""
    return [(s[0], number(s[1:5])) for s in records(part, 5)]


def takes(r):
    """How many steps a primitive takes: 12-13 of a byte access."""
    return number(r[12:14]) if r[0] == KIND['byteaccess'] else 0


def content(sheet):
    """Primitives, each with its own steps, and tokens of a sheet that is not
    refused 1 to 4: "how many steps it takes next from the steps section"."""
    (_, s), (_, p), (_, tokens) = sections(sheet)
    steps, out, at = steps_of(s), [], 0
    for r in records(p, 24):
        out.append((r, steps[at:at + takes(r)]))
        at += takes(r)
    return out, tokens


# Refusal 3 -----------------------------------------------------------------

ANY, ZERO = (0, 255), (0, 0)

# Which bytes a kind names, beside p and q: direction, and "any" bytes.
HAS_DIRECTION = {'host4', 'host6', 'port', 'portrange', 'net', 'net6', 'etherhost'}
ANY_BYTES = {
    'host4': range(4, 8),               # n
    'host6': range(8, 24),              # a
    'port': range(6, 8),                # n to 65535
    'portrange': range(4, 8),           # n = lo x 65536 + hi
    'net': range(4, 12),                # n, mask in 8-11
    'net6': [2, *range(8, 24)],         # p prefix, a
    'etherhost': range(8, 14),          # 8-13
    'etherproto': range(6, 8),          # n to 65535
    'ipprotochain': [2],                # p
    'ip6protochain': [2],               # p
    'len': range(4, 8),                 # n
    'byteaccess': [*range(4, 8), 12, 13],   # n, how many steps; 8-11, 14-20 below
}


def legal(r):
    """The least and most allowed value of each of a record's 24 bytes.
    "Fields not named are zero." """
    if not 1 <= r[0] <= 23:
        return [(1, 23)] + [ANY] * 23               # the kind is the lowest fault
    kind, out = KINDS[r[0]], [ANY] + [ZERO] * 23
    if kind in HAS_DIRECTION:
        out[1] = (0, 3)
    for i in ANY_BYTES.get(kind, []):
        out[i] = ANY
    if kind in ('port', 'portrange', 'proto'):
        # "p is a Proto, 1 to 12, and 0 for none in 3 and 4 only; q is the
        # number of 11 and 12, else zero"
        out[2] = (1, 12) if kind == 'proto' else (0, 12)
        out[3] = ANY if r[2] in (11, 12) else ZERO
    if kind in ('vlan', 'mpls', 'pppoesession'):
        # "p 1: number n to 65535; p 0: none, n 0"; Mpls "the same, n any"
        out[2] = (0, 1)
        if r[2] == 1:
            for i in range(4 if kind == 'mpls' else 6, 8):
                out[i] = ANY
    if kind in ('len', 'byteaccess'):
        out[2] = (0, 6)                             # a CmpOp
    if kind == 'byteaccess':
        out[1] = out[3] = (0, 2)                    # layer, size
        out[14] = (0, 1)
        if r[14] == 0:
            out[8:12] = [ANY] * 4                   # constant in 8-11
        elif r[14] == 1:
            out[15] = out[16] = (0, 2)              # layer 15, size 16
            out[17:21] = [ANY] * 4                  # any offset 17-20
        else:                                       # "the only fault looked for in 8-23"
            out[8:14], out[15:24] = [ANY] * 6, [ANY] * 9
    return out


def wrong_byte(r):
    """The lowest wrong byte of a record, or None."""
    for i, (least, most) in enumerate(legal(r)):
        if not least <= r[i] <= most:
            return i
    return None


def lowest_wrong_byte(sheet):
    """Refusal 3's place, counted from the sheet's first byte, or None."""
    (s0, steps), (p0, primitives), (t0, tokens) = sections(sheet)
    for i in range(0, len(steps), 5):
        if steps[i] > 9:
            return s0 + i
    for i, r in enumerate(records(primitives, 24)):
        wrong = wrong_byte(r)
        if wrong is not None:
            return p0 + 24 * i + wrong
    for i, t in enumerate(tokens):
        if t > 3:
            return t0 + i
    return None


# Refusals 4, 5, 6 ----------------------------------------------------------

def one_whole_tree(tokens):
    wanted = 1                                      # subtrees still to come
    for t in tokens:
        if wanted == 0:
            return False                            # tokens left over
        wanted += {0: -1, AND: 1, OR: 1, NOT: 0}[t]
    return wanted == 0


def all_used(sheet):
    """Neither primitives nor steps are left over or lacking."""
    (_, steps), (_, primitives), (_, tokens) = sections(sheet)
    rs = records(primitives, 24)
    return (tokens.count(0) == len(rs)
            and sum(takes(r) for r in rs) == len(steps) // 5)


def bad_offset(r, link):
    """"A byte access's left offset is negative as given, or above 32767 (Net:
    plus the header offset)"."""
    if r[0] != KIND['byteaccess']:
        return False
    offset = number(r[4:8])
    if offset >= 2 ** 31:
        return True                                 # the sign bit: negative
    if LAYERS[r[1]] == 'net':
        offset += NET[link]
    return offset > 32767


def bad_shift(steps):
    return any(STEPS[op] in ('shl', 'shr') and by >= 32 for op, by in steps)


def check(link, mode, sheet):
    """(number, place) of refusals 1 to 6 in their order, or (0, steps,
    primitives, tokens): the three counts."""
    if link > 2 or mode > 1:
        return (1, 0)
    if sections(sheet) is None:
        return (2, 0)
    wrong = lowest_wrong_byte(sheet)
    if wrong is not None:
        return (3, wrong)
    (_, s), (_, p), (_, tokens) = sections(sheet)
    if not one_whole_tree(tokens) or not all_used(sheet):
        return (4, 0)
    primitives, _ = content(sheet)
    for i, (r, _) in enumerate(primitives):
        if bad_offset(r, link):
            return (5, i)
    for i, (_, steps) in enumerate(primitives):
        if bad_shift(steps):
            return (6, i)
    return (0, len(s) // 5, len(primitives), len(tokens))


# ------------------------------------------------- refusals of one primitive

def wanted_ethertype(r):
    """The ethertype a primitive asks for through the Rust's `emit_ethertype`,
    or None.  tcp, udp, sctp and ports are not here: on RawIp they are IPv4."""
    kind = KINDS[r[0]]
    if kind == 'proto':
        return {'ip': 0x0800, 'ip6': 0x86dd, 'arp': 0x0806, 'rarp': 0x8035,
                'icmp6': 0x86dd, 'ip6proto': 0x86dd}.get(PROTOS[r[2]])
    if kind == 'etherproto':
        return number(r[4:8])
    return {'host6': 0x86dd, 'net6': 0x86dd, 'ip6multicast': 0x86dd,
            'ip6protochain': 0x86dd, 'vlan': 0x8100, 'pppoediscovery': 0x8863,
            'pppoesession': 0x8864}.get(kind)


def refusal_of(r, steps, link):
    """0, or which of 11 to 19 a primitive earns (the one the Rust meets
    first; the place is the primitive)."""
    kind = KINDS[r[0]]
    if TYPE[link] is None:
        if wanted_ethertype(r) not in (None, 0x0800):
            return 11                               # ethertype other than 0x0800
        if kind == 'mpls':
            return 15
    if not MACS[link] and kind in ('etherhost', 'ethermulticast'):
        return {'etherhost': 13, 'ethermulticast': 14}[kind]
    if kind in ('port', 'portrange') and r[2] not in (0, 5, 6, 10):
        return 12                                   # ports with p not 0, 5, 6 or 10
    if kind in ('inbound', 'outbound'):
        return 16
    if kind == 'byteaccess':
        if r[14] == 1:
            return 17                               # comparison with a load
        for op, by in steps:                        # first bad step
            if STEPS[op] == 'div' and by == 0:
                return 18
            if STEPS[op] == 'mod':
                return 19
    return 0


def first_refused(sheet, link):
    """(number, primitive) of the first primitive that earns 11 to 19, or (0, 0)."""
    for i, (r, steps) in enumerate(content(sheet)[0]):
        refusal = refusal_of(r, steps, link)
        if refusal:
            return (refusal, i)
    return (0, 0)


# ------------------------------------------------------------------ length L

BYTE, HALF, WORD = 4, 5, 5      # a guarded load: mov, add, jgt, ldx (and swap)
JUMP = 1


def sides(direction, one, between):
    """One side alone, or both; `between` is what stands between them for either."""
    if DIRECTIONS[direction] in ('source', 'destination'):
        return one
    return 2 * one + (between if DIRECTIONS[direction] == 'either' else 0)


def port_prereqs(p, link):
    proto = BYTE + (2 if p == 0 else 1) * JUMP      # none: jeq 6, jne 17
    ipv4 = proto + BYTE + 5 + 3                     # low four bits times four, R6; four bytes there
    if TYPE[link] is None:
        return ipv4
    ipv6 = proto + 2 + 3 + JUMP                     # R6; four bytes there; past IPv4
    return HALF + 2 * JUMP + ipv6 + ipv4


def net6_halves(prefix):
    prefix = min(prefix, 128)                       # "above 128 act as 128"
    partly = 1 if prefix % 16 else 0                # a half the prefix ends in is masked
    return (prefix // 16 + partly) * (HALF + JUMP) + partly


def instructions(r, steps, link):
    """The Rust's count for one primitive that earns none of 11 to 19."""
    kind, direction, p = KINDS[r[0]], r[1], r[2]
    ether = HALF + JUMP
    ip = 0 if TYPE[link] is None else ether         # "RawIp emits nothing for 0x0800"
    if kind == 'host4':
        return ip + sides(direction, WORD + JUMP, 0)
    if kind == 'host6':
        return ether + sides(direction, 8 * (HALF + JUMP), JUMP)
    if kind == 'port':
        return port_prereqs(p, link) + sides(direction, 2 + JUMP, 0)
    if kind == 'portrange':
        return port_prereqs(p, link) + sides(direction, 2 + 2 * JUMP, JUMP)
    if kind == 'net':
        return ip + sides(direction, WORD + 1 + JUMP, 0)
    if kind == 'net6':
        return ether + sides(direction, net6_halves(p), JUMP)
    if kind == 'proto':
        if PROTOS[p] in ('tcp', 'udp', 'sctp'):
            if TYPE[link] is None:
                return BYTE + JUMP
            return HALF + 2 * JUMP + (BYTE + JUMP) + JUMP + (BYTE + JUMP)
        if PROTOS[p] in ('ip', 'ip6', 'arp', 'rarp'):
            return ip
        return ip + BYTE + JUMP
    if kind == 'etherhost':
        return sides(direction, WORD + JUMP + HALF + JUMP, JUMP)
    if kind in ('etherproto', 'pppoediscovery'):
        return ip
    if kind == 'ethermulticast':
        return BYTE + 2 * JUMP
    if kind == 'ipbroadcast':
        return ip + WORD + JUMP
    if kind == 'ipmulticast':
        return ip + WORD + 1 + JUMP
    if kind in ('ip6multicast', 'ipprotochain', 'ip6protochain'):
        return ip + BYTE + JUMP
    if kind == 'vlan':
        return ether + p * (HALF + 1 + JUMP)
    if kind == 'mpls':
        return HALF + 2 * JUMP + p * (WORD + 1 + JUMP)
    if kind == 'pppoesession':
        return ether + p * (HALF + JUMP)
    comparison = 2 if COMPARISONS[p] == 'bitand' else 1
    if kind == 'len':
        return 2 + comparison
    load = [BYTE, HALF, WORD][r[3]]                 # byte access
    if LAYERS[r[1]] == 'trans':
        load += BYTE + 5                            # transport start in R6
    return load + len(steps) + comparison


def length(sheet, link):
    """"L is 6 plus one for each Or and Not plus the Rust's count for each
    primitive, 0 for one that earns 11 to 19." """
    primitives, tokens = content(sheet)
    return 6 + tokens.count(OR) + tokens.count(NOT) + sum(
        instructions(r, steps, link) for r, steps in primitives
        if not refusal_of(r, steps, link))


def admit(link, mode, sheet, output, work):
    """Refusals 1 to 8: "output below 8 x L bytes", "work below L + 8 x tokens
    numbers of 32 bits"; or 0, the three counts and L."""
    answer = check(link, mode, sheet)
    if answer[0]:
        return answer
    L = length(sheet, link)
    if output < 8 * L:
        return (7, 0)
    if work < L + 8 * answer[3]:
        return (8, 0)
    return answer + (L,)


# ------------------------------------------------------ what each test means

def field(frame, at, size):
    """The number in `size` bytes at `at`, or None: "a test is false when a
    byte it reads lies past the frame's end".  Of no bytes, none lies there."""
    if size == 0:
        return 0
    if at + size > len(frame):
        return None
    return number(frame[at:at + size])


def ethertype(link, frame, x):
    """"The half at 12 is x. On RawIp 0x0800 is true." """
    return x == 0x0800 if TYPE[link] is None else field(frame, TYPE[link], 2) == x


def by_direction(direction, source, destination):
    """"Either holds when one side does, though the other's bytes be missing." """
    return {'source': source, 'destination': destination,
            'either': source or destination,
            'both': source and destination}[DIRECTIONS[direction]]


def host4_at(frame, at, address):
    return field(frame, at, 4) == address


def net4_at(frame, at, address, mask):
    """"A net compares under its mask; each address test reads the whole word." """
    word = field(frame, at, 4)
    return word is not None and word & mask == address & mask


def net6_at(frame, at, address, prefix):
    """"A net reading only the halves its prefix enters"."""
    prefix = min(prefix, 128)
    halves = (prefix + 15) // 16
    read = field(frame, at, 2 * halves)
    return read is not None and read >> (16 * halves - prefix) == address >> (128 - prefix)


def ip_protocol(link, frame, protocol):
    return ethertype(link, frame, 0x0800) and field(frame, NET[link] + 9, 1) == protocol


def ip6_protocol(link, frame, protocol):
    return ethertype(link, frame, 0x86dd) and field(frame, NET[link] + 6, 1) == protocol


def ipv4_transport(link, frame):
    """"IPv4 net plus four times the low four bits of byte net"; None without
    that byte."""
    first = field(frame, NET[link], 1)
    return None if first is None else NET[link] + 4 * (first & 15)


def ports(link, frame, p):
    """Source and destination port, or None if the frame has no ports of the
    wanted protocol: "protocol as given or, with none, 6 or 17"."""
    wanted = {0: (6, 17), 5: (6,), 6: (17,), 10: (132,)}[p]
    if any(ip_protocol(link, frame, x) for x in wanted):
        start = ipv4_transport(link, frame)
    elif any(ip6_protocol(link, frame, x) for x in wanted):
        start = NET[link] + 40
    else:
        return None
    four = field(frame, start, 4)       # "all four port bytes must be there"
    return None if four is None else (four >> 16, four & 0xffff)


def port_between(link, frame, direction, p, lo, hi):
    """"A range holds from lo to hi inclusive"; a port is a range of one."""
    both = ports(link, frame, p)
    return both is not None and by_direction(
        direction, lo <= both[0] <= hi, lo <= both[1] <= hi)


def proto(link, frame, p, q):
    name = PROTOS[p]
    if name in ('ip', 'ip6', 'arp', 'rarp'):
        return ethertype(link, frame, {'ip': 0x0800, 'ip6': 0x86dd,
                                       'arp': 0x0806, 'rarp': 0x8035}[name])
    if name in ('tcp', 'udp', 'sctp'):  # "IPv4 or IPv6 (RawIp: IPv4 only)"
        x = {'tcp': 6, 'udp': 17, 'sctp': 132}[name]
        return ip_protocol(link, frame, x) or ip6_protocol(link, frame, x)
    if name in ('icmp', 'igmp', 'num'):
        return ip_protocol(link, frame, {'icmp': 1, 'igmp': 2, 'num': q}[name])
    return ip6_protocol(link, frame, {'icmp6': 58, 'ip6proto': q}[name])


def tag(frame, at, size, shift, mask, r):
    """The number of Vlan, Mpls and PppoeSession: p 0 asks for none."""
    if r[2] == 0:
        return True
    read = field(frame, at, size)
    return read is not None and (read >> shift) & mask == number(r[4:8])


def step(value, op, by):
    """"Add, subtract and multiply modulo 2^32, unsigned division, and, or,
    xor, shifts"."""
    return {'add': lambda: value + by, 'sub': lambda: value - by,
            'mul': lambda: value * by, 'div': lambda: value // by,
            'and': lambda: value & by, 'or': lambda: value | by,
            'xor': lambda: value ^ by, 'shl': lambda: value << by,
            'shr': lambda: value >> by}[STEPS[op]]() % 2 ** 32


def compare(value, p, constant):
    """"BitAnd holds when the common bits are not zero." """
    return {'eq': value == constant, 'ne': value != constant,
            'lt': value < constant, 'le': value <= constant,
            'gt': value > constant, 'ge': value >= constant,
            'bitand': value & constant != 0}[COMPARISONS[p]]


def byte_access(link, frame, r, steps):
    """"The load, then its steps; then the comparison. The transport layer
    starts as IPv4 does, with no protocol test." """
    start = {'raw': 0, 'net': NET[link],
             'trans': ipv4_transport(link, frame)}[LAYERS[r[1]]]
    if start is None:
        return False
    value = field(frame, start + number(r[4:8]), SIZES[r[3]])
    if value is None:
        return False
    for op, by in steps:
        value = step(value, op, by)
    return compare(value, r[2], number(r[8:12]))


def test(link, frame, r, steps):
    """Whether one primitive holds (one that earns none of 11 to 19)."""
    kind, direction, p, q, n, a = KINDS[r[0]], r[1], r[2], r[3], number(r[4:8]), number(r[8:24])
    net = NET[link]
    if kind == 'host4':
        return ethertype(link, frame, 0x0800) and by_direction(
            direction, host4_at(frame, net + 12, n), host4_at(frame, net + 16, n))
    if kind == 'net':
        mask = number(r[8:12])
        return ethertype(link, frame, 0x0800) and by_direction(
            direction, net4_at(frame, net + 12, n, mask), net4_at(frame, net + 16, n, mask))
    if kind in ('host6', 'net6'):
        prefix = 128 if kind == 'host6' else p
        return ethertype(link, frame, 0x86dd) and by_direction(
            direction, net6_at(frame, net + 8, a, prefix), net6_at(frame, net + 24, a, prefix))
    if kind == 'port':
        return port_between(link, frame, direction, p, n, n)
    if kind == 'portrange':
        return port_between(link, frame, direction, p, n >> 16, n & 0xffff)
    if kind == 'proto':
        return proto(link, frame, p, q)
    if kind == 'etherhost':             # "MAC: destination 0, source 6"
        mac = number(r[8:14])
        return by_direction(direction, field(frame, 6, 6) == mac, field(frame, 0, 6) == mac)
    if kind == 'etherproto':
        return ethertype(link, frame, n)
    if kind == 'ethermulticast':        # "bit 0 of byte 0"
        first = field(frame, 0, 1)
        return first is not None and first & 1 == 1
    if kind == 'ipbroadcast':           # "destination all ones"
        return ethertype(link, frame, 0x0800) and host4_at(frame, net + 16, 0xffffffff)
    if kind == 'ipmulticast':           # "destination's top four bits 1110"
        return ethertype(link, frame, 0x0800) and net4_at(frame, net + 16, 0xe0000000, 0xf0000000)
    if kind == 'ip6multicast':          # "net+24 is 0xff"
        return ethertype(link, frame, 0x86dd) and field(frame, net + 24, 1) == 0xff
    if kind == 'vlan':                  # "0x8100, low 12 bits of the half at 14"
        return ethertype(link, frame, 0x8100) and tag(frame, TYPE[link] + 2, 2, 0, 0xfff, r)
    if kind == 'mpls':                  # "0x8847 or 0x8848, top 20 bits of the word at 14"
        return ((ethertype(link, frame, 0x8847) or ethertype(link, frame, 0x8848))
                and tag(frame, TYPE[link] + 2, 4, 12, 0xfffff, r))
    if kind == 'pppoediscovery':
        return ethertype(link, frame, 0x8863)
    if kind == 'pppoesession':          # "0x8864, half at 16"
        return ethertype(link, frame, 0x8864) and tag(frame, TYPE[link] + 4, 2, 0, 0xffff, r)
    if kind == 'ipprotochain':          # "the Chain kinds are Num and Ip6Proto"
        return ip_protocol(link, frame, p)
    if kind == 'ip6protochain':
        return ip6_protocol(link, frame, p)
    if kind == 'len':                   # "the frame's length"
        return compare(len(frame), p, n)
    return byte_access(link, frame, r, steps)


def fold(tokens, leaf, both, one):
    """A whole tree's value, from the last token to the first."""
    stack, i = [], tokens.count(0)
    for t in reversed(tokens):
        if t == 0:
            i -= 1
            stack.append(leaf(i))
        elif t == NOT:
            stack.append(one(stack.pop()))
        else:
            left = stack.pop()
            stack.append(both(t, left, stack.pop()))
    return stack.pop()


def depth(tokens):
    """Levels of a whole tree, "the root counted"."""
    return fold(tokens, lambda i: 1, lambda t, a, b: 1 + max(a, b), lambda a: 1 + a)


def holds(link, sheet, frame):
    """Whether the expression of an accepted sheet holds, at any depth:
    "And, Or, Not as in logic"."""
    primitives, tokens = content(sheet)
    return fold(tokens, lambda i: test(link, frame, *primitives[i]),
                lambda t, a, b: a and b if t == AND else a or b, lambda a: not a)


def evaluate(link, sheet, frame):
    """"The evaluator takes a link but no mode and gives 1 (link) to 6, 9, then
    11 to 19 for the first primitive": (number, place); else (0, 1) if the
    expression holds and (0, 0) if not."""
    answer = check(link, 0, sheet)
    if answer[0]:
        return answer
    if depth(content(sheet)[1]) > 256:
        return (9, 0)
    refused = first_refused(sheet, link)
    if refused[0]:
        return refused
    return (0, 1 if holds(link, sheet, frame) else 0)


# ---------------------------------------------------------- writing a sheet
#
# A primitive is (24 bytes, its steps); a tree is a primitive, ('and', x, y),
# ('or', x, y) or ('not', x).  Directions, protocols, comparisons, steps,
# layers and sizes by the names above.

def record(kind, direction=0, p=0, q=0, n=0, a=b''):
    return bytes([kind, direction, p, q]) + (n % 2 ** 32).to_bytes(4, 'big') + a.ljust(16, b'\0')


def plain(kind, direction='either', p=0, q=0, n=0, a=b''):
    return (record(KIND[kind], DIRECTIONS.index(direction), p, q, n, a), [])


def proto_code(name):
    """None, 'tcp', ('num', 5): its p and q."""
    name, q = name if isinstance(name, tuple) else (name, 0)
    return {'p': PROTOS.index(name), 'q': q}


def host4(direction, address):
    return plain('host4', direction, n=address)


def host6(direction, address):
    return plain('host6', direction, a=address)


def port(direction, n, protocol=None):
    return plain('port', direction, n=n, **proto_code(protocol))


def portrange(direction, lo, hi, protocol=None):
    return plain('portrange', direction, n=lo * 65536 + hi, **proto_code(protocol))


def net4(direction, address, mask):
    return plain('net', direction, n=address, a=mask.to_bytes(4, 'big'))


def net6(direction, address, prefix):
    return plain('net6', direction, p=prefix, a=address)


def protocol(name):
    return plain('proto', **proto_code(name))


def etherhost(direction, mac):
    return plain('etherhost', direction, a=mac)


def etherproto(n):
    return plain('etherproto', n=n)


def bare(kind):
    """Kinds without fields: 'ethermulticast', 'inbound', ..."""
    return plain(kind)


def tagged(kind, n=None):
    """'vlan', 'mpls', 'pppoesession', with a number or without."""
    return plain(kind, p=0 if n is None else 1, n=n or 0)


def chain(kind, p):
    """'ipprotochain', 'ip6protochain'."""
    return plain(kind, p=p)


def frame_len(comparison, n):
    return plain('len', p=COMPARISONS.index(comparison), n=n)


def access(layer, size, offset, comparison, constant, steps=()):
    """Compared with a constant; steps as ('add', 3) pairs."""
    a = constant.to_bytes(4, 'big') + len(steps).to_bytes(2, 'big')
    return (record(KIND['byteaccess'], LAYERS.index(layer), COMPARISONS.index(comparison),
                   SIZES.index(size), offset, a),
            [(STEPS.index(op), by) for op, by in steps])


def access_load(layer, size, offset, comparison, layer2, size2, offset2, steps=()):
    """Compared with a load."""
    a = (bytes(4) + len(steps).to_bytes(2, 'big')
         + bytes([1, LAYERS.index(layer2), SIZES.index(size2)])
         + (offset2 % 2 ** 32).to_bytes(4, 'big'))
    return (record(KIND['byteaccess'], LAYERS.index(layer), COMPARISONS.index(comparison),
                   SIZES.index(size), offset, a),
            [(STEPS.index(op), by) for op, by in steps])


def raw_sheet(steps, primitives, tokens):
    """A sheet of any (operator, operand) pairs, 24-byte records and tokens."""
    return (len(steps).to_bytes(2, 'big')
            + b''.join(bytes([op]) + by.to_bytes(4, 'big') for op, by in steps)
            + len(primitives).to_bytes(2, 'big') + b''.join(primitives)
            + len(tokens).to_bytes(2, 'big') + bytes(tokens))


def write(tree):
    """The sheet of a tree."""
    steps, primitives, tokens, to_come = [], [], bytearray(), [tree]
    while to_come:
        node = to_come.pop()
        if isinstance(node[0], bytes):
            primitives.append(node[0])
            steps += node[1]
            tokens.append(0)
        else:
            tokens.append({'and': AND, 'or': OR, 'not': NOT}[node[0]])
            to_come += reversed(node[1:])
    return raw_sheet(steps, primitives, tokens)


# Trees over tests.
def both(x, y):
    return ('and', x, y)


def either(x, y):
    return ('or', x, y)


def no(x):
    return ('not', x)
