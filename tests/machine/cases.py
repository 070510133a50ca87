#!/usr/bin/env python3
"""Cases for the step machine: `cases.py OUTDIR` writes OUTDIR/stdin and OUTDIR/stdout and prints the counts.

The first half is a model of the machine, written from its rules and from RFC 9669 alone;
the second half makes the cases and asks the model for each answer.
"""
import collections
import os
import random
import struct
import sys

# ---------------------------------------------------------------- the model

M32, M64 = 2**32 - 1, 2**64 - 1
FORMS = {
    0xbf: 'mov64_reg', 0x0f: 'add64_reg', 0x1f: 'sub64_reg', 0xb7: 'mov64_imm', 0x07: 'add64_imm',
    0x54: 'and32_imm', 0x44: 'or32_imm', 0xa4: 'xor32_imm', 0x04: 'add32_imm', 0x14: 'sub32_imm',
    0x24: 'mul32_imm', 0x34: 'div32_imm', 0x74: 'rsh32_imm', 0x64: 'lsh32_imm', 0xdc: 'be',
    0x71: 'ldx_b', 0x69: 'ldx_h', 0x61: 'ldx_w', 0x05: 'ja', 0x2d: 'jgt_reg', 0x95: 'exit',
    0x15: 'jeq_imm', 0x55: 'jne_imm', 0x25: 'jgt_imm', 0x35: 'jge_imm', 0xa5: 'jlt_imm',
    0xb5: 'jle_imm', 0x45: 'jset_imm', 0x16: 'jeq32_imm', 0x56: 'jne32_imm', 0x26: 'jgt32_imm',
    0x36: 'jge32_imm', 0xa6: 'jlt32_imm', 0xb6: 'jle32_imm', 0x46: 'jset32_imm'}
CODE = {name: code for code, name in FORMS.items()}
OURS = (0, 2, 3, 4, 5, 6)
SIZE = {'ldx_b': 1, 'ldx_h': 2, 'ldx_w': 4}
ARITH32 = {
    'and': lambda a, b: a & b, 'or': lambda a, b: a | b, 'xor': lambda a, b: a ^ b,
    'add': lambda a, b: a + b, 'sub': lambda a, b: a - b, 'mul': lambda a, b: a * b,
    'div': lambda a, b: a // b, 'rsh': lambda a, b: a >> b, 'lsh': lambda a, b: a << b}
TEST = {
    'eq': lambda a, b: a == b, 'ne': lambda a, b: a != b, 'gt': lambda a, b: a > b,
    'ge': lambda a, b: a >= b, 'lt': lambda a, b: a < b, 'le': lambda a, b: a <= b,
    'set': lambda a, b: a & b != 0}


def shape(name):
    if name in ('be', 'ja', 'exit'):
        return name
    if name in SIZE:
        return 'load'
    return ('jump_' if name[0] == 'j' else 'alu_') + name[-3:]


def signed(n, bits):
    return n - 2**bits if n >> bits - 1 else n


def passes(name, dst, src, off, imm):
    """Not stop 30: registers in their places, reserved fields zero, numbers in range."""
    kind = shape(name)
    if kind == 'exit':
        return dst == src == off == imm == 0
    if kind == 'ja':
        return dst == src == imm == 0
    if dst not in OURS:
        return False
    if kind == 'load':
        return imm == 0 and (src in OURS or src == 1 and name == 'ldx_w')
    if kind == 'jump_imm':
        return src == 0
    if kind == 'jump_reg':
        return src in OURS and imm == 0
    if off != 0:
        return False
    if kind == 'alu_reg':
        return src in OURS and imm == 0
    if src != 0:
        return False
    if name == 'be':
        return imm in (16, 32)
    if name == 'div32_imm':
        return imm != 0
    return imm <= 31 if name in ('rsh32_imm', 'lsh32_imm') else True


def reads(name, dst, src):
    kind = shape(name)
    if kind == 'exit':
        return {0}
    if name in ('ja', 'mov64_imm'):
        return set()
    if kind == 'load' or name == 'mov64_reg':
        return {src}
    return {dst, src} if kind in ('alu_reg', 'jump_reg') else {dst}


def walk(program, frame, start, budget, trace):
    """Run without the look at stop 35; `trace` gets the opcode of each instruction met."""
    end = start + len(frame)
    reg = {1: None}
    pc = steps = 0
    while True:
        if steps == budget:
            return 34, 0, steps
        if not 0 <= pc < len(program) // 8:
            return 33, 0, steps
        code, pair, off, imm = struct.unpack_from('<BBHI', program, 8 * pc)
        trace.append(code)
        dst, src = pair & 15, pair >> 4
        name = FORMS.get(code)
        if name is None or not passes(name, dst, src, off, imm):
            return 30, 0, steps
        if not reads(name, dst, src) <= reg.keys():
            return 32, 0, steps
        kind, off = shape(name), signed(off, 16)
        pc += 1
        if kind == 'exit':
            return 0, reg[0], steps + 1
        if kind == 'ja':
            pc += off
        elif name == 'jgt_reg':
            pc += off if reg[dst] > reg[src] else 0
        elif kind == 'jump_imm' and '32' in name:
            pc += off if TEST[name[1:-6]](reg[dst] & M32, imm) else 0
        elif kind == 'jump_imm':
            pc += off if TEST[name[1:-4]](reg[dst], signed(imm, 32) & M64) else 0
        elif kind == 'load' and src == 1:
            if off not in (0, 4):
                return 31, 0, steps
            reg[dst] = end if off else start
        elif kind == 'load':
            place = (reg[src] + off) % 2**64
            if place < start or place + SIZE[name] > end:
                return 31, 0, steps
            reg[dst] = int.from_bytes(frame[place - start:place - start + SIZE[name]], 'little')
        elif kind == 'be':
            low = reg[dst] % 2**imm
            reg[dst] = int.from_bytes(low.to_bytes(imm // 8, 'little'), 'big')
        elif '32' in name:
            reg[dst] = ARITH32[name[:-6]](reg[dst] & M32, imm) & M32
        else:
            value = reg[src] if kind == 'alu_reg' else signed(imm, 32)
            base = 0 if name[:3] == 'mov' else reg[dst]
            reg[dst] = (base - value if name[:3] == 'sub' else base + value) & M64
        steps += 1


def run(program, frame, start, budget, trace):
    if len(program) == 0 or len(program) % 8 or start + len(frame) >= 2**32:
        return 35, 0, 0
    return walk(program, frame, start, budget, trace)


# ---------------------------------------------------------------- the cases

rng = random.Random(9669)
cases = []          # (group, program, frame, start, budget, stop meant or None)
BAD = (1,) + tuple(range(7, 16))
EDGE = (0, 1, 2, 7, 0x80, 0xff, 0x8000, 0xffff, 0x10000, 0x12345678, 0x7ffffffe, 0x7fffffff,
        0x80000000, 0x80000001, 0xf0000000, 0xfffffffe, 0xffffffff)
JUMPS = [n for n in CODE if shape(n) == 'jump_imm']
JUMPS5 = [n for n in JUMPS if '32' not in n]
ALU_IMM = [n for n in CODE if shape(n) == 'alu_imm']
ALU_REG = [n for n in CODE if shape(n) == 'alu_reg']
EXIT = b'\x95' + bytes(7)


def raw(code, dst=0, src=0, off=0, imm=0):
    return struct.pack('<BBHI', code, dst | src << 4, off & 0xffff, imm & M32)


def i(name, dst=0, src=0, off=0, imm=0):
    return raw(CODE[name], dst, src, off, imm)


def mov(dst, imm):
    return i('mov64_imm', dst, imm=imm)


def u32(dst, imm):
    """dst = imm, zero-extended."""
    return mov(dst, 0) + i('or32_imm', dst, imm=imm)


def start_in(dst):
    return i('ldx_w', dst, 1)


def case(group, program, frame=b'', start=0x1000, budget=1000, stop=None):
    new = (group, program, bytes(frame), start, budget, stop)
    if not any(old[1:5] == new[1:5] for old in cases):
        cases.append(new)


def starts(length):
    return (0, 1, 0x1000, 0xfffffff0 - length, 2**32 - 1 - length)


def ok_imm(name):
    """An immediate that passes, edges often."""
    if name in ('rsh32_imm', 'lsh32_imm'):
        return rng.choice((0, 1, 8, 12, 31, rng.randrange(32)))
    if name == 'be':
        return rng.choice((16, 32))
    imm = rng.choice(EDGE) if rng.random() < 0.6 else rng.getrandbits(32)
    return imm or 3 if name == 'div32_imm' else imm


def plain(name):
    """One passing instruction of this form on R4, R6 and R2 (the start), and nothing else."""
    kind = shape(name)
    if kind in ('ja', 'exit'):
        return i(name)
    if kind == 'load':
        return i(name, 4, 2)
    if kind[-3:] == 'reg':
        return i(name, 4, 6)
    return i(name, 4, imm={'be': 16, 'div32_imm': 3, 'rsh32_imm': 5, 'lsh32_imm': 5}.get(name, 0x1234567))


def around(ins):
    """R0 = 1; R2 = start; R4, R6 set; the instruction; R0 = R4; exit."""
    return (mov(0, 1) + start_in(2) + mov(4, -0x12345679) + mov(6, 9) + ins
            + i('mov64_reg', 0, 4) + EXIT)


def opcodes():
    for code in range(256):
        if code in FORMS:
            ins = plain(FORMS[code])
        else:
            from_reg = code & 7 in (1, 3) or code & 8
            ins = raw(code, 4, 2 if from_reg else 0, 0, 0 if from_reg else 16)
        case('opcodes', around(ins), bytes(range(0x81, 0x91)), starts(16)[code % 5],
             stop=0 if code in FORMS else 30)


def bad_registers():
    for name in CODE:
        kind = shape(name)
        if kind in ('ja', 'exit'):
            continue
        for bad in BAD:
            good = plain(name)
            pairs = [good[1] & 0xf0 | bad]
            if kind[-3:] == 'reg' or kind == 'load' and (bad != 1 or name != 'ldx_w'):
                pairs.append(good[1] & 0x0f | bad << 4)
            for pair in pairs:
                case('registers', around(good[:1] + bytes([pair]) + good[2:]), bytes(8), stop=30)


def good_registers():
    """Every form with every register that passes in every place."""
    mix = b''.join(i('add64_reg', 0, 0) + i('add64_reg', 0, r) for r in OURS[1:]) + EXIT
    for name in ALU_IMM + ['be']:
        case('registers', b''.join(mov(r, -0x01234567 * (r + 1)) for r in OURS)
             + b''.join(i(name, r, imm=ok_imm(name)) for r in OURS) + mix, stop=0)
    for name in ALU_REG:
        case('registers', b''.join(mov(r, -0x01234567 * (r + 1)) for r in OURS)
             + b''.join(i(name, d, s) for d in OURS for s in OURS) + mix, stop=0)
    frame = bytes(b & 0x7f for b in rng.randbytes(16))
    for name, size in SIZE.items():
        for s in OURS:
            body = []
            for d in OURS:
                place = {0: 0, 6: 16 - size}.get(d, rng.randrange(17 - size))
                want = int.from_bytes(frame[place:place + size], 'little')
                body += [start_in(s), i(name, d, s, place), ('jne_imm', d, want)]
            case('registers', checked(body), frame, starts(16)[s % 5], stop=0)
    for name in JUMPS:
        body = []
        for r in OURS:
            hit, miss = {'eq': (5, 6), 'ne': (6, 5), 'gt': (6, 5), 'ge': (5, 4), 'lt': (4, 5), 'le': (5, 6),
                         'set': (7, 8)}[name[1:].split('32')[0].split('_')[0]]
            body += [mov(r, hit), i(name, r, off=1, imm=5), ('ja', 0, 0), mov(r, miss), (name, r, 5)]
        case('registers', checked(body), stop=0)
    body = [mov(r, r) for r in OURS]
    for d in OURS:
        for s in OURS:
            body += [i('jgt_reg', d, s, 1), ('ja', 0, 0)] if d > s else [('jgt_reg', d, s)]
    case('registers', checked(body), stop=0)


def checked(body, last=mov(0, 2)):
    """The body, `last`, exit; and a failing end: R0 = 1, exit.
    Tuples (name, dst, src or imm) in the body are jumps to the failing end."""
    out = b''
    for n, ins in enumerate(body):
        if isinstance(ins, tuple):
            name, dst, other = ins
            off = len(body) - n + 1
            ins = i(name, dst, other, off) if name == 'jgt_reg' else i(name, dst, off=off, imm=other)
        assert len(ins) == 8
        out += ins
    return out + last + EXIT + mov(0, 1) + EXIT


def reserved():
    offs, imms, regs = (1, 0x8000, 8, 0xffff), (1, 0x80000000, 0xffffffff), (2, 4, 8, 6)
    n = 0
    for name in CODE:
        kind = shape(name)
        fields = {'exit': 'dsoi', 'ja': 'dsi', 'load': 'i', 'jump_imm': 's', 'jump_reg': 'i', 'alu_reg': 'oi'}
        for field in fields.get(kind, 'so'):
            code, pair, off, imm = struct.unpack('<BBHI', plain(name))
            if field in 'ds':
                for register in (1, regs[n % 4]):
                    case('reserved', around(raw(code, pair & 15 | register, 0, off, imm) if field == 'd'
                                            else raw(code, pair & 15, register, off, imm)), bytes(8), stop=30)
            else:
                off |= offs[n % 4] if field == 'o' else 0
                imm |= imms[n % 3] if field == 'i' else 0
                case('reserved', around(struct.pack('<BBHI', code, pair, off, imm)), bytes(8), stop=30)
            n += 1
    for off in (8, 16, 32):     # sign-extending moves
        case('reserved', around(i('mov64_reg', 4, 6, off)), stop=30)
    case('reserved', around(i('div32_imm', 4, 0, 1, 3)), stop=30)     # signed division


def numbers():
    """Divisors, shifts and swap widths, passing and not."""
    for imm in (0, 1, 0x80000000, 0xffffffff):
        case('numbers', around(i('div32_imm', 4, imm=imm)), stop=0 if imm else 30)
    for name in ('rsh32_imm', 'lsh32_imm'):
        for imm in (0, 31, 32, 64, 256, 0x80000000, 0xffffffff):
            case('numbers', around(i(name, 4, imm=imm)), stop=0 if imm in (0, 31) else 30)
    for imm in (0, 8, 16, 17, 32, 33, 64, 0x10010, 0x80000020):
        case('numbers', around(i('be', 4, imm=imm)), stop=0 if imm in (16, 32) else 30)


def arithmetic():
    """Every arithmetic form on words of the frame, high halves set or clear, mixed into R0."""
    for name in ALU_IMM + ALU_REG + ['be']:
        words = [rng.choice(EDGE) if k % 2 else rng.getrandbits(32) for k in range(8)]
        body = [start_in(2), i('ldx_w', 3, 1, 4), i('mov64_reg', 5, 2), i('add64_imm', 5, imm=32),
                ('jgt_reg', 5, 3), mov(0, 0)]
        for k in range(8):
            body += [i('ldx_w', 4, 2, 4 * k), mov(6, rng.choice((-1, 1, -0x80000000, 0x7fffffff)))]
            body += [i('add64_reg', 6, 6), i('add64_reg', 4, 6)]
            body += [i(name, 4, 6) if name in ALU_REG else i(name, 4, imm=ok_imm(name))]
            body += [i('add64_reg', 0, 0), i('add64_reg', 0, 4)]
        case('arithmetic', checked(body, i('ja')), struct.pack('<8I', *words), starts(32)[len(name) % 5], stop=0)
    for imm in (0, 0x7fffffff, 0x80000000, M32):
        for name in ('mov64_imm', 'add64_imm', 'add32_imm', 'sub32_imm', 'or32_imm'):
            case('arithmetic', mov(0, -2) + i(name, 0, imm=imm) + EXIT, start=rng.choice(starts(0)))
    case('arithmetic', mov(0, -1) + EXIT)
    for width in (16, 32):
        for low in (0x80000001, 0x0000ff00, 0x12345678):
            case('arithmetic', u32(0, low) + mov(4, -0x80000000) + i('add64_reg', 0, 4) + i('be', 0, imm=width) + EXIT)


def comparisons():
    """Class 5 against class 6: ten values with high halves 0, 1 and all ones; one bit of R0 each."""
    for name in JUMPS:
        for imm in (0x7fffffff, 0x80000000, 0xffffffff):
            lows = [imm - 1, imm, (imm + 1) & M32, 0, imm, 0, imm, (imm + 1) & M32, imm - 1, 0x80000000]
            highs = [0, 0, 0, 0, 5, 5, 6, 6, 6, 6]     # 0: none, R5: 2^32, R6: -2^32
            body = [start_in(2), i('ldx_w', 3, 1, 4), i('mov64_reg', 5, 2), i('add64_imm', 5, imm=40),
                    ('jgt_reg', 5, 3), mov(5, -1), i('or32_imm', 5), i('add64_imm', 5, imm=1),
                    mov(6, 0), i('sub64_reg', 6, 5), mov(0, 0)]
            for k, high in enumerate(highs):
                body += [i('add64_reg', 0, 0), i('ldx_w', 4, 2, 4 * k)]
                body += [i('add64_reg', 4, high)] if high else []
                body += [i(name, 4, off=1, imm=imm), i('ja', off=1), i('add64_imm', 0, imm=1)]
            case('comparisons', checked(body, i('ja')), struct.pack('<10I', *lows), starts(40)[(imm >> 5) % 5], stop=0)
    sets = (mov(4, -1), mov(4, 1), mov(4, -0x80000000), u32(4, 0x80000000), u32(4, M32),
            u32(4, M32) + i('add64_imm', 4, imm=2))
    for n, left in enumerate(sets):     # jgt_reg, every pair of these six, one bit of R0 each
        program = left + i('mov64_reg', 5, 4) + mov(0, 0)
        for right in sets:
            program += right + i('add64_reg', 0, 0) + i('jgt_reg', 5, 4, 1) + i('ja', off=1) + i('add64_imm', 0, imm=1)
        case('comparisons', program + EXIT, start=starts(0)[n % 5], stop=0)


def not_written():
    """Every place that is read, with its register not yet written."""
    n = 0
    for name in CODE:
        for place in (('dst', 'src') if shape(name)[-3:] == 'reg' else ('src',) if shape(name) == 'load' else ('dst',)):
            if name in ('mov64_imm', 'ja', 'exit') or name == 'mov64_reg' and place == 'dst':
                continue
            r, s = OURS[n % 6], OURS[(n + 1) % 6]
            n += 1
            base = plain(name)
            pair = {'load': s | r << 4, 'alu_reg': r | s << 4, 'jump_reg': r | s << 4}.get(shape(name), r)
            if shape(name)[-3:] == 'reg' and place == 'src':
                pair = s | r << 4
            case('not written', mov(s, 0x1000) + base[:1] + bytes([pair]) + base[2:] + mov(0, 1) + EXIT, bytes(8),
                 stop=32)
    case('not written', EXIT, stop=32)
    case('not written', mov(2, 1) + mov(3, 1) + mov(4, 1) + mov(5, 1) + mov(6, 1) + EXIT, stop=32)
    for r in OURS:
        case('not written', i('ja', off=1) + mov(r, 5) + i('sub64_reg', r, r) + mov(0, 1) + EXIT, stop=32)
    case('not written', mov(4, 0) + i('jeq_imm', 4, off=1) + mov(0, 2) + EXIT, stop=32)


def starts_and_lengths():
    good = mov(0, 2) + EXIT
    for budget in (0, 9):
        for length in (0, 1, 7, 12):
            case('length', good[:length], bytes(3), 0, budget, 35)
        case('length', (good + bytes(1))[-9:], bytes(3), 0, budget, 35)
        case('length', good + bytes(4), bytes(3), 0, budget, 35)
    end = i('ldx_w', 0, 1, 4) + EXIT
    for length in (0, 1, 14):
        for start in (2**32 - 1 - length, 2**32 - length, 2**64 - length - 1, 2**64 - max(length, 1)):
            case('start', end, bytes(length), start, 5, 0 if start + length == 2**32 - 1 else 35)
    for start in (2**32, 2**32 + 0x1000, 2**63, 2**64 - 2**32, 2**64 - 8):
        case('start', end, bytes(8), start, 5, 35)
    for start in (0, 1, 0x7fffffff, 0xfffffff0 - 9):
        case('start', start_in(0) + EXIT, bytes(9), start, 5, 0)
        case('start', end, bytes(9), start, 5, 0)
        case('start', i('ldx_w', 4, 1, 4) + start_in(5) + i('sub64_reg', 4, 5) + i('mov64_reg', 0, 4) + EXIT,
             bytes(9), start, 5, 0)


def loads():
    frame = bytes(range(0x91, 0xa1))
    for name, size in SIZE.items():
        for k, s in enumerate(OURS):
            for off in (16 - size + 1, -1):
                case('loads', start_in(s) + i(name, 4, s, off) + mov(0, 1) + EXIT, frame, starts(16)[k % 5], stop=31)
        for start in starts(16):
            for off in (0, 16 - size):
                case('loads', start_in(2) + i(name, 0, 2, off) + EXIT, frame, start, stop=0)
        for length in (0, size - 1, size):
            case('loads', start_in(3) + i(name, 0, 3) + EXIT, frame[:length], starts(length)[length],
                 stop=0 if length == size else 31)
        # base plus offset: far offsets both ways, sums below 0, sums past 2^64
        for base, off in ((0x10001, -1), (0x8001, 0x7fff), (0x18000, -0x8000), (0x8000, 0x7fff)):
            case('loads', mov(5, base) + i(name, 0, 5, off) + EXIT, frame, 0x10000, stop=0 if base + off >= 0x10000 else 31)
        for base, off in ((-1, 1), (-0x7ff8, 0x7fff), (-1, 0), (-3, 0), (0, -1), (-4, 3)):
            case('loads', mov(6, base) + i(name, 0, 6, off) + EXIT, frame, 0, stop=0 if base + off >= 0 else 31)
        # the right low half under a wrong high half
        case('loads', start_in(2) + mov(4, -1) + i('or32_imm', 4) + i('add64_imm', 4, imm=1) + i('add64_reg', 2, 4)
             + i(name, 0, 2) + EXIT, frame, 0x1000, stop=31)
        case('loads', mov(2, -17) + i(name, 0, 2) + EXIT, frame, 0xffffffef, stop=31)
    for off in (0, 1, 2, 3, 4, 5, 8, 12, -1, -4, 0x7fff, -0x8000, 0x104):
        case('context', i('ldx_w', 0, 1, off) + EXIT, frame, rng.choice(starts(16)), stop=0 if off in (0, 4) else 31)
    for name in ('ldx_b', 'ldx_h'):
        for off in (0, 4, 8):
            case('context', i(name, 4, 1, off) + mov(0, 1) + EXIT, frame, stop=30)
    for off in (0, 4, 8):
        case('context', i('ldx_w', 1, 1, off) + mov(0, 1) + EXIT, frame, stop=30)
    for r in OURS:
        case('context', i('ldx_w', r, 1, 4) + i('ldx_w', 6 if r == 5 else 5, 1) + i('mov64_reg', 0, r) + EXIT, frame, stop=0)


def jumps():
    fine = mov(0, 7) + EXIT
    for budget in (0, 1, 2, 5000):
        case('jumps', i('ja', off=-1) + fine, budget=budget)
        case('jumps', mov(0, 1) + i('ja', off=-2) + EXIT, budget=budget)
    for off in (0, 1, 2, 3, 4, 5, 0x7fff, -2, -0x8000):
        case('jumps', i('ja', off=off) + fine + fine, stop={0: 0, 2: 0, 1: 32, 3: 32}.get(off, 33))
    for off in (0, 1, 2, 0x7fff, -2, -3, -0x8000):
        case('jumps', mov(0, 3) + i('ja', off=off) + i('add64_imm', 0, imm=4) + EXIT, budget=100)
        case('jumps', mov(0, 3) + i('jne_imm', 0, off=off, imm=3) + EXIT, stop=0)
        case('jumps', mov(0, 3) + i('jeq_imm', 0, off=off, imm=3) + EXIT + i('add64_imm', 0, imm=2) + EXIT, budget=50)
    for name in JUMPS + ['jgt_reg']:
        imm = 0 if name == 'jgt_reg' else 1
        for value in (0, 2):
            case('jumps', mov(0, value) + mov(4, 1) + i(name, 0, 4 if name == 'jgt_reg' else 0, -1, imm) + EXIT, budget=20)
    for n in (1, 2, 9):
        case('jumps', mov(0, 0) + mov(5, n) + i('add64_imm', 0, imm=3) + i('add64_imm', 5, imm=-1)
             + i('jne_imm', 5, off=-3) + EXIT, stop=0)


def long_programs():
    for size in (300, 1100):
        body = [i('add64_imm', 0, imm=k) for k in range(size)]
        body[0], body[1], body[2] = mov(0, 0), mov(4, 0), i('ja', off=size - 10)
        body[size - 8] = i('jne_imm', 4, off=7, imm=0)      # the second time: to the exit
        body[size - 7] = mov(4, 1)
        body[size - 6] = i('ja', off=10 - size)
        case('jumps', b''.join(body) + EXIT, budget=2 * size, stop=0)
    case('jumps', 299 * mov(0, 7) + i('ja', off=-301), stop=33)     # to just before the start
    case('jumps', 299 * mov(0, 7) + i('ja', off=-300), budget=601, stop=34)     # to the start


def budgets():
    three = mov(0, 1) + i('add64_imm', 0, imm=1) + EXIT
    for budget in (0, 1, 2, 3, 4, M32):
        case('budget', three, budget=budget)
        case('budget', three[:16], budget=budget)     # runs off the end: 34 before 33
    for budget in (0, 1, 2):
        case('budget', mov(0, 1) + bytes(8), budget=budget)
        case('budget', mov(0, 1) + i('add64_reg', 0, 4), budget=budget)
        case('budget', mov(0, 1) + i('ldx_b', 0, 0), budget=budget)
        case('budget', i('ja', off=5) + EXIT, budget=budget)


def order():
    for bad in (i('add64_imm', 4, 0, 1, 1), i('div32_imm', 4), i('lsh32_imm', 4, imm=32), i('be', 4, imm=64),
                raw(0x95, imm=1), raw(0x95, 1), i('jeq_imm', 4, 3), i('mov64_reg', 4, 1), i('add64_reg', 1, 4),
                i('jgt_reg', 4, 5, imm=1), i('jgt_reg', 1, 5), i('ldx_b', 4, 1, 8), i('ldx_w', 1, 1, 8), i('ldx_w', 7, 1, 8),
                i('ldx_w', 4, 5, 0x7fff, 1), i('ldx_h', 4, 11, -1)):
        case('order', bad + mov(0, 1) + EXIT, stop=30)     # 30 before 32 and 31
    for name in SIZE:
        for off in (0, 0x7fff, -1):
            case('order', i(name, 0, 5, off) + EXIT, stop=32)     # 32 before 31
    case('order', bytes(8), stop=30)
    case('order', b'\xff' * 8, stop=30)


def step(names):
    """One random passing instruction that is no jump back and no load."""
    name = rng.choice(names)
    d, s = rng.choice(OURS), rng.choice(OURS)
    kind = shape(name)
    if kind == 'jump_imm':
        return i(name, d, off=rng.randrange(3), imm=ok_imm(name))
    if kind == 'jump_reg':
        return i(name, d, s, rng.randrange(3))
    return i(name, d, s) if kind == 'alu_reg' else i(name, d, imm=ok_imm(name))


def random_mixes():
    alu = ALU_IMM + ALU_REG + ['be']
    for k in range(50):
        names = alu * 2 + (JUMPS5 + ['jgt_reg'] if k % 2 else JUMPS)
        size = rng.randrange(6, 18)
        body = b''.join(mov(r, rng.choice(EDGE) if k % 3 else rng.getrandbits(32)) for r in OURS)
        body += b''.join(step(names) for _ in range(size)) + 2 * i('add64_imm', 0) + EXIT
        case('random', body, start=rng.choice(starts(0)))
    for k in range(60):     # guarded loads, arithmetic and a test, as a filter would have them
        names = JUMPS5 if k % 2 else JUMPS
        body = [start_in(2), i('ldx_w', 3, 1, 4)]
        for _ in range(rng.choice((1, 1, 2))):
            name = rng.choice(list(SIZE))
            off = rng.randrange(30)
            if rng.random() < 0.3:      # a start computed from the frame
                body += [i('mov64_reg', 5, 2), i('add64_imm', 5, imm=1), ('jgt_reg', 5, 3), i('ldx_b', 4, 2),
                         i('and32_imm', 4, imm=15), i('lsh32_imm', 4, imm=2), i('mov64_reg', 6, 2), i('add64_reg', 6, 4)]
                base = 6
            else:
                base = 2
            body += [i('mov64_reg', 5, base), i('add64_imm', 5, imm=off + SIZE[name]), ('jgt_reg', 5, 3),
                     i(name, 4, base, off)]
            body += [i('be', 4, imm=8 * SIZE[name])] if SIZE[name] > 1 else []
            for alu_name in rng.sample(ALU_IMM, rng.randrange(3)):
                if alu_name not in ('mov64_imm', 'add64_imm'):
                    body.append(i(alu_name, 4, imm=ok_imm(alu_name)))
            if rng.random() < 0.3:
                body += [i('mov64_reg', 0, 3), i('sub64_reg', 0, 2),
                         i(rng.choice(names), 0, off=1, imm=rng.randrange(60)), i('add64_reg', 4, 0)]
            body.append((rng.choice(names), 4, rng.choice(EDGE)))
        length = rng.choice((14, 20, 34, 60, 60, 90))
        case('random', checked(body, i('mov64_reg', 0, 4)), rng.randbytes(length), rng.choice(starts(length)), stop=0)
    for k in range(20):     # loops, some until the budget is spent
        names = alu + ['jgt_reg']
        body = b''.join(mov(r, rng.getrandbits(32)) for r in OURS[:-1]) + mov(6, rng.choice((3, 10, 100, -1)))
        size = rng.randrange(2, 8)
        inner = b''
        while len(inner) < 8 * size:
            ins = step(names)
            if ins[1] & 15 != 6:
                inner += ins
        body += inner + 2 * i('add64_imm', 0, imm=1) + i('add64_imm', 6, imm=-1) + i('jne_imm', 6, off=-(size + 4)) + EXIT
        case('loops', body, budget=rng.choice((50, 500, 1111, 5000)))
    codes = list(FORMS)
    for k in range(40):     # anything
        size = rng.randrange(3, 20)
        body = start_in(2) + b''.join(mov(r, rng.choice((0x1000, 5, -1, 0x1010))) for r in rng.sample(OURS, 4))
        for _ in range(size):
            name = FORMS[rng.choice(codes)]
            kind = shape(name)
            d, s = rng.choice(OURS), rng.choice(OURS)
            if kind == 'load':
                base = 1 if name == 'ldx_w' and rng.random() < 0.2 else rng.choice((2, 2, 2, s))
                body += i(name, d, base, rng.choice((0, 4, 9, 20)))
            elif kind in ('ja', 'jump_imm', 'jump_reg'):
                off = rng.choice((0, 0, 1, 1, 2, -2, -3, rng.randrange(-8, 9)))
                body += (i(name, off=off) if kind == 'ja' else i(name, d, s, off) if kind == 'jump_reg'
                         else i(name, d, off=off, imm=ok_imm(name)))
            else:
                body += i(name) if kind == 'exit' else step([name])
        case('random', body + mov(0, 9) + EXIT, rng.randbytes(rng.choice((0, 24, 24, 40))),
             rng.choice((0x1000, 0x1000, 0)), rng.choice((60, 300, 3000)))
    for _ in range(6):
        case('random', rng.randbytes(8 * rng.randrange(1, 6)), rng.randbytes(9))


def listing():
    """The listing for the filter `ip` on Ethernet, plain and with class 6, on whole and cut frames."""
    k2 = bytes.fromhex('6112000000000000 6113040000000000 bf25000000000000 070500000e000000'
                       '2d35050000000000 69240c0000000000 dc04000010000000 5504020000080000'
                       'b700000002000000 9500000000000000 b700000001000000 9500000000000000')
    for program in (k2, k2[:56] + b'\x56' + k2[57:]):
        for frame in (bytes(12) + b'\x08\x00', bytes(12) + b'\x08\x00' + bytes(46), bytes(12) + b'\x86\xdd' + bytes(40),
                      bytes(12) + b'\x00\x08' + bytes(9), bytes(12) + b'\x08', b''):
            case('listing', program, frame, starts(len(frame))[len(frame) % 5], 10, 0)


def main():
    for part in (opcodes, bad_registers, good_registers, reserved, numbers, arithmetic, comparisons, not_written,
                 starts_and_lengths, loads, jumps, long_programs, budgets, order, random_mixes, listing):
        part()
    here = sys.argv[1]
    os.makedirs(here, exist_ok=True)
    stops, groups = collections.Counter(), collections.Counter()
    table = collections.Counter()     # (opcode, column)
    with open(os.path.join(here, 'stdin'), 'wb') as given, open(os.path.join(here, 'stdout'), 'w') as wanted:
        for group, program, frame, start, budget, meant in cases:
            trace = []
            stop, r0, steps = run(program, frame, start, budget, trace)
            assert meant in (None, stop), (group, program.hex(), stop)
            given.write(b'M' + struct.pack('>I', len(program)) + program + struct.pack('>I', len(frame)) + frame
                        + struct.pack('>QI', start, budget))
            wanted.write('%d %d %d\n' % (stop, r0, steps))
            groups[group] += 1
            stops[stop] += 1
            table.update((code, 'cases') for code in set(trace[:steps]))
            table.update((code, 'times') for code in trace[:steps])
            table.update((code, stop) for code in trace[steps:])
    print('%d cases, by stop:' % len(cases), ', '.join('%d: %d' % pair for pair in sorted(stops.items())))
    print('stop meant beforehand: %d cases' % sum(c[5] is not None for c in cases))
    print('by group:', ', '.join('%s %d' % pair for pair in groups.items()))
    columns = ('cases', 'times', 30, 31, 32)
    print('%-11s carried out in cases, times; stopped at with 30, 31, 32' % 'form')
    for code, name in FORMS.items():
        print('%-11s' % name, ' '.join('%5d' % table[code, column] for column in columns))
    others = set(range(256)) - FORMS.keys()
    print('%-11s' % 'others', ' '.join('%5d' % sum(table[code, column] for code in others) for column in columns))


if __name__ == '__main__':
    if len(sys.argv) != 2:
        sys.exit('usage: cases.py OUTDIR')
    main()
