"""Writes the stored cases of tag P: python3 cases.py OUTDIR gives OUTDIR/stdin and OUTDIR/stdout.

A case: P mode(1) at(8) most(8) sheet-length(4) sheet file-length(4) file, numbers big-endian; `at` 0 is the whole file, else a part.
Its line: the refusal and its place, or `0 passed dropped cut next`. Answers are savefile.py's and tests/sheet/model.py's; where a
case was written with an answer in mind it is stated here and must be the model's. Counts of real captures are tcpdump's (counts.txt).
"""
import os
import struct
import sys

sys.dont_write_bytecode = True
sys.path.insert(0, os.path.dirname(os.path.abspath(__file__)))
import filters
import savefile
from savefile import model

HERE = os.path.dirname(os.path.abspath(__file__))
PLAIN, MENDED = 0, 1
ROOM = 2 ** 20                          # bytes of output, numbers of work that the program replay lends
ALL = 2 ** 64 - 1
FORMS = [(order, magic) for order in '<>' for magic in (savefile.MICRO, savefile.NANO)]

# ------------------------------------------------------------- the case book

cases = []                              # (bytes, answer, stated?)
seen = set()


def judged(link, sheet, walked):
    return (0,) + savefile.counts(link, sheet, walked)


def sheet_refusal(link, mode, sheet):
    """Document 01's refusals for the lent places of the program replay, but for 10; or None."""
    answer = model.admit(link, mode, sheet, ROOM, ROOM)
    if answer[0] == 0:
        answer = model.first_refused(sheet, link)
    return answer[:2] if answer[0] else None


def of_whole(mode, sheet, file):
    """"Looked for in file order through the whole file, then document 01's"."""
    opened = savefile.opened(file)
    if opened[0]:
        return opened
    return sheet_refusal(opened[1], mode, sheet) or judged(opened[1], sheet, savefile.records(file)[0]) + (len(file),)


def of_part(mode, sheet, file, at, most):
    """The header, then the sheet, then at most `most` records from byte `at` on."""
    header = savefile.header(file)
    if header[0]:
        return header
    refused = sheet_refusal(header[1], mode, sheet)
    if refused:
        return refused
    walked = []
    while len(walked) < most and at < len(file):
        record = savefile.record_at(file, at)
        if record[0]:
            return record
        walked.append((at, file[at + 16:at + 16 + record[1]], record[2]))
        at += 16 + record[1]
    return judged(header[1], sheet, walked) + (at,)


def P(file, sheet, want=None, mode=MENDED, at=0, most=0):
    """A case. Stated: want, the whole answer, or the refusal's number alone."""
    store(file, sheet, of_part(mode, sheet, file, at, most) if at else of_whole(mode, sheet, file), want, mode, at, most)


def store(file, sheet, answer, want, mode, at, most):
    assert answer[0] or mode == MENDED or filters.low(sheet), ('plain mode would need its own meaning', sheet.hex())
    if want is not None:
        assert answer == want or answer[0] == want, (mode, at, most, sheet.hex(), file[:200].hex(), 'meant', want, 'model', answer)
    data = (b'P' + bytes([mode]) + struct.pack('>QQI', at, most, len(sheet)) + sheet + struct.pack('>I', len(file)) + file)
    if data not in seen:
        seen.add(data)
        cases.append((data, answer, want is not None))


def both_modes(file, sheet, want=None, at=0, most=0):
    P(file, sheet, want, MENDED, at, most)
    P(file, sheet, want, PLAIN, at, most)


# ------------------------------------------------------------ frames and files

IP = model.write(model.protocol('ip'))
HOST = model.write(model.host4('either', 0x0a000001))
EMPTY = model.write(model.frame_len('eq', 0))


def ip_frame(p=17, source=0x0a000001, n=34):
    return (b'\2' * 12 + b'\x08\0' + struct.pack('>BBHHHBBHII', 0x45, 0, 20, 0, 0, 64, p, 0, source, 0x0a000002)).ljust(n, b'\0')[:n]


ARP = b'\xff' * 6 + b'\2' * 6 + b'\x08\x06'
SMALL = [ip_frame(n=20), (ARP, 60), ARP]            # one passes `ip`, one is cut, one is dropped


def raw(frames):
    return [(f[0][14:], f[1] - 14) if isinstance(f, tuple) else f[14:] for f in frames]


def cooked(frames):
    """The same behind Linux's cooked header: 14 bytes, then the ethertype."""
    return [(b'\0\0\0\1\0\6' + bytes(8) + f[0][12:], f[1] + 2) if isinstance(f, tuple) else b'\0\0\0\1\0\6' + bytes(8) + f[12:] for f in frames]


def replaced(file, at, new):
    return file[:at] + new + file[at + len(new):]


def starts(file):
    return [at for at, _, _ in savefile.records(file)[0]]


# --------------------------------------------------------------------- the parts

def forms():
    """Both byte orders, both magics, the three links, both modes."""
    for order, magic in FORMS:
        eth = savefile.write(SMALL, 1, order, magic)
        both_modes(eth, IP, (0, 1, 1, 1, len(eth)))
        both_modes(eth, EMPTY, (0, 0, 2, 1, len(eth)))
        ip = savefile.write(raw([ip_frame(), ip_frame(6), (ip_frame(), 100)]), 101, order, magic)
        both_modes(ip, IP, (0, 2, 0, 1, len(ip)))
        both_modes(ip, model.write(model.protocol('tcp')), (0, 1, 1, 1, len(ip)))
        both_modes(savefile.write([], 1, order, magic), IP, (0, 0, 0, 0, 24))
        both_modes(savefile.write([], 101, order, magic), IP, (0, 0, 0, 0, 24))
        sll = savefile.write(cooked([ip_frame(), ip_frame(6), (ip_frame(), 100)]), 113, order, magic)
        both_modes(sll, IP, (0, 2, 0, 1, len(sll)))
        both_modes(sll, model.write(model.protocol('tcp')), (0, 1, 1, 1, len(sll)))
        both_modes(sll, model.write(model.etherhost('either', bytes(6))), (13, 0))
        both_modes(savefile.write([], 113, order, magic), IP, (0, 0, 0, 0, 24))


def magics():
    """40: one below and above each magic, each byte wrong, other formats; before everything else."""
    good = savefile.write(SMALL)
    for order in '<>':
        for magic in (savefile.MICRO, savefile.NANO):
            for other in (magic - 1, magic + 1, *(magic ^ 1 << bit for bit in range(0, 32, 5))):
                P(replaced(good, 0, struct.pack(order + 'I', other)), IP, (40, 0))
    for other in ('0a0d0d0a', 'a1b2cd34', '34cdb2a1', 'c3d4a1b2', 'b2a1d4c3', 'a1b2d4c3', '00000000', 'ffffffff', 'd4c3b2a0'):
        wrong = replaced(good, 0, bytes.fromhex(other))
        P(wrong, IP, (40, 0))
        P(wrong, IP, (40, 0), 2)
        P(wrong, b'', (40, 0), 2)
        P(replaced(wrong, 20, b'\7\7\7\7'), IP, (40, 0))
        P(wrong, IP, (40, 0), at=24, most=1)
        for n in range(4, 25, 4):
            P(wrong[:n], IP, (40, 0))
        for n in range(4):
            P(wrong[:n], IP, (42, 0))


def link_types():
    """41: all 32 bits of the type, in the file's own byte order."""
    for order, magic in FORMS:
        good = savefile.write(SMALL, 1, order, magic)
        wrong = [0, 2, 3, 100, 102, 112, 114, 228, 276, 256 + 113, 256 + 1, 65536 + 1, 2 ** 24 + 1, 2 ** 26 + 1, 2 ** 31 + 1, 0xf4000001, 256 + 101,
                 101 << 8, 101 << 16, 101 << 24, 1 << 8, 1 << 16, 1 << 24, 2 ** 32 - 1]
        for kind in wrong:
            P(replaced(good, 20, struct.pack(order + 'I', kind)), IP, (41, 20))
        other = replaced(good, 20, struct.pack(order + 'I', 9))
        P(other, b'', (41, 20), 2)
        P(other[:24], IP, (41, 20))
        P(other[:23], IP, (42, 0))
        P(other[:30], IP, (41, 20))
        P(replaced(other, 32, b'\xff' * 4), IP, (41, 20))
        P(other, IP, (41, 20), at=24, most=1)


def cut_everywhere():
    """42: a file that ends at any of its bytes, but at a record's end."""
    for order, magic in (('<', savefile.MICRO), ('>', savefile.NANO)):
        file = savefile.write(SMALL, 1, order, magic)
        ends = {24: (0, 0, 0)}
        for at, n in zip(starts(file)[1:] + [len(file)], ((1, 0, 0), (1, 0, 1), (1, 1, 1))):
            ends[at] = n
        for n in range(len(file) + 1):
            P(file[:n], IP, (0, *ends[n], n) if n in ends else 42, mode=n % 2)
        for n in range(24, len(file) + 1):
            P(file[:n], IP, mode=n % 2, at=starts(file)[1], most=n % 3)


def lengths():
    """43 above 16,384, once the record's header is there; in the first and in the third record."""
    for order in '<>':
        for before in ([], SMALL[:2]):
            base = savefile.write(before, 1, order)
            at = len(base)

            def record(captured, body, original=60):
                return base + struct.pack(order + 'IIII', 0, 0, captured, original) + bytes(body)
            for captured in (16385, 16386, 32768, 65536, 2 ** 24, 2 ** 31, 2 ** 32 - 1):
                P(record(captured, 0), IP, (43, at))
                P(record(captured, 20), IP, (43, at), 2)
                P(record(captured, 20)[:at + 15], IP, (42, at))
                P(record(captured, 20)[:at + 12], b'', (42, at))
                P(record(captured, 20), IP, (43, at), at=24, most=len(before) + 1)
                if before:
                    P(record(captured, 20), IP, (0, 1, 0, 1, at), at=24, most=2)
            P(record(16384, 0), IP, (42, at))
            P(record(16384, 20), IP, (42, at))
            P(record(struct.unpack('<I', struct.pack('>I', 16384))[0], 20), IP, (43, at))
    P(savefile.write([(bytes(16384), 16384)]), EMPTY, (0, 0, 1, 0, 24 + 16 + 16384))
    P(savefile.write([(bytes(16384), 16385)], 1, '>'), EMPTY, (0, 0, 0, 1, 24 + 16 + 16384))
    P(savefile.write(SMALL[:2] + [bytes(16385)]), EMPTY, 43)
    P(savefile.write([bytes(16384)])[:-1], EMPTY, (42, 24))


def order_of_faults():
    """42 and 43 in file order; a fault far behind comes before the sheet and the mode."""
    file = savefile.write(SMALL + SMALL)
    places = starts(file)
    for i in (0, 2, 4):
        for j in (1, 3, 5):
            both = replaced(replaced(file, places[i] + 8, b'\1\x40\0\0'), places[j] + 8, b'\xff\xff\0\0')
            P(both, IP, (43, places[min(i, j)]))
            P(both[:-1], IP, (43, places[min(i, j)]))
    for i in range(6):
        long = replaced(file, places[i] + 8, b'\0\x40\0\0')
        P(long, IP, (42, places[i]))
        P(long, b'\1', (42, places[i]), 255)


def classes():
    """Cut is captured below original; captured above original is judged."""
    frame = ip_frame(n=20)
    for original in (0, 1, 19, 20):
        both_modes(savefile.write([(frame, original)]), IP, (0, 1, 0, 0, 60))
        both_modes(savefile.write([(ARP, min(original, 14))]), IP, (0, 0, 1, 0, 54))
    for original in (21, 22, 256, 65536 + 20, 2 ** 24, 2 ** 32 - 1):
        both_modes(savefile.write([(frame, original)]), IP, (0, 0, 0, 1, 60))
    both_modes(savefile.write([(b'', 0)]), EMPTY, (0, 1, 0, 0, 40))
    both_modes(savefile.write([(b'', 1)]), EMPTY, (0, 0, 0, 1, 40))
    both_modes(savefile.write([(b'', 0)]), IP, (0, 0, 1, 0, 40))
    both_modes(savefile.write([b''], 101), IP, (0, 1, 0, 0, 40))
    for snap in (0, 1, 10):             # the snap length is not looked at, nor version and zone
        P(savefile.write(SMALL, snap=snap), IP, (0, 1, 1, 1, 24 + 48 + 48))
    P(replaced(savefile.write(SMALL), 4, b'\xff' * 12), IP, (0, 1, 1, 1, 120))


def modes():
    """1 for a mode above 1, after 40 to 43 and before the sheet."""
    good = savefile.write(SMALL)
    for mode in (2, 3, 128, 255):
        P(good, IP, (1, 0), mode)
        P(good, b'', (1, 0), mode)
        P(good, IP, (1, 0), mode, 24, 1)
        P(good[:-1], IP, 42, mode)
        P(good[:-1], IP, (1, 0), mode, 24, 1)
        P(good[:3], IP, (42, 0), mode)


# Sheets that are refused: number, place on each link, sheet.
def refused_sheets():
    access, write = model.access, model.write
    one = model.protocol('ip')
    yield 2, 0, 0, b''
    yield 2, 0, 0, IP + b'\0'
    yield 2, 0, 0, IP[:-1]
    yield 3, 4, 4, replaced(IP, 4, b'\0')
    yield 3, 27, 27, replaced(IP, 27, b'\1')
    yield 3, 30, 30, replaced(IP, 30, b'\4')
    yield 4, 0, 0, replaced(IP, 30, b'\3')
    yield 4, 0, 0, model.raw_sheet([], [], [])
    yield 5, 0, 0, write(access('raw', 1, 32768, 'eq', 0))
    yield 5, 0, 0, write(access('net', 1, 2 ** 31 + 5, 'eq', 0))
    yield 6, 1, 1, write(('and', one, access('raw', 1, 0, 'eq', 0, [('shl', 32)])))
    yield 11, 0, None, write(model.protocol('arp'))
    yield 11, 1, None, write(('or', one, model.host6('source', bytes(16))))
    yield 12, 0, 0, write(model.port('source', 5, 'icmp'))
    yield 13, 0, None, write(model.etherhost('source', b'\2' * 6))
    yield 14, 0, None, write(model.bare('ethermulticast'))
    yield 15, 0, None, write(model.tagged('mpls'))
    yield 16, 1, 1, write(('and', one, model.bare('inbound')))
    yield 17, 0, 0, write(model.access_load('raw', 1, 0, 'eq', 'raw', 1, 0))
    yield 18, 0, 0, write(access('raw', 1, 0, 'eq', 0, [('div', 0)]))
    yield 19, 2, 2, write(('or', ('and', one, one), access('raw', 1, 0, 'eq', 0, [('mod', 1)])))


def offset_by_link():
    """Net offsets count from the header of the file's link: 32,754 is 32,768 on Ethernet."""
    sheet = model.write(model.access('net', 1, 32754, 'eq', 0))
    P(savefile.write(SMALL), sheet, (5, 0))
    P(savefile.write(raw(SMALL[:1]), 101), sheet, (0, 0, 1, 0, 24 + 16 + 6))


def sheets():
    """Document 01's refusals come last, and the file's link picks which."""
    eth, ip = savefile.write(SMALL), savefile.write(raw(SMALL[:1]), 101, '>')
    for number, place, on_raw, sheet in refused_sheets():
        only_raw = on_raw is None
        for mode in (PLAIN, MENDED):
            if not only_raw:
                P(eth, sheet, (number, place), mode)
            P(ip, sheet, (number, place), mode)
        if only_raw:
            P(eth, sheet, 0)
        for bad, refusal in ((replaced(ip, 1, b'\0'), (40, 0)), (replaced(ip, 23, b'\7'), (41, 20)), (ip[:-1], (42, 24)),
                             (replaced(ip, 34, b'\xff'), (43, 24)), (ip[:23], (42, 0)), (ip[:3], (42, 0))):
            P(bad, sheet, refusal)
            P(bad, sheet, refusal if refusal[1] != 24 else (number, place), at=24, most=9)
        P(ip, sheet, (number, place), at=2 ** 40, most=0)
    offset_by_link()


def large_sheets():
    """7: L is above 131,072, the instructions that one MiB holds. 10, which the model has not: a jump over more than 32,767."""
    eth = savefile.write(SMALL)
    host = model.host6('either', b'\xfe\x80' + bytes(14))
    P(eth, chain(host, 1262), (7, 0))
    store(eth, chain(host, 350), (10, 0), (10, 0), MENDED, 0, 0)
    P(eth[:-1], chain(host, 350), 42)
    P(eth, chain(model.frame_len('ge', 14), 300), (0, 2, 0, 1, len(eth)))


def chain(test, n):
    tree = test
    for _ in range(n - 1):
        tree = ('or', tree, test)
    return model.write(tree)


def parts():
    """Parts at each record and beside it."""
    for order, magic in FORMS[::3]:
        file = savefile.write(SMALL + [ip_frame(n=14), b''] + SMALL, 1, order, magic)
        places = starts(file) + [len(file)]
        for at in places:
            for most in (0, 1, 2, 7, 9, ALL):
                P(file, IP, 0, (at + most) % 2, at, most)
        assert cases[-1][1] == (0, 0, 0, 0, len(file))
        for most in (2 ** 8, 2 ** 16, 2 ** 32, 2 ** 32 + 1, 2 ** 63):
            P(file, IP, of_whole(MENDED, IP, file), MENDED, 24, most)
        for at in range(1, places[2] + 1):              # inside a header, a body, before the first record
            P(file, IP, None, at % 2, at, 1)
            P(file, IP, None, at % 2, at, ALL)
        for at in (len(file) + 1, len(file) + 16, 2 ** 31, 2 ** 32, 2 ** 32 + 24, 2 ** 63, 2 ** 64 - 16, 2 ** 64 - 1):
            for most in (0, 1, ALL):
                both_modes(file, IP, (0, 0, 0, 0, at), at, most)
        for n in (1, 2, 3, 7):
            of_parts(file, IP, n)


def of_parts(file, sheet, n):
    """Parts of n records; their sum is the whole."""
    at, sums = 24, [0, 0, 0]
    while at < len(file):
        P(file, sheet, 0, MENDED, at, n)
        answer = of_part(MENDED, sheet, file, at, n)
        sums = [a + b for a, b in zip(sums, answer[1:4])]
        at = answer[4]
    assert (0, *sums, at) == of_whole(MENDED, sheet, file)


def faulty_parts():
    """A fault is found by the part that reaches it, and by no other."""
    file = savefile.write(SMALL + SMALL)
    places = starts(file)
    long = replaced(file, places[3] + 8, b'\1\x40\0\0')
    P(long, IP, (43, places[3]))
    for i, at in enumerate(places):
        for most in range(7):
            reaches = i <= 3 < i + most
            P(long, IP, (43, places[3]) if reaches else 0, MENDED, at, most)
            P(file[:-1], IP, (42, places[5]) if i + most > 5 else 0, MENDED, at, most)


def changed_bytes():
    """Single bytes changed in a file of two records: whatever the walk says."""
    file = savefile.write(SMALL[:2], 1, '>')
    for at in range(len(file)):
        for x in (1, 0x80):
            P(replaced(file, at, bytes([file[at] ^ x])), IP, mode=at % 2)


# ----------------------------------------------------------------- real captures

def real(name):
    with open(os.path.join(HERE, 'files', name), 'rb') as f:
        return f.read()


def table():
    with open(os.path.join(HERE, 'counts.txt')) as f:
        for line in f:
            name, ours, _, n = line.rstrip('\n').split(' | ')
            yield name, ours, int(n)


def real_captures():
    """Passed is tcpdump's count; the rest follows from the records."""
    for name, ours, passed in table():
        file, sheet = real(name), filters.sheet_of(ours)
        walked = savefile.records(file)[0]
        cut = sum(len(frame) < original for _, frame, original in walked)
        want = (0, passed, len(walked) - passed - cut, cut, len(file))
        P(file, sheet, want)
        if filters.low(sheet) and len(file) < 1000:
            P(file, sheet, want, PLAIN)


def real_in_all_forms():
    for name in sorted(os.listdir(os.path.join(HERE, 'files'))):
        if not name.endswith('.pcap'):
            continue
        file = real(name)
        for order, magic in FORMS:
            P(savefile.turned(file, order, magic), IP, of_whole(MENDED, IP, file))
        of_parts(file, HOST, 7)


PARTS = [forms, magics, link_types, cut_everywhere, lengths, order_of_faults, classes, modes, sheets, large_sheets, parts, faulty_parts,
         changed_bytes, real_captures, real_in_all_forms]


def tell():
    by = {}
    for _, answer, _ in cases:
        by[answer[0]] = by.get(answer[0], 0) + 1
    print('P: %d cases, %d with a stated answer, %d bytes' % (len(cases), sum(c[2] for c in cases), sum(len(c[0]) for c in cases)))
    print('  ' + ', '.join('%s %d' % ('counted' if k == 0 else 'refused %d:' % k, by[k]) for k in sorted(by)))


def main(outdir):
    for part in PARTS:
        part()
    os.makedirs(outdir, exist_ok=True)
    with open(os.path.join(outdir, 'stdin'), 'wb') as f:
        f.write(b''.join(c[0] for c in cases))
    with open(os.path.join(outdir, 'stdout'), 'w') as f:
        f.write(''.join(' '.join(map(str, c[1])) + '\n' for c in cases))
    tell()


if __name__ == '__main__':
    if len(sys.argv) != 2:
        sys.exit('usage: python3 cases.py OUTDIR')
    main(sys.argv[1])
