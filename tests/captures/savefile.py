"""Document 02's A1 in plain Python: the libpcap savefile, its refusals and what a run over it counts.

Written from the document and from the readings recorded for it, without a look at the Rattle text. Bytes in, plain
tuples and numbers out. Verdicts are tests/sheet/model.py's, that is, document 01's meaning.
"""
import os
import struct
import sys

sys.dont_write_bytecode = True
sys.path.insert(0, os.path.join(os.path.dirname(os.path.abspath(__file__)), '../sheet'))
import model

MICRO, NANO = 0xa1b2c3d4, 0xa1b23c4d
HEADER, RECORD, MOST = 24, 16, 16384
LINKS = {1: model.ETHERNET, 101: model.RAWIP, 113: model.COOKED}    # "link type 1 Ethernet, 101 raw IP", "A1 takes type 113"


def order_of(file):
    """'<' or '>' by the magic bytes, or None: "in either byte order"."""
    for order in '<>':
        if struct.unpack(order + 'I', file[:4])[0] in (MICRO, NANO):
            return order
    return None


def header(file):
    """(0, link), or the refusal and its place: "the magic bytes are compared before anything else in the file is
    believed"; below four bytes it is 42."""
    if len(file) < 4:
        return (42, 0)
    order = order_of(file)
    if order is None:
        return (40, 0)
    if len(file) < HEADER:
        return (42, 0)
    kind, = struct.unpack(order + 'I', file[20:24])
    return (0, LINKS[kind]) if kind in LINKS else (41, 20)


def record_at(file, at):
    """(0, captured, original), or (42 or 43, at). A header cut after its captured length is 42, whatever that length
    says; a whole header with a captured length above 16,384 is 43, though the body be missing."""
    if at + RECORD > len(file):
        return (42, at)
    captured, original = struct.unpack(order_of(file) + 'II', file[at + 8:at + 16])
    if captured > MOST:
        return (43, at)
    if at + RECORD + captured > len(file):
        return (42, at)
    return (0, captured, original)


def records(file, at=HEADER):
    """The records from byte `at` on as (place, frame, original), then the refusal that stops the walk, or (0, end)."""
    out = []
    while at < len(file):
        answer = record_at(file, at)
        if answer[0]:
            return out, answer
        captured = answer[1]
        out.append((at, file[at + RECORD:at + RECORD + captured], answer[2]))
        at += RECORD + captured
    return out, (0, at)


def opened(file):
    """40 to 43 "in file order through the whole file", or (0, link)."""
    answer = header(file)
    if answer[0]:
        return answer
    fault = records(file)[1]
    return fault if fault[0] else answer


def counts(link, sheet, walked):
    """(passed, dropped, cut): "captured length below original; a cut frame isn't judged"."""
    passed = dropped = cut = 0
    for _, frame, original in walked:
        if len(frame) < original:
            cut += 1
        elif model.holds(link, sheet, frame):
            passed += 1
        else:
            dropped += 1
    return passed, dropped, cut


def write(frames, kind=1, order='<', magic=MICRO, snap=65535):
    """A savefile of frames, or of (frame, original length) pairs."""
    out = [struct.pack(order + 'IHHiIII', magic, 2, 4, 0, 0, snap, kind)]
    for i, frame in enumerate(frames):
        frame, original = frame if isinstance(frame, tuple) else (frame, len(frame))
        out.append(struct.pack(order + 'IIII', 1700000000 + i, i, len(frame), original) + frame)
    return b''.join(out)


def turned(file, order, magic):
    """A savefile without refusal in another byte order or with another magic: the numbers stay."""
    was = order_of(file)
    out = [struct.pack(order + 'IHHiIII', magic, *struct.unpack(was + 'HHiIII', file[4:24]))]
    for at, frame, _ in records(file)[0]:
        out.append(struct.pack(order + 'IIII', *struct.unpack(was + 'IIII', file[at:at + 16])) + frame)
    return b''.join(out)
