"""Captures made here: savefiles in both byte orders and with both magics, and what document 02 says of their records."""
import os
import struct
import sys

sys.dont_write_bytecode = True
sys.path.insert(0, os.path.join(os.path.dirname(os.path.abspath(__file__)), '../sheet'))
import model

MICRO, NANO = 0xa1b2c3d4, 0xa1b23c4d
LINK_TYPES = {model.ETHERNET: 1, model.RAWIP: 101, model.COOKED: 113}


def header(order='<', magic=MICRO, link_type=1):
    return struct.pack(order + 'IHHiIII', magic, 2, 4, 0, 0, 262144, link_type)


def record(frame, original=None, order='<', captured=None):
    """Whole unless an original length says otherwise; `captured` makes the header lie."""
    captured = len(frame) if captured is None else captured
    return struct.pack(order + 'IIII', 1, 2, captured, len(frame) if original is None else original) + frame


def capture(records, order='<', magic=MICRO, link_type=1):
    """A savefile of (frame, original length) pairs."""
    return header(order, magic, link_type) + b''.join(record(f, n, order) for f, n in records)


def ethernet(ethertype, length=60):
    return (bytes(12) + ethertype.to_bytes(2, 'big')).ljust(length, b'\0')


def ipv4(source, protocol=17, ports=(1000, 53)):
    head = bytearray(20)
    head[0], head[9] = 0x45, protocol
    head[12:16], head[16:20] = source, bytes([10, 0, 0, 2])
    return bytes(head) + struct.pack('>HH', *ports) + bytes(8)


def site():
    """The capture of command/README.md: two questions to a name server, a word to a controller, an ARP, and a long frame that was cut."""
    ip = bytes(12) + b'\x08\0'
    asked, told = ipv4(bytes([10, 0, 0, 1])), ipv4(bytes([10, 0, 0, 7]), 6, (40000, 502))
    frames = [ip + asked, ip + told, ethernet(0x0806), ip + asked]
    return capture([(f, len(f)) for f in frames] + [(ip + asked, 1514)])


def classes(records, sheet, link):
    """Which of (frame, original length) pairs pass, are dropped, are cut: three lists of frames, by model.py."""
    passed, dropped, cut = [], [], []
    for frame, original in records:
        if len(frame) < original:
            cut.append(frame)
        else:
            (passed if model.holds(link, sheet, frame) else dropped).append(frame)
    return passed, dropped, cut
