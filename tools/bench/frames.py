"""frames.py N FILE [cut]: a capture of N small Ethernet frames (60 to 74 bytes), the same each time: tcp, udp, arp, IPv6 and vlan frames
between hosts of 10.0.0.0/8 and 192.168.0.0/16, some to port 502. With `cut` every record says that more was there than was captured."""
import random
import struct
import sys

POOL = 4096                             # different frames


def address(r):
    return struct.pack('>I', 0x0a000000 + r.randrange(1, 8) if r.random() < 0.7 else 0xc0a80100 + r.randrange(1, 200))


def frame(r):
    macs = bytes(r.choice([2, 4, 6]) if i in (0, 6) else r.randrange(8) for i in range(12))
    kind = r.random()
    a, b = address(r), address(r)
    ports = struct.pack('>HH', r.randrange(1024, 65536), r.choice([502, 502, 80, 443, 53, 123]))
    if r.random() < 0.5:
        ports = ports[2:] + ports[:2]
    if kind < 0.08:
        return (macs + b'\x08\x06' + b'\0\1\x08\0\6\4\0\1' + macs[6:] + a + bytes(6) + b).ljust(60, b'\0')
    protocol = 6 if kind < 0.65 else 17
    payload = ports + bytes(16 if protocol == 6 else 4)
    if 0.80 <= kind < 0.92:
        head = b'\x86\xdd\x60\0\0\0' + struct.pack('>HBB', len(payload), protocol, 64)
        return macs + head + b'\xfe\x80' + bytes(10) + a + b'\xfe\x80' + bytes(10) + b + payload
    ip = struct.pack('>BBHHHBBH', 0x45, 0, 20 + len(payload), r.randrange(65536), 0, 64, protocol, 0) + a + b
    tag = b'\x81\0' + struct.pack('>H', r.randrange(1, 5)) if kind > 0.95 else b''
    return (macs + tag + b'\x08\0' + ip + payload).ljust(60, b'\0')


def main(n, path, cut):
    r = random.Random(20)
    pool = [frame(r) for _ in range(POOL)]
    with open(path, 'wb') as f:
        f.write(struct.pack('<IHHiIII', 0xa1b2c3d4, 2, 4, 0, 0, 65535, 1))
        for i in range(n):
            x = pool[(i * 2654435761 >> 7) % POOL]
            f.write(struct.pack('<IIII', 1700000000 + i // 1000, i % 1000 * 1000, len(x), len(x) + cut) + x)


if __name__ == '__main__':
    if len(sys.argv) not in (3, 4) or sys.argv[3:] not in ([], ['cut']):
        sys.exit(__doc__)
    main(int(sys.argv[1]), sys.argv[2], len(sys.argv) - 3)
