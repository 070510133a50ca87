"""cases.py DIR: cases of tag L for the program replay: inputs of document 01's listing program and what it prints.

Each answer follows from a sentence of document 01, which stands beside it. DIR/stdin gets the cases, DIR/stdout the answers.
"""
import os
import struct
import sys

# Document 01's K2, `ip` on Ethernet in plain mode: the program listing's own input and what it must print.
LISTING = os.path.join(os.path.dirname(os.path.abspath(__file__)), '../../crates/listing')
with open(LISTING + '/stdin', 'rb') as file:
    IP = file.read()[2:]
with open(LISTING + '/stdout') as file:
    K2 = file.read()


def steps(n, more=b''):
    """One byte access of one byte at 0, with n steps (add 0): L is 6 + 5 + n. 13,101 steps make a sheet of 65,536 bytes."""
    record = bytes([23]) + bytes(11) + struct.pack('>H', n) + bytes(10)
    return struct.pack('>H', n) + n * bytes(5) + struct.pack('>H', 1) + record + struct.pack('>H', 1) + b'\0' + more


def cases():
    yield b'', '1 0\n'                                      # "fewer than two bytes print `1 0`"
    yield b'\0', '1 0\n'
    yield b'\3', '1 0\n'
    yield b'\0\0', '2 0\n'                                  # an empty sheet is cut
    yield b'\3\0' + IP, '1 0\n'                            # "1 is now a link above 2 or a mode above 1"
    yield b'\0\2' + IP, '1 0\n'
    yield b'\0\0' + IP, K2                                  # K2, its listing
    yield b'\1\0' + IP, '0 6\n' + ''.join(K2.splitlines(True)[i] for i in (1, 2, 9, 10, 11, 12))    # K1: L 6
    # document 02, A9: "its protocol at 14", so that K2's half is asked for, and read, two bytes later
    yield b'\2\0' + IP, K2.replace('070500000e000000', '0705000010000000').replace('69240c00', '69240e00')
    full = steps(13101)
    assert len(full) == 65536
    yield b'\0\0' + full, '7 0\n'                           # 64 KiB are read; L is 13,112, the output has room for 8,192
    yield b'\0\0' + full + b'\0', '2 0\n'                   # "past refusal 1, a longer sheet is refused 2"
    yield b'\0\0' + steps(13101, b'\0'), '2 0\n'
    yield b'\3\0' + full + b'\0', '1 0\n'
    yield b'\0\2' + full + b'\0', '1 0\n'
    yield b'\0\0' + steps(13100) + 100000 * b'\0', '2 0\n'


def main(folder):
    with open(folder + '/stdin', 'wb') as i, open(folder + '/stdout', 'w') as o:
        for data, answer in cases():
            i.write(b'L' + struct.pack('>I', len(data)) + data)
            o.write(answer)


if __name__ == '__main__':
    if len(sys.argv) != 2:
        sys.exit(__doc__)
    main(sys.argv[1])
