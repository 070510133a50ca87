#!/usr/bin/env python3
"""Runs the cases that end with exit in the Linux kernel (bpf(2), XDP test run) and compares R0.

Needs root and a kernel with the bpf() system call, x86-64 or aarch64. A case is comparable when it has the
same answer at any start (the kernel chooses its own) and a frame of 14 bytes or more, or no use
for the frame. The kernel returns 32 bits, so each program runs twice: as it is, and with each exit
turned into a jump to an end that shifts R0 right by 32.
"""
import collections
import ctypes
import os
import struct
import sys

sys.dont_write_bytecode = True
import cases

libc = ctypes.CDLL(None, use_errno=True)
PROG_LOAD, TEST_RUN, XDP = 5, 10, 6
SYS_BPF = {'x86_64': 321, 'aarch64': 280}[os.uname().machine]
LICENSE = ctypes.create_string_buffer(b'GPL')
LOG = ctypes.create_string_buffer(1 << 20)


def bpf(command, attr):
    buffer = ctypes.create_string_buffer(attr, 128)
    result = libc.syscall(SYS_BPF, command, buffer, 128)
    return result, ctypes.get_errno(), buffer.raw


def kernel(program, frame):
    """R0's low 32 bits, or None when the kernel's verifier refuses the program."""
    code = ctypes.create_string_buffer(program, len(program))
    fd, error, _ = bpf(PROG_LOAD, struct.pack('<IIQQIIQ', XDP, len(program) // 8, ctypes.addressof(code),
                                              ctypes.addressof(LICENSE), 1, len(LOG), ctypes.addressof(LOG)))
    if fd < 0:
        if not LOG.value:
            raise OSError(error, os.strerror(error))
        return None
    data = ctypes.create_string_buffer(frame, len(frame))
    result, error, attr = bpf(TEST_RUN, struct.pack('<IIIIQQII', fd, 0, len(frame), 0, ctypes.addressof(data), 0, 1, 0))
    os.close(fd)
    if result < 0:
        raise OSError(error, os.strerror(error))
    return struct.unpack_from('<I', attr, 4)[0]


def high_half(program):
    out = b''
    for at in range(0, len(program), 8):
        ins = program[at:at + 8]
        out += cases.i('ja', off=(len(program) - at) // 8 - 1) if ins == cases.EXIT else ins
    return out + cases.raw(0x77, imm=32) + cases.EXIT


def read_cases(path):
    data, at = open(path, 'rb').read(), 0
    while at < len(data):
        assert data[at:at + 1] == b'M'
        size, = struct.unpack_from('>I', data, at + 1)
        program, at = data[at + 5:at + 5 + size], at + 5 + size
        size, = struct.unpack_from('>I', data, at)
        frame, at = data[at + 4:at + 4 + size], at + 4 + size
        yield program, frame, *struct.unpack_from('>QI', data, at)
        at += 12


def main():
    here = sys.argv[1]
    answers = [tuple(map(int, line.split())) for line in open(os.path.join(here, 'stdout'))]
    count, forms = collections.Counter(), set()
    for n, (program, frame, start, budget) in enumerate(read_cases(os.path.join(here, 'stdin'))):
        stop, r0, steps = answers[n]
        if stop != 0:
            count['not ended by exit'] += 1
            continue
        trace = []
        places = (start, 0x5000, 0xffff888012345678)
        answers_there = {cases.walk(program, frame, place, budget, trace) for place in places}
        loads = any(code & 7 == 1 for code in trace)
        if len(answers_there) > 1:
            count['depends on the start'] += 1
        elif loads and len(frame) < 14:
            count['frame below 14 bytes'] += 1
        else:
            low = kernel(program, frame if loads else bytes(14))
            high = kernel(high_half(program), frame if loads else bytes(14))
            if low is None or high is None:
                count['refused by the verifier'] += 1
                continue
            count['compared'] += 1
            count['with loads'] += loads
            count['with JMP32'] += any(code & 7 == 6 for code in program[::8])
            count['agreed'] += (high << 32 | low) == r0
            forms.update(trace)
            if (high << 32 | low) != r0:
                print('case %d: kernel %d, stored %d' % (n, high << 32 | low, r0))
    print('Linux', os.uname().release.split('-')[0], dict(count), 'opcodes', len(forms))
    if count['agreed'] != count['compared']:
        raise SystemExit(1)


if __name__ == '__main__':
    if len(sys.argv) != 2:
        sys.exit('usage: linux.py FOLDER   (the folder that cases.py wrote)')
    main()
