"""What the hand tools share: links and modes, refusals in words, instructions in words, the built programs, how a tool ends."""

import os
import re
import signal
import subprocess
import sys

sys.dont_write_bytecode = True
TOOLS = os.path.dirname(os.path.realpath(__file__))
ROOT = os.path.dirname(TOOLS)

# Each by its number, from 0: one more is one word more.
LINKS = ['Ethernet', 'RawIp', 'LinuxSll']
MODES = ['plain', 'mended']

DONE, REFUSED, USAGE, FAILED = 0, 1, 2, 3               # exit codes; tools/verdict has its own


class Wrong(Exception):
    """The command line or the notation is wrong."""


class Lacking(Exception):
    """Something is not there, or cannot be read or written."""


def choices(names):
    return ' or '.join('%d (%s)' % x for x in enumerate(names))


def numbered(what, names, word):
    """The number of a link or a mode that a word names or numbers."""
    for number, name in enumerate(names):
        if word.lower() in (str(number), name.lower()):
            return number
    raise Wrong('there is no %s "%s": it is %s' % (what, word, choices(names)))


def link_of(word):
    return numbered('link', LINKS, word)


def mode_of(word):
    return numbered('mode', MODES, word)


# ------------------------------------------------------------ refusals in words

REFUSALS = {
    1: 'there is no such link or mode',
    2: 'the sheet is not as long as its counts say',
    3: 'a code or an unused byte of the sheet is wrong',
    4: 'the tokens are not one whole tree, or tests or steps are left over or lacking',
    5: 'the offset of a byte access is negative or above 32767 (for net, with the header\'s own offset added)',
    6: 'a shift by 32 or more',
    7: 'the output is too short for the program',
    8: 'the work is too short for the program',
    9: 'the tree is deeper than 256 levels, a limit of the evaluator and of pushing Nots down; the generator has none',
    10: 'a jump over more than 32767 instructions',
    11: 'an ethertype other than 0x0800 is asked for, and the link has none',
    12: 'ports of a protocol other than tcp, udp and sctp',
    13: 'a MAC address is asked for, and the link has none',
    14: 'a MAC address is asked for, and the link has none',
    15: 'an MPLS label is asked for, and the link has no ethertype to tell one by',
    16: 'inbound and outbound are not to be seen in a frame\'s bytes',
    17: 'a comparison of one load with another',
    18: 'a division by 0',
    19: 'a remainder (%)',
    50: 'with its Nots pushed down the tree needs more than 65,535 tokens',
}


def refused(number, place, tests):
    """A refusal in words, with the test or the byte that it is about; docs/SHEET.md has them all."""
    words = 'refused (%d): %s' % (number, REFUSALS.get(number, 'a refusal that is not known here'))
    if number == 3:
        return '%s: byte %d' % (words, place)
    if number in (5, 6, *range(11, 20)) and place < len(tests):
        shown = tests[place] if len(tests[place]) <= 100 else tests[place][:100] + '...'
        return '%s: test %d of the filter, "%s"' % (words, place + 1, shown)
    return words


# -------------------------------------------------------- instructions in words

ARITHMETIC = ['+=', '-=', '*=', '/=', '|=', '&=', '<<=', '>>=', None, '%=', '^=', '=', 's>>=']
COMPARISONS = {1: '==', 2: '>', 3: '>=', 4: '&', 5: '!=', 6: 's>', 7: 's>=', 10: '<', 11: '<=', 12: 's<', 13: 's<='}
LOADS = {0x61: 'u32', 0x69: 'u16', 0x71: 'u8', 0x79: 'u64'}
LDX, ALU, JMP, JMP32, ALU64 = 1, 4, 5, 6, 7             # RFC 9669, section 3


def signed(value, bits):
    return value - (value >> (bits - 1) << bits)


def arithmetic(insn, letter, operation, imm):
    dst, src = '%s%d' % (letter, insn[1] & 15), '%s%d' % (letter, insn[1] >> 4)
    if operation == 13 and insn[0] & 7 == ALU:          # a swap
        return 'r%d = %s%d r%d' % (insn[1] & 15, 'be' if insn[0] & 8 else 'le', imm, insn[1] & 15)
    if operation > 12 or operation == 8:
        return None
    if insn[0] & 8:
        value = src
    elif operation in (4, 5, 10):                       # bits are seen in hexadecimal
        value = '0x%x' % imm
    else:
        value = '%d' % (signed(imm, 32) if letter == 'r' else imm)
    return '%s %s %s' % (dst, ARITHMETIC[operation], value)


def mnemonic(insn):
    """One instruction as llvm-objdump and bpftool write it, and its jump's distance or None. Numbers are as the instruction takes
    them: a 64-bit comparison widens its number with the sign."""
    code, kind, operation = insn[0], insn[0] & 7, insn[0] >> 4
    off, imm = signed(int.from_bytes(insn[2:4], 'little'), 16), int.from_bytes(insn[4:8], 'little')
    letter = 'w' if kind in (ALU, JMP32) else 'r'
    if code in LOADS:
        sign = '-' if off < 0 else '+'
        return 'r%d = *(%s *)(r%d %s %d)' % (insn[1] & 15, LOADS[code], insn[1] >> 4, sign, abs(off)), None
    if kind in (ALU, ALU64):
        return arithmetic(insn, letter, operation, imm) or '?', None
    if code == 0x95:
        return 'exit', None
    if code == 0x05:
        return 'goto %+d' % off, off
    if kind in (JMP, JMP32) and operation in COMPARISONS:
        value = '%s%d' % (letter, insn[1] >> 4) if code & 8 else '%#x' % (signed(imm, 32) if kind == JMP else imm)
        return 'if %s%d %s %s goto %+d' % (letter, insn[1] & 15, COMPARISONS[operation], value, off), off
    return '?', None


# ------------------------------------------------------------ the built programs

def place(program):
    """Where `rt run` and `rt ci` put a program."""
    return os.path.join(ROOT, 'crates', program, 'out', program)


def command(program):
    """What proves and builds a program, from the top of the tree."""
    return '(cd crates/%s && rt run </dev/null)' % program


def built(program):
    """Stops with the command that builds a program, if it is not built."""
    if not os.access(place(program), os.X_OK):
        raise Lacking("the program %s is not built: run '%s' first, which proves all that it stands on (some minutes)"
                      % (program, command(program)))


def ask(program, data):
    """What a built program writes when it reads these bytes, and the two numbers that its first line begins with."""
    built(program)
    ran = subprocess.run([os.path.join(TOOLS, 'launch'), program], input=data, stdout=subprocess.PIPE)
    if ran.returncode:
        raise Lacking('the program %s ended with %d' % (program, ran.returncode))
    numbers = re.match(rb'(\d+) (\d+)\b', ran.stdout)
    if not numbers:
        raise Lacking('the program %s gave an answer that is not known here: %.100r' % (program, ran.stdout))
    return ran.stdout.decode(), int(numbers[1]), int(numbers[2])


# ---------------------------------------------------------------- how a tool ends

def say(text):
    """A line on standard error; nothing happens where nobody listens."""
    try:
        os.write(2, (text + '\n').encode(errors='backslashreplace'))
    except OSError:
        pass


def put(data):
    """Bytes to standard output, all of them."""
    while data:
        data = data[os.write(1, data):]


def ended(tool, main, words, usage, wrong):
    """The exit code; what went wrong is told in a line."""
    try:
        code = main(words)
        if sys.stdout:
            sys.stdout.flush()
        return code or DONE
    except Wrong as fault:
        say('%s: %s\n%s' % (tool, fault, usage))
        return wrong
    except Lacking as fault:
        say('%s: %s' % (tool, fault))
    except BrokenPipeError:                             # the reader went away: there is nobody to tell
        pass
    except KeyboardInterrupt:
        return 128 + signal.SIGINT
    except OSError as problem:
        name = '%s: ' % problem.filename if problem.filename else 'the answer cannot be written: '
        say('%s: %s%s' % (tool, name, problem.strerror))
    return FAILED


def run(tool, text, main, wrong=USAGE):
    """Runs main(words), the rest of a tool, and ends with what it returns; no traceback reaches a person. `text` is the help, and
    its first line the usage; `wrong` is the exit code of a wrong word."""
    words = sys.argv[1:]
    asked = (lambda _: put((text.strip() + '\n').encode())) if set(words) & {'-h', '--help'} else main
    code = ended(tool, asked, words, text.strip().split('\n')[0], wrong)
    # What Python still holds for standard output would fail again, and loudly.
    nowhere = os.open(os.devnull, os.O_WRONLY)
    if nowhere != 1:
        os.dup2(nowhere, 1)
    sys.exit(code)
