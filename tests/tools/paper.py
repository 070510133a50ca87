"""What docs/SHEET.md says, for a test to hold the proved code to: its worked sheet, and its tables with a column "answer"."""

import os
import re
import sys

sys.dont_write_bytecode = True
ROOT = os.path.normpath(os.path.join(os.path.dirname(os.path.realpath(__file__)), '../..'))
sys.path.insert(0, os.path.join(ROOT, 'tools'))
import hand
import notation

MOST = 2 ** 20              # output bytes and work numbers that the program replay has


def text():
    with open(os.path.join(ROOT, 'docs/SHEET.md'), encoding='utf-8') as f:
        return f.read()


def worked(paper):
    """The worked sheet's notation, its bytes, and L on Ethernet."""
    block = re.search(r'^```sheet\n(.*?)^```', paper, re.S | re.M)[1]
    data = bytes.fromhex(''.join(line.split('#')[0] for line in block.split('\n')))
    return re.search(r'The filter `([^`]+)`', paper)[1], data, int(re.search(r'a program of (\d+) instructions', paper)[1])


def tables(paper):
    """Each table as a list of rows, each by the names of its columns."""
    rows = []
    for line in paper.split('\n') + ['']:
        if line.startswith('|'):
            rows.append([cell.strip() for cell in line[1:-1].split('|')])
        elif rows:
            yield [dict(zip(rows[0], row)) for row in rows[2:]]
            rows = []


def table(paper, *columns):
    return next(rows for rows in tables(paper) if rows and set(columns) <= set(rows[0]))


def sheet_of(example):
    """The sheet of `hex ...` or of a notation; {X}*N is X written N times."""
    words = re.sub(r'\{([^}]*)\}\*(\d+)', lambda m: m[1] * int(m[2]), example.strip('`'))
    return bytes.fromhex(words[4:]) if words.startswith('hex ') else notation.written(words)[0]


def byte_of(names, word):
    """A link or a mode: its name, or a number that need not be one."""
    return int(word) if word.isdigit() else [name.lower() for name in names].index(word.lower())


def part(data):
    return len(data).to_bytes(4, 'big') + data


def compiled(link, mode, sheet, output=MOST, work=MOST):
    """The generator's answer: refusal and place, or 0 and L."""
    case = b'C' + bytes([link, mode]) + output.to_bytes(4, 'big') + work.to_bytes(4, 'big') + part(sheet)
    return '%d %d' % hand.ask('replay', case)[1:]


def evaluated(link, sheet, frame=b''):
    return '%d %d' % hand.ask('replay', b'E' + bytes([link]) + part(sheet) + part(frame))[1:]


def check(same):
    """same(what, got, wanted) hears of every claim."""
    paper = text()
    words, data, length = worked(paper)
    same('the worked sheet is that of its notation', data, notation.written(words)[0])
    same('the worked sheet compiled', compiled(0, 1, data), '0 %d' % length)
    for frame, wanted in [(64, '0 1'), (15, '0 0')]:
        same('the worked sheet on a frame of time to live %d' % frame, evaluated(0, data, bytes(12) + bytes.fromhex(
            '0800 4500 0014 0000 0000 %02x06 0000 0a000001 0a000002' % frame)), wanted)
    refusals(table(paper, 'example', 'lent', 'answer'), same)
    kinds(table(paper, 'kind', 'notation'), same)


def refusals(rows, same):
    for row in rows:
        what, sheet, link = '%(refusal)s, %(example)s' % row, sheet_of(row['example']), byte_of(hand.LINKS, row['link'])
        same(what + ': its number', row['answer'].split()[0], row['refusal'])
        if row['lent'] == 'evaluator':
            same(what, evaluated(link, sheet), row['answer'])
            continue
        room = dict([row['lent'].split()]) if row['lent'] else {}
        mode = byte_of(hand.MODES, row['mode'])
        same(what, compiled(link, mode, sheet, **{name: int(n) for name, n in room.items()}), row['answer'])
        if not room and int(row['refusal']) != 10 and mode < len(hand.MODES):
            same(what + ', the evaluator', evaluated(link, sheet), row['answer'])
    same('refusals with an example', sorted({int(row['refusal']) for row in rows}), list(range(1, 20)))


def kinds(rows, same):
    for row in rows:
        sheet = sheet_of(row['notation'])
        (_, _), (_, record), _ = notation.model.sections(sheet)
        same('%s: its kind' % row['notation'], record[0], int(row['kind']))
        for link, name in enumerate(hand.LINKS):
            same('%s on %s' % (row['notation'], name), compiled(link, 1, sheet), row['answer on ' + name])
    same('kinds with an example', sorted({int(row['kind']) for row in rows}), list(range(1, 24)))
    same('links in the table', [x for x in rows[0] if x.startswith('answer on ')], ['answer on ' + name for name in hand.LINKS])
