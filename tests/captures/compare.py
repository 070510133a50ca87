"""compare.py FOLDER COUNT-PROGRAM [--count N] [--filter OURS THEIRS]: our counts and tcpdump's over the captures in FOLDER.

`run` calls it. --count N takes the first N captures only; --filter compares one filter, given in both notations, in place of the table.
Ends with 1 at the first difference that no rule names.
"""
import collections
import os
import shutil
import struct
import subprocess
import sys
import tempfile

sys.dont_write_bytecode = True
sys.path.insert(0, os.path.dirname(os.path.abspath(__file__)))
import filters
import rules
import savefile
from savefile import model

PLAIN, MENDED = '0', '1'
FORMS = [(order, magic) for order in '<>' for magic in (savefile.MICRO, savefile.NANO)]
EVERY = 262144                       # the snap length of copies: libpcap cuts frames at this length
SMALL = 1000                         # captures up to this size are cut at every byte


class Capture:
    """A capture file and, where it can be had, the copy on which both judge the same frames."""
    def __init__(self, path):
        self.name, self.path = os.path.basename(path), path
        with open(path, 'rb') as f:
            self.file = f.read()
        self.opened = savefile.opened(self.file)
        self.records, self.link, self.copy = [], None, None
        self.left_out = collections.Counter()


def fail(text):
    print('DIFFERENCE: ' + text)
    sys.exit(1)


def run_count(count, sheet_path, paths, each=False, mode=MENDED):
    """Ours, a tuple a file: status, answer, passed, dropped, cut, and with `each` the letters of the records."""
    out = []
    for i in range(0, len(paths), 500):
        ran = subprocess.run([count] + ['--each'] * each + [sheet_path, mode] + paths[i:i + 500], stdout=subprocess.PIPE, text=True)
        if ran.returncode:
            fail('count ended with %d' % ran.returncode)
        for line in ran.stdout.splitlines():
            words = line.split()
            out.append(tuple(map(int, words[:5])) + ((words[5] if len(words) > 5 else '',) if each else ()))
    return out


def tcpdump(path, expression, *more):
    ran = subprocess.run(['tcpdump', '-Z', 'root', '-n', '-r', path, *more, expression], stdout=subprocess.PIPE, stderr=subprocess.PIPE)
    if ran.returncode:
        fail('tcpdump ends with %d on %s: %s' % (ran.returncode, path, ran.stderr.decode().strip()))
    return ran.stdout


def tcpdump_reads(path):
    return subprocess.run(['tcpdump', '-Z', 'root', '-n', '-r', path, '--count'], stdout=subprocess.DEVNULL, stderr=subprocess.DEVNULL).returncode == 0


def tcpdump_count(path, expression):
    return int(tcpdump(path, expression, '--count').split()[0])


def written(path, data):
    with open(path, 'wb') as f:
        f.write(data)
    return path


# ------------------------------------------------------------------ the copies

def all_records(file, order, at=savefile.HEADER):
    """The records as tcpdump walks them: longer ones than 16,384 bytes too, up to where the file ends inside one."""
    out = []
    while at + 16 <= len(file):
        _, _, captured, original = struct.unpack(order + 'IIII', file[at:at + 16])
        if at + 16 + captured > len(file):
            break
        out.append((file[at + 16:at + 16 + captured], original))
        at += 16 + captured
    return out


def prepare(capture, folder):
    """Chooses link and frames of a capture, and writes its copy where the file itself will not do."""
    order = savefile.order_of(capture.file)
    if order is None or len(capture.file) < savefile.HEADER:
        return
    snap, kind = struct.unpack(order + 'II', capture.file[16:24])
    capture.link = savefile.LINKS.get(kind & 0x03ffffff)
    if capture.link is None:
        return
    for frame, original in all_records(capture.file, order):
        if len(frame) < original:
            capture.left_out['cut'] += 1
        elif len(frame) > savefile.MOST:
            capture.left_out['above 16,384'] += 1
        else:
            capture.records.append((frame, original))
    if capture.opened[0] or capture.left_out or any(len(frame) > snap for frame, _ in capture.records):
        kind &= 0x03ffffff
        capture.copy = written(os.path.join(folder, capture.name),
                               savefile.write(capture.records, kind, order, struct.unpack(order + 'I', capture.file[:4])[0], EVERY))
    else:
        capture.copy = capture.path


def numbered(records, kind):
    """One file of many frames; the seconds of a record are its number."""
    out = [struct.pack('<IHHiIII', savefile.MICRO, 2, 4, 0, 0, EVERY, kind)]
    for i, (frame, original) in enumerate(records):
        out.append(struct.pack('<IIII', i, 0, len(frame), original) + frame)
    return b''.join(out)


# ------------------------------------------------------------- the comparisons

def compare_opening(captures, count, sheet_path):
    """Every file as it is: our answer, and that of the walk in Python."""
    told = run_count(count, sheet_path, [c.path for c in captures])
    by = collections.Counter()
    for c, answer in zip(captures, told):
        by[c.opened[0]] += 1
        if c.opened[0] and answer != c.opened + (0, 0, 0):
            fail('%s: ours %s, the walk in Python %s' % (c.name, answer, c.opened))
        if not c.opened[0] and (answer[0] or sum(answer[2:]) != len(savefile.records(c.file)[0]) or answer[1] != len(c.file)):
            fail('%s: ours %s, the walk in Python takes it' % (c.name, answer))
    print('%d files as they are: %s; refusals and their places as a walk in Python says' % (
        len(captures), ', '.join('%d %s' % (n, 'taken' if k == 0 else 'refused %d' % k) for k, n in sorted(by.items()))))


def passing(path, expression):
    """The numbers of the frames that tcpdump passes."""
    file = tcpdump(path, expression, '-w', '-')
    order = savefile.order_of(file)
    return {struct.unpack(order + 'I', file[at:at + 4])[0] for at, _, _ in savefile.records(file)[0]}


def compare_frames(link, records, path, f, ours, found):
    """Frame by frame: ours, the model's and tcpdump's. Gives the numbers of the frames that differ by a rule, +1 or -1."""
    theirs, differing = passing(path, f.theirs), {}
    for i, (frame, original) in enumerate(records):
        mine = ours[i] == 'P'
        if mine != model.holds(link, f.sheet, frame):
            fail('%s: frame %d: ours %s, the meaning %s: %s' % (f.ours, i, mine, not mine, frame.hex()))
        if mine == (i in theirs):
            continue
        name = rules.rule_for(link, f, frame, original, mine)
        if name is None:
            fail('%s | %s: frame %d, link %d: ours %s, tcpdump %s: %s' % (
                f.ours, f.theirs, i, link, mine, not mine, frame.hex()))
        found[name] += 1
        differing[i] = 1 if mine else -1
    return differing, len(theirs)


def compare_counts(captures, first, f, told, differing):
    """File by file: passed of ours is tcpdump's --count and the frames of this file that differ by a rule."""
    n = 0
    for c, answer in zip(captures, told):
        theirs = tcpdump_count(c.copy, f.theirs)
        by_rule = sum(differing.get(i, 0) for i in range(first[c.name], first[c.name] + len(c.records)))
        if answer[0] or answer[2] != theirs + by_rule or answer[2] + answer[3] != len(c.records) or answer[4]:
            fail('%s: %s | %s: ours %s, tcpdump %d, %d by a rule' % (c.name, f.ours, f.theirs, answer, theirs, by_rule))
        n += 1
    return n


def compare_forms(captures, count, sheet_paths, folder):
    """Both byte orders and both magics: the same counts."""
    paths = []
    for c in captures:
        with open(c.copy, 'rb') as f:
            file = f.read()
        for order, magic in FORMS:
            paths.append(written(os.path.join(folder, '%s.%s%x' % (c.name, 'lb'[order == '>'], magic)), savefile.turned(file, order, magic)))
    for f, sheet_path in sheet_paths:
        told = run_count(count, sheet_path, paths)
        for i, c in enumerate(captures):
            if len(set(told[4 * i:4 * i + 4])) != 1:
                fail('%s: %s: the four forms give %s' % (c.name, f.ours, told[4 * i:4 * i + 4]))
    for path, answer in zip(paths, run_count(count, sheet_paths[0][1], paths)):
        if not answer[0] and tcpdump_count(path, 'greater 0') != sum(answer[2:]):
            fail('%s: tcpdump does not read this form so' % path)
    print('%d files in four forms each: the same counts of %d filters in each form' % (len(captures), len(sheet_paths)))


def compare_cuts(capture, count, f, sheet_path, folder):
    """A capture cut at every byte: 42, or what the walk and the meaning say of the records that are there."""
    paths, answers = [], []
    for n in range(len(capture.file) + 1):
        piece = capture.file[:n]
        paths.append(written(os.path.join(folder, 'cut%d' % n), piece))
        opened = savefile.opened(piece)
        answers.append(opened + (0, 0, 0) if opened[0] else (0, n) + savefile.counts(opened[1], f.sheet, savefile.records(piece)[0]))
    for path, told, answer in zip(paths, run_count(count, sheet_path, paths), answers):
        if told != answer or (told[0] == 0) != tcpdump_reads(path):
            fail('%s of %s: ours %s, the walk in Python %s; tcpdump reads it: %s' % (path, capture.name, told, answer, tcpdump_reads(path)))
    return collections.Counter(a[0] for a in answers)


# --------------------------------------------------------------------- the run

def sayable(f, link):
    """Whether our generator takes the filter on this link."""
    return model.check(link, 1, f.sheet)[0] == 0 and model.first_refused(f.sheet, link)[0] == 0


def by_link(captures, link):
    """The captures of a link that have a copy, their frames in one list, and where each capture's frames begin in it."""
    chosen, records, first = [c for c in captures if c.link == link and c.copy], [], {}
    for c in chosen:
        first[c.name] = len(records)
        records += c.records
    return chosen, records, first


def stripped(records):
    """IPv4 frames of Ethernet without their first 14 bytes: frames of raw IP."""
    return [(frame[14:], max(original - 14, 0)) for frame, original in records if frame[12:14] == b'\x08\0' and frame[14:15] and frame[14] >> 4 == 4]


def cooked(records):
    """Frames of Ethernet with Linux's cooked header in the place of theirs: received, from an Ethernet device, with the source's address.
    A length in the place of the ethertype has no like there."""
    return [(b'\0\0\0\1\0\6' + frame[6:12] + b'\0\0' + frame[12:], original + 2) for frame, original in records
            if len(frame) >= 14 and frame[12:14] >= b'\x06\0']


def says(path, f):
    """Whether tcpdump takes the filter on this link."""
    return subprocess.run(['tcpdump', '-Z', 'root', '-n', '-r', path, '--count', f.theirs],
                          stdout=subprocess.DEVNULL, stderr=subprocess.DEVNULL).returncode == 0


def refused_there(count, f, sheet_path, path, link):
    """A filter that means nothing on this link is refused, as the model says."""
    meant = model.check(link, 1, f.sheet)
    meant = meant if meant[0] else model.first_refused(f.sheet, link)
    answer = run_count(count, sheet_path, [path])[0]
    if answer != meant + (0, 0, 0):
        fail('%s on link %d: ours %s, the model %s' % (f.ours, link, answer, meant))


def compare_link(link, captures, more, count, sheets, folder, found):
    """All filters on the captures of one link, and on `more` frames, which stand in no file."""
    chosen, records, first = by_link(captures, link)
    every = records + more
    path = written(os.path.join(folder, 'all%d' % link), numbered(every, {link: kind for kind, link in savefile.LINKS.items()}[link]))
    verdicts = counts = said = plain = passed = unsaid = 0
    for f, sheet_path in sheets:
        if not sayable(f, link):
            refused_there(count, f, sheet_path, path, link)
            continue
        if link == model.COOKED and not says(path, f):
            unsaid += 1
            continue
        answer = run_count(count, sheet_path, [path], True)[0]
        if answer[0]:
            fail('%s: ours %s' % (f.ours, answer))
        if filters.low(f.sheet) and run_count(count, sheet_path, [path], True, PLAIN)[0] != answer:
            fail('%s: plain mode differs from mended mode' % f.ours)
        plain += filters.low(f.sheet)
        differing, theirs = compare_frames(link, every, path, f, answer[5], found)
        counts += compare_counts(chosen, first, f, run_count(count, sheet_path, [c.copy for c in chosen]), differing)
        verdicts += len(every)
        said += 1
        passed += theirs
    print('link %d: %d files, %d frames and %d made, %d filters: %d verdicts beside tcpdump\'s and the model\'s (%d pass), %d counts beside '
          '--count; %d filters in plain mode too%s' % (link, len(chosen), len(records), len(more), said, verdicts, passed, counts, plain,
                                                       '; tcpdump does not take %d more on this link' % unsaid if unsaid else ''))


def small_ones(captures):
    """A small capture of each link and byte order, and one with cut records."""
    chosen = {}
    for c in captures:
        if c.opened[0] == 0 and len(c.file) <= SMALL and len(c.records) > 2:
            chosen.setdefault((c.link, savefile.order_of(c.file)), c)
            if c.left_out['cut']:
                chosen.setdefault('cut', c)
    return list(dict.fromkeys(chosen.values()))


def arguments(words):
    options = {'--count': None, '--filter': None}
    if len(words) < 2:
        sys.exit(__doc__)
    folder, count, words = words[0], words[1], words[2:]
    while words:
        if words[0] == '--count' and len(words) > 1 and words[1].isdigit():
            options['--count'], words = int(words[1]), words[2:]
        elif words[0] == '--filter' and len(words) > 2:
            options['--filter'], words = tuple(words[1:3]), words[3:]
        else:
            sys.exit(__doc__)
    return folder, count, options


def tell_left_out(captures):
    left = sum((c.left_out for c in captures), collections.Counter())
    copies = sum(1 for c in captures if c.copy and c.copy != c.path)
    bits = sum(1 for c in captures if c.opened[0] == 41 and c.copy)
    print('%d compared files are copies: cut records left out (%d), records above 16,384 left out (%d), snap length raised, '
          'FCS bits of the link type taken away (%d files)' % (copies, left['cut'], left['above 16,384'], bits))


def main(words):
    source, count, options = arguments(words)
    names = sorted(n for n in os.listdir(source) if n.endswith('.pcap'))[:options['--count']]
    captures = [Capture(os.path.join(source, n)) for n in names]
    folder = tempfile.mkdtemp()
    try:
        compare(captures, count, [filters.PAIRS[0], options['--filter']] if options['--filter'] else filters.PAIRS, folder)
    finally:
        shutil.rmtree(folder)


def compare(captures, count, pairs, folder):
    found = collections.Counter()
    sheets = []
    for i, (ours, theirs) in enumerate(pairs):
        f = rules.Filter(ours, theirs, filters.sheet_of(ours))
        sheets.append((f, written(os.path.join(folder, 'sheet%d' % i), f.sheet)))
    for c in captures:
        prepare(c, folder)
    compare_opening(captures, count, sheets[0][1])
    tell_left_out(captures)
    ethernet = by_link(captures, model.ETHERNET)[1]
    compare_link(model.ETHERNET, captures, rules.MADE, count, sheets, folder, found)
    compare_link(model.RAWIP, captures, stripped(ethernet), count, sheets, folder, found)
    compare_link(model.COOKED, captures, cooked(ethernet), count, sheets, folder, found)
    compare_forms([c for c in captures if c.copy], count, sheets, folder)
    for c in small_ones(captures):
        by = compare_cuts(c, count, *sheets[0], folder)
        print('%s (link %d, %d bytes) cut at every byte: %s, where tcpdump reports an error, too' % (
            c.name, c.link, len(c.file), ', '.join('%d times %d' % (n, k) for k, n in sorted(by.items()))))
    for name, sentence, _, _ in rules.RULES:
        print('%6d verdicts differ by the rule "%s": %s' % (found[name], name, sentence))
    print('0 differences that no rule names')


if __name__ == '__main__':
    main(sys.argv[1:])
