#!/usr/bin/env python3
"""cases.py COMMAND: runs the command bromaveluth on good and bad input and reads its words, its new captures and its exit codes."""
import json
import os
import pty
import random
import signal
import stat
import subprocess
import sys
import tempfile
import threading
import time

sys.dont_write_bytecode = True
HERE = os.path.dirname(os.path.abspath(__file__))
sys.path.insert(0, HERE)
import captures as c
from captures import model

COMMAND = os.path.abspath(sys.argv[1])
TOOL = os.path.join(HERE, '../../tools/sheet')
passed = failed = 0

IP, ARP = c.ethernet(0x0800), c.ethernet(0x0806)
FOUR = [(IP, 60), (ARP, 60), (IP, 1500), (IP, 20)]          # passes, dropped, cut, captured above original: passes
RAW = [(c.ipv4(bytes([10, 0, 0, 1])), 32), (c.ipv4(bytes([192, 168, 1, 20])), 32)]


def same(what, got, wanted):
    global passed, failed
    if got == wanted:
        passed += 1
        return
    failed += 1
    print('%s:\n  got    %r\n  wanted %r' % (what, got, wanted), file=sys.stderr)


def run(*words, **how):
    """Exit code, standard output, standard error."""
    ran = subprocess.run([COMMAND, *words], stdout=subprocess.PIPE, stderr=subprocess.PIPE, timeout=120,
                         **{'stdin': subprocess.DEVNULL, **how} if 'input' not in how else how)
    return ran.returncode, ran.stdout.decode(), ran.stderr.decode()


def put(name, data):
    with open(name, 'wb') as f:
        f.write(data)
    return name


def got(name):
    with open(name, 'rb') as f:
        return f.read()


def sheet_of(notation):
    return subprocess.run([TOOL, notation], stdout=subprocess.PIPE, check=True).stdout


def usage():
    for words, text in [
            ((), 'which verb?'), (('frobnicate',), 'there is no verb "frobnicate"'), ((b'\xff',), 'there is no verb "\ufffd"'),
            (('capture',), 'which filter, and which capture?'), (('capture', 'ip'), 'which capture? A FILE must be named, or - for standard input'),
            (('capture', '--frob', 'ip', 'x'), 'there is no option --frob'), (('capture', '-x', 'ip', 'x'), 'there is no option -x'),
            (('capture', 'ip', 'x', '--mode'), 'what follows --mode?'), (('capture', 'ip', 'x', '--mode', 'odd'), '--mode is plain or mended'),
            (('capture', 'ip', 'x', '--mode=plain', '--mode=plain'), '--mode is given twice'),
            (('capture', 'ip', 'x', '--json', '--tsv'), '--json and --tsv: there can be one shape only'),
            (('capture', '--sheet', 'a', '--filter', 'b', 'x'), '--filter and --sheet: there can be one filter only'),
            (('capture', 'ip', '-', '-'), 'standard input (-) can be read once only'),
            (('capture', '--filter', '-', '-'), 'standard input (-) can be read once only'),
            (('capture', 'ip', 'x', 'y', '--passed', 'new'), '--passed and --dropped take one FILE only'),
            (('capture', 'ip', 'x', '--passed', 'new', '--dropped', 'new'), '--passed and --dropped need two files'),
            (('capture', 'ip', 'x', '--passed', '-'), '--passed and --dropped take the name of a new file')]:
        code, out, err = run(*words)
        same('exit code of %r' % (words,), code, 2)
        same('output of %r' % (words,), out, '')
        same('first words of %r' % (words,), err.split('\n')[0], 'bromaveluth: ' + text)
        same('the usage line of %r' % (words,), err.split('\n')[1].startswith('usage: bromaveluth capture '), True)
    for words in [('--help',), ('capture', '--help'), ('capture', 'ip', '-h')]:
        code, out, err = run(*words)
        same('help %r' % (words,), (code, out.startswith('usage: bromaveluth capture '), err), (0, True, ''))
    same('the exit codes are told', [n for n in '0123' if '\n  %s  ' % n in run('capture', '--help')[1]], list('0123'))
    for words in [('--version',), ('capture', '--version')]:
        same('version', run(*words), (0, 'bromaveluth 0.1.0\n', ''))


def counts():
    for order in '<>':
        for magic in (c.MICRO, c.NANO):
            name = put('good.pcap', c.capture(FOUR, order, magic))
            same('a good file', run('capture', 'ip', name), (0, 'good.pcap: Ethernet, 4 records: 2 passed, 1 dropped, 1 cut\n', ''))
    put('empty.pcap', c.header())
    put('raw.pcap', c.capture(RAW, '>', link_type=101))
    put('cooked.pcap', c.capture([(bytes(14) + b'\x08\0' + frame, n + 16) for frame, n in RAW], '>', link_type=113))
    put('--odd', c.capture(FOUR[:1]))
    same('no records', run('capture', 'ip', 'empty.pcap'), (0, 'empty.pcap: Ethernet, 0 records: 0 passed, 0 dropped, 0 cut\n', ''))
    same('several files', run('capture', 'ip', 'good.pcap', 'raw.pcap', 'empty.pcap'), (
        0, 'good.pcap: Ethernet, 4 records: 2 passed, 1 dropped, 1 cut\nraw.pcap: raw IP, 2 records: 2 passed, 0 dropped, 0 cut\n'
        'empty.pcap: Ethernet, 0 records: 0 passed, 0 dropped, 0 cut\ntotal of 3 files: 6 records: 4 passed, 1 dropped, 1 cut\n', ''))
    same('a cooked file', run('capture', 'src host 10.0.0.1', 'cooked.pcap'), (0, 'cooked.pcap: Linux cooked, 2 records: 1 passed, 1 dropped, 0 cut\n', ''))
    same('an odd name', run('capture', '--', 'ip', '--odd'), (0, '--odd: Ethernet, 1 record: 1 passed, 0 dropped, 0 cut\n', ''))
    # document 01, K6: plain mode drops the very frame that it names
    high = 'src host 192.168.1.20'
    for words, answer in [((), '1 passed, 1 dropped'), (('--mode', 'mended'), '1 passed, 1 dropped'), (('--mode=plain',), '0 passed, 2 dropped')]:
        same('mode %r' % (words,), run('capture', high, *words, 'raw.pcap'), (0, 'raw.pcap: raw IP, 2 records: %s, 0 cut\n' % answer, ''))


def filters():
    put('f.sheet', sheet_of('not arp'))
    put('f.txt', b'\n not\n arp \n')
    answer = 'good.pcap: Ethernet, 4 records: 2 passed, 1 dropped, 1 cut\n'
    for words in [('not arp',), ('--sheet', 'f.sheet'), ('--sheet=f.sheet',), ('--filter', 'f.txt')]:
        same('a filter by %r' % (words,), run('capture', *words, 'good.pcap'), (0, answer, ''))
    for option, name in [('--sheet', 'f.sheet'), ('--filter', 'f.txt')]:
        same('%s -' % option, run('capture', option, '-', 'good.pcap', input=got(name)), (0, answer, ''))
        same('no such filter', run('capture', option, 'nosuch', 'good.pcap'),
             (3, '', 'bromaveluth: nosuch: cannot be read: No such file or directory\n'))
    for notation, fault in [
            ('', 'a test expected, not the end'), ('frob', 'a test expected, not "frob" (word 1)'), ('(ip', '")" expected, not the end'),
            ('ip)', '"and", "or" or the end expected, not ")" (word 2)'), ('net[0 = 1', '"]" expected, not "=" (word 4)'),
            ('ip and arp or tcp', '"and" and "or" side by side (word 4): parentheses must say which comes first'),
            ('ip ~ arp', '"~" has no meaning here'), ('ip \x1b arp', '"\\u{1b}" has no meaning here'), (b'\xff', 'this is no text in UTF-8')]:
        code, out, err = run('capture', notation, 'good.pcap')
        same('the faulty notation %r' % notation, (code, out, err.split('\n')[0]), (2, '', 'bromaveluth: the filter: ' + fault))
    put('f.txt', b'ip and\nfrob')
    same('a faulty file', run('capture', '--filter', 'f.txt', 'good.pcap')[2].split('\n')[0],
         'bromaveluth: f.txt: a test expected, not "frob" (word 3)')


def long_filters():
    put('f.txt', b'(' * 200000 + b'ip' + b')' * 200000)
    same('200,000 parentheses', run('capture', '--filter', 'f.txt', 'good.pcap')[0], 0)
    put('f.txt', b'(' * 200000 + b'ip' + b')' * 199999)
    same('one of them open', run('capture', '--filter', 'f.txt', 'good.pcap')[2].split('\n')[0], 'bromaveluth: f.txt: ")" expected, not the end')
    put('f.txt', b'not ' * 30000 + b'ip')
    same('30,000 Nots', run('capture', '--filter', 'f.txt', 'good.pcap')[1], 'good.pcap: Ethernet, 4 records: 2 passed, 1 dropped, 1 cut\n')
    for text in [b'not ' * 65535 + b'ip', b'raw[0]' + b' + 1' * 65536 + b' = 1']:
        put('f.txt', text)
        code, out, err = run('capture', '--filter', 'f.txt', 'good.pcap')
        same('too long', (code, out, err.split('\n')[0]), (2, '', 'bromaveluth: f.txt: more than 65535 tests, operators or steps'))
    put('f.txt', b'len = 1' + b' or len = 1' * 20000)
    same('refusal 10', run('capture', '--filter', 'f.txt', 'good.pcap'), (1, '', 'bromaveluth: good.pcap: refused (10): jump distance above 32767\n'))


def refused_filters():
    for notation, name, number, text in [
            ('ip and not arp', 'raw.pcap', 11, 'ethertype on RawIp other than 0x0800: test 2 of the filter, "arp"'),
            ('icmp   port\n 7', 'raw.pcap', 12, 'ports with p not 0, 5, 6 or 10: test 1 of the filter, "icmp port 7"'),
            ('ip or ether multicast', 'cooked.pcap', 14, 'EtherMulticast on RawIp or Linux cooked: test 2 of the filter, "ether multicast"'),
            ('ether host 02:00:00:00:00:01', 'raw.pcap', 13, 'EtherHost on RawIp or Linux cooked: test 1 of the filter, "ether host 02:00:00:00:00:01"'),
            ('ip or inbound', 'good.pcap', 16, 'Inbound, Outbound: test 2 of the filter, "inbound"'),
            ('raw[0] = raw[1]', 'good.pcap', 17, 'comparison with a load: test 1 of the filter, "raw[0] = raw[1]"'),
            ('ip and (arp or raw[0] % 2 = 1)', 'good.pcap', 19, 'first bad step: Mod: test 3 of the filter, "raw[0] % 2 = 1"'),
            ('raw[0] << 32 = 1', 'good.pcap', 6, 'a shift by 32 or more: test 1 of the filter, "raw[0] << 32 = 1"')]:
        same(notation, run('capture', notation, name), (1, '', 'bromaveluth: %s: refused (%d): %s\n' % (name, number, text)))
    put('f.sheet', sheet_of('ip or inbound'))
    same('a sheet has no words', run('capture', '--sheet', 'f.sheet', 'good.pcap'),
         (1, '', 'bromaveluth: good.pcap: refused (16): Inbound, Outbound: primitive 1 of the sheet\n'))
    put('f.sheet', sheet_of('ip')[:-1] + b'\4')
    same('a wrong byte', run('capture', '--sheet', 'f.sheet', 'good.pcap'),
         (1, '', 'bromaveluth: good.pcap: refused (3): a code or unused byte is wrong: byte 30 of the sheet\n'))
    put('f.sheet', b'')
    same('an empty sheet', run('capture', '--sheet', 'f.sheet', 'good.pcap')[0], 1)
    put('cut.pcap', c.capture(FOUR)[:-1])
    same('the file comes first', run('capture', 'inbound', 'cut.pcap'),
         (1, '', 'bromaveluth: cut.pcap: refused (42): file ends inside a header or record, at byte 252 of the file\n'))


BAD = [
    (b'', 42, 0, ''), (b'\xa1', 42, 0, ''), (b'xyz', 42, 0, ''), (b'garbage of any length, and more of it', 40, 0, ''),
    (c.header()[:4], 42, 0, ''), (c.header()[:23], 42, 0, ''), (b'\0' * 23, 40, 0, ''),
    (b'\x0a\x0d\x0d\x0a' + bytes(100), 40, 0, '; this is pcapng, which "editcap -F pcap" turns into a capture that can be read'),
    (b'\x1f\x8b' + bytes(100), 40, 0, '; this is compressed by gzip'),
    (c.header(link_type=276), 41, 20, '; it is 276, and 1 (Ethernet), 101 (raw IP) and 113 (Linux cooked) can be read'),
    (c.header('>', link_type=0x10000001), 41, 20, '; it is 268435457, and 1 (Ethernet), 101 (raw IP) and 113 (Linux cooked) can be read'),
    (c.header() + c.record(IP)[:15], 42, 24, ''), (c.header() + c.record(IP)[:-1], 42, 24, ''),
    (c.header() + c.record(IP) + c.record(b'', captured=16385), 43, 100, ''),
    (c.header() + c.record(IP) + c.record(b'', captured=16384), 42, 100, ''),
]
TEXTS = {40: 'unknown magic', 41: 'other link type', 42: 'file ends inside a header or record', 43: 'captured length above 16,384'}


def refused_files():
    for data, number, place, hint in BAD:
        put('bad.pcap', data)
        text = '%s, at byte %d of the file%s' % (TEXTS[number], place, hint)
        same('a refused file %r' % data[:30], run('capture', 'ip', 'bad.pcap'), (1, '', 'bromaveluth: bad.pcap: refused (%d): %s\n' % (number, text)))
        same('the same by a pipe', run('capture', 'ip', '-', input=data), (1, '', 'bromaveluth: -: refused (%d): %s\n' % (number, text)))
        code, out, err = run('capture', '--json', 'ip', 'bad.pcap')
        same('the same as JSON', (code, json.loads(out)['files'], err), (
            1, [{'file': 'bad.pcap', 'refusal': number, 'place': place, 'text': text}], ''))
    put('bad.pcap', b'garbage')
    same('one of three', run('capture', 'ip', 'good.pcap', 'bad.pcap', 'good.pcap'), (
        1, 'good.pcap: Ethernet, 4 records: 2 passed, 1 dropped, 1 cut\n' * 2 + 'total of 2 files, 1 not counted: 8 records: 4 passed, 2 dropped, 2 cut\n',
        'bromaveluth: bad.pcap: refused (40): unknown magic, at byte 0 of the file\n'))


def every_cut():
    """A small capture cut at every byte: 42 where document 02 says so, or the counts of the records that are left."""
    for order, link_type in (('<', 1), ('>', 101)):
        records = [(b'\x45' + bytes(19), 20), (bytes(3), 90), (b'', 0)]
        whole, ends = c.capture(records, order, link_type=link_type), [24]
        for frame, _ in records:
            ends.append(ends[-1] + 16 + len(frame))
        for n in range(len(whole) + 1):
            code, out, _ = run('capture', '--json', 'ip', '-', input=whole[:n])
            answer = json.loads(out)['files'][0]
            if n in ends:
                passed, dropped, cut = c.classes(records[:ends.index(n)], sheet_of('ip'), int(link_type == 101))
                same('%d bytes' % n, (code, [answer[k] for k in ('records', 'passed', 'dropped', 'cut')]),
                     (0, [ends.index(n), len(passed), len(dropped), len(cut)]))
            else:
                begun = max([0] + [e for e in ends if e <= n])
                same('%d bytes' % n, (code, answer['refusal'], answer['place']), (1, 42, begun))


def unread():
    os.mkdir('folder')
    same('a missing file', run('capture', 'ip', 'nosuch', 'good.pcap'), (
        3, 'good.pcap: Ethernet, 4 records: 2 passed, 1 dropped, 1 cut\ntotal of 1 file, 1 not counted: 4 records: 2 passed, 1 dropped, 1 cut\n',
        'bromaveluth: nosuch: cannot be read: No such file or directory\n'))
    same('a folder', run('capture', 'ip', 'folder'), (3, '', 'bromaveluth: folder: cannot be read: Is a directory\n'))
    same('3 before 1', run('capture', 'ip', 'nosuch', 'bad.pcap')[0], 3)
    put('locked.pcap', c.capture(FOUR))
    os.chmod('locked.pcap', 0)
    how = {'user': 65534} if os.geteuid() == 0 else {}
    same('a locked file', run('capture', 'ip', 'locked.pcap', **how), (3, '', 'bromaveluth: locked.pcap: cannot be read: Permission denied\n'))
    code, out, err = run('capture', '--json', 'ip', 'nosuch')
    same('a missing file as JSON', (code, json.loads(out), err), (3, {
        'files': [{'file': 'nosuch', 'text': 'cannot be read: No such file or directory'}],
        'total': {'counted': 0, 'refused': 0, 'failed': 1, 'records': 0, 'passed': 0, 'dropped': 0, 'cut': 0}}, ''))


def pipes():
    answer = 'Ethernet, 4 records: 2 passed, 1 dropped, 1 cut\n'
    same('standard input', run('capture', 'ip', '-', input=got('good.pcap')), (0, '-: ' + answer, ''))
    with open('good.pcap', 'rb') as f:
        same('a file as standard input', run('capture', 'ip', '-', stdin=f), (0, '-: ' + answer, ''))
    os.mkfifo('fifo')
    feeding = threading.Thread(target=put, args=('fifo', got('good.pcap')))
    feeding.start()
    same('a named pipe', run('capture', 'ip', 'fifo'), (0, 'fifo: ' + answer, ''))
    feeding.join()
    same('no standard input', run('capture', 'ip', '-', preexec_fn=lambda: os.close(0), stdin=None)[0], 1)
    for how in (('ip',), ('--json', 'ip'), ('--tsv', 'ip'), ('--help',)):
        read, write = os.pipe()
        os.close(read)
        ran = subprocess.run([COMMAND, 'capture', *how, 'good.pcap'], stdout=write, stderr=subprocess.PIPE)
        os.close(write)
        same('nobody reads %r' % (how,), (ran.returncode, ran.stderr), (3, b''))
        with open('/dev/full', 'wb') as full:
            ran = subprocess.run([COMMAND, 'capture', *how, 'good.pcap'], stdout=full, stderr=subprocess.PIPE)
        same('a full disk %r' % (how,), (ran.returncode, ran.stderr), (3, b'bromaveluth: the answer cannot be written: No space left on device\n'))
    with open('/dev/full', 'wb') as full:
        ran = subprocess.run([COMMAND, 'capture', 'ip', 'nosuch'], stdout=subprocess.PIPE, stderr=full)
        same('nowhere to complain', (ran.returncode, ran.stdout), (3, b''))


def shapes():
    names = ['plain.pcap', 'a "quoted\\ name', 'tab\tand\nline', 'ünï']
    for name in names:
        put(name, c.capture(FOUR))
    put(b'odd\xff', c.capture(FOUR))
    files = [*names, b'odd\xff', 'raw.pcap', 'bad.pcap', 'nosuch']
    code, out, err = run('capture', '--json', 'ip', *files)
    four = {'link': 'Ethernet', 'records': 4, 'passed': 2, 'dropped': 1, 'cut': 1}
    same('JSON', (code, json.loads(out), out.count('\n'), err), (3, {
        'files': [*({'file': name, **four} for name in [*names, 'odd\ufffd']),
                  {'file': 'raw.pcap', 'link': 'RawIp', 'records': 2, 'passed': 2, 'dropped': 0, 'cut': 0},
                  {'file': 'bad.pcap', 'refusal': 40, 'place': 0, 'text': 'unknown magic, at byte 0 of the file'},
                  {'file': 'nosuch', 'text': 'cannot be read: No such file or directory'}],
        'total': {'counted': 6, 'refused': 1, 'failed': 1, 'records': 22, 'passed': 12, 'dropped': 5, 'cut': 5}}, 1, ''))
    code, out, err = run('capture', '--tsv', 'ip', *files)
    rows = [line.split('\t') for line in out.split('\n')]
    counted = ['Ethernet', '4', '2', '1', '1', '', '', '']
    same('TSV', (code, rows, err), (3, [
        ['file', 'link', 'records', 'passed', 'dropped', 'cut', 'refusal', 'place', 'text'],
        *([name, *counted] for name in ['plain.pcap', 'a "quoted\\ name', 'tab\\tand\\nline', 'ünï', 'odd\ufffd']),
        ['raw.pcap', 'RawIp', '2', '2', '0', '0', '', '', ''],
        ['bad.pcap', '', '', '', '', '', '40', '0', 'unknown magic, at byte 0 of the file'],
        ['nosuch', '', '', '', '', '', '', '', 'cannot be read: No such file or directory'], ['']], ''))
    same('a name in words', run('capture', 'ip', 'tab\tand\nline')[1], 'tab\\tand\\nline: Ethernet, 4 records: 2 passed, 1 dropped, 1 cut\n')
    same('a name in a complaint', run('capture', 'ip', 'no\x1b[2J')[2], 'bromaveluth: no\\u{1b}[2J: cannot be read: No such file or directory\n')


def against_model():
    """Captures of some frames under some filters, against tests/sheet/model.py; one is longer than a part."""
    r = random.Random(17)
    tests = ['ip', 'tcp', 'udp port 53', 'src host 10.0.0.1', 'net 192.168.0.0/16', 'len > 50', 'net[9] = 17', 'not dst port 53', 'portrange 1-2000']
    for i in range(60):
        link = r.randrange(3)
        notation = r.choice([' and ', ' or ']).join(r.sample(tests, r.randint(1, 4)))
        frames = [c.ipv4(bytes([r.choice([10, 192]), r.choice([0, 168]), 0, r.randint(0, 3)]), r.choice([6, 17]), (r.choice([9, 3000]), r.choice([53, 80])))
                  for _ in range(20)]
        frames = [(b'' if link == 1 else bytes(12 + link) + r.choice([b'\x08\0', b'\x08\0', b'\x86\xdd'])) + f[:r.choice([99, 99, r.randint(0, 32)])] for f in frames]
        records = [(f, r.choice([len(f), len(f), len(f) + 1, 0])) for f in r.choices(frames, k=100000 if i == 0 else r.randint(0, 60))]
        order, magic = r.choice('<>'), r.choice([c.MICRO, c.NANO])
        judged(notation, records, link, order, magic, i)


def judged(notation, records, link, order, magic, i):
    whole, sheet = c.capture(records, order, magic, c.LINK_TYPES[link]), sheet_of(notation)
    verdicts = {f: model.holds(link, sheet, f) for f in {f for f, _ in records}}
    classes = [[], [], []]
    for f, n in records:
        classes[2 if len(f) < n else 0 if verdicts[f] else 1].append((f, n))
    name = put('model.pcap', whole)
    new = ['passed%d.pcap' % i, 'dropped%d.pcap' % i]
    code, out, err = run('capture', notation, name, '--passed', new[0], '--dropped', new[1])
    many = '%d record%s' % (len(records), '' if len(records) == 1 else 's')
    words = '%s: %s, %s: %d passed, %d dropped, %d cut' % (name, ['Ethernet', 'raw IP', 'Linux cooked'][link], many, *map(len, classes))
    same('%s on capture %d' % (notation, i), (code, out.split('\n')[0], err), (0, words, ''))
    for path, wanted in zip(new, classes):
        same('the new capture %s' % path, got(path) == c.capture(wanted, order, magic, c.LINK_TYPES[link]), True)
    counts = [json.loads(run('capture', '--json', notation, path)[1])['files'][0] for path in new]
    same('judged again', [(a['passed'], a['dropped'], a['cut']) for a in counts], [(len(classes[0]), 0, 0), (0, len(classes[1]), 0)])


def new_captures():
    before = set(os.listdir('.'))
    code, out, err = run('capture', 'ip', 'good.pcap', '--passed', 'new.pcap')
    same('--passed', (code, out, err), (0, 'good.pcap: Ethernet, 4 records: 2 passed, 1 dropped, 1 cut\nnew.pcap: 2 frames written\n', ''))
    same('only the new file', set(os.listdir('.')) - before, {'new.pcap'})
    same('nobody may run it', stat.S_IMODE(os.stat('new.pcap').st_mode) & 0o111, 0)
    old = got('new.pcap')
    taken = 'bromaveluth: new.pcap: cannot be written: it is there already, and nothing is written over\n'
    for option in ('--passed', '--dropped'):
        same('a taken name', run('capture', 'arp', 'good.pcap', option, 'new.pcap'), (3, '', taken))
    os.symlink('nowhere', 'link.pcap')
    same('a broken link', run('capture', 'arp', 'good.pcap', '--passed', 'link.pcap')[0], 3)
    same('the source', run('capture', 'arp', 'good.pcap', '--passed', 'good.pcap')[0], 3)
    same('it is as it was', got('new.pcap'), old)
    before = set(os.listdir('.'))
    same('a refused source', run('capture', 'ip', 'bad.pcap', '--passed', 'other.pcap')[0], 1)
    same('a refused filter', run('capture', 'inbound', 'good.pcap', '--passed', 'other.pcap')[0], 1)
    same('a missing folder', run('capture', 'ip', 'good.pcap', '--passed', 'no/other.pcap'),
         (3, '', 'bromaveluth: good.pcap: no/other.pcap: cannot be written: No such file or directory\n'))
    same('a folder', run('capture', 'ip', 'good.pcap', '--passed', 'folder')[0], 3)
    same('one of two', run('capture', 'ip', 'good.pcap', '--passed', 'other.pcap', '--dropped', 'no/other.pcap')[0], 3)
    same('nothing is left', set(os.listdir('.')) ^ before, set())
    same('as JSON', json.loads(run('capture', '--json', 'ip', '-', '--passed', 'json.pcap', input=got('good.pcap'))[1])['total']['passed'], 2)
    same('from a pipe', got('json.pcap'), old)


def zeros(name, records):
    """A sparse capture of so many empty frames: a record header of zeros is one."""
    put(name, c.header())
    os.truncate(name, 24 + 16 * records)


def waited(condition):
    for _ in range(10000):
        if condition():
            return True
        time.sleep(.001)
    return False


SLOW = ' or '.join('len = %d' % n for n in range(1, 41))           # some hundred steps on an empty frame


def signals():
    zeros('long.pcap', 1 << 22)
    at_work = subprocess.Popen([COMMAND, 'capture', SLOW, 'long.pcap'], stdout=subprocess.PIPE, stderr=subprocess.PIPE)
    maps = '/proc/%d/maps' % at_work.pid
    same('the file is mapped', waited(lambda: b'long.pcap' in got(maps)), True)
    os.truncate('long.pcap', 24)
    out, err = at_work.communicate()
    same('a file that is cut meanwhile', (at_work.returncode, out, err), (
        3, b'', b'bromaveluth: a file was cut by somebody else while it was read; there is no answer for it\n'))
    zeros('long.pcap', 1 << 20)
    for number in (signal.SIGINT, signal.SIGTERM, signal.SIGHUP):
        same('signal %d' % number, interrupted(number, signal.SIG_DFL), (-number, set()))
    # One that whoever started the command wants ignored stays so, as of a job in the background.
    same('an ignored one', interrupted(signal.SIGINT, signal.SIG_IGN), (0, {'cancelled.pcap'}))


def interrupted(number, disposition):
    """Exit code of a command that gets a signal while it writes a new capture, and what it leaves behind."""
    before = set(os.listdir('.'))
    at_work = subprocess.Popen([COMMAND, 'capture', SLOW, 'long.pcap', '--dropped', 'cancelled.pcap'], stdout=subprocess.DEVNULL,
                               stderr=subprocess.DEVNULL, preexec_fn=lambda: signal.signal(number, disposition))
    same('the new file has another name at first', waited(lambda: set(os.listdir('.')) != before), True)
    same('which is not the last one', 'cancelled.pcap' in os.listdir('.'), False)
    at_work.send_signal(number)
    at_work.communicate()
    return at_work.returncode, set(os.listdir('.')) ^ before


def on_terminal(*words):
    """Exit code, and what a person sees on standard error."""
    ours, theirs = pty.openpty()
    at_work = subprocess.Popen([COMMAND, *words], stdout=subprocess.PIPE, stderr=theirs)
    os.close(theirs)
    seen = b''
    while True:
        try:
            more = os.read(ours, 4096)
        except OSError:
            break
        if not more:
            break
        seen += more
    at_work.communicate()
    os.close(ours)
    return at_work.returncode, seen


def progress():
    same('a short file needs no progress', on_terminal('capture', 'ip', 'good.pcap'), (0, b''))
    zeros('long.pcap', 1 << 23)
    begun = time.monotonic()
    code, seen = on_terminal('capture', SLOW, 'long.pcap')
    same('it takes long enough for the next line', time.monotonic() - begun > 1.5, True)
    percents = [int(part.split(b'%')[0]) for part in seen.split(b'\rlong.pcap: ')[1:]]
    same('percents that grow', (code, len(percents) > 0, percents == sorted(percents), all(0 <= n <= 100 for n in percents)), (0, True, True, True))
    same('the line is given back', seen.endswith(b'\r\x1b[K'), True)
    same('no terminal, no progress', run('capture', SLOW, 'long.pcap')[2], '')
    os.unlink('long.pcap')


def readme():
    """The commands of command/README.md answer what stands under them there."""
    put('site.pcap', c.site())
    put('wlan.pcap', c.header(link_type=105))
    with open(os.path.join(HERE, '../../command/README.md'), encoding='utf-8') as f:
        lines = [line[4:] for line in f.read().split('\n') if line.startswith('    ')]
    places = [i for i, line in enumerate(lines) if line.startswith('$ bromaveluth ')]
    same('there are examples', len(places) > 3, True)
    path = os.path.dirname(COMMAND) + ':' + os.environ['PATH']
    for i, end in zip(places, places[1:] + [len(lines)]):
        ran = subprocess.run(['sh', '-c', lines[i][2:]], stdout=subprocess.PIPE, stderr=subprocess.STDOUT, env={**os.environ, 'PATH': path})
        same(lines[i], ran.stdout.decode().split('\n'), lines[i + 1:end] + [''])


def main():
    with tempfile.TemporaryDirectory() as folder:
        os.chmod(folder, 0o755)
        os.chdir(folder)
        for part in (usage, counts, filters, long_filters, refused_filters, refused_files, every_cut, unread, pipes, shapes, against_model,
                     new_captures, signals, progress, readme):
            part()
        os.chdir('/')
    print('%d passed, %d failed' % (passed, failed))
    sys.exit(1 if failed else 0)


main()
