#!/usr/bin/env python3
"""notations.py SHEETS: holds the command's notation to tools/sheet: the same sheet, or the same fault in the same words.

SHEETS is the program of sheets.rs.  The notations: every examples/*.txt, some that are written here, and some thousand made from a fixed
seed, right ones and ones with a word or character changed."""
import glob
import os
import random
import subprocess
import sys

sys.dont_write_bytecode = True
ROOT = os.path.join(os.path.dirname(os.path.abspath(__file__)), '../..')
sys.path.insert(0, os.path.join(ROOT, 'tools'))
import notation

WRITTEN = '''
ip|ip6|arp|rarp|tcp|udp|icmp|icmp6|igmp|sctp|ip proto 47|ip6 proto 0xff|ip proto 256|ip6 proto|ip proto 6 port 80
ip6 broadcast|ip broadcast|ip multicast|ip6 multicast|tcp multicast|ip protochain 6|ip6 protochain 58|arp protochain 1
host 10.0.0.1|src host ::1|dst host fe80::1:2|both host ::ffff:1.2.3.4|host 10.0.0|host 10.0.0.256|host 010.0.0.1|host 10.0.0.00
host 1:2:3:4:5:6:7::|host 1::2:3:4:5:6:7|host ::2:3:4:5:6:7:8|host ::1:2:3:4:5:6:7:8|host 1:2:3:4:5:6:7:8|host 1:2:3:4:5:6:7:8:9
host :1:2:3:4:5:6:7|host 1:|host ::|host :::|host 1::2::3|host 12345::|host 1.2.3.4::|host ::1.2.3.4:5|host 1:2:3:4:5:6:1.2.3.4
host 1:2:3:4:5:6:7:1.2.3.4|host ::01.2.3.4|host|host host|host 10.0.0.0/8|src|src host|src tcp|dst net|both|both port
net 10.0.0.0/8|net 10.1.2.3/0|net 10.0.0.0/32|net 10.0.0.0/33|net 10.0.0.0/08|net 10.0.0.0/|net 10.0.0.0/-1|net 10.0.0.0/8/9
net 10.0.0.0 mask 255.0.255.0|net 10.0.0.0 mask|net 10.0.0.0 mask 255|net 10.0.0.0 ip|net 10.0.0.0|net fe80::/10|net fe80::/128
net fe80::/129|net fe80::|net ::/0|net 10.0.0.0/99999999999999999999|src net 2001:db8::/17|net x
port 80|port 65535|port 65536|port 0x50|port 0X50|port 0x|port -1|port 080|tcp src port 1|udp both port 2|ip6 dst port 3|arp port 4
port 99999999999999999999999|sctp portrange 1-2|portrange 20-10|portrange 1-65536|portrange 1|portrange 1-2-3|portrange 1 - 2
portrange 0x1-2|src portrange 1-|tcp host 1.2.3.4|tcp src host 1.2.3.4|ip net 10.0.0.0/8|tcp src|tcp src ip|icmp6 dst portrange 7-7
ether host 01:02:03:04:05:06|ether src host 0a:0B:0c:0D:0e:0F|ether host 01:02:03:04:05|ether host 1:2:3:4:5:6|ether
ether host 01:02:03:04:05:06:07|ether host 01:02:03:04:05:0g|ether proto 0x0800|ether proto 65536|ether multicast|ether both|ether port
ether broadcast|ether dst multicast|vlan|vlan 5|vlan 65536|vlan x|mpls|mpls 4294967295|mpls 4294967296|pppoed|pppoed 1|pppoes 7|pppoes
inbound|outbound|inbound outbound|vlan 5 or mpls 100 or pppoes 7|vlan and 5|vlan 5x|len = 5|len == 5|len != 5|len < 5|len <= 5|len > 5
len >= 5|len has 5|len 5|len = |len =|len = x|len = 4294967296|len = 0xffffffff|len << 5|len
raw[0] = 1|net[0:2] & 15 = 5|trans[13] has 2|raw[0:4] + 1 - 2 * 3 / 4 % 5 & 6 ^ 8 << 9 >> 10 = 11|raw[-1] = 0|raw[-0] = 0
raw[2147483647] = 1|raw[2147483648] = 1|raw[00000000002147483648] = 1|raw[0:3] = 1|raw[0:] = 1|raw[:1] = 1|raw[0:1:2] = 1|raw[0 = 1
raw 0|raw|net[|trans]|net[0] = net[1]|net[0:4] & 3 != trans[-5:2]|net[0] = raw|net[0] = trans[x]|net[0] = raw[1|net[0] + = 1
net[0] +|net[0]|net[0] x 1|net[0] = |net[0] has net[0] and ip|raw[99999999999999999999999999] = 1|net[0]-1=2|net[0]/2=2|net[0] & 1/2=2
|  |()|(ip)|((ip))|(ip|ip)|((ip)|not|not not ip|! ip|!ip|!!(ip)|not (not ip or ! arp)|ip and|and ip|ip or|or|ip arp|ip and arp or tcp
ip or arp and tcp|(ip or arp) and tcp|ip and (arp or tcp) and udp|ip or arp or tcp or udp|ip and not arp and not (tcp or udp)|ip && arp
ip and (arp or tcp and udp)|not|not )|( )|ip ) and arp|ip, arp|ip; arp|"ip"|ip#|$ip|ip @|é|ip é|IP|Host 1.2.3.4|tcp  and\tudp
ip\u00a0and\u2003arp|ip\u001carp|ip\u200barp|_ip|.5|ip_|ip-|ip/|:|::|port:80|a.b|-ip|ip -|= = =|<=>|==|!==|host 10.0.0.1and ip
'''


def written():
    for line in WRITTEN.strip('\n').split('\n'):
        yield from line.split('|')
    yield 'raw[0] | 7 = 7'
    yield 'ip || arp'
    yield 'not ' * 300 + 'ip'
    yield '(' * 300 + 'ip' + ')' * 300
    yield '(' * 300 + 'ip' + ')' * 299
    yield ' and '.join(['len = 1'] * 300)
    yield 'raw[0]' + ' + 1' * 300 + ' = 1'
    yield 'raw[0]' + ' + 1' * 65535 + ' = 1'
    yield 'raw[0]' + ' + 1' * 65536 + ' = 1'
    yield 'raw[0]' + ' + 1' * 65536 + ' = 1 and'
    for digits in ('9' * 5000, '0' * 5000 + '7'):           # more than Python reads as a number
        yield from ('port ' + digits, 'portrange 1-' + digits, 'raw[%s] = 1' % digits, 'net 10.0.0.0/' + digits, 'len = 0x' + digits)
    yield 'raw[0]' + ' + 1' * 40000 + ' = 1 or raw[0]' + ' + 1' * 40000 + ' = 1'
    yield ' or '.join(['ip'] * 32768)
    yield ' or '.join(['ip'] * 32769)
    yield 'not ' * 65534 + 'ip'
    yield 'not ' * 65535 + 'ip'


class Maker:
    def __init__(self, seed):
        self.r = random.Random(seed)

    def number(self, most):
        n = self.r.choice([0, 1, most, self.r.randint(0, most), most + 1 if self.r.random() < .1 else most])
        return self.r.choice(['%d', '0x%x', '%d', '%04d']) % n

    def address(self):
        r = self.r
        if r.random() < .6:
            return '.'.join(str(r.randint(0, 255)) for _ in range(4))
        groups = ['%x' % r.randint(0, 65535) for _ in range(8)]
        if r.random() < .6:
            a, b = sorted(r.sample(range(9), 2))
            return ':'.join(groups[:a]) + '::' + ':'.join(groups[b:])
        return ':'.join(groups)

    def direction(self):
        return self.r.choice(['', '', 'src ', 'dst ', 'both '])

    def load(self):
        r = self.r
        return '%s[%s%d%s]' % (r.choice(['raw', 'net', 'trans']), r.choice(['', '', '', '-']), r.choice([0, 1, 13, 40000, 2147483647]),
                               r.choice(['', ':1', ':2', ':4']))

    def access(self):
        r = self.r
        steps = ''.join(' %s %s' % (r.choice(list(notation.STEPS)), self.number(2 ** 32 - 1)) for _ in range(r.choice([0, 0, 1, 2, 5])))
        right = self.load() if r.random() < .2 else self.number(2 ** 32 - 1)
        return '%s%s %s %s' % (self.load(), steps, r.choice(list(notation.CMPS)), right)

    def test(self):
        r, d = self.r, self.direction()
        proto = r.choice(['', '', *notation.model.PROTOS[1:11]])
        a = self.address()
        return r.choice([
            lambda: r.choice(notation.model.PROTOS[1:11]), lambda: '%s proto %s' % (r.choice(['ip', 'ip6']), self.number(255)),
            lambda: '%shost %s' % (d, a), lambda: '%snet %s/%d' % (d, a, r.randint(0, 32 if '.' in a else 128)),
            lambda: '%snet 10.0.0.0 mask %d.0.255.0' % (d, r.randint(0, 255)),
            lambda: '%s %sport %s' % (proto, d, self.number(65535)),
            lambda: '%s %sportrange %d-%d' % (proto, d, r.randint(0, 65535), r.randint(0, 65535)),
            lambda: 'ether %shost %s' % (d, ':'.join('%02x' % r.randint(0, 255) for _ in range(6))),
            lambda: 'ether proto ' + self.number(65535),
            lambda: r.choice(['ether multicast', 'ip broadcast', 'ip multicast', 'ip6 multicast', 'inbound', 'outbound', 'pppoed']),
            lambda: '%s protochain %s' % (r.choice(['ip', 'ip6']), self.number(255)),
            lambda: r.choice(['vlan', 'mpls', 'pppoes']) + r.choice(['', ' ' + self.number(4095)]),
            lambda: 'len %s %s' % (r.choice(list(notation.CMPS)), self.number(2 ** 32 - 1)), self.access, self.access])()

    def filter(self, depth):
        r = self.r
        if depth == 0 or r.random() < .3:
            return r.choice(['', '', '', 'not ', '! not ']) + self.test()
        join = r.choice([' and ', ' or '])
        parts = [self.filter(depth - 1) for _ in range(r.randint(2, 4))]
        # A group inside a group needs parentheses; now and then they are left out.
        inner = join.join('(%s)' % p if (' and ' in p or ' or ' in p) and r.random() < .97 else p for p in parts)
        return r.choice(['%s', '%s', 'not (%s)', '(%s)']) % inner

    def faulty(self, text):
        r, words = self.r, text.split(' ')
        at = r.randrange(len(words))
        change = r.randrange(5)
        if change == 0:
            del words[at]
        elif change == 1:
            words.insert(at, r.choice(['and', 'or', 'not', '(', ')', '[', 'port', 'host', '7', '=', 'ip', 'src', '1.2.3.4', 'mask', '~']))
        elif change == 2:
            words[at] = r.choice(text.split(' '))
        elif change == 3:
            words = words[:at]
        else:
            i = r.randrange(len(text) + 1)
            return text[:i] + r.choice(list('()[]:/.-=<!x0 ,')) + text[i + r.randint(0, 1):]
        return ' '.join(words)


def of_tool(text):
    """What tools/sheet says of a notation; with a sheet how many tests it has."""
    try:
        sheet = notation.written(text)[0]
    except notation.Bad as bad:
        return '! %s' % bad
    return '%s %d' % (sheet.hex(), len(notation.model.content(sheet)[0]))


def notations():
    for name in sorted(glob.glob(os.path.join(ROOT, 'examples/*.txt'))):
        with open(name, encoding='utf-8') as f:
            yield f.read()
    yield from written()
    maker = Maker(16)
    for _ in range(1500):
        text = maker.filter(maker.r.randint(0, 3))
        yield text
        yield maker.faulty(text)


def main():
    texts = list(notations())
    lines = ''.join(text.encode('utf-8').hex() + '\n' for text in texts)
    ran = subprocess.run([sys.argv[1]], input=lines.encode(), stdout=subprocess.PIPE, check=True)
    answers = ran.stdout.decode('utf-8').split('\n')[:-1]
    if len(answers) != len(texts):
        sys.exit('notations: %d answers for %d notations' % (len(answers), len(texts)))
    wrong = right = 0
    for text, answer in zip(texts, answers):
        wanted = of_tool(text)
        right += wanted[0] != '!'
        if answer != wanted:
            wrong += 1
            print('notations: %.300r\n  tools/sheet: %.300s\n  the command: %.300s' % (text, wanted, answer), file=sys.stderr)
    faulty = len(texts) - right
    print('notations: %d right, %d faulty; %d differ from tools/sheet' % (right, faulty, wrong))
    # Both sorts must be there, or the comparison says little.
    sys.exit(1 if wrong or min(right, faulty) < 1000 else 0)


main()
