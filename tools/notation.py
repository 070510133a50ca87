"""The notation of filters that the hand tools take: words in, a sheet out."""

import ipaddress
import os
import re
import sys

sys.dont_write_bytecode = True
sys.path.insert(0, os.path.join(os.path.dirname(os.path.realpath(__file__)), '../tests/sheet'))
import hand
import model

NOTATION = '''
  X and Y, X or Y, not X, ( X )       not binds first; and with or only in parentheses
  ip ip6 arp rarp tcp udp icmp icmp6 igmp sctp, ip proto N, ip6 proto N
  [DIR] host ADDRESS                  DIR: src, dst, both; without it either
  [DIR] net ADDRESS/PREFIX            IPv4 also: net ADDRESS mask MASK
  [PROTO] [DIR] port N                [PROTO] [DIR] portrange LOW-HIGH
  ether [DIR] host MAC, ether proto N, ether multicast
  ip broadcast, ip multicast, ip6 multicast, ip protochain N, ip6 protochain N
  vlan [N], mpls [N], pppoed, pppoes [N], inbound, outbound
  len CMP N                           CMP: = != < <= > >=, has (common bits are not zero)
  LAYER[OFFSET:SIZE] STEPS CMP N      LAYER: raw, net, trans; :SIZE 1, 2 or 4, 1 without it;
                                      STEPS, none or more: + - * / % & | ^ << >> and a number;
                                      in place of N another LAYER[OFFSET:SIZE]
Numbers are decimal or 0x hexadecimal.
'''

DIRS = {'src': 'source', 'dst': 'destination', 'both': 'both'}
CMPS = {'=': 'eq', '==': 'eq', '!=': 'ne', '<': 'lt', '<=': 'le', '>': 'gt', '>=': 'ge', 'has': 'bitand'}
STEPS = dict(zip(['+', '-', '*', '/', '%', '&', '|', '^', '<<', '>>'], model.STEPS))
BARE = {'pppoed': 'pppoediscovery', 'inbound': 'inbound', 'outbound': 'outbound'}
TAGS = {'vlan': ('vlan', 65535), 'mpls': ('mpls', 2 ** 32 - 1), 'pppoes': ('pppoesession', 65535)}
WORD = re.compile(r'\s*(?:(<<|>>|<=|>=|==|!=|[][()=<>+*/%&|^!-]|[A-Za-z0-9:][A-Za-z0-9_.:/-]*)|(\S))')


class Bad(hand.Wrong):
    """A notation that is wrong."""


def whole(word):
    """The number that a word writes, None if it writes none. Python reads no more than 4300 digits, and none here needs so many."""
    if re.fullmatch(r'0x[0-9a-fA-F]+', word):
        return int(word, 16)
    if not re.fullmatch(r'[0-9]+', word):
        return None
    digits = word.lstrip('0')
    return int(digits or '0') if len(digits) < 20 else 10 ** 20


class Words:
    """The words of a notation, read from the left."""
    def __init__(self, text):
        self.text, self.words, self.spans, self.at, self.full = text, [], [], 0, False
        for found in WORD.finditer(text):
            if found[2]:
                raise Bad('"%s" has no meaning here' % found[2])
            self.words.append(found[1])
            self.spans.append(found.span(1))

    def since(self, first):
        """The text from one word to the last that was read."""
        return ' '.join(self.text[self.spans[first][0]:self.spans[self.at - 1][1]].split())

    def peek(self):
        return self.words[self.at] if self.at < len(self.words) else ''

    def take(self, wanted, *choices):
        """The next word, which must be one of the choices, if there are any."""
        word = self.peek()
        if not word or choices and word not in choices:
            raise self.bad(wanted)
        self.at += 1
        return word

    def took(self, *choices):
        """The next word if it is one of the choices; else nothing is read."""
        return self.take('', *choices) if self.peek() in choices else ''

    def bad(self, wanted):
        word = self.peek()
        return Bad('%s expected, not %s' % (wanted, '"%s" (word %d)' % (word, self.at + 1) if word else 'the end'))

    def number(self, most, wanted='a number'):
        value = whole(self.take(wanted))
        if value is None or value > most:
            self.at -= 1
            raise self.bad('%s up to %d' % (wanted, most))
        return value

    def parsed(self, wanted, parse):
        word = self.take(wanted)
        try:
            return parse(word)
        except ValueError:
            self.at -= 1
            raise self.bad(wanted) from None


class Group:
    """Tests side by side, joined from the left as far as they are read; `nots` stand before a parenthesis that was opened in it."""
    def __init__(self):
        self.tree, self.join, self.nots = None, '', 0

    def joined(self, words, part):
        """Joins a part to the group; true if another must follow."""
        self.tree = (self.join, self.tree, part) if self.join else part
        again = words.took('and', 'or')
        if self.join and again and again != self.join:
            raise Bad('"%s" and "%s" side by side (word %d): parentheses must say which comes first' % (self.join, again, words.at))
        self.join = again
        return again != ''


def under(nots, tree):
    for _ in range(nots):
        tree = ('not', tree)
    return tree


def read(words, tests):
    """The tree of all words, and the text of each test. Open parentheses wait in a list: no number of them is too large."""
    group, outer = Group(), []
    while True:
        nots = 0
        while words.took('not', '!'):
            nots += 1
        if words.took('('):
            group.nots = nots
            outer.append(group)
            group = Group()
            continue
        first = words.at
        part = under(nots, test(words))
        tests.append(words.since(first))
        while not group.joined(words, part):
            if not outer:
                return group.tree
            words.take('")"', ')')
            part = group.tree
            group = outer.pop()
            part = under(group.nots, part)


def address(words, direction):
    a = words.parsed('an address', ipaddress.ip_address)
    return model.host4(direction, int(a)) if a.version == 4 else model.host6(direction, a.packed)


def network_word(word):
    base, slash, prefix = word.partition('/')
    a = ipaddress.ip_address(base)
    if not slash and a.version == 4:
        return a, None                      # a mask must follow
    bits = whole(prefix) if prefix.isdigit() else None
    if bits is None or bits > a.max_prefixlen:
        raise ValueError
    return a, bits


def network(words, direction):
    a, bits = words.parsed('a network such as 10.0.0.0/8 or fe80::/10', network_word)
    if a.version == 6:
        return model.net6(direction, a.packed, bits)
    if bits is not None:
        return model.net4(direction, int(a), 2 ** 32 - 2 ** (32 - bits))
    words.take('"mask"', 'mask')
    return model.net4(direction, int(a), int(words.parsed('a mask such as 255.0.255.0', ipaddress.IPv4Address)))


def parts(pattern, word):
    found = re.fullmatch(pattern, word)
    if not found:
        raise ValueError
    return found.groups()


def port_range(word):
    low, high = map(whole, parts(r'(\d+)-(\d+)', word))
    if max(low, high) > 65535:
        raise ValueError
    return low, high


def mac(word):
    return bytes.fromhex(''.join(parts(':'.join(['([0-9a-fA-F]{2})'] * 6), word)))


def load(words):
    """[OFFSET:SIZE] of a byte access, after its layer."""
    words.take('"["', '[')
    sign = -1 if words.took('-') else 1
    offset, size = words.parsed('an offset, or offset:size with size 1, 2 or 4', lambda w: parts(r'(\d+)(?::([124]))?', w))
    if whole(offset) >= 2 ** 31:
        raise Bad('the offset %s is above 2147483647' % offset)
    words.take('"]"', ']')
    return int(size or 1), sign * whole(offset)


def test(words):
    word = words.take('a test')
    if word in TAGS:
        kind, most = TAGS[word]
        return model.tagged(kind, words.number(most) if words.peek()[:1].isdigit() else None)
    if word in BARE:
        return model.bare(BARE[word])
    if word == 'len':
        return model.frame_len(CMPS[words.take('a comparison', *CMPS)], words.number(2 ** 32 - 1))
    if word in model.LAYERS and words.peek() == '[':
        return byte_access(words, word)
    if word == 'ether':
        if words.took('proto'):
            return model.etherproto(words.number(65535))
        if words.took('multicast'):
            return model.bare('ethermulticast')
        direction = DIRS.get(words.took(*DIRS), 'either')
        words.take('"host"', 'host')
        return model.etherhost(direction, words.parsed('a MAC address', mac))
    proto = None
    if word in model.PROTOS[1:11]:
        proto = word
        if word in ('ip', 'ip6'):
            if words.took('proto'):
                proto = ('num' if word == 'ip' else 'ip6proto', words.number(255))
            elif words.took('protochain'):
                return model.chain(word + 'protochain', words.number(255))
            elif words.took('multicast'):
                return model.bare(word + 'multicast')
            elif word == 'ip' and words.took('broadcast'):
                return model.bare('ipbroadcast')
        if words.peek() not in (*DIRS, 'port', 'portrange'):
            return model.protocol(proto)
        word = words.take('')
    direction = 'either'
    if word in DIRS:
        direction = DIRS[word]
        word = words.take('"host", "net", "port" or "portrange"')
    if word == 'port':
        return model.port(direction, words.number(65535), proto)
    if word == 'portrange':
        return model.portrange(direction, *words.parsed('two ports as 10-20', port_range), proto)
    if word == 'host' and proto is None:
        return address(words, direction)
    if word == 'net' and proto is None:
        return network(words, direction)
    words.at -= 1
    raise words.bad('a test' if direction == 'either' and proto is None else '"port" or "portrange"' if proto else
                    '"host", "net", "port" or "portrange"')


def byte_access(words, layer):
    size, offset = load(words)
    steps = []
    while words.peek() in STEPS:
        steps.append((STEPS[words.take('')], words.number(2 ** 32 - 1)))
    cmp = CMPS[words.take('a step or a comparison', *CMPS)]
    words.full = words.full or len(steps) > 65535       # said when all is read: a wrong word comes first
    steps = steps[:65535]
    if words.peek() in model.LAYERS:
        other = words.take('')
        size2, offset2 = load(words)
        return model.access_load(layer, size, offset, cmp, other, size2, offset2, steps)
    return model.access(layer, size, offset, cmp, words.number(2 ** 32 - 1), steps)


def written(text):
    """The sheet of a notation and the text of each of its tests."""
    words, tests = Words(text), []
    tree = read(words, tests)
    if words.peek():
        raise words.bad('"and", "or" or the end')
    try:
        sheet = None if words.full else model.write(tree)
    except OverflowError:
        sheet = None
    if sheet is None:
        raise Bad('more than 65535 tests, operators or steps')
    return sheet, tests
