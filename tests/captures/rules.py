"""Where ours and tcpdump honestly differ on a frame, each with its reason.

A rule takes (link, filter, frame, original length) and tells whether the frame is one on which the two may differ. README.md has the
same list in words. Each rule names a verdict of the run: where no captured frame shows the difference, one of MADE does.
"""
import struct

from savefile import model


class Filter:
    """A filter in both notations, its sheet, and what its tests are."""
    def __init__(self, ours, theirs, sheet):
        self.ours, self.theirs, self.sheet = ours, theirs, sheet
        self.tests = model.content(sheet)[0]
        self.turned = model.NOT in model.content(sheet)[1]
        self.kinds = {model.KINDS[r[0]] for r, _ in self.tests}
        self.transport = bool(self.kinds & {'port', 'portrange'}) or any(
            model.KINDS[r[0]] == 'byteaccess' and model.LAYERS[r[1]] == 'trans' for r, _ in self.tests)
        self.protocols = any(model.KINDS[r[0]] == 'proto' and model.PROTOS[r[2]] not in ('ip', 'ip6', 'arp', 'rarp')
                             for r, _ in self.tests)


def lacks(link, f, frame):
    """Whether a test of the filter asks for a byte past the frame's end: the model's own reads, watched."""
    missed = []
    read = model.field

    def watched(frame, at, size):
        value = read(frame, at, size)
        if value is None:
            missed.append(at)
        return value
    model.field = watched
    try:
        model.holds(link, f.sheet, frame)
    finally:
        model.field = read
    return bool(missed)


def half(frame, at):
    return model.field(frame, at, 2)


def is_ip(link, frame):
    return model.ethertype(link, frame, 0x0800)


def short_frame(link, f, frame, original):
    return lacks(link, f, frame) or ('net6' in f.kinds and len(frame) < model.NET[link] + 40)


def half_of_the_ports(link, f, frame, original):
    """The source port is there, the destination port is not."""
    start = model.ipv4_transport(link, frame) if is_ip(link, frame) else model.NET[link] + 40
    return f.transport and start is not None and start + 2 <= len(frame) < start + 4


def later_fragment(link, f, frame, original):
    offset = half(frame, model.NET[link] + 6)
    return f.transport and is_ip(link, frame) and offset is not None and offset & 0x1fff != 0


def fragment_header(link, f, frame, original):
    return f.protocols and model.ip6_protocol(link, frame, 44)


def class_e(link, f, frame, original):
    first = model.field(frame, model.NET[link] + 16, 1)
    return 'ipmulticast' in f.kinds and is_ip(link, frame) and first is not None and first >= 240


def more_than_there_was(link, f, frame, original):
    return 'len' in f.kinds and len(frame) > original


def other_vlan_tags(link, f, frame, original):
    return 'vlan' in f.kinds and half(frame, model.TYPE[link]) in (0x88a8, 0x9100)


def mpls_multicast(link, f, frame, original):
    return 'mpls' in f.kinds and half(frame, model.TYPE[link]) == 0x8848


def not_version_4(link, f, frame, original):
    return link == model.RAWIP and (not frame or frame[0] >> 4 != 4)


# name, sentence, rule, the verdict that ours may have alone (None: either)
RULES = [
    ('short', 'a test reads past the end (libpcap reads words where ours reads halves): libpcap drops the frame, ours makes the test false',
     short_frame, True),
    ('half of the ports', 'libpcap reads one port, ours asks for all four port bytes', half_of_the_ports, False),
    ('fragment', 'later IPv4 fragment: libpcap finds no ports or transport bytes in it, ours does until A5', later_fragment, None),
    ('fragment6', 'IPv6 fragment header: libpcap also looks at the protocol behind it', fragment_header, False),
    ('class E', '`ip multicast` of libpcap is a destination from 224.0.0.0 to the top, ours to 239.255.255.255', class_e, False),
    ('captured above original', '`len` of libpcap is the original length, ours that of the frame', more_than_there_was, None),
    ('vlan', '`vlan` of libpcap means 0x88a8 and 0x9100 too', other_vlan_tags, False),
    ('mpls', '`mpls` of ours means 0x8848 too', mpls_multicast, True),
    ('version', 'RawIp of ours is IPv4 always, libpcap looks at the version', not_version_4, None),
]


def ethernet(ethertype, rest):
    return b'\2' * 12 + struct.pack('>H', ethertype) + rest


SIX = b'\x60\0\0\0\0\x20%c\x40\xfe\x80' + bytes(13) + b'\1\xfe\x80' + bytes(13) + b'\2'
FOUR = struct.pack('>BBHHHBBHII', 0x45, 0, 40, 0, 0, 64, 6, 0, 0x0a000001, 0x0a000002)

# Frames that nobody captured, with their original lengths.
MADE = [
    (ethernet(0x86dd, SIX % 44 + b'\6' + bytes(27)), 82),              # a fragment header, tcp behind it
    (ethernet(0x8848, bytes(50)), 64),                                  # mpls multicast
    (ethernet(0x0800, FOUR + bytes(30)), 60),                           # 64 bytes captured of 60
    (ethernet(0x0800, FOUR + struct.pack('>H', 6633)), 36),             # half of the ports
    (ethernet(0x86dd, SIX % 6)[:24], 24),                               # half a word of an address
]


def rule_for(link, f, frame, original, ours):
    """The first rule that names a difference, where ours says `ours` and tcpdump the opposite; or None. A Not turns the verdict that
    ours may have alone, but for a frame that libpcap drops at once."""
    for name, _, applies, alone in RULES:
        if (alone in (None, ours) or f.turned and applies is not short_frame) and applies(link, f, frame, original):
            return name
    return None
