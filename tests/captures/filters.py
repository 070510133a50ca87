"""Filters that both notations can say: tools/sheet's, and pcap's as tcpdump takes it.

A row: ours | tcpdump's. Where the words differ the meaning is the same:
- `host` and `net` of tcpdump mean ARP too, ours IPv4 or IPv6 by the address: `ip host`, `ip6 net`.
- `port N` of tcpdump means SCTP too, ours tcp and udp.
- `ip[..]`, `tcp[..]` of tcpdump ask for IPv4 and the protocol, `net[..]`, `trans[..]` of ours for nothing.
- `less N` is `len <= N`, `greater N` is `len >= N`; `ip broadcast` of tcpdump wants a netmask.
"""
import os
import sys

sys.path.insert(0, os.path.join(os.path.dirname(os.path.abspath(__file__)), '../../tools'))
import notation
from savefile import model

TABLE = """
ip                                                  | ip
ip6                                                 | ip6
arp                                                 | arp
rarp                                                | rarp
tcp                                                 | tcp
udp                                                 | udp
icmp                                                | icmp
icmp6                                               | icmp6
igmp                                                | igmp
sctp                                                | sctp
ip proto 103                                        | ip proto 103
ip6 proto 112                                       | ip6 proto 112
host 10.0.0.1                                       | ip host 10.0.0.1
src host 131.151.32.21                              | ip src host 131.151.32.21
dst host 224.0.0.2                                  | ip dst host 224.0.0.2
both host 127.0.0.1                                 | ip src and dst host 127.0.0.1
net 10.0.0.0/8                                      | ip net 10.0.0.0/8
src net 131.151.32.0/21                             | ip src net 131.151.32.0/21
dst net 224.0.0.0/4                                 | ip dst net 224.0.0.0/4
net 192.0.0.0 mask 255.0.255.0                      | ip net 192.0.0.0 mask 255.0.255.0
host fe80::1                                        | ip6 host fe80::1
src host fe80::e091:f5ff:fecc:7abd                  | ip6 src host fe80::e091:f5ff:fecc:7abd
net fe80::/10                                       | ip6 net fe80::/10
src net fe80::/57                                   | ip6 src net fe80::/57
dst net ff02::/16                                   | ip6 dst net ff02::/16
tcp port 22                                         | tcp port 22
tcp src port 6633                                   | tcp src port 6633
udp src port 1985                                   | udp src port 1985
udp dst port 67                                     | udp dst port 67
udp both port 1985                                  | udp src and dst port 1985
port 53                                             | tcp port 53 or udp port 53
sctp port 2905                                      | sctp port 2905
tcp portrange 1024-40000                            | tcp portrange 1024-40000
udp dst portrange 7000-7021                         | udp dst portrange 7000-7021
portrange 100-200                                   | tcp portrange 100-200 or udp portrange 100-200
ether host 00:1f:29:da:2d:79                        | ether host 00:1f:29:da:2d:79
ether src host 00:60:08:9f:b1:f3                    | ether src host 00:60:08:9f:b1:f3
ether dst host ff:ff:ff:ff:ff:ff                    | ether dst host ff:ff:ff:ff:ff:ff
ether proto 0x88cc                                  | ether proto 0x88cc
ether multicast                                     | ether multicast
ip multicast                                        | ip multicast
ip6 multicast                                       | ip6 multicast
ip broadcast                                        | ip dst host 255.255.255.255
vlan                                                | vlan
vlan 1                                              | vlan 1
mpls                                                | mpls
pppoed                                              | pppoed
pppoes                                              | pppoes
len <= 60                                           | less 60
len >= 200                                          | greater 200
len = 42                                            | len = 42
len != 60                                           | len != 60
len > 100                                           | len > 100
raw[12:2] = 0x0806                                  | ether[12:2] = 0x0806
raw[0] has 1                                        | ether[0] & 1 != 0
raw[12:2] + 2 - 1 = 0x0801                          | ether[12:2] + 2 - 1 = 0x0801
raw[6:4] / 3 >= 1000000000                          | ether[6:4] / 3 >= 1000000000
ip and net[8] < 5                                   | ip[8] < 5
ip and net[6:2] & 0x1fff != 0                       | ip[6:2] & 0x1fff != 0
ip and net[12:4] >= 0x80000000                      | ip[12:4] >= 0x80000000
ip and net[2:2] * 3 << 1 > 600                      | ip[2:2] * 3 << 1 > 600
ip proto 6 and trans[13] has 2                      | tcp[13] & 2 != 0
ip proto 17 and trans[4:2] > 100                    | udp[4:2] > 100
tcp port 502 and src net 10.0.0.0/8                 | tcp port 502 and ip src net 10.0.0.0/8
not (udp or arp) and (tcp port 502 or tcp port 80) and src net 10.0.0.0/8 | not (udp or arp) and (tcp port 502 or tcp port 80) and ip src net 10.0.0.0/8
not ip                                              | not ip
not (tcp or udp)                                    | not (tcp or udp)
not tcp port 22                                     | not tcp port 22
not (host 10.0.0.1 or arp)                          | not (ip host 10.0.0.1 or arp)
(tcp or udp) and not net 10.0.0.0/8                 | (tcp or udp) and not ip net 10.0.0.0/8
(ip or ip6) and not (len < 100 or ether multicast)  | (ip or ip6) and not (len < 100 or ether multicast)
(udp port 67 or tcp port 179) and not src host 10.0.0.1 | (udp port 67 or tcp port 179) and not ip src host 10.0.0.1
"""

PAIRS = [tuple(word.strip() for word in line.split(' | ')) for line in TABLE.strip().splitlines()]


def sheet_of(text):
    """The sheet of a filter in our notation."""
    return notation.written(text)[0]


def low(sheet):
    """No comparison constant of 2^31 or more, where plain mode is not the meaning."""
    for r, _ in model.content(sheet)[0]:
        kind, n, a = model.KINDS[r[0]], model.number(r[4:8]), model.number(r[8:12])
        constant = {'host4': n, 'net': n & a, 'etherhost': a, 'mpls': n, 'ipbroadcast': 2 ** 32 - 1, 'ipmulticast': 2 ** 31}.get(kind, 0)
        if kind in ('len', 'byteaccess') and model.COMPARISONS[r[2]] != 'bitand':
            constant = n if kind == 'len' else a
        if constant >= 2 ** 31:
            return False
    return True
