"""table.py: copies some small captures of target/captures/tests to files/ and writes counts.txt, a line for each capture and filter:
  file | our notation | tcpdump's | how many frames tcpdump passes
Needs tcpdump and `fetch`; `.ci/run` needs neither, it has the lines. A filter stands there if our generator and tcpdump take it on the
capture's link, if no rule of rules.py names one of the capture's frames, and if it passes a frame (of those that pass none, three a capture).
Cut records are left out of what tcpdump counts.
"""
import os
import shutil
import sys
import tempfile

sys.dont_write_bytecode = True
sys.path.insert(0, os.path.dirname(os.path.abspath(__file__)))
import compare
import filters
import rules

HERE = os.path.dirname(os.path.abspath(__file__))
FETCHED = os.path.join(HERE, '../../target/captures/tests')
CHOSEN = ['babel', 'babel_rtt', 'bgp-addpath', 'bgp_vpn_rt-oobr', 'dcb_qcn', 'dhcpv6-ia-na', 'igmpv3-queries', 'isup', 'mptcp-aa-echo',
          'mptcp-fclose', 'pptp', 'rpvstp-trunk-native-vid5']
NONE_PASSED = 3


def named(capture, f):
    """Whether a rule names one of the capture's frames."""
    return any(applies(capture.link, f, frame, original)
               for frame, original in capture.records for _, _, applies, _ in rules.RULES)


def lines_of(capture, every):
    empty = 0
    for f in every:
        if not compare.sayable(f, capture.link) or named(capture, f) or not compare.says(capture.copy, f):
            continue
        n = compare.tcpdump_count(capture.copy, f.theirs)
        empty += n == 0
        if n or empty <= NONE_PASSED:
            yield '%s | %s | %s | %d\n' % (capture.name, f.ours, f.theirs, n)


def main():
    every = [rules.Filter(ours, theirs, filters.sheet_of(ours)) for ours, theirs in filters.PAIRS]
    os.makedirs(os.path.join(HERE, 'files'), exist_ok=True)
    shutil.copy(os.path.join(FETCHED, 'LICENSE'), os.path.join(HERE, 'files/LICENSE'))
    with tempfile.TemporaryDirectory() as folder, open(os.path.join(HERE, 'counts.txt'), 'w') as out:
        for name in CHOSEN:
            shutil.copy(os.path.join(FETCHED, name + '.pcap'), os.path.join(HERE, 'files'))
            capture = compare.Capture(os.path.join(HERE, 'files', name + '.pcap'))
            compare.prepare(capture, folder)
            out.writelines(lines_of(capture, every))


if __name__ == '__main__':
    main()
