#!/usr/bin/env python3
"""Runs a tree of rooms over real sockets of 127.0.0.1: `serve` behind `serve`, one root and two leaves. A subscriber's port of the root is the
publisher's port of a leaf. Prints what the leaves' subscribers got beside what the publisher sent, how long both hops took, and what each room cost for
a packet that it sent. A strict receiver (`sfu check`) judges all that each subscriber got. Then the same with 1 % of the datagrams lost on the way
between the rooms, both ways, which NACKs make good as far as time allows. It ends with 1 where a strict receiver complains, or a session ended early,
or without losses where something didn't come. Times and costs depend on whatever else the machine does. It is no part of the gate. Needs gcc; where no
program is named it is built first.

usage: bench/serve/cascade.py [--program FILE] [--seconds N] [--rate N] [--percent N] [--hold MS]
       60 seconds, 10,000 packets a second, 1 % lost on the way and 50 milliseconds for a gap if left out

example: bench/serve/cascade.py --seconds 10 --percent 2
"""
import argparse
import subprocess
import sys
import tempfile
import time
from pathlib import Path

sys.path.insert(0, str(Path(__file__).resolve().parent.parent.parent / 'tests/peers'))
from common import NEVER, Started, built, check, compile_tools, drops, problems, processor_seconds, wait_for

SIZE = 1200
LEAVES, SUBSCRIBERS = 2, 2                    # leaves of the root, and subscribers of each leaf
ROOT, LEAF, PEER, WAY = 21000, 21100, 22000, 23000
CUT = 80                                      # bytes of a packet that a strict receiver is shown: its payload is one element, which may be shorter


def link(leaf):
    """The ports between the root and this leaf: the root's, the two on the way, and the leaf's."""
    return ROOT + leaf, WAY + 2 * leaf, WAY + 2 * leaf + 1, LEAF + 10 * leaf


class Room:
    """`serve` with these lines; its ports are those of the `port` lines."""

    def __init__(self, name, lines):
        self.name, self.lines = name, lines
        self.ports = [int(line.split()[1].split(':')[1]) for line in lines if line.startswith('port')]
        self.sfu = Started([program, 'serve', NEVER], ''.join(line + '\n' for line in lines))
        wait_for(self.ports)
        time.sleep(0.2)
        self.threads, self.before = self.sfu.threads(), processor_seconds(self.sfu.pid)

    def cost(self):
        return processor_seconds(self.sfu.pid) - self.before

    def end(self):
        """Stops it, where no session has ended before."""
        check(self.sfu.threads() == self.threads, f'{self.name}: {self.sfu.threads()} of {self.threads} threads are left')
        out = self.sfu.stop()
        check(out == 'ok\n' * (len(self.lines) - len(self.ports)), f'{self.name} answered its opening lines {out!r}')


def root(percent):
    lines = [f'publish 1 layered 11111111 {options.hold} 4']
    lines += [f'join {leaf} 1 2222220{leaf} 0 1 1' for leaf in range(1, LEAVES + 1)]
    lines.append(f'port 127.0.0.1:{ROOT} 127.0.0.1:{PEER} publisher 1 11111111')
    for leaf in range(1, LEAVES + 1):
        at, near_root, _, leafs = link(leaf)
        lines.append(f'port 127.0.0.1:{at} 127.0.0.1:{near_root if percent else leafs} subscriber {leaf} 2222220{leaf}')
    return Room('the root', lines)


def leaf_room(leaf, percent):
    roots, _, near_leaf, at = link(leaf)
    lines = [f'publish 1 layered 2222220{leaf} {options.hold} 4']
    lines += [f'join {s} 1 333333{leaf}{s} 0 1 1' for s in range(1, SUBSCRIBERS + 1)]
    lines.append(f'port 127.0.0.1:{at} 127.0.0.1:{near_leaf if percent else roots} publisher 1 2222220{leaf}')
    lines += [f'port 127.0.0.1:{at + s} 127.0.0.1:{PEER + at + s - LEAF} subscriber {s} 333333{leaf}{s}' for s in range(1, SUBSCRIBERS + 1)]
    return Room(f'leaf {leaf}', lines)


def receiver(leaf, subscriber):
    at = link(leaf)[3] + subscriber
    name = work / f'{leaf}.{subscriber}'
    return name, Started([work / 'receive', 0, 0, f'{name}:{CUT}', f'{PEER + at - LEAF}:{at}:333333{leaf}{subscriber}'])


def judged(name):
    with open(name) as packets:
        return subprocess.run([program, 'check', '4'], stdin=packets, capture_output=True, text=True).stdout.strip()


def tree(percent):
    print(f'one root, {LEAVES} leaves, {options.rate} packets of {SIZE} bytes a second, {options.seconds} s, {percent} % lost between the rooms')
    lossy = None
    if percent:
        lossy = Started([work / 'lossy', percent, *(':'.join(map(str, link(leaf))) for leaf in range(1, LEAVES + 1))])
        wait_for([port for leaf in range(1, LEAVES + 1) for port in link(leaf)[1:3]])
    places = [(leaf, s) for leaf in range(1, LEAVES + 1) for s in range(1, SUBSCRIBERS + 1)]
    taking = [receiver(*place) for place in places]
    wait_for([PEER + link(leaf)[3] + s - LEAF for leaf, s in places])
    leaves = [leaf_room(leaf, percent) for leaf in range(1, LEAVES + 1)]
    rooms = [root(percent)] + leaves
    sending = Started([work / 'send', PEER, ROOT, 'layered', '11111111', options.rate, options.seconds, SIZE, 0, 1, 0, 1])
    sent = sending.rows()[0]
    costs = [room.cost() for room in rooms]
    time.sleep(1)
    dropped = sum(drops(port) or 0 for room in rooms for port in room.ports)
    rows = []
    for (leaf, s), (name, running) in zip(places, taking):
        behind = drops(PEER + link(leaf)[3] + s - LEAF)
        running.stop()
        row = running.rows()[0]
        who = f'leaf {leaf}, subscriber {s}'
        check(row['received'] > 0 and row['wrong'] == row['again'] == row['gaps'] - behind == 0, f'{who}: {row}')
        lost = sent['sent'] - row['received']
        check(percent or lost == dropped == 0 or dropped + behind > 0, f'{who}: {lost} packets didn\'t come')
        verdict = judged(name)
        if behind == 0:
            check(verdict == f'ok {row["received"]} packets {verdict.split()[-2]} frames', f'{who}: a strict receiver says {verdict!r}')
        rows.append((who, lost, behind, row, verdict))
    for room in rooms:
        room.end()
    if lossy is not None:
        lossy.stop()
    print(f'  sent {sent["sent"]}; the root asked the publisher for {sent["asked"]} packets again, and {sent["plis"]} times for a key frame; the system '
          f'dropped {dropped} at the rooms\' ports')
    for who, lost, behind, row, verdict in rows:
        times = ' '.join(f'{row[part] / 1000:7.2f}' for part in ('p50', 'p99', 'p999', 'worst'))
        print(f'  {who}: received {row["received"]}, not sent on {lost - behind}, dropped behind it {behind}; ms p50, p99, p99.9, worst over both hops {times}; '
              f'a strict receiver: {verdict}')
    per_hop = [1e6 * costs[0] / (LEAVES * sent['sent']), 1e6 * sum(costs[1:]) / sum(row['received'] for _, _, _, row, _ in rows)]
    print(f'  processor, us for an outgoing packet: {per_hop[0]:.2f} at the root, {per_hop[1]:.2f} at the leaves')
    if sent['latest_us'] > 5000:
        print(f'  (the sender itself was up to {sent["latest_us"] / 1000:.1f} ms late)')


reader = argparse.ArgumentParser(usage=__doc__.replace('%', '%%'))
reader.add_argument('--program')
reader.add_argument('--seconds', type=int, default=60)
reader.add_argument('--rate', type=int, default=10000)
reader.add_argument('--percent', type=float, default=1)
reader.add_argument('--hold', type=int, default=50)
options = reader.parse_args()
program = built(options.program)
with tempfile.TemporaryDirectory() as folder:
    work = Path(folder)
    compile_tools(work, 'send', 'receive', 'lossy')
    for part in (0, options.percent):
        tree(part)
        sys.stdout.flush()
print(f'{len(problems)} things are wrong' if problems else 'nothing is wrong')
sys.exit(1 if problems else 0)
