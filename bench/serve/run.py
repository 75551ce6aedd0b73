#!/usr/bin/env python3
"""Runs `serve` over real sockets of 127.0.0.1 and prints what came of it: what came out beside what went in, how long it took, and what it cost
beside a plain relay of the same datagrams. Times and costs depend on whatever else the machine does. It ends with 1 where something was lost that no
system buffer dropped, came changed or out of order, or where a session ended early. It is no part of the gate. Needs gcc; where no program is named
it is built first.

usage: bench/serve/run.py [--program FILE] [--seconds N] [--rate N] [--port-rate N] [PART...]
  30 seconds, 10,000 packets a second, 100 a second on each track of `ports`, and all parts if left out

  plain     a plain track at the rate, packets of 1,200 bytes, 1, 2 and 4 subscribers, and a relay beside it that gets the same datagrams
  layered   the same with a layered track
  ports     64 ports for 65 seconds
  idle      64 ports at which nothing comes: the processors that they take
  memory    what is resident with 63 subscribers of one layered track, before and behind 4,000 packets to each
  burst     the longest burst, sent back to back, of which the system drops nothing: at one publisher's port of 4, 16 and 64, and at all at once
  calls     system calls for an outgoing packet; it needs perf, and permission to count (root)

tests/system/serve.py has losses, hostile peers and the control port.

example: bench/serve/run.py --seconds 5 plain idle
"""
import argparse
import shutil
import signal
import subprocess
import sys
import time
from pathlib import Path

sys.path.insert(0, str(Path(__file__).resolve().parent.parent.parent / 'tests/peers'))
import common
from common import (
    LOCAL, PEER, SIZE, TRACKS, Serving, check, drops, kind_of, memory, milliseconds, prepared, problems, processor_seconds, receivers, room_of,
    sender, sound, tool, wait_for, waits,
)

PARTS = ['plain', 'layered', 'ports', 'idle', 'memory', 'burst', 'calls']
RELAY = 23000


def rates(kind):
    """A track at the rate with 1, 2 and 4 subscribers, and a relay beside it."""
    print(f'{kind} track, {options.rate} packets of {SIZE} bytes a second, {options.seconds} s; of each figure the worst subscriber')
    print('                    dropped by the system     lost    ms from send to receipt      processor, us for')
    print('  subscribers  sent     at it  behind it   inside     p50    p99  p99.9   worst    an outgoing packet')
    for count in (1, 2, 4):
        ssrcs = [f'222222{s:02x}' for s in range(1, count + 1)]
        # Nothing is sent twice, so that the system's counts can be held against what came. What waits behind a gap in 30 ms fits into a queue.
        head = 'publish 1 plain 11111111 30' if kind == 'plain' else 'publish 1 layered 11111111 30 4'
        serving = Serving([head] + [f'join {s + 1} 1 {ssrcs[s]} 0 1 1' for s in range(count)],
                          ['publisher 1 11111111'] + [f'subscriber {s + 1} {ssrcs[s]}' for s in range(count)])
        places = range(1, count + 1)
        beside = range(RELAY + 1, RELAY + count + 1)
        dump = common.binaries / 'dump'
        taking = receivers(places, ssrcs, dump=dump if kind == 'layered' else '-')
        relay = tool('relay', RELAY, *beside)
        relayed = tool('receive', 0, 0, '-', *(f'{port}:{RELAY}:11111111' for port in beside))
        wait_for([RELAY, *beside])
        cost = [processor_seconds(each.pid) for each in (serving.sfu, relay)]
        sent = sender(0, kind, '11111111', options.rate, options.seconds, RELAY).rows()[0]
        cost = [processor_seconds(each.pid) - before for each, before in zip((serving.sfu, relay), cost)]
        time.sleep(0.5)
        at = [drops(LOCAL), drops(RELAY)]
        behind = [[drops(PEER + place) for place in places], [drops(port) for port in beside]]
        rows = [taking.stop() and taking.rows(), relayed.stop() and relayed.rows()]
        relay.stop()
        serving.end()
        micros = []
        for name, got, dropped, dropped_behind, seconds in zip(('sfu', 'relay'), rows, at, behind, cost):
            for place, row in enumerate(got):
                sound(row, f'{name} {place + 1}')
            inside = [sent['sent'] - dropped - row['received'] - late for row, late in zip(got, dropped_behind)]
            micros.append(1e6 * seconds / sum(row['received'] for row in got))
            worst = max(inside, key=abs)
            if kind == 'plain' or name == 'relay' or dropped == 0:
                check(worst == 0, f'{name}: {worst} packets were lost inside')
            ratio = f' (sfu {micros[0] / micros[1]:.2f} times that)' if name == 'relay' else ''
            print(f'  {name:<7}{count:4} {sent["sent"]:7} {dropped:9} {max(dropped_behind):9} {worst:8}  {waits(got)}    {micros[-1]:6.2f}{ratio}')
        if sent['latest_us'] > 5000:
            print(f'    (the sender itself was up to {sent["latest_us"] / 1000:.1f} ms late)')
        if kind == 'layered' and behind[0][0] == 0 and at[0] == 0:
            with open(dump) as packets:
                verdict = subprocess.run([common.program, 'check', '4'], stdin=packets, capture_output=True, text=True).stdout.strip()
            check(verdict.startswith('ok '), f'a strict receiver says {verdict!r}')
            print(f'    a strict receiver of the first packets that subscriber 1 received: {verdict}')


CALLS = ['recvfrom', 'sendto', 'epoll_wait', 'write', 'clock_nanosleep', 'sched_yield', 'futex']


def calls():
    """System calls and context switches for an outgoing packet."""
    names = [f'syscalls:sys_enter_{name}' for name in CALLS] + ['raw_syscalls:sys_enter', 'context-switches']
    counting = ['perf', 'stat', '-x', ',', '-e', ','.join(names)]
    if shutil.which('perf') is None or subprocess.run(counting + ['true'], capture_output=True).returncode != 0:
        print('calls: perf isn\'t here or may not count: left out')
        return
    seconds = min(options.seconds, 10)
    print(f'system calls for an outgoing packet, {options.rate} come in a second, {seconds} s')
    print('  track    subscribers  packets out  ' + '  '.join(CALLS) + '  others  switches')
    for kind in ('plain', 'layered'):
        for count in (1, 2, 4):
            ssrcs = [f'222222{s:02x}' for s in range(1, count + 1)]
            head = f'publish 1 {kind} 11111111 30' + (' 4' if kind == 'layered' else '')
            serving = Serving([head] + [f'join {s + 1} 1 {ssrcs[s]} 0 1 1' for s in range(count)],
                              ['publisher 1 11111111'] + [f'subscriber {s + 1} {ssrcs[s]}' for s in range(count)])
            taking = receivers(range(1, count + 1), ssrcs)
            watching = subprocess.Popen(counting + ['-p', str(serving.sfu.pid)], stderr=subprocess.PIPE, text=True)
            time.sleep(0.5)
            sender(0, kind, '11111111', options.rate, seconds).wait()
            watching.send_signal(signal.SIGINT)
            counted = [int(row.split(',')[0]) for row in watching.communicate()[1].splitlines() if ',' in row]
            taking.stop()
            serving.end()
            out = sum(row['received'] for row in taking.rows())
            *named, whole, switched = counted
            parts = [*named, whole - sum(named), switched]
            print(f'  {kind:<9}{count:11}  {out:11}  ' + '  '.join(f'{part / out:{max(len(name), 6)}.3f}'
                  for name, part in zip([*CALLS, 'others', 'switches'], parts)), flush=True)


def ports():
    """21 publishers, 42 subscribers and a controller."""
    opening, roles = room_of(TRACKS)
    least = 65
    serving = Serving(opening, roles)
    begin = time.monotonic()
    time.sleep(5)
    rest = processor_seconds(serving.sfu.pid) / (time.monotonic() - begin)
    taking = receivers(range(21, 63), [f'222222{s:02x}' for s in range(1, 43)])
    sending = [sender(track - 1, kind_of(track), f'111111{track:02x}', options.port_rate, 600, answers=1) for track in range(1, 22)]
    while time.monotonic() - begin < least:
        time.sleep(1)
        lost = serving.lost()
    took = time.monotonic() - begin
    cost = processor_seconds(serving.sfu.pid) / took
    for each in sending:
        each.stop()
    time.sleep(1)
    taking.stop()
    rows = taking.rows()
    serving.end()
    for place, row in enumerate(rows, 1):
        sound(row, f'subscriber {place}')
        check(row['first'] == 0 and (row['gaps'] == row['skipped'] == 0 or any(lost)), f'subscriber {place} misses {row["skipped"]} packets')
    # Each track has two subscribers.
    check(sum(lost) * 100 <= sum(row['received'] for row in rows) / 2, f'the system dropped {sum(lost)} packets, since the sessions don\'t keep up')
    print(f'ports: 64 for {took:.1f} s, {rest:.2f} processors while nothing came, {cost:.2f} in all; the system dropped {sum(lost)}; each of 42 received '
          f'{min(row["received"] for row in rows)} packets or more, p50 {milliseconds(rows, "p50"):.2f} ms, p99 {milliseconds(rows, "p99"):.2f} ms, '
          f'worst {milliseconds(rows, "worst"):.2f} ms')


def switches(pid):
    """How often threads of the process gave the processor up or had it taken."""
    count = 0
    for task in Path(f'/proc/{pid}/task').iterdir():
        count += sum(int(row.split()[1]) for row in (task / 'status').read_text().splitlines() if 'ctxt_switches' in row)
    return count


def idle():
    """64 ports at which nothing comes, from when they are quiet."""
    serving = Serving(*room_of(TRACKS))
    time.sleep(5)
    begin, cost, turned = time.monotonic(), processor_seconds(serving.sfu.pid), switches(serving.sfu.pid)
    time.sleep(20)
    took = time.monotonic() - begin
    cost, turned = processor_seconds(serving.sfu.pid) - cost, switches(serving.sfu.pid) - turned
    serving.end()
    print(f'idle: 64 ports for {took:.0f} s, {cost / took:.3f} processors (the goal is 0.17), {turned / took:.0f} switches of threads a second')


def resident():
    """63 subscribers of one layered track, before the first packet and behind 4,000."""
    places = range(1, 64)
    ssrcs = [f'222222{place:02x}' for place in places]
    serving = Serving(['publish 1 layered 11111111 30 4'] + [f'join {place} 1 {ssrc} 0 1 1' for place, ssrc in zip(places, ssrcs)],
                      ['publisher 1 11111111'] + [f'subscriber {place} {ssrc}' for place, ssrc in zip(places, ssrcs)])
    taking = receivers(places, ssrcs)
    before = memory(serving.sfu.pid, 'VmRSS')
    sent = sender(0, 'layered', '11111111', 500, 8).rows()[0]
    time.sleep(0.5)
    behind = memory(serving.sfu.pid, 'VmRSS')
    dropped = [drops(LOCAL) + drops(PEER + place) for place in places]
    taking.stop()
    got = [row['received'] for row in taking.rows()]
    serving.end()
    check(all(sent['sent'] == each + gone for each, gone in zip(got, dropped)) or drops(LOCAL) > 0, f'of {sent["sent"]} packets a subscriber got {min(got)}')
    print(f'memory: 63 subscribers of a layered track, {before / 1000:.1f} MB resident, and {behind / 1000:.1f} MB behind {sent["sent"]} packets, of which each '
          f'got {min(got)} at least')


BURSTS = [32, 64, 80, 88, 92, 96, 104, 128, 160, 192, 256, 384, 512]      # a subscriber's queue holds 512
EACH = 8                                                                # bursts of each length, in a second


def longest_burst(tracks, bursting):
    """The longest burst of which the system drops nothing where each of these publishers sends it."""
    serving = Serving(*room_of(tracks))
    taking = receivers(range(tracks, 3 * tracks), [f'222222{s:02x}' for s in range(1, 2 * tracks + 1)])
    longest, first = 0, 0
    for length in BURSTS:
        sending = [sender(track - 1, 'plain', f'111111{track:02x}', EACH * length, 1, first=first, burst=length) for track in bursting]
        for each in sending:
            each.wait()
        if any(serving.lost()):
            break
        longest, first = length, first + EACH * length
    taking.stop()
    rows = taking.rows()
    serving.end()
    for place, row in enumerate(rows, 1):
        check(row['wrong'] == row['again'] == 0, f'subscriber {place} received packets again, or none of the stream')
    return longest


def burst():
    """Bursts of packets that are sent back to back, as those of a key frame, with the system's own sizes of buffers."""
    room = Path('/proc/sys/net/core/rmem_default').read_text().strip()
    print(f'burst: {EACH} a second of packets of {SIZE} bytes back to back, {room} bytes of buffer; the longest of which the system dropped nothing')
    for tracks in (1, 5, TRACKS):
        plain = list(range(1, tracks + 1, 2))
        lengths = [f'at one publisher\'s {longest_burst(tracks, plain[:1])} packets']
        if len(plain) > 1:
            lengths.append(f'at {len(plain)} publishers\' at once {longest_burst(tracks, plain)}')
        print(f'  {3 * tracks + 1:2} ports: {", ".join(lengths)}', flush=True)


reader = argparse.ArgumentParser(usage=__doc__.replace('%', '%%'))
reader.add_argument('--program')
reader.add_argument('--seconds', type=int, default=30)
reader.add_argument('--rate', type=int, default=10000)
reader.add_argument('--port-rate', type=int, default=100)
reader.add_argument('parts', nargs='*')
options = reader.parse_args()
if any(part not in PARTS for part in options.parts):
    reader.error(f'the parts are {", ".join(PARTS)}')
run = {'plain': lambda: rates('plain'), 'layered': lambda: rates('layered'), 'ports': ports, 'idle': idle, 'memory': resident, 'burst': burst, 'calls': calls}
with prepared(options.program):
    for part in PARTS:
        if part in (options.parts or PARTS):
            run[part]()
            sys.stdout.flush()
print(f'{len(problems)} things are wrong' if problems else 'nothing is wrong')
sys.exit(1 if problems else 0)
