#!/usr/bin/env python3
"""Tests `serve` over real sockets of 127.0.0.1: losses that NACKs make good, hostile peers, and what a control port replies. It ends with 1 where
something was lost that no system buffer dropped, came changed or out of order, got another reply than it should, or where a session ended early. The
times that it prints depend on whatever else the machine does. It is no part of the gate. Needs gcc; where no program is named it is built first.

usage: tests/system/serve.py [--program FILE] [--seconds N] [--rate N] [PART...]      20 seconds, 10,000 packets a second and all parts if left out

  resend    a publisher that loses each 97th packet, and subscribers that lose each 100th: both are asked for and sent again
  hostile   a track before and while others send garbage: other addresses to each port, a publisher and a controller that send random bytes, a
            subscriber that sends RTCP that doesn't read or asks for what never was, peers that aren't there or go away
  control   what a control port replies
  flood     a track before and while other addresses send 200,000 datagrams a second to its publisher's port

example: tests/system/serve.py --seconds 5 control
"""
import argparse
import socket
import sys
import time
from pathlib import Path

sys.path.insert(0, str(Path(__file__).resolve().parent.parent / 'peers'))
from common import LOCAL, PEER, Serving, check, drops, prepared, problems, processor_seconds, receivers, sender, sound, tool, waits

PARTS = {}


def part(function):
    PARTS[function.__name__] = function
    return function


@part
def resend():
    """Losses on both sides, made good by NACKs; and picture loss indications."""
    for kind, form in (('plain', 'plain 11111111 100'), ('layered', 'layered 11111111 100 4')):
        ssrcs = ['22222201', '22222202']
        serving = Serving([f'publish 1 {form}', 'join 1 1 22222201 0 1 1', 'join 2 1 22222202 65000 1 1'],
                          ['publisher 1 11111111', 'subscriber 1 22222201', 'subscriber 2 22222202'])
        taking = receivers([1, 2], ssrcs, nacked=100, plis=200)
        rate, seconds = min(options.rate, 5000), min(options.seconds, 10)
        sent = sender(0, kind, '11111111', rate, seconds, answers=1, left_out=97).rows()[0]
        time.sleep(0.5)
        lost = [drops(LOCAL), drops(PEER + 1), drops(PEER + 2)]
        taking.stop()
        rows = taking.rows()
        serving.end()
        print(f'resend, {kind}: {sent["sent"]} packets, {sent["sent"] // 97} of them left out at first; the publisher was asked by {sent["nacks"]} NACKs '
              f'for {sent["asked"]} packets, and for a key frame {sent["plis"]} times')
        check(sent['unread'] == 0, f'{sent["unread"]} datagrams to the publisher are no NACK and no PLI')
        check(sent['plis'] <= 2 * seconds + 2, 'key frames were asked for more than twice a second')
        check(kind == 'plain' or sent['plis'] > seconds, 'no key frame was asked for although subscribers do so 5 times a second')
        for place, row in enumerate(rows, 1):
            sound(row, f'subscriber {place}')
            print(f'  subscriber {place}: received {row["received"]}, asked for {row["nacked"]} again, got {row["resent"]}, of which {row["changed"]} '
                  f'changed; the system dropped {lost[0]} and {lost[place]}')
            check(row['changed'] == 0, 'a resent packet has other bytes')
            if not any(lost):
                check(row['received'] == sent['sent'], f'{sent["sent"] - row["received"]} packets never came')
                check(row['resent'] == row['nacked'] > 0, f'{row["nacked"] - row["resent"]} packets that were asked for never came')


HOSTILE = {                                   # role, and its opening line
    'publisher 1 11111111': 'publish 1 plain 11111111 30',
    'subscriber 1 22222201': 'join 1 1 22222201 0 1 1',
    'subscriber 2 22222202': 'join 2 1 22222202 0 1 1',
    'control': None,
    'publisher 2 11111112': 'publish 2 plain 11111112 100',          # sends garbage
    'subscriber 3 22222203': 'join 3 2 22222203 0 1 1',              # of the garbage
    'subscriber 4 22222204': 'join 4 1 22222204 0 1 1',              # sends garbage
    'subscriber 5 22222205': 'join 5 1 22222205 0 1 1',              # isn't there
    'publisher 3 11111113': 'publish 3 layered 11111113 100 4',      # goes away
    'subscriber 6 22222206': 'join 6 1 22222206 0 1 1',              # goes away
    'publisher 4 11111114': 'publish 4 layered 11111114 100 4',      # sends garbage
}


@part
def hostile():
    """A track before and while others send garbage or go away."""
    roles = list(HOSTILE) + ['control']
    rate, seconds = min(options.rate, 5000), min(options.seconds, 20)
    lines = [line for line in HOSTILE.values() if line]
    opening = [line for word in ('publish', 'join') for line in lines if line.startswith(word)]
    print(f'hostile: a plain track, {rate} packets a second, {seconds} s, two subscribers that behave; of each figure the worst of them')
    print('                      dropped    lost    ms from send to receipt      processor')
    print('              sent  by system  inside     p50    p99  p99.9   worst')
    serving = Serving(opening, roles)
    dialled = socket.socket(socket.AF_INET, socket.SOCK_DGRAM)
    dialled.bind(('127.0.0.1', PEER + 3))
    for name in ('calm', 'hostile'):
        taking = receivers([1, 2], ['22222201', '22222202'])
        begin, cost = time.monotonic(), processor_seconds(serving.sfu.pid)
        before = [drops(LOCAL + place) for place in range(len(roles))]
        noises = []
        if name == 'hostile':
            all_ports = [LOCAL + place for place in range(len(roles))]
            noises = [
                ('other addresses', tool('noise', 0, 'forged', '11111111', 1000, seconds, *all_ports)),
                ('other addresses', tool('noise', 0, 'random', '0', 10000, seconds, *all_ports)),
                ('publisher 2', tool('noise', PEER + 4, 'random', '0', 10000, seconds, LOCAL + 4)),
                ('publisher 4', tool('noise', PEER + 10, 'mutated', '11111114', 2000, seconds, LOCAL + 10)),
                ('subscriber 4', tool('noise', PEER + 6, 'rtcp', '22222204', 1000, seconds, LOCAL + 6)),
                ('controller 2', tool('noise', PEER + 11, 'lines', '0', 500, seconds, LOCAL + 11)),
            ]
            leaving = [sender(8, 'layered', '11111113', 1000, seconds), receivers([9], ['22222206'])]
        going = sender(0, 'plain', '11111111', rate, seconds, first=0 if name == 'calm' else rate * seconds)
        if name == 'hostile':
            time.sleep(seconds / 2)
            for each in leaving:
                each.stop()
            dialled.settimeout(2)
            dialled.sendto(b'key 3', ('127.0.0.1', LOCAL + 3))
            try:
                answer = dialled.recv(2048)
            except TimeoutError:
                answer = b'nothing'
            check(answer in (b'key no', b'key yes'), f'the control port answered {answer!r}')
        sent = going.rows()[0]
        took, cost = time.monotonic() - begin, processor_seconds(serving.sfu.pid) - cost
        time.sleep(0.5)
        at = drops(LOCAL) - before[0]
        behind = [drops(PEER + 1), drops(PEER + 2)]
        taking.stop()
        rows = taking.rows()
        # The system drops datagrams of other addresses too, so not all that it dropped at the port need be the publisher's.
        gone = [sent['sent'] - row['received'] - late for row, late in zip(rows, behind)]
        worst = max(max(0, lost - at) for lost in gone)
        for place, row in enumerate(rows, 1):
            sound(row, f'subscriber {place}')
        check(worst == 0 and min(gone) >= 0, f'{worst} packets were lost inside, {gone} in all')
        print(f'  {name:<8}{sent["sent"]:8} {at + max(behind):9} {worst:8}  {waits(rows)}    {cost / took:5.2f} processors')
        for who, noise in noises:
            row = noise.rows()[0]
            print(f'    {who}: {row["sent"]} datagrams, {row["answers"]} answered, {row["fault_lines"]} of them by a fault line')
            check(who != 'other addresses' or row['answers'] == 0, 'other addresses got replies')
            check(who != 'controller 2' or row['answers'] == row['fault_lines'] > 0.9 * row['sent'], 'the controller was answered otherwise')
    serving.end()


@part
def control():
    """Lines to a control port and what they are answered: before any packet, and after a round of 152 packets of frames 0 to 99."""
    first = [
        ('key 1', 'key yes'), ('why 1 0', 'refused ahead none'), ('join 9 1 22222209 7 0 0', 'ok'), ('join 9 1 22222209 7 0 0', 'refused numberused 9'),
        ('aim 9 1 0', 'ok'), ('publish 2 plain 33333333 100', 'ok'), ('publish 2 plain 33333333 100', 'refused numberused 2'),
        ('publish 3 layered 33333333 100 15', 'refused badextensionid'), ('join 10 5 22222210 0 0 0', 'refused notrack'),
        ('join 11 2 22222211 0 0 0', 'ok'), ('why 11 0', 'refused ahead none'), ('plead 11', 'refused plain'), ('key 2', 'key no'),
        ('plead 1', 'ok'), ('plead 7', 'refused nosubscriber'), ('key 7', 'refused notrack'), ('join 10 1 22222210 0 0 0', 'refused numberused 11'),
        ('take 1', 'fault line'), ('resend 1 0', 'fault line'), ('tick 1 5', 'fault line'), ('missing 1', 'fault line'),
        ('packet 1 0 8060', 'fault line'), ('key 1\n', 'fault line'), ('key 01', 'fault line'), ('', 'fault line'), ('# key 1', 'fault line'),
    ]
    second = [
        ('why 1 0', 'passed'), ('why 1 99', 'passed'), ('why 1 100', 'refused ahead 99'), ('why 9 1', 'passed'), ('why 9 2', 'notoftarget 1'),
        ('why 9 3', 'notoftarget 1'), ('why 9 4', 'passed'), ('key 1', 'key no'), ('plead 1', 'ok'), ('key 1', 'key yes'), ('leave 9', 'ok'),
        ('leave 9', 'refused nosubscriber'), ('why 9 4', 'refused nosubscriber'), ('unpublish 2', 'ok'), ('unpublish 2', 'refused notrack'),
    ]
    serving = Serving(['publish 1 layered 11111111 100 4', 'join 1 1 22222201 0 1 1'],
                      ['publisher 1 11111111', 'subscriber 1 22222201', 'subscriber 9 22222209', 'control'])
    dialled = socket.socket(socket.AF_INET, socket.SOCK_DGRAM)
    dialled.bind(('127.0.0.1', PEER + 3))
    dialled.settimeout(2)
    taking = receivers([1, 2], ['22222201', '22222209'])
    for part in (first, second):
        for line, due in part:
            dialled.sendto(line.encode(), ('127.0.0.1', LOCAL + 3))
            try:
                answer = dialled.recv(2048).decode()
            except TimeoutError:
                answer = None
            check(answer == due, f'{line!r} is answered {answer!r}, not {due!r}')
        if part is first:
            sender(0, 'layered', '11111111', 152, 1).wait()
            time.sleep(0.2)
    taking.stop()
    counts = [row['received'] for row in taking.rows()]
    check(counts == [152, 77], f'the subscribers received {counts} packets')
    serving.end()
    print(f'control: {len(first) + len(second)} lines; the subscriber that a line joined received {counts[1]} packets, the other {counts[0]}')


@part
def flood():
    """A publisher, and other addresses that send to its port 20 times as much."""
    seconds, parts = min(options.seconds, 10), 4
    print(f'flood: a plain track, {options.rate} packets a second, {seconds} s, two subscribers; of each figure the worst of them')
    serving = Serving(['publish 1 plain 11111111 30', 'join 1 1 22222201 0 1 1', 'join 2 1 22222202 0 1 1'],
                      ['publisher 1 11111111', 'subscriber 1 22222201', 'subscriber 2 22222202'])
    for name in ('calm', 'flood'):
        taking = receivers([1, 2], ['22222201', '22222202'])
        before, begin, cost = drops(LOCAL), time.monotonic(), processor_seconds(serving.sfu.pid)
        noises = []
        if name == 'flood':
            kinds = ['forged'] + ['random'] * (parts - 1)
            noises = [tool('noise', 0, kind, '11111111', 200000 // parts, seconds, LOCAL) for kind in kinds]
        sent = sender(0, 'plain', '11111111', options.rate, seconds, first=0 if name == 'calm' else options.rate * seconds).rows()[0]
        took, cost = time.monotonic() - begin, processor_seconds(serving.sfu.pid) - cost
        time.sleep(0.5)
        dropped, behind = drops(LOCAL) - before, max(drops(PEER + place) for place in (1, 2))
        taking.stop()
        rows = taking.rows()
        for place, row in enumerate(rows, 1):
            sound(row, f'subscriber {place}')
        gone = max(sent['sent'] - row['received'] for row in rows)
        check(gone <= dropped + behind, f'{gone} packets of the publisher are lost, and the system dropped {dropped} at its port and {behind} behind')
        print(f'  {name:<10}{sent["sent"]:8} sent, {gone} lost, {dropped + behind} dropped by the system; ms {waits(rows)}; {cost / took:.2f} processors')
        for noise in noises:
            row = noise.rows()[0]
            check(row['answers'] == 0, 'other addresses got replies')
            print(f'    other addresses: {row["sent"] / row["seconds"]:.0f} datagrams a second')
    serving.end()


reader = argparse.ArgumentParser(usage=__doc__.replace('%', '%%'))
reader.add_argument('--program')
reader.add_argument('--seconds', type=int, default=20)
reader.add_argument('--rate', type=int, default=10000)
reader.add_argument('parts', nargs='*')
options = reader.parse_args()
if any(part not in PARTS for part in options.parts):
    reader.error(f'the parts are {", ".join(PARTS)}')
with prepared(options.program):
    for name, test in PARTS.items():
        if name in (options.parts or PARTS):
            test()
            sys.stdout.flush()
print(f'{len(problems)} things are wrong' if problems else 'nothing is wrong')
sys.exit(1 if problems else 0)
