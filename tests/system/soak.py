#!/usr/bin/env python3
"""Runs `serve` with 64 ports for a long time: 21 tracks, plain and layered, two subscribers each, and a controller that makes random wishes. Publishers
and subscribers lose each 100th packet and ask for it again, publishers go away and come back where they were or further on in their stream, and a few
subscribers' ports are closed now and then, so that the system refuses what is sent there. At the end the sessions must all be there, the memory of
`serve` must not have grown by 1 % since the second minute, a strict receiver must accept what each layered subscriber got, and the others must
have got numbers without a gap. Prints a row of a table each minute, and ends with 1 where something is wrong. It is no part of the gate. Needs gcc, and
room on the disk for what layered subscribers get, 1.3 GB in 30 minutes; where no program is named it is built first.

usage: tests/system/soak.py [--program FILE] [--minutes N] [--rate N] [--seed N] [--folder FOLDER]

30 minutes, 100 packets of 200 bytes a second for each track, the seed 1, and a folder of the system's choice for what was received if left out

example: tests/system/soak.py --minutes 2
"""
import argparse
import random
import shutil
import socket
import subprocess
import sys
import tempfile
import time
from collections import Counter
from pathlib import Path

sys.path.insert(0, str(Path(__file__).resolve().parent.parent / 'peers'))
import common
from common import (
    LOCAL, PEER, TRACKS, Serving, check, drops, kind_of, memory, milliseconds, prepared, problems, processor_seconds, receivers, room_of, sender, sound,
)

BYTES = 200              # of a packet
LOST = 100               # each so many packets are lost on their way, and asked for again
ROUND = 152              # packets between two key units of a layered track (packets.h)
REFUSING = [1, 3, 6, 8]  # subscribers whose ports are closed now and then, two of plain tracks and two of layered ones
STEADY = [s for s in range(1, 2 * TRACKS + 1) if s not in REFUSING]
APART = 10               # seconds between two looks at the memory
SETTLED = 120            # seconds after which it may not grow


def track_of(subscriber):
    return (subscriber + 1) // 2


def place_of(subscriber):
    return TRACKS + subscriber - 1


class Publisher:
    """A sender that goes away and comes back."""

    def __init__(self, track):
        self.track, self.place, self.running = track, 0, None
        self.counts = Counter()
        self.come()

    def come(self):
        self.running = sender(self.track - 1, kind_of(self.track), f'111111{self.track:02x}', options.rate, 10**6, first=self.place, answers=1,
                              left_out=LOST, size=BYTES)

    def go(self):
        self.running.stop()
        for row in self.running.rows():
            self.place += row['sent']
            self.counts.update(row)
        self.running = None

    def go_on(self, packets):
        """Comes back so many packets, or up to a key unit behind them, further on."""
        self.place += packets
        if packets and kind_of(self.track) == 'layered':
            self.place = (self.place + ROUND - 1) // ROUND * ROUND
        self.come()


class Refusing:
    """Subscribers whose ports are open for a time, and closed for a time."""

    def __init__(self):
        self.running, self.closed, self.received = None, 0, 0
        self.open()

    def open(self):
        self.running = receivers([place_of(s) for s in REFUSING], [f'222222{s:02x}' for s in REFUSING])

    def close(self):
        self.running.stop()
        for subscriber, row in zip(REFUSING, self.running.rows()):
            if row['received'] > 0:
                well_received(subscriber, row)
            self.received += row['received']
        self.closed += 1
        self.running = None


def well_received(subscriber, row):
    name = f'subscriber {subscriber}'
    sound(row, name)
    check(row['gaps'] == 0 or drops_behind[subscriber] > 0, f'{name} misses {row["gaps"]} numbers')


class Controller:
    """Random wishes, pleas and questions, each once the last one was answered."""

    def __init__(self, chance):
        self.chance, self.answers = chance, Counter()
        self.socket = socket.socket(socket.AF_INET, socket.SOCK_DGRAM)
        self.socket.bind(('127.0.0.1', PEER + 3 * TRACKS))
        self.socket.settimeout(2)

    def ask(self):
        track = 2 * self.chance.randint(1, TRACKS // 2)
        subscriber = self.chance.choice([2 * track - 1, 2 * track])
        line, words = self.chance.choice([
            (f'aim {subscriber} {self.chance.randint(0, 1)} {self.chance.randint(0, 1)}', ['ok']),
            (f'aim {subscriber} {self.chance.randint(0, 1)} {self.chance.randint(0, 1)}', ['ok']),
            (f'plead {subscriber}', ['ok']),
            (f'key {track}', ['key']),
            (f'why {subscriber} {self.chance.randint(0, 5000)}',
             ['passed', 'notoftarget', 'behind', 'reference', 'full', 'link', 'unopened', 'hole', 'refused']),
        ])
        self.socket.sendto(line.encode(), ('127.0.0.1', LOCAL + 3 * TRACKS))
        try:
            answer = self.socket.recv(2048).decode()
        except TimeoutError:
            answer = 'nothing'
        self.answers[line.split()[0]] += 1
        check(answer.split()[0] in words, f'{line!r} is answered {answer!r}')


class Watch:
    """What the process takes, each APART seconds."""

    def __init__(self, serving, folder):
        self.serving, self.folder, self.begin = serving, folder, time.monotonic()
        self.cost, self.looked, self.sizes = processor_seconds(serving.sfu.pid), self.begin, []
        print('  minutes  threads  memory kB  of it more  processors  dropped by the system  away  closed  lines  on disk MB')

    def look(self, publishers, refusing, controller):
        pid, now = self.serving.sfu.pid, time.monotonic()
        alive = self.serving.sfu.threads()
        check(alive == self.serving.threads, f'{alive} of {self.serving.threads} threads are left')
        if alive == 0:
            raise SystemExit('soak: serve has ended')
        size, cost = memory(pid, 'VmRSS'), processor_seconds(pid)
        for subscriber in STEADY:
            drops_behind[subscriber] = drops(PEER + place_of(subscriber)) or 0
        settled = [kept for at, kept in self.sizes if at >= SETTLED]
        more = f'{100 * (size / settled[0] - 1):+.2f} %' if settled else ''
        on_disk = sum(file.stat().st_size for file in Path(self.folder).iterdir()) / 1e6
        self.sizes.append((now - self.begin, size))
        if len(self.sizes) % 6 == 1 or options.minutes < 5:
            print(f'  {(now - self.begin) / 60:7.1f}  {alive:7}  {size:9}  {more:>10}  {(cost - self.cost) / (now - self.looked):10.2f}  '
                  f'{sum(self.serving.lost()):21}  {sum(p.running is None for p in publishers):4}  {refusing.closed:6}  {controller.answers.total():5}  '
                  f'{on_disk:10.0f}', flush=True)
            self.cost, self.looked = cost, now
        if shutil.disk_usage(self.folder).free < 2 * 10**9:
            raise SystemExit('soak: the disk is nearly full')

    def judge(self):
        settled = [size for at, size in self.sizes if at >= SETTLED]
        if len(settled) < 2:
            print('  too short to say whether memory grows')
            return
        grown = max(settled) / settled[0] - 1
        print(f'  memory: {settled[0]} kB after two minutes, at most {max(settled)} kB later')
        check(grown < 0.01, f'memory grew by {100 * grown:.2f} %')


def play(serving, folder):
    """All that happens, by chance, until the time is over."""
    chance = random.Random(options.seed)
    steady = receivers([place_of(s) for s in STEADY], [f'222222{s:02x}' for s in STEADY], nacked=LOST, plis=5000, dump=f'{folder}/')
    refusing = Refusing()
    publishers = [Publisher(track) for track in range(1, TRACKS + 1)]
    controller, watch = Controller(chance), Watch(serving, folder)
    begin = time.monotonic()
    leave, close, look, away = begin + 5, begin + 7, begin, []
    while (now := time.monotonic()) < begin + 60 * options.minutes:
        if now >= leave:
            publisher = chance.choice([p for p in publishers if p.running is not None])
            publisher.go()
            away.append((now + chance.uniform(1, 15), publisher, chance.choice([0, 0, 5, 300, 3000])))
            leave = now + chance.uniform(5, 15)
        for back in [back for back in away if now >= back[0]]:
            away.remove(back)
            back[1].go_on(back[2])
        if now >= close:
            refusing.open() if refusing.running is None else refusing.close()
            close = now + (chance.uniform(2, 6) if refusing.running is None else chance.uniform(15, 30))
        if now >= look:
            watch.look(publishers, refusing, controller)
            look += APART
        controller.ask()
        time.sleep(0.1)
    watch.look(publishers, refusing, controller)
    for publisher in publishers:
        if publisher.running is not None:
            publisher.go()
    time.sleep(1)
    if refusing.running is not None:
        refusing.close()
    steady.stop()
    watch.judge()
    return publishers, refusing, controller, steady.rows()


def please(subscriber, row, folder):
    """Whether a strict receiver accepts what a layered subscriber got: returns the frames."""
    with open(f'{folder}/{PEER + place_of(subscriber)}') as packets:
        verdict = subprocess.run([common.program, 'check', '4'], stdin=packets, capture_output=True, text=True).stdout.strip()
    check(verdict.startswith(f'ok {row["received"]} packets '), f'a strict receiver of the {row["received"]} packets of {subscriber} says {verdict!r}')
    return int(verdict.split()[3]) if verdict.startswith('ok ') else 0


def soak(folder):
    serving = Serving(*room_of(TRACKS, hold=300))
    publishers, refusing, controller, rows = play(serving, folder)
    lost = serving.lost()
    serving.end()
    frames = Counter()
    for subscriber, row in zip(STEADY, rows):
        well_received(subscriber, row)
        check(row['changed'] == 0, f'subscriber {subscriber} got {row["changed"]} packets with other bytes at the second time')
        late = row['nacked'] - row['resent']
        check(late <= 2 + lost[place_of(subscriber)], f'subscriber {subscriber} asked for {late} packets that never came again')
        if kind_of(track_of(subscriber)) == 'layered':
            frames[subscriber] = please(subscriber, row, folder)
    counts = sum((publisher.counts for publisher in publishers), Counter())
    print(f'  publishers: {counts["sent"]} packets, {counts["asked"]} asked for again and {counts["resent"]} sent again, {counts["plis"]} key frames asked '
          f'for, {counts["unread"]} other datagrams')
    check(counts['unread'] == 0, f'{counts["unread"]} datagrams to publishers are no NACK and no PLI')
    for kind in ('plain', 'layered'):
        some = [row for subscriber, row in zip(STEADY, rows) if kind_of(track_of(subscriber)) == kind]
        print(f'  {len(some)} {kind} subscribers: {min(row["received"] for row in some)} to {max(row["received"] for row in some)} packets, '
              f'{sum(row["resent"] for row in some)} of {sum(row["nacked"] for row in some)} had again; worst p50 {milliseconds(some, "p50"):.2f} ms, '
              f'p99 {milliseconds(some, "p99"):.2f} ms')
    print(f'  a strict receiver was fed {sum(frames.values())} frames of {len(frames)} subscribers')
    print(f'  ports closed {refusing.closed} times, {refusing.received} packets received between; '
          f'lines: {", ".join(f"{count} {word}" for word, count in sorted(controller.answers.items()))}; the system dropped {sum(lost)}')


reader = argparse.ArgumentParser(usage=__doc__.replace('%', '%%'))
reader.add_argument('--program')
reader.add_argument('--minutes', type=float, default=30)
reader.add_argument('--rate', type=int, default=100)
reader.add_argument('--seed', type=int, default=1)
reader.add_argument('--folder')
options = reader.parse_args()
drops_behind = Counter()     # at each subscriber's own port
with prepared(options.program), tempfile.TemporaryDirectory(dir=options.folder) as room:
    needed = len(STEADY) * options.rate * 60 * options.minutes * (2 * BYTES + 1)
    if shutil.disk_usage(room).free < needed + 3 * 10**9:
        sys.exit(f'soak: the disk of {room} has no space for {needed / 1e9:.1f} GB')
    print(f'soak: 64 ports, {TRACKS} tracks of {options.rate} packets of {BYTES} bytes a second, {options.minutes:g} minutes, seed {options.seed}')
    soak(room)
print(f'{len(problems)} things are wrong' if problems else 'nothing is wrong')
sys.exit(1 if problems else 0)
