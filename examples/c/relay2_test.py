#!/usr/bin/env python3
"""Runs relay2.c on this machine's loopback: ten viewers, of which one leaves and comes back and one is started again, and a publisher that is started
again twice, first with another SSRC and then with the same and lower numbers. 5 % of all datagrams are lost. Each stream that a viewer was sent is checked:
consecutive numbers over each restart, whole frames, and by `sfu check` where the program is built. At most a minute.

usage: examples/c/relay2_test.py RELAY2..
example: examples/c/relay2_test.py valgrind -q ./relay2
"""
import random, struct, subprocess, sys, time
from pathlib import Path
from relays import NACK, PLI, RTP, main, nack, named, peer, pli, running

TOP = Path(__file__).resolve().parents[2]
sys.path.append(str(TOP / "tools"))
import layered_script  # the packets of a stream of two spatial and two temporal layers

MEDIA, RESENT = 96, 97
EACH, MOST = 0.02, 60  # seconds between two temporal units of the publisher, and of the whole test
chance = random.Random(1)
program = TOP / "crates/sfu_program/out/sfu_program"


class Peer:
    """Loses one datagram in twenty, both ways."""
    def __init__(self, address):
        self.port, self.address = peer(), address
        self.port.setblocking(False)

    def send(self, datagram):
        if chance.random() >= 0.05:
            self.port.sendto(datagram, self.address)

    def received(self):
        while True:
            try:
                datagram = self.port.recv(2048)
            except BlockingIOError:
                return
            if chance.random() >= 0.05:
                yield datagram


class Publisher(Peer):
    """One run of a publisher. Each packet ends with the run's number."""
    def __init__(self, address, run, ssrc, number):
        super().__init__(address)
        self.run, self.ssrc, self.number = run, ssrc, number
        self.unit = self.units = self.asked = 0
        self.sent = {}

    def turn(self):
        for datagram in self.received():
            if datagram[1] == NACK:
                for number in named(datagram):
                    self.send(self.sent[number])
            elif datagram[1] == PLI:
                self.asked += 1
                self.unit += -self.unit % 50  # the next unit has a key frame
        for spatial in (0, 1):
            template, count = layered_script.shape(self.unit, spatial)
            for place in range(count):
                made = bytearray(layered_script.packet(self.number, self.unit, spatial, template, place == 0, place == count - 1))
                made[8:12], made[-1] = self.ssrc.to_bytes(4, "big"), self.run
                self.sent[self.number] = bytes(made)
                self.send(self.sent[self.number])
                self.number = (self.number + 1) % 65536
        self.unit += 1
        self.units += 1


class Viewer(Peer):
    def __init__(self, address, place):
        super().__init__(address)
        self.wish, self.ssrc = (place % 2, place // 2 % 2), 0x22220000 + 256 * place
        self.streams, self.resent = [], set()
        self.join()

    def join(self):
        """Begins a stream: packets by their numbers without the wrap, and the timestamps of each run."""
        self.ssrc += 1
        self.got, self.units, self.asked, self.here, self.held_back = {}, {}, set(), True, None
        self.streams.append(self.got)

    def turn(self):
        for datagram in self.received():
            self.last = time.monotonic()
            if self.here and len(datagram) > 12:
                self.take(datagram)
        if not self.here:
            self.send(b"leave")
        elif not self.got:
            self.send(b"join %x %d %d" % (self.ssrc, *self.wish))
        elif missing := [number % 65536 for number in self.missing()[:50]]:
            self.asked.update(missing)
            self.send(nack(9, self.ssrc, *missing))

    def take(self, datagram):
        first, second, number, timestamp, ssrc = RTP.unpack(datagram[:12])
        if second & 127 == RESENT:  # RFC 4588: the number is in the payload's first two bytes
            assert (ssrc, number) not in self.resent, "a number of an RTX stream twice"
            self.resent.add((ssrc, number))
            at = 16 + 4 * int.from_bytes(datagram[14:16], "big")
            number, = struct.unpack_from("!H", datagram, at)
            if number not in self.asked:
                return  # of the stream before
            datagram = RTP.pack(first, second & 128 | MEDIA, number, timestamp, self.ssrc) + datagram[12:at] + datagram[at + 2:]
        elif ssrc != self.ssrc:
            return
        newest = max(self.got, default=65536 + number)
        number = newest + (number - newest + 32768) % 65536 - 32768
        assert self.got.get(number, datagram) == datagram, f"another packet {number} again"
        if self.is_held_back(number):
            return
        self.got[number] = datagram
        self.units.setdefault(datagram[-1], set()).add(timestamp)

    def missing(self):
        """What to ask for: each gap, and what is before the first packet, until that one begins a key frame."""
        first = min(self.got)
        gaps = [number for number in range(first, max(self.got)) if number not in self.got and not self.is_held_back(number)]
        return gaps if begins_key_frame(self.got[first]) else [first - 1] + gaps

    def lose_one(self):
        """Takes the newest packet for lost, and asks for it only when packets of the next run have come."""
        self.held_back = max(self.got), max(self.units)
        del self.got[max(self.got)]

    def is_held_back(self, number):
        return self.held_back == (number, max(self.units, default=0))

    def check(self, got):
        """All of a stream, or where the viewer left before its NACKs were answered what is before the first gap."""
        first, frame, packets = min(got), None, []
        while first + len(packets) in got:
            packets.append(got[first + len(packets)])
        assert begins_key_frame(packets[0]), "the first packet begins no key frame"
        for packet in packets:  # whole frames: from a first packet to a last one, all with one number
            flags, number = descriptor(packet)[0], descriptor(packet)[1:3]
            assert number == frame if frame else flags & 0x80, f"packet {RTP.unpack(packet[:12])[2]} doesn't follow a whole frame"
            frame = None if flags & 0x40 else number
        if program.exists():
            lines = "".join(packet.hex() + "\n" for packet in packets)
            verdict = subprocess.run([program, "check", "4"], input=lines, stdout=subprocess.PIPE, text=True).stdout
            assert verdict.startswith(f"ok {len(packets)} packets"), verdict


def descriptor(packet):
    """The dependency descriptor in header extension element 4, in the one-byte or the two-byte form (RFC 8285)."""
    if packet[12] == 0xBE:
        return packet[17:18 + (packet[16] & 15)]
    return packet[18:18 + packet[17]]


def begins_key_frame(packet):
    """Whether the descriptor has a structure."""
    return descriptor(packet)[3:] >= b"\x80"


def test(command):
    begun = time.monotonic()
    with running(command, "4", str(RESENT)) as address:
        viewers = [Viewer(address, place) for place in range(10)]
        publisher = None

        def go_on(peers, done, what):
            """Until that is so: a unit of the publisher's, and a turn of each viewer."""
            due = time.monotonic()
            while not done():
                if time.monotonic() > begun + MOST:
                    state = [(one.here, {run: len(units) for run, units in one.units.items()}, len(one.missing()) if one.got else None) for one in viewers]
                    sys.exit(f"not in {MOST} seconds: {what}; viewers: {state}")
                time.sleep(max(0, due - time.monotonic()))
                due += EACH
                for one in peers:
                    one.turn()

        def seen(run, units, who=viewers):
            """Whether each viewer has so many units of this run, where its temporal wish allows every other one alone half as many."""
            return all(len(one.units.get(run, ())) >= units * (1 + one.wish[1]) // 2 for one in who if one.here)

        leaves, restarts = viewers[9], viewers[8]
        for run, ssrc, number in ((1, 0x11111111, 65400), (2, 0x1234567, 30000), (3, 0x1234567, 10000)):
            publisher = Publisher(address, run, ssrc, number)
            peers = [publisher, *viewers]
            go_on(peers, lambda: publisher.units >= 50 and seen(run, 40), f"packets of run {run}")
            if run == 1:
                leaves.here = False
                go_on(peers, lambda: time.monotonic() > leaves.last + 0.3, "nothing more after leave")
            elif run == 2:
                leaves.join()    # with another SSRC, from the same port
                restarts.join()  # and without a word before
                go_on(peers, lambda: seen(run, 40), "packets after join")
            else:
                before = publisher.asked
                for _ in range(3):
                    viewers[0].send(pli(9, viewers[0].ssrc))
                go_on(peers, lambda: publisher.asked > before, "a PLI")
            if run < 3:
                for one in viewers:
                    if one.here:
                        one.lose_one()
        go_on(viewers, lambda: not any(one.missing() for one in viewers), "every retransmission")
    for one in viewers:
        for got in one.streams:
            one.check(got)
    assert [len(one.streams) for one in viewers] == [1] * 8 + [2] * 2


if __name__ == "__main__":
    main(test, sys.argv[1:])
