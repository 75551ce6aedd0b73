#!/usr/bin/env python3
"""Runs simulcast.c on this machine's loopback: a publisher of three sizes, and a receiver who says how much it bears, and asks for a packet again and for a
key frame. Each size has numbers of its own; the receiver's go on, whichever size it is sent.

usage: examples/c/simulcast_test.py SIMULCAST..
example: examples/c/simulcast_test.py valgrind -q ./simulcast
"""
import struct, sys, time
from relays import PLI, RTP, main, nack, peer, pli, running

SSRCS, SENT = (0x11111111, 0x22222222, 0x33333333), 0x22222201
REMB = struct.Struct("!BBHII4sI")
FRAME = 18  # the place of the frame number, where the descriptor is the first element of the header extension


class Size:
    """What the publisher sends of one size, each frame in one packet: with its next sequence number, and frame number."""

    def __init__(self, ssrc, number, timestamp, frame):
        self.ssrc, self.number, self.timestamp, self.frame = ssrc, number, timestamp, frame

    def next(self, key):
        head = RTP.pack(0x90, 0xe0, self.number, self.timestamp, self.ssrc)
        frame = struct.pack("!H", self.frame)
        self.number, self.timestamp, self.frame = self.number + 1, self.timestamp + 3600, (self.frame + 1) % 65536
        if key:
            return head + bytes.fromhex("bede000348c0") + frame + bytes.fromhex("80003a4101000000183000")
        return head + bytes.fromhex("bede000142c1") + frame + bytes.fromhex("103000")


def remb(kbps):
    """A REMB of so many kbit/s: in units of 1,000 bits."""
    mantissa, exponent = kbps * 1000, 0
    while mantissa >= 1 << 18:
        mantissa, exponent = mantissa >> 1, exponent + 1
    return REMB.pack(0x8f, 206, 4, 9, 0, b"REMB", exponent << 18 | mantissa)


def test(command):
    publisher, receiver = peer(), peer()
    sizes = Size(SSRCS[0], 7, 90000, 7), Size(SSRCS[1], 500, 5000, 100), Size(SSRCS[2], 60000, 64536, 65534)
    began = time.time()
    with running(command, "4", ",".join(f"{ssrc:x}/{kbps}" for ssrc, kbps in zip(SSRCS, (100, 400, 1200))), f"127.0.0.1:{receiver.getsockname()[1]}") as relay:

        def asked(ssrc, say):
            """Says something five times a second until the publisher is asked for a key frame of a size, and of no other one."""
            publisher.settimeout(0.2)
            for _ in range(100):
                receiver.sendto(say, relay)
                try:
                    got = publisher.recv(2048)
                    assert got == pli(1, ssrc), got.hex()
                    return
                except OSError:
                    pass
            sys.exit(f"nobody asked for a key frame of {ssrc:x}")

        def answer(size):
            """Sends the key frame that was asked for, and waits until the publisher isn't asked any more."""
            publisher.sendto(size.next(True), relay)
            time.sleep(0.6)
            publisher.setblocking(False)
            try:
                while publisher.recv(2048):
                    pass
            except BlockingIOError:
                pass

        def received(number, timestamp, frame):
            """The next packet that the receiver gets."""
            got = receiver.recv(2048)
            assert RTP.unpack(got[:12]) == (0x90, 0xe0, number, timestamp, SENT), got.hex()
            assert struct.unpack("!H", got[FRAME:FRAME + 2]) == (frame,), got.hex()
            return got

        receiver.settimeout(0.2)
        first = [size.next(True) for size in sizes]
        for _ in range(100):  # until the relay listens
            for packet in first:
                publisher.sendto(packet, relay)
            try:
                received(0, 90000, 7)
                break
            except OSError:
                pass
        receiver.settimeout(20)
        answer(sizes[2])  # no size lacks a key frame now
        for size in sizes:
            publisher.sendto(size.next(False), relay)
        second = received(1, 93600, 8)
        asked(SSRCS[2], remb(2000))
        assert time.time() >= began + 2, "a larger size was chosen at once"
        publisher.sendto(sizes[0].next(False), relay)
        received(2, 97200, 9)
        answer(sizes[2])
        publisher.sendto(sizes[2].next(False), relay)
        received(3, 100200, 10)  # where the size changes, 3,000 later, with the next frame number
        received(4, 103800, 11)
        receiver.sendto(nack(9, SENT, 1), relay)
        assert receiver.recv(2048) == second
        asked(SSRCS[2], pli(9, SENT))
        answer(sizes[2])
        received(5, 107400, 12)
        asked(SSRCS[0], remb(400))  # the middle size needs more
        answer(sizes[0])
        publisher.sendto(sizes[0].next(False), relay)
        received(6, 110400, 13)
        received(7, 114000, 14)


if __name__ == "__main__":
    main(test, sys.argv[1:])
