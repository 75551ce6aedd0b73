#!/usr/bin/env python3
"""Runs relay.c on this machine's loopback: a publisher whose packet 2 gets lost, and a subscriber who asks for one again and for a key frame.

usage: examples/c/relay_test.py RELAY..
example: examples/c/relay_test.py valgrind -q ./relay
"""
import struct, sys
from relays import NACK, PLI, RTP, main, nack, peer, pli, running

SSRC, SENT, RTX = 0x11111111, 0x22222200, 0x33333300
KEY = bytes.fromhex("100000070419c000008003187fafac4a0a0404d14109a1158008642222264000183000")


def packet(number, template):
    """Frame `number` in one packet, by a template of the structure in the key frame."""
    rest = KEY if number == 0 else bytes.fromhex("bede000142") + bytes([0xc0 | template]) + struct.pack("!H", number) + bytes.fromhex("103001")
    return RTP.pack(0x90, 0x60 | (0x80 if template in (3, 5) else 0), number, 0, SSRC) + rest


def until(port, wanted):
    """The first datagram of this payload type, or RTCP type."""
    while True:
        got = port.recv(2048)
        if got[1] == wanted or (wanted < 128 and got[1] & 127 == wanted):
            return got


def test(command):
    publisher, subscriber = peer(), peer()
    with running(command, "4", f"{SSRC:x}", "97", f"127.0.0.1:{subscriber.getsockname()[1]}/1/1") as address:
        subscriber.settimeout(0.2)
        publisher.settimeout(20)
        for _ in range(100):  # until the relay listens, and passes the key frame on
            publisher.sendto(packet(0, 0), address)
            try:
                first = until(subscriber, 96)
                break
            except OSError:
                pass
        subscriber.settimeout(20)
        assert RTP.unpack(first[:12])[2:] == (0, 0, SENT), first.hex()
        for number, template in ((1, 3), (3, 5)):
            publisher.sendto(packet(number, template), address)
        asked = until(publisher, NACK)
        assert asked == nack(1, SSRC, 2), asked.hex()
        publisher.sendto(packet(2, 2), address)
        sent = [until(subscriber, 96) for _ in range(3)]
        assert [RTP.unpack(one[:12])[2] for one in sent] == [1, 2, 3], [one.hex() for one in sent]
        subscriber.sendto(nack(9, SENT, 1), address)
        again = until(subscriber, 97)
        at = len(sent[0]) - 3  # the payload's three bytes
        assert RTP.unpack(again[:12])[2::2] == (0, RTX) and again[at:] == b"\0\1" + sent[0][at:], again.hex()
        subscriber.sendto(pli(9, SENT), address)
        asked = until(publisher, PLI)
        assert asked == pli(1, SSRC), asked.hex()


if __name__ == "__main__":
    main(test, sys.argv[1:])
