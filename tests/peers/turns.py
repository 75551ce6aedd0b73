#!/usr/bin/env python3
"""Writes random runs of sessions for tests/system/sessions, or counts what the sessions of such runs sent.

usage: tests/peers/turns.py write RUNS SEED FILE
       tests/peers/turns.py count FILE

A run has one track, plain or layered, with one to three subscribers, and some 50 turns for each session. A turn has a moment and perhaps a datagram: for the
publisher the track's packets, of which some are lost, some repeated and many late; for the subscribers NACKs, PLIs and other RTCP; and for all of them garbage.
In the file a run is 16 bytes: layered or not, how many subscribers, which of them have an RTX stream (a mask), three wishes, and as 16 bits, low byte first,
the hold, the count of turns and three first sequence numbers. A turn is its session (0 the publisher), whether a datagram came, the bytes
it has (16 bits), the moment (64 bits) and these bytes.

example: tests/peers/turns.py write 10 1 /tmp/turns
"""
import collections, os, random, sys

sys.path.insert(0, os.path.join(os.path.dirname(os.path.abspath(__file__)), '..', '..', 'tools'))
sys.dont_write_bytecode = True
import layered_script

MEDIA, OUT, RTX = 0x11111111, 0x22222200, 0x33333300
KINDS = {0xcd: 'NACKs', 0xce: 'PLIs'}


def garbage(dice, most=60):
    return dice.randbytes(dice.randrange(most + 1))


def stream(dice, layered, count):
    """A track's packets, in order."""
    packets, sequence, unit = [], dice.choice((0, 1000, 65_500, 65_530)), dice.choice((0, 0, 0, 30, 49))
    while len(packets) < count and not layered:
        head = layered_script.header(0x80, dice.choice((0, 0x80)), sequence + len(packets), len(packets))
        packets.append(head + garbage(dice, 1_488 if dice.randrange(50) == 0 else 60))
    while len(packets) < count:
        for spatial in (0, 1):
            template, frames = layered_script.shape(unit, spatial)
            for place in range(frames):
                whole = layered_script.packet(sequence + len(packets), unit, spatial, template, place == 0, place == frames - 1)
                packets.append(whole[:-199] + garbage(dice))
        unit += 1 if dice.randrange(20) else 50 - unit % 50 # now and then a key unit comes early
    return packets


def arrivals(dice, packets):
    """The packets as they come: in loose order, some never, some twice or much later, and some that the track refuses."""
    loss, spread = dice.choice((0, 0.05, 0.2)), dice.choice((0.5, 2, 8))
    coming = []
    for place, packet in enumerate(packets):
        if dice.random() >= loss:
            coming.append((place + dice.random() * spread, packet))
        elif dice.random() < 0.6:
            coming.append((place + 3 + dice.random() * 25, packet)) # as though a NACK had been answered
        if dice.randrange(20) == 0:
            coming.append((place + dice.random() * 20, packet))
        if dice.randrange(25) == 0:
            coming.append((place, dice.choice((garbage(dice), packet[:8] + bytes(4) + packet[12:], packet + bytes(1_501), packet[:dice.randrange(len(packet))],
                                               control(dice, MEDIA, 0)))))
    return [packet[:2_048] for _, packet in sorted(coming, key=lambda pair: pair[0])]


def feedback(kind, form, sender, media, rest=b''):
    body = sender.to_bytes(4, 'big') + media.to_bytes(4, 'big') + rest
    return bytes([0x80 | form, kind]) + (len(body) // 4).to_bytes(2, 'big') + body


def nack(dice, media, first):
    """A NACK of some names that this subscriber was perhaps sent (RFC 4585, section 6.2.1)."""
    few = dice.choice((1, 1, 1, 2, 5, 60 if dice.randrange(10) == 0 else 3))
    names = [(first + dice.randrange(-3, 60)) % 65_536 for _ in range(few)]
    masks = [dice.choice((0, 0, 1 << dice.randrange(16), dice.randrange(65_536))) for _ in names]
    return feedback(205, 1, 7, media, b''.join(name.to_bytes(2, 'big') + mask.to_bytes(2, 'big') for name, mask in zip(names, masks)))


def control(dice, media, first):
    """RTCP: one packet, or several in one datagram, on this SSRC or now and then on another; now and then with a fault."""
    makers = [lambda ssrc: nack(dice, ssrc, first)] * 5 + [lambda ssrc: feedback(206, 1, 7, ssrc)] * 2 + [
        lambda ssrc: bytes([0x80, 201, 0, 1]) + bytes(4), lambda ssrc: feedback(206, 15, 7, ssrc, b'REMB' + bytes(8))]
    whole = b''
    for _ in range(dice.choice((1, 1, 1, 2, 4))):
        ssrc = media if dice.randrange(8) else dice.choice((MEDIA, RTX + media % 256, OUT + 9))
        whole += dice.choice(makers)(ssrc)
    if dice.randrange(15) == 0:
        whole = whole[:dice.randrange(len(whole))]
    if dice.randrange(30) == 0:
        whole = whole[:3] + bytes([dice.randrange(256)]) + whole[4:]
    return whole[:2_048]


def run(dice, count):
    layered, peers = dice.randrange(4) > 0, dice.randrange(1, 4)
    firsts = [dice.choice((0, 7, 65_520, dice.randrange(65_536))) for _ in range(3)]
    wishes = bytes(16 * dice.randrange(2) + dice.randrange(2) if dice.randrange(3) else 0x37 for _ in range(3))
    coming = iter(arrivals(dice, stream(dice, layered, count + 20)))
    moment, turns, session = dice.choice((0, 5, 1_000_000, 2**64 - 2_000)), [], 0
    total = count * (1 + peers)
    while len(turns) < total:
        if dice.random() < 0.5:
            session = dice.randrange(1 + peers) if dice.randrange(3) else 0
        step = dice.choice((0, 0, 0, 1, 3, 10, 20, 40)) if dice.randrange(40) else dice.choice((100, 480, 500, 900, -30))
        moment = max(0, min(moment + step, 2**64 - 1))
        came = None
        if session == 0 and dice.randrange(5):
            came = next(coming, None)
        elif session > 0 and dice.randrange(3) == 0:
            came = control(dice, OUT + session, firsts[session - 1])
        elif dice.randrange(20) == 0:
            came = garbage(dice, dice.choice((12, 60, 2_048)))
        turns.append((session, came, moment))
    hold = dice.choice((0, 20, 60, 200, 1_000))
    head = bytes([layered, peers, dice.randrange(8)]) + wishes + b''.join(word.to_bytes(2, 'little') for word in (hold, len(turns), *firsts))
    yield head
    for session, came, moment in turns:
        yield bytes([session, came is not None]) + len(came or b'').to_bytes(2, 'little') + moment.to_bytes(8, 'little') + (came or b'')


def count(path):
    """How many of each kind of datagrams were sent; a packet is a resend if its number went out to that subscriber before."""
    counts, sent = collections.Counter(), set()
    with open(path, encoding='ascii') as file:
        for line in file:
            word, *rest = line.split()
            if word == 'run':
                sent.clear()
                continue
            session, bytes_of = int(word), bytes.fromhex(rest[1])
            if session == 0:
                counts[KINDS[bytes_of[1]]] += 1
            elif bytes_of[8:12] == (RTX + session).to_bytes(4, 'big'):
                counts['by RTX'] += 1
            else:
                counts['sent again' if (session, bytes_of[2:4]) in sent else 'packets'] += 1
                sent.add((session, bytes_of[2:4]))
    return ', '.join(f'{counts[word]:,} {word}' for word in ('packets', 'sent again', 'by RTX', 'NACKs', 'PLIs'))


def main():
    words = sys.argv[1:]
    if words in (['-h'], ['--help']):
        sys.exit(print(__doc__.strip()))
    if words[:1] == ['count']:
        sys.exit(print(count(words[1])))
    dice = random.Random(int(words[2]))
    with open(words[3], 'wb') as file:
        for _ in range(int(words[1])):
            file.writelines(run(dice, dice.randrange(40, 61)))


if __name__ == '__main__':
    main()
