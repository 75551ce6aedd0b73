#!/usr/bin/env python3
"""Writes a script of several tracks: each temporal unit comes to each track in turn, and after it each of the track's subscribers takes what it got.

usage: bench/tracks_script.py KIND UNITS TRACKS EACH [IDLE]      KIND is layered or plain; EACH subscribers of each track, and IDLE ones of one more
                                                                  track that gets no packet (0 if left out)

A layered track has two spatial and two temporal layers and one key frame in 50 units, as those of tools/layered_script.py; a plain track gets one
packet of 200 bytes a unit.

example: bench/tracks_script.py layered 50 2 4 8 | ./sfu run | tail -1
"""
import sys
from pathlib import Path

sys.path.insert(0, str(Path(__file__).resolve().parent.parent / 'tools'))
from layered_script import header, packet, shape

if len(sys.argv) < 5:
    sys.exit(print(__doc__.strip()))

kind = sys.argv[1]
units, tracks, each = map(int, sys.argv[2:5])
idle = int(sys.argv[5]) if len(sys.argv) > 5 else 0


def packets_of(unit, sequence):
    if kind == 'plain':
        return [header(0x80, 0, sequence, unit) + bytes(188)]
    packets = []
    for spatial in (0, 1):
        template, count = shape(unit, spatial)
        for place in range(count):
            packets.append(packet(sequence + len(packets), unit, spatial, template, place == 0, place == count - 1))
    return packets


published = 'plain 11111111 50' if kind == 'plain' else 'layered 11111111 50 4'
for track in range(1, tracks + 1 + (idle > 0)):
    print(f'publish {track} {published}')
number = 0
for track, many in [(track, each) for track in range(1, tracks + 1)] + [(tracks + 1, idle)]:
    for _ in range(many):
        number += 1
        print(f'join {number} {track} {0x22222200 + number:08x} 0 1 1')
sequence = 0
for unit in range(units):
    texts = [packet.hex() for packet in packets_of(unit, sequence)]
    sequence += len(texts)
    for track in range(1, tracks + 1):
        for text in texts:
            print(f'packet {track} {33 * unit} {text}')
        print(f'tick {track} {33 * unit}')
        for subscriber in range((track - 1) * each + 1, track * each + 1):
            for _ in texts:
                print(f'take {subscriber}')
