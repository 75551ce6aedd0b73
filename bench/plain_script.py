#!/usr/bin/env python3
"""Writes a script of one plain track: so many packets of so many bytes, with a take after each.

usage: bench/plain_script.py [PACKETS [BYTES]]      10,000 packets of 200 bytes if left out

example: bench/plain_script.py 100 1200 | ./sfu run | tail -1
"""
import sys

if sys.argv[1:] in (['-h'], ['--help']):
    sys.exit(print(__doc__.strip()))

packets = int(sys.argv[1]) if len(sys.argv) > 1 else 10_000
size = int(sys.argv[2]) if len(sys.argv) > 2 else 200
lines = ['publish 1 plain 11111111 100', 'join 1 1 22222222 0 0 0']
for place in range(packets):
    header = bytes([0x80, 96]) + (place % 65_536).to_bytes(2, 'big') + (3_000 * place % 2**32).to_bytes(4, 'big') + bytes([0x11] * 4)
    lines.append(f'packet 1 {place} {(header + bytes(size - 12)).hex()}')
    lines.append('take 1')
print('\n'.join(lines))
