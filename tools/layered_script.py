#!/usr/bin/env python3
"""Writes a script of one layered track (two spatial and two temporal layers, one key frame in 50 temporal units) and its subscribers: so many
packets of some 220 bytes, after each temporal unit a tick, and a take of each subscriber for each of the unit's packets.

usage: tools/layered_script.py [PACKETS [SUBSCRIBERS [mixed]]]      10,000 packets and one subscriber if left out

Each subscriber wishes for all layers, or, mixed, for one of the four pairs of a spatial and a temporal layer in turn.

example: tools/layered_script.py 600 2 mixed | ./sfu run | tail -1
"""
import sys

# The bits of a key descriptor behind the frame number (RTP Payload Format For AV1, Appendix A.8): the structure of two spatial and two temporal
# layers. Templates 0 to 2 are of the lower spatial layer, 3 to 5 of the higher: a key unit's, the first temporal layer's, the second's.
STRUCTURE = bytes.fromhex('80' '03187FAFAC4A0A0404D14109A115800864222226' '40')


def shape(unit, spatial):
    """A frame's template and its count of packets."""
    if unit % 50 == 0:
        return (3 * spatial, 3 - spatial)
    return (3 * spatial + (1 if unit % 2 == 0 else 2), 1 + spatial)


def extension(descriptor):
    """A header extension with the descriptor under id 4, in the one-byte form where that has the room, else in the two-byte form (RFC 8285)."""
    if len(descriptor) <= 16:
        profile, element = b'\xbe\xde', bytes([0x40 | len(descriptor) - 1]) + descriptor
    else:
        profile, element = b'\x10\x00', bytes([4, len(descriptor)]) + descriptor
    element += bytes(-len(element) % 4)
    return profile + (len(element) // 4).to_bytes(2, 'big') + element


def header(first_byte, marker, sequence, unit):
    """A fixed RTP header of SSRC 11111111, payload type 96 and 3,000 of the clock a unit (RFC 3550, section 5.1)."""
    return bytes([first_byte, 0x60 | marker]) + (sequence % 65_536).to_bytes(2, 'big') + (3_000 * unit % 2**32).to_bytes(4, 'big') + bytes([0x11] * 4)


def packet(sequence, unit, spatial, template, first, last):
    is_key = unit % 50 == 0 and spatial == 0 and first
    descriptor = bytes([0x80 * first | 0x40 * last | template]) + ((2 * unit + spatial) % 65_536).to_bytes(2, 'big')
    aggregation = 0x80 * (not first) | 0x40 * (not last) | 0x10 | 8 * is_key
    payload = bytes([aggregation, 0x30 if first else 0]) + bytes(199)
    marker = 0x80 if spatial == 1 and last else 0
    return header(0x90, marker, sequence, unit) + extension(descriptor + (STRUCTURE if is_key else b'')) + payload


def main():
    if sys.argv[1:] in (['-h'], ['--help']):
        sys.exit(print(__doc__.strip()))
    packets = int(sys.argv[1]) if len(sys.argv) > 1 else 10_000
    subscribers = int(sys.argv[2]) if len(sys.argv) > 2 else 1
    mixed = len(sys.argv) > 3
    lines = ['publish 1 layered 11111111 50 4']
    for number in range(1, subscribers + 1):
        wish = f'{number % 2} {number // 2 % 2}' if mixed else '1 1'
        lines.append(f'join {number} 1 {0x22222200 + number:08x} 0 {wish}')
    sequence = unit = 0
    while sequence < packets:
        before = sequence
        for spatial in (0, 1):
            template, count = shape(unit, spatial)
            for place in range(min(count, packets - sequence)):
                text = packet(sequence, unit, spatial, template, place == 0, place == count - 1).hex()
                lines.append(f'packet 1 {33 * unit} {text}')
                sequence += 1
        lines.append(f'tick 1 {33 * unit}')
        for number in range(1, subscribers + 1):
            lines += [f'take {number}'] * (sequence - before)
        unit += 1
    print('\n'.join(lines))


if __name__ == '__main__':
    main()
