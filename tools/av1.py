#!/usr/bin/env python3
"""Sends the AV1 video of an IVF file as RTP with Dependency Descriptors (RTP Payload Format For AV1, with its Appendix A), and writes what a port
receives of such a stream back to an IVF file. The file has one spatial and one temporal layer and one frame in each temporal unit, as a real-time
encoder makes it.

usage: tools/av1.py send FILE FROM TO SSRC [TIMES]     at the file's own pace, TIMES times over (1); NACKs are answered
       tools/av1.py receive PORT FILE                  until none has come for 3 seconds; a temporal unit with a gap is left out
FROM, TO and PORT are ports of 127.0.0.1; SSRC in hex.

example: tools/av1.py send av1.ivf 6000 5000 11111111
"""
import socket
import struct
import sys
import time

if __name__ == '__main__' and sys.argv[1:] in (['-h'], ['--help']):
    sys.exit(print(__doc__.strip()))

ELEMENT = 4                                        # the id of the header extension
STRUCTURE = bytes.fromhex('80003A410100')          # one decode target, one chain, two templates: of key frames and of frames that need the one before
MOST = 1100                                        # bytes of a packet's payload
TEMPORAL_DELIMITER, SEQUENCE_HEADER, PADDING, TILE_LIST = 2, 1, 15, 8


def leb128(bytes_, at):
    value = shift = 0
    while True:
        value |= (bytes_[at] & 127) << shift
        shift, at = shift + 7, at + 1
        if bytes_[at - 1] < 128:
            return value, at


def as_leb128(value):
    out = bytearray()
    while value > 127:
        out.append(value & 127 | 128)
        value >>= 7
    return bytes(out + bytes([value]))


def obus(unit):
    """The OBUs of a temporal unit that are sent, without their sizes."""
    at, found = 0, []
    while at < len(unit):
        header = unit[at:at + (2 if unit[at] & 4 else 1)]
        at += len(header)
        size, at = leb128(unit, at) if header[0] & 2 else (len(unit) - at, at)
        if header[0] >> 3 & 15 not in (TEMPORAL_DELIMITER, TILE_LIST, PADDING):
            found.append(bytes([header[0] & ~2]) + header[1:] + unit[at:at + size])
        at += size
    return found


def payloads(found):
    """The payloads of a temporal unit's packets: each element with its length before it (W = 0), and cut where a packet is full."""
    key = found[0][0] >> 3 & 15 == SEQUENCE_HEADER
    out, elements, size, goes_on = [], b'', 1, False
    for obu in found:
        while obu:
            take = min(len(obu), MOST - size - 2)
            elements += as_leb128(take) + obu[:take]
            obu, size = obu[take:], 1 + len(elements)
            if MOST - size < 20 or obu:
                out.append(bytes([goes_on << 7 | bool(obu) << 6 | (key and not out) << 3]) + elements)
                elements, size, goes_on = b'', 1, bool(obu)
    if elements:
        out.append(bytes([goes_on << 7 | (key and not out) << 3]) + elements)
    return key, out


def packets(units, rate, ssrc):
    """The packets of each temporal unit."""
    sequence = 0
    for number, (stamp, unit) in enumerate(units):
        key, parts = payloads(obus(unit))
        made = []
        for place, part in enumerate(parts):
            first, last = place == 0, place == len(parts) - 1
            descriptor = bytes([first << 7 | last << 6 | (not key)]) + struct.pack('>H', number % 65536) + (STRUCTURE if key and first else b'')
            element = bytes([ELEMENT << 4 | len(descriptor) - 1]) + descriptor
            element += bytes(-len(element) % 4)
            made.append(struct.pack('>BBHII', 0x90, last << 7 | 96, sequence % 65536, stamp * 90000 // rate % 2**32, ssrc)
                        + struct.pack('>HH', 0xBEDE, len(element) // 4) + element + part)
            sequence += 1
        yield stamp / rate, made


def read_ivf(name, times):
    """The temporal units with their stamps, and how many stamps a second has."""
    with open(name, 'rb') as file:
        head = file.read(32)
        rate, scale = struct.unpack('<II', head[16:24])
        units = []
        while len(frame := file.read(12)) == 12:
            size, stamp = struct.unpack('<IQ', frame)
            units.append((stamp * scale, file.read(size)))
    length = units[-1][0] + (units[1][0] if len(units) > 1 else 1)
    return [(stamp + length * turn, unit) for turn in range(times) for stamp, unit in units], rate


def send(name, from_port, to_port, ssrc, times='1'):
    near = socket.socket(socket.AF_INET, socket.SOCK_DGRAM)
    near.bind(('127.0.0.1', int(from_port)))
    far, kept, begin, sent, resent, pleas = ('127.0.0.1', int(to_port)), {}, time.monotonic(), 0, 0, 0
    units, rate = read_ivf(name, int(times))
    for moment, made in packets(units, rate, int(ssrc, 16)):
        while (left := begin + moment - time.monotonic()) > 0:
            near.settimeout(left)
            try:
                heard = near.recv(2048)
            except (TimeoutError, BlockingIOError):
                continue
            pleas += heard[1:2] == b'\xce'         # the file's key frames come when they come
            if heard[1:2] == b'\xcd':
                for pid, blp in struct.iter_unpack('>HH', heard[12:]):
                    for number in [pid] + [(pid + 1 + bit) % 65536 for bit in range(16) if blp >> bit & 1]:
                        if number in kept:
                            near.sendto(kept[number], far)
                            resent += 1
        for packet in made:
            kept[packet[2] << 8 | packet[3]] = packet
            near.sendto(packet, far)
            sent += 1
    print(f'{len(units)} frames in {sent} packets; {resent} packets were asked for, and a key frame {pleas} times')


def elements(payload):
    """The flags of a payload, and its elements."""
    flags, at, found = payload[0], 1, []
    count = flags >> 4 & 3
    while at < len(payload):
        size, at = leb128(payload, at) if count == 0 or len(found) < count - 1 else (len(payload) - at, at)
        found.append(payload[at:at + size])
        at += size
    return flags, found


def receive(port, name):
    near = socket.socket(socket.AF_INET, socket.SOCK_DGRAM)
    near.bind(('127.0.0.1', int(port)))
    near.settimeout(None)
    expected, broken, gaps, found, written, begin, packets_in = None, True, 0, [], [], None, 0
    while True:
        try:
            packet = near.recv(2048)
        except TimeoutError:
            break
        near.settimeout(3)
        packets_in += 1
        sequence, stamp = struct.unpack('>HI', packet[2:8])
        if expected is not None and sequence != expected:
            gaps, broken, found = gaps + 1, True, []
        expected = (sequence + 1) % 65536
        flags, parts = elements(packet[16 + 4 * struct.unpack('>H', packet[14:16])[0]:])
        if flags & 8:                              # a new coded video sequence mends what is broken
            broken, found = False, []
        if flags & 128 and found:
            found[-1] += parts.pop(0)
        found += parts
        if packet[1] & 128:                        # the temporal unit's last packet
            if not broken:
                begin = stamp if begin is None else begin
                sized = [(obu[:1], obu[1:]) if not obu[0] & 4 else (obu[:2], obu[2:]) for obu in found]
                unit = b'\x12\x00' + b''.join(bytes([head[0] | 2]) + head[1:] + as_leb128(len(body)) + body for head, body in sized)
                written.append(struct.pack('<IQ', len(unit), (stamp - begin) % 2**32) + unit)
            found = []
    with open(name, 'wb') as file:
        file.write(struct.pack('<4sHH4sHHIIII', b'DKIF', 0, 32, b'AV01', 0, 0, 90000, 1, len(written), 0) + b''.join(written))
    print(f'{packets_in} packets, {gaps} gaps, {len(written)} temporal units')


if __name__ == '__main__':
    if len(sys.argv) >= 6 and sys.argv[1] == 'send':
        send(*sys.argv[2:7])
    elif len(sys.argv) == 4 and sys.argv[1] == 'receive':
        receive(*sys.argv[2:])
    else:
        sys.exit(__doc__)
