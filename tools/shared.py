"""What the tools share: RTP packets and their header extensions, dependency descriptors, scripts and replies.

Nothing here is proved. The parsers are written from the standards, apart from the room's own: RTP from RFC 3550 section 5.1, header extensions from
RFC 8285 sections 4.2 and 4.3, dependency descriptors from Appendix A of the RTP Payload Format For AV1. What doesn't read is None, and no error.
"""
import os
import subprocess
import sys
import tempfile
from collections import namedtuple

TOP = os.path.dirname(os.path.dirname(os.path.abspath(__file__)))


def fail(text):
    """Ends the tool with one line that says what is wrong."""
    sys.exit(f'{os.path.basename(sys.argv[0])}: {text}')


class Progress:
    """A line on standard error that counts, where that is a terminal."""

    def __init__(self, what):
        self.what, self.shown = what, sys.stderr.isatty()

    def at(self, count):
        if self.shown and count % 500 == 0:
            print(f'\r{self.what}: {count}', end='', file=sys.stderr, flush=True)

    def end(self):
        if self.shown:
            print('\r\x1b[K', end='', file=sys.stderr, flush=True)


# ---- RTP

Rtp = namedtuple('Rtp', 'marker payload_type seq timestamp ssrc profile block payload')


def read_rtp(data):
    """The parts of an RTP packet, or None where the bytes aren't one."""
    if len(data) < 12 or data[0] >> 6 != 2:
        return None
    at = 12 + 4 * (data[0] & 15)
    profile, block = None, b''
    if data[0] & 0x10:
        if len(data) < at + 4:
            return None
        profile = int.from_bytes(data[at:at + 2], 'big')
        end = at + 4 + 4 * int.from_bytes(data[at + 2:at + 4], 'big')
        if len(data) < end:
            return None
        block, at = data[at + 4:end], end
    if len(data) < at:
        return None
    end = len(data)
    if data[0] & 0x20:
        if end == at or not 1 <= data[-1] <= end - at:
            return None
        end -= data[-1]
    return Rtp(data[1] >> 7, data[1] & 127, int.from_bytes(data[2:4], 'big'), int.from_bytes(data[4:8], 'big'),
               int.from_bytes(data[8:12], 'big'), profile, block, data[at:end])


def is_rtcp(data):
    """Whether a datagram on a port of RTP and RTCP is RTCP, by its second byte (RFC 5761, section 4)."""
    return len(data) >= 2 and 192 <= data[1] <= 223


def elements(profile, block):
    """The header extension elements, as pairs of an id and its bytes, up to the first that is broken."""
    found, at = [], 0
    one = profile == 0xBEDE
    if not one and (profile is None or profile >> 4 != 0x100):
        return found
    while at < len(block):
        if block[at] == 0:
            at += 1
            continue
        if one:
            number, size, head = block[at] >> 4, (block[at] & 15) + 1, 1
            if number == 15:
                break
        else:
            if at + 1 >= len(block):
                break
            number, size, head = block[at], block[at + 1], 2
        if at + head + size > len(block):
            break
        if number:
            found.append((number, block[at + head:at + head + size]))
        at += head + size
    return found


# ---- dependency descriptors

Template = namedtuple('Template', 'spatial temporal dtis fdiffs links')
Structure = namedtuple('Structure', 'offset targets templates guards resolutions')
Descriptor = namedtuple('Descriptor', 'start end number template structure mask spatial temporal dtis fdiffs links')


class Bits:
    """Reads bits from the front; past the end it raises EOFError."""

    def __init__(self, data):
        self.data, self.at = data, 0

    def f(self, count):
        if self.at + count > 8 * len(self.data):
            raise EOFError
        value = 0
        for at in range(self.at, self.at + count):
            value = 2 * value + (self.data[at // 8] >> (7 - at % 8) & 1)
        self.at += count
        return value

    def ns(self, n):
        width = (n - 1).bit_length() if n > 1 else 0
        short = (1 << width) - n
        value = self.f(width - 1) if width else 0
        return value if width == 0 or value < short else 2 * value - short + self.f(1)


def read_structure(bits):
    offset, targets = bits.f(6), bits.f(5) + 1
    layers, spatial, temporal = [], 0, 0
    while True:
        layers.append((spatial, temporal))
        step = bits.f(2)
        if step == 1:
            temporal += 1
        elif step == 2:
            spatial, temporal = spatial + 1, 0
        elif step == 3:
            break
        if spatial > 3 or temporal > 7 or len(layers) >= 64:
            return None
    dtis = [[bits.f(2) for _ in range(targets)] for _ in layers]
    fdiffs = []
    for _ in layers:
        found = []
        while bits.f(1):
            found.append(bits.f(4) + 1)
        fdiffs.append(found)
    chains = bits.ns(targets + 1)
    guards = [bits.ns(chains) for _ in range(targets)] if chains else []
    links = [[bits.f(4) for _ in range(chains)] for _ in layers]
    resolutions = [(bits.f(16) + 1, bits.f(16) + 1) for _ in range(layers[-1][0] + 1)] if bits.f(1) else []
    templates = [Template(*layer, *rest) for layer, *rest in zip(layers, dtis, fdiffs, links)]
    return Structure(offset, targets, templates, guards, resolutions)


def read_descriptor(data, force):
    """The descriptor by the structure in force, or None where it doesn't read."""
    bits = Bits(data)
    try:
        start, end, template, number = bits.f(1), bits.f(1), bits.f(6), bits.f(16)
        structure = mask = None
        own_dtis = own_fdiffs = own_links = 0
        if len(data) > 3:
            has_structure, has_mask, own_dtis, own_fdiffs, own_links = (bits.f(1) for _ in range(5))
            if has_structure:
                structure = read_structure(bits)
                if structure is None:
                    return None
                mask = (1 << structure.targets) - 1
            used = structure or force
            if used is None:
                return None
            if has_mask:
                mask = sum(bits.f(1) << target for target in reversed(range(used.targets)))
        used = structure or force
        if used is None:
            return None
        index = (template + 64 - used.offset) % 64
        if index >= len(used.templates):
            return None
        shape = used.templates[index]
        dtis = [bits.f(2) for _ in range(used.targets)] if own_dtis else shape.dtis
        fdiffs = shape.fdiffs
        if own_fdiffs:
            fdiffs = []
            while size := bits.f(2):
                fdiffs.append(bits.f(4 * size) + 1)
        links = [bits.f(8) for _ in shape.links] if own_links else shape.links
        return Descriptor(bool(start), bool(end), number, template, structure, mask, shape.spatial, shape.temporal, dtis, fdiffs, links)
    except EOFError:
        return None


def nearest(last, low):
    """The number with these low 16 bits that is nearest to the last one (half a turn behind counts as behind)."""
    step = (low - last) % 65536
    return last + step - (65536 if step >= 32768 else 0)


def above(last, low):
    """The least number above the last one with these low 16 bits."""
    return last + 1 + (low - last - 1) % 65536


Frame = namedtuple('Frame', 'number spatial temporal is_key moment packets fdiffs')


class Frames:
    """The frames that a layered track's packets say, in the order in which they came: number, layer, first moment, each packet's number and moment."""

    def __init__(self, extension_id):
        self.id, self.force, self.newest, self.frames = extension_id, None, None, {}

    def see(self, moment, rtp):
        """The number of the packet's frame, or None where it says none."""
        data = next((value for number, value in elements(rtp.profile, rtp.block) if number == self.id), None)
        said = read_descriptor(data, self.force) if data is not None else None
        if said is None or not rtp.payload:
            return None
        is_key = said.start and said.structure is not None and not said.fdiffs
        if is_key:
            number = said.number if self.newest is None else above(self.newest, said.number)
            self.force = said.structure
        elif self.newest is None:
            return None
        else:
            number = nearest(self.newest, said.number)
        self.newest = number if self.newest is None else max(self.newest, number)
        frame = self.frames.get(number)
        if frame is None:
            frame = self.frames[number] = Frame(number, said.spatial, said.temporal, is_key, moment, [], said.fdiffs)
        frame.packets.append((rtp.seq, moment))
        return number


# ---- scripts

def read_script(name):
    """The lines of a script that are calls, each as the list of its words."""
    try:
        with (sys.stdin.buffer if name == '-' else open(name, 'rb')) as file:
            data = file.read()
    except OSError as error:
        fail(f'{name}: {error.strerror}')
    if data[:1] == b'\0':
        fail(f'{name}: a script of records; only a script of lines is read')
    calls = []
    for number, line in enumerate(data.split(b'\n'), 1):
        line = line[:-1] if line.endswith(b'\r') else line
        if line and not line.startswith(b'#'):
            try:
                calls.append(line.decode('ascii').split(' '))
            except UnicodeDecodeError:
                fail(f'{name}: line {number} is no line of a script')
    return calls


def program():
    """The words that run the program: the one that SFU names, else the repository's, which must be built."""
    if os.environ.get('SFU'):
        return [os.environ['SFU']]
    if not os.path.exists(f'{TOP}/crates/sfu_program/out/sfu_program'):
        fail('the program is not built: run ./sfu help once, or name another by the variable SFU')
    return [f'{TOP}/sfu']


def run(calls):
    """The replies of the room to these calls, one for each."""
    with tempfile.TemporaryFile() as script:
        script.write(''.join(' '.join(call) + '\n' for call in calls).encode())
        script.seek(0)
        ran = subprocess.run([*program(), 'run'], stdin=script, stdout=subprocess.PIPE, check=False)
    replies = ran.stdout.decode().splitlines()
    if ran.returncode == 5:
        fail(f'the script has a line that is none: {replies[-1] if replies else "line 1"} of the calls (skipped lines are not counted)')
    if ran.returncode != 0 or len(replies) != len(calls):
        fail(f'the program ended with status {ran.returncode}')
    return replies


class Room:
    """The program, asked line by line."""

    def __init__(self):
        self.child = subprocess.Popen([*program(), 'run'], stdin=subprocess.PIPE, stdout=subprocess.PIPE)

    def ask(self, *words):
        """The reply to one call."""
        self.child.stdin.write((' '.join(words) + '\n').encode())
        self.child.stdin.flush()
        reply = self.child.stdout.readline().decode().rstrip('\n')
        if not reply or reply.startswith('line '):
            fail(f'not a call of the room: {" ".join(words)[:100]}')
        return reply

    def close(self):
        self.child.stdin.close()
        self.child.wait()


class Track:
    """What a script says of one track: its frames, and the sequence numbers that never came."""

    def __init__(self, number, extension_id):
        self.number, self.id = number, extension_id
        self.frames = Frames(extension_id)
        self.whole = {}
        self.packets, self.newest, self.lost = {}, None, []
        self.moment = 0
        self.ids = set()               # of the header extension elements that its packets have

    def see(self, moment, rtp):
        seq = rtp.seq if self.newest is None else nearest(self.newest, rtp.seq)
        self.packets[seq] = moment
        self.newest = seq if self.newest is None else max(self.newest, seq)
        self.moment = max(self.moment, moment)
        self.ids.update(number for number, _ in elements(rtp.profile, rtp.block))
        self.frames.see(moment, rtp)

    def end(self):
        """The numbers that never came, each with the moment of the packet behind it."""
        known = sorted(self.packets)
        for before, after in zip(known, known[1:]):
            self.lost += [(self.packets[after], number) for number in range(before + 1, after)]


class Subscriber:
    """What a script says of one subscriber: its wishes, and why each frame of its timeline was or wasn't passed."""

    def __init__(self, number, track, moment, wish):
        self.number, self.track, self.joined = number, track, moment
        self.wishes = [(moment, wish)]
        self.verdicts, self.judged = {}, {}
        self.queue, self.queued = [(moment, 0)], 0
        self.next = None
        self.is_live = True

    def count(self, moment, change):
        self.queued += change
        self.queue.append((moment, self.queued))


def study(calls):
    """Makes the calls of a script and asks, after each packet and tick, why each new frame was or wasn't passed to each subscriber."""
    room, progress = Room(), Progress('calls')
    tracks, subscribers = {}, {}

    def judge(track):
        newest = track.frames.newest
        for each in subscribers.values():
            if each.track is not track or not each.is_live or track.id is None or newest is None:
                continue
            while each.next is None or each.next <= newest:
                at = each.next if each.next is not None else min(track.frames.frames)
                reply = room.ask('why', each.number, str(at))
                if reply.startswith('refused ahead'):
                    break
                if not reply.startswith('refused') and not reply.startswith('hole none'):
                    each.verdicts[at], each.judged[at] = reply, track.moment
                    if reply == 'passed':
                        each.count(track.moment, len({seq for seq, _ in track.frames.frames[at].packets}) if at in track.frames.frames else 1)
                each.next = at + 1

    for count, call in enumerate(calls):
        progress.at(count)
        reply = room.ask(*call)
        word = call[0]
        if word == 'publish' and reply == 'ok':
            tracks[call[1]] = Track(call[1], int(call[5]) if call[2] == 'layered' else None)
        elif word in ('packet', 'tick') and reply == 'ok':
            track, moment = tracks[call[1]], int(call[2])
            if word == 'packet':
                track.see(moment, read_rtp(bytes.fromhex(call[3])))
            track.moment = max(track.moment, moment)
            judge(track)
            if word == 'packet' and track.id is None:
                for each in subscribers.values():
                    if each.track is track and each.is_live:
                        each.count(track.moment, 1)
        elif word == 'join' and reply == 'ok':
            track = tracks[call[2]]
            subscribers[call[1]] = Subscriber(call[1], track, track.moment, (int(call[5]), int(call[6])))
        elif word == 'aim' and reply == 'ok':
            each = subscribers[call[1]]
            each.wishes.append((each.track.moment, (int(call[2]), int(call[3]))))
        elif word == 'take' and reply.startswith('packet '):
            each = subscribers[call[1]]
            each.count(each.track.moment, -1)
        elif word == 'leave' and reply == 'ok':
            subscribers[call[1]].is_live = False
    progress.end()
    room.close()
    for track in tracks.values():
        track.end()
    return tracks, subscribers


def layered(tracks, number):
    """The track of this number, where frames can be judged on it."""
    track = tracks.get(number)
    if track is None:
        fail(f'no track {number} is published; there are: {" ".join(tracks) or "none"}')
    if track.id is None:
        fail(f'track {number} is plain: its packets pass as they come, and no frame is judged')
    if not track.frames.frames:
        ids = ' '.join(str(each) for each in sorted(track.ids))
        fail(f'no packet of track {number} has a descriptor that reads in the header extension element {track.id}; its packets have the elements {ids or "none"}')
    return track


def in_words(verdict):
    """A cause as the room answers it, in words."""
    kind, *rest = verdict.split(' ')
    if kind == 'passed':
        return 'passed'
    if kind == 'notoftarget':
        return 'not sent: no decode target of the structure is within the wish' if rest == ['none'] else f'not sent: it is no part of decode target {rest[0]}, which this subscriber gets'
    if kind == 'behind':
        return f'withheld: it refers {rest[0]} frames back, to before the key frame {rest[1]} with which its epoch began'
    if kind == 'reference':
        return f'withheld: it refers to frame {rest[0]}, which was not passed'
    if kind == 'full':
        return f'withheld: {rest[0]} packets were queued and it has {rest[1]} (512 fit)'
    if kind == 'link':
        return f'withheld: its target closed at frame {rest[0]}, since the chain needs frame {rest[1]}, which was not passed, and nothing has opened one since'
    if kind == 'unopened':
        return f'withheld: no target has been open since frame {rest[0]}; a key frame or a switch opens one'
    return f'no whole frame has this number: packets of it were lost, came too late, did not read, or never were (the frames next to it are {rest[0]} and {rest[1]})'


def path(subscriber, number):
    """The causes of a frame, from itself down to the root, as pairs of a number and what the room answered."""
    found = []
    while number in subscriber.verdicts:
        verdict = subscriber.verdicts[number]
        found.append((number, verdict))
        kind, *rest = verdict.split(' ')
        if kind == 'reference':
            number = int(rest[0])
        elif kind == 'link':
            number = int(rest[1])
        else:
            break
    return found
