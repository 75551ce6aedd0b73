#!/usr/bin/env python3
"""simulcast_model: what a script of calls and bundles has to be answered, worked out apart from the program: from the rules of RTP, header extensions,
dependency descriptors, the order of packets, whole frames, selection, outgoing packets and bundles, on Python's lists and whole numbers.
It shares no code and no text with the program, and keeps everything that ever happened.

usage: tests/models/simulcast_model.py replies <SCRIPT            the replies, and `line N` on standard error where line N is outside the grammar
       tests/models/simulcast_model.py script SEED                a random script: tracks with losses, three bundles, all lines, broken ones
       tests/models/simulcast_model.py compare COUNT COMMAND ..   COUNT random scripts through a command that reads a script and writes replies
With the word `renumbered` before these words the frame numbers of all bundles continue over a change of leg.

example: tests/models/simulcast_model.py replies < examples/simulcast.script
"""
import random
import re
import subprocess
import sys

if sys.argv[1:] in (['-h'], ['--help']):
    sys.exit(print(__doc__.strip()))

# ---- bytes


def fault_of(b):
    """The first fault of an RTP packet, or none."""
    if len(b) < 12:
        return 'short'
    if b[0] >> 6 != 2:
        return 'version'
    at = 12 + 4 * (b[0] & 15)
    if len(b) < at:
        return 'csrc'
    if b[0] & 16:
        if len(b) < at + 4 or len(b) < at + 4 + 4 * int.from_bytes(b[at + 2:at + 4], 'big'):
            return 'extension'
        at += 4 + 4 * int.from_bytes(b[at + 2:at + 4], 'big')
    if b[0] & 32 and (len(b) == at or b[-1] == 0 or b[-1] > len(b) - at):
        return 'padding'
    return None


def parts(b):
    """Where the block begins (its profile word, or none), the profile, the block, where the payload begins and ends."""
    at = 12 + 4 * (b[0] & 15)
    profile, block, begin = None, b'', at
    if b[0] & 16:
        count = 4 * int.from_bytes(b[at + 2:at + 4], 'big')
        profile, block = int.from_bytes(b[at:at + 2], 'big'), b[at + 4:at + 4 + count]
        begin = at + 4 + count
    return at, profile, block, begin, len(b) - (b[-1] if b[0] & 32 else 0)


def elements(profile, block):
    return [(name, value) for name, value, _ in placed_elements(profile, block)]


def placed_elements(profile, block):
    """The id and value of each element, and where in the block the value begins."""
    found, i = [], 0
    if profile == 0xBEDE:
        while i < len(block):
            if block[i] == 0:
                i += 1
                continue
            name, count = block[i] >> 4, (block[i] & 15) + 1
            if name in (0, 15) or i + 1 + count > len(block):
                break
            found.append((name, block[i + 1:i + 1 + count], i + 1))
            i += 1 + count
    elif profile is not None and 0x1000 <= profile <= 0x100F:
        while i < len(block):
            if block[i] == 0:
                i += 1
                continue
            if i + 2 > len(block) or i + 2 + block[i + 1] > len(block):
                break
            found.append((block[i], block[i + 2:i + 2 + block[i + 1]], i + 2))
            i += 2 + block[i + 1]
    return found


def element(b, name):
    _, profile, block, _, _ = parts(b)
    return next((value for found, value in elements(profile, block) if found == name), None)


def number_place(b, name):
    """Where the descriptor's frame number begins, or none."""
    at, profile, block, _, _ = parts(b)
    for found, value, begin in placed_elements(profile, block):
        if found == name:
            return at + 4 + begin + 1 if len(value) >= 3 else None
    return None


def payload_flags(b):
    """Z and Y of an AV1 payload, or none where it doesn't read."""
    if not b:
        return None
    count, i, seen = b[0] >> 4 & 3, 1, 0
    if count == 0 and i == len(b):
        return None
    while (i < len(b)) if count == 0 else (seen < count):
        if count and seen == count - 1:
            i = len(b)
        else:
            value, shift = 0, 0
            while True:
                if i >= len(b) or shift == 56:
                    return None
                value |= (b[i] & 127) << shift
                i, shift = i + 1, shift + 7
                if b[i - 1] < 128:
                    break
            if value >= 2**32 or value > len(b) - i:
                return None
            i += value
        seen += 1
    return b[0] >> 7, b[0] >> 6 & 1


class Short(Exception):
    pass


class Bits:
    def __init__(self, b):
        self.text, self.at = ''.join(format(x, '08b') for x in b), 0

    def f(self, n):
        if self.at + n > len(self.text):
            raise Short()
        self.at += n
        return int(self.text[self.at - n:self.at] or '0', 2)

    def ns(self, n):
        w = n.bit_length()
        m = 2**w - n
        v = self.f(w - 1)
        return v if v < m else 2 * v - m + self.f(1)


def structure_of(bits):
    s = {'offset': bits.f(6), 'targets': bits.f(5) + 1}
    layers, step = [(0, 0)], bits.f(2)
    while step != 3:
        spatial, temporal = layers[-1]
        layers.append([(spatial, temporal), (spatial, temporal + 1), (spatial + 1, 0)][step])
        if layers[-1][0] > 3 or layers[-1][1] > 7 or len(layers) > 64:
            raise Short()
        step = bits.f(2)
    dtis = [[bits.f(2) for _ in range(s['targets'])] for _ in layers]
    distances = []
    for _ in layers:
        own = []
        while bits.f(1):
            own.append(bits.f(4) + 1)
            if len(own) > 16:
                raise Short()
        distances.append(own)
    chains = bits.ns(s['targets'] + 1)
    s['guards'] = [bits.ns(chains) for _ in range(s['targets'])] if chains else None
    links = [[bits.f(4) for _ in range(chains)] for _ in layers] if chains else [[] for _ in layers]
    s['chains'] = chains
    s['templates'] = list(zip(layers, dtis, distances, links))
    s['resolutions'] = None
    if bits.f(1):
        s['resolutions'] = [(bits.f(16), bits.f(16)) for _ in range(layers[-1][0] + 1)]
    s['pairs'] = []
    for t in range(s['targets']):
        present = [layers[i] for i in range(len(layers)) if dtis[i][t]]
        s['pairs'].append((max(x for x, _ in present), max(y for _, y in present)) if present else None)
    return s


def descriptor_of(value, force):
    """What a descriptor says by the structure in force, or none."""
    if value is None or len(value) < 3:
        return None
    bits = Bits(value)
    try:
        d = {'start': bits.f(1), 'end': bits.f(1), 'template': bits.f(6), 'number': bits.f(16), 'structure': None, 'mask': None}
        flags = [bits.f(1) for _ in range(5)] if len(value) > 3 else [0] * 5
        d['flags'], begin = flags, bits.at
        if flags[0]:
            d['structure'] = structure_of(bits)
            d['mask'] = 2**d['structure']['targets'] - 1
        d['structure_bits'] = bits.text[begin:bits.at]
        s = d['structure'] or force
        if s is None:
            return None
        if flags[1]:
            d['mask'] = bits.f(s['targets'])
        d['own_mask'] = bool(flags[1])
        index, begin = (d['template'] + 64 - s['offset']) % 64, bits.at
        if index >= len(s['templates']):
            return None
        d['layer'], d['dtis'], d['distances'], d['links'] = s['templates'][index]
        if flags[2]:
            d['dtis'] = [bits.f(2) for _ in range(s['targets'])]
        if flags[3]:
            d['distances'], size = [], bits.f(2)
            while size:
                d['distances'] = d['distances'] + [bits.f(4 * size) + 1]
                if len(d['distances']) > 16:
                    return None
                size = bits.f(2)
        if flags[4]:
            d['links'] = [bits.f(8) for _ in range(s['chains'])]
        d['definition_bits'] = bits.text[begin:bits.at]
        d['by'] = s
        return d
    except Short:
        return None


def is_key_start(d):
    return bool(d['structure'] and d['start'] and not d['distances'])


def remasked(b, name, d, mask):
    """The packet with this mask in its descriptor, or as it is where it would get too long."""
    value = element(b, name)
    text = ''.join(format(x, '08b') for x in value[:3]) + str(d['flags'][0]) + '1' + ''.join(str(x) for x in d['flags'][2:])
    text += d['structure_bits'] + format(mask, '0%db' % d['by']['targets']) + d['definition_bits']
    text += '0' * (-len(text) % 8)
    new = bytes(int(text[i:i + 8], 2) for i in range(0, len(text), 8))
    at, profile, block, begin, _ = parts(b)
    if len(new) > 255:
        return b
    if profile == 0xBEDE and len(new) > 16:
        profile = 0x1000
    out, done = b'', False
    for found, old in elements(parts(b)[1], block):
        if found == name and not done:
            old, done = new, True
        out += bytes([found << 4 | len(old) - 1]) + old if profile == 0xBEDE else bytes([found, len(old)]) + old
    out += bytes(-len(out) % 4)
    whole = b[:at] + profile.to_bytes(2, 'big') + (len(out) // 4).to_bytes(2, 'big') + out + b[begin:]
    return whole if len(whole) <= 1536 else b


def addressed(b, number, ssrc, marker):
    return bytes([b[0], b[1] & 127 | marker << 7]) + number.to_bytes(2, 'big') + b[4:8] + ssrc.to_bytes(4, 'big') + b[12:]


# ---- numbers


def place(newest, n):
    ahead = (n - newest) % 65536
    return newest + (ahead if ahead < 32768 else ahead - 65536)


# ---- a track


class Track:
    def __init__(self, kind, ssrc, hold):
        self.kind, self.ssrc, self.hold = kind, ssrc, hold
        self.next = self.newest = None
        self.held, self.moment, self.plea = {}, 0, False
        self.force, self.mask, self.epoch, self.epoch_start, self.newest_frame = None, 0, 0, None, None
        self.run = None

    def advance(self, items):
        while self.next in self.held:
            items.append(self.held.pop(self.next)[1])
            self.next += 1

    def arrive(self, moment, b):
        """Items, or the text of a refusal."""
        if len(b) > 1500:
            return 'toobig %d' % len(b)
        if fault_of(b):
            return 'unreadable ' + fault_of(b)
        ssrc = int.from_bytes(b[8:12], 'big')
        if ssrc != self.ssrc:
            return 'wrongssrc %08x %08x' % (ssrc, self.ssrc)
        seq = int.from_bytes(b[2:4], 'big')
        n = seq if self.newest is None else place(self.newest, seq)
        if n >= 2**46:
            return 'spent'
        if self.next is not None and n < self.next:
            return 'late %d' % self.next
        if n in self.held:
            return 'repeat'
        self.moment = max(self.moment, moment)
        items = []
        if self.next is None:
            self.next = n
        while n >= self.next + 1024:
            if self.next in self.held:
                items.append(self.held.pop(self.next)[1])
                self.next += 1
            else:
                self.next = min([n - 1023] + list(self.held))
                items.append(None)
        self.held[n] = (self.moment, b)
        self.newest = n if self.newest is None else max(self.newest, n)
        self.advance(items)
        return items

    def tick(self, moment):
        self.moment = max(self.moment, moment)
        items = []
        while self.held and self.held[min(self.held)][0] + self.hold <= self.moment:
            if self.next < min(self.held):
                items.append(None)
            self.next = min(self.held)
            self.advance(items)
        return items

    def missing(self):
        return [n % 65536 for n in range(self.next, max(self.held)) if n not in self.held] if self.held else []

    def frame(self, b):
        """The whole frame that the item makes, or none."""
        if b is None:
            self.run = None
            return None
        _, _, _, begin, end = parts(b)
        if begin == end:
            return None
        d = descriptor_of(element(b, self.kind), self.force)
        if d is None or d['structure'] and not is_key_start(d) and d['structure'] != self.force:
            self.run = None
            return None
        key = is_key_start(d)
        if key:
            first = self.newest_frame is None
            self.newest_frame = d['number'] if first else self.newest_frame + 1 + (d['number'] - self.newest_frame - 1) % 65536
            self.force, self.epoch, self.epoch_start = d['structure'], self.epoch + 1, self.newest_frame
        if d['mask'] is not None:
            self.mask = d['mask']
        flags = payload_flags(b[begin:end])
        if flags is None:
            self.run = None
            return None
        if d['start']:
            self.run = None if flags[0] else {'packets': [b], 'first': d, 'number': d['number'], 'key': key}
        elif self.run and self.run['number'] == d['number'] and self.run['carries'] == flags[0] and len(self.run['packets']) < 512:
            self.run['packets'].append(b)
        else:
            self.run = None
        if not self.run:
            return None
        self.run['carries'] = flags[1]
        if not d['end']:
            return None
        f, self.run = self.run, None
        if flags[1]:
            return None
        if f['key']:
            f['number'] = self.epoch_start
        else:
            n = place(self.newest_frame, f['number'])
            if n <= self.newest_frame:
                return None
            f['number'] = self.newest_frame = n
        f.update(epoch=self.epoch, epoch_start=self.epoch_start, mask=self.mask, by=self.force)
        f['references'] = [f['number'] - x for x in f['first']['distances']]
        return f


# ---- a subscriber


class Subscriber:
    def __init__(self, track, kind, ssrc, first, wish):
        self.track, self.kind, self.ssrc, self.first, self.wish = track, kind, ssrc, first, wish
        self.out, self.taken = [], 0
        self.epoch, self.passed, self.target, self.opened, self.reason = None, set(), None, None, None
        self.verdicts, self.newest = {}, None

    def queued(self):
        return len(self.out) - self.taken

    def send(self, b, marker):
        self.out.append(addressed(b, (self.first + len(self.out)) % 65536, self.ssrc, marker))

    def plain(self, b):
        if self.queued() < 512:
            self.send(b, b[1] >> 7)

    def allowed(self, f, t):
        pair = f['by']['pairs'][t]
        return bool(f['mask'] >> t & 1 and pair and pair[0] <= self.wish[0] and pair[1] <= self.wish[1])

    def best(self, f, targets):
        return min(targets, key=lambda t: (-f['by']['pairs'][t][0], -f['by']['pairs'][t][1], t)) if targets else None

    def could_open(self, f, t, references):
        if not self.allowed(f, t) or not references:
            return False
        dti = f['first']['dtis'][t]
        if not (dti == 2 or f['key'] and dti):
            return False
        if not (f['key'] or f['epoch_start'] in self.passed):
            return False
        if self.target is None:
            return True
        own, new = f['by']['pairs'][self.target], f['by']['pairs'][t]
        if own is None or not (own[0] <= self.wish[0] and own[1] <= self.wish[1]):
            return True
        return new > own or new == own and t < self.target

    def see(self, f, name):
        n = f['number']
        if f['epoch'] != self.epoch:
            self.epoch, self.passed, self.target, self.reason = f['epoch'], set(), None, ('unopened', n)
        if self.target is not None and not f['mask'] >> self.target & 1:
            self.target, self.reason = None, ('unopened', n)
        if self.target is not None and f['by']['guards']:
            d = f['first']['links'][f['by']['guards'][self.target]]
            if d and n - d >= self.opened and n - d not in self.passed:
                self.target, self.reason = None, ('link', n, n - d)
        references = all(r in self.passed for r in f['references'])
        new = self.best(f, [t for t in range(f['by']['targets']) if self.could_open(f, t, references)])
        candidate = self.target if new is None else new
        needed = len(f['packets'])
        passes = candidate is not None and f['first']['dtis'][candidate] and references and self.queued() + needed <= 512
        self.verdicts[n] = self.verdict(f, candidate, passes, needed)
        self.newest = n
        if not passes:
            return
        opens = new is not None
        if opens:
            self.target, self.opened = candidate, n
        self.passed.add(n)
        pair = f['by']['pairs'][candidate]
        packets = list(f['packets'])
        if opens or f['first']['flags'][0] or f['first']['flags'][1]:
            mask = sum(2**t for t, p in enumerate(f['by']['pairs']) if f['mask'] >> t & 1 and p and p[0] <= pair[0] and p[1] <= pair[1])
            packets[0] = remasked(packets[0], name, f['first'], mask)
        for i, b in enumerate(packets):
            last = i == len(packets) - 1 and f['first']['layer'][0] == pair[0]
            self.send(b, 1 if last else b[1] >> 7)

    def verdict(self, f, candidate, passes, needed):
        aim = self.best(f, [t for t in range(f['by']['targets']) if self.allowed(f, t)])
        target = aim if candidate is None else candidate
        if target is None or not f['first']['dtis'][target]:
            return 'notoftarget %s' % ('none' if target is None else target)
        for d in f['first']['distances']:
            if f['number'] - d not in self.passed:
                return 'behind %d %d' % (d, f['epoch_start']) if f['number'] - d < f['epoch_start'] else 'reference %d' % (f['number'] - d)
        if candidate is not None:
            return 'passed' if passes else 'full %d %d' % (self.queued(), needed)
        return '%s %s' % (self.reason[0], ' '.join(map(str, self.reason[1:])))

    def why(self, n):
        if self.newest is None or n > self.newest:
            return 'refused ahead %s' % ('none' if self.newest is None else self.newest)
        if n <= self.newest - 4096:
            return 'refused tooold %d' % (self.newest - 4095)
        if n in self.verdicts:
            return self.verdicts[n]
        below = [k for k in self.verdicts if k < n and k > self.newest - 4096]
        return 'hole %s %d' % (max(below) if below else 'none', min(k for k in self.verdicts if k > n))

    def take(self):
        if self.queued() == 0:
            return None
        self.taken += 1
        return self.out[self.taken - 1]

    def again(self, seq):
        return again(self.out, self.taken, self.first, seq)


def again(out, taken, first, seq):
    kept = out[max(0, taken - 1024):taken]
    for b in kept:
        if int.from_bytes(b[2:4], 'big') == seq:
            return 'packet ' + b.hex()
    following = (first + taken) % 65536
    return 'notkept %d %d' % (int.from_bytes(kept[0][2:4], 'big') if kept else following, following)


# ---- bundles


class Bundle:
    renumbers = False  # whether the frame numbers continue over a change of leg

    def __init__(self, name, ssrc, first, legs):
        self.name, self.ssrc, self.first, self.legs = name, ssrc, first, legs
        self.chosen, self.active, self.out, self.drawn = 1, None, [], 0
        self.offset, self.last, self.ended = 0, None, None
        self.number_offset, self.number = 0, None

    def queued(self):
        return len(self.out) - self.drawn

    def goes_out(self, leg, b):
        """Whether the packet is forwarded, and if so it is behind the others."""
        value = element(b, self.name)
        d = descriptor_of(value, None)
        stamp = int.from_bytes(b[4:8], 'big')
        if leg != self.active:
            if leg != self.chosen or d is None or not is_key_start(d) or not (self.active is None or self.ended):
                return False
            self.offset = 0 if self.active is None else self.last + 3000 - stamp
            if self.renumbers and self.active is not None:
                self.number_offset = self.number + 1 - d['number']
            self.active = leg
        self.ended = bool(value is not None and len(value) >= 3 and value[0] >> 6 & 1)
        self.last = (stamp + self.offset) % 2**32
        new = addressed(b, (self.first + len(self.out)) % 65536, self.ssrc, b[1] >> 7)
        place = number_place(b, self.name)
        if self.renumbers and place is not None:
            self.number = (int.from_bytes(b[place:place + 2], 'big') + self.number_offset) % 65536
            new = new[:place] + self.number.to_bytes(2, 'big') + new[place + 2:]
        self.out.append(new[:4] + self.last.to_bytes(4, 'big') + new[8:])
        return True


# ---- the room and its bundles

U8, U16, U32, U64 = 2**8, 2**16, 2**32, 2**64
LINES = {
    'unpublish': [U32], 'packet': [U32, U64, 'hex'], 'tick': [U32, U64], 'join': [U32, U32, 'ssrc', U16, U8, U8], 'leave': [U32], 'aim': [U32, U8, U8],
    'take': [U32], 'resend': [U32, U16], 'missing': [U32], 'key': [U32], 'plead': [U32], 'why': [U32, U64],
    'choose': [U32, U8], 'pump': [U32], 'draw': [U32], 'redraw': [U32, U16],
}


def said(kind, word):
    """The value of a word, or none."""
    if kind == 'ssrc':
        return int(word, 16) if re.fullmatch('[0-9A-Fa-f]{8}', word) else None
    if kind == 'hex':
        return bytes.fromhex(word) if re.fullmatch('([0-9A-Fa-f]{2}){1,2048}', word) else None
    return int(word) if re.fullmatch('0|[1-9][0-9]*', word) and int(word) < kind else None


def read_line(line):
    """The words of a line with their values, or none where it is outside the grammar."""
    if len(line) > 4200:
        return None
    words = line.split(' ')
    kinds = LINES.get(words[0])
    if words[0] == 'publish' and len(words) > 2:
        kinds = {'plain': [U32, 'ssrc', U32], 'layered': [U32, 'ssrc', U32, U8]}.get(words[2])
        words = ['publish ' + words[2], words[1]] + words[3:]
    if words[0] == 'bundle':
        kinds = [U32, U8, 'ssrc', U16, U32, U32] + [U32] * (len(words) == 8)
    if kinds is None or len(words) != len(kinds) + 1:
        return None
    values = [said(kind, word) for kind, word in zip(kinds, words[1:])]
    return None if None in values else [words[0]] + values


class Room:
    def __init__(self):
        self.tracks, self.subscribers, self.bundles = {}, {}, {}
        self.highest_track = self.highest_subscriber = 0

    def answer(self, said):
        word, *rest = said
        return getattr(self, 'do_' + word.replace(' ', '_'))(*rest)

    def begin(self, track, kind, ssrc, hold):
        if track <= self.highest_track:
            return 'refused numberused %d' % self.highest_track
        if len(self.tracks) == 64:
            return 'refused toomany 64'
        if kind in (0, 15):
            return 'refused badextensionid'
        self.highest_track, self.tracks[track] = track, Track(kind, ssrc, hold)
        return 'ok'

    def do_publish_plain(self, track, ssrc, hold):
        return self.begin(track, None, ssrc, hold)

    def do_publish_layered(self, track, ssrc, hold, name):
        return self.begin(track, name, ssrc, hold)

    def do_unpublish(self, track):
        return 'ok' if self.tracks.pop(track, None) else 'refused notrack'

    def work(self, number, items):
        track = self.tracks[number]
        audience = [s for s in self.subscribers.values() if s.track is track]
        for b in items:
            if track.kind is None:
                for s in audience if b is not None else []:
                    s.plain(b)
                continue
            f = track.frame(b)
            if f is None:
                continue
            if f['key']:
                track.plea = False
            for s in audience:
                s.see(f, track.kind)

    def do_packet(self, number, moment, b):
        if number not in self.tracks:
            return 'refused notrack'
        items = self.tracks[number].arrive(moment, b)
        if isinstance(items, str):
            return 'refused ' + items
        self.work(number, items)
        return 'ok'

    def do_tick(self, number, moment):
        if number not in self.tracks:
            return 'refused notrack'
        self.work(number, self.tracks[number].tick(moment))
        return 'ok'

    def do_join(self, number, track, ssrc, first, spatial, temporal):
        if track not in self.tracks:
            return 'refused notrack'
        if number <= self.highest_subscriber:
            return 'refused numberused %d' % self.highest_subscriber
        if len(self.subscribers) == 256:
            return 'refused toomany 256'
        self.highest_subscriber = number
        self.subscribers[number] = Subscriber(self.tracks[track], self.tracks[track].kind, ssrc, first, (spatial, temporal))
        return 'ok'

    def owner(self, number):
        return next((b for b, bundle in self.bundles.items() if number in bundle.legs), None)

    def do_leave(self, number):
        if self.owner(number) is not None:
            return 'refused bound %d' % self.owner(number)
        return 'ok' if self.subscribers.pop(number, None) else 'refused nosubscriber'

    def of(self, number, does):
        return does(self.subscribers[number]) if number in self.subscribers else 'refused nosubscriber'

    def do_aim(self, number, spatial, temporal):
        def aim(s):
            s.wish = (spatial, temporal)
            return 'ok'
        return self.of(number, aim)

    def do_take(self, number):
        if self.owner(number) is not None:
            return 'refused bound %d' % self.owner(number)

        def take(s):
            b = s.take()
            return 'empty' if b is None else 'packet ' + b.hex()
        return self.of(number, take)

    def do_resend(self, number, seq):
        return self.of(number, lambda s: s.again(seq))

    def do_missing(self, track):
        return ' '.join(['missing'] + [str(n) for n in self.tracks[track].missing()]) if track in self.tracks else 'refused notrack'

    def do_key(self, number):
        if number not in self.tracks:
            return 'refused notrack'
        track = self.tracks[number]
        wanted = track.kind is not None and (track.plea or any(s.track is track and s.target is None for s in self.subscribers.values()))
        return 'key yes' if wanted else 'key no'

    def do_plead(self, number):
        def plead(s):
            if s.track not in self.tracks.values():
                return 'refused notrack'
            if s.kind is None:
                return 'refused plain'
            s.track.plea = True
            return 'ok'
        return self.of(number, plead)

    def do_why(self, number, frame):
        return self.of(number, lambda s: s.why(frame))

    def do_bundle(self, number, name, ssrc, first, *legs):
        highest = max(self.bundles, default=0)
        if number <= highest:
            return 'refused numberused %d' % highest
        if len(self.bundles) == 64:
            return 'refused toomany 64'
        if any(leg not in self.subscribers for leg in legs):
            return 'refused nosubscriber'
        for leg in legs:
            if self.owner(leg) is not None:
                return 'refused bound %d' % self.owner(leg)
            if legs.count(leg) > 1:
                return 'refused bound %d' % number
        if any(self.subscribers[leg].kind != name for leg in legs):
            return 'refused wrongkind'
        self.bundles[number] = Bundle(name, ssrc, first, legs)
        return 'ok'

    def do_choose(self, number, leg):
        if number not in self.bundles:
            return 'refused nobundle'
        bundle = self.bundles[number]
        if not 1 <= leg <= len(bundle.legs):
            return 'refused noleg %d' % len(bundle.legs)
        bundle.chosen = leg
        if bundle.active != leg:
            self.do_plead(bundle.legs[leg - 1])
        return 'ok'

    def do_pump(self, number):
        if number not in self.bundles:
            return 'refused nobundle'
        bundle, counts = self.bundles[number], [0, 0]
        order = [leg for leg in (bundle.active, bundle.chosen) if leg is not None] + list(range(1, len(bundle.legs) + 1))
        for leg in dict.fromkeys(order):
            while bundle.queued() < 512:
                b = self.subscribers[bundle.legs[leg - 1]].take()
                if b is None:
                    break
                counts[0 if bundle.goes_out(leg, b) else 1] += 1
        return 'pumped %d %d' % tuple(counts)

    def do_draw(self, number):
        if number not in self.bundles:
            return 'refused nobundle'
        bundle = self.bundles[number]
        if bundle.queued() == 0:
            return 'empty'
        bundle.drawn += 1
        return 'packet ' + bundle.out[bundle.drawn - 1].hex()

    def do_redraw(self, number, seq):
        if number not in self.bundles:
            return 'refused nobundle'
        bundle = self.bundles[number]
        return again(bundle.out, bundle.drawn, bundle.first, seq)


def replies(script):
    """The replies to a script's lines, and the number of the line at which it ends, if one does."""
    room, answers = Room(), []
    lines = script.split('\n')
    for n, line in enumerate(lines[:-1] if lines[-1] == '' else lines, 1):
        line = line[:-1] if line.endswith('\r') else line
        if line == '' or line.startswith('#'):
            continue
        said = read_line(line)
        if said is None:
            return answers, n
        answers.append(room.answer(said))
    return answers, None


# ---- random scripts

# What follows the frame number in the first descriptor of a key frame: structures of one target, of one whose other frames are required, and of two.
KEYS = ['80003a410100', '80003b410100', '800123ee88450422e002111110']


class Stream:
    """What a publisher sends on a layered track."""

    def __init__(self, dice, track, ssrc, name):
        self.dice, self.track, self.ssrc, self.name = dice, track, ssrc, name
        self.seq, self.number = dice.choice([0, 1000, 65530]), dice.choice([0, 1, 65533])
        self.stamp, self.structure, self.begun, self.late = dice.choice([0, 7, 2**32 - 5000]), dice.randrange(3), False, []

    def packet(self, descriptor, payload, marker):
        dice = self.dice
        own = bytes.fromhex(descriptor)
        if dice.random() < .02:
            own = own[:dice.randrange(1, 3)]
        name = self.name if dice.random() < .98 else dice.choice([self.name % 14 + 1, 9])
        others = [(dice.choice([1, 2]), bytes(dice.randrange(1, 4))) for _ in range(dice.choice([0, 0, 0, 1, 2]))]
        found = others + [(name, own)] if dice.random() < .7 else [(name, own)] + others
        two = len(own) > 16 or name > 14 or dice.random() < .1
        head = (lambda n, v: bytes([n, len(v)])) if two else (lambda n, v: bytes([n << 4 | len(v) - 1]))
        block = b''.join(head(n, v) + v + bytes(dice.choice([0, 0, 0, 1])) for n, v in found)
        block += bytes(-len(block) % 4)
        first = 0x90
        body = (b'\x10\x00' if two else b'\xbe\xde') + (len(block) // 4).to_bytes(2, 'big') + block + bytes.fromhex(payload)
        if dice.random() < .02:
            first, body = 0xB0, body + bytes([0, 2])
        if dice.random() < .01:
            first, body = 0x80, body[4 + len(block):]
        self.seq += 1
        ssrc = self.ssrc if dice.random() < .99 else self.ssrc ^ 1
        return (bytes([first, 0x60 | marker << 7]) + (self.seq % 65536).to_bytes(2, 'big') + self.stamp.to_bytes(4, 'big') + ssrc.to_bytes(4,
            'big') + body).hex()

    def frame(self):
        """The packets of a frame, some of them lost, late, repeated or broken."""
        dice = self.dice
        key = not self.begun or dice.random() < .15
        self.begun, self.number = True, self.number + dice.choice([1, 1, 1, 1, 2])
        self.stamp = (self.stamp + dice.choice([3000, 3000, 90])) % 2**32
        template = 0 if key else dice.choice([1, 1, 2, 3] if self.structure == 2 else [1])
        if key and dice.random() < .2:
            self.structure = dice.randrange(3)
        count, made = dice.choice([1, 1, 2, 3]), []
        for i in range(count):
            start, end = i == 0, i == count - 1
            if dice.random() < .02:
                start, end = dice.random() < .5, dice.random() < .5
            more = KEYS[self.structure] if key and i == 0 else ''
            if not key and i == 0 and dice.random() < .15:
                more = dice.choice(['1220', '1200', '44' if self.structure == 2 else '40', '1000', '0' * 8])
            payload = ('183000' if key else '103000') if count == 1 else ['5030aa', 'd0bb', '90cc'][0 if i == 0 else 2 if end else 1]
            if dice.random() < .02:
                payload = dice.choice(['20', '00', '', '10', '9030', '0003aa'])
            marker = int(end and dice.random() < .8)
            made.append(self.packet('%02x%04x%s' % (start << 7 | end << 6 | template, self.number % 65536, more), payload, marker))
        sent = []
        for b in made + self.late:
            luck = dice.random()
            if luck < .05:
                continue
            sent.extend([b, b] if luck < .07 else [b])
        self.late = []
        if dice.random() < .06:
            dice.shuffle(sent)
        if sent and dice.random() < .04:
            self.late = [sent.pop()]
        return sent


def lines_of(seed):
    """The lines of a random script."""
    dice = random.Random(seed)
    moment, streams, subscribers, lines = 0, [], [], []
    usual = dice.choice([4, 4, 4, 1, 14, 200])
    for track in range(1, dice.choice([2, 3, 3, 4]) + 1):
        name = usual if dice.random() < .95 else 5
        ssrc = 0x11111111 * track
        if dice.random() < .04:
            lines.append('publish %d plain %08x %d' % (track, ssrc, dice.choice([0, 50])))
        else:
            lines.append('publish %d layered %08X %d %d' % (track, ssrc, dice.choice([0, 50, 100]), name))
        streams.append(Stream(dice, track, ssrc, name))
    for number in range(1, dice.choice([4, 6, 8, 9]) + 1):
        track = dice.choice(streams).track if number > len(streams) else streams[number - 1].track
        first, spatial, temporal = dice.choice([0, 10, 65534]), dice.choice([0, 1, 3]), dice.choice([0, 1, 7])
        lines.append('join %d %d %08x %d %d %d' % (number, track, 0x22222220 + number, first, spatial, temporal))
        subscribers.append(number)

    bound = []

    def bundle(number):
        count = dice.choice([2, 2, 3])
        unbound = [s for s in subscribers if s not in bound] if dice.random() < .8 else subscribers
        legs = dice.sample(unbound,
            count) if dice.random() < .9 and len(unbound) >= count else [dice.choice(subscribers + [99] * (dice.random() < .3)) for _ in range(count)]
        bound.extend(legs)
        return 'bundle %d %d %08x %d %s' % (number, usual if dice.random() < .9 else 5, 0x55555555, dice.choice([0, 10, 65530]), ' '.join(map(str, legs)))

    others = 0
    for _ in range(dice.choice([1, 2, 3])):
        others += 1
        lines.append(bundle(others))
    for _ in range(dice.choice([30, 60, 120])):
        word = dice.choices(['frame', 'pump', 'draw', 'choose', 'redraw', 'tick', 'bundle', 'room', 'many', 'broken'],
                            [40, 18, 14, 8, 4, 5, 3, 8, .3, .15])[0]
        number = dice.choice([1, 1, 1, 1, min(2, others), min(2, others), others, others, others, others + 1])
        if word == 'frame' or word == 'many':
            for _ in range(1 if word == 'frame' else dice.choice([20, 300, 600])):
                stream = dice.choice(streams)
                moment += dice.choice([0, 5, 33])
                lines += ['packet %d %d %s' % (stream.track, moment, b) for b in stream.frame()]
        elif word == 'pump':
            lines.append('pump %d' % number)
        elif word == 'draw':
            lines += ['draw %d' % number] * (1 if number > others else dice.choice([1, 1, 2, 5, 5, 600 if dice.random() < .05 else 12]))
        elif word == 'choose':
            lines.append('choose %d %d' % (number, dice.choice([1, 2, 2, 3, 0, 4])))
        elif word == 'redraw':
            lines.append('redraw %d %d' % (number, dice.choice([0, 9, 10, 11, 12, 65530, 65535, 3])))
        elif word == 'tick':
            moment += dice.choice([0, 50, 200])
            lines += ['tick %d %d' % (stream.track, moment) for stream in streams]
        elif word == 'bundle':
            others += dice.random() < .8
            lines.append(bundle(others))
        elif word == 'room':
            s, t = dice.choice(subscribers + [77]), dice.choice(streams).track
            lines.append(dice.choice([
                'take %d' % s, 'take %d' % s, 'leave %d' % s, 'aim %d %d %d' % (s, dice.choice([0, 1]), dice.choice([0, 1])), 'resend %d %d' % (s,
                    dice.choice([0, 10, 11])),
                'missing %d' % t, 'key %d' % t, 'key %d' % t, 'plead %d' % s, 'why %d %d' % (s, dice.randrange(20)), 'why %d %d' % (s,
                    65536 + dice.randrange(10)),
                'join %d %d 22222222 0 1 1' % (len(subscribers) + 1, t), '# nothing', '', 'unpublish %d' % (t if dice.random() < .1 else 9)]))
            if lines[-1].startswith('join') and dice.random() < 1:
                subscribers.append(len(subscribers) + 1)
        else:
            lines.append(dice.choice(['pump', 'pump x', 'draw 01', 'choose 1 256', 'bundle 3 4 5555555 0 1 2', 'bundle 3 4 55555555 0 1',
                'bundle 3 4 55555555 0 1 2 3 4', 'redraw 1 65536',
                                      'draw  1', 'take 4294967296', 'Pump 1', 'packet 1 0 9', 'bundle 3 256 55555555 0 1 2', 'choose 1', 'nonsense']))
    return lines


def compare(count, command):
    """Random scripts through a command, each by itself: what it writes, and whether it ends with 0, or with 5 at a line outside the grammar."""
    words, lines = {}, 0
    for seed in range(count):
        text = '\n'.join(lines_of(seed)) + '\n'
        answers, broken = replies(text)
        for answer in answers:
            word = ' '.join(answer.split(' ')[:2]) if answer.startswith('refused') else answer.split(' ')[0]
            words[word] = words.get(word, 0) + 1
        wanted = answers + (['line %d' % broken] if broken else [])
        ran = subprocess.run(command, input=text.encode(), stdout=subprocess.PIPE, check=False)
        got = ran.stdout.decode().split('\n')[:-1]
        for n, (one, other) in enumerate(zip(got, wanted), 1):
            if one != other:
                sys.exit('script %d: line %d of what was written is\n%s\nand has to be\n%s' % (seed, n, one, other))
        if len(got) != len(wanted) or ran.returncode != (5 if broken else 0):
            sys.exit('script %d: %d lines and status %d; %d lines and %d have to be' % (seed, len(got), ran.returncode, len(wanted), 5 if broken else 0))
        lines += len(wanted)
    print('%d scripts, %d replies: no difference' % (count, lines))
    print(' '.join('%s:%d' % pair for pair in sorted(words.items())))


def main(words):
    if words[:1] == ['renumbered']:
        Bundle.renumbers, words = True, words[1:]
    if words[:1] == ['replies'] and len(words) == 1:
        answers, broken = replies(sys.stdin.read())
        print('\n'.join(answers))
        if broken:
            sys.exit('line %d' % broken)
    elif words[:1] == ['script'] and len(words) == 2:
        print('\n'.join(lines_of(int(words[1]))))
    elif words[:1] == ['compare'] and len(words) > 2:
        compare(int(words[1]), words[2:])
    else:
        sys.exit(__doc__)


if __name__ == '__main__':
    main(sys.argv[1:])
