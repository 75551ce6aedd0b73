#!/usr/bin/env python3
"""counts_model: what a room counts of its subscribers and tracks over a script. Packets, their order, frames, verdicts and queues are those of
simulcast_model.py, which works them out from the rules; here they are counted. It shares no code with the program.

usage: tests/models/counts_model.py changes <SCRIPT                      a line for each subscriber or track whose counts a call changed
       tests/models/counts_model.py script SEED                          a random script
       tests/models/counts_model.py compare COUNT COMMAND [SCRIPT ..]    COUNT random scripts, and these, through a command that writes such lines

A line has the number of the call's line, `subscriber` or `track`, its number, and its counts in the order of zoftemar.h, or `none` once it isn't live.

example: tests/models/counts_model.py changes < examples/layered.script
"""
import random
import subprocess
import sys
from collections import Counter
from pathlib import Path

if sys.argv[1:] in (['-h'], ['--help']):
    sys.exit(print(__doc__.strip()))
sys.dont_write_bytecode = True
sys.path.insert(0, str(Path(__file__).resolve().parent.parent.parent / 'tools'))
import layered_script
import simulcast_model

# A verdict's word for each count of frames. `hole` isn't among them: no frame has it.
VERDICTS = ['passed', 'notoftarget', 'behind', 'reference', 'full', 'link', 'unopened']
NAMES = {
    'subscriber': VERDICTS + ['queued', 'taken', 'resent', 'left_out', 'waiting'],
    'track': ['arrived', 'given_up', 'frames', 'key_frames', 'unframed'],
}

# ---- what is counted


class Track(simulcast_model.Track):
    def __init__(self, *given):
        super().__init__(*given)
        self.first, self.arrived, self.frames, self.key_frames, self.framed = None, 0, 0, 0, 0

    def arrive(self, moment, b):
        items = super().arrive(moment, b)
        if isinstance(items, list):
            self.first = int.from_bytes(b[2:4], 'big') if self.first is None else self.first
            self.arrived += len(items) - items.count(None)
        return items

    def tick(self, moment):
        items = super().tick(moment)
        self.arrived += len(items) - items.count(None)
        return items

    def frame(self, b):
        f = super().frame(b)
        if f is not None:
            self.frames, self.key_frames, self.framed = self.frames + 1, self.key_frames + f['key'], self.framed + len(f['packets'])
        return f

    def counts(self):
        # Each number from the first to the one that is waited for came in order or was given up.
        numbers = 0 if self.first is None else self.next - self.first
        unframed = 0 if self.kind is None else self.arrived - self.framed
        return self.arrived, numbers - self.arrived, self.frames, self.key_frames, unframed


class Subscriber(simulcast_model.Subscriber):
    def __init__(self, *given):
        super().__init__(*given)
        self.frames, self.resent, self.left_out = Counter(), 0, 0

    def plain(self, b):
        self.left_out += self.queued() == 512
        super().plain(b)

    def see(self, f, name):
        super().see(f, name)
        self.frames[self.verdicts[f['number']].split(' ')[0]] += 1

    def again(self, seq):
        reply = super().again(seq)
        self.resent += reply.startswith('packet ')
        return reply

    def counts(self):
        return *(self.frames[word] for word in VERDICTS), len(self.out), self.taken, self.resent, self.left_out, self.queued()

    def recounted(self):
        """The frames of each verdict, counted in the list of all verdicts."""
        return [sum(verdict.split(' ')[0] == word for verdict in self.verdicts.values()) for word in VERDICTS]


class Room(simulcast_model.Room):
    def begin(self, track, kind, ssrc, hold):
        reply = super().begin(track, kind, ssrc, hold)
        if reply == 'ok':
            self.tracks[track] = Track(kind, ssrc, hold)
        return reply

    def do_join(self, number, track, ssrc, first, spatial, temporal):
        reply = super().do_join(number, track, ssrc, first, spatial, temporal)
        if reply == 'ok':
            self.subscribers[number] = Subscriber(self.tracks[track], self.tracks[track].kind, ssrc, first, (spatial, temporal))
        return reply


def calls_of(text):
    """The calls of a script with the numbers of their lines, up to the first line outside the grammar of `run`."""
    for n, line in enumerate(text.split('\n'), 1):
        line = line[:-1] if line.endswith('\r') else line
        if line == '' or line.startswith('#'):
            continue
        call = simulcast_model.read_line(line)
        if call is None or call[0] in ('bundle', 'choose', 'pump', 'draw', 'redraw'):
            return
        yield n, line, call


def changes(text, totals=None):
    """The lines that say which counts each call changed."""
    room, told, lines = Room(), {}, []
    for n, _, call in calls_of(text):
        room.answer(call)
        live = {('subscriber', number): s for number, s in room.subscribers.items()}
        live.update({('track', number): t for number, t in room.tracks.items()})
        for one in sorted(told.keys() - live.keys()):
            lines.append('%d %s %d none' % (n, *one))
            del told[one]
        for one, what in sorted(live.items()):
            counts = what.counts()
            if told.get(one) != counts:
                told[one] = counts
                lines.append('%d %s %d %s' % (n, *one, ' '.join(map(str, counts))))
    for number, s in room.subscribers.items():
        assert list(told['subscriber', number][:7]) == s.recounted()
    if totals is not None:
        for (kind, _), counts in told.items():
            totals.update(dict(zip(NAMES[kind], counts)))
    return lines


# ---- random scripts


class Plain:
    """A publisher of a plain track."""

    def __init__(self, dice, ssrc):
        self.dice, self.ssrc, self.sequence, self.late = dice, ssrc, dice.choice([0, 1000, 65_500]), []

    def packets(self):
        head = bytes([0x80, self.dice.choice([0x60, 0xE0])]) + (self.sequence % 65_536).to_bytes(2, 'big') + bytes(4) + self.ssrc.to_bytes(4, 'big')
        self.sequence += 1
        return [head + bytes(self.dice.randrange(9))]

    def skip(self, numbers):
        self.sequence += numbers


class Layered(Plain):
    """A publisher of two spatial and two temporal layers, whose frames have up to three packets."""

    def __init__(self, dice, ssrc):
        super().__init__(dice, ssrc)
        self.unit = dice.choice([0, 0, 30, 49])

    def packets(self):
        made = []
        for spatial in (0, 1):
            template, count = layered_script.shape(self.unit, spatial)
            for place in range(count):
                b = layered_script.packet(self.sequence + len(made), self.unit, spatial, template, place == 0, place == count - 1)
                made.append(b[:8] + self.ssrc.to_bytes(4, 'big') + b[12:-199])
        self.sequence += len(made)
        self.unit += 1 if self.dice.randrange(20) else 50 - self.unit % 50
        return made


class Small(simulcast_model.Stream):
    """A publisher of one of simulcast_model's structures, with broken packets, masks, and references of its own. It loses packets by itself."""

    def __init__(self, dice, ssrc):
        super().__init__(dice, None, ssrc, 4)

    def packets(self):
        return [bytes.fromhex(b) for b in self.frame()]

    def skip(self, numbers):
        self.seq += numbers


def on_the_way(dice, stream, loss):
    """Packets of a stream as they come: some never, some twice, some late."""
    came = []
    for b in stream.packets() + [late for late in getattr(stream, 'behind', []) if dice.random() < .5]:
        luck = dice.random()
        if luck < loss:
            stream.behind = [b] if luck < loss / 3 else []
        else:
            came += [b, b] if luck < loss + .03 else [b]
    if dice.random() < .05:
        dice.shuffle(came)
    return came


def lines_of(seed):
    """The lines of a random script."""
    dice = random.Random(seed)
    lines, streams, subscribers, highest, moment = [], {}, {}, [0, 0], dice.choice([0, 7, 10**9])
    loss, takers = dice.choice([0, .02, .1]), dice.choice([1, 1, .3, 0])

    def publish():
        highest[0] += dice.choice([1, 1, 1, 7])
        kind, ssrc = dice.choice([Plain, Layered, Layered, Small, Small]), dice.getrandbits(32)
        streams[highest[0]] = kind(dice, ssrc)
        hold = dice.choice([0, 50, 100, 1000, 2**32 - 1])
        lines.append('publish %d %s %08x %d%s' % (highest[0], 'plain' if kind is Plain else 'layered', ssrc, hold, '' if kind is Plain else ' 4'))

    def join():
        highest[1] += dice.choice([1, 1, 1, 5])
        subscribers[highest[1]] = first = dice.choice([0, 7, 65_530])
        track = dice.choice(list(streams) or [1])
        lines.append('join %d %d %08x %d %d %d' % (highest[1], track, dice.getrandbits(32), first, dice.choice([0, 1, 3]), dice.choice([0, 1, 7])))

    def frames(many, of):
        nonlocal moment
        for _ in range(many):
            track = dice.choice(of)
            moment += dice.choice([0, 1, 5, 33])
            for b in on_the_way(dice, streams[track], loss):
                lines.append('packet %d %d %s' % (track, moment, b.hex()))
                if dice.random() < takers:
                    lines.extend('take %d' % s for s in subscribers)

    def other():
        track, number = dice.choice(list(streams) + [highest[0] + 1]), dice.choice(list(subscribers) + [highest[1] + 1])
        first = subscribers.get(number, 0)
        lines.append(dice.choice([
            'aim %d %d %d' % (number, dice.choice([0, 1, 255]), dice.choice([0, 1])), 'plead %d' % number, 'why %d %d' % (number, dice.randrange(90)),
            'missing %d' % track, 'key %d' % track, 'join %d %d 00000001 0 1 1' % (highest[1], track), 'publish %d plain 00000001 0' % highest[0],
            'packet %d %d %s' % (track, moment, dice.choice(['8060', '90e0000100000000ffffffff', '40' * 30])),
            'resend %d %d' % (number, (first + dice.randrange(40)) % 65_536), 'resend %d %d' % (number, first),
        ]))
        if dice.random() < .1 and number in subscribers:
            del subscribers[number]
            lines.append('leave %d' % number)
        elif dice.random() < .03 and len(streams) > 1 and track in streams:
            del streams[track]
            lines.append('unpublish %d' % track)

    for _ in range(dice.choice([1, 2, 3])):
        publish()
    for _ in range(dice.choice([1, 3, 5])):
        join()
    for _ in range(dice.choice([20, 60, 120])):
        word = dice.choices(['frames', 'take', 'tick', 'skip', 'other', 'publish', 'join', 'crowd'], [30, 12, 10, 1, 12, .6, 2, .5])[0]
        if word == 'frames':
            frames(1, list(streams))
        elif word == 'crowd':
            frames(dice.choice([100, 300, 560]), [dice.choice(list(streams))])
        elif word == 'take':
            lines += ['take %d' % number for number in subscribers for _ in range(dice.choice([1, 4, 40]))]
        elif word == 'tick':
            moment += dice.choice([0, 50, 100, 1000])
            lines += ['tick %d %d' % (track, moment) for track in streams]
        elif word == 'skip':
            streams[dice.choice(list(streams))].skip(dice.choice([1, 3, 1022, 1023, 1024, 1500, 30_000]))
        elif word == 'publish':
            publish()
        elif word == 'join':
            join()
        else:
            other()
    return lines


def compare(count, command, files):
    """Scripts through a command, each by itself: what it writes has to be what the model says."""
    totals, lines, calls, scripts = Counter(), 0, 0, 0
    texts = (('script %d' % seed, '\n'.join(lines_of(seed)) + '\n') for seed in range(count))
    others = ((file, Path(file).read_text('utf-8', 'replace')) for file in files)
    for name, text in (one for group in (texts, others) for one in group):
        wanted = changes(text, totals)
        given = ''.join('%d %s\n' % (n, line) for n, line, _ in calls_of(text))
        ran = subprocess.run(command, input=given, stdout=subprocess.PIPE, text=True, check=False)
        got = ran.stdout.split('\n')[:-1]
        for one, other in zip(got, wanted):
            if one != other:
                sys.exit('%s: what was written is\n%s\nand has to be\n%s' % (name, one, other))
        if len(got) != len(wanted) or ran.returncode != 0:
            sys.exit('%s: %d lines and status %d; %d lines and 0 have to be' % (name, len(got), ran.returncode, len(wanted)))
        lines, calls, scripts = lines + len(wanted), calls + given.count('\n'), scripts + 1
    print('%d scripts, %d calls, %d changes: no difference' % (scripts, calls, lines))
    print(' '.join('%s:%d' % (word, totals[word]) for words in NAMES.values() for word in words))
    never = [word for words in NAMES.values() for word in words if totals[word] == 0]
    if never and count >= 100:
        sys.exit('never counted: ' + ' '.join(never))


def main(words):
    if words == ['changes']:
        print('\n'.join(changes(sys.stdin.read())))
    elif words[:1] == ['script'] and len(words) == 2:
        print('\n'.join(lines_of(int(words[1]))))
    elif words[:1] == ['compare'] and len(words) > 2:
        compare(int(words[1]), words[2], words[3:])
    else:
        sys.exit(__doc__)


if __name__ == '__main__':
    main(sys.argv[1:])
