#!/usr/bin/env python3
"""selection_model: random timelines of a layered track with four subscribers, and what becomes of each frame for each of them, worked out from the
definitions of forwarding_model (Targets, Selection, Standing) on whole lists of passed frames. It shares no code with the program.

usage: tests/models/selection_model.py write TIMELINES SEED FILE      writes the timelines, as bench/timelines reads them
       tests/models/selection_model.py tell TIMELINES SEED            prints a line for each frame and subscriber

example: tests/models/selection_model.py tell 1 7 | head -4
"""
import random
import sys

ABSENT, DISCARDABLE, SWITCH, REQUIRED = range(4)
SUBSCRIBERS = 4


# ---- timelines

class Shape:
    """What an epoch's frames have in common: targets with their layers, chains, and which protects each target."""

    def __init__(self, rng):
        self.targets = rng.choice([1, 2, 2, 3, 4, 4, 6, 9, 12, 31, 32])
        self.chains = rng.choice([0, 1, 1, 2, 4, 32])
        pairs = [None if rng.random() < 0.1 else (rng.randrange(3), rng.randrange(4)) for _ in range(32)]
        if rng.random() < 0.05:
            pairs = [pair and (rng.randrange(128), rng.randrange(256)) for pair in pairs]
        self.pairs = pairs
        self.guards = [rng.randrange(self.chains) if self.chains else 0 for _ in range(32)]


def distance_of(rng, most):
    if rng.random() < 0.85:
        return rng.randint(1, min(most, 3))
    return rng.choice([1, 62, 63, 64, 65, 66, 127, 128, 255, 4095, 4096]) % (most + 1) or 1


def timeline(rng):
    """A list of wishes, and then of frames and changed wishes."""
    wish = lambda: rng.choice([(0, 0), (1, 1), (2, 3), (1, 3), (2, 0), (255, 255), (rng.randrange(3), rng.randrange(4))])
    number = rng.choice([0, 1, 5, 70, 5000])
    events = [('begin', [wish() for _ in range(SUBSCRIBERS)], number)]
    shape, epoch, start, mask = Shape(rng), 0, 0, 0
    switching = rng.choice([0.02, 0.2, 0.5])
    absent = rng.choice([0.05, 0.3])
    for place in range(rng.randint(1, 40)):
        if rng.random() < 0.08:
            events.append(('aim', rng.randrange(SUBSCRIBERS), wish()))
        delta = 1 if rng.random() < 0.85 else rng.choice([2, 3, 62, 63, 64, 65, 66, 200, 4096, 4097])
        number += delta
        fresh = place == 0 or rng.random() < 0.08
        if fresh:
            epoch, start = epoch + 1, number
            shape = Shape(rng)
        if fresh or rng.random() < 0.06:
            mask = 2**shape.targets - 1 if rng.random() < 0.6 else rng.getrandbits(shape.targets)
        key = fresh if rng.random() < 0.95 else rng.random() < 0.5
        kinds = [ABSENT if rng.random() < absent else SWITCH if rng.random() < switching else rng.choice([DISCARDABLE, REQUIRED]) for _ in range(32)]
        many = 0 if key and rng.random() < 0.8 else rng.choice([0, 1, 1, 1, 2, 2, 3, 16])
        frame = {
            'number': number, 'start': start, 'epoch': epoch, 'key': key, 'fresh': fresh, 'delta': delta,
            'spatial': rng.randrange(3), 'temporal': rng.randrange(4), 'mask': mask,
            'targets': shape.targets, 'dtis': kinds, 'pairs': shape.pairs, 'chains': shape.chains, 'guards': shape.guards,
            'links': [0 if rng.random() < 0.3 else distance_of(rng, 255) for _ in range(32)],
            'refs': [distance_of(rng, max(1, number - start) if rng.random() < 0.9 else 4096) for _ in range(many)],
            'packets': rng.choice([1, 1, 1, 2, 3, 513]) if rng.random() < 0.1 else 1,
        }
        queued = [rng.choice([509, 510, 511, 512, 600]) if rng.random() < 0.05 else rng.randrange(4) for _ in range(SUBSCRIBERS)]
        events.append(('frame', frame, queued))
    return events


def record_of(event):
    """An event as the 216 bytes that the program reads."""
    if event[0] == 'begin':
        head = bytes([0]) + bytes(part for wish in event[1] for part in wish) + event[2].to_bytes(2, 'little')
    elif event[0] == 'aim':
        head = bytes([2, event[1], *event[2]])
    else:
        frame, queued = event[1], event[2]
        two = lambda n: n.to_bytes(2, 'little')
        head = bytes([1]) + two(frame['delta']) + bytes([frame['key'] | 2 * frame['fresh'], frame['spatial'], frame['temporal']])
        head += bytes([frame['targets'], frame['chains'], len(frame['refs'])]) + two(frame['packets']) + bytes(1) + frame['mask'].to_bytes(4, 'little')
        head += b''.join(map(two, queued)) + bytes(frame['dtis'])
        head += bytes(part for pair in frame['pairs'] for part in pair or (255, 0)) + bytes(frame['guards']) + bytes(frame['links'])
        head += b''.join(map(two, frame['refs']))
    return head.ljust(216, b'\0')


# ---- the definitions

def is_active(frame, target):
    return frame['mask'] >> target & 1 == 1


def is_within(wish, pair):
    return pair is not None and pair[0] <= wish[0] and pair[1] <= wish[1]


def is_allowed(wish, frame, target):
    return is_active(frame, target) and is_within(wish, frame['pairs'][target])


def is_present(frame, target):
    return target < frame['targets'] and frame['dtis'][target] != ABSENT


def best(frame, test):
    """The best of the targets that pass a test: the greatest layers, and of equal ones the lowest index. A target without layers is better than none."""
    passing = [target for target in range(frame['targets']) if test(target)]
    return max(passing, key=lambda target: (frame['pairs'][target], -target)) if passing else None


def is_better(frame, target, other):
    mine, theirs = frame['pairs'][target], frame['pairs'][other]
    return mine is not None and (theirs is None or (mine, -target) > (theirs, -other))


class Standing:
    """A subscriber after some events: its wish, the epoch, all that was passed of it, and the target, ('open', index, number) or ('closed', why)."""

    def __init__(self, wish):
        self.wish, self.epoch, self.passed, self.target = wish, None, [], None
        self.newest, self.opened, self.top = None, False, False

    def frame(self, frame, queued):
        """The verdict on a frame where so many packets are queued; the standing is that after it."""
        number = frame['number']
        if frame['epoch'] != self.epoch:
            self.epoch, self.passed, self.target = frame['epoch'], [], ('closed', f'Unopened {{ since: {number} }}')
        numbers = {passed['number'] for passed in self.passed}
        has = lambda distance: number - distance in numbers
        # the rules on the mask and on the link
        if self.target[0] == 'open':
            index, since = self.target[1:]
            link = frame['links'][frame['guards'][index]]
            if not is_active(frame, index):
                self.target = 'closed', f'Unopened {{ since: {number} }}'
            elif frame['chains'] > 0 and link > 0 and since + link <= number and not has(link):
                self.target = 'closed', f'Link {{ at: {number}, number: {number - link} }}'
        # the rule on opening
        missing = next((distance for distance in frame['refs'] if not has(distance)), None)
        keyed = frame['key'] or any(passed['key'] for passed in self.passed)

        def opens(target):
            begins = frame['dtis'][target] == SWITCH or (frame['key'] and is_present(frame, target))
            better = self.target[0] == 'closed' or not is_allowed(self.wish, frame, self.target[1]) or is_better(frame, target, self.target[1])
            return is_allowed(self.wish, frame, target) and begins and missing is None and keyed and better

        opening = best(frame, opens)
        candidate = self.target if opening is None else ('open', opening, number)
        # the verdict
        aim = best(frame, lambda target: is_allowed(self.wish, frame, target))
        target = candidate[1] if candidate[0] == 'open' else aim
        if target is None or not is_present(frame, target):
            verdict = f'NotOfTarget {{ target: {option(target)} }}'
        elif missing is not None:
            if number < frame['start'] + missing:
                verdict = f'Behind {{ fdiff: {missing}, start: {frame["start"]} }}'
            else:
                verdict = f'Reference {{ number: {number - missing} }}'
        elif candidate[0] == 'closed':
            verdict = candidate[1]
        elif queued + frame['packets'] > 512:
            verdict = f'Full {{ queued: {queued}, needed: {frame["packets"]} }}'
        else:
            verdict = 'Passed'
        passes = candidate[0] == 'open' and is_present(frame, candidate[1]) and missing is None and queued + frame['packets'] <= 512
        assert passes == (verdict == 'Passed')
        self.opened = self.top = False
        if passes:
            self.target = candidate
            self.passed.append(frame)
            self.opened = opening is not None
            pair = frame['pairs'][candidate[1]]
            self.top = pair is not None and pair[0] == frame['spatial']
        self.newest = frame
        return verdict

    def told(self):
        """What is told of the target: its index, its layers at the last frame, whether it is the aim, and of the last frame."""
        index = self.target[1] if self.target and self.target[0] == 'open' else None
        pair = self.newest['pairs'][index] if index is not None and self.newest else None
        aim = best(self.newest, lambda target: is_allowed(self.wish, self.newest, target)) if self.newest else None
        layers = 'None' if pair is None else f'Some(Wish {{ spatial: {pair[0]}, temporal: {pair[1]} }})'
        say = lambda is_so: 'true' if is_so else 'false'
        return f'{option(index)} {layers} {say(index is not None and aim == index)} {say(self.opened)} {say(self.top)}'


def option(value):
    return 'None' if value is None else f'Some({value})'


def main():
    if len(sys.argv) < 4:
        sys.exit(print(__doc__.strip()))
    rng = random.Random(int(sys.argv[3]))
    timelines = (timeline(rng) for _ in range(int(sys.argv[2])))
    if sys.argv[1] == 'write':
        with open(sys.argv[4], 'wb') as file:
            for events in timelines:
                file.write(b''.join(map(record_of, events)))
        return
    for events in timelines:
        for event in events:
            if event[0] == 'begin':
                subscribers = [Standing(wish) for wish in event[1]]
            elif event[0] == 'aim':
                subscribers[event[1]].wish = event[2]
            else:
                for subscriber, queued in zip(subscribers, event[2]):
                    verdict = subscriber.frame(event[1], queued)
                    print(f'{verdict} {subscriber.told()}')


if __name__ == '__main__':
    main()
