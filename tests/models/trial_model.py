#!/usr/bin/env python3
"""trial_model: what `sfu trial FRAMES START LOSS` has to write, worked out apart from the program: from the rules of the stream, of the order of
packets, of whole frames and of selection, on lists and sets of plain numbers, without a packet's bytes. It shares no code and no text with it.

usage: tests/models/trial_model.py FRAMES START LOSS

example: tests/models/trial_model.py 1000 7 5
"""
import sys

if sys.argv[1:] in (['-h'], ['--help']):
    sys.exit(print(__doc__.strip()))

HOLD = 50
# Spatial and temporal layer, with the chain that protects it, of each decode target, the best first.
TARGETS = [(1, 1, 1), (1, 0, 1), (0, 1, 0), (0, 0, 0)]
# Of each template: an indication for each target (0 absent, 1 discardable, 2 switch, 3 required), distances to references, links of the chains.
TEMPLATES = [
    ([3, 3, 2, 2], [], [0, 0]),
    ([3, 3, 2, 2], [4], [4, 3]),
    ([3, 0, 1, 0], [2], [2, 1]),
    ([2, 2, 0, 0], [1], [1, 1]),
    ([2, 2, 0, 0], [1, 4], [1, 1]),
    ([1, 0, 0, 0], [1, 2], [3, 2]),
]
WISHES = [(1, 1), (1, 0), (0, 0)]


def words(start):
    """The words of PCG XSH RR 64/32 on stream 0."""
    mask, increment, multiplier = 2**64 - 1, 1, 6364136223846793005
    state = ((start + increment) * multiplier + increment) & mask
    while True:
        mixed = ((state >> 18 ^ state) >> 27) & 0xFFFFFFFF
        turn = state >> 59
        state = (state * multiplier + increment) & mask
        yield (mixed >> turn | mixed << (-turn & 31)) & 0xFFFFFFFF


def made(frames):
    """Each packet: its frame, its part, whether it is the frame's first and whether it is its last."""
    for frame in range(frames):
        count = 2 if frame % 2 else 3 if frame // 2 % 50 == 0 else 1
        for part in range(count):
            yield frame, part, part == 0, part == count - 1


def stream(frames, start, loss, counts):
    """What is sent: ('packet', moment, number, packet) and ('tick', moment)."""
    held = None
    draws = words(start)
    packets = list(made(frames))
    for number, packet in enumerate(packets):
        frame, part, first, last = packet
        word = next(draws)
        sent = ('packet', 33 * (frame // 2), number, packet)
        counts['packets'] += 1
        counts['frames'] += first
        if word % 100 < loss:
            counts['lost'] += 1
        elif word // 100 % 100 < loss:
            counts['repeated'] += 1
            yield sent
            yield sent
            if held:
                yield held
            held = None
        elif word // 10000 % 100 < loss and held is None:
            counts['swapped'] += 1
            held = sent
        else:
            yield sent
            if held:
                yield held
            held = None
        if number == len(packets) - 1 and held:
            yield held
        if last and (frame % 2 or frame == frames - 1):
            yield 'tick', 33 * (frame // 2)
    yield 'tick', 33 * ((frames - 1) // 2) + 1000


class Order:
    """Packets in order of their numbers; a gap is given up once the packet behind it has waited for so long."""

    def __init__(self):
        self.next = None
        self.held = {}
        self.moment = 0

    def run(self):
        items = []
        while self.next in self.held:
            items.append(self.held.pop(self.next)[1])
            self.next += 1
        return items

    def packet(self, moment, number, packet):
        if self.next is None:
            self.next = number
        if number < self.next or number in self.held:
            return []
        # A gap of so many would be given up at once; the hold gives it up long before.
        assert number < self.next + 1024
        self.moment = max(self.moment, moment)
        self.held[number] = self.moment, packet
        return self.run()

    def tick(self, moment):
        self.moment = max(self.moment, moment)
        items = []
        while self.held:
            lowest = min(self.held)
            if self.held[lowest][0] + HOLD > self.moment:
                break
            if lowest > self.next:
                items.append(None)
            self.next = lowest
            items += self.run()
        return items


class Frames:
    """Runs of packets that make a whole frame: its number, template, epoch and count of packets. Where nothing is in force, no packet is read."""

    def __init__(self):
        self.epoch = None
        self.newest = None
        self.so_far = None

    def item(self, packet):
        if packet is None:
            self.so_far = None
            return None
        frame, part, first, last = packet
        unit, upper = frame // 2, frame % 2
        key_unit = unit % 50 == 0
        if key_unit and not upper and first:
            self.epoch = frame
            self.newest = frame
        elif self.epoch is None:
            return None
        if first:
            self.so_far = [frame, 0]
        elif self.so_far is None or self.so_far[0] != frame:
            self.so_far = None
            return None
        self.so_far[1] += 1
        if not last:
            return None
        count = self.so_far[1]
        self.so_far = None
        if frame < self.newest or frame == self.newest and frame != self.epoch:
            return None
        self.newest = frame
        template = 3 * upper + (0 if key_unit else 1 + unit % 2)
        return frame, template, self.epoch, count


class Subscriber:
    """Which frames pass."""

    def __init__(self, wish):
        self.wish = wish
        self.epoch = None
        self.passed = set()
        self.target = None
        self.opening = None
        self.queued = 0
        self.frames = 0
        self.packets = 0

    def allowed(self, target):
        return TARGETS[target][0] <= self.wish[0] and TARGETS[target][1] <= self.wish[1]

    def frame(self, number, template, epoch, count):
        marks, distances, links = TEMPLATES[template]
        if epoch != self.epoch:
            self.epoch, self.passed, self.target = epoch, set(), None
        if self.target is not None:
            link = links[TARGETS[self.target][2]]
            if link and number - link >= self.opening and number - link not in self.passed:
                self.target = None
        is_key = number == epoch
        referred = all(number - distance in self.passed for distance in distances)
        opens = [
            target for target in range(4)
            if self.allowed(target) and (marks[target] == 2 or is_key and marks[target]) and referred
            and (is_key or epoch in self.passed) and (self.target is None or target < self.target)
        ]
        candidate = min(opens) if opens else self.target
        if candidate is None or not marks[candidate] or not referred or self.queued + count > 512:
            return
        if candidate != self.target:
            self.target, self.opening = candidate, number
        self.passed.add(number)
        self.queued += count
        self.frames += 1
        self.packets += count


def main():
    frames, start, loss = map(int, sys.argv[1:])
    counts = dict.fromkeys(['frames', 'packets', 'lost', 'repeated', 'swapped'], 0)
    order, whole, subscribers = Order(), Frames(), [Subscriber(wish) for wish in WISHES]
    for event in stream(frames, start, loss, counts):
        items = order.packet(*event[1:]) if event[0] == 'packet' else order.tick(*event[1:])
        for item in items:
            frame = whole.item(item)
            if frame:
                for subscriber in subscribers:
                    subscriber.frame(*frame)
        if event[0] == 'tick':
            for subscriber in subscribers:
                subscriber.queued = 0
    print('made {frames} frames {packets} packets\nlost {lost} repeated {repeated} swapped {swapped}'.format(**counts))
    for number, subscriber in enumerate(subscribers, 1):
        print(f'subscriber {number} frames {subscriber.frames} packets {subscriber.packets} complaints 0')


main()
