"""Simulcast of the example in a headless Chromium, on the library: what test.py --simulcast runs. One page publishes three sizes, another one plays them as
one stream and changes the size ten times up and ten times down. No change may take above a second, no gap between two pictures be above 500 ms, and the
browser may count no freeze.

shared  Chromium numbers the frames of all sizes in one row, so numbers rise at each change
own     Chromium numbers each size by itself, from a random number on: some changes are to higher numbers, and some to lower ones
lost    the same, while 3 % of the RTP packets are lost before the room and 3 % behind it
off     as own, without frame numbers that go on over a change: here a gap above 500 ms has to be seen
"""
import os
import subprocess
import time

from browsers import GAP, HERE, PROXY, SOON, Browser, complain, gate, longest_gap, lose, machine

OWN = '--force-fieldtrials=WebRTC-GenericDescriptorAuth/Disabled/'   # so Chromium numbers each size by itself
STEPS = 2, 1, 2, 0, 1, 0                                             # sizes, from 0 on: up and down in turn
FAR = 100                                                            # frames: numbers that differ by less are those of frames lost or skipped
HEAD = 'row', 'change', 'frame numbers rise by', 'another size after', 'longest gap', 'of what came into the room', 'budget', 'load'
table = []


def line(*cells):
    cells = *cells, f'{os.getloadavg()[0]:.0f}'
    table.append(cells)
    print(f'| {" | ".join(map(str, cells))} |', flush=True)


class Run:
    """A page that publishes three sizes, and one that plays them."""

    def __init__(self, browser, row):
        self.browser, self.row, self.size = browser, row, 0
        self.publish()
        while row != 'shared' and not any(abs(self.rise(0, size)) > FAR for size in (1, 2)):   # random numbers may be near each other
            browser.shut(self.publisher)
            self.publish()
        self.player = browser.open(f'http://127.0.0.1:{PROXY}/sizes.html{"?numbers=own" if row == "off" else ""}')
        self.player.wait('seen.length > 20', 40, 'the first pictures')
        self.frozen = self.player.run(self.FREEZES)

    FREEZES = "statsOf(pc, 'inbound-rtp').then(s => s.freezeCount)"

    def publish(self):
        self.publisher = self.browser.open(f'http://127.0.0.1:{PROXY}/publish.html?simulcast=1&start=1&mode=L1T1&size=960x540&fps=10&kbps=900')
        self.publisher.wait('numbers.filter(n => n >= 0).length === 3', 40, 'the third size')

    def rise(self, old, new):
        """By how much the numbers of one size are above those of another, modulo 65,536; negative where they are below."""
        numbers = self.publisher.run('numbers')
        return (numbers[new] - numbers[old] + 32768) % 65536 - 32768

    def change(self, size, seconds):
        """The rise of the frame numbers at a change, milliseconds until another size, and the longest gap meanwhile. Beside it in the table is the longest gap
        of both sizes on their way into the room: what is as long there is the publisher's own, on a busy machine say."""
        rise, old, width = self.rise(self.size, size), self.size, self.player.run('seen[seen.length - 1][1]')
        at = self.player.run(f'choose({size}), Date.now()')
        time.sleep(seconds)
        shown = self.player.run(f'[...seen.filter(picture => picture[0] >= {at} - 300), [Date.now()]]')   # a gap that still lasts is one
        came = [longest_gap(self.publisher.run(f'brought[{s}].filter(frame => frame[0] >= {at} - 300)')) for s in (old, size)]
        took = next((picture[0] - at for picture in shown[:-1] if picture[0] > at and picture[1] != width), None)
        self.size, gap = size, longest_gap(shown)
        line(self.row, f'{"qhf"[old]} to {"qhf"[size]}', rise, took, gap, max(came), GAP)
        return rise, took, gap

    def all(self):
        return [self.change(STEPS[place % 6], 2.5) for place in range(20)]


def shared(run):
    made = run.all()
    smooth(run, made)
    if any(rise < -FAR for rise, _, _ in made):
        complain('shared: the browser numbers each size by itself')


def own(run):
    made = run.all()
    smooth(run, made)
    if not any(rise > FAR for rise, _, _ in made) or not any(rise < -FAR for rise, _, _ in made):
        complain(f'{run.row}: there was no change to higher numbers, or none to lower ones')


def lost(run):
    lose(0.03, 0.03)
    own(run)
    lose(0)


def smooth(run, made):
    frozen = run.player.run(run.FREEZES) - run.frozen
    slowest, gap = max((took or 60000 for _, took, _ in made)), max(gap for _, _, gap in made)
    print(f'{run.row}: {len(made)} changes, {sum(rise < -FAR for rise, _, _ in made)} of them to lower numbers; another size after at most {slowest} ms, '
          f'longest gap {gap} ms, freezes that the browser counted: {frozen}; load {os.getloadavg()[0]:.0f}', flush=True)
    if slowest > SOON or gap > GAP or frozen:
        complain(f'{run.row}: another size after {slowest} ms, a gap of {gap} ms, {frozen} freezes')


def off(run):
    """Up to the first change to lower numbers, and ten seconds from there on."""
    for size in STEPS:
        falls = run.rise(run.size, size) < -FAR
        gap = run.change(size, 10 if falls else 2.5)[2]
        if falls:
            break
    lasts = run.player.run('Date.now() - seen[seen.length - 1][0]')
    print(f'off: a gap of {gap} ms where numbers fall' + (', which lasts' if lasts > GAP else ', and pictures after it'), flush=True)
    if gap <= GAP:
        complain(f'off: no freeze, though frame numbers fell: {gap} ms')


ROWS = {row.__name__: row for row in (shared, own, lost, off)}


def rows(asked, pictures):
    print(f'| {" | ".join(HEAD)} |\n|' + '---|' * len(HEAD), flush=True)
    for name in asked or ROWS:
        with open(f'{HERE}/out/simulcast.log', 'w') as log:
            gateway, browser = gate(subprocess.DEVNULL, log), Browser(*[OWN] if name != 'shared' else [])
            try:
                run = Run(browser, name)
                ROWS[name](run)
                if pictures:
                    run.player.shoot(f'{pictures}/sizes_{name}.png')
            except Exception as fault:
                complain(f'{name}: {fault}')
            finally:
                browser.end()
                gateway.end()
    with open(f'{HERE}/out/simulcast.tsv' if asked else f'{HERE}/simulcast.tsv', 'w') as out:
        print(f'# test.py --simulcast {" ".join(asked)}: {machine()}. Milliseconds but for numbers of frames.', file=out)
        for cells in (HEAD, *table):
            print(*cells, sep='\t', file=out)
