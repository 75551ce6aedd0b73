"""Conferences of the example in a headless Chromium: what test.py --meet runs, row by row, each with a table's line and a budget.

four    four people for 30 s, each of whom decodes three others and hears a tone of each: no gap between two pictures above 500 ms, sound and picture at
        most 250 ms apart
lost    each mode, five times 6 s, 3 % of the RTP packets lost before the room and 3 % behind it: no gap above 500 ms, four of five drawn pictures decoded
choice  the first packet of a frame to which others refer is lost behind the room, with its first resend, each 4 s: no gap above 500 ms
path    one path falls to 400 kbit/s for 10 s, with a queue of 300 ms: S0 within 3 s, no gap above 1 s, S2 again within 10 s
back    somebody leaves and comes back, twice: all see all after 3 s, no more media sections than before
good    each mode, 8 s, 2 % of the RTP packets lost before the room, resends too: no gap above 700 ms
"""
import os
import subprocess
import sys
import time

from browsers import GAP, HERE, MODES, PROXY, Browser, Choice, Relay, complain, gate, lose, machine

FELL, AGAIN, HELD, GOOD, HOME = 3000, 10000, 1000, 700, 3000   # milliseconds: until S0 and S2, of pictures meanwhile, lost for good, until one is back
HEAD = 'row', 'mode', 'people', 'lost', 'decoded', 'drawn', 'longest gap', 'budget', 'more', 'load'
table, modes = [], list(MODES)   # modes: of the rows that have one for each


class Meeting:
    """Some people, each in a window of their own; the relay of each is in Relay.all, in the order in which they came."""

    def __init__(self, browser, mode, people, fps=None):
        self.browser, self.mode, self.pages, self.relays = browser, mode, [], []
        size, rate, kbps = MODES[mode]
        for name in ('Ann', 'Ben', 'Cleo', 'Dan')[:people]:
            self.pages.append(browser.open(f'http://127.0.0.1:{PROXY}/meet.html?join=1&name={name}&mode={mode}&size={size}&fps={fps or rate}&kbps={kbps}'))
            self.pages[-1].wait("pc && pc.connectionState === 'connected'", 20, name)
            self.relays.append(Relay.all[-1])
        self.complete()

    def complete(self):
        for page in self.pages:
            page.wait(f'others().length === {len(self.pages) - 1} && others().every(tile => tile.seen.length > 2)', 30, 'the first pictures of all others')

    def largest(self):
        """Waits until the first page is sent the largest picture."""
        width = MODES[self.mode][0].split('x')[0]
        self.pages[0].wait(f'others()[0].seen.slice(-1)[0][1] === {width}', 40, 'the largest picture')

    def watch(self, seconds):
        """For each tile of each page: the longest gap between pictures, decoded and drawn pictures, energy of the sound, and how far it is ahead."""
        now = [(page.run('drawn'), page.run('counts()'), page.run('Date.now()')) for page in self.pages]
        time.sleep(seconds)
        drawn = [page.run('drawn') - before[0] for page, before in zip(self.pages, now)]
        tiles = []
        for page, (_, old, begin) in zip(self.pages, now):
            for id, tile in page.run('counts()').items():
                was = old.get(id, {'decoded': 0, 'energy': 0, 'kbps': 0})
                seen = page.run(f'tiles.get("{id}").seen.map(picture => picture[0]).filter(at => at >= {begin})')
                marks = [begin, *seen, begin + seconds * 1000]
                tile.update(gap=max(b - a for a, b in zip(marks, marks[1:])), decoded=tile['decoded'] - was['decoded'], energy=tile['energy'] - was['energy'])
                tiles.append(tile)
        return tiles, drawn

    def end(self):
        for page in self.pages:
            self.browser.shut(page)


def line(row, mode, people, lost, decoded, drawn, gap, budget, more=''):
    cells = row, mode, people, lost, decoded, drawn, gap, budget, more, f'{os.getloadavg()[0]:.0f}'
    table.append(cells)
    print(f'| {" | ".join(map(str, cells))} |', flush=True)
    if gap > budget:
        complain(f'{row}, {mode}: a gap of {gap} ms')


def summed(row, mode, meeting, seconds, lost, budget, more=''):
    tiles, drawn = meeting.watch(seconds)
    decoded, gap = sum(tile['decoded'] for tile in tiles), max(tile['gap'] for tile in tiles)
    line(row, mode, len(meeting.pages), lost, decoded, sum(drawn) * (len(drawn) - 1), gap, budget, more)
    return tiles


# ---- the rows

def four(browser, pictures):
    """Each of four people decodes and hears three others for 30 seconds."""
    meeting = Meeting(browser, 'L2T2', 4, 10)
    time.sleep(3)
    tiles = summed('four people, 30 s', 'L2T2', meeting, 30, '–', GAP)
    silent = sum(tile['energy'] <= 0 for tile in tiles)
    ahead = sorted(abs(tile['ahead']) for tile in tiles if tile['ahead'] is not None)
    table[-1] = (*table[-1][:8], f"{silent} silent; sound and picture at most {ahead[-1] if ahead else '–'} ms apart", table[-1][9])
    print(table[-1][8], flush=True)
    if len(tiles) != 12 or silent or any(tile['decoded'] < 30 for tile in tiles):
        complain(f'four: {len(tiles)} tiles, {silent} of them silent, decoded {[tile["decoded"] for tile in tiles]}')
    if not ahead or ahead[-1] > 250:
        complain(f'four: sound and picture are {ahead} ms apart')
    if pictures:
        meeting.pages[0].shoot(f'{pictures}/meet.png')
    meeting.end()


def lost(browser, _):
    """3 % of all RTP packets before the room and 3 % behind it, five times in each mode."""
    for mode in modes:
        meeting = Meeting(browser, mode, 2)
        time.sleep(3)
        lose(0.03, 0.03)
        for run in range(5):
            summed(f'lost, run {run + 1}, 6 s', mode, meeting, 6, '3 % before, 3 % after', GAP)
            decoded, drawn = table[-1][4:6]
            if decoded < 0.8 * drawn:
                complain(f'lost, {mode}: {decoded} of {drawn} pictures were decoded')
        lose(0)
        meeting.end()


def choice(browser, _):
    """The first packet of a frame to which others refer, and its first resend, each four seconds."""
    for mode, layers in (('L2T2', (1, 0)), ('L2T2', (0, 0)), ('L3T3', (1, 0)), ('L3T3', (2, 0))):
        meeting = Meeting(browser, mode, 2)
        meeting.largest()
        relay = meeting.relays[0]
        relay.choice = Choice(relay.element, layers, 2, 4)
        meeting.pages[0].run("say('plead ' + others()[0].id)")     # a key frame has the templates
        tiles, drawn = meeting.watch(13)
        what = f'S{layers[0]}T{layers[1]} and its first resend, {relay.choice.events} times'
        line('by choice, 13 s', mode, 2, what, tiles[0]['decoded'], drawn[1], tiles[0]['gap'], GAP)
        if not relay.choice.events:
            complain(f'choice, {mode}: nothing was lost')
        meeting.end()


def path(browser, _):
    """One path falls to 400 kbit/s for ten seconds."""
    meeting = Meeting(browser, 'L3T3', 2)
    page, relay = meeting.pages[0], meeting.relays[0]
    wide = lambda pixels, since: page.run(f'(others()[0].seen.find(p => p[0] >= {since} && p[1] === {pixels}) || [Infinity])[0] - {since}')
    meeting.largest()
    time.sleep(5)
    begin, relay.rate = page.run('Date.now()'), 400000
    tiles, drawn = meeting.watch(10)
    relay.rate = 0
    down, back = wide(240, begin), page.run('Date.now()')
    after, _ = meeting.watch(14)
    up = wide(960, back + 500)
    up = None if up is None else up + 500
    line('path of 400 kbit/s, 10 s', 'L3T3', 2, '–', tiles[0]['decoded'], drawn[1], tiles[0]['gap'], HELD, f'S0 after {down} ms, S2 {up} ms after its end')
    if down is None or down > FELL or up is None or up > AGAIN:
        complain(f'path: S0 after {down} ms, S2 after {up} ms')
    line('path, 14 s after it', 'L3T3', 2, '–', after[0]['decoded'], '–', after[0]['gap'], HELD)
    meeting.end()


def back(browser, _):
    """Somebody leaves and comes back, twice."""
    meeting = Meeting(browser, 'L1T1', 3)
    for _ in range(2):
        meeting.pages[1].run("by('leave').click()")
        for page in (meeting.pages[0], meeting.pages[2]):
            page.wait('others().length === 1', 10, 'a tile that goes')
        at = time.time()
        meeting.pages[1].run("by('join').click()")
        meeting.complete()
        took = round((time.time() - at) * 1000)
        summed('left and came back, 5 s', 'L1T1', meeting, 5, '–', GAP, f'all see all after {took} ms')
        if took > HOME:
            complain(f'back: all see all after {took} ms')
    sections = meeting.pages[0].run("pc.localDescription.sdp.match(/^m=/gm).length")
    if sections != 5:
        complain(f'back: {sections} media sections in place of 5')
    meeting.end()


def good(browser, _):
    """2 % of all RTP packets before the room, resends too."""
    for mode in modes:
        meeting = Meeting(browser, mode, 2)
        time.sleep(3)
        lose(0.02, for_good=True)
        summed('lost for good, 8 s', mode, meeting, 8, '2 % before', GOOD)
        lose(0)
        meeting.end()


ROWS = {row.__name__: row for row in (four, lost, choice, path, back, good)}


def rows(asked, pictures):
    print(f'| {" | ".join(HEAD)} |\n|' + '---|' * len(HEAD), flush=True)
    modes[:] = [mode for mode in MODES if mode in asked] or MODES
    for name in [name for name in asked if name not in MODES] or ROWS:
        with open(f'{HERE}/out/meet.log', 'w') as log:
            gateway, browser = gate(subprocess.DEVNULL, log), Browser()
            try:
                ROWS[name](browser, pictures)
            except Exception as fault:
                complain(f'{name}: {fault}')
            finally:
                browser.end()
                gateway.end()
    with open(f'{HERE}/out/meet.tsv' if asked else f'{HERE}/meet.tsv', 'w') as out:
        print(f'# test.py --meet {" ".join(asked)}: {machine()}. Milliseconds unless named.', file=out)
        for cells in (HEAD, *table):
            print(*cells, sep='\t', file=out)
