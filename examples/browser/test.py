#!/usr/bin/python3
"""Runs the example in a headless Chromium, and complains of freezes, wishes that aren't met, and packets that `sfu check` doesn't like.

usage: examples/browser/test.py [--sfu PROGRAM] [--seconds N] [--pictures DIR] [MODE...]
       examples/browser/test.py --meet [--pictures DIR] [ROW...] [MODE...]
       examples/browser/test.py --simulcast [--pictures DIR] [ROW...]
MODE is L1T1, L1T3, L2T2, L3T3 or L3T3_KEY; all of them by default. Each has a run from page to page, for comparison, and one through the room of
`serve`, with a table's row for each measurement of N seconds (8). Both ways go through a relay that loses 3 % of the RTP packets where the row says so.
With --meet it runs conferences, on the library; ROW is four, lost, choice, path, back or good; MODE limits lost and good. All of them, by default, write their
table to meet.tsv, and some to out/meet.tsv. With --simulcast it changes sizes, on the library; ROW is shared, own, lost or off; the tables
are simulcast.tsv and out/simulcast.tsv.

example: examples/browser/test.py --seconds 8 L1T1
"""
import argparse
import json
import os
import subprocess
import sys
import tempfile
import threading
import time

sys.path.insert(0, os.path.dirname(os.path.abspath(__file__)))   # tests/system/recordings.py reads this file, too
import conference
import simulcast
from browsers import (GAP, HERE, MODES, PROXY, SOON, TORN, WEB, Browser, Relay, build, complain, complaints, gate, longest_gap, lose, part, serve_relays,
                      what_is_missing)

# ---- what is measured

class Measured:
    """The pictures that a player showed in some seconds."""

    def __init__(self, publisher, player, seconds):
        a, old, begin = publisher.run('drawn'), self.stats(player), player.run('Date.now()')
        time.sleep(seconds)
        self.drawn, new = publisher.run('drawn') - a, self.stats(player)
        self.shown = pictures(player, begin)
        self.gap = longest_gap(self.shown)
        self.decoded, self.kbps = new['framesDecoded'] - old['framesDecoded'], round((new['bytesReceived'] - old['bytesReceived']) / 125 / seconds)
        self.nacks = new['nackCount'] - old['nackCount']
        self.ages = [picture[3] for picture in self.shown if picture[3] is not None]
        self.size = f'{self.shown[-1][1]} × {self.shown[-1][2]}' if self.shown else '–'

    @staticmethod
    def stats(player):
        return {'framesDecoded': 0, 'bytesReceived': 0, 'nackCount': 0, **player.run("statsOf(pc, 'inbound-rtp')")}

    def row(self, mode, way, lost):
        ages = f'{part(self.ages, 0.5)}, {part(self.ages, 0.95)}'
        cells = mode, way, lost, self.size, self.drawn, self.decoded, self.kbps, self.gap, ages, self.nacks, f'{os.getloadavg()[0]:.0f}'
        print(f'| {" | ".join(map(str, cells))} |', flush=True)


def pictures(player, since):
    return player.run(f'seen.filter(picture => picture[0] >= {since})')


def address(mode, port):
    size, fps, kbps = MODES[mode]
    return f'http://127.0.0.1:{port}/publish.html?mode={mode}&size={size}&fps={fps}&kbps={kbps}'


def direct(browser, mode, seconds):
    """From one page to the other, with a relay alone between them; tells the longest gap."""
    p, q, relay = browser.open(address(mode, WEB)), browser.open(f'http://127.0.0.1:{WEB}/play.html?wait=1'), Relay(0, 1)
    offer = relay.instead(p.run('start().then(() => described(pc))'), 0)
    answer = q.run(f'''(async () => {{
        newConnection();
        await pc.setRemoteDescription({{type: 'offer', sdp: {json.dumps(offer)}}});
        onlyAV1(pc.getTransceivers().find(t => t.receiver.track.kind === 'video'));
        return described(pc);
    }})()''')
    p.run(f"pc.setRemoteDescription({{type: 'answer', sdp: {json.dumps(relay.instead(answer, 1))}}})")
    q.wait('seen.length > 5', 20, 'the first pictures')
    time.sleep(2)
    gaps = []
    for share, lost in ((0, '–'), (0.03, '3 %')):
        lose(share, share)
        measured = Measured(p, q, seconds)
        measured.row(mode, 'direct', lost)
        gaps.append(measured.gap)
    lose(0)
    browser.shut(p)
    browser.shut(q)
    return max(gaps)


class Run:
    """Everything that is tried with one mode through the room."""
    def __init__(self, browser, mode, seconds, folder, direct_gap):
        self.browser, self.mode, self.seconds, self.folder, self.direct_gap = browser, mode, seconds, folder, direct_gap
        self.layers = int(mode[1])
        self.p = browser.open(address(mode, PROXY) + '&start=1')
        self.p.wait("pc.connectionState === 'connected'", 20, 'the publisher')
        time.sleep(2)
        self.q, self.low = self.play(9, 9), self.play(0, 0)
        time.sleep(2)

    def play(self, spatial, temporal):
        q = self.browser.open(f'http://127.0.0.1:{PROXY}/play.html?spatial={spatial}&temporal={temporal}')
        q.wait('seen.length > 2', 20, 'the first pictures')
        return q

    def smooth(self, what, gap):
        if gap > GAP:
            complain(f'{self.mode}, {what}: a freeze of {gap} ms' + (f'; page to page of {self.direct_gap}' if self.direct_gap > GAP else ''))

    def steady(self):
        for share, lost in ((0, '–'), (0.03, '3 % before, 3 % after')):
            lose(share, share)
            measured = Measured(self.p, self.q, self.seconds)
            measured.row(self.mode, 'serve', lost)
            self.smooth(f'lost {lost}', measured.gap)
        lose(0)
        low = Measured(self.p, self.low, self.seconds)
        low.row(self.mode, 'serve, wish 0 0', '–')
        self.smooth('wish 0 0', max(low.gap - 400, 0))   # a picture in 400 ms is the whole rate of such a wish

    def for_good(self):
        """Layers whose base frames are lost begin again at the next key frame, which the page and the gateway ask for."""
        if self.layers == 1:
            return []
        begin = self.q.run('Date.now()')
        lose(0.02, for_good=True)
        time.sleep(self.seconds)
        lose(0)
        time.sleep(2)
        shown, brought = pictures(self.q, begin), self.q.run(f'brought.filter(at => at >= {begin})')
        pause = max((b - a for a, b in zip(brought, brought[1:])), default=60000)
        if longest_gap(shown) > TORN or shown[-1][1] != int(MODES[self.mode][0].split('x')[0]):
            complain(f'{self.mode}, 2 % lost for good: a freeze of {longest_gap(shown)} ms, and then pictures of {shown[-1][1:3] if shown else "no size"}; '
                     f'for up to {pause} ms no frame came into the room')
        return [f'2 % lost for good {longest_gap(shown)} (into the room {pause})']

    def late(self):
        q = self.browser.open(f'http://127.0.0.1:{PROXY}/play.html?wait=1')
        q.run("void play(); pc.addEventListener('connectionstatechange', () => { if (pc.connectionState === 'connected') window.since = Date.now(); })")
        q.wait('seen.length', 20, 'the first picture of a late player')
        wait = q.run('seen[0][0] - since')
        self.browser.shut(q)
        if wait > SOON:
            complain(f'{self.mode}: a late player waits {wait} ms for its first picture')
        return f'late {wait}'

    def other_size(self, what, page, script):
        """Milliseconds until the picture has another size."""
        at = page.run(f'{script}, Date.now()')
        time.sleep(2.5)
        shown = pictures(self.q, at - 1000)
        before = ([s for s in shown if s[0] <= at] or [[0, 0, 0]])[-1]
        after = [s for s in shown if s[0] > at]
        took = next((s[0] - at for s in after if s[1:3] != before[1:3]), None)
        if took is None or took > SOON:
            complain(f'{self.mode}, {what}: another size after {took} ms')
        return took, longest_gap(after)

    def wishes(self):
        steps = []
        if self.layers == 1:
            for temporal, what in ((0, 'to T0'), (9, 'to all')):
                self.q.run(f'aim(9, {temporal})')
                time.sleep(0.5)
                begin = self.q.run('Date.now()')
                time.sleep(2)
                steps.append(f'{what} {len(pictures(self.q, begin)) / 2:.1f} a second')
            return steps
        for layer in (0, self.layers - 1, self.layers - 2, self.layers - 1)[:4 if self.layers > 2 else 2]:
            steps.append(f"to S{layer} {self.other_size(f'wish {layer} 9', self.q, f'aim({layer}, 9)')[0]}")
        return steps

    def mute(self):
        self.p.run("by('mute').click()")
        begin = self.q.run('Date.now()')
        time.sleep(2)
        if len(pictures(self.q, begin)) < 4:
            complain(f'{self.mode}: no pictures while muted')
        at = self.p.run("by('mute').click(), Date.now()")
        time.sleep(2)
        took = next((s[0] - at for s in pictures(self.q, at) if s[3] is not None), None)
        if took is None or took > SOON:
            complain(f'{self.mode}: after mute a picture comes after {took} ms')
        return f'after mute {took}'

    def resize(self):
        steps = []
        for size in ('640x360' if self.layers > 1 else '480x270', MODES[self.mode][0]):
            script = f"by('size').value = '{size}', by('size').onchange()"
            took, gap = self.other_size(f'resized to {size}', self.p, script)
            self.smooth(f'resized to {size}', gap)
            steps.append(f'to {size} {took}')
        return steps

    def all(self):
        self.steady()
        times = [*self.for_good(), self.late(), *self.wishes(), self.mute(), *self.resize()]
        print(f'{self.mode}, milliseconds: {"; ".join(times)}; load {os.getloadavg()[0]:.0f}', flush=True)
        if self.folder:
            self.p.shoot(f'{self.folder}/publish_{self.mode}.png')
            self.q.shoot(f'{self.folder}/play_{self.mode}.png')
        for page in (self.q, self.low, self.p):
            self.browser.shut(page)
        time.sleep(1)


def sent(dump):
    """The packets that each page was sent, without those that were sent again, as hex digits."""
    ports = {}
    for line in open(dump):
        where, data = line.split()
        kind, number = int(data[2:4], 16), int(data[4:8], 16)
        if not 192 <= kind <= 223:                       # RTP
            newest, packets = ports.setdefault(where, [None, []])
            if newest is None or 0 < (number - newest) % 65536 < 32768:
                ports[where][0] = number
                packets.append(data)
    return {where: packets for where, (_, packets) in sorted(ports.items())}


def check(sfu, dump):
    """What `sfu check` says of each subscriber's packets, in the order in which they were sent first."""
    for where, packets in sent(dump).items():
        verdict = subprocess.run([sfu, 'check', '4'], input='\n'.join(packets) + '\n', text=True, capture_output=True).stdout.strip()
        print(f'sfu check of {where}: {verdict}', flush=True)
        if not verdict.startswith('ok'):
            complain(f'{where}: {verdict}')


def main():
    words = argparse.ArgumentParser(description=__doc__, formatter_class=argparse.RawDescriptionHelpFormatter)
    words.add_argument('--meet', action='store_true')
    words.add_argument('--simulcast', action='store_true')
    words.add_argument('--sfu', default=f'{HERE}/../../sfu')
    words.add_argument('--seconds', type=int, default=8)
    words.add_argument('--pictures')
    words.add_argument('what', nargs='*')
    asked = words.parse_args()
    if what_is_missing():
        sys.exit(f'missing: apt-get install {" ".join(what_is_missing())}')
    build(asked.meet or asked.simulcast)
    serve_relays()
    if asked.meet or asked.simulcast:
        (conference if asked.meet else simulcast).rows(asked.what, asked.pictures)
    else:
        pages(asked)
    print('no complaints' if not complaints else f'{len(complaints)} complaints')
    sys.exit(1 if complaints else 0)


def pages(asked):
    sfu = os.path.abspath(asked.sfu)
    subprocess.run([sfu, 'help'], check=True, stdout=subprocess.DEVNULL)      # builds it, if it isn't built
    print('| Mode | Way | RTP lost | Picture | Drawn | Decoded | kbit/s | Longest gap, ms | Age p50, p95, ms | NACKs of the player | Load |\n|' + '---|' * 11)
    for mode in asked.what or MODES:
        with tempfile.TemporaryDirectory() as folder, open(f'{folder}/dump', 'w') as dump, open(f'{folder}/log', 'w') as log:
            gateway, browser = gate(dump, log, sfu), Browser()
            try:
                Run(browser, mode, asked.seconds, asked.pictures, direct(browser, mode, asked.seconds)).all()
            except Exception as fault:
                complain(f'{mode}: {fault}')
            finally:
                browser.end()
                gateway.end()
            check(sfu, dump.name)
            if complaints:
                print(open(log.name).read()[-3000:])


if __name__ == '__main__':
    main()
