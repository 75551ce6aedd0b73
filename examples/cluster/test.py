#!/usr/bin/python3
"""Runs a conference over four nodes, each in a network namespace, and complains of what doesn't go on through faults.

usage: examples/cluster/test.py [--players N] [--sfu PROGRAM] [--out FOLDER]
       examples/cluster/test.py --browsers [--out FOLDER]
Publishers play the capture of examples/capture and the VP8 of examples/vp8.script in a loop; N players (40) come at random nodes, each to a track and with
a wish of its own. Then a node is killed and comes back with 5 % loss, NATS restarts, two nodes ask each other, and a node doesn't answer. Figures go
to FOLDER/measured.md, a chart to FOLDER/nodes.svg (examples/cluster/out/test). With --browsers four headless Chromium meet at three nodes. It wants root, for
the namespaces zc1 to zc4, and takes three minutes.

example: examples/cluster/test.py --players 40
"""
import argparse
import base64
import importlib.util
import json
import os
import random
import shutil
import signal
import struct
import subprocess
import sys
import threading
import time
import urllib.error
import urllib.parse
import urllib.request
from concurrent.futures import ThreadPoolExecutor

HERE = os.path.dirname(os.path.abspath(__file__))
TOP = os.path.abspath(f'{HERE}/../..')
NET, BRIDGE = '10.77.0', 'zcbridge'
GO = dict(os.environ, GO111MODULE='off', GOPATH='/usr/share/gocode')
NATS = dict(os.environ, NATS_USER='conference', NATS_PASSWORD='of-this-test')
GONE, GAP, MENDED, REQUEST = 3000, 2500, 700, 2000   # milliseconds: until a killed node is gone, without packets at a kill, at losses, for a request

complaints, table = [], []


def complain(text):
    complaints.append(text)
    print(f'complaint: {text}', flush=True)


def figure(what, value):
    table.append((what, value))
    print(f'{what}: {value}', flush=True)


def sh(line):
    return subprocess.run(line, shell=True, check=True, capture_output=True, text=True).stdout


def until(what, seconds, done):
    """Waits until something is so; tells after how many milliseconds."""
    begin = time.time()
    while time.time() < begin + seconds:
        if done():
            return round((time.time() - begin) * 1000)
        time.sleep(0.02)
    raise RuntimeError(f'{what} isn\'t so after {seconds} s')


def part(values, share):
    return sorted(values)[min(len(values) - 1, int(len(values) * share))] if values else 0


# ---- the network, NATS and the nodes

def wire(count):
    unwire()
    sh(f'ip link add {BRIDGE} type bridge && ip addr add {NET}.254/24 dev {BRIDGE} && ip link set {BRIDGE} up')
    for n in range(1, count + 1):
        sh(f'ip netns add zc{n} && ip link add zcv{n} type veth peer name eth0 netns zc{n} && ip link set zcv{n} master {BRIDGE} up && '
           f'ip -n zc{n} addr add {NET}.{n}/24 dev eth0 && ip -n zc{n} link set eth0 up && ip -n zc{n} link set lo up')


def unwire():
    for n in range(1, 5):
        subprocess.run(f'ip netns del zc{n}; ip link del zcv{n}', shell=True, capture_output=True)
    subprocess.run(f'ip link del {BRIDGE}', shell=True, capture_output=True)


class Process:
    """A program that ends with this one, and writes to a file."""
    all = []

    def __init__(self, name, *words, **more):
        self.log = open(f'{out}/{name}.log', 'ab')
        self.process = subprocess.Popen(words, cwd=HERE, stderr=self.log, **{'stdout': self.log, 'stdin': subprocess.DEVNULL, **more})
        Process.all.append(self)

    def end(self, how=signal.SIGTERM):
        self.process.send_signal(signal.SIGCONT)
        self.process.send_signal(how)
        self.process.wait()


def start_nats():
    return Process('nats', 'nats-server', '-a', f'{NET}.254', '-p', '4222', '--user', NATS['NATS_USER'], '--pass', NATS['NATS_PASSWORD'])


class Node:
    def __init__(self, n):
        self.n, self.at, self.last = n, f'http://{NET}.{n}:8080', None

    def start(self, *flags):
        self.process = Process(f'node{self.n}', 'ip', 'netns', 'exec', f'zc{self.n}', 'out/cluster', '-name', f'n{self.n}', '-address', f'{NET}.{self.n}',
                               '-nats', f'nats://{NET}.254:4222', '-feeds', '2', *flags, env=NATS)
        until(f'node {self.n}', 10, lambda: self.ask('/figures'))
        self.name = self.ask('/figures')['Node']

    def ask(self, path, **words):
        try:
            return json.load(urllib.request.urlopen(f'{self.at}{path}?{urllib.parse.urlencode(words)}', timeout=3))
        except OSError:
            return None

    def knows(self, name):
        figures = self.ask('/figures')
        return figures is not None and name in figures['Nodes']

    def tracks(self):
        return {track['Label']: track['Name'] for track in self.ask('/tracks') or []}


class Watch(threading.Thread):
    """The figures of all nodes, twice a second."""

    def __init__(self, nodes):
        super().__init__(daemon=True)
        self.nodes, self.rows, self.marks, self.go = nodes, [], [], True
        self.start()

    def run(self):
        while self.go:
            self.rows.append((time.time(), {node.n: node.ask('/figures') for node in self.nodes}))
            time.sleep(0.5)

    def mark(self, what):
        self.marks.append((time.time(), what))
        print(f'-- {what}', flush=True)


# ---- publishers and players

def streams():
    """Files of packets: the first seconds of the capture, before its losses, a picture each 100 ms; and VP8."""
    with open(f'{TOP}/examples/capture/l3t3.pcap', 'rb') as file:
        data = file.read()
    at, first, units, lines = 24, None, {}, []
    while at < len(data):
        seconds, micros, size, _ = struct.unpack('<IIII', data[at:at + 16])
        packet, at = data[at + 16 + 42:at + 16 + size], at + 16 + size           # behind Ethernet, IPv4 and UDP
        first = first or seconds + micros / 1e6
        if seconds + micros / 1e6 - first > 4.8:
            break
        lines.append(f'{100 * units.setdefault(packet[4:8], len(units))} {packet.hex()}\n')
    last = lines[-1].split()[0]
    with open(f'{out}/l3t3', 'w') as file:
        file.writelines(line for line in lines if line.split()[0] != last)      # the last picture may be cut
    with open(f'{TOP}/examples/vp8.script') as script, open(f'{out}/vp8', 'w') as file:
        packets = [line.split()[3] for line in script if line.startswith('packet')]
        file.writelines(f'{100 * n} {packet}\n' for n, packet in enumerate(packets))


def publish(node, label, stream='l3t3', number=4):
    return Process(f'publisher_{label}', 'out/players', 'publish', node.at, label, str(number), f'{out}/{stream}')


class Players:
    def __init__(self, name, count, seconds, track, nodes):
        os.makedirs(f'{out}/{name}')
        self.said = f'{out}/{name}.json'
        with open(self.said, 'w') as said:
            self.process = Process(name, 'out/players', 'play', f'{out}/{name}', str(count), str(seconds), track, *(node.at for node in nodes),
                                   stdin=subprocess.PIPE, stdout=said).process

    def end(self):
        """All visits, once the players have gone."""
        self.process.stdin.close()
        self.process.wait()
        with open(self.said) as said:
            return json.load(said)


def longest(visits, begin, end):
    """Milliseconds of the longest time without a packet that ended between two moments."""
    return max((gap for visit in visits for at, gap in visit['Gaps'] or [] if begin * 1000 <= at <= end * 1000), default=150)


def check(sfu, visits):
    """What `sfu check` says of each visit, and whether anything was lost for good."""
    for visit in visits:
        if visit['Lost']:
            complain(f"{visit['File']}: {visit['Lost']} packets never came")
    files = [visit['File'] for visit in visits if visit['ID'] and visit['Packets']]
    if not os.access(sfu, os.X_OK):
        return figure('`sfu check` of what each player was sent', 'skipped: the program isn\'t built')

    def verdict(file):
        with open(file) as packets:
            return subprocess.run([sfu, 'check', '4'], stdin=packets, capture_output=True, text=True).stdout.strip()
    with ThreadPoolExecutor(os.cpu_count()) as pool:
        verdicts = list(zip(files, pool.map(verdict, files)))
    for file, said in verdicts:
        if not said.startswith('ok'):
            complain(f'{file}: {said}')
    figure('`sfu check` of what each player was sent', f"{sum(said.startswith('ok') for _, said in verdicts)} of {len(files)} visits: ok")


def cost(before, after):
    """Microseconds of processor time for each packet that a node sent."""
    packets = sum(after[n]['Sent'] - before[n]['Sent'] for n in after)
    return f"{1000 * sum(after[n]['Processor'] - before[n]['Processor'] for n in after) / max(1, packets):.1f} µs"


def see(nodes):
    return {node.n: node.ask('/figures') for node in nodes}


# ---- the conference

def tree(nodes, figures):
    """Complains of a tree that is none; tells the bytes that went over each edge."""
    names = {figures[node.n]['Node']: node for node in nodes}
    edges = {}
    for node in nodes:
        for feed in figures[node.n]['FeedsIn'] or []:
            if (feed['Track'], node.n) in edges:
                complain(f"{feed['Track']} comes to node {node.n} twice")
            edges[feed['Track'], node.n] = feed
    for (track, n), feed in edges.items():
        path, at = [n], feed
        while at:
            before = names[at['Node']].n
            if before in path or len(path) > 2:
                complain(f'{track} goes in a circle, or too deep: {before} {path}')
                break
            path.append(before)
            at = edges.get((track, before))
    return edges


def one_alone(node, count):
    """The cost of a packet where all is at one node."""
    publisher = publish(node, 'alone')
    until('a track', 5, lambda: 'alone' in node.tracks())
    players = Players('alone', count, 1, '-', [node])
    time.sleep(3)
    before = see([node])
    time.sleep(6)
    figure('processor time of an outgoing packet, one node alone', cost(before, see([node])))
    visits = players.end()
    publisher.end()
    return visits


def conference(asked):
    nodes = [Node(n) for n in range(1, 5)]
    nats = start_nats()
    nodes[0].start()
    visits = one_alone(nodes[0], asked.players // 4)
    for node in nodes[1:]:
        node.start()
    watch = Watch(nodes)
    publishers = [publish(node, f'p{node.n}', *(('vp8', 0) if node.n == 3 else ('l3t3', 4))) for node in nodes]
    until('four tracks everywhere', 10, lambda: all(len(node.tracks()) == 4 for node in nodes))

    visits += wishes(nodes[0], nodes[1])
    watch.mark(f'{asked.players} players come')
    players = Players('players', asked.players, 8, '-', nodes)
    time.sleep(12)
    before = see(nodes)
    time.sleep(8)
    after = see(nodes)
    figure('viewers a node', ', '.join(str(after[n]['Viewers']) for n in after))
    figure('processor time of an outgoing packet, four nodes', cost(before, after))
    edges, old = tree(nodes, after), tree(nodes, before)
    rates = sorted((edges[edge]['Bytes'] - old[edge]['Bytes']) / 8000 for edge in edges if edge in old and not edge[0].startswith(nodes[2].name))
    figure('feeds, and the deepest level', f"{len(edges)}, {max(feed['Level'] for feed in edges.values())}")
    figure('kB a second on an edge of the tree, of one layered track', f'{rates[0]:.0f} to {rates[-1]:.0f}')

    middle = random.choice([node for node in nodes if any(edges[edge]['Node'] == node.name and edge[0][:2] != f'n{node.n}' for edge in edges)] or nodes)
    others = [node for node in nodes if node is not middle]
    watch.mark(f'node {middle.n} is killed')
    kill, name = time.time(), middle.name
    middle.process.end(signal.SIGKILL)
    gone = until('a killed node is gone', 6, lambda: not any(node.knows(name) for node in others))
    figure('a killed node is gone for the others', f'{gone} ms')
    if gone > GONE:
        complain(f'a killed node is gone after {gone} ms')
    time.sleep(8 - (time.time() - kill))
    middle.last = name

    watch.mark(f'node {middle.n} comes back, and loses 5 %')
    middle.start('-lose', '5')
    figure('a node that comes back is there for the others', f"{until('a node is back', 6, lambda: all(node.knows(middle.name) for node in others))} ms")
    until('its track is back', 8, lambda: all(f'p{middle.n}' in node.tracks() for node in others))
    lossy = Players('lossy', max(6, asked.players // 10), 1, others[0].tracks()[f'p{middle.n}'], others)
    time.sleep(4)
    loss = time.time()
    time.sleep(8)
    lost = [feed for feed in middle.ask('/figures')['FeedsOut'] or []]
    lossy = lossy.end()
    share = sum(feed['Lost'] for feed in lost) / max(1, sum(feed['Lost'] + feed['Packets'] for feed in lost))
    mended = longest(lossy, loss, loss + 8)
    figure('lost on feeds of that node; the longest gap of a player behind them', f'{100 * share:.1f} %, {mended} ms')
    if mended > MENDED or not lost:
        complain(f'with {100 * share:.0f} % lost a player waited for {mended} ms')

    watch.mark('NATS ends')
    away = time.time()
    nats.end()
    time.sleep(5)
    nats = start_nats()
    watch.mark('NATS begins')
    time.sleep(3)
    back = time.time()
    if not all(node.knows(other.name) for node in nodes for other in nodes if node is not other):
        complain('nodes were forgotten while NATS was away')
    fresh = publish(others[0], 'fresh')
    took = until('a new track after NATS', 6, lambda: all('fresh' in node.tracks() for node in nodes))
    figure('a new track is seen everywhere after NATS came back', f'{took} ms')

    last = Players('last', 2, 0, others[0].tracks()['fresh'], [node for node in nodes if node not in (others[0],)])
    time.sleep(3)
    left = time.time()
    fresh.end()
    time.sleep(3)
    ended = [visit['Ended'] - 1000 * left for visit in last.end() if visit['Packets'] and visit['Why'] == 'bye']
    figure('a track ends for players elsewhere, after its publisher was killed', f'{max(ended, default=0):.0f} ms')
    if not ended or max(ended) > GONE:
        complain('a track without a publisher goes on')
    visits += asking(others[1], nodes, watch)
    silent(others[0], others[1], watch)
    watch.go = False
    visits += (new := players.end()) + lossy
    for process in publishers:
        process.end()

    stayed = [visit for visit in new if visit['ID'] and not visit['Track'].startswith(middle.last) and visit['Node'] != middle.at]
    gap = longest(stayed, kill, kill + 8)
    figure('the longest gap of a player elsewhere at the kill', f'{gap} ms')
    if gap > GAP:
        complain(f'at a kill a player waited for {gap} ms')
    gap = longest([visit for visit in new if visit['ID'] and middle.name not in visit['Track']], away + 0.5, back)
    figure('the longest gap while NATS was away', f'{gap} ms')
    if gap > MENDED:
        complain(f'without NATS a player waited for {gap} ms')
    ended = [visit['Ended'] - 1000 * kill for visit in new if visit['Track'].startswith(middle.last) and visit['Node'] != middle.at and visit['Ended'] > 1000 * kill]
    figure("a killed node's own tracks end for players elsewhere", f'within {max(ended, default=0):.0f} ms')
    if max(ended, default=0) > GONE + 1000:
        complain('tracks of a killed node go on')
    first = [visit['First'] for visit in new if visit['Packets']]
    figure('from a request to the first packet, p50, p95, most', f'{part(first, 0.5)}, {part(first, 0.95)}, {max(first, default=0)} ms')
    if part(first, 0.95) > REQUEST:
        complain('the first packet comes late')
    figure('players, visits, and visits that were refused', f"{asked.players}, {len(new)}, {sum(not visit['Packets'] for visit in new)}")
    check(asked.sfu, visits)
    draw(watch)


def wishes(source, node):
    """A feed carries the layers that somebody behind it wishes for, and no more when they have gone."""
    def rate():
        def received():
            return (node.ask('/figures')['FeedsIn'] or [{'Bytes': 0}])[0]['Bytes']
        time.sleep(2)
        before = received()
        time.sleep(3)
        return (received() - before) / 3000
    track = source.tracks()['p1']
    low = Players('low', 1, 0, f'{track}/0/0', [node])
    rates = [rate()]
    high = Players('high', 1, 0, f'{track}/2/2', [node])
    rates.append(rate())
    visits = high.end()
    rates.append(rate())
    figure('kB a second on an edge: a viewer of the lowest layers, beside it one of all, the first alone', ', '.join(f'{kb:.0f}' for kb in rates))
    if not 1.5 * max(rates[0], rates[2]) < rates[1]:
        complain(f'a feed does not follow the wishes behind it: {rates}')
    return visits + low.end()


def asking(source, nodes, watch):
    """Two nodes are cut from the one that sends both of them a track: each asks the other, then they find the fourth, which finds another way itself."""
    publisher = publish(source, 'cut')
    until('a track to cut', 8, lambda: all('cut' in node.tracks() for node in nodes))
    track, rest = source.tracks()['cut'], [node for node in nodes if node is not source]

    def feeds():
        return {node: feed['Node'] for node in rest for feed in node.ask('/figures')['FeedsIn'] or [] if feed['Track'] == track}
    players = [Players(f'cut{node.n}', 1, 0, track, [node]) for node in rest]
    until('the track at all nodes', 8, lambda: len(feeds()) == 3)
    time.sleep(1)
    cut = [node for node, sender in feeds().items() if sender == source.name]
    watch.mark(f'nodes {" and ".join(str(node.n) for node in cut)} are cut from node {source.n}')

    def change(word):
        for node in cut:
            sh(f'ip -n zc{node.n} route {word} blackhole {NET}.{source.n}/32; ip -n zc{source.n} route {word} blackhole {NET}.{node.n}/32')
    requests = sum(node.ask('/figures')['Requests'] for node in cut)
    change('add')
    time.sleep(0.5)

    def mended():
        now = feeds()
        return all(now.get(node, source.name) != source.name for node in cut)
    try:
        figure(f'{len(cut)} nodes that lost one source have another one', f"{500 + until('another source', 12, mended)} ms")
    except RuntimeError as fault:
        complain(fault)
    tree(nodes, see(nodes))
    figure('requests that they made for it', sum(node.ask('/figures')['Requests'] for node in cut) - requests)
    change('del')
    publisher.end()
    return [visit for some in players for visit in some.end()]


def silent(still, other, watch):
    """A node that has the only source of a track stands still: a player is told so, and nobody asks on and on."""
    publisher = publish(still, 'still')
    until('a track at one node', 8, lambda: 'still' in other.tracks())
    watch.mark(f'node {still.n} stands still')
    name, requests = other.tracks()['still'], other.ask('/figures')['Requests']
    sh(f'kill -STOP {sh("ip netns pids zc%d" % still.n).split()[0]}')
    begin = time.time()
    try:
        urllib.request.urlopen(f'{other.at}/rtp/play?track={name}&at={NET}.254:9', b'', timeout=5)
        complain('a track of a node that stands still is played')
    except urllib.error.HTTPError as fault:
        figure('a request that nobody answers: an error after', f'{round(1000 * (time.time() - begin))} ms: {fault.read().decode().strip()}')
    if time.time() - begin > REQUEST / 1000:
        complain('an error comes late')
    until('a still node is gone', 6, lambda: not other.knows(still.name))
    if (asks := other.ask('/figures')['Requests'] - requests) > 30:
        complain(f'{asks} requests for a node that stands still')
    sh(f'kill -CONT {sh("ip netns pids zc%d" % still.n).split()[0]}')
    figure('a node that goes on is there again', f"{until('a node is there again', 6, lambda: other.knows(still.name))} ms")
    publisher.end()


# ---- browsers

def browsers():
    """Four browsers at three nodes: each sees the three others, also after a node was killed."""
    spec = importlib.util.spec_from_file_location('browser', f'{TOP}/examples/browser/test.py')
    chromium = importlib.util.module_from_spec(spec)
    spec.loader.exec_module(chromium)
    nodes, pages, opened = [Node(n) for n in range(1, 4)], [], []
    start_nats()
    for node in nodes:
        node.start()
    time.sleep(1.5)
    try:
        for n in range(4):
            chromium.TOOLS = 29401 + n
            opened.append(chromium.Browser())
            pages.append(opened[-1].open(f'{nodes[n % 3].at}/index.html?name=b{n + 1}&size=320x180&fps=10&mode=L1T2'))

        def shown(page):
            return page.run('[...tiles.values()].map(tile => tile.shown)')
        try:
            until('three pictures at each browser', 60, lambda: all(len(shown(page)) == 3 and min(shown(page)) > 10 for page in pages))
        except RuntimeError:
            for page in pages:
                print(page.run("by('state').textContent + ': ' + [...tiles.values()].map(t => `${t.shown} ${t.pc.connectionState} ${t.fault.textContent}`)"))
            raise
        first = [ms for page in pages for ms in page.run('[...tiles.values()].map(tile => tile.first)')]
        figure('four browsers: from a request to the first picture, p50, most', f'{part(first, 0.5)}, {max(first)} ms')
        picture = pages[0].call('Page.captureScreenshot', format='png', clip={'x': 0, 'y': 0, 'width': 1100, 'height': 360, 'scale': 1})
        with open(f'{out}/browsers.png', 'wb') as file:
            file.write(base64.b64decode(picture['data']))
        nodes[2].process.end(signal.SIGKILL)
        rest = [page for n, page in enumerate(pages) if n % 3 != 2]
        took = until('the page of a killed node is gone', 8, lambda: all(len(shown(page)) == 2 for page in rest))
        old = [shown(page) for page in rest]
        time.sleep(5)
        figure('four browsers, a node killed: its picture is gone', f'{took} ms')
        if any(new - before < 20 for page, was in zip(rest, old) for new, before in zip(shown(page), was)):
            complain('a picture stands still after a kill')
    finally:
        for browser in opened:
            browser.end()


# ---- the chart

def draw(watch):
    """Viewers and feeds of each node over time, as an SVG."""
    wide, high, left, colours = 900, 130, 60, ['#14406e', '#d6402b', '#2e8b57', '#b8860b']
    begin, end = watch.rows[0][0], watch.rows[-1][0]
    x = lambda at: left + (at - begin) / (end - begin) * (wide - left - 20)
    lines = []
    for strip, (name, count) in enumerate((('viewers', lambda f: f['Viewers']), ('feeds to it', lambda f: len(f['FeedsIn'] or [])))):
        top = 40 + strip * (high + 30)
        most = max([1] + [count(f) for _, row in watch.rows for f in row.values() if f])
        lines += [f'<text x="{left - 8}" y="{top + 12}" text-anchor="end">{most}</text><text x="{left}" y="{top - 8}">{name}</text>',
                  f'<path d="M{left} {top + high}H{wide - 20}" stroke="#ccc"/>']
        for n, colour in zip(range(1, 5), colours):
            points = ' '.join(f'{x(at):.1f},{top + high - (count(row[n]) if row[n] else 0) / most * high:.1f}' for at, row in watch.rows)
            lines.append(f'<polyline points="{points}" fill="none" stroke="{colour}" stroke-width="1.6"/>')
    for place, (at, what) in enumerate(watch.marks):
        y = 40 + 2 * (high + 30) + place * 16
        lines.append(f'<path d="M{x(at):.1f} 30V{y}" stroke="#999" stroke-dasharray="3 3"/><text x="{x(at) + 4:.1f}" y="{y}">{at - begin:.0f} s: {what}</text>')
    for n, colour in zip(range(1, 5), colours):
        lines.append(f'<text x="{left + 80 * n}" y="18" fill="{colour}">node {n}</text>')
    tall = 40 + 2 * (high + 30) + len(watch.marks) * 16
    with open(f'{out}/nodes.svg', 'w') as file:
        file.write(f'<svg xmlns="http://www.w3.org/2000/svg" width="{wide + 120}" height="{tall}" font-family="sans-serif" font-size="12" fill="#333">\n'
                   '<rect width="100%" height="100%" fill="white"/>\n' + '\n'.join(lines) + '\n</svg>\n')


def main():
    global out
    words = argparse.ArgumentParser(description=__doc__, formatter_class=argparse.RawDescriptionHelpFormatter)
    words.add_argument('--players', type=int, default=40)
    words.add_argument('--browsers', action='store_true')
    words.add_argument('--sfu', default=f'{TOP}/crates/sfu_program/out/sfu_program')
    words.add_argument('--out', default=f'{HERE}/out/test')
    asked = words.parse_args()
    out = os.path.abspath(asked.out)
    shutil.rmtree(out, ignore_errors=True)
    os.makedirs(out)
    for folder, name in ((HERE, 'cluster'), (f'{HERE}/players', 'players')):
        subprocess.run(['rm', '-f', f'{HERE}/out/{name}'])                         # go doesn't see that the library's archive is another one
        subprocess.run(['go', 'build', '-o', f'{HERE}/out/{name}', '.'], cwd=folder, env=GO, check=True)
    begin = time.time()
    try:
        wire(4)
        if asked.browsers:
            browsers()
        else:
            streams()
            conference(asked)
    except Exception as fault:
        complain(f'{type(fault).__name__}: {fault}')
    finally:
        for process in Process.all:
            if process.process.poll() is None:
                process.end(signal.SIGKILL)
        unwire()
    figure('the whole test', f'{time.time() - begin:.0f} s, load {os.getloadavg()[0]:.1f}')
    with open(f'{out}/measured.md', 'w') as file:
        file.writelines([f'Players: {asked.players}. {time.strftime("%Y-%m-%d %H:%M")}.\n\n| What | Measured |\n|---|---|\n'] +
                        [f'| {what} | {value} |\n' for what, value in table] + [f'\nComplaint: {text}\n' for text in complaints])
    if not complaints:
        for folder in filter(os.path.isdir, (f'{out}/{name}' for name in os.listdir(out))):
            shutil.rmtree(folder)                                                # players' packets: gigabytes
    print('no complaints' if not complaints else f'{len(complaints)} complaints')
    sys.exit(1 if complaints else 0)


if __name__ == '__main__':
    main()
