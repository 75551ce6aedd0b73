#!/usr/bin/python3
"""Records real AV1 streams, and decodes each file with two decoders, dav1d and libaom: neither may find a fault, and dav1d has to decode each frame
that a strict receiver accepts. The streams are a headless Chromium's in five scalability modes (by the gateway of examples/browser), those of two
encoders of ffmpeg, examples/capture/l3t3.pcap, and scripts that are named. Each is recorded as it is, and of what the room makes of it for wishes of
all layers and of the lowest ones after 1 % and 3 % of its packets were lost for good, always the same ones.

usage: tests/system/recordings.py [--sfu PROGRAM] [--seconds N] [--no-browser] [--keep FOLDER] [SCRIPT...]
Chromium's streams last N seconds (10). Prints a row for each file, and ends with 1 where one has a fault. It is no part of the gate.

example: tests/system/recordings.py --seconds 5 --no-browser
"""
import argparse
import importlib.util
import os
import random
import re
import shutil
import subprocess
import sys
import tempfile
import time

TOP = os.path.dirname(os.path.dirname(os.path.dirname(os.path.abspath(__file__))))
SSRC, ID, HOLD = 0x11111111, 4, 100
ENCODERS = {'libaom-av1': '-usage realtime -cpu-used 8 -lag-in-frames 0 -g 30', 'libsvtav1': '-preset 10 -g 30 -svtav1-params pred-struct=1'}
WISHES = {'all': (1, 3, 7), 'lowest': (2, 0, 0)}        # a subscriber's number, spatial and temporal layer


def part(name, path):
    """A script of this repository as a module."""
    spec = importlib.util.spec_from_file_location(name, f'{TOP}/{path}')
    module = importlib.util.module_from_spec(spec)
    spec.loader.exec_module(module)
    return module


av1, browser = part('av1', 'tools/av1.py'), part('browser', 'examples/browser/test.py')


def what_is_missing(no_browser):
    packages = [name for name in ('dav1d', 'ffmpeg') if not shutil.which(name)]
    if importlib.util.find_spec('dpkt') is None:
        packages.append('python3-dpkt')
    return packages + ([] if no_browser else browser.what_is_missing())


def run(*words, text=None):
    done = subprocess.run(words, input=text, text=True, capture_output=True)
    return done.returncode, done.stdout, done.stderr


# ---- streams: each packet in hex digits, with its moment in milliseconds

def timed(packets):
    """The packets with moments by their RTP timestamps."""
    first = int(packets[0][8:16], 16)
    return [((int(packet[8:16], 16) - first) % 2**32 // 90, packet) for packet in packets]


def of_browser(mode, seconds, sfu, folder):
    """What two pages were sent, of which one wishes for all layers. A page pleads again and again, so that key frames come."""
    with open(f'{folder}/{mode}.dump', 'w') as dump, open(f'{folder}/{mode}.log', 'w') as log:
        gateway, chromium = browser.gate(dump, log, sfu), browser.Browser()
        try:
            publisher = chromium.open(browser.address(mode, browser.WEB) + '&start=1')
            publisher.wait("pc.connectionState === 'connected'", 30, 'the publisher')
            time.sleep(2)
            for _, spatial, temporal in reversed(WISHES.values()):
                page = chromium.open(f'http://127.0.0.1:{browser.WEB}/play.html?spatial={spatial}&temporal={temporal}')
                page.wait('seen.length > 2', 60, 'the first pictures')
            for _ in range(seconds):
                time.sleep(1)
                page.run("say('plead')")
        finally:
            chromium.end()
            gateway.end()
    return dict(zip(reversed(WISHES), browser.sent(f'{folder}/{mode}.dump').values()))


def of_encoder(name, folder):
    status, _, words = run('ffmpeg', '-v', 'error', '-y', '-f', 'lavfi', '-i', 'testsrc2=size=640x360:rate=15', '-t', '10', '-c:v', name,
                           *ENCODERS[name].split(), '-b:v', '500k', '-f', 'ivf', f'{folder}/encoded.ivf')
    if status:
        sys.exit(f'ffmpeg: {words}')
    units, rate = av1.read_ivf(f'{folder}/encoded.ivf', 1)
    return [(int(1000 * moment), packet.hex()) for moment, packets in av1.packets(units, rate, SSRC) for packet in packets]


def of_capture():
    status, script, words = run(f'{TOP}/tools/capture_to_script', f'{TOP}/examples/capture/l3t3.pcap', '10000001')
    if status:
        sys.exit(words)
    return [(int(line.split()[2]), line.split()[3]) for line in script.splitlines() if line.startswith('packet')]


def without(packets, share):
    """The stream after a loss, of which those packets are spared that have the first timestamp: they are of the first key frame."""
    dice = random.Random(18)
    return [(moment, packet) for moment, packet in packets if packet[8:16] == packets[0][1][8:16] or dice.random() >= share]


# ---- the room, and recordings

def taken(sfu, script):
    """The packets that each subscriber of a script took."""
    status, replies, words = run(sfu, 'run', text=script)
    if status:
        sys.exit(f'sfu run ended with {status}: {replies[-100:]}')
    lines = [line for line in script.splitlines() if line and not line.startswith('#')]
    found = {}
    for line, reply in zip(lines, replies.splitlines()):
        if line.startswith('take') and reply.startswith('packet'):
            found.setdefault(int(line.split()[1]), []).append(reply.split()[1])
    return found


def through_room(sfu, packets):
    """What the room has for both wishes."""
    lines = [f'publish 1 layered {packets[0][1][16:24]} {HOLD} {ID}']
    lines += [f'join {number} 1 2222222{number} 0 {s} {t}' for number, s, t in WISHES.values()]
    takes = [f'take {number}' for number, _, _ in WISHES.values()]
    for moment, packet in packets:
        lines += [f'packet 1 {moment} {packet}', f'tick 1 {moment}', *takes * 3]
    lines += [f'tick 1 {packets[-1][0] + HOLD}', *takes * 512]
    found = taken(sfu, '\n'.join(lines) + '\n')
    return {wish: found.get(number, []) for wish, (number, _, _) in WISHES.items()}


class Table:
    def __init__(self, sfu, folder):
        self.sfu, self.folder, self.files, self.faults = sfu, folder, 0, 0
        print('| Stream | Lost | Wish | Packets | Frames | Bytes | dav1d, frames | libaom, pictures | Fault |\n|' + '---|' * 9)

    def row(self, stream, lost, wish, packets, number=ID):
        name = re.sub('[^0-9A-Za-z_]+', '_', f'{stream}_{lost}_{wish}').strip('_')
        path, text, faults = f'{self.folder}/{name}.ivf', '\n'.join(packets) + '\n', []
        with open(path, 'wb') as file:
            status = subprocess.run([self.sfu, 'record', str(number)], input=text.encode(), stdout=file).returncode
        verdict = run(self.sfu, 'check', str(number), text=text)[1].split()
        frames = int(verdict[3]) if verdict[0] == 'ok' else 0
        if status or not frames:
            faults.append(f'record ended with {status}; {" ".join(verdict)}')
        status, _, words = run('dav1d', '--alllayers', '1', '--muxer', 'null', '-i', path, '-o', '-')
        decoded = int((re.findall(r'Decoded (\d+)/', words) or [0])[-1])
        if status or decoded != frames or re.search('[Ee]rror|invalid|Invalid', words):
            faults.append(f'dav1d ended with {status}: {words.strip()[-80:]}')
        status, sums, words = run('ffmpeg', '-v', 'warning', '-c:v', 'libaom-av1', '-i', path, '-fps_mode', 'passthrough', '-f', 'framemd5', '-')
        shown = sum(not line.startswith('#') for line in sums.splitlines())
        words = [line for line in words.splitlines() if not re.search('non.monoton', line)]
        if status or words or not shown:
            faults.append(f'ffmpeg ended with {status}: {words[:1]}')
        self.files, self.faults = self.files + 1, self.faults + bool(faults)
        cells = stream, lost, wish, len(packets), frames, os.path.getsize(path), decoded, shown, '; '.join(faults) or '–'
        print(f'| {" | ".join(map(str, cells))} |', flush=True)

    def rows(self, stream, packets, whole=None):
        """Those of a stream, of which what each wish gets without a loss may be known."""
        for share, lost in ((0, '–'), (0.01, '1 %'), (0.03, '3 %')):
            got = whole if whole and not share else through_room(self.sfu, without(packets, share))
            for wish, kept in got.items():
                if wish == 'all' or len(kept) < len(got['all']):   # without layers both are sent the same
                    self.row(stream, lost, wish, kept)


def main():
    words = argparse.ArgumentParser(description=__doc__, formatter_class=argparse.RawDescriptionHelpFormatter)
    words.add_argument('--sfu', default=f'{TOP}/crates/sfu_program/out/sfu_program')
    words.add_argument('--seconds', type=int, default=10)
    words.add_argument('--no-browser', action='store_true')
    words.add_argument('--keep')
    words.add_argument('scripts', nargs='*')
    asked = words.parse_args()
    if what_is_missing(asked.no_browser):
        sys.exit(f'missing: apt-get install {" ".join(what_is_missing(asked.no_browser))}')
    if not os.path.exists(asked.sfu):
        sys.exit('missing: the program, which ./sfu help builds')
    sfu = os.path.abspath(asked.sfu)
    with tempfile.TemporaryDirectory() as folder:
        if asked.keep:
            os.makedirs(asked.keep, exist_ok=True)
        table = Table(sfu, asked.keep or folder)
        for name in ENCODERS:
            table.rows(f'{name}, 640 × 360', of_encoder(name, folder))
        table.rows('examples/capture, L3T3', of_capture())
        for name in asked.scripts:
            script = open(name).read()
            number = int(re.search(r'^publish \d+ layered \w+ \d+ (\d+)', script, re.M).group(1))
            for subscriber, packets in sorted(taken(sfu, script).items()):
                table.row(os.path.basename(name), 'its own', f'subscriber {subscriber}', packets, number)
        if not asked.no_browser:
            browser.build(False)
            for mode in browser.MODES:
                whole = of_browser(mode, asked.seconds, sfu, table.folder)
                table.rows(f'Chromium, {mode}', timed(whole['all']), whole)
    print(f'{table.files} recordings, {table.faults} with a fault')
    sys.exit(1 if table.faults else 0)


if __name__ == '__main__':
    main()
