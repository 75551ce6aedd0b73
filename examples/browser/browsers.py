"""What the example's tests share: a headless Chromium, the gateway, and relays between them, which lose packets and bear so much a second."""
import base64
import http.server
import json
import os
import platform
import queue
import random
import re
import shutil
import socket
import subprocess
import sys
import tempfile
import threading
import time
import urllib.request

HERE = os.path.dirname(os.path.abspath(__file__))
ROOM, WEB, PROXY, TOOLS = 21000, 28080, 28081, 29333   # ports: the room's first, the gateway's pages, the same through relays, Chromium's
MODES = {'L1T1': ('320x180', 15, 300), 'L1T3': ('320x180', 15, 300), 'L2T2': ('480x270', 15, 500), 'L3T3': ('960x540', 10, 900),
         'L3T3_KEY': ('960x540', 10, 900)}              # size, frames a second, kbit/s: three spatial layers need this size
GAP, SOON, TORN = 500, 1000, 2000                       # milliseconds: the longest freeze, wait for another size, freeze where no NACK mends a loss
GO = dict(os.environ, GO111MODULE='off', GOPATH='/usr/share/gocode')
FLAGS = ('--headless=new --no-sandbox --no-first-run --disable-gpu --disable-background-networking --disable-component-update --window-size=1100,1000 '
         '--autoplay-policy=no-user-gesture-required --disable-background-timer-throttling --disable-renderer-backgrounding '
         '--disable-backgrounding-occluded-windows --allow-loopback-in-peer-connection --disable-features=WebRtcHideLocalIpsWithMdns '
         '--remote-allow-origins=*').split()

complaints = []


def complain(text):
    complaints.append(text)
    print(f'complaint: {text}', flush=True)


def what_is_missing():
    try:
        import websocket as _
        packages = []
    except ImportError:
        packages = ['python3-websocket']
    if not shutil.which('chromium'):
        packages.append('chromium')
    if not shutil.which('go'):
        packages.append('golang-go')
    if not os.path.isdir('/usr/share/gocode/src/github.com/pion/webrtc'):
        packages.append('golang-github-pion-webrtc.v3-dev')
    return packages


# ---- Chromium, by its DevTools protocol

class Page:
    def __init__(self, where, target=None):
        import websocket
        self.socket, self.target, self.count = websocket.create_connection(where, timeout=60), target, 0

    def call(self, method, **words):
        self.count += 1
        self.socket.send(json.dumps({'id': self.count, 'method': method, 'params': words}))
        while True:
            reply = json.loads(self.socket.recv())
            if reply.get('id') == self.count:
                if 'error' in reply:
                    raise RuntimeError(reply['error'])
                return reply['result']

    def run(self, script):
        """The value of a JavaScript expression, awaited."""
        reply = self.call('Runtime.evaluate', expression=script, awaitPromise=True, returnByValue=True, userGesture=True)
        if 'exceptionDetails' in reply:
            raise RuntimeError(json.dumps(reply['exceptionDetails'])[:600])
        return reply['result'].get('value')

    def wait(self, script, seconds, what):
        end = time.time() + seconds
        while time.time() < end:
            if self.run(script):
                return
            time.sleep(0.1)
        raise RuntimeError(f'{what} took more than {seconds} s')

    def shoot(self, name):
        with open(name, 'wb') as out:
            out.write(base64.b64decode(self.call('Page.captureScreenshot', format='png')['data']))


class Browser:
    def __init__(self, *flags):
        self.dir = tempfile.mkdtemp(prefix='chromium')
        self.process = subprocess.Popen(['chromium', *FLAGS, *flags, f'--remote-debugging-port={TOOLS}', f'--user-data-dir={self.dir}', 'about:blank'],
                                        stdout=subprocess.DEVNULL, stderr=subprocess.DEVNULL)
        for _ in range(100):
            try:
                self.whole = Page(json.load(urllib.request.urlopen(f'http://127.0.0.1:{TOOLS}/json/version'))['webSocketDebuggerUrl'])
                return
            except OSError:
                time.sleep(0.2)
        raise RuntimeError('chromium does not start')

    def open(self, url):
        """A page in a window of its own, so that it isn't hidden."""
        target = self.whole.call('Target.createTarget', url=url, newWindow=True, width=1100, height=1000)['targetId']
        page = Page(f'ws://127.0.0.1:{TOOLS}/devtools/page/{target}', target)
        page.wait("document.readyState === 'complete' && typeof listen === 'function'", 30, url)
        return page

    def shut(self, page):
        page.socket.close()
        self.whole.call('Target.closeTarget', targetId=page.target)

    def end(self):
        self.process.terminate()
        self.process.wait()
        shutil.rmtree(self.dir, ignore_errors=True)


# ---- the gateway

def build(library):
    env, archive = GO, f'{HERE}/../../crates/room_c/out/libroom_c.a'
    if library and not os.path.exists(archive):
        sys.exit('missing: (cd crates/room_c && rt lib)')
    if library:                                          # go build doesn't look whether an archive has changed, but whether a flag has
        env = dict(GO, CGO_CFLAGS=f'-DARCHIVE={os.stat(archive).st_mtime_ns}')
    subprocess.run(['go', 'build', *(['-tags', 'library'] if library else []), '-o', 'out/gateway', '.'], cwd=HERE, env=env, check=True)


class gate:
    """A gateway, which writes what comes from the room to a file, and the room of `serve` beside it; or one with the library, which has the room."""

    def __init__(self, out, log, sfu=None):
        self.processes = []
        if sfu:
            lines = re.sub(r':(\d+)', lambda port: f':{int(port[1]) - 7000 + ROOM}', open(f'{HERE}/serve.lines').read())
            self.processes.append(subprocess.Popen([sfu, 'serve', '1000000000000'], stdin=subprocess.PIPE, stdout=log, stderr=log, text=True))
            self.processes[0].stdin.write(lines)
            self.processes[0].stdin.close()
        flags = ['-http', str(WEB), '-port', str(ROOM), *(['-dump'] if sfu else [])]
        self.processes.append(subprocess.Popen(['out/gateway', *flags], cwd=HERE, stdout=out, stderr=log))

    def end(self):
        for process in self.processes:
            process.terminate()
            process.wait()


# ---- relays, which lose packets

def descriptor_of(data, element):
    """The bytes of the header extension with this id, which SRTP leaves readable, or none."""
    at = 12 + 4 * (data[0] & 15)
    if not data[0] & 16 or len(data) < at + 4:
        return b''
    short, end = data[at:at + 2] == b'\xbe\xde', at + 4 + 4 * int.from_bytes(data[at + 2:at + 4], 'big')
    at += 4
    while at + 1 < min(end, len(data)):
        which, size, head = (data[at] >> 4, (data[at] & 15) + 1, 1) if short else (data[at], data[at + 1], 2)
        if data[at] == 0:
            size, head = 0, 1
        elif which == element:
            return data[at + head:at + head + size]
        at += head + size
    return b''


def templates_of(descriptor):
    """The layers of each template, by its id, of a key frame's descriptor (RTP Payload Format For AV1 v1.0, Appendix A.8)."""
    first, layers, templates = (descriptor[3] & 7) << 3 | descriptor[4] >> 5, (0, 0), {}
    for at in range(20, len(descriptor) * 4):
        templates[first + len(templates) & 63] = layers
        step = descriptor[at // 4] >> 6 - at % 4 * 2 & 3
        if step == 3:
            break
        layers = (layers[0], layers[1] + 1) if step == 1 else (layers[0] + 1, 0) if step == 2 else layers
    return templates


class Choice:
    """Loses the first packet of a frame of these layers, the first `times` times that it is sent, and then one of another frame after some seconds."""

    def __init__(self, element, layers, times, seconds):
        self.element, self.layers, self.times, self.seconds = element, layers, times, seconds
        self.templates, self.newest, self.left, self.after, self.events = {}, {}, {}, time.time() + 1, 0

    def loses(self, data):
        source, number = data[8:12], int.from_bytes(data[2:4], 'big')
        descriptor, newest = descriptor_of(data, self.element), self.newest.get(data[8:12], number - 1)
        if not descriptor:
            return False
        if len(descriptor) > 5 and descriptor[3] & 128:
            self.templates[source] = templates_of(descriptor)
        if 0 < (number - newest) % 65536 < 32768:
            self.newest[source] = number
            chosen = descriptor[0] & 128 and self.templates.get(source, {}).get(descriptor[0] & 63) == self.layers
            if chosen and time.time() > self.after:
                self.after, self.events = time.time() + self.seconds, self.events + 1
                self.left[source, number] = self.times
        left = self.left.get((source, number), 0)
        self.left[source, number] = left - 1
        return left > 0


class Relay:
    """Each of two ends is told a port of the relay in place of the other's; what comes to one port goes on from the other one. Way 1 is that of the
    offerer's packets, way 0 that of the answerer's."""
    all = []

    def __init__(self, element, *media):
        self.element, self.media, self.to, self.lost = element, media, {}, 0   # the id of descriptors; the ways on which there is RTP
        self.share, self.for_good, self.choice = {}, False, None               # shares by way; whether resends are lost, too; what else way 0 loses
        self.rate, self.free, self.late = 0, 0, queue.Queue()                  # bits a second that way 0 bears, or 0; when it is free; what waits for it
        self.ends = [socket.socket(socket.AF_INET, socket.SOCK_DGRAM) for _ in range(2)]
        for way, end in enumerate(self.ends):
            end.bind(('127.0.0.1', 0))
            threading.Thread(target=self.carry, args=(way,), daemon=True).start()
        threading.Thread(target=self.drain, daemon=True).start()
        Relay.all.append(self)

    def instead(self, sdp, which):
        """The description with this end of the relay in place of its first candidate of IPv4, and no other candidate."""
        host, port = re.search(r'a=candidate:\S+ 1 udp \d+ ([\d.]+) (\d+)', sdp).groups()
        self.to[1 - which] = (host, int(port))
        lines = [line for line in sdp.split('\r\n') if not line.startswith('a=candidate') or f' udp ' in line and f' {host} {port} ' in line]
        return '\r\n'.join(line.replace(f' {host} {port} ', ' {} {} '.format(*self.ends[which].getsockname())) for line in lines)

    def loses(self, way, data):
        if len(data) < 13 or data[0] >> 6 != 2 or 192 <= data[1] <= 223:       # no RTP
            return False
        dice = random.Random(data[2:4]) if self.for_good and way == 1 else random   # by its number a packet is lost each time that it is sent
        return dice.random() < self.share.get(way, 0) or way == 0 and self.choice and self.choice.loses(data)

    def carry(self, way):
        while True:
            data, _ = self.ends[way].recvfrom(2048)
            if self.loses(way, data):
                self.lost += 1
            elif way == 0 and self.rate:                                       # a queue of 300 ms, and what is beyond it is lost
                now = time.monotonic()
                self.free = max(self.free, now)
                if self.free < now + 0.3:
                    self.free += len(data) * 8 / self.rate
                    self.late.put((self.free, data))
            elif 1 - way in self.to:
                self.ends[1 - way].sendto(data, self.to[1 - way])

    def drain(self):
        while True:
            due, data = self.late.get()
            time.sleep(max(0, due - time.monotonic()))
            self.ends[1].sendto(data, self.to[1])


class Proxy(http.server.BaseHTTPRequestHandler):
    """The gateway's pages and its signalling, with a relay between browser and gateway."""

    def do_GET(self):
        self.answer(urllib.request.Request(f'http://127.0.0.1:{WEB}{self.path}'), lambda body: body)

    def do_POST(self):
        offer = self.rfile.read(int(self.headers['Content-Length'])).decode()
        element = re.search(r'a=extmap:(\d+)\S* \S*dependency-descriptor', offer)
        ways = {'/publish': (1,), '/play': (0,), '/sizes': (0,)}.get(self.path.split('?')[0], (0, 1))
        relay = Relay(int(element.group(1)), *ways)

        def back(body):
            reply = json.loads(body)
            return json.dumps({**reply, 'sdp': relay.instead(reply['sdp'], 1)}).encode()
        self.answer(urllib.request.Request(f'http://127.0.0.1:{WEB}{self.path}', relay.instead(offer, 0).encode(), method='POST'), back)

    def answer(self, request, change):
        try:
            with urllib.request.urlopen(request) as reply:
                status, kind, body = 200, reply.headers['Content-Type'], change(reply.read())
        except urllib.error.HTTPError as fault:
            status, kind, body = fault.code, 'text/plain', fault.read()
        self.send_response(status)
        self.send_header('Content-Type', kind)
        self.send_header('Content-Length', str(len(body)))
        self.end_headers()
        self.wfile.write(body)

    def log_message(self, *_):
        pass


def serve_relays():
    threading.Thread(target=http.server.ThreadingHTTPServer(('127.0.0.1', PROXY), Proxy).serve_forever, daemon=True).start()


# ---- what is measured

def machine():
    """The browser, the machine and the day."""
    version = subprocess.run(['chromium', '--version'], capture_output=True, text=True).stdout.split()
    names = [text.split(':')[1].strip() for text in open('/proc/cpuinfo') if text.startswith('model name')]
    processors = f'{len(names)} processors, {names[0]}' if names else platform.machine()
    return f'Chromium {version[1] if len(version) > 1 else "?"}, headless, on 127.0.0.1; {processors}; {time.strftime("%Y-%m-%d")}'


def part(values, share):
    return sorted(values)[min(len(values) - 1, int(len(values) * share))] if values else '–'


def longest_gap(shown):
    """Milliseconds; a minute where there are no two pictures."""
    return max((b[0] - a[0] for a, b in zip(shown, shown[1:])), default=60000)


def lose(before, after=0, for_good=False):
    """Shares of RTP packets that are lost from publishers and to players; a publisher's for good, so that no NACK mends it."""
    for relay in Relay.all:
        relay.share, relay.for_good = {way: (after, before)[way] for way in relay.media}, for_good
