"""What the tests and benches over sockets of 127.0.0.1 share: programs that are started and ended, a room behind `serve` with one port for each role,
and what the system knows of ports and processes. `tests/system/serve.py`, `tests/system/soak.py` and the scripts of `bench/serve` import it; it does
nothing by itself. Needs gcc."""
import atexit
import json
import os
import signal
import subprocess
import tempfile
import time
from contextlib import contextmanager
from pathlib import Path

TOP = Path(__file__).resolve().parent.parent.parent
FOLDER = Path(__file__).resolve().parent
LOCAL, PEER = 21000, 22000      # below the ports that the system chooses
SIZE = 1200                     # of a packet, in bytes
NEVER = 10**12                  # turns: more than can be made while anybody waits
TRACKS = 21                     # of a full room: a port for each, for two subscribers of each, and for a controller are 64

program = None                  # the program, and the folder of the programs in C, once `prepared` has begun
binaries = None
problems = []
started = []


def check(good, text):
    if not good:
        problems.append(text)
        print(f'  WRONG: {text}', flush=True)


def built(named):
    """The program that was named, or the repository's, which is built first."""
    if named is None:
        subprocess.run([TOP / 'sfu', 'help'], stdin=subprocess.DEVNULL, stdout=subprocess.DEVNULL, check=True)
        named = TOP / 'crates/sfu_program/out/sfu_program'
    return named


def compile_tools(folder, *names):
    for name in names:
        subprocess.run(['gcc', '-std=gnu11', '-O2', '-Wall', '-Wextra', '-o', folder / name, FOLDER / f'{name}.c'], check=True)


@contextmanager
def prepared(named):
    """Builds the program where none is named, and the programs in C of this folder."""
    global program, binaries
    program = built(named)
    with tempfile.TemporaryDirectory() as work:
        binaries = Path(work)
        compile_tools(binaries, 'send', 'receive', 'relay', 'noise')
        yield


def drops(port):
    """How many datagrams the system dropped at a port of 127.0.0.1 since its socket was opened; none where the port isn't open."""
    with open('/proc/net/udp') as table:
        for row in list(table)[1:]:
            words = row.split()
            if words[1] == f'0100007F:{port:04X}':
                return int(words[-1])
    return None


def processor_seconds(pid):
    words = Path(f'/proc/{pid}/stat').read_text().rsplit(')', 1)[1].split()
    return (int(words[11]) + int(words[12])) / os.sysconf('SC_CLK_TCK')


def memory(pid, name):
    """Kilobytes of a process: VmRSS are those in memory, VmData those of heap and stacks that it may use."""
    for row in Path(f'/proc/{pid}/status').read_text().splitlines():
        if row.startswith(f'{name}:'):
            return int(row.split()[1])
    return 0


@atexit.register
def end_all():
    for running in started:
        if running.poll() is None:
            running.kill()


def wait_for(ports):
    """Waits until each port is open."""
    end = time.monotonic() + 20
    while any(drops(port) is None for port in ports):
        if time.monotonic() > end:
            raise SystemExit(f'no socket at one of the ports {ports}')
        time.sleep(0.02)


class Started:
    """A program of this folder or sfu, with what it writes."""

    def __init__(self, words, source=''):
        self.out = tempfile.TemporaryFile('w+')
        self.running = subprocess.Popen([str(word) for word in words], stdin=subprocess.PIPE, stdout=self.out, text=True)
        self.pid = self.running.pid
        started.append(self.running)
        self.running.stdin.write(source)
        self.running.stdin.close()

    def stop(self):
        if self.running.poll() is None:
            self.running.send_signal(signal.SIGTERM)
        return self.wait()

    def wait(self, seconds=None):
        self.running.wait(seconds)
        self.out.seek(0)
        return self.out.read()

    def rows(self):
        return [json.loads(row) for row in self.wait().splitlines()]

    def threads(self):
        try:
            return len(os.listdir(f'/proc/{self.pid}/task'))
        except FileNotFoundError:
            return 0


class Serving:
    """`serve` on a room: the opening lines, and one port for each role, from LOCAL on, whose peers are from PEER on."""

    def __init__(self, opening, roles, turns=NEVER):
        lines = opening + [f'port 127.0.0.1:{LOCAL + i} 127.0.0.1:{PEER + i} {role}' for i, role in enumerate(roles)]
        self.count, self.opening = len(roles), opening
        self.sfu = Started([program, 'serve', turns], ''.join(line + '\n' for line in lines))
        wait_for([LOCAL + i for i in range(self.count)])
        time.sleep(0.2)
        self.threads = self.sfu.threads()
        check(self.threads >= self.count, f'{self.threads} threads for {self.count} sessions')

    def lost(self):
        """How many datagrams the system dropped at each port."""
        return [drops(LOCAL + i) or 0 for i in range(self.count)]

    def end(self):
        """Stops it, where no session has ended before."""
        check(self.sfu.threads() == self.threads, f'{self.sfu.threads()} of {self.threads} threads are left')
        out = self.sfu.stop()
        check(out == 'ok\n' * len(self.opening), f'the opening lines were answered {out!r}')


def kind_of(track):
    """Of a full room's tracks: those with odd numbers are plain."""
    return 'plain' if track % 2 else 'layered'


def room_of(tracks, hold=100):
    """The opening lines and roles of a room with so many tracks, each with two subscribers, and a controller. Publisher T has the port T - 1, and the
    subscribers 2T - 1 and 2T of its track those behind the last publisher's."""
    opening, roles = [], []
    for track in range(1, tracks + 1):
        opening.append(f'publish {track} {kind_of(track)} 111111{track:02x} {hold}' + ('' if track % 2 else ' 4'))
        opening += [f'join {s} {track} 222222{s:02x} 0 1 1' for s in (2 * track - 1, 2 * track)]
        roles.append(f'publisher {track} 111111{track:02x}')
    return opening, roles + [f'subscriber {s} 222222{s:02x}' for s in range(1, 2 * tracks + 1)] + ['control']


def tool(name, *words):
    return Started([binaries / name, *words])


def sender(place, kind, ssrc, rate, seconds, *beside, first=0, answers=0, left_out=0, size=SIZE, burst=1):
    return tool('send', PEER + place, LOCAL + place, kind, ssrc, rate, seconds, size, first, answers, left_out, burst, *beside)


def receivers(places, ssrcs, nacked=0, plis=0, dump='-'):
    taking = tool('receive', nacked, plis, dump, *(f'{PEER + place}:{LOCAL + place}:{ssrc}' for place, ssrc in zip(places, ssrcs)))
    wait_for([PEER + place for place in places])
    return taking


def sound(row, name):
    check(row['received'] > 0, f'{name} received nothing')
    check(row['wrong'] == 0, f'{name} received {row["wrong"]} packets that are none of the stream')
    check(row['again'] == 0, f'{name} received {row["again"]} packets again')


def milliseconds(rows, part):
    return max(row[part] for row in rows) / 1000


def waits(rows):
    return ' '.join(f'{milliseconds(rows, part):6.2f}' for part in ('p50', 'p99', 'p999', 'worst'))
