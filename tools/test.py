#!/usr/bin/python3
"""Runs the tools on the examples and on broken inputs, and says in one line what is missing where a package is. It is no part of the gate.

usage: tools/test.py        the program must be built (./sfu help), or the variable SFU name another

example: tools/test.py
"""
import sys

if sys.argv[1:] in (['-h'], ['--help']):  # before what may be missing is imported
    sys.exit(print(__doc__.strip()))

import importlib.util
import os
import shutil
import struct
import subprocess
import tempfile

HERE = os.path.dirname(os.path.abspath(__file__))
TOP = os.path.dirname(HERE)
EXAMPLES = f'{TOP}/examples'
sys.path.insert(0, HERE)

missing = [package for module, package in (('dpkt', 'python3-dpkt'), ('matplotlib', 'python3-matplotlib')) if importlib.util.find_spec(module) is None]
if missing:
    print('tools/test.py: skipped, since there is no ' + ', '.join(missing) + ' (of Debian)')
    sys.exit(0)

import shared

done = []


def tool(name, *words, wants=0):
    ran = subprocess.run([f'{HERE}/{name}', *words], capture_output=True, text=True, check=False)
    if ran.returncode != wants or 'Traceback' in ran.stderr:
        sys.exit(f'tools/test.py: {name} {" ".join(words)}: status {ran.returncode}, wanted {wants}\n{ran.stdout[-500:]}{ran.stderr[-500:]}')
    return ran.stdout, ran.stderr


def same(what, found, wanted):
    if found != wanted:
        sys.exit(f'tools/test.py: {what}: {found!r}, wanted {wanted!r}')
    done.append(what)


def packets_in(script, track):
    return [call[3].lower() for call in shared.read_script(script) if call[0] == 'packet' and call[1] == track]


def refuses(what, name, words, text):
    out, err = tool(name, *words, wants=1)
    same(what, (out, text in err), ('', True))


with tempfile.TemporaryDirectory() as work:
    # A script's packets there and back.
    for example, ssrc, kind in (('layered', '11111111', 'id 4'), ('vp8', None, 'none')):
        script, capture, again = f'{EXAMPLES}/{example}.script', f'{work}/{example}.pcap', f'{work}/{example}.script'
        tool('script_to_capture', '--publisher', '1', script, capture)
        listed = tool('capture_to_script', capture)[0].splitlines()
        same(f'{example}: one stream is listed', (len(listed), listed[1].endswith(kind)), (2, True))
        ssrc = listed[1].split()[0]
        with open(again, 'w', encoding='ascii') as file:
            file.write(tool('capture_to_script', capture, ssrc)[0])
        same(f'{example}: the packets are the same there and back', packets_in(again, '1'), packets_in(script, '1'))
        with open(again, 'rb') as file:
            ran = subprocess.run([*shared.program(), 'run'], stdin=file, stdout=subprocess.PIPE, check=False)
        same(f'{example}: the script of the capture runs', ran.returncode, 0)
        # What a subscriber got, as Wireshark reads it.
        sent = f'{work}/{example}.sent.pcap'
        tool('script_to_capture', '--subscriber', '1', again, sent)
        got = [bytes.fromhex(line[7:]) for line in ran.stdout.decode().splitlines() if line.startswith('packet ')]
        wanted = [(str(rtp.seq), f'0x{rtp.ssrc:08x}', str(rtp.marker)) for rtp in map(shared.read_rtp, got)]
        if shutil.which('tshark'):
            shown = subprocess.run(['tshark', '-r', sent, '-d', 'udp.port==5006,rtp', '-T', 'fields', '-e', 'rtp.seq', '-e', 'rtp.ssrc', '-e', 'rtp.marker'], capture_output=True, text=True, check=True)
            marks = {'0': '0', '1': '1', 'False': '0', 'True': '1'}
            rows = [tuple(line.split('\t')) for line in shown.stdout.splitlines()]
            same(f'{example}: Wireshark finds the same numbers, sources and markers', [(a, b, marks[c]) for a, b, c in rows], wanted)
        else:
            print('tools/test.py: no tshark (of Debian), so what Wireshark reads is left out')
        if kind != 'none':
            check = subprocess.run([*shared.program(), 'check', '4'], input=''.join(f'{each.hex()}\n' for each in got).encode(), stdout=subprocess.PIPE, check=False)
            same(f'{example}: the strict receiver accepts', (check.returncode, check.stdout[:3]), (0, b'ok '))

    # The browser's capture: its script runs, and a strict receiver accepts what each subscriber got.
    with open(f'{work}/browser.script', 'w', encoding='ascii') as file:
        file.write(tool('capture_to_script', f'{EXAMPLES}/capture/l3t3.pcap', '10000001', '--wish', '2,2', '--wish', '0,0', '--hold', '300')[0])
    with open(f'{work}/browser.script', 'rb') as file:
        ran = subprocess.run([*shared.program(), 'run'], stdin=file, stdout=subprocess.PIPE, check=False)
    calls = shared.read_script(f'{work}/browser.script')
    replies = ran.stdout.decode().splitlines()
    same('the browser\'s stream runs', (ran.returncode, len(replies)), (0, len(calls)))
    ends = [reply for call, reply, after in zip(calls, replies, [*calls[1:], ['end']]) if call[0] == 'take' and after != call]
    same('behind each packet both queues are empty', (set(ends), len(ends)), ({'empty'}, 2 * sum(call[0] == 'tick' for call in calls)))
    for subscriber in ('1', '2'):
        got = ''.join(f'{reply[7:]}\n' for call, reply in zip(calls, replies) if call == ['take', subscriber] and reply.startswith('packet '))
        check = subprocess.run([*shared.program(), 'check', '4'], input=got.encode(), stdout=subprocess.PIPE, check=False)
        same(f'the browser\'s stream: the strict receiver of subscriber {subscriber} accepts', (check.returncode, check.stdout[:3]), (0, b'ok '))

    # rtpdump, as RFC 3550's tools write it: a line of text, 16 bytes, and records of length, packet's length and milliseconds.
    packets = [bytes.fromhex(each) for each in packets_in(f'{EXAMPLES}/layered.script', '1')]
    dump = b'#!rtpplay1.0 127.0.0.1/5004\n' + bytes(16) + b''.join(struct.pack('>HHI', len(each) + 8, len(each), 10 * at) + each for at, each in enumerate(packets))
    for name, data in (('whole', dump), ('cut', dump[:-5]), ('head', dump[:30])):
        with open(f'{work}/{name}.rtpdump', 'wb') as file:
            file.write(data)
    with open(f'{work}/dump.script', 'w', encoding='ascii') as file:
        file.write(tool('capture_to_script', f'{work}/whole.rtpdump', '11111111', '--hold', '50', '--wish', '1,1', '--why')[0])
    calls = shared.read_script(f'{work}/dump.script')
    same('rtpdump: packets and moments', [(call[2], call[3]) for call in calls if call[0] == 'packet'], [(str(10 * at), each.hex()) for at, each in enumerate(packets)])

    # Broken inputs: one line that says what is wrong.
    refuses('a cut rtpdump', 'capture_to_script', [f'{work}/cut.rtpdump'], 'it is cut at byte')
    refuses('an rtpdump cut in its head', 'capture_to_script', [f'{work}/head.rtpdump'], 'cut in its head')
    refuses('a file that is not there', 'capture_to_script', [f'{work}/nothing'], 'No such file')
    refuses('no capture', 'capture_to_script', [f'{EXAMPLES}/layered.script'], 'neither pcap nor pcapng nor rtpdump')
    refuses('an SSRC that is not there', 'capture_to_script', [f'{work}/layered.pcap', 'deadbeef'], 'no packet has the SSRC deadbeef; there are 11111111')
    refuses('a wish of three numbers', 'capture_to_script', [f'{work}/layered.pcap', '11111111', '--wish', '1,1,1'], 'a wish two numbers')
    with open(f'{work}/layered.pcap', 'rb') as file:
        data = file.read()
    for name, changed, text in (
        ('a capture cut in mid-packet', data[:-7], 'it is cut or broken'),
        ('a kind of link that is not read', data[:20] + struct.pack('<I', 147) + data[24:], 'kind of link that is not read (number 147)'),
        ('a capture without RTP', data[:24], 'no RTP over UDP'),
    ):
        with open(f'{work}/broken.pcap', 'wb') as file:
            file.write(changed)
        refuses(name, 'capture_to_script', [f'{work}/broken.pcap'], text)
    with open(f'{work}/broken.script', 'wb') as file:
        file.write(b'publish 1 layered 11111111 100 4\nnothing\n')
    refuses('a line that is none, to explain', 'explain', [f'{work}/broken.script', '--frame', '1'], 'not a call of the room')
    with open(f'{EXAMPLES}/layered.script', encoding='ascii') as file:
        other = file.read().replace('publish 1 layered 11111111 100 4', 'publish 1 layered 11111111 100 5')
    with open(f'{work}/other.script', 'w', encoding='ascii') as file:
        file.write(other)
    for name, words in (('explain', ['--frame', '11']), ('chart', [f'{work}/chart'])):
        refuses(f'another extension id, to {name}', name, [f'{work}/other.script', *words], 'reads in the header extension element 5; its packets have the elements 4')
    refuses('a track that is not there', 'explain', [f'{EXAMPLES}/layered.script', '--frame', '1', '--track', '9'], 'no track 9 is published')
    refuses('a plain track', 'chart', [f'{EXAMPLES}/vp8.script', f'{work}/chart'], 'is plain')
    refuses('no time with frames', 'chart', [f'{EXAMPLES}/layered.script', f'{work}/chart', '--from', '90000'], 'no frame began then')

    # What the rules give for the example: frame 3 lacks frame 2, which was lost; frame 11 lacks frame 10, which lacks frame 8, which was lost.
    out = tool('explain', f'{EXAMPLES}/layered.script', '--frame', '11', '--subscriber', '1')[0].splitlines()
    same('explain: the path of causes', [line.split(':')[0].strip() for line in out if line.startswith('  frame')], ['frame 11', 'frame 10', 'frame 8'])
    same('explain: the root', out[-1].strip().startswith('frame 8: no whole frame has this number'), True)
    out = tool('explain', f'{EXAMPLES}/layered.script', '--from', '0', '--to', '100')[0].splitlines()
    same('explain: a table', [line.split()[0] for line in out[1:]], ['0', '1', '2', '3'])
    tool('chart', f'{EXAMPLES}/layered.script', f'{work}/chart')
    with open(f'{work}/chart.svg', encoding='utf-8') as file:
        picture = file.read()
    same('chart: what is withheld is named', [text in picture for text in ('3 lacks 2', '11 lacks 10', 'wish 1,1', 'never whole')], [True] * 4)
    with open(f'{work}/chart.png', 'rb') as file:
        same('chart: a PNG', file.read(8), b'\x89PNG\r\n\x1a\n')
    for name in ('capture_to_script', 'script_to_capture', 'explain', 'chart'):
        same(f'{name} --help', 'usage: ' + name in tool(name, '--help')[0], True)
        tool(name, wants=2)

print(f'tools/test.py: {len(done)} comparisons, all as wanted')
