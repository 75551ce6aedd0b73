#!/usr/bin/python3
"""Whether a receiver of another program decodes what was lost on its way, once it is resent on a stream of its own (RFC 4588). GStreamer encodes a VP8
track, which goes through `serve` as a plain track over real sockets of 127.0.0.1; behind `serve` a share of the datagrams to the subscriber is
dropped, resent ones too. GStreamer's `rtpjitterbuffer` asks for what is missing by NACKs, and its `rtprtxreceive` unwraps what comes. A frame counts
as right where its picture is, byte for byte, one that the encoder's own decoder made. It ends with 1 where fewer frames came right with resends
than without, or a session ended early. It is no part of the gate, and what it prints depends on the machine's load.

usage: tests/system/rtx.py [--program FILE] [--seconds N] [--loss PERCENT]      10 seconds and 3 % if left out

Debian's packages: gstreamer1.0-tools gstreamer1.0-plugins-base gstreamer1.0-plugins-good gstreamer1.0-plugins-bad python3-gi gir1.2-gstreamer-1.0

example: tests/system/rtx.py --seconds 10 --loss 3
"""
import sys

if sys.argv[1:] in (['-h'], ['--help']):  # before what may be missing is imported
    sys.exit(print(__doc__.strip()))

import argparse
import hashlib
import random
import select
import socket
import subprocess
import threading
from pathlib import Path

try:
    import gi
except ImportError:
    sys.exit('rtx.py: missing: ' + __doc__.partition("Debian's packages: ")[2].partition('\n')[0] + ' (apt-get install)')
gi.require_version('Gst', '1.0')
from gi.repository import GLib, Gst

TOP = Path(__file__).resolve().parent.parent.parent
NEVER = 10**12                                  # turns: more than can be made while anybody waits
RATE = 30                                       # pictures a second
MEDIA, RTX = 96, 97                             # payload types
# serve's own ports and those of its peers, and where the receiver's RTP comes in and its RTCP is sent
SERVED, PEERS, RECEIVER, FEEDBACK = (21600, 21601), (22600, 22601), 23600, 23601
PORTS = {
    'subscriber': 'subscriber 1 22222222',
    'rtx': f'rtx 1 22222222 33333333 {RTX}',
}


class Lossy(threading.Thread):
    """The way between `serve` and the receiver, on which datagrams get lost; what comes back gets through."""

    def __init__(self, loss):
        super().__init__(daemon=True)
        self.loss, self.chance = loss, random.Random(1)
        self.count = {'sent': 0, 'lost': 0, 'resent': 0, 'resent and lost': 0}
        self.served = socket.socket(socket.AF_INET, socket.SOCK_DGRAM)
        self.served.bind(('127.0.0.1', PEERS[1]))
        self.feedback = socket.socket(socket.AF_INET, socket.SOCK_DGRAM)
        self.feedback.bind(('127.0.0.1', FEEDBACK))
        self.seen, self.ended = set(), False

    def run(self):
        while not self.ended:
            ready, _, _ = select.select([self.served, self.feedback], [], [], 0.1)
            if self.feedback in ready:
                self.served.sendto(self.feedback.recv(2048), ('127.0.0.1', SERVED[1]))
            if self.served in ready:
                self.pass_on(self.served.recv(2048))
        self.served.close()
        self.feedback.close()

    def pass_on(self, datagram):
        payload_type, number = datagram[1] % 128, datagram[2:4]
        again = payload_type == RTX or number in self.seen
        if not again:
            self.seen.add(number)
        self.count['resent' if again else 'sent'] += 1
        if self.chance.random() * 100 < self.loss:
            self.count['resent and lost' if again else 'lost'] += 1
        else:
            self.served.sendto(datagram, ('127.0.0.1', RECEIVER))


def pictures(sink, into):
    """Notes a digest of each picture that comes to a sink."""
    sink.set_property('signal-handoffs', True)
    sink.connect('handoff', lambda _sink, buffer, _pad: into.append(hashlib.md5(buffer.extract_dup(0, buffer.get_size())).digest()))


def publisher(frames, into):
    """What encodes pictures and sends them, and decodes them itself."""
    pipeline = Gst.parse_launch(
        f'videotestsrc is-live=true num-buffers={frames} pattern=ball motion=sweep ! video/x-raw,width=640,height=360,framerate={RATE}/1 '
        f'! vp8enc deadline=1 threads=1 target-bitrate=1500000 keyframe-max-dist={2 * RATE} ! tee name=encoded '
        f'encoded. ! queue ! rtpvp8pay pt={MEDIA} ssrc={0x11111111} mtu=1200 picture-id-mode=15-bit '
        f'! udpsink host=127.0.0.1 port={SERVED[0]} bind-address=127.0.0.1 bind-port={PEERS[0]} '
        'encoded. ! queue ! vp8dec ! fakesink name=decoded sync=false')
    pictures(pipeline.get_by_name('decoded'), into)
    return pipeline


def unwrapper(_rtpbin, session):
    """What unwraps resent packets, as `rtpbin` asks for it."""
    bin_ = Gst.Bin.new(None)
    unwrap = Gst.ElementFactory.make('rtprtxreceive')
    unwrap.set_property('payload-type-map', Gst.Structure.new_from_string(f'application/x-rtp-pt-map,{MEDIA}=(uint){RTX}'))
    bin_.add(unwrap)
    bin_.add_pad(Gst.GhostPad.new(f'src_{session}', unwrap.get_static_pad('src')))
    bin_.add_pad(Gst.GhostPad.new(f'sink_{session}', unwrap.get_static_pad('sink')))
    return bin_


def stream(payload_type):
    kind = 'VP8' if payload_type == MEDIA else 'RTX'
    return f'application/x-rtp,media=(string)video,clock-rate=(int)90000,encoding-name=(string){kind},payload=(int){payload_type}'


def receiver(asks, into):
    """What receives the track, asks for missing packets or doesn't, and decodes the pictures."""
    pipeline = Gst.parse_launch(
        f'rtpbin name=rtp latency=300 rtp-profile=avpf do-retransmission={str(asks).lower()} '
        f'udpsrc name=media address=127.0.0.1 port={RECEIVER} caps="{stream(MEDIA)}" '
        f'udpsink name=feedback host=127.0.0.1 port={FEEDBACK} sync=false async=false')
    rtpbin = pipeline.get_by_name('rtp')
    rtpbin.connect('request-aux-receiver', unwrapper)
    rtpbin.connect('request-pt-map', lambda _rtpbin, _session, payload_type: Gst.Caps.from_string(stream(payload_type)))
    pipeline.get_by_name('media').link_pads('src', rtpbin, 'recv_rtp_sink_0')
    rtpbin.link_pads('send_rtcp_src_0', pipeline.get_by_name('feedback'), 'sink')
    # By RTCP's own timing NACKs would wait for seconds (RFC 4585, section 3.5).
    session = rtpbin.emit('get-internal-session', 0)
    session.set_property('rtcp-min-interval', 20_000_000)
    session.set_property('bandwidth', 2_000_000.0)

    def decode(_rtpbin, pad):
        if not pad.get_name().endswith(f'_{MEDIA}'):
            return
        decoder = Gst.parse_bin_from_description('rtpvp8depay wait-for-keyframe=true ! vp8dec ! fakesink name=decoded sync=false', True)
        pictures(decoder.get_by_name('decoded'), into)
        pipeline.add(decoder)
        decoder.sync_state_with_parent()
        pad.link(decoder.get_static_pad('sink'))

    rtpbin.connect('pad-added', decode)
    return pipeline


def play(program, port, asks, options):
    """What came of a track: the pictures that were sent and those that came right, and what was lost and resent."""
    lines = [
        'publish 1 plain 11111111 100', 'join 1 1 22222222 0 0 0',
        f'port 127.0.0.1:{SERVED[0]} 127.0.0.1:{PEERS[0]} publisher 1 11111111',
        f'port 127.0.0.1:{SERVED[1]} 127.0.0.1:{PEERS[1]} {PORTS[port]}',
    ]
    served = subprocess.Popen([*program, str(NEVER)], stdin=subprocess.PIPE, stdout=subprocess.PIPE, text=True)
    served.stdin.write(''.join(line + '\n' for line in lines))
    served.stdin.close()
    if [served.stdout.readline() for _ in range(2)] != ['ok\n', 'ok\n']:
        sys.exit('serve refused the track or the subscriber')
    made, came, loop = [], [], GLib.MainLoop()
    way = Lossy(options.loss)
    way.start()
    receives = receiver(asks, came)
    receives.set_state(Gst.State.PLAYING)
    sends = publisher(options.seconds * RATE, made)
    bus = sends.get_bus()
    bus.add_signal_watch()
    bus.connect('message::eos', lambda *_: GLib.timeout_add(1500, loop.quit))
    bus.connect('message::error', lambda _bus, message: sys.exit(str(message.parse_error())))
    GLib.timeout_add(500, lambda: sends.set_state(Gst.State.PLAYING) and False)
    loop.run()
    sends.set_state(Gst.State.NULL)
    receives.set_state(Gst.State.NULL)
    way.ended = True
    way.join()
    early = served.poll() is not None
    served.kill()
    served.wait()
    right = len(set(made) & set(came))
    return len(set(made)), right, len(came), way.count, early


reader = argparse.ArgumentParser(usage=__doc__.partition('usage: ')[2])
reader.add_argument('--program')
reader.add_argument('--seconds', type=int, default=10)
reader.add_argument('--loss', type=float, default=3)
options = reader.parse_args()
program = [options.program, 'serve'] if options.program else [str(TOP / 'sfu'), 'serve']
Gst.init(None)
rows = [
    ('rtx', False, 'it never asks'),
    ('rtx', True, 'resends on a stream of their own'),
    ('subscriber', True, 'resends as they were sent'),
]
rights, early = [], False
for port, asks, text in rows:
    made, right, came, count, ended = play(program, port, asks, options)
    rights.append(right)
    early = early or ended
    print(f'{text}: {right} of {made} pictures came right, {came} were decoded; ' + ', '.join(f'{n} {what}' for what, n in count.items()))
    sys.stdout.flush()
if early or rights[1] <= rights[0]:
    sys.exit(1)
