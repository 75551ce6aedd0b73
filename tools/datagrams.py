#!/usr/bin/env python3
"""Sends lines of hex as datagrams, writes datagrams as lines of hex, and talks to a control port.

usage: tools/datagrams.py send FROM TO RATE < FILE     a datagram for each line, so many a second
       tools/datagrams.py show PORT [SECONDS]          a line for each datagram, until none has come for so many seconds (3)
       tools/datagrams.py ask FROM TO LINE...          sends each line as it is and writes what is answered
FROM, TO and PORT are ports of 127.0.0.1.

example: tools/datagrams.py ask 6003 5003 'why 2 5' 'key 1'
"""
import socket
import sys
import time

if sys.argv[1:] in (['-h'], ['--help']):
    sys.exit(print(__doc__.strip()))


def at(port):
    near = socket.socket(socket.AF_INET, socket.SOCK_DGRAM)
    near.bind(('127.0.0.1', int(port)))
    return near


def send(from_port, to_port, rate):
    near, begin = at(from_port), time.monotonic()
    for place, line in enumerate(sys.stdin):
        time.sleep(max(0, begin + place / float(rate) - time.monotonic()))
        near.sendto(bytes.fromhex(line), ('127.0.0.1', int(to_port)))


def show(port, seconds='3'):
    near = at(port)
    while True:
        try:
            print(near.recv(2048).hex(), flush=True)
        except TimeoutError:
            break
        near.settimeout(float(seconds))


def ask(from_port, to_port, *lines):
    near = at(from_port)
    near.settimeout(2)
    for line in lines:
        near.sendto(line.encode(), ('127.0.0.1', int(to_port)))
        try:
            print(near.recv(2048).decode())
        except TimeoutError:
            sys.exit('no answer')


words = {'send': (send, 3, 3), 'show': (show, 1, 2), 'ask': (ask, 3, 1000)}
call, least, most = words.get(sys.argv[1] if len(sys.argv) > 1 else '', (None, 1, 0))
if not least <= len(sys.argv) - 2 <= most:
    sys.exit(__doc__)
call(*sys.argv[2:])
