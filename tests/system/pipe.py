#!/usr/bin/env python3
"""What `run` does at pipes of the system. Where who reads the replies goes away it ends with status 4, whatever SIGPIPE did before; where a pipe is
non-blocking and isn't ready, it waits for it, and all replies come. It ends with 1 where that isn't so, takes some seconds, and is no part of the gate.

usage: tests/system/pipe.py [PROGRAM]      crates/sfu_program/out/sfu_program if left out

example: tests/system/pipe.py
"""
import os
import subprocess
import sys
import threading
import time
from pathlib import Path

if sys.argv[1:] in (['-h'], ['--help']):
    sys.exit(print(__doc__.strip()))

LINES = 20000       # of a script whose replies don't fit into a pipe
REPLY = b'refused nosubscriber\n'
TIMES = 5

program = sys.argv[1] if len(sys.argv) > 1 else Path(__file__).resolve().parent.parent.parent / 'crates/sfu_program/out/sfu_program'
wrong = 0


def check(good, text):
    global wrong
    if not good:
        wrong += 1
        print(f'pipe: {text}')


def run(source, sink, restore=True):
    """With `restore` SIGPIPE has the system's default for the program, else it is ignored, as by this one."""
    running = subprocess.Popen([program, 'run'], stdin=source, stdout=sink, stderr=subprocess.PIPE, restore_signals=restore)
    os.close(source)
    os.close(sink)
    return running


def fill(end, pause):
    """Writes the script in pieces, with pauses between them, from a thread of its own."""
    def write():
        script = b'take 1\n' * LINES
        try:
            for at in range(0, len(script), 50000):
                piece = script[at:at + 50000]
                while piece:
                    piece = piece[os.write(end, piece):]
                time.sleep(pause)
        except BrokenPipeError:
            pass
        os.close(end)

    threading.Thread(target=write).start()


def reader_goes(restore):
    source, script = os.pipe()
    replies, sink = os.pipe()
    running = run(source, sink, restore)
    fill(script, 0)
    first = os.read(replies, 21)
    os.close(replies)
    errors = running.communicate()[1]
    check(first == REPLY, f'the first reply is {first!r}')
    check(running.returncode == 4 and errors == b'', f'where the reader goes it ends with {running.returncode} and says {errors!r}')


def isnt_ready(pause_before, pause_behind, name):
    """Both ends of the program don't block; one of its neighbours is slow."""
    source, script = os.pipe()
    replies, sink = os.pipe()
    os.set_blocking(source, False)
    os.set_blocking(sink, False)
    running = run(source, sink)
    fill(script, pause_before)
    got = b''
    while piece := os.read(replies, 65536):
        got += piece
        time.sleep(pause_behind)
    os.close(replies)
    errors = running.communicate()[1]
    check(running.returncode == 0 and errors == b'', f'with a slow {name} it ends with {running.returncode} and says {errors!r}')
    check(got == REPLY * LINES, f'with a slow {name} {len(got)} bytes of {len(REPLY) * LINES} come')


for restore in (True, False):
    for _ in range(TIMES):
        reader_goes(restore)
isnt_ready(0.01, 0, 'writer')
isnt_ready(0, 0.01, 'reader')
if wrong == 0:
    print(f'pipe: {2 * TIMES} readers that went: status 4; pipes that don\'t block: all of {LINES} replies')
sys.exit(1 if wrong else 0)
