#!/usr/bin/env python3
"""together.py: eight actors on one layered room (packets, ticks, takes, resends, aims, joins, leaves), run several times. Each journal, written as one
script and run by `run`, must get the same replies; each actor's lines must be in it in their order. Then turns a second with 1, 2, 4 and 8 actors:
times depend on whatever else the machine does. It ends with an error where a journal is no history. It is no part of the gate.
usage: tests/system/together.py [LINES] [RUNS]      12,000 lines an actor and 10 runs if left out

example: tests/system/together.py 1000 2
"""
import random
import subprocess
import sys
import time
from pathlib import Path

if sys.argv[1:] in (['-h'], ['--help']):
    sys.exit(print(__doc__.strip()))

TOP = Path(__file__).resolve().parent.parent.parent
PROGRAM = TOP / 'crates/sfu_program/out/sfu_program'
LINES = int(sys.argv[1]) if len(sys.argv) > 1 else 12000
RUNS = int(sys.argv[2]) if len(sys.argv) > 2 else 10
KEY = '90e0{:04x}0000000011111111bede000348c0{:04x}80003a4101000000183000'


def sfu(word, script):
    done = subprocess.run([PROGRAM, word], input=script.encode(), capture_output=True)
    if done.returncode != 0:
        sys.exit(f'together: {word} ended with {done.returncode}: {done.stdout[-80:]!r}')
    return done.stdout.decode()


def line(rng, actor, place):
    """One line of an actor: the first two bring packets, the others are subscribers that come and go."""
    if actor <= 2:
        number = (2 * place + actor) % 65536
        return f'packet 1 {place} ' + KEY.format(number, place % 65536) if rng.random() < 0.8 else f'tick 1 {place}'
    subscriber = rng.randint(1, 40)
    return rng.choice([
        f'take {subscriber}', f'take {subscriber}', f'take {subscriber}', f'resend {subscriber} {rng.randint(0, 500)}',
        f'aim {subscriber} {rng.randint(0, 2)} {rng.randint(0, 2)}', f'why {subscriber} {rng.randint(0, place + 1)}', f'leave {subscriber}',
        f'join {1000 * actor + place} 1 22222222 7 {rng.randint(0, 2)} 0', 'key 1', 'missing 1', f'plead {subscriber}',
    ])


def made(actors, lines, seed):
    rng = random.Random(seed)
    opening = ['publish 1 layered 11111111 100 4'] + [f'join {k} 1 22222222 65535 {k % 3} {k % 3}' for k in range(1, 41)]
    acts = [[line(rng, actor, place) for place in range(lines)] for actor in range(1, actors + 1)]
    closing = [f'take {k}' for k in range(1, 41)]
    left, mixed = [list(reversed(own)) for own in acts], []
    while any(left):
        for actor, own in enumerate(left, 1):
            if own:
                mixed.append(f'@{actor} {own.pop()}')
    return opening, acts, closing, '\n'.join(opening + mixed + closing) + '\n'


def judge(opening, acts, closing, journal):
    """Ends with an error where the journal is not that of one history of these actors."""
    rows = journal.splitlines()
    calls = [row.split(' ', 1) for row in rows[::2]]
    by = {f'@{actor}': [] for actor in range(9)}
    for actor, call in calls:
        by[actor].append(call)
    first, last = calls[:len(opening)], calls[len(calls) - len(closing):]
    if [call for _, call in first] != opening or [call for _, call in last] != closing or by['@0'] != opening + closing:
        sys.exit('together: the opening or the closing part is another')
    for actor, own in enumerate(acts, 1):
        if by[f'@{actor}'] != own:
            sys.exit(f'together: the lines of actor {actor} are others')
    replies = sfu('run', ''.join(call + '\n' for _, call in calls)).splitlines()
    if replies != rows[1::2]:
        place = next(i for i, (a, b) in enumerate(zip(replies, rows[1::2])) if a != b)
        sys.exit(f'together: the reply in the place {place} is another in one history')
    turns = sum(1 for (a, _), (b, _) in zip(calls, calls[1:]) if a != b)
    return len(calls), turns


subprocess.run([TOP / 'sfu', 'help'], stdin=subprocess.DEVNULL, stdout=subprocess.DEVNULL, check=True)
for run in range(RUNS):
    opening, acts, closing, script = made(8, LINES, run)
    entries, changes = judge(opening, acts, closing, sfu('together', script))
    print(f'run {run + 1}: {entries} entries, and the actor changes {changes} times; the replies are those of one history')
for actors in (1, 2, 4, 8):
    _, _, _, script = made(actors, 96000 // 8, 0)
    start = time.monotonic()
    sfu('together', script)
    took = time.monotonic() - start
    print(f'{actors} actors: {actors * 12000 / took:,.0f} turns a second')
