"""What relay_test.py, relay2_test.py and simulcast_test.py share: ports of 127.0.0.1, a relay while it runs, and the bytes of NACKs and PLIs (RFC 4585)."""
import contextlib
import socket
import struct
import subprocess
import sys

RTP = struct.Struct("!BBHII")  # version, extension and CSRCs; marker and payload type; number; timestamp; SSRC (RFC 3550, section 5.1)
NACK, PLI = 205, 206


def peer():
    port = socket.socket(socket.AF_INET, socket.SOCK_DGRAM)
    port.bind(("127.0.0.1", 0))
    return port


@contextlib.contextmanager
def running(command, *words):
    """Runs a relay at a port that nobody has, and gives its address."""
    free = peer()
    address = free.getsockname()
    free.close()
    run = subprocess.Popen([*command, str(address[1]), *words])
    try:
        yield address
        if run.poll() is not None:
            sys.exit(f"{command[-1]} ended early: {run.returncode}")
    finally:
        run.terminate()
        run.wait()


def nack(sender, media, *numbers):
    """One generic NACK, with a pair for each number (section 6.2.1)."""
    pairs = b"".join(struct.pack("!HH", number, 0) for number in numbers)
    return struct.pack("!BBHII", 0x81, NACK, 2 + len(numbers), sender, media) + pairs


def pli(sender, media):
    return struct.pack("!BBHII", 0x81, PLI, 2, sender, media)


def named(datagram):
    """The numbers that a NACK names."""
    for number, more in struct.iter_unpack("!HH", datagram[12:]):
        yield number
        yield from ((number + 1 + place) % 65536 for place in range(16) if more >> place & 1)


def main(test, words):
    """Runs a test on the command that the words are."""
    if words in (["--help"], ["-h"]):
        print(sys.modules["__main__"].__doc__)
    elif not words:
        sys.exit(sys.modules["__main__"].__doc__)
    else:
        test(words)
        print(f"{sys.argv[0].rsplit('/', 1)[-1].removesuffix('.py')}: as it should be")
