"""What the tests of usbdisk-usbip share: the words of their command, servers on an image in a folder of their own, and the run."""

import os
import random
import signal
import subprocess
import sys
import tempfile
import time

from usbip_host import Server, make_image

PROGRAM, FOLDER = (os.path.abspath(it) for it in sys.argv[1:3])
MESSAGES = sys.argv[3] if len(sys.argv) > 3 else "100000"
BLOCKS, SLOTS = 2000, 6


class TooLate(AssertionError):
    """It came too late. That a machine stood still for some seconds looks the same, so such a test is played again."""


def in_time(begun, most, what):
    """This came within so many seconds behind `begun`."""
    took = time.monotonic() - begun
    if took >= most:
        raise TooLate(f"{what}: {took:.1f} s, for {most:g}")


def pattern(number, count):
    return random.Random(number).randbytes(count * 512)


def served(kind=2, *words, **more):
    """A server on a fresh image."""
    home = make_image("disk.img", kind, BLOCKS, SLOTS)
    server = Server(PROGRAM, "disk.img", *words, **more)
    assert server.port, server.text()
    server.home = home
    return server


def again(*words, **more):
    """A server on the image that is there."""
    server = Server(PROGRAM, "disk.img", *words, **more)
    assert server.port, server.text()
    return server


def ends_well(server, number=15):
    assert server.end(number) == 0, server.text()
    assert "all is written and at home" in server.text(), server.text()


def refused(status, text, path="disk.img", *words):
    """The program ends with this status, and says this of the file."""
    run = subprocess.run([PROGRAM, path, "--port", "0", *words], stdin=subprocess.DEVNULL, stderr=subprocess.PIPE, timeout=120, check=False)
    said = run.stderr.decode()
    assert run.returncode == status and f"{path}: " in said and text in said, (run.returncode, said)


def play_in_time(it, tries=3):
    """Plays a test, again where something came too late, and tells how long it took."""
    begun = time.monotonic()
    try:
        it()
    except TooLate as error:
        if tries == 1:
            raise
        print(f"{it.__name__.replace('_', ' ')}: {error}; once more", flush=True)
        Server.end_all()
        play_in_time(it, tries - 1)
    else:
        print(f"{it.__name__.replace('_', ' ')}: {time.monotonic() - begun:.1f} s", flush=True)


def play(tests):
    """Plays the tests without arguments, or those whose names have a word of the command line in them, in a folder of their own."""
    words = sys.argv[4:]
    signal.signal(signal.SIGTERM, lambda *_: sys.exit(1))
    with tempfile.TemporaryDirectory(dir="/dev/shm" if os.path.isdir("/dev/shm") else None) as folder:
        os.chdir(folder)
        try:
            for it in tests:
                name = it.__name__.replace("_", " ")
                if it.__code__.co_argcount or (words and not any(word in name for word in words)):
                    continue
                play_in_time(it)
        finally:
            Server.end_all()
