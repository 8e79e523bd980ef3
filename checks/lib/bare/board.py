"""A board whose memory stays what it is while the power is gone, and the flash that the firmware has in it with it: QEMU, which is stopped at any
instruction, and reset. What the firmware said before that is heard; what was on its way to it is lost."""

import contextlib
import json
import os
import select
import socket
import statistics
import subprocess
import time

from lib.bare.machine import LIMIT, Line, PowerLoss, Wrong

WORDS = "-nodefaults -display none -nic none -S".split()
# The power goes at one of so many events of a life, and within so many seconds behind it.
EVENTS, SPANS, WORK = 150, (0.0, 0.0003, 0.001, 0.003, 0.01), 0.005


def connected(path):
    """A connection to a socket of QEMU's, once it is there."""
    until = time.monotonic() + LIMIT
    while True:
        found = socket.socket(socket.AF_UNIX)
        with contextlib.suppress(FileNotFoundError, ConnectionRefusedError):
            found.connect(path)
            return found
        found.close()
        if time.monotonic() > until:
            raise Wrong("QEMU does not begin")
        time.sleep(0.01)


class Board:
    """QEMU, and what it is told over its control line (QMP)."""

    def __init__(self, words, firmware, folder):
        self.line, control = f"{folder}/line", f"{folder}/control"
        for path in (self.line, control):
            with contextlib.suppress(FileNotFoundError):
                os.remove(path)
        sockets = ["-chardev", f"socket,id=line,path={self.line},server=on,wait=off", "-serial", "chardev:line", "-qmp", f"unix:{control},server=on,wait=off"]
        self.errors = f"{folder}/errors"
        with open(self.errors, "wb") as file:
            self.program = subprocess.Popen([*words, *WORDS, *sockets, "-kernel", firmware], stdin=subprocess.DEVNULL, stdout=file, stderr=file)
        self.control = connected(control)
        self.stream = self.control.makefile("rw", encoding="utf-8")
        self.events = []
        self.told()
        self.say("qmp_capabilities")

    def told(self):
        """What QEMU tells next. An event is noted."""
        line = self.stream.readline()
        if not line:
            raise Wrong(f"the machine ended by itself: {self.error()}")
        found = json.loads(line)
        if "event" in found:
            self.events.append(found["event"])
        return found

    def say(self, command):
        self.stream.write(json.dumps({"execute": command}) + "\n")
        self.stream.flush()
        while "return" not in (found := self.told()):
            if "error" in found:
                raise Wrong(f"QEMU does not know: {command}")
        return found["return"]

    def error(self):
        with open(self.errors, encoding="utf-8", errors="replace") as file:
            return file.read()[-200:].strip()

    def wait_for_line(self, is_there):
        """Until QEMU knows that the serial line has an end here, or none."""
        until = time.monotonic() + LIMIT
        while any(it["label"] == "line" and it["filename"].startswith("disconnected") == is_there for it in self.say("query-chardev")):
            if time.monotonic() > until:
                raise Wrong("QEMU keeps its line")

    def connect(self):
        found = connected(self.line)
        self.wait_for_line(True)
        return found

    def reset(self):
        """Behind the end of a connection, with all that was on its way."""
        self.wait_for_line(False)
        self.events = []
        self.say("system_reset")
        while "RESET" not in self.events:
            self.told()

    def end(self):
        self.program.kill()
        self.program.wait()
        self.stream.close()
        self.control.close()


class Powered(Line):
    """The board from the power's coming to its going. `at` is when it goes, where that is known, and `left` how many events are before that."""

    def __init__(self, board, delay=None):
        super().__init__()
        self.board, self.is_cut, self.left, self.delay = board, False, None, 0
        self.times, self.begun, self.is_at_work = [], 0, False
        self.connection = board.connect()
        board.say("cont")
        self.at = None if delay is None else time.monotonic() + delay

    def cut_soon(self, chance):
        """Half of the cuts come at any moment, and half while a packet takes longer than most do, since the firmware has its device at work."""
        self.left, self.is_at_work = chance.randint(1, EVENTS), chance.random() < 0.5
        self.delay = chance.random() * (WORK if self.is_at_work else chance.choice(SPANS))

    def more(self, until):
        if self.is_cut:
            return b""
        end = until if self.at is None else min(self.at, until)
        if select.select([self.connection], [], [], max(end - time.monotonic(), 0))[0]:
            return self.connection.recv(65536)
        if self.at is None or time.monotonic() < self.at:
            raise Wrong(f"no answer within {LIMIT} seconds")
        return self.lose()

    def lose(self):
        """The power goes. Answers what was said before, and not heard yet."""
        self.board.say("stop")
        self.is_cut, found = True, b""
        while select.select([self.connection], [], [], 0)[0] and (more := self.connection.recv(65536)):
            found += more
        return found

    def ask(self, frame):
        """The same, and how long it took. A cut that was to come at work, and for which there was too little of it, comes in a later event."""
        self.begun = time.monotonic()
        found = super().ask(frame)
        self.times.append(time.monotonic() - self.begun)
        if self.is_at_work and not self.is_cut:
            self.at = None
        return found

    def send(self, frame):
        if self.is_cut:
            raise PowerLoss
        if self.left is not None and self.at is None:
            self.left -= 1
            if self.left <= 0:
                mostly = statistics.quantiles(self.times, n=10)[8] if self.is_at_work else 0
                self.at = self.begun + mostly + self.delay
        self.connection.sendall(frame)

    def loss(self):
        return PowerLoss() if self.is_cut else Wrong(f"the machine ended by itself: {self.board.error()}")

    def end(self):
        if not self.is_cut:
            self.lose()
        self.connection.close()
        self.board.reset()


class Power:
    """Such a board, which is reset each time that the power goes."""

    # It goes at a moment, and the seed draws which; but how far the firmware is then is not told by it.
    is_exact = False

    def __init__(self, words, firmware, folder, chance):
        self.board, self.chance = Board(words, firmware, folder), chance

    def on(self, most=None):
        """The power comes. It goes within so many thousandths of a second, where this is told."""
        return Powered(self.board, None if most is None else self.chance.random() * most / 1000)

    def end(self):
        self.board.end()
