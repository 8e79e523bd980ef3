"""A machine with the firmware: QEMU, with a serial line for packets. Here it is one with a device of virtio, behind a socket (device.py); board.py has the
other kind."""

import os
import select
import struct
import subprocess
import time

from lib.bare.device import Cut, Device, Server, place_of
from lib.standing import end_of_log

# The device is so long, and the power goes at one of so many calls of it, or of a start.
SECTORS, CALLS = end_of_log(2, 3) + 64, 100
WORDS = "-m 64 -nodefaults -display none -serial stdio -global virtio-mmio.force-legacy=false".split()
# The most seconds that any answer may take, also on a busy processor.
LIMIT = 120
ACK, BAD_LENGTH = 0, 21


class PowerLoss(Exception):
    """The power of the machine went."""


class Wrong(Exception):
    """The firmware did what it may not."""


class Line:
    """The serial line of a firmware that runs, until the power goes. `more(until)` waits for bytes: none where the line has ended, and `loss()` tells why."""

    def __init__(self):
        self.found, self.lines = b"", []

    def get(self, size):
        until = time.monotonic() + LIMIT
        while len(self.found) < size:
            more = self.more(until)
            if not more:
                raise self.loss()
            self.found += more
        given, self.found = self.found[:size], self.found[size:]
        return given

    def line(self):
        """The rest of a line for people."""
        text = b""
        while not text.endswith(b"\n"):
            text += self.get(1)
        return text.decode(errors="replace").strip()

    def started(self):
        """Waits until the firmware serves."""
        while not self.lines or self.lines[-1].startswith("a new image"):
            if self.get(1) != b"#":
                raise Wrong("the firmware says no line")
            self.lines.append(self.line())
        if not self.lines[-1].startswith("started"):
            raise Wrong(f"no start: {'; '.join(self.lines)}")

    def ask(self, frame):
        """An event, and what is answered: the code, and bytes."""
        try:
            self.send(frame)
        except BrokenPipeError:
            raise self.loss() from None
        while (letter := self.get(1)) == b"#":
            self.lines.append(self.line())
        if letter != b"A":
            raise Wrong(f"an answer begins with {letter}")
        code, size = struct.unpack("<BH", self.get(3))
        return code, self.get(size)

    def bulk_out(self, packet):
        return self.ask(b"O" + struct.pack("<H", len(packet)) + packet)[0]

    def bulk_in(self):
        return self.ask(b"I")

    def setup(self, packet):
        return self.ask(b"S" + packet)

    def bus_reset(self):
        return self.ask(b"R")[0]

    def tick(self):
        return self.ask(b"T")[0]


class Machine(Line):
    """QEMU from the power's coming to its going, which ends it."""

    def __init__(self, words, device, folder, cut):
        super().__init__()
        path = place_of(folder)
        self.server = Server(device, path, cut)
        disk = ["-drive", f"if=none,id=disk,format=raw,cache=writeback,file=nbd:unix:{path}", "-device", "virtio-blk-device,drive=disk"]
        self.errors = f"{folder}/errors"
        with open(self.errors, "wb") as file:
            self.program = subprocess.Popen([*words, *disk], stdin=subprocess.PIPE, stdout=subprocess.PIPE, stderr=file, bufsize=0)
        self.server.machine = self.program
        self.server.start()

    @property
    def is_cut(self):
        return self.server.is_cut

    def cut_soon(self, chance):
        """The power goes at a random call from here on, or at the next flush behind it."""
        self.server.cut = Cut(chance.randint(0, CALLS), chance.random() < 0.5)

    def end(self):
        """Takes the power away, where that is not done, and lets the device lose what it may."""
        self.program.kill()
        self.program.wait()
        self.program.stdin.close()
        self.program.stdout.close()
        self.server.close()
        self.server.device.lose()

    def loss(self):
        """Why the machine is gone."""
        if self.is_cut:
            return PowerLoss()
        with open(self.errors, encoding="utf-8", errors="replace") as file:
            return Wrong(f"the machine ended by itself: {file.read()[-200:].strip()}")

    def more(self, until):
        if not select.select([self.program.stdout], [], [], max(until - time.monotonic(), 0))[0]:
            raise Wrong(f"no answer within {LIMIT} seconds")
        return os.read(self.program.stdout.fileno(), 65536)

    def send(self, frame):
        self.program.stdin.write(frame)


class Power:
    """Such a machine, which is a new one each time that the power comes. The device stays."""

    # The power goes at a call that was chosen before.
    is_exact = True

    def __init__(self, words, firmware, folder, chance):
        self.words, self.folder, self.chance = [*words, *WORDS, "-kernel", firmware], folder, chance
        self.device = Device(SECTORS, chance)

    def on(self, most=None):
        """The power comes. It goes at one of the first calls, so many, where this is told."""
        cut = None if most is None else Cut(self.chance.randint(0, most), False)
        return Machine(self.words, self.device, self.folder, cut)

    def end(self):
        pass
