"""A host for usbdisk-usbip: USB/IP 1.1.1, control and bulk transfers, and the commands of a disk. Also images, and the server."""

import os
import re
import select
import socket
import struct
import subprocess
import time

DEVICE = 0x00010002
IN, OUT = 1, 2
STALLED, UNLINKED, CUT_SHORT, OVERFLOWED = -32, -104, -121, -75
# How many sectors a slot has, and how many blocks a record of it, by the format (docs/FORMAT.md).
SLOT_SECTORS, MOST_BLOCKS = {1: 50, 2: 249}, {1: 48, 2: 240}


def end_of_log(kind, slots):
    """The first sector behind a log."""
    return 2 + SLOT_SECTORS[kind] * slots


def make_image(path, kind, blocks, slots, tail=0):
    """A fresh image of this format, as docs/FORMAT.md says: a head, a super, and zeros."""
    home = end_of_log(kind, slots)
    with open(path, "wb") as file:
        file.truncate((home + blocks + tail) * 512)
        file.write(b"RDSUPER1" + struct.pack("<5Q", kind, blocks, slots, 2, home))
        file.seek(512)
        file.write(b"RDHEAD01" + struct.pack("<Q", 1))
    return home


class Server:
    """A server on any port that is free, and what it says."""

    all = []

    def __init__(self, program, *words, **more):
        self.said = open(f"{words[0]}.said", "w+b")
        self.process = subprocess.Popen([program, *words, "--port", "0"], stdin=subprocess.DEVNULL, stderr=self.said, **more)
        Server.all.append(self.process)
        self.port = None
        until = time.monotonic() + 60
        while self.port is None and self.process.poll() is None and time.monotonic() < until:
            found = re.search(r" port (\d+),", self.text())
            self.port = int(found[1]) if found else None
            time.sleep(0.002)

    @staticmethod
    def end_all():
        """Ends those that a test left behind."""
        for process in Server.all:
            if process.poll() is None:
                process.kill()
                process.wait()

    def text(self):
        return open(self.said.name, encoding="utf-8", errors="replace").read()

    def end(self, number=15):
        """Ends it by this signal, and answers its exit status."""
        self.process.send_signal(number)
        return self.wait()

    def wait(self):
        try:
            return self.process.wait(timeout=60)
        finally:
            self.process.kill()
            self.process.wait()


class Gone(Exception):
    """The server ended the connection."""


class Host:
    """One connection. `attach` imports the device."""

    def __init__(self, port, address="127.0.0.1"):
        self.socket = socket.create_connection((address, port), timeout=60)
        self.socket.setsockopt(socket.IPPROTO_TCP, socket.TCP_NODELAY, 1)
        self.number = 0
        self.replies = {}
        self.tag = 0

    def close(self):
        self.socket.close()

    def send(self, data):
        try:
            self.socket.sendall(data)
        except ConnectionError as error:
            raise Gone from error

    def read(self, size):
        data = b""
        while len(data) < size:
            try:
                more = self.socket.recv(size - len(data))
            except ConnectionError as error:
                raise Gone from error
            if not more:
                raise Gone
            data += more
        return data

    def list(self):
        self.send(struct.pack(">HHI", 0x0111, 0x8005, 0))
        return self.read(8 + 4 + 312 + 4)

    def attach(self, bus=b"1-1"):
        """Answers the status of the import, and the device's description."""
        self.send(struct.pack(">HHI32s", 0x0111, 0x8003, 0, bus))
        version, code, status = struct.unpack(">HHI", self.read(8))
        assert (version, code) == (0x0111, 3)
        return status, b"" if status else self.read(312)

    def submit(self, endpoint, data=b"", size=None, setup=bytes(8), flags=0):
        """Submits a transfer: of `size` bytes in, or of these bytes out. Answers its number."""
        self.number += 1
        head = struct.pack(">IIIIIIIIII8s", 1, self.number, DEVICE, size is not None, endpoint, flags,
                           len(data) if size is None else size, 0, 0, 0, setup)
        self.replies[self.number] = size is not None
        self.send(head + data)
        return self.number

    def unlink(self, victim):
        self.number += 1
        self.replies[self.number] = False
        self.send(struct.pack(">IIIIIIIIII8s", 2, self.number, DEVICE, 0, 0, victim, 0, 0, 0, 0, bytes(8)))
        return self.number

    def next_reply(self):
        """The next answer: its command, number, status, and bytes, or how many were taken."""
        command, number, _, _, _, status, length = struct.unpack(">IIIIIiI20x", self.read(48))
        is_in = self.replies.pop(number)
        return command, number, status, self.read(length) if command == 3 and is_in else length

    def is_quiet(self):
        """Whether nothing comes for a while."""
        return not select.select([self.socket], [], [], 0.1)[0]

    def wait_for(self, number):
        command, answered, status, data = self.next_reply()
        assert answered == number and command in (3, 4), (command, answered, number)
        return status, data

    def control(self, kind, request, value=0, index=0, size=0, flags=0):
        setup = struct.pack("<BBHHH", kind, request, value, index, size)
        return self.wait_for(self.submit(0, size=size if kind & 0x80 else None, setup=setup, flags=flags))

    def out(self, data):
        return self.wait_for(self.submit(OUT, data))

    def inward(self, size, flags=0):
        return self.wait_for(self.submit(IN, size=size, flags=flags))

    def wrapper(self, command, length, is_in):
        self.tag += 1
        return b"USBC" + struct.pack("<IIBBB", self.tag, length, 0x80 if is_in else 0, 0, len(command)) + command.ljust(16, b"\0")

    def status(self):
        status, data = self.inward(13)
        if status == STALLED:
            self.control(0x02, 1, 0, 0x81)
            status, data = self.inward(13)
        assert status == 0 and data[:8] == b"USBS" + struct.pack("<I", self.tag), (status, data)
        return data[12]

    def command(self, command, size=0, data=b""):
        """Plays a command. Answers the status of its wrapper, and the bytes that came."""
        status, taken = self.out(self.wrapper(command, size or len(data), size > 0))
        assert (status, taken) == (0, 31), (status, taken)
        came = b""
        if size:
            status, came = self.inward(size)
            if status == STALLED:
                self.control(0x02, 1, 0, 0x81)
        if data:
            status, taken = self.out(data)
            if status == STALLED:
                self.control(0x02, 1, 0, 0x02)
        return self.status(), came

    def sense(self):
        """REQUEST SENSE: sense key, code and qualifier."""
        status, data = self.command(bytes([3, 0, 0, 0, 18, 0]), size=18)
        assert status == 0
        return data[2] & 15, data[12], data[13]

    def set_up(self):
        """Chooses the configuration, and hears the unit attention."""
        assert self.control(0x00, 9, 1)[0] == 0
        self.sense()
        return self

    def write(self, address, data, forced=False):
        return self.command(struct.pack(">BBIxHx", 0x2A, 8 if forced else 0, address, len(data) // 512), data=data)[0]

    def read_blocks(self, address, count):
        status, data = self.command(struct.pack(">BBIxHx", 0x28, 0, address, count), size=count * 512)
        assert status == 0, (address, count, status)
        return data

    def synchronize(self):
        return self.command(bytes([0x35]) + bytes(9))[0]


def attached(port, address="127.0.0.1"):
    """A host that has the device attached. The one before it may still be on its way out."""
    until = time.monotonic() + 60
    while time.monotonic() < until:
        host = Host(port, address)
        status, _ = host.attach()
        if status == 0:
            return host
        host.close()
        time.sleep(0.01)
    raise AssertionError("the device is never free")
