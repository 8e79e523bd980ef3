"""The block device of the machine: sectors with a write cache, behind a socket, to which QEMU speaks as to an NBD server.

The power goes at a call that was chosen before. That call is not answered, the machine is ended, and of each sector that was not flushed either what it
held stays or any of what was written to it since."""

import contextlib
import dataclasses
import os
import socket
import struct
import threading

SECTOR = 512
# NBD's newstyle handshake, and its transmission: https://github.com/NetworkBlockDevice/nbd/blob/master/doc/proto.md
GREETING = b"NBDMAGICIHAVEOPT" + struct.pack(">H", 1)
OPTION, REPLY = struct.Struct(">8sII"), struct.Struct(">QIII")
REPLY_MAGIC = 0x3E889045565A9
EXPORT_NAME, GO = 1, 7
ACK, INFO, UNSUPPORTED = 1, 3, 0x80000001
# The flags: these are told, and the device can be flushed.
FLAGS = 1 | 4
REQUEST, ANSWER = struct.Struct(">IHHQQI"), struct.Struct(">IIQ")
ANSWER_MAGIC = 0x67446698
READ, WRITE, END, FLUSH = 0, 1, 2, 3
SOON = 100


@dataclasses.dataclass
class Cut:
    """When the power goes: at the call behind so many writes and flushes, or at the next flush behind these, if one comes soon."""

    left: int
    at_flush: bool

    def comes(self, is_flush):
        self.left -= 1
        return self.left < 0 and (is_flush or not self.at_flush or self.left < -SOON)


class Device:
    """What the sectors hold, and what was written to each since the last flush."""

    def __init__(self, sectors, chance):
        self.held, self.waiting, self.chance = bytearray(SECTOR * sectors), {}, chance

    def read(self, place, size):
        found = bytearray(self.held[place : place + size])
        for sector, written in self.waiting.items():
            at = SECTOR * sector - place
            if 0 <= at < size:
                found[at : at + SECTOR] = written[-1]
        return bytes(found)

    def write(self, place, data):
        for at in range(0, len(data), SECTOR):
            self.waiting.setdefault((place + at) // SECTOR, []).append(data[at : at + SECTOR])

    def keep(self, sector, data):
        self.held[SECTOR * sector : SECTOR * (sector + 1)] = data

    def flush(self):
        for sector, written in self.waiting.items():
            self.keep(sector, written[-1])
        self.waiting = {}

    def lose(self):
        """The power is gone: each sector keeps what it held, or one of what was written since. One time in three all keep the last."""
        all_stay = self.chance.randrange(3) == 0
        for sector, written in sorted(self.waiting.items()):
            kept = written[-1] if all_stay else self.chance.choice([None, *written])
            if kept is not None:
                self.keep(sector, kept)
        self.waiting = {}


class Server(threading.Thread):
    """Serves a device to one machine, until the power goes or the machine ends."""

    def __init__(self, device, path, cut):
        super().__init__(daemon=True)
        self.device, self.cut, self.is_cut, self.machine = device, cut, False, None
        self.listening = socket.socket(socket.AF_UNIX)
        self.listening.bind(path)
        self.listening.listen(1)
        self.connection = self.stream = None

    def run(self):
        # (the machine may be ended at any call)
        with contextlib.suppress(OSError, EOFError):
            self.connection, _ = self.listening.accept()
            self.stream = self.connection.makefile("rb")
            self.greet()
            while self.answer():
                pass

    def close(self):
        """Behind the end of the machine."""
        with contextlib.suppress(OSError):
            self.listening.shutdown(socket.SHUT_RDWR)
        self.join()
        for it in (self.stream, self.connection, self.listening):
            if it:
                it.close()

    def get(self, size):
        found = self.stream.read(size)
        if len(found) < size:
            raise EOFError
        return found

    def greet(self):
        """Agrees on the one device that is here."""
        self.connection.sendall(GREETING)
        self.get(4)
        size = struct.pack(">QH", len(self.device.held), FLAGS)
        while True:
            _, option, length = OPTION.unpack(self.get(OPTION.size))
            self.get(length)
            if option == EXPORT_NAME:
                return self.connection.sendall(size + bytes(124))
            if option != GO:
                self.reply(option, UNSUPPORTED)
                continue
            self.reply(option, INFO, struct.pack(">H", 0) + size)
            return self.reply(option, ACK)

    def reply(self, option, kind, data=b""):
        self.connection.sendall(REPLY.pack(REPLY_MAGIC, option, kind, len(data)) + data)

    def answer(self):
        """Plays one request. False where it was the last."""
        _, _, kind, cookie, place, size = REQUEST.unpack(self.get(REQUEST.size))
        data = self.get(size) if kind == WRITE else b""
        if kind == END:
            return False
        if kind in (WRITE, FLUSH):
            self.device.write(place, data)
            if self.cut and self.cut.comes(kind == FLUSH):
                return self.end()
        if kind == FLUSH:
            self.device.flush()
        found = self.device.read(place, size) if kind == READ else b""
        self.connection.sendall(ANSWER.pack(ANSWER_MAGIC, 0, cookie) + found)
        return True

    def end(self):
        """The power goes."""
        self.is_cut = True
        self.machine.kill()
        return False


def place_of(folder):
    """A path for the socket of a device, which is not there yet."""
    path = f"{folder}/device"
    if os.path.exists(path):
        os.remove(path)
    return path
