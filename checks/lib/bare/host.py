"""The host of a life: random commands to a machine, until the power goes, and what it was told of each."""

import dataclasses
import struct

from lib.bare.machine import ACK, BAD_LENGTH, PowerLoss, Wrong

BLOCKS, MOST, BLOCK = 64, 6, 512
WRAPPER = struct.Struct("<4sIIBBB")
DATA_IN = 0x80
TEST_UNIT_READY, READ, WRITE, SYNCHRONIZE = 0x00, 0x28, 0x2A, 0x35
FORCED = 8
MAX_LUN = bytes.fromhex("a1fe000000000100")


@dataclasses.dataclass
class Book:
    """The blocks as they were found, the accepted WRITEs behind these, how many of them were promised, and the one in progress whose data is all in."""

    blocks: list
    writes: list = dataclasses.field(default_factory=list)
    promised: int = 0
    in_progress: object = None

    def behind(self, count):
        """The blocks behind so many of the WRITEs."""
        found = list(self.blocks)
        for address, number, length in [*self.writes, *[self.in_progress] * (self.in_progress is not None)][:count]:
            found[address : address + length] = [number] * length
        return found

    def kept(self, blocks):
        """How many of the WRITEs these blocks are behind, the most where there are several, or None."""
        most = len(self.writes) + (self.in_progress is not None)
        return next((it for it in range(most, self.promised - 1, -1) if self.behind(it) == blocks), None)


def command(code, flags, address, count):
    return struct.pack(">BBIBHB", code, flags, address, 0, count, 0)


class Host:
    def __init__(self, machine, chance):
        self.machine, self.chance, self.tag = machine, chance, 0

    def play(self, block, size=0, data=None, at_last=lambda: None):
        """A command, and what it answers: the status, and bytes. `at_last` is called before the last packet of data."""
        self.tag += 1
        direction = 0 if data is not None else DATA_IN
        self.send(WRAPPER.pack(b"USBC", self.tag, size, direction, 0, len(block)) + block.ljust(16, b"\0"))
        for at in range(0, size if data is not None else 0, BLOCK):
            if at + BLOCK == size:
                at_last()
            self.send(data[at : at + BLOCK])
        found = b""
        while data is None and len(found) < size:
            found += self.receive()
        mark, tag, _, status = struct.unpack("<4sIIB", self.receive())
        if mark != b"USBS" or tag != self.tag:
            raise Wrong("a status of another command")
        return status, found

    def send(self, packet):
        if self.machine.bulk_out(packet) != ACK:
            raise Wrong("a packet is not taken")

    def receive(self):
        code, packet = self.machine.bulk_in()
        if code != ACK:
            raise Wrong("no packet comes")
        return packet

    def good(self, block, *more, **how):
        status, found = self.play(block, *more, **how)
        if status:
            raise Wrong(f"command {block[0]:02X}h fails")
        return found

    def begin(self):
        """What a host asks first. The first command behind a start is told that the power was off."""
        if self.machine.setup(MAX_LUN) != (ACK, b"\0"):
            raise Wrong("GET MAX LUN is not 0")
        if self.machine.bulk_out(bytes(BLOCK + 1)) != BAD_LENGTH:
            raise Wrong("a packet of too many bytes is taken")
        if self.play(command(TEST_UNIT_READY, 0, 0, 0)[:6])[0] != 1:
            raise Wrong("no unit attention behind a start")

    def numbers(self, address, count):
        """The number that each block is filled with."""
        found = self.good(command(READ, 0, address, count), BLOCK * count)
        blocks = [found[at : at + BLOCK] for at in range(0, len(found), BLOCK)]
        if any(it != it[:4] * (BLOCK // 4) for it in blocks):
            raise Wrong(f"a block of those from {address} on is torn")
        return [int.from_bytes(it[:4], "little") for it in blocks]

    def all_numbers(self):
        return [it for at in range(0, BLOCKS, BLOCKS // 4) for it in self.numbers(at, BLOCKS // 4)]

    def write(self, book, number):
        count = self.chance.randint(1, MOST)
        address, is_forced = self.chance.randint(0, BLOCKS - count), self.chance.random() < 0.5

        def note():
            book.in_progress = (address, number, count)

        data = number.to_bytes(4, "little") * (BLOCK // 4) * count
        self.good(command(WRITE, FORCED * is_forced, address, count), BLOCK * count, data, at_last=note)
        book.writes.append(book.in_progress)
        book.in_progress = None
        if is_forced:
            book.promised = len(book.writes)

    def read(self, book):
        count = self.chance.randint(1, MOST)
        address = self.chance.randint(0, BLOCKS - count)
        if self.numbers(address, count) != book.behind(len(book.writes))[address : address + count]:
            raise Wrong(f"a READ of block {address} finds other bytes than were written")

    def synchronize(self, book):
        self.good(command(SYNCHRONIZE, 0, 0, 0))
        book.promised = len(book.writes)

    def reset(self):
        """A bus reset behind some of the data of a WRITE, which is dropped whole."""
        self.tag += 1
        block = command(WRITE, FORCED, 0, 2)
        self.send(WRAPPER.pack(b"USBC", self.tag, 2 * BLOCK, 0, 0, len(block)) + block.ljust(16, b"\0"))
        self.send(bytes(BLOCK))
        if self.machine.bus_reset() != ACK:
            raise Wrong("a bus reset is refused")

    def idle(self):
        for _ in range(self.chance.randint(1, 8)):
            if self.machine.tick() == 0:
                return

    def live(self, book, first, most):
        """Random commands, until the power goes. The numbers of its WRITEs are from `first` on."""
        try:
            for number in range(first, first + most):
                self.write(book, number)
                self.chance.choice([lambda: None, lambda: self.read(book), lambda: self.synchronize(book), self.reset, self.idle])()
        except PowerLoss:
            return
