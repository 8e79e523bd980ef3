"""Images that are drawn: sizes, contents and what waits in the log, from a seed that is told. Each number of slots comes once in each format, in a
random order, so that what is wrong with one number alone is found in every run."""

import contextlib
import os
import random
import tempfile

from lib import exchanges
from lib.images.tool import opened
from lib.programs import write_file
from lib.standing import MOST_BLOCKS, SECTOR, SLOT_SECTORS, end_of_log, standing

# The most slots of a log, blocks of an image, and blocks of one that is compared whole; the most sectors that `usbdisk` plays on.
SLOTS, BLOCKS, WHOLE, PLAYED = 64, 1 << 31, 1 << 12, 65536
# What a host says first: the lines, and what is answered.
BEGIN = exchanges.request_sense(), exchanges.ATTENTION + exchanges.GOOD
IN_MEMORY = "/dev/shm"


def joined(parts):
    """The lines of these exchanges, and what is answered to them."""
    return b"".join(lines for lines, _ in parts), b"".join(text for _, text in parts)


@contextlib.contextmanager
def room_for_many():
    """A folder to work in that is in memory, where the system has one: on a disk each forced write waits for it."""
    before = os.getcwd()
    with tempfile.TemporaryDirectory(prefix="drawn-", dir=IN_MEMORY if os.access(IN_MEMORY, os.W_OK) else None) as folder:
        os.chdir(folder)
        try:
            yield
        finally:
            os.chdir(before)


def ends_alone(trial, words, wanted, what, **how):
    """The program ends so, and opens no file but those that its words name, and the null device."""
    trial.ends(words, wanted, what, more=(("LD_PRELOAD", trial.calls),), ninth="calls", **how)
    others = {it.split(" ")[1] for it in opened()} - {*words, "/dev/null"}
    if others:
        trial.fail(f"{what}: it opens {others}")


def seeded(words):
    """The random numbers of a check: from the seed that its words tell, or from a new one. The seed is printed."""
    seed = int(words[0]) if words else int.from_bytes(os.urandom(4), "little")
    print(f"seed {seed}", flush=True)
    return random.Random(seed)


def sizes_in(draw):
    """Each number of slots in each format, in a random order."""
    sizes = [(slots, kind) for kind in SLOT_SECTORS for slots in range(1, SLOTS + 1)]
    draw.shuffle(sizes)
    return sizes


class Drawn:
    """An image of these slots and format, with a drawn number of blocks. What was promised of it: the blocks that it was made of, and over them the
    bytes that forced writes left, by the numbers of their blocks."""

    def __init__(self, draw, slots, kind, most):
        self.draw, self.slots, self.kind = draw, slots, kind
        most = most if draw.random() < 0.25 else min(most, WHOLE)
        self.blocks = min(most, int(2 ** draw.uniform(0, most.bit_length() - 1)))
        self.home, self.byte = end_of_log(kind, slots), 0
        self.plain, self.written = None, {}
        self.others = {0, draw.randrange(self.blocks), self.blocks - 1}

    def __str__(self):
        return f"format {self.kind}, {self.slots} slots, {self.blocks} blocks, {len(self.written)} of them written"

    @property
    def is_whole(self):
        """Whether it is small enough to be compared whole."""
        return self.blocks <= WHOLE

    @property
    def is_played(self):
        """Whether `usbdisk` plays on it, which holds an image in memory."""
        return self.home + self.blocks <= PLAYED

    def words(self):
        """What makes it by `usbdisk_image`: most small ones are made of a plain file, some of the others have home at a page."""
        sizes = ["--slots", str(self.slots), "--format", str(self.kind)]
        if self.is_whole and self.draw.random() < 0.75:
            self.plain = b"".join(self.draw.choice((bytes(SECTOR), self.draw.randbytes(SECTOR))) for _ in range(self.blocks))
            write_file("drawn.raw", self.plain)
            return ["import", "drawn.raw", "drawn.img", *sizes, "--replace"]
        pages = [1 << it for it in range(12) if -self.home % (1 << it) <= 248 * (self.kind == 2)]
        page = self.draw.choice(pages)
        self.home += -self.home % page
        return ["make", "drawn.img", "--blocks", str(self.blocks), *sizes, "--align", str(SECTOR * page), "--replace"]

    def told(self):
        """What the program says of making it."""
        return b"made\n" if self.plain is None else f"imported {self.blocks} blocks\n".encode()

    def write(self, is_forced=True):
        """A write of some blocks, which is laid over what was there: its lines, and what is answered."""
        most = min(self.blocks, MOST_BLOCKS[self.kind], self.draw.choice((1, 3, 8, MOST_BLOCKS[2])))
        count = self.draw.randint(1, most)
        place = self.draw.randint(0, min(self.blocks - count, self.draw.choice((7, BLOCKS))))
        self.byte = self.byte % 255 + 1
        self.written.update({it: self.byte for it in range(place, place + count)})
        return exchanges.write_blocks(place, count, self.byte, is_forced), b"ack\n" * (1 + count) + exchanges.GOOD

    def life(self, forced):
        """A life that ends with so many forced writes. Before them some others go, all of which go home."""
        parts = [BEGIN, *(self.write(self.draw.random() < 0.5) for _ in range(self.draw.randint(0, 3)))]
        return joined([*parts, self.write(), (b"tick 1000\n", b""), *(self.write() for _ in range(forced))])

    def block(self, number):
        """What was promised of a block."""
        if number in self.written:
            return bytes([self.written[number]]) * SECTOR
        return self.plain[SECTOR * number : SECTOR * (number + 1)] if self.plain else bytes(SECTOR)

    def numbers(self):
        """The blocks to look at: all that were written, both ends and one in between."""
        return sorted({*self.written, *self.others})

    def stands(self, path):
        """What the image in this file stands for, and whether that is what was promised of each block that is looked at."""
        found = standing(path)
        if found is None or (found.blocks, found.home) != (self.blocks, self.home):
            return found, False
        blocks = found.waiting()
        with open(path, "rb") as file:
            for number in self.numbers():
                file.seek(SECTOR * (self.home + number))
                blocks.setdefault(number, file.read(SECTOR))
        return found, all(blocks[it] == self.block(it) for it in self.numbers())

    def raw(self):
        """What was promised of all blocks."""
        return b"".join(self.block(it) for it in range(self.blocks))

    def reads(self):
        """A life that reads the blocks that are looked at."""
        told = lambda it: b"ack\ndata " + self.block(it).hex().encode() + b"\n" + exchanges.GOOD
        return joined([BEGIN, *((exchanges.read_blocks(it, 1), told(it)) for it in self.numbers())])
