"""The programs `usbdisk` and `usbdisk_live` in the hands of the check: an image and a script, and what is left of them."""

import os

from lib import exchanges
from lib.programs import Ran, Trial, built, contents, copy, library, write_file

# An exchange that writes, and reads what it wrote. Its first event alone is what is left where its answer cannot be written.
ALL = exchanges.request_sense() + exchanges.write_blocks(7, 2, 0xA5) + exchanges.read_blocks(7, 2)
FIRST = ALL[: ALL.index(b"\n") + 1]
SIZES = ("--blocks", "64", "--slots", "8")


class Disk(Trial):
    """The built programs, and the images that they are tried on: a fresh one of format 1, and what is left of it by each command."""

    def __init__(self, name):
        super().__init__(name)
        self.disk = built("usbdisk")
        self.live, self.image = (self.disk, "live"), (self.disk, "image")
        self.calls = library(f"{os.getcwd()}/calls.so", "calls.c")
        write_file("empty", b"")
        write_file("all.script", ALL)
        write_file("first.script", FIRST)
        self.formatted, self.migrated = b"formatted\n", b"migrated\n"
        self.done([self.disk, "format", "fresh.img", *SIZES], self.formatted)
        self.played = self.left("played.img", [self.disk, "run", "new.img", "all.script"])
        self.left("begun.img", [self.disk, "run", "new.img", "first.script"])
        self.left("unserved.img", [*self.live, "new.img"])
        self.left("migrated.img", [self.disk, "migrate", "new.img"])
        self.expect(contents("fresh.img") != contents("played.img"), "the script changes nothing")

    def left(self, path, words):
        """What a command leaves of the fresh image, and what it writes."""
        copy("fresh.img", "new.img")
        if self.run(words).status:
            self.fail(" ".join(words))
        copy("new.img", path)
        return self.ran.out

    def leaves(self, before, after, wanted, words, **how):
        """On a copy of an image the program ends so, and leaves another one, byte by byte."""
        copy(before, "new.img")
        name = " ".join([os.path.basename(words[0]), *words[1:]]) + "".join(f", {it} {value}" for it, value in how.items())
        self.ends(words, wanted, name, **how)
        self.same("new.img", after, f"{name}: another image")


def good(text):
    return Ran(0, text, b"")
