"""The program `usbdisk_image` in the hands of the check: what it makes, shows, migrates and copies, each judged."""

import os

from lib import exchanges, told
from lib.programs import AT_ONCE, Ran, Trial, built, contents, copy, library

# The least memory, in KiB, in which all but an export of many slots has to go.
SMALL = 4608
# Two writes that are forced leave two records that wait.
RECORDS = exchanges.request_sense() + exchanges.write_blocks(7, 2, 0xA5) + exchanges.write_blocks(9, 5, 0xB6)


class Tool(Trial):
    def __init__(self, name):
        super().__init__(name)
        self.disk = built("usbdisk")
        self.image = (self.disk, "image")
        self.calls = library(f"{os.getcwd()}/calls.so", "calls.c")

    def refused(self, path, cause, *words, **how):
        """The program ends at once with this cause on standard error, and writes nothing."""
        self.ends([*self.image, *words], told.by_file(path, cause), seconds=AT_ONCE, **how)

    def makes(self, path, blocks, slots, kind, *words):
        """The program makes an image, and says so."""
        asked = ["make", path, "--blocks", str(blocks), "--slots", str(slots), "--format", str(kind), *words]
        self.ends([*self.image, *asked], Ran(0, b"made\n", b""), kib=SMALL)

    def imports(self, raw, path, slots, kind, *words):
        """The program makes an image of a plain file, and says how many blocks it has."""
        asked = ["import", raw, path, "--slots", str(slots), "--format", str(kind), *words]
        blocks = os.stat(raw).st_size // 512
        self.ends([*self.image, *asked], Ran(0, f"imported {blocks} blocks\n".encode(), b""), kib=SMALL)

    def exports(self, path, raw, blocks, *words, kib=SMALL):
        """The program copies the blocks of an image to a plain file, and says how many there are. Of format 2 it takes 254 KB for each slot, so
        that 5 of them are in less than 4.5 MB."""
        wanted = Ran(0, f"exported {blocks} blocks\n".encode(), b"")
        self.ends([*self.image, "export", path, raw, *words], wanted, kib=kib)
        self.expect(os.stat(raw).st_size == 512 * blocks, f"export {path} {raw}: length")

    def shows(self, path, *lines, kib=SMALL):
        """`show` tells exactly these lines, and changes nothing."""
        copy(path, "before.img")
        self.ends([*self.image, "show", path], Ran(0, "".join(f"{it}\n" for it in lines).encode(), b""), kib=kib)
        self.same(path, "before.img", f"show {path}: a byte was changed")

    def migrates(self, path, line):
        """`migrate` tells this line, and leaves what `usbdisk migrate` does."""
        copy(path, "wanted.img")
        wanted = Ran(0, f"{line}\n".encode(), b"")
        self.ends([self.disk, "migrate", "wanted.img"], wanted)
        self.ends([*self.image, "migrate", path], wanted)
        self.same(path, "wanted.img", f"migrate {path}: other bytes")

    def plays(self, path, script):
        """Plays a script on an image by `usbdisk`, and leaves what was answered in `out`."""
        with open("script", "wb") as file:
            file.write(script)
        if self.run([self.disk, "run", path, "script"]).status:
            self.fail(f"run {path}")

    def watched(self, *words, short=None):
        """Runs the program, and has `calls` tell each call of its files (checks/calls.c). Where a number is given, no read and no write moves more
        bytes than that."""
        more = {"LD_PRELOAD": self.calls, **({"SHORT": str(short)} if short else {})}
        return self.run([*self.image, *words], more=tuple(more.items()), ninth="calls")

    def stays(self, path, other, what):
        self.same(path, other, f"{what}: a file was changed that has to stay")


def filled(path, byte, place, blocks):
    """These blocks of a plain file get this byte."""
    with open(path, "r+b") as file:
        file.seek(512 * place)
        file.write(bytes([byte]) * (512 * blocks))


def calls_of(path):
    """The calls of the file that was opened at this path, in order."""
    found, file = [], None
    for line in contents("calls").decode().splitlines():
        number, *words = line.split(" ")
        if words[0] == "open" and words[2] == path:
            file = number
        if number == file:
            found.append(" ".join(words))
    return found


def opened():
    """What a program that was watched opened, or gave a length or a mode, in order: for what, and which file."""
    paths, found = {}, []
    for line in contents("calls").decode().splitlines():
        number, word, *rest = line.split(" ")
        if word == "open":
            paths[number] = rest[1]
            found.append(" ".join(rest))
        elif word in ("size", "mode"):
            found.append(" ".join((word, paths.get(number, number), *rest)))
    return found


def are_longest(calls):
    """Whether no write could have been one with the write before it: each run of neighbouring sectors is one write, of 256 sectors at most."""
    end, count = None, 0
    for call in calls:
        word, *numbers = call.split(" ")
        place, size = (int(it) for it in numbers) if word in ("read", "write") else (0, 0)
        if word == "write" and place == end and count < 131072:
            return False
        end, count = (place + size, size) if word == "write" else (None, 0)
    return True
