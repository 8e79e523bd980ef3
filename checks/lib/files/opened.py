"""Which files each command opens, for what, and which it gives a length: exactly these, in this order, whatever was done with a handle before it was
dropped. And the calls of the system that the program can make at all, by the names that it takes from the C library."""

import os

from lib.files.disk import ALL
from lib.images.tool import opened
from lib.programs import contents, copy, remove, write_file

# What the program takes from the C library. None but `open` names a file by its path (`statx` looks at one), and none makes a program, a folder or
# a link.
SYSTEM = (
    "__errno_location __libc_start_main __sysv_signal __write __x86_get_cpuid_feature_leaf close fchmod fdatasync flock free fsync ftruncate isatty "
    "malloc memcmp memcpy memmove memset open pread pwrite read realloc statx write"
).split()
# How the places of the standard streams are held, before each file that is opened.
HELD = ("look /dev/null",) * 3
SIZES = "--blocks 64 --slots 8 --format 1"
# The words of each command, and what it opens and gives a length. `format` gives its image a length by writing.
COMMANDS = (
    ("format new.img --blocks 64 --slots 8", ("held", "replace new.img", "size new.img 0")),
    ("format none.img --blocks 64 --slots 8", ("held", "replace none.img", "size none.img 0")),
    ("migrate new.img", ("held", "change new.img")),
    ("run new.img all.script", ("held", "change new.img", "look all.script")),
    ("sim new.img all.script", ("held", "look new.img", "look all.script")),
    ("live new.img", ("held", "change new.img")),
    (f"image make none.img {SIZES}", ("held", "make none.img", "size none.img 0", "size none.img 238592")),
    (f"image make new.img {SIZES} --replace", ("held", "replace new.img", "size new.img 0", "size new.img 238592")),
    ("image show new.img", ("held", "look new.img")),
    ("image migrate new.img", ("held", "change new.img")),
    (
        "image import one.raw none.img --slots 8 --format 1",
        ("held", "look one.raw", "held", "make none.img", "size none.img 0", "size none.img 206336"),
    ),
    ("image export new.img none.raw", ("held", "look new.img", "held", "make none.raw", "size none.raw 0", "size none.raw 32768")),
    ("image export new.img old.raw --replace", ("held", "look new.img", "held", "replace old.raw", "size old.raw 0", "size old.raw 32768")),
    # refused on the way
    ("format new.img --blocks 64 --slots 65", ()),
    ("migrate none.img", ("held", "change none.img")),
    ("run new.img none.script", ("held", "change new.img", "look none.script")),
    ("sim none.img all.script", ("held", "look none.img")),
    ("live none.img", ("held", "change none.img")),
    (f"image make new.img {SIZES}", ("held", "make new.img")),
    ("image make none.img --blocks 64 --slots 65 --format 1", ()),
    ("image show none.img", ("held", "look none.img")),
    ("image migrate none.img", ("held", "change none.img")),
    ("image import none.raw none.img --slots 8 --format 1", ("held", "look none.raw")),
    ("image export none.img none.raw", ("held", "look none.img")),
)
# Words that open nothing.
UNOPENED = ("image --help", "image --version", "--help", "", "image", "live", "format", "run new.img", "image show", "image show -a", "live a 9")


def asked(disk, words):
    """Does what these words ask for, in a folder with all files that they name."""
    remove("none.img", "none.raw")
    copy("fresh.img", "new.img")
    more = (("LD_PRELOAD", disk.calls),)
    return disk.run([disk.disk, *words.split()], given="all.script", more=more, ninth="calls")


def watch_opened(disk):
    """Each command opens what it names, and nothing else: behind it the folder has no other file."""
    write_file("one.raw", ALL.ljust(512, b"\n")[:512])
    write_file("old.raw", ALL)
    before = {*os.listdir("."), "none.img", "none.raw", "calls"}
    for words, wanted in COMMANDS:
        asked(disk, words)
        wanted = [line for it in wanted for line in (HELD if it == "held" else (it,))]
        disk.expect(opened() == wanted, f"{words}: it opens {opened()}")
        disk.expect({*os.listdir(".")} <= before, f"{words}: another file is there")
    for words in UNOPENED:
        asked(disk, words)
        disk.expect(opened() == [], f"{words}: it opens {opened()}")


def taken_from(path):
    """The names that a program takes from its libraries, by the table of its symbols."""
    text = contents(path)
    number = lambda at, size: int.from_bytes(text[at : at + size], "little")
    heads = [number(40, 8) + number(58, 2) * it for it in range(number(60, 2))]
    (table,) = (it for it in heads if number(it + 4, 4) == 11)
    names = number(heads[number(table + 40, 4)] + 24, 8)
    at, size = number(table + 24, 8), number(table + 32, 8)
    for symbol in range(at + 24, at + size, 24):
        begin = names + number(symbol, 4)
        # (one that is not there, and that it does not go without)
        if not number(symbol + 6, 2) and text[symbol + 4] >> 4 == 1:
            yield text[begin : text.index(b"\0", begin)].decode()


def watch_symbols(disk):
    """No other call of the system can be made by the program."""
    others = sorted({*taken_from(disk.disk)} - {*SYSTEM})
    disk.expect(not others, f"the program takes {', '.join(others)} from the C library")
