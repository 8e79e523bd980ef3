"""Each refusal by its status and text, and not a byte changed."""

import os

from lib.programs import copy, locked, overwrite, part_of, write_file
from lib.told import by_file

ALL = ("show", "migrate", "export")
NO_SECTORS, NO_IMAGE, NO_SIZES = "not an image: no whole sectors", "not an image", "the sizes in sector 0 do not fit the file"
PLAIN, LOCKED, NO_FILE = "it is no plain file", "another program has it locked", "no such file"
ALIGN = "no blocks begin at a multiple of --align behind a log of so many slots"
LIMITS, NO_ANSWER, IS_THERE = "the sizes are out of their limits", "the answer was not written", "it is there; --replace replaces it"
# A byte of a small image, what stands there in its place, the cause, and the commands that it stops.
FAULTS = (
    (0, 0, NO_IMAGE, ALL),
    (8, 3, "an image of a later version", ALL),
    (16, 10, NO_SIZES, ALL),
    (512, 0, "a broken head in sector 1", ALL),
    (5000, 1, "the log is too small for format 2", ("migrate",)),
)
# The length of a small image that is cut, in sectors.
CUT = (1, 2, 205)
# Slots, formats and multiples at which no blocks begin: too far behind the log, or no page.
NO_PAGES = (
    *(f"6 --format 2 --align {it}" for it in ("1M", "512K", "0", "256", "511", "513", "1000", "1536", "96K", "3M", "4294967295M")),
    "6 --format 1 --align 2K",
    "3 --format 1 --align 64K",
)
# Words to make, show, migrate, import and export, and the file and the cause that they end with. None of these makes a file.
REFUSED = (
    ("make old.img --blocks 0 --slots 1 --format 2 --replace", "old.img", LIMITS),
    ("make old.img --blocks 2147483649 --slots 1 --format 2 --replace", "old.img", LIMITS),
    ("make old.img --blocks 9 --slots 0 --format 2 --replace", "old.img", LIMITS),
    ("make old.img --blocks 9 --slots 65 --format 2 --replace", "old.img", LIMITS),
    ("make old.img --blocks 0 --slots 6 --format 2 --align 1000 --replace", "old.img", LIMITS),
    *((f"make old.img --blocks 9 --slots {words} --replace", "old.img", ALIGN) for words in NO_PAGES),
    ("make none.img --blocks 9 --slots 6 --format 2 --align 1M", "none.img", ALIGN),
    ("make pipe --blocks 9 --slots 6 --format 2 --align 64K --replace", "pipe", PLAIN),
    ("make pipe --blocks 9 --slots 1 --format 2 --replace", "pipe", PLAIN),
    ("make /dev/null --blocks 9 --slots 1 --format 2 --replace", "/dev/null", PLAIN),
    ("make none/a.img --blocks 9 --slots 1 --format 2", "none/a.img", NO_FILE),
    ("make folder --blocks 9 --slots 1 --format 2 --replace", "folder", "it was not opened"),
    ("show pipe", "pipe", PLAIN),
    ("show none.img", "none.img", NO_FILE),
    ("migrate pipe", "pipe", PLAIN),
    ("migrate none.img", "none.img", NO_FILE),
    ("export trip.img back.raw", "back.raw", IS_THERE),
    ("import plain.raw back.raw --slots 1 --format 2", "back.raw", IS_THERE),
    # (a file that would be its own copy is locked already)
    ("export trip.img trip.img --replace", "trip.img", LOCKED),
    ("import plain.raw plain.raw --slots 1 --format 2 --replace", "plain.raw", LOCKED),
    ("import pipe none.img --slots 1 --format 2", "pipe", PLAIN),
    ("import folder none.img --slots 1 --format 2", "folder", PLAIN),
    ("import none.raw none.img --slots 1 --format 2", "none.raw", NO_FILE),
    ("export pipe none.raw", "pipe", PLAIN),
    ("export none.img none.raw", "none.img", NO_FILE),
    ("export trip.img pipe --replace", "pipe", PLAIN),
    ("export trip.img /dev/null --replace", "/dev/null", PLAIN),
    ("export trip.img none/a.raw", "none/a.raw", NO_FILE),
    ("import plain.raw none/a.img --slots 1 --format 2", "none/a.img", NO_FILE),
    ("import odd.raw none.img --slots 1 --format 2", "odd.raw", "its length is no multiple of 512 bytes"),
    ("import empty.raw none.img --slots 1 --format 2", "empty.raw", LIMITS),
    ("import longest.raw none.img --slots 1 --format 2", "longest.raw", LIMITS),
    ("import plain.raw none.img --slots 0 --format 2", "plain.raw", LIMITS),
    ("import plain.raw none.img --slots 65 --format 2", "plain.raw", LIMITS),
)
# The file that another program has locked, and the words that are refused for it.
HELD = (
    ("old.img", "make old.img --blocks 9 --slots 1 --format 2 --replace"),
    ("old.img", "show old.img"),
    ("old.img", "migrate old.img"),
    ("trip.img", "export trip.img none.raw"),
    ("plain.raw", "import plain.raw none.img --slots 1 --format 2"),
    ("back.raw", "export trip.img back.raw --replace"),
    ("back.raw", "import plain.raw back.raw --slots 1 --format 2 --replace"),
)
# Words whose answer a full output refuses, and the file that is named then.
FULL = (
    ("old.img", "show old.img"),
    ("old.img", "migrate old.img"),
    ("trip.img", "export trip.img back.raw --replace"),
    ("plain.raw", "import plain.raw back.raw --slots 6 --format 2 --replace"),
    ("full.img", "make full.img --blocks 9 --slots 1 --format 2"),
)


def refuse_faulty(tool, cause, words):
    """These commands on `faulty.img` end so, change nothing, and make no file."""
    copy("faulty.img", "before.img")
    for word in words:
        tool.refused("faulty.img", cause, word, "faulty.img", *["none.raw"] * (word == "export"))
        tool.stays("faulty.img", "before.img", f"{word}, {cause}")
        tool.expect(not os.path.exists("none.raw"), f"{word}: a plain file was made for an image with a fault")


def refuse_images(tool):
    """An image with each fault, one that is cut, and what is none."""
    for place, byte, cause, words in FAULTS:
        tool.makes("faulty.img", 9, 4, 1, "--replace")
        overwrite("faulty.img", place, bytes([byte]))
        refuse_faulty(tool, cause, words)
    for sectors in CUT:
        tool.makes("faulty.img", 9, 4, 1, "--replace")
        os.truncate("faulty.img", 512 * sectors)
        refuse_faulty(tool, NO_SIZES, ALL)
    for text, cause in ((b"", NO_SECTORS), (part_of("old.img", 0, 700), NO_SECTORS), (os.urandom(69632), NO_IMAGE)):
        write_file("faulty.img", text)
        refuse_faulty(tool, cause, ALL)


def set_up(tool):
    """The files that are named below: images, plain files, those of wrong lengths, a pipe and a folder."""
    for path, other in (("old.img", "kept.img"), ("trip.img", "kept.trip"), ("old.raw", "back.raw")):
        copy(path, other)
    os.mkfifo("pipe")
    os.mkdir("folder")
    write_file("odd.raw", part_of("old.raw", 0, 700))
    write_file("empty.raw", b"")
    write_file("longest.raw", b"")
    os.truncate("longest.raw", 1099511628288)


def stay(tool, what):
    """Nothing was changed, and no file was made."""
    for path, other in (("old.img", "kept.img"), ("trip.img", "kept.trip"), ("plain.raw", "kept.raw"), ("back.raw", "old.raw")):
        tool.stays(path, other, what)
    tool.expect(not any(map(os.path.exists, ("none.img", "none.raw", "none"))), f"{what}: a file was made by a command that was refused")


def refuse_files(tool):
    """What is no file for a command, and what another program holds."""
    set_up(tool)
    for words, path, cause in REFUSED:
        tool.refused(path, cause, *words.split())
    stay(tool, "a refused command")
    for path, words in HELD:
        with locked(path):
            tool.refused(path, LOCKED, *words.split())
        stay(tool, f"{words}, locked")


def refuse_outputs(tool):
    """An output that takes nothing; a target that is larger than its system lets it be. (A migration changes its image all the same.)"""
    wanted = by_file("small.raw", "the file system has no files of this length")
    tool.ends([*tool.image, "export", "trip.img", "small.raw"], wanted, "export: a target that is too large", blocks=100)
    for path, words in FULL:
        tool.refused(path, NO_ANSWER, *words.split(), out="/dev/full")
        for file, other in (("trip.img", "kept.trip"), ("plain.raw", "kept.raw")):
            tool.stays(file, other, f"{words}, a full output")
