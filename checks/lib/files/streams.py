"""Standard streams that are closed, and an image that another program holds."""

import os

from lib.files.disk import FIRST, SIZES, good
from lib.programs import AT_ONCE, Open, Ran, contents, copy
from lib.told import FILE_FAILED, NO_LENGTH, by_file

EVERY = (0, 1, 2)
# A command, the image that it finds, what it writes, and what it leaves; the image that is left where no answer can be written; and where no line
# can be read, what it writes and leaves then.
COMMANDS = (
    ("format", "played.img", "formatted", "fresh.img", "fresh.img", None),
    ("migrate", "fresh.img", "migrated", "migrated.img", "migrated.img", None),
    ("run", "fresh.img", "played", "played.img", "begun.img", None),
    ("sim", "fresh.img", "played", "fresh.img", "fresh.img", None),
    ("live", "fresh.img", "played", "played.img", "begun.img", "unserved.img"),
)


def words_of(disk, command):
    if command == "live":
        return [*disk.live, "new.img"]
    return [disk.disk, command, "new.img", *{"format": SIZES, "migrate": ()}.get(command, ("all.script",))]


def endings(disk, command, writes, unread):
    """How a command ends with each of the streams closed, and whether it leaves what it leaves else, what it leaves unanswered or unread."""
    whole = good(getattr(disk, writes))
    failed = by_file("new.img", "an answer was not written") if command == "live" else FILE_FAILED
    # (where standard error is closed too, nothing is told)
    dumb = good(b"") if unread else Ran(failed.status, b"", b"")
    return (
        ((), whole, "left"),
        ((0,), good(b"") if unread else whole, "unread" if unread else "left"),
        ((1,), failed, "unanswered"),
        ((2,), whole, "left"),
        (EVERY, dumb, "unread" if unread else "unanswered"),
    )


def close_streams(disk):
    """The image must be what the same command makes of it with all streams open, or, where no answer could be written, what it makes up to the first
    answer: never a byte of an answer may stand in it. A closed output is a failed writer, where there is something to write; a closed input is an
    empty one; a closed standard error changes nothing."""
    for command, before, writes, left, unanswered, unread in COMMANDS:
        images = {"left": left, "unanswered": unanswered, "unread": unread}
        for closed, wanted, image in endings(disk, command, writes, unread):
            disk.leaves(before, images[image], wanted, words_of(disk, command), given="all.script", closed=closed)


def refuse_held(disk):
    """Each other program that would write to the image ends at once, and not a byte is changed. `sim` only reads, and takes no lock."""
    for command in ("format", "migrate", "run", "live"):
        wanted = by_file("new.img", "another program has it locked") if command == "live" else FILE_FAILED
        disk.ends(words_of(disk, command), wanted, f"{command} on an image that another program holds", seconds=AT_ONCE)
        disk.same("before.img", "new.img", f"{command} on an image that another program holds: another image")
    name = "sim on an image that another program holds"
    disk.ends(words_of(disk, "sim"), good(disk.played), name, seconds=AT_ONCE)
    disk.same("before.img", "new.img", f"{name}: another image")


def hold_image(disk):
    """Two programs on one image: the first one has it open as long as its input is."""
    copy("fresh.img", "new.img")
    holder = Open([*disk.live, "new.img"])
    disk.expect(holder.send(FIRST, 1, 20), "the program that holds the image does not answer")
    copy("new.img", "before.img")
    refuse_held(disk)
    disk.ran = holder.close()
    disk.expect(disk.ran == good(b"ack\n"), "the program that held the image")
    copy("fresh.img", "new.img")
    disk.ends(words_of(disk, "run"), good(disk.played), "run on an image that nobody holds any more", seconds=AT_ONCE)


def refuse_what_is_no_file(disk):
    """What is no plain file: a pipe, a folder, a device. Each command ends at once, and changes none. (`sim` reads a pipe to its end.)"""
    os.mkfifo("pipe")
    os.mkdir("inside")
    script, sizes = ["all.script"], ["--blocks", "16", "--slots", "1"]
    for command, words, cause in (("format", sizes, FILE_FAILED), ("run", script, NO_LENGTH), ("migrate", [], NO_LENGTH)):
        for path in ("pipe", "inside", "/dev/null"):
            wanted = FILE_FAILED if path == "inside" else cause
            disk.ends([disk.disk, command, path, *words], wanted, f"{command} of {path}", seconds=AT_ONCE)
    for path, wanted in (("inside", FILE_FAILED), ("/dev/null", NO_LENGTH)):
        disk.ends([disk.disk, "sim", path, *script], wanted, f"sim of {path}", seconds=AT_ONCE)
    is_so = os.path.isdir("inside") and not contents("/dev/null") and os.stat("pipe").st_mode & 0o170000 == 0o010000
    disk.expect(is_so, "a command changed what is no plain file")
