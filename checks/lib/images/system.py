"""What the system is asked, call by call; the same where it moves few bytes at once; and a user who may only read."""

import os
import shutil

from lib import programs
from lib.images.contents import BLOCKS
from lib.images.tool import RECORDS, are_longest, calls_of
from lib.programs import Ran, copy, part_of, remove, write_file
from lib.told import by_file

# What is asked of a new image of 9 blocks and one slot behind its opening, and of one of a plain file of 300 blocks.
MADE = ["lock", "size 0", "size 31232", "sync", "write 512 512", "sync", "write 0 512", "sync"]
IMPORTED = ["lock", "size 0", "size 308224", "write 154624 131072", "write 285696 22528", "sync", "write 512 512", "sync", "write 0 512", "sync"]
EXPORTED = ["lock", "size 0", "size 153600", "write 0 131072", "write 131072 22528", "write 3584 3584", "sync"]


def asked(tool, path, *calls):
    """Exactly these calls were made of this file."""
    tool.expect(calls_of(path) == list(calls), f"calls of {path}: {','.join(calls_of(path))[:600]}")


def watch_calls(tool):
    """A file is locked as soon as it is open, one that is only read is opened to be read, each synchronising is asked for, the last call of a new or
    changed file is one, first sectors are read once behind sector 0, a copy makes one read and one write a run."""
    remove("new.img", "back.raw")
    for access, words in (("make", []), ("replace", ["--replace"])):
        tool.watched("make", "new.img", "--blocks", "9", "--slots", "1", "--format", "1", *words)
        asked(tool, "new.img", f"open {access} new.img", *MADE)
    tool.watched("show", "new.img")
    asked(tool, "new.img", "open look new.img", "lock", "read 0 512", "read 0 26624")
    write_file("two.raw", part_of("old.raw", 0, 153600))
    remove("new.img")
    tool.watched("import", "two.raw", "new.img", "--slots", "6", "--format", "1")
    asked(tool, "two.raw", "open look two.raw", "lock", "read 0 131072", "read 131072 22528")
    asked(tool, "new.img", "open make new.img", *IMPORTED)
    tool.plays("new.img", RECORDS)
    tool.watched("export", "new.img", "back.raw")
    asked(tool, "new.img", "open look new.img", "lock", "read 0 512", "read 0 154624", "read 154624 131072", "read 285696 22528")
    asked(tool, "back.raw", "open make back.raw", *EXPORTED)


def watch_migrations(tool):
    for kind in (1, 2):
        tool.imports("plain.raw", "trip.img", 5, kind, "--replace")
        tool.plays("trip.img", RECORDS)
        tool.watched("migrate", "trip.img")
        calls = calls_of("trip.img")
        tool.expect(calls[:2] == ["open change trip.img", "lock"], f"migrate, format {kind}: not locked at once")
        tool.expect(calls[-1:] == ["sync"] and are_longest(calls), f"migrate, format {kind}: other calls")


def move_few_bytes(tool):
    """The same files where the system moves few bytes at once."""
    for kind in (1, 2):
        tool.imports("plain.raw", "trip.img", 5, kind, "--replace")
        tool.plays("trip.img", RECORDS)
        copy("trip.img", "before.img")
        tool.exports("trip.img", "wanted.raw", BLOCKS, "--replace")
        lines = tool.run([*tool.image, "show", "trip.img"]).out
        tool.run([*tool.image, "migrate", "trip.img"])
        tool.expect(tool.watched("show", "before.img", short=100).out == lines, "show by few bytes")
        tool.watched("export", "before.img", "back.raw", "--replace", short=100)
        tool.same("back.raw", "wanted.raw", "export by few bytes: other blocks")
        tool.watched("migrate", "before.img", short=100)
        tool.same("before.img", "trip.img", "migrate by few bytes: other bytes")
        tool.watched("import", "plain.raw", "before.img", "--slots", "5", "--format", str(kind), "--replace", short=100)
        tool.imports("plain.raw", "trip.img", 5, kind, "--replace")
        tool.same("before.img", "trip.img", "import by few bytes: other bytes")


def read_as_nobody(tool):
    """A user who may only read an image looks into it, and copies its blocks."""
    if not programs.has_nobody():
        return "no other user can be taken here: what one who may only read can do was not tried"
    os.mkdir("open")
    for path, mode in (("open", 0o777), (".", 0o755), ("trip.img", 0o444)):
        os.chmod(path, mode)
    shutil.copy(tool.disk, "program")
    blocks = Ran(0, f"exported {BLOCKS} blocks\n".encode(), b"")
    run = lambda *words: tool.run(programs.as_nobody(["./program", "image", *words]))
    tool.expect(run("show", "trip.img").status == 0, "show by a user who may only read")
    tool.expect(run("export", "trip.img", "open/back.raw") == blocks, "export by a user who may only read")
    wanted = by_file("trip.img", "opening it is not allowed")
    tool.expect(run("migrate", "trip.img") == wanted, "migrate by a user who may only read")
    os.chmod("trip.img", 0o644)
    return None


def close_streams(tool):
    """Standard streams that are closed: no byte of an answer stands in the image, which is what it is with all of them open."""
    tool.done([tool.disk, "format", "fresh.img", "--blocks", "500", "--slots", "6", "--format", "1"], b"formatted\n")
    copy("fresh.img", "moved.img")
    tool.done([tool.disk, "migrate", "moved.img"], b"migrated\n")
    tool.imports("plain.raw", "imported.img", 6, 1)
    sizes = ["--slots", "6", "--format", "1", "--replace"]
    commands = (
        ("fresh.img", "fresh.img", ["make", "new.img", "--blocks", "500", *sizes]),
        ("fresh.img", "fresh.img", ["show", "new.img"]),
        ("fresh.img", "moved.img", ["migrate", "new.img"]),
        ("fresh.img", "imported.img", ["import", "plain.raw", "new.img", *sizes]),
        ("imported.img", "imported.img", ["export", "new.img", "back.raw", "--replace"]),
    )
    for closed, status in (((0,), 0), ((1,), 4), ((2,), 0), ((0, 1, 2), 4)):
        for before, left, words in commands:
            name = f"{words[0]} with {closed} closed"
            copy(before, "new.img")
            copy("old.raw", "back.raw")
            tool.expect(tool.run([*tool.image, *words], closed=closed).status == status, name)
            tool.same("new.img", left, f"{name}: another image")
            tool.stays("plain.raw", "kept.raw", name)
            if words[0] == "export":
                tool.same("back.raw", "plain.raw", f"{name}: other blocks")
