"""`usbdisk_live`: the file that it serves, the calls of it, and images of any size."""

import os

from lib import exchanges
from lib.files.disk import good
from lib.images.tool import are_longest, calls_of
from lib.programs import AT_ONCE, Open, copy, part_of, write_file
from lib.told import BAD_WORDS, by_file

# The name of a large image, its blocks, and its format.
LARGE = (("8GiB", 1 << 24, 1), ("8GiB", 1 << 24, 2), ("1TiB", 1 << 31, 1), ("1TiB", 1 << 31, 2))
MANY = [str(it) for it in range(1, 201)]
NO_SECTORS, NO_SIZES = "not an image: no whole sectors", "the sizes in sector 0 do not fit the file"
# What is refused, and the cause.
REFUSED = (
    ("none.img", "no such file"),
    ("inside", "it was not opened"),
    ("pipe", "it is no plain file"),
    ("/dev/null", "it is no plain file"),
    ("empty", NO_SECTORS),
    ("odd.img", NO_SECTORS),
    ("cut.img", NO_SIZES),
)


def watched(disk, words, short=None):
    """What `usbdisk_live` makes of an exchange, with each call of its file told. Where a number is given, no call moves more bytes than that."""
    more = {"LD_PRELOAD": disk.calls, **({"SHORT": str(short)} if short else {})}
    return disk.run([*disk.live, *words], given="all.script", more=tuple(more.items()), ninth="calls")


def serve_named(disk):
    """The file that is named is served, and no other; with packets of 64 bytes too. Where the system moves few bytes at once, the same is answered
    and left."""
    copy("fresh.img", "image")
    for size in ("512", "64"):
        text = disk.left("by_run.img", [disk.disk, "run", "new.img", "all.script", "--packet", size])
        for short in (None, 100):
            name = f"live with packets of {size} bytes, {short or 'all'} at once"
            copy("fresh.img", "new.img")
            disk.expect(watched(disk, ["new.img", "--packet", size], short) == good(text), name)
            disk.same("new.img", "by_run.img", f"{name}: another image")
    disk.same("fresh.img", "image", "live: another file was served")


def watch_calls(disk):
    """It is locked as soon as it is open, its first sectors are read once behind sector 0, each run of neighbouring sectors is one write, and behind
    each of the forced writes it is synchronised."""
    copy("fresh.img", "new.img")
    watched(disk, ["new.img"])
    calls = calls_of("new.img")
    begin = ["open change new.img", "lock", "read 0 512", "read 0 205824"]
    disk.expect(calls[:4] == begin, f"live: calls at the start: {calls[:6]}")
    disk.expect(any(not it.startswith("read") for it in calls[4:]) and are_longest(calls), f"live: a run in more than one write: {calls}")
    changes = [it.split()[0] for it in calls if it.startswith(("write", "sync"))]
    disk.expect(changes.count("sync") >= 2 and changes[-1] == "sync", f"live: not synchronised: {calls}")


def refuse_words(disk):
    """More words than a program has room for."""
    for words in ([*disk.live, *MANY], [disk.disk, "run", *MANY]):
        disk.ends(words, BAD_WORDS, f"{words[0]}: 200 words", seconds=AT_ONCE)


def serve(disk, path, story):
    """A story is served in less than 8 MB of memory, and answered as it has it. Gives the most memory that was used, in KiB, as the system tells it
    while the input is still open."""
    program = Open([*disk.live, path], kib=8192)
    program.send(story.script, story.text.count(b"\n"), AT_ONCE)
    most = program.memory()
    disk.ran = program.close()
    disk.expect(disk.ran == good(story.text), f"usbdisk_live {path}")
    return most


def write_ends(blocks):
    """Blocks are written at both ends, forced and in the cache, and read back."""
    story, last = exchanges.Story(), blocks - 1
    for place, byte, is_forced in ((0, 0xA1, True), (last, 0xA2, True), (blocks // 2, 0xA3, False), (7, 0xA4, False)):
        story.write(place, byte, is_forced)
    for place, byte in ((0, 0xA1), (last, 0xA2), (blocks // 2, 0xA3), (7, 0xA4), (9, 0)):
        story.read(place, byte)
    story.write(last - 1, 0xA5)
    story.script += b"tick 1000\n"
    story.read(last, 0xA2)
    return story


def read_ends(blocks):
    """What the next start serves."""
    story, last = exchanges.Story(), blocks - 1
    for place, byte in ((0, 0xA1), (last, 0xA2), (blocks // 2, 0xA3), (7, 0xA4), (9, 0), (last - 1, 0xA5), (last - 2, 0)):
        story.read(place, byte)
    return story


def make_large(disk, blocks, kind):
    sizes = ["--blocks", str(blocks), "--slots", "8", "--format", str(kind), "--replace"]
    disk.done([*disk.image, "make", "big.img", *sizes], b"made\n")


def serve_large(disk):
    """Images of 8 GiB and 1 TiB with holes, written, read back, and read again behind a next start."""
    for name, blocks, kind in LARGE:
        make_large(disk, blocks, kind)
        serve(disk, "big.img", write_ends(blocks))
        most = serve(disk, "big.img", read_ends(blocks))
        print(f"live on {name} of format {kind}: {most} KiB of memory at most")


def refuse_images(disk):
    """Nothing is answered, and the file and the cause are told."""
    write_file("odd.img", part_of("big.img", 0, 700))
    write_file("cut.img", part_of("big.img", 0, 69999616))
    for path, cause in REFUSED:
        disk.ends([*disk.live, path], by_file(path, cause), f"usbdisk_live {path}", given="all.script", seconds=AT_ONCE)
    os.remove("cut.img")


def refuse_write(disk):
    """A limit on the size of files, behind the log and before the last block: a step in the background that brings that block home is refused, and
    what was answered stays. The next start is refused there too, and nothing is read. One without the limit serves the block."""
    last = (1 << 24) - 1
    make_large(disk, last + 1, 2)
    story = exchanges.Story()
    story.write(last, 0xB1)
    answered = story.text
    story.script += b"tick 1000\n"
    story.read(last, 0xB1)
    write_file("big.script", story.script)
    for text in (answered, b""):
        wanted = by_file("big.img", "it was not written", text)
        disk.ends([*disk.live, "big.img"], wanted, "a write that the system refuses", given="big.script", blocks=100000)
    story = exchanges.Story()
    story.read(last, 0xB1)
    serve(disk, "big.img", story)
