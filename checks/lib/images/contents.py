"""What an image file holds: made, shown, migrated, with records in every slot, and copied from and to plain files."""

import os

from lib import exchanges
from lib.images.tool import RECORDS, filled
from lib.programs import contents, copy, part_of, remove, write_file
from lib.standing import end_of_log

# How many forced writes are laid over each other, so that records wait in every slot and the ring is wrapped.
FORCED = 14
BLOCKS = 1021
# Slots, format, a multiple, and the first sector behind the log that is one.
ALIGNED = (
    (6, 2, "512", 1496),
    (6, 2, "4096", 1496),
    (6, 2, "16K", 1504),
    (6, 2, "65536", 1536),
    (6, 2, "128K", 1536),
    (8, 2, "1M", 2048),
    (64, 2, "64K", 16000),
    (3, 1, "4K", 152),
)


def make_small(tool):
    """Every byte is what `usbdisk format` makes, also in place of a longer file of other bytes."""
    for kind in (1, 2):
        tool.done([tool.disk, "format", "wanted.img", "--blocks", "500", "--slots", "6", "--format", str(kind)], b"formatted\n")
        tool.makes("small.img", 500, 6, kind)
        tool.same("small.img", "wanted.img", f"format {kind}: other bytes")
        write_file("old.img", os.urandom(3000000))
        tool.makes("old.img", 500, 6, kind, "--replace")
        tool.same("old.img", "wanted.img", f"format {kind} in place of another file: other bytes")
        words = ["make", "small.img", "--blocks", "9", "--slots", "1", "--format", str(kind)]
        tool.refused("small.img", "it is there; --replace replaces it", *words)
        tool.stays("small.img", "wanted.img", "make of a file that is there")
        remove("small.img")


def make_aligned(tool):
    """Home begins at a multiple: the super tells it, the head is that of any new image, and each other byte is zero. With records, its blocks are
    those of an image whose home begins where its log ends."""
    for slots, kind, size, first in ALIGNED:
        name = f"make --align {size}, format {kind}, {slots} slots"
        tool.makes("plain.img", 900, slots, kind)
        tool.makes("page.img", 900, slots, kind, "--align", size)
        tool.expect(os.stat("page.img").st_size == 512 * (first + 900), f"{name}: length")
        front = bytearray(part_of("plain.img", 0, 1024))
        front[40:48] = first.to_bytes(8, "little")
        tool.expect(contents("page.img") == bytes(front) + bytes(512 * (first + 898)), f"{name}: other bytes")
        tool.shows("page.img", f"format {kind}", "blocks 900", f"slots {slots}", f"home {first}", "head 1", kib=None)
        for path in ("plain", "page"):
            tool.plays(f"{path}.img", RECORDS)
            tool.exports(f"{path}.img", f"{path}.raw", 900, kib=None)
        tool.same("page.raw", "plain.raw", f"{name}: other blocks")
        tool.makes("page.img", 900, slots, kind, "--align", size, "--replace")
        tool.expect(contents("page.img") == bytes(front) + bytes(512 * (first + 898)), f"{name} in place of another file: other bytes")
        remove("plain.img", "page.img", "plain.raw", "page.raw")


def show_and_migrate(tool):
    """The lines of a fresh image and of one with records; what a migration leaves. Behind a start the head is at stamp 2."""
    for kind in (1, 2):
        lines = [f"format {kind}", "blocks 500", "slots 6", f"home {end_of_log(kind, 6)}"]
        tool.makes("small.img", 500, 6, kind)
        tool.shows("small.img", *lines, "head 1")
        copy("small.img", "records.img")
        tool.plays("records.img", RECORDS)
        tool.shows("records.img", *lines, "head 2", "record 2 2", "record 3 5")
        for path in ("small.img", "records.img"):
            if kind == 1:
                tool.migrates(path, "migrated")
            tool.migrates(path, "already format 2")
        remove("small.img")


def stamps(tool, path):
    """The stamps of the records of two blocks that wait."""
    shown = tool.run([*tool.image, "show", path]).out.decode().splitlines()
    return [int(it.split()[1]) for it in shown if it.startswith("record ") and it.endswith(" 2")]


def fill_ring(tool, kind, count, script):
    """One image more of the ring: what is exported is what was promised, and so it is behind `migrate`. Gives the slots with records that wait."""
    name = f"format {kind}, {count} writes"
    copy("ring.img", "waits.img")
    tool.plays("waits.img", script)
    waiting = stamps(tool, "waits.img")
    tool.expect(waiting[-1:] == [count + 1], f"{name}: another last record")
    tool.expect(waiting == list(range(count + 2 - len(waiting), count + 2)), f"{name}: a stamp is missing")
    copy("waits.img", "before.img")
    tool.exports("waits.img", "back.raw", 64, "--replace", kib=None)
    tool.same("back.raw", "wanted.raw", f"{name}: other blocks are exported")
    tool.same("waits.img", "before.img", f"{name}: export changed the image")
    tool.migrates("waits.img", "migrated" if kind == 1 else "already format 2")
    tool.exports("waits.img", "back.raw", 64, "--replace", kib=None)
    tool.same("back.raw", "wanted.raw", f"{name}: other blocks behind migrate")
    return {it % 6 for it in waiting}


def fill_rings(tool):
    """Records that wait in every slot, slot 0 and a wrapped ring among them: writes over each other, each of a byte of its own."""
    for kind in (1, 2):
        tool.makes("ring.img", 64, 6, kind)
        write_file("wanted.raw", bytes(64 * 512))
        script, slots = exchanges.request_sense(), set()
        for count in range(1, FORCED + 1):
            place = count * 3 % 7
            script += exchanges.write_blocks(place, 2, 160 + count)
            filled("wanted.raw", 160 + count, place, 2)
            slots |= fill_ring(tool, kind, count, script)
        tool.expect(slots == set(range(6)), f"format {kind}: no record waits in some slot")
        remove("ring.img", "waits.img")


def plain_bytes():
    """Random bytes, between them blocks of zeros, and one of zeros but for its last byte."""
    return os.urandom(51200) + bytes(102911) + b"\1" + os.urandom(358400) + bytes(10240)


def copy_there_and_back(tool, slots, kind):
    """Behind home an import has the plain file's bytes, and before it what `make` makes. An export has them again."""
    name, first = f"format {kind}, {slots} slots", 512 * end_of_log(kind, slots)
    kib = {"kib": None} if slots == 64 else {}
    remove("trip.img", "back.raw")
    tool.imports("plain.raw", "trip.img", slots, kind)
    tool.makes("front.img", BLOCKS, slots, kind, "--replace")
    tool.expect(os.stat("trip.img").st_size == os.stat("front.img").st_size, f"import, {name}: length")
    tool.expect(part_of("trip.img", 0, first) == part_of("front.img", 0, first), f"import, {name}: super, head or log")
    tool.expect(part_of("trip.img", first) == contents("plain.raw"), f"import, {name}: blocks")
    copy("trip.img", "before.img")
    tool.exports("trip.img", "back.raw", BLOCKS, **kib)
    tool.same("back.raw", "plain.raw", f"export, {name}: blocks")
    tool.same("trip.img", "before.img", f"export, {name}: the image was changed")
    # In place of longer files of other bytes.
    copy("old.raw", "back.raw")
    tool.exports("trip.img", "back.raw", BLOCKS, "--replace", **kib)
    tool.same("back.raw", "plain.raw", f"export in place of another file, {name}: blocks")
    copy("old.raw", "trip.img")
    tool.imports("plain.raw", "trip.img", slots, kind, "--replace")
    tool.same("trip.img", "before.img", f"import in place of another file, {name}: other bytes")


def copy_records(tool, kind):
    """Records that wait, over blocks of an import: what is exported is what a start brings home."""
    tool.imports("plain.raw", "trip.img", 5, kind, "--replace")
    tool.plays("trip.img", RECORDS)
    tool.run([*tool.image, "show", "trip.img"])
    tool.expect(tool.ran.out.count(b"record") == 2, "export: no records wait")
    copy("trip.img", "before.img")
    tool.exports("trip.img", "back.raw", BLOCKS, "--replace")
    tool.same("trip.img", "before.img", "export with records: the image was changed")
    copy("plain.raw", "wanted.raw")
    filled("wanted.raw", 0xA5, 7, 2)
    filled("wanted.raw", 0xB6, 9, 5)
    tool.same("back.raw", "wanted.raw", "export with records: other blocks")
    tool.plays("trip.img", b"")
    tool.expect(part_of("trip.img", 512 * end_of_log(kind, 5)) == contents("back.raw"), "export with records: a start has other blocks")


def copy_plain(tool):
    """Import and export, there and back, with records too."""
    write_file("plain.raw", plain_bytes())
    copy("plain.raw", "kept.raw")
    write_file("old.raw", os.urandom(900000))
    for kind in (1, 2):
        for slots in (1, 5, 64):
            copy_there_and_back(tool, slots, kind)
        copy_records(tool, kind)
    tool.stays("plain.raw", "kept.raw", "import")
