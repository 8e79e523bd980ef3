"""Images that are drawn from a seed: what show, export and migrate make of them, and what the next start serves, is what the events promised."""

from lib.drawn import BLOCKS, Drawn, ends_alone, room_for_many, sizes_in
from lib.programs import Ran, contents, copy, write_file
from lib.standing import SLOT_SECTORS
from lib.told import by_file

TOO_SMALL = "the log is too small for format 2"


def by_lines(tool):
    return [*tool.image[:-1], "live", "drawn.img"]


def play(tool, drawn, life):
    """A life of the image, by `usbdisk` where it can play on it, and else line by line: it is answered as it has to be."""
    script, text = life
    write_file("drawn.script", script)
    words = [tool.disk, "run", "drawn.img", "drawn.script"] if drawn.is_played else by_lines(tool)
    ends_alone(tool, words, Ran(0, text, b""), f"{drawn}: other answers", given="drawn.script")


def live_once(tool, drawn, forced):
    """A life that leaves so many records of what was promised, which `show` tells. Gives how many."""
    play(tool, drawn, drawn.life(forced))
    found, is_so = drawn.stands("drawn.img")
    tool.expect(is_so, f"{drawn}: a life loses what it promised")
    waiting = len(found.records)
    tool.expect(waiting == forced if drawn.is_played else waiting <= drawn.slots, f"{drawn}: {waiting} records wait, not {forced}")
    ends_alone(tool, [*tool.image, "show", "drawn.img"], Ran(0, found.shown(), b""), f"{drawn}, {waiting} records: show tells another image")
    return waiting


def export(tool, drawn, waiting):
    """An export has all blocks as they were promised, where they are few."""
    name = f"{drawn}, {waiting} records: export has other blocks"
    if drawn.is_whole:
        wanted = Ran(0, f"exported {drawn.blocks} blocks\n".encode(), b"")
        ends_alone(tool, [*tool.image, "export", "drawn.img", "drawn.out", "--replace"], wanted, name)
    tool.expect(not drawn.is_whole or contents("drawn.out") == drawn.raw(), name)
    tool.cases += not drawn.is_whole


def migrate(tool, drawn, path, waiting):
    """A migration leaves an image of format 2 in which no record waits, with all blocks as they were promised, or is refused for a small log."""
    name = f"{drawn}, {waiting} records"
    is_small = drawn.kind == 1 and drawn.slots < 5
    line = b"migrated\n" if drawn.kind == 1 else b"already format 2\n"
    ends_alone(tool, [*tool.image, "migrate", path], by_file(path, TOO_SMALL) if is_small else Ran(0, line, b""), f"{name}: migrate")
    found, is_so = drawn.stands(path)
    slots = drawn.slots if is_small or drawn.kind == 2 else SLOT_SECTORS[1] * drawn.slots // SLOT_SECTORS[2]
    is_so = is_so and (found.format, found.slots, len(found.records)) == (1 if is_small else 2, slots, waiting if is_small else 0)
    tool.expect(is_so, f"{name}: behind migrate it stands for other blocks")


def serve(tool, drawn):
    """The next start serves what was promised."""
    script, text = drawn.reads()
    write_file("drawn.script", script)
    ends_alone(tool, by_lines(tool), Ran(0, text, b""), f"{drawn}: behind migrate other blocks are served", given="drawn.script")


def draw_image(tool, slots, kind):
    """First a life that leaves a drawn number of records, then one that leaves one in each slot. Gives how many waited."""
    drawn = Drawn(tool.draw, slots, kind, BLOCKS)
    ends_alone(tool, [*tool.image, *drawn.words()], Ran(0, drawn.told(), b""), f"{drawn}: it is not made")
    some = live_once(tool, drawn, tool.draw.randrange(slots))
    if drawn.is_whole:
        copy("drawn.img", "copy.img")
        migrate(tool, drawn, "copy.img", some)
    else:
        tool.cases += 2
    waiting = live_once(tool, drawn, slots)
    export(tool, drawn, waiting)
    migrate(tool, drawn, "drawn.img", waiting)
    export(tool, drawn, waiting)
    serve(tool, drawn)
    return some + waiting


def draw_images(tool):
    """Each number of slots in each format."""
    with room_for_many():
        records = sum(draw_image(tool, *it) for it in sizes_in(tool.draw))
    print(f"drawn images: {records} records waited")
