"""Images that are drawn from a seed: what a life is answered, what it leaves, and what each next start serves, is what the events promised."""

from lib.drawn import BLOCKS, Drawn, ends_alone, room_for_many, sizes_in
from lib.files.disk import good
from lib.programs import write_file


def served(disk, drawn, command, life):
    """A life is answered as it has to be: by `usbdisk_live` in place of another command where `usbdisk` cannot play on the image."""
    script, text = life
    write_file("drawn.script", script)
    words = [disk.disk, command, "drawn.img", "drawn.script"] if drawn.is_played and command != "live" else [*disk.live, "drawn.img"]
    ends_alone(disk, words, good(text), f"{drawn}: {command} answers otherwise", given="drawn.script")


def leave(disk, drawn, command, forced):
    """A life leaves what it promised. Gives how many records wait."""
    served(disk, drawn, command, drawn.life(forced))
    found, is_so = drawn.stands("drawn.img")
    disk.expect(is_so, f"{drawn}: {command} loses what it promised")
    return len(found.records)


def draw_image(disk, slots, kind):
    """A full log, and one with a drawn number of records, behind each way to serve. Gives how many waited."""
    drawn = Drawn(disk.draw, slots, kind, BLOCKS)
    ends_alone(disk, [*disk.image, *drawn.words()], good(drawn.told()), f"{drawn}: it is not made")
    full = leave(disk, drawn, "run", slots)
    served(disk, drawn, "sim", drawn.reads())
    served(disk, drawn, "live", drawn.reads())
    some = leave(disk, drawn, "live", disk.draw.randint(1, slots))
    served(disk, drawn, "run", drawn.reads())
    return full + some


def draw_images(disk):
    """Each number of slots in each format."""
    with room_for_many():
        records = sum(draw_image(disk, *it) for it in sizes_in(disk.draw))
    print(f"drawn images: {records} records waited")
