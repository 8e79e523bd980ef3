"""What is left behind a refusal and behind the last event: an image that no disk starts on keeps every byte, and a good one has what the events
left. A plain write in the cache shows whether a program goes on behind its last event: any step in the background, or a synchronising, would write
it out."""

from lib import exchanges
from lib.files.disk import good
from lib.programs import Ran, contents, copy, overwrite, write_file
from lib.told import by_disk, by_file

PLAIN = exchanges.request_sense() + exchanges.write_blocks(7, 2, 0xA5, is_forced=False)
# A bad line in front of the write, and between it and a read.
FIRST_BAD = b"no line\n" + PLAIN
MIDDLE_BAD = PLAIN + b"no line\n" + exchanges.read_blocks(7, 2)
SCRIPTS = {"plain.script": PLAIN, "first.bad": FIRST_BAD, "middle.bad": MIDDLE_BAD}
# The number by which `usbdisk` tells a fault, the place in the image, the bytes that make it, and the cause as `usbdisk_live` tells it.
FAULTS = (
    (5, 0, b"\0", "not an image"),
    (6, 8, b"\3", "an image of a later version"),
    (7, 24, b"\x41", "the sizes in sector 0 do not fit the file"),
    (8, 512, b"\0", "a broken head in sector 1"),
    (9, 520, b"\377\377\377\377\377\377\377\177", "the stamps are used up"),
)


def bad_line(script, status=1, written=b""):
    """How a program ends at the bad line of a script, behind what it answered."""
    number = SCRIPTS[script].split(b"\n").index(b"no line") + 1
    return Ran(status, written, f"line {number}: not a script line\n".encode())


def leave_faulty(disk):
    """An image with records of which one byte, or the stamp of the head, was changed."""
    for path, script in SCRIPTS.items():
        write_file(path, script)
    for number, place, text, cause in FAULTS:
        copy("played.img", "faulty.img")
        overwrite("faulty.img", place, text)
        disk.expect(contents("faulty.img") != contents("played.img"), f"fault {number}: nothing was changed")
        refused = by_disk(3, f"image refused: {number}")
        leaves = lambda wanted, words, **how: disk.leaves("faulty.img", "faulty.img", wanted, words, **how)
        for script in SCRIPTS:
            leaves(by_file("new.img", cause), [*disk.live, "new.img"], given=script)
        leaves(refused, [disk.disk, "run", "new.img", "plain.script"])
        leaves(refused, [disk.disk, "migrate", "new.img"])
        for script in ("first.bad", "middle.bad"):
            leaves(bad_line(script), [disk.disk, "run", "new.img", script])


def leave_good(disk):
    """A good image: at a bad line `run` leaves it as it was, and `usbdisk_live` as its events left it."""
    text = disk.run([disk.disk, "sim", "fresh.img", "plain.script"]).out
    run, live = [disk.disk, "run", "new.img"], [*disk.live, "new.img"]
    for script in ("first.bad", "middle.bad"):
        disk.leaves("fresh.img", "fresh.img", bad_line(script), [*run, script])
    disk.leaves("fresh.img", "unserved.img", good(text), [*run, "plain.script"])
    disk.leaves("fresh.img", "unserved.img", bad_line("first.bad"), live, given="first.bad")
    disk.leaves("fresh.img", "unserved.img", bad_line("middle.bad", written=text), live, given="middle.bad")
    disk.leaves("fresh.img", "unserved.img", good(text), live, given="plain.script")
