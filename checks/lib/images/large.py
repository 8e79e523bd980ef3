"""Files of 8 GiB and 1 TiB with holes, in less than 4.5 MB of memory, and what is told at a terminal."""

import os

from lib import programs
from lib.images.tool import SMALL
from lib.programs import Ran, overwrite, part_of, remove
from lib.standing import end_of_log

BLOCKS = 16777216
# Blocks at each end of 8 GiB and one in the middle, and one of zeros.
PLACES, ZEROS = (0, 9000000, BLOCKS - 1), 1
GAUGE = "".join(f"|{it} of 1024 MiB" for it in (256, 512, 768, 1024)) + "|\n"


def has(tool, path, length, most, what):
    """A file has this length, and not more than so many blocks of its system, where holes are looked for."""
    found = os.stat(path)
    tool.expect(found.st_size == length and (most is None or found.st_blocks <= most), f"{what}: {found.st_size} bytes, {found.st_blocks} blocks")


def make_large(tool):
    tool.makes("large.img", BLOCKS, 1, 2)
    has(tool, "large.img", 8590063104, 64, "make of 8 GiB")
    tool.makes("largest.img", 2147483648, 64, 2)
    has(tool, "largest.img", 1099519788032, None, "make of 1 TiB")
    remove("large.img", "largest.img")


def copy_large(tool):
    """8 GiB with holes, there and back; blocks of zeros are not written."""
    with open("large.raw", "wb") as file:
        file.truncate(512 * BLOCKS)
    for place in PLACES:
        overwrite("large.raw", 512 * place, part_of("old.raw", 0, 512))
    tool.imports("large.raw", "sparse.img", 5, 2)
    has(tool, "sparse.img", 512 * (BLOCKS + end_of_log(2, 5)), 128, "import of 8 GiB")
    tool.exports("sparse.img", "sparse.raw", BLOCKS)
    has(tool, "sparse.raw", 512 * BLOCKS, 128, "export of 8 GiB")
    for place in (*PLACES, ZEROS):
        is_so = part_of("large.raw", 512 * place, 512) == part_of("sparse.raw", 512 * place, 512)
        tool.expect(is_so, f"8 GiB there and back: block {place}")
    remove("sparse.img", "sparse.raw", "large.raw")


def migrate_large(tool):
    tool.makes("sparse.img", BLOCKS, 6, 1)
    tool.ends([*tool.image, "migrate", "sparse.img"], Ran(0, b"migrated\n", b""), kib=SMALL)
    tool.expect(os.stat("sparse.img").st_blocks <= 1024, "migrate of 8 GiB: holes")
    lines = f"format 2\nblocks {BLOCKS}\nslots 1\nhome 302\nhead 2\n"
    tool.ends([*tool.image, "show", "sparse.img"], Ran(0, lines.encode(), b""), kib=SMALL)
    remove("sparse.img")


def tell_at_terminal(tool):
    """Both copies tell on one line how far they are, each 256 MiB; the statuses stay as they are. A copy of less tells nothing."""
    with open("gauge.raw", "wb") as file:
        file.truncate(1 << 30)
    for told, words in (
        (GAUGE, "import gauge.raw gauge.img --slots 5 --format 2"),
        (GAUGE, "export gauge.img gauge.back"),
        ("", "import plain.raw gauge.img --slots 5 --format 2 --replace"),
    ):
        status, found = programs.told_at_terminal([*tool.image, *words.split()])
        tool.expect((status, found.replace(b"\r", b"|").decode()) == (0, told), f"at a terminal: {words}: status {status}, {found}")
    remove("gauge.raw", "gauge.img", "gauge.back")
