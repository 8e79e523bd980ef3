"""What the programs tell of a file that they refuse, with the status that they end with: in this one place, for all checks that look for it."""

from lib.programs import Ran

# Each cause, with its status in `usbdisk_image` and `usbdisk_live`.
CAUSES = {
    "it is there; --replace replaces it": 4,
    "no such file": 4,
    "opening it is not allowed": 4,
    "it was not opened": 4,
    "it is no plain file": 4,
    "another program has it locked": 4,
    "it was not read": 4,
    "it was not written": 4,
    "it was not synchronised": 4,
    "the answer was not written": 4,
    "an answer was not written": 4,
    "the file system has no files of this length": 4,
    "its length is no multiple of 512 bytes": 4,
    "the sizes are out of their limits": 3,
    "no blocks begin at a multiple of --align behind a log of so many slots": 3,
    "not an image: no whole sectors": 3,
    "not an image": 3,
    "an image of a later version": 3,
    "the sizes in sector 0 do not fit the file": 3,
    "a broken head in sector 1": 3,
    "the stamps are used up": 3,
    "the log is too small for format 2": 3,
    "no memory": 5,
}
# What no file is named for.
BAD_WORDS = Ran(2, b"", b"bad command line\n")


def by_file(path, cause, written=b""):
    """How `usbdisk_image` or `usbdisk_live` ends where it refuses a file, behind what it answered."""
    return Ran(CAUSES[cause], written, f"{path}: {cause}\n".encode())


def by_disk(status, text):
    """How `usbdisk` ends where it refuses."""
    return Ran(status, b"", f"{text}\n".encode())


FILE_FAILED = by_disk(4, "file failed")
NO_LENGTH = by_disk(3, "image refused: length")
