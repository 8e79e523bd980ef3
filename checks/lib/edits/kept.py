"""What a run of checks/edits found of a crate, kept on this machine by a sum of all that it read: the toolchain, the edits and their lines, the crate
and those below, and the program that tries. A later run in any checkout here tries the edits of those crates alone for which nothing is kept. A crate
of which an edit was not refused keeps nothing. Whoever can write to the folder can make a run pass, as with what the gate keeps."""

import hashlib
import json
import os
import tempfile

from lib import sources
from lib.edits import prover

FOLDER = f"{os.environ.get('XDG_CACHE_HOME') or os.path.expanduser('~/.cache')}/usbdisk-edits"
OWN = ("checks/edits", "checks/lib/sources.py", "checks/lib/edits")


def own_files():
    """The files of the program that tries."""
    for path in OWN:
        found = f"{sources.ROOT}/{path}"
        yield from (it for it in prover.ours.files_below(found) if it.endswith(".py")) if os.path.isdir(found) else [found]


def path_of(crate, edits):
    """The file that keeps what was found of these edits of a crate."""
    # (of what narrows edits those lines alone that are of these)
    found = hashlib.sha256(repr([prover.identity(), prover.ours.sum_of(crate.name), [it.narrowing for it in edits]]).encode())
    for path in [*own_files(), *(os.path.abspath(it.path) for it in edits)]:
        with open(path, "rb") as file:
            found.update(repr([os.path.relpath(path, sources.ROOT), file.read()]).encode())
    return f"{FOLDER}/{crate.name}-{found.hexdigest()}"


def read(path):
    """How many edits were refused, and the lines that told of them, or nothing."""
    try:
        with open(path, encoding="utf-8") as file:
            return json.load(file)
    except (OSError, ValueError):
        return None


def write(path, right, lines):
    """Keeps what was found. Another run may keep the same meanwhile."""
    os.makedirs(FOLDER, exist_ok=True)
    with tempfile.NamedTemporaryFile("w", dir=FOLDER, delete=False, encoding="utf-8") as file:
        json.dump([right, lines], file)
    os.replace(file.name, path)
