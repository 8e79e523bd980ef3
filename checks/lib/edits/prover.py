"""Asks the prover. All that is used of the toolchain beside its commands stands here, and which toolchain it is that report.py reads."""

import os
import shutil
import subprocess
import sys
import tempfile
import time

from lib import sources
from lib.edits.report import Output

sys.path.insert(0, f"{sources.ROOT}/scripts")
import crates as ours

# What a check of a crate may take.
MEMORY = 3_000_000_000
# How many functions are told by --times.
TOLD = 12
# The line of `rt version` of the toolchain whose words report.py was tried on.
KNOWN = f"{sources.ROOT}/checks/lib/test/recorded/toolchain"

rt = ours.toolchain()
rtlib = rt.rtlib


def crates():
    """The crates of crates.txt, in its order."""
    return rtlib.crates_below(sources.ROOT)


def identity():
    """The line of `rt version`."""
    return subprocess.run(["rt", "version"], capture_output=True, text=True, check=True).stdout.strip()


def look_at_identity(tell=print):
    """Tells where the toolchain is another than the one whose words report.py was tried on."""
    known, found = sources.text_of(KNOWN).strip(), identity()
    if found != known:
        tell(f"checks/edits: this toolchain is {found}; the words of its prover are read as those of {known}. `checks/tools --record` asks this")
        tell("  prover the recorded questions anew and tells where it is read otherwise: commit what it writes, or mend checks/lib/edits/report.py.")
    return found == known


def memory_of(crate):
    """The bytes that a check of the crate may take."""
    return max(rt.need(crate), MEMORY)


def lines_of(crate):
    """The lines that a check of the crate reads and loads."""
    return sum(it.count(rb"\n") for it in [crate, *crate.below()])


def with_libraries(crates_to_try, size, call):
    """Does something over the libraries of each of these crates, proving those that are not there, on as many processors as memory allows. Gives
    what the call gave of each crate, or nothing where a library is not proved."""
    work = ours.library_tasks(rt, [it for crate in crates_to_try for it in crate.below()])
    for crate in crates_to_try:
        # (the crate's own library too, if it is proved here, since it writes what the edits are tried over)
        waits = [(it.name, "library") for it in [*crate.below(), crate] if (it.name, "library") in work]
        task = lambda given, jobs, crate=crate, waits=waits: all(given[it] for it in waits) and call(crate)
        work[crate.name, "edits"] = waits, size(crate), memory_of(crate), task
    done = rt.in_lanes(work)
    return {it: done[it.name, "edits"] for it in crates_to_try}


def ask(copy, words, kept, texts, tells_times=False):
    """What the prover says of a copy with these texts besides, over what is kept in a folder."""
    with tempfile.TemporaryDirectory(prefix="edit-") as room:
        lay(copy.crate, {**copy.texts, **texts}, room)
        # (what it prints of a goal is for a reader, and the terms that generic code passes on take long to print)
        words = ["--jobs", "1", "--short-goals", *["--progress"] * tells_times, *words]
        words = [rtlib.RATTLE, "check", *copy.crate.words(words, keeps=False), "--incremental", kept]
        how = {"cwd": room, "stdin": subprocess.DEVNULL, "stdout": subprocess.PIPE, "stderr": subprocess.STDOUT, "errors": "replace"}
        with subprocess.Popen([*rtlib.guarded(), *words], **how) as ran:
            said = timed(ran.stdout) if tells_times else ran.stdout.read()
    return Output(ran.returncode, said, bool(rtlib.STALE.search(said)))


def lay(crate, texts, room):
    """Lays a copy of a crate into a folder, with these texts; without a text, a file goes."""
    for part in rtlib.PARTS:
        if os.path.isdir(f"{crate.folder}/{part}"):
            shutil.copytree(f"{crate.folder}/{part}", f"{room}/{part}")
    for path, text in texts.items():
        if text is None:
            os.remove(f"{room}/{path}")
            continue
        os.makedirs(os.path.dirname(f"{room}/{path}"), exist_ok=True)
        with open(f"{room}/{path}", "w", encoding="utf-8") as file:
            file.write(text)


def timed(lines):
    """What a check said, but for its progress, of which the functions are told that took longest. The first one holds the loading."""
    said, took, last = [], [], time.time()
    for line in lines:
        now = time.time()
        if line.startswith("checked "):
            took.append((now - last, line.split()[1].rstrip(",")))
        else:
            said.append(line)
        last = now
    print("".join(f"{seconds:6.1f} {name}\n" for seconds, name in sorted(took, reverse=True)[:TOLD]), end="", flush=True)
    return "".join(said)
