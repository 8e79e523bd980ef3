"""What the checks and the launchers share about the crates: the toolchain's own reading of them, sums of their texts, and proofs side by side."""

import hashlib
import os
import sys

ROOT = os.path.dirname(os.path.dirname(os.path.abspath(__file__)))


def toolchain():
    """The module `rt` of the toolchain, with its `rtlib`."""
    # (a program that is built already is run without these)
    import importlib.machinery
    import importlib.util
    import shutil
    import subprocess

    if not shutil.which("rt"):
        raise SystemExit("the Rattle toolchain is not here: no command rt")
    page = subprocess.run(["rt", "doc"], capture_output=True, text=True, check=True).stdout
    loader = importlib.machinery.SourceFileLoader("rt_of_the_kit", f"{os.path.dirname(page.strip())}/bin/rt")
    made = importlib.util.module_from_spec(importlib.util.spec_from_loader(loader.name, loader))
    loader.exec_module(made)
    # (its first call sets a signal's handler, which only the main thread may)
    made.rtlib.guarded()
    return made


def text_of(path):
    with open(path, encoding="utf-8") as file:
        return file.read()


def folder_of(crate):
    """The folder of a crate, or of a judge that is built without a proof."""
    return f"{ROOT}/judges/{crate}" if os.path.isdir(f"{ROOT}/judges/{crate}") else f"{ROOT}/crates/{crate}"


def lists():
    """The crates, and the judges that are built without a proof."""
    return [it for it in (f"{ROOT}/crates.txt", f"{ROOT}/judges/judges.txt") if os.path.isfile(it)]


def uses():
    """The crates of both lists, each with its line and those crates that it stands on itself. Their order says nothing."""
    rows = [it.partition("#")[0].strip() for path in lists() for it in text_of(path).split("\n")]
    heads = {it.split(":")[0].split()[0]: it for it in rows if it}
    return {name: (row, [it for it in row.partition(":")[2].split() if it in heads]) for name, row in heads.items()}


def standing(name):
    """A crate, and all that it stands on."""
    known, found, left = uses(), [], [name]
    while left:
        at = left.pop()
        if at not in found:
            found.append(at)
            left += known[at][1]
    return sorted(found)


def files_below(folder):
    for at, folders, names in os.walk(folder):
        folders.sort()
        yield from (f"{at}/{name}" for name in sorted(names))


def text_files(crate):
    """The files that a crate's proof reads."""
    for part in ("src", "specs", "proofs"):
        yield from files_below(f"{folder_of(crate)}/{part}")


def sum_of(name):
    """A sum of the text that a program is made of: its crate and those below, their lines in crates.txt, src, specs and proofs."""
    found, known = hashlib.sha256(), uses()
    for crate in standing(name):
        found.update(repr(known[crate][0]).encode())
        for path in text_files(crate):
            with open(path, "rb") as file:
                found.update(repr((path[len(ROOT) :], file.read())).encode())
    return found.hexdigest()


def sum_beside(program):
    return f"{program}.sum"


def read_sum(program):
    """The sum of the text that a built program was made of, or None."""
    try:
        return text_of(sum_beside(program)).strip()
    except OSError:
        return None


def last_writes(name):
    """When each file that a crate stands on was last written, and which file it is. A text that was changed and changed back differs in it."""
    found = [(path, os.stat(path)) for crate in standing(name) for path in text_files(crate)]
    return [[path, at.st_ino, at.st_ctime_ns] for path, at in found]


def text_now(name):
    """What has to be the same before a proof and behind it."""
    return [sum_of(name), last_writes(name)]


def write_sum(program, name, before):
    """Writes the sum of the text before a program was proved beside it, if the text is still the same, and returns whether it is."""
    if text_now(name) != before:
        return False
    with open(sum_beside(program), "w", encoding="utf-8") as file:
        file.write(before[0])
    return True


def library_tasks(rt, crates, log=None, tell=lambda crate, status, seconds: None):
    """The proofs of these libraries as tasks of the toolchain's `in_lanes`, which runs them side by side, as many as processors and memory
    allow. Each gives whether the library is proved."""
    import copy
    import time

    tasks = {}
    for crate in dict.fromkeys(below for it in crates for below in [*it.below(), it] if below.makes_rlib()):
        waits = [(it.name, "library") for it in crate.below()]

        def call(given, jobs, crate=crate, waits=waits):
            begun = time.time()
            if not all(given[it] for it in waits):
                return False
            made = copy.copy(crate)
            made.out = log or sys.stderr
            status = made.build_rlib(["--jobs", str(jobs)], anew=False)
            tell(crate, status, time.time() - begun)
            return status == 0

        tasks[crate.name, "library"] = waits, crate.count(rb"\n"), rt.need(crate), call
    return tasks
