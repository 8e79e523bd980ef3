"""Which crates a change touches since a commit: those whose own text or edits it changes, and those above them."""

import shutil
import subprocess
import sys

from lib import sources

# What a crate's proof reads, and what is tried of it.
TEXT, EDITS = ("src", "specs", "proofs"), ("edits", "must-fail")


def said_by_git(words, root):
    """The lines that git says in a repository, or None where it fails."""
    if not shutil.which("git"):
        return None
    ran = subprocess.run(["git", "-C", root, *words], stdin=subprocess.DEVNULL, capture_output=True, text=True)
    return ran.stdout.splitlines() if ran.returncode == 0 else None


def changed_since(commit, root):
    """The files of crates that are others than in a commit, new ones too, and the rows of crates.txt there; or None where git knows no commit."""
    there = said_by_git(["diff", "--name-only", "--no-renames", "--relative", commit, "--", "crates"], root)
    new = said_by_git(["ls-files", "--others", "--exclude-standard", "--", "crates"], root)
    rows = said_by_git(["show", f"{commit}:./crates.txt"], root)
    return None if None in (there, new, rows) else ([*there, *new], rows)


def touched(paths, parts):
    """The crates of which these paths have a file in one of these folders."""
    found = (it.split("/") for it in paths)
    return {it[1] for it in found if it[0] == "crates" and it[2:3] and it[2] in parts}


def crates_since(changed, uses, standing):
    """The crates that a change touches. `uses` are all of them with their rows now; `standing` gives those on which one stands, itself among them."""
    paths, rows = changed
    rows = {it.partition("#")[0].strip() for it in rows}
    texts = touched(paths, TEXT) | {name for name, (row, _) in uses.items() if row not in rows}
    edits = touched(paths, EDITS)
    return {it for it in uses if it in edits or texts & {*standing(it)}}


def crates_behind(commit, ours):
    """The crates that were changed since a commit; what is not committed counts too."""
    changed = changed_since(commit, sources.ROOT)
    if changed is None:
        sys.exit(f"checks/edits: git knows no commit {commit} here")
    return crates_since(changed, ours.uses(), ours.standing)
