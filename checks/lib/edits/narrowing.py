"""The lines that narrow the checks of edits to the goals that refuse them. They stand in one file, which this program writes, and in no edit.

A line is for one edit: its name, a sum of its text, and the words behind each mark. A line for another text is stale, and so is one that does not
keep what it says: either costs a check of the edit whole, and is never an error. The file is sorted, and git joins two of it line by line
(`merge=union`): of two lines for one edit, that for its text counts. What cannot be read there counts for nothing."""

import contextlib
import dataclasses
import fcntl
import functools
import hashlib
import itertools
import os
import tempfile

from lib import sources

# Where the file is in a repository.
PLACE = "checks/edits.d/narrowed"
# What stands before the words of each kind.
MARKS = ("untried:", "tried:", "only:")
# How many digits of its sum tell a text.
DIGITS = 12
FOLDERS = ("edits", "must-fail")


@dataclasses.dataclass(frozen=True)
class Narrowing:
    """What narrows the check of an edit: the goals that it does not try; the one that it tries by an answer, with the arguments of that; the one that
    it tries by the function's own answer. And whether its lines are all for another text."""

    untried: tuple = ()
    tried: tuple = ()
    only: tuple = ()
    is_stale: bool = False

    @property
    def words(self):
        """The words of its line."""
        return [word for mark, words in zip(MARKS, (self.untried, self.tried, self.only)) if words for word in (mark, *words)]


def root_of(crate):
    """The repository of a crate, which stands in a folder of its top."""
    return os.path.normpath(os.path.join(crate.folder, "..", ".."))


def sum_of(text):
    """What a line has of the text of its edit."""
    return hashlib.sha256(text.encode()).hexdigest()[:DIGITS]


def lines_below(root):
    """The lines of a repository's file."""
    path = f"{root}/{PLACE}"
    return [it for it in sources.lines_of(path) if it] if os.path.exists(path) else []


@functools.lru_cache(maxsize=8)
def by_name(lines):
    """These lines by the names of their edits: each a sum and words."""
    found = {}
    for line in lines:
        name, *rest = line.split() or [""]
        found.setdefault(name, []).append((rest[:1], rest[1:]))
    return found


def words_behind(mark, words):
    """The words behind a mark, up to the next one."""
    begin = words.index(mark) + 1 if mark in words else len(words)
    return tuple(itertools.takewhile(lambda it: it not in MARKS, words[begin:]))


def found(crate, name, text):
    """What narrows the check of an edit of a crate, by its name and text."""
    lines = by_name(tuple(lines_below(root_of(crate)))).get(name, [])
    words = next((words for of, words in lines if of == [sum_of(text)]), None)
    return of_words(words or [], bool(lines) and words is None)


def of_words(words, is_stale=False):
    """What a line with these words says."""
    return Narrowing(*(words_behind(it, words) for it in MARKS), is_stale)


def write(edit, narrowing):
    """Writes the line of an edit, in place of those that it has. One that narrows nothing has none."""
    line = [" ".join([edit.name, sum_of(sources.text_of(edit.path)), *narrowing.words])] if narrowing.words else []
    change(root_of(edit.crate), lambda lines: [*(it for it in lines if it.split()[:1] != [edit.name]), *line])


def forget_gone(root):
    """Takes away the lines of edits that are not there, or have another text."""
    change(root, lambda lines: [it for it in lines if is_of_edit(root, it)])


def is_of_edit(root, line):
    """Whether a line is for the text of an edit."""
    name, of, *_ = [*line.split(), "", ""]
    crate, _, file = name.partition("/")
    paths = [f"{root}/crates/{crate}/{it}/{file}" for it in FOLDERS]
    return any(of == sum_of(sources.text_of(it)) for it in paths if os.path.isfile(it))


def change(root, call):
    """Changes the lines of a repository's file, while no other run here does."""
    folder = os.path.dirname(f"{root}/{PLACE}")
    os.makedirs(folder, exist_ok=True)
    with alone_in(folder):
        was = lines_below(root)
        lines = sorted(call(was))
        if lines != was:
            put(f"{root}/{PLACE}", "".join(f"{it}\n" for it in lines))


@contextlib.contextmanager
def alone_in(folder):
    """Waits until no other thread or program that asks so is in the folder, and keeps them out."""
    held = os.open(folder, os.O_RDONLY)
    try:
        # (some file systems have no locks)
        with contextlib.suppress(OSError):
            fcntl.flock(held, fcntl.LOCK_EX)
        yield
    finally:
        os.close(held)


def put(path, text):
    """Puts a text in place of a file at once: whoever reads it meanwhile has the one or the other."""
    with tempfile.NamedTemporaryFile("w", dir=os.path.dirname(path), delete=False, encoding="utf-8") as file:
        file.write(text)
    os.chmod(file.name, 0o644)
    os.replace(file.name, path)
