"""An edit: a file that names texts of a crate and what is to stand in their place.

Its lines are `file:`, `old:` and `new:`. Here `line:` may stand for `old:`: a whole line without its indent, where its text stands in others too.
What narrows its check stands elsewhere (narrowing.py)."""

import dataclasses
import functools
import os
import re

from lib import sources
from lib.edits import narrowing

INSIDE = ("src/", "specs/", "proofs/")
# The word behind `only:` that an answer is tried without its searches.
TERMS = "terms"
# The last word behind `tried:` or `only:` where the searches end early.
SHORT = "short"


@dataclasses.dataclass(frozen=True)
class Change:
    """One text of a file in place of another, and where that stands in the file: -1 where it stands there only behind an earlier change."""

    file: str
    old: str
    new: str
    at: int


@dataclasses.dataclass(frozen=True)
class Span:
    """The lines of a function in a file, from its name to its end. The first line of a file is 1."""

    file: str
    first: int
    last: int

    def holds(self, file, line):
        return file == self.file and self.first <= line <= self.last


@dataclasses.dataclass(eq=False)
class Edit:
    """An edit of a crate: the texts of the files that it changes, or why it cannot be applied, and the function whose body it changes, if it is
    one function's."""

    crate: object
    path: str
    texts: dict
    why: str
    changes: tuple
    # the function's name as a report has it, itself, and the spans of those that the changes stand in
    function: str
    text: sources.Function
    spans: tuple
    # what narrows its check, with TERMS where an answer is tried without its searches, SHORT where those end early
    narrowing: narrowing.Narrowing

    @property
    def name(self):
        return name_in(self.crate, self.path)

    @property
    def is_control(self):
        """Whether it keeps the meaning of a body."""
        return self.path.endswith(".control")

    @property
    def untried(self):
        return self.narrowing.untried

    @property
    def tried(self):
        return self.narrowing.tried

    @property
    def only(self):
        return self.narrowing.only

    @property
    def is_narrowed(self):
        """Whether its line tells what its check does not have to try."""
        return not self.is_control and bool(self.narrowing.words)

    @property
    def asked(self):
        """The one goal that its line asks for, and nothing else, or nothing."""
        return "".join([*self.only, *self.tried][:1])

    @property
    def is_by_terms(self):
        """Whether the answer behind `only:` is tried without its searches."""
        return self.only[1:] == (TERMS,)

    @property
    def is_short(self):
        """Whether the searches of the answer behind `only:` or `tried:` end early."""
        return SHORT in (*self.only, *self.tried)

    @property
    def is_of_body(self):
        """Whether it is one function's and can stand beside others."""
        return bool(self.function) and all(it.at >= 0 for it in self.changes)


def edits_in(crate, folders):
    """The edits of a crate in these folders of it."""
    paths = [f"{crate.folder}/{folder}/{it}" for folder in folders for it in sources.names_in(f"{crate.folder}/{folder}")]
    return [read(crate, it) for it in paths if it.endswith((".edit", ".control"))]


def read(crate, path):
    """The edit of this file."""
    text = sources.text_of(path)
    texts, changes, why = applied(crate.folder, text)
    places = [place_of(crate, it) for it in changes]
    functions = {name for name, _, _ in places}
    # (what the edit tries in the function's own proof is a part of it)
    functions = {it for it in functions if not any(it.startswith(own_proof(other) + "/") for other in functions)}
    found = [(function, span) for _, function, span in places if span]
    one = functions.pop() if len(functions) == 1 and found else None
    function, spans = found[0][0] if found else None, tuple(span for _, span in found)
    return Edit(crate, path, texts, why, changes, one, function, spans, narrowing.found(crate, name_in(crate, path), text))


def name_in(crate, path):
    """The name of an edit of a crate."""
    return f"{crate.name}/{os.path.basename(path)}"


def applied(folder, text):
    """The texts of the files that an edit changes and the changes, or why it cannot be applied."""
    texts, changes = {}, []
    for file, kind, old, new in triples(text):
        if os.path.normpath(file) != file or not file.startswith(INSIDE) or not os.path.isfile(f"{folder}/{file}"):
            return {}, (), f"there is no file {file} below {', '.join(INSIDE)}"
        was = sources.text_of(f"{folder}/{file}")
        if kind == "line":
            old, new = whole_line(was, old, new)
        now = texts.get(file, was)
        if not old or now.count(old) != 1:
            return {}, (), f"a '{kind}:' text stands in {file} not once"
        texts[file] = now.replace(old, new)
        changes.append(Change(file, old, new, was.find(old)))
    if all(it.old == it.new for it in changes):
        return {}, (), "it changes nothing"
    return texts, tuple(changes), None


def triples(text):
    """The files of an edit with the kind of the old text, `old` or `line`, that text and the new one."""
    file = kind = old = ""
    for line in text.split("\n"):
        word, _, rest = line.partition(":")
        rest = rest.removeprefix(" ")
        if word == "file":
            file = rest.strip()
        elif word in ("old", "line"):
            kind, old = word, rest
        elif word == "new":
            yield file, kind, old, rest


def whole_line(text, old, new):
    """A whole line of a text and what is to stand for it, with its indent; nothing where it is not there once."""
    found = [it for it in text.split("\n") if it.strip() == old.strip()]
    if len(found) != 1:
        return None, None
    return f"{found[0]}\n", f"{found[0][: -len(old.strip())]}{new}\n"


def place_of(crate, change):
    """The function whose body a change stands in, by its name in a report, and its span; or the file and nothing."""
    text = sources.text_of(f"{crate.folder}/{change.file}")
    is_source = change.at >= 0 and change.file.startswith("src/")
    found = sources.function_around(text, change.at) if is_source else None
    if not found:
        return change.file, None, None
    return name_of(crate, change.file, found), found, Span(change.file, found.at + 1, found.end + 1)


def own_proof(function):
    """The folder of a function's proof."""
    return "/".join(["proofs", *function.split("::")[1:]])


@functools.lru_cache(maxsize=None)
def source_files(crate):
    """The sources of a crate, by their names in it, with their texts."""
    paths = sources.files_below(f"{crate.folder}/src", ".rt")
    return tuple((os.path.relpath(it, crate.folder), sources.text_of(it)) for it in paths)


def name_of(crate, file, function):
    """The name of a function as a report has it: a method stands in the module of its type, wherever its `impl` does."""
    owner = function.owner.name if function.owner else ""
    types = [it for it, text in source_files(crate) if owner and re.search(rf"^(pub(\([a-z]+\))? )?(struct|enum) {owner}\b", text, re.M)]
    module = re.sub(r"^src/|\.rt$", "", types[0] if len(types) == 1 else file).split("/")
    module = [it for it in module if it not in ("lib", "main", "mod")]
    return "::".join([crate.name, *module, f"{owner}::{function.name}" if function.indent else function.name])
