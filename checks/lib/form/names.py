"""What the house rules say of names: each definition of the specs names a thing, by one name in one crate, and nothing is 'told'."""

import re

from lib import sources
from lib.form import functions

DEFINES = re.compile(r"(?:abbrev |unfoldable )*pub (?:(?:record|data) )?(\w+)")
# A definition, a lemma or a field of specs and proofs, and a function of sources.
DECLARES = re.compile(r" *(?:(?:(?:abbrev |unfoldable )*pub |(?=record |data ))(?:record |data )?(?!use\b|open\b)(\w+)|(\w+) :)")
# What a verb is followed by in a name that leaves open what is done to what.
PARTICLES = {
    *"In Out On Of By To From At Up Off For As Into Onto Over Under With Through Around Down Along Past".split(),
    *"Ahead Back Behind Away Home Once Least Most".split(),
}


def words_of(name):
    """The words of a name, however they are joined: `IsToldAt` has three, `told_place` two."""
    return [word for part in name.split("_") for word in re.findall(r"[A-Z]+(?![a-z])|[A-Z]?[a-z0-9]+", part)]


def defined():
    """The definitions of the specs, each with its crate and file."""
    for path in sources.files_of_crates(".antt", "specs"):
        for line in sources.lines_of(path):
            if (named := DEFINES.match(line)) and named[1] not in ("use", "open"):
                yield sources.crate_of(path), path, named[1]


def glossary():
    """The words that docs/GLOSSARY.md explains."""
    rows = (it.split("|")[1].strip() for it in sources.lines_of("docs/GLOSSARY.md") if it.startswith("| "))
    return {it.lower() for it in rows}


def names_no_thing(name, known):
    """Whether a definition is a verb with a particle or one bare word. A word of the glossary names what it explains there, and a constant is no verb."""
    words = words_of(name)
    is_relation = name[:1].isupper() and not name.isupper()
    return is_relation and (len(words) == 1 and name.lower() not in known or len(words) == 2 and words[1] in PARTICLES)


def of_no_thing():
    known = glossary()
    return [f"{path}: {name}" for _, path, name in defined() if names_no_thing(name, known)]


def in_two_crates():
    """The names that the specs of two crates or more define."""
    found = {}
    for crate, _, name in defined():
        found.setdefault(name, set()).add(crate)
    return [f"{name} in {', '.join(sorted(crates))}" for name, crates in found.items() if len(crates) > 1]


def declared(path):
    """The names that a file of specs or proofs declares, or the functions of a source."""
    if path.endswith(".rt"):
        yield from (it.name for it in sources.functions_in(sources.text_of(path)))
        return
    for line in sources.lines_of(path):
        if named := DECLARES.match(line):
            yield named[1] or named[2]


def told():
    """The definitions, lemmas, fields and functions in whose name something is told."""
    files = [*functions.paths(), *sources.files_of_crates(".antt", "specs", "proofs")]
    return [f"{path}: {name}" for path in files for name in declared(path) if "told" in map(str.lower, words_of(name))]
