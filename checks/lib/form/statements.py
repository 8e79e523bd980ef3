"""Reads what clauses and specs say, as far as it takes to tell what a statement supposes and what it concludes: the names that a file imports, its
definitions, and the parts of a type between arrows, products and sums.

It reads lines as `rt fmt` lays them out, and no grammar. A name that is no definition of our specs it passes over."""

import dataclasses
import functools
import os
import re

from lib import sources

TOKEN = re.compile(r"[(){}]|[^\s(){};,λ]+|λ")
USE = re.compile(r"^ *(?:ghost )?(pub )?use (Rattle\.[^;\n]*(?:\n +[^;\n]*)*);?$", re.M)
DEFINES = re.compile(r"(?:abbrev |unfoldable )?(?:pub )?(record |data )?(?:pub )?([^\s:(){}]+)(?: *[({].*)? :(?= |$)")
HOLDS_MORE = re.compile(r"(pub )?(module|record|data) .*where$")


@dataclasses.dataclass(frozen=True)
class Definition:
    """A definition of a file of specs: `record`, `data` or none of these, and its statements, the types of a record's fields or what it computes to."""

    file: str
    kind: str
    name: str
    is_type: bool
    says: tuple

    @property
    def trees(self):
        return [tree_of(it) for it in self.says]

    def __str__(self):
        return f"{self.file}: {self.name}"


# ---- imports


def listed(text):
    """The parts of a list between commas outside of braces."""
    depth, parts = 0, [""]
    for sign in text:
        depth += (sign == "{") - (sign == "}")
        if sign == "," and not depth:
            parts.append("")
        else:
            parts[-1] += sign
    return [it.strip() for it in parts if it.strip()]


def imported(text, before=""):
    """The names that an import brings, each with its path: of `A.{B.c, d as e}` they are c and e."""
    head, braced, rest = text.partition("{")
    if braced:
        for part in listed(rest.rstrip().removesuffix("}")):
            yield from imported(part, before + head)
        return
    path, renamed, name = text.partition(" as ")
    yield (name.strip() if renamed else path.rpartition(".")[2].strip()), before + path.strip()


@functools.lru_cache(maxsize=None)
def imports(file):
    """The paths of the names that a file imports, and those among them that it hands on."""
    paths, handed = {}, set()
    for public, text in USE.findall(sources.text_of(file)):
        brought = dict(imported(" ".join(text.split())))
        paths.update(brought)
        handed.update(brought if public else ())
    return paths, handed


def place_of(path):
    """The file of specs that a path begins with, and the names behind it."""
    names = path.split(".")
    if names[2:3] == ["specs"]:
        for end in range(len(names), 3, -1):
            file = f"crates/{names[1]}/specs/{'/'.join(names[3:end])}.antt"
            if os.path.isfile(file):
                return file, names[end:]
    return None, []


@functools.lru_cache(maxsize=None)
def found(file, name):
    """The definition that a name has in a file, or None."""
    if file.endswith(".antt") and name in definitions(file):
        return definitions(file)[name]
    first, dot, rest = name.partition(".")
    path = imports(file)[0].get(first)
    there, names = place_of(path + dot + rest) if path else (None, [])
    if not names or there == file or names[0] not in {*definitions(there), *imports(there)[1]}:
        return None
    return found(there, ".".join(names))


# ---- definitions


def blocks(lines):
    """The lines without comments, each with those that go on with it, which stand further right: their indents and texts."""
    block, indent = [], 0
    for line in lines:
        if line.strip() and not line.strip().startswith("--"):
            here = len(line) - len(line.lstrip())
            if block and (here <= indent or HOLDS_MORE.match(" ".join(block))):
                yield indent, " ".join(block)
                block = []
            indent = indent if block else here
            block.append(line.strip())
    if block:
        yield indent, " ".join(block)


@functools.lru_cache(maxsize=None)
def definitions(file):
    """The definitions of a file by their names."""
    heads, says, record = {}, {}, None
    for indent, text in blocks(sources.lines_of(file)):
        defines = DEFINES.match(text)
        if record and indent > record[0]:
            if defines and not text.startswith("pub open "):
                says[record[1]].append(text[defines.end() :].strip())
            continue
        record = None
        if defines and (defines[1] or text.startswith(("abbrev ", "unfoldable ", "pub "))):
            kind, name = (defines[1] or "").strip(), defines[2]
            heads[name], says[name] = (kind, name, bool(re.search(r"Type \d+( where)?$", text))), []
            record = (indent, name) if kind else None
        elif (name := text.split(" ")[0]) in says and " = " in text:
            says[name].append(text.partition(" = ")[2])
    return {name: Definition(file, *head, tuple(says[name])) for name, head in heads.items()}


# ---- statements


@functools.lru_cache(maxsize=None)
def tree_of(text):
    """The tokens of a statement, with a tuple for what stands in brackets. A bracket that is not closed, as of a clause, ends with the text."""
    stack = [[]]
    for token in [*TOKEN.findall(text)]:
        if token in "({":
            stack.append([])
        elif token not in ")}":
            stack[-1].append(token)
        elif len(stack) > 1:
            stack[-2].append(tuple(stack.pop()))
    while len(stack) > 1:
        stack[-2].append(tuple(stack.pop()))
    return tuple(stack[0])


def split(tree, *signs):
    """The parts of a statement between these signs."""
    parts = [[]]
    for it in tree:
        if it in signs:
            parts.append([])
        else:
            parts[-1].append(it)
    return [tuple(it) for it in parts]


def unbound(tree):
    """A statement behind its `λ` and its `let`, or the type that a bracket gives to names."""
    while tree[:1] == ("λ",):
        ends = (at for at, it in enumerate(tree) if isinstance(it, str) and it.endswith("."))
        tree = tree[next(ends, len(tree)) + 1 :]
    if tree[:1] == ("let",) and "in" in tree:
        return unbound(tree[tree.index("in") + 1 :])
    if ":" in tree and all(isinstance(it, str) for it in tree[: tree.index(":")]):
        return unbound(tree[tree.index(":") + 1 :])
    return tree
