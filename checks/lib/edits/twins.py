"""Twins: the same function under another name, so that several edits of one function stand in one copy of the crate.

What is proved of a function does not depend on its name. So a twin fails by its edit alone, if nothing outside its proof files speaks of what the
prover makes of the function, and nothing in them of the function itself but by its whole name."""

import functools
import os
import re

from lib import sources
from lib.edits.edit import own_proof

USE = "use "
# A word of a path in a line `use`, with the dot before it, or what makes a group; and the other name that a path has there.
PART = re.compile(r"[{,}]|\.?[^\s.,{}]+")
OTHER_NAME = re.compile(r" as [^\s,}]+")


def twin_text(edit, ending, changes=()):
    """The text of a twin of the edit's function with these changes, in an `impl` as its own, or None where it cannot have one."""
    function, file = edit.text, edit.spans[0].file
    begin = function.at
    while begin and function.lines[begin - 1].strip() and not function.lines[begin - 1].endswith(("{", "}")):
        begin -= 1
    text = "\n".join(function.lines[begin : function.end + 1])
    if "#[cycle" in text or function.indent and not (function.owner and function.owner.is_inherent):
        return None
    for it in changes:
        text = text.replace(it.old, it.new) if it.file == file else text
    text = text.replace(f"fn {function.name}", f"fn {function.name}{ending}", 1)
    if not function.indent:
        return f"{text}\n"
    # (what stands above the methods of an `impl` is in scope in that one alone)
    above = function.lines[function.owner.at : function.at]
    uses = [it for it in above if it.startswith("    ghost use ")]
    return "\n".join([above[0], *uses, text, "}\n"])


def line_of(function, lines, begin, end):
    """The number of the line, from 0 on, of these lines that has the name of the function, or None."""
    name = re.compile(rf"\bfn {re.escape(function.split('::')[-1])}\b")
    return next((n for n in range(begin, end) if name.search(lines[n])), None)


def tells_tactic(lines, at):
    """Whether an attribute above the line of a function's name tells how its goals are searched."""
    while at and lines[at - 1].strip() and not lines[at - 1].endswith(("{", "}")):
        at -= 1
        if "#[tactic(" in lines[at]:
            return True
    return False


@functools.lru_cache(maxsize=None)
def can_be_twin(edit):
    return bool(edit.function) and bool(twin_text(edit, "x"))


def paths_of(line):
    """The paths of a line `use` up to each of their words, those in its groups too, and where that word ends."""
    above, path = [""], ""
    for it in PART.finditer(OTHER_NAME.sub(lambda it: " " * len(it[0]), line), len(USE)):
        if it[0] == "{":
            above.append(f"{path}.")
        elif it[0] == "}":
            above = above[:-1] or [""]
        path = above[-1] if it[0] in "{,}" else path + it[0]
        if it[0] not in "{,}":
            yield path, it.end()


@functools.lru_cache(maxsize=None)
def proof_files(crate):
    """The proof files of a crate: the folder of each, its text, and the paths at which its lines `use` end."""
    found = []
    for file in sources.files_below(f"{crate.folder}/proofs", ".antt"):
        text = sources.text_of(file)
        lines = (it for it in text.split("\n") if it.startswith(USE))
        found.append((os.path.dirname(file), text, {path for it in lines for path, end in paths_of(it) if it[end : end + 1] != "."}))
    return found


def whole_path(crate, function):
    """The whole name of what a function's proof files make."""
    return ".".join(["Rattle", crate.name, "proofs", *function.split("::")[1:]])


def renamed(line, whole, ending):
    """A line `use` that leads to a twin in place of the function with this whole name, in its groups too."""
    for end in reversed([end for path, end in paths_of(line) if path == whole]):
        line = line[:end] + ending + line[end:]
    return line


def twin_proof(crate, function, text, ending):
    """The text of a proof file of a function, for a twin of it."""
    path, whole = function.split("::")[1:], whole_path(crate, function)
    text = "\n".join(renamed(it, whole, ending) if it.startswith(USE) else it for it in text.split("\n"))
    text = re.sub(rf"(Rattle\.{crate.name}\.\S*?{re.escape('.'.join(path))})\b", rf"\1{ending}", text)
    return re.sub(rf"\b{path[-1]}_spec\b", f"{path[-1]}{ending}_spec", text)


@functools.lru_cache(maxsize=None)
def is_carried_over(crate, function):
    """Whether a twin of the function lacks nothing, so far as texts tell: no proof file uses a folder above its proof files as a whole, and none
    but these leads to what the prover makes of the function. In these a twin's name stands for the function's."""
    whole = whole_path(crate, function)
    made = re.compile(rf"{re.escape(whole)}(?:$|\.(?!Answers\b|Invariants\b))")
    for folder, text, ends in proof_files(crate):
        is_own = folder == f"{crate.folder}/{own_proof(function)}"
        leads = any(whole.startswith(f"{it}.") for it in ends)
        if leads or not is_own and (made.search(text) or any(map(made.match, ends))):
            return False
    return True
