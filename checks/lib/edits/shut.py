"""Shuts the functions that no edit of a copy changes: each gets a body that does nothing and a hole for a proof, and its contract alone is read."""

import os
import re

from lib import sources
from lib.edits.edit import name_of, source_files

PROOF = """use {statement} as stated

shut : {{A : Type 2}} → A
shut = ?

pub {name}_spec : {{M : Type 1}} → stated.statement M
{name}_spec = shut
"""
# What stays as it is: one of a cycle of calls, a test, a constant, one of an unnamed type, a program's own.
STAYS = re.compile(r"#\[(cycle|test|cfg)|\bconst fn\b|-> impl\b|\bfn main\(")


def functions_to_shut(crate, file, text):
    """The functions of a file that a hole can stand for, each with the parts of its name. A method of a trait and one with a whole proof by hand
    stay as they are too: of some methods of traits the prover wants a measure, whatever proof stands for them."""
    for it in sources.functions_in(text) if file != "src/tests.rt" else ():
        is_method = bool(it.indent)
        if is_method and (len(it.indent) != 4 or not it.owner or not it.owner.is_inherent):
            continue
        words = " ".join(it.lines[it.first : it.begin + 1])
        path = name_of(crate, file, it).split("::")[1:]
        has_proof = os.path.exists(f"{crate.folder}/proofs/{'/'.join(path)}/Proof.antt")
        if it.end - it.begin >= 2 and not STAYS.search(words) and not has_proof:
            yield path, it


def shut_texts(crate, text_of, named):
    """The texts in which each function that is not named is shut; without a text, a file goes. No line of a named function moves."""
    texts = {}
    for file, _ in source_files(crate):
        text = text_of(file)
        lines = text.split("\n")
        for path, it in functions_to_shut(crate, file, text):
            if "::".join([crate.name, *path]) not in named:
                lines[it.begin + 1 : it.end] = ["loop {}", *[""] * (it.end - it.begin - 2)]
                texts.update(without_proof(crate, path))
        texts[file] = "\n".join(lines)
    return texts


def without_proof(crate, path):
    """The files of a function's proof, with a hole in place of all."""
    folder = f"proofs/{'/'.join(path)}"
    gone = {f"{folder}/{it}": None for it in sources.names_in(f"{crate.folder}/{folder}") if it.endswith(".antt")}
    # (a hole of the statement itself would print it)
    statement = f"Rattle.{crate.name}.proofs.{'.'.join(path)}.Statement"
    return {**gone, f"{folder}/Proof.antt": PROOF.format(statement=statement, name=path[-1])}
