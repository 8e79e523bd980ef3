"""What the prover said of the questions of toy.py: asked anew and written, or read again in place of asking."""

import hashlib
import json
import os
import tempfile

from lib import sources
from lib.edits.edit import read
from lib.edits.report import Output
from lib.edits.trial import Trial
from lib.test import toy

FOLDER = f"{sources.ROOT}/checks/lib/test/recorded"


class Other(Exception):
    """A copy is another than the one that the prover was asked about."""


def asked(copy, words, texts):
    """What a check of a copy asks: its words, and a sum of the texts."""
    found = repr(sorted({**copy.texts, **texts}.items()))
    return {"words": words, "texts": hashlib.sha256(found.encode()).hexdigest()}


def tried(crate, question, ask):
    """What is found of the edits of a question where this asks the prover: by the name of each, what is wrong, and whether it is weak."""
    edits = [read(crate, f"{crate.folder}/edits/{it}") for it in question.edits]
    with tempfile.TemporaryDirectory() as kept:
        found = Trial(crate, kept, ask).judged(edits, question.shuts)
    return {os.path.basename(it.edit.path): (it.why, it.is_weak) for it in found}


def replayed(question):
    """Asks the file of a question."""
    left = json.loads(sources.text_of(f"{FOLDER}/{question.name}.json"))

    def ask(copy, words, kept, texts, tells_times):
        answer = left.pop(0)
        if answer["asked"] != asked(copy, words, texts):
            raise Other(f"{question.name}: the copy is another than the one that was asked about: run checks/tools --record")
        return Output(answer["status"], "\n".join(answer["said"]), answer["is_stale"])

    return ask


def record(crate, question, prover):
    """Asks the prover, writes what it says, and gives what is found. Lines that only go on with one before them are for a reader, and left out."""
    said = []

    def ask(copy, words, kept, texts, tells_times):
        output = prover.ask(copy, words, kept, texts)
        lines = [it for it in output.said.rstrip("\n").split("\n") if it and not it.startswith((" ", "statements ", "logic /"))]
        said.append({"asked": asked(copy, words, texts), "status": output.status, "is_stale": output.is_stale, "said": lines})
        return Output(output.status, "\n".join(lines), output.is_stale)

    found = tried(crate, question, ask)
    with open(f"{FOLDER}/{question.name}.json", "w", encoding="utf-8") as file:
        file.write(json.dumps(said, indent=1, ensure_ascii=False) + "\n")
    return found


def record_all(names):
    """Asks the prover each question anew, or these, and notes which toolchain it is."""
    from lib.edits import prover

    with tempfile.TemporaryDirectory() as room:
        folder = toy.lay(room)
        crate = next(it for it in prover.rtlib.crates_below(room) if it.name == "toy")
        assert os.path.realpath(crate.folder) == os.path.realpath(folder)
        for question in [it for it in toy.QUESTIONS if not names or it.name in names]:
            print(question.name, record(crate, question, prover), flush=True)
    with open(f"{FOLDER}/toolchain", "w", encoding="utf-8") as file:
        file.write(prover.identity() + "\n")
