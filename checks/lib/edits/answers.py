"""The answers of a function's proof: those that a copy leaves out, and those that it gives to a goal that is to be searched."""

import os
import re

from lib import sources
from lib.edits.edit import SHORT, own_proof

# What is asked for a goal that a line `tried:` names: the first two of what the prover tries of a goal without an answer.
USES = [
    "use borrow.Author.Rules as tried_rules",
    "use Rattle.std.proofs.lemmas.Grind as tried_grind",
    "use native.Mathlib.Omega as tried_omega",
]
HOLE = ["not_tried : {A : Type 0} → A", "not_tried = ?", ""]
# A search in an answer up to its list, what a list begins with, and what may follow it.
SEARCH = re.compile(r"(?<![\w.`-])(?:search|grind|omega|first_of) +(?=[\w(])")
WORD = re.compile(r"\(|[\w.'-]+")
OPTIONS = re.compile(r"(?: +(?:steps|depth|fits|parts) \d+)*")
# An answer to a goal.
ANSWER = re.compile(r"^pub (\S+) : goal\.\1$", re.M)
TRIED = "first_of (search tried_rules.rules, grind (tried_omega.arith, tried_grind.common_steps) steps 2000000)"
# Behind `short`, and how many steps each search has there: one that finds a proof takes few as a rule, and one that finds none takes up to the
# prover's 10,000,000. (Fewer of `grind` lower none of its other counts.)
SHORT_TRIED = "first_of (search tried_rules.rules steps 300000, grind (tried_omega.arith, tried_grind.common_steps) steps 400000)"
LIMITS = {"search": 300_000, "grind": 400_000}
LIMITED = re.compile(r"(?<![\w.`-])(search|grind) +(?=[\w(])")


def answers_path(function):
    """The file of a function's answers."""
    return f"{own_proof(function)}/Answers.antt"


def without_answers(text, goals):
    """The lines of a file of answers, but for the answers to these goals."""
    kept, answered = [], False
    for line in text.split("\n"):
        begins = re.match(r"(?:pub )?([^\s)}\]]+)", line)
        if begins and begins[1] != answered:
            answered = line.startswith("pub ") and begins[1] in goals and begins[1]
        if not answered:
            kept.append(line)
    return kept


def blocks_of(text):
    """The declarations of a file of answers by their names, each with its words."""
    found, name = {}, ""
    for line in text.split("\n"):
        begins = re.match(r"(?:pub )?([^\s)}\]]+)", line)
        name = begins[1] if begins else name
        found.setdefault(name, set()).update(re.split(r"[\s(){}\[\],;.]+", line))
    return found


def alone(text, goals):
    """The lines of a file of answers, but for the answers on which those to these goals do not stand, and the goals of those."""
    blocks, answered = blocks_of(text), ANSWER.findall(text)
    kept = {it for it in blocks if it not in answered} | {*goals}
    while cited := {it for it in answered if it not in kept and any(it in blocks.get(other, ()) for other in kept)}:
        kept |= cited
    gone = [it for it in answered if it not in kept]
    return without_answers(text, gone), gone


def with_tries(lines, function, tries):
    """The lines of a file of answers, with an answer that asks for a search for each of these goals that has none."""
    crate, *path = function.split("::")
    goals = f"use Rattle.{'.'.join([crate, 'proofs', *path])}.Goals as goal"
    # (where two ask for one goal, the shorter search has to prove it)
    tries = {it[0]: it[1:] for it in sorted(tries, key=lambda it: SHORT in it) if not any(line.startswith(f"pub {it[0]} :") for line in lines)}
    asked = [line for it, words in tries.items() for line in (f"pub {it} : goal.{it}", tried_line(it, words), "")]
    return [*([] if goals in lines else [goals]), *(USES if asked else []), *lines, *asked]


def tried_line(goal, words):
    """The answer that asks for a search for a goal, with these arguments."""
    arguments = [it for it in words if it != SHORT]
    return f"{goal} {' '.join(arguments)} = {SHORT_TRIED if SHORT in words else TRIED}"


def left_open(goals, lines=()):
    """Answers that leave these goals open by one hole, below these lines, which may have it: a hole for each would print its goal, which takes longer
    than the search."""
    hole = HOLE if goals and HOLE[0] not in lines else []
    return hole + [line for it in goals for line in (f"pub {it} : goal.{it}", f"{it} c = not_tried", "")]


def without_searches(lines, goals):
    """The lines of a file of answers, with a hole in place of each search in the answers to these goals."""
    begins = begins_of(lines, goals)
    lines = changed(lines, begins, with_holes)
    return [*lines[: begins[0]], *HOLE, *lines[begins[0] :]] if begins else lines


def with_short_searches(lines, goals):
    """The lines of a file of answers, with a limit of each search in the answers to these goals."""
    return changed(lines, begins_of(lines, goals), with_limits)


def begins_of(lines, goals):
    """The numbers of the lines, from 0 on, where the answers to these goals begin."""
    return sorted(n for n, line in enumerate(lines) for goal in goals if line.startswith(f"pub {goal} :"))


def changed(lines, begins, change):
    """These lines with a change of the text of each answer that begins at one of these."""
    lines = list(lines)
    for begin in reversed(begins):
        goal = lines[begin].split()[1]
        others = (n for n, line in enumerate(lines) if n > begin and line[:1].strip() and not line.startswith((f"{goal} ", "}", ")")))
        ends = next(others, len(lines))
        lines[begin:ends] = change("\n".join(lines[begin:ends])).split("\n")
    return lines


def with_limits(text):
    """The text of an answer with a limit of the steps of each search."""
    for call in reversed([*LIMITED.finditer(text)]):
        end = end_of_call(text, call.end())
        if " steps " not in text[end_of_list(text, call.end()) : end]:
            text = f"{text[:end]} steps {LIMITS[call[1]]}{text[end:]}"
    return text


def with_holes(text):
    """The text of an answer with a hole in place of each search."""
    at = 0
    while call := SEARCH.search(text, at):
        text = f"{text[: call.start()]}not_tried{text[end_of_call(text, call.end()) :]}"
        at = call.start()
    return text


def end_of_call(text, at):
    """Where a call ends whose list begins here."""
    return OPTIONS.match(text, end_of_list(text, at)).end()


def end_of_list(text, at):
    """Where the list of a call ends that begins here."""
    end = WORD.match(text, at).end()
    depth = text.count("(", at, end) - text.count(")", at, end)
    while depth:
        depth += {"(": 1, ")": -1}.get(text[end], 0)
        end += 1
    return end


def answers_of(edit):
    """The text of the answers of the edit's function."""
    path = f"{edit.crate.folder}/{answers_path(edit.function)}"
    return sources.text_of(path) if os.path.exists(path) else ""


def goals_among(edit, names):
    """Those of these names of answers that answer a goal. The others are lemmas, on which answers stand."""
    answered = {*edit.tried[:1], *ANSWER.findall(answers_of(edit))}
    return [it for it in names if it in answered]


def arguments_of(edit):
    """The arguments of an answer of the edit's function: those of one that it has, or else `g` too where the function is generic."""
    found = re.search(r"^pub (\S+) : goal\.\1\n\1((?: \w+)+) =", answers_of(edit), re.M)
    if found:
        return found[2].split()
    owner = edit.text.owner.line if edit.text.owner and edit.text.owner.kind == "impl" else ""
    is_generic = any(re.search(rf"\b{word}<[^>]*\b[A-Z]\w*\b", it) for word, it in ((r"fn \w+", edit.text.header), ("impl", owner)))
    return ["g", "c"] if is_generic else ["c"]
