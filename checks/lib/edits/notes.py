"""Notes what the checks of edits do not have to try: the goals behind `untried:`, `tried:` and `only:` in the lines of narrowing.py."""

import dataclasses

from lib.edits import answers, narrowing, twins
from lib.edits.edit import SHORT, TERMS
from lib.edits.narrowing import Narrowing


@dataclasses.dataclass(frozen=True)
class Open:
    """The goals of an edited function that are left open: those whose own answer is refused, those of them where it is refused by more than a name
    that is gone, those that the search did not prove, those that a line left open, and those of the second whose answer is refused without its
    searches too."""

    refused: list
    held: list
    searched: list
    known: tuple
    by_terms: tuple = ()


def note(edit, found, was_stale=False):
    """Writes the line of an edit. One that was found stale would be so again: it is not asked for what it had, and has none in place of the same."""
    line = line_of(dataclasses.replace(edit, narrowing=Narrowing()) if was_stale else edit, found)
    is_same = {*line.words} == {*edit.narrowing.words} - {SHORT}
    narrowing.write(edit, Narrowing() if was_stale and is_same else line)


def line_of(edit, found):
    """Which goals the check of an edit does not have to try: of those that it leaves open all but one. Where that one is refused by the function's
    own answer, that alone is asked for; where it is searched, it is tried by an answer that asks for the search."""
    refused, held = (answers.goals_among(edit, it) for it in (found.refused, found.held))
    goals = [*held, *refused, *found.searched]
    one = tried_of(edit, goals)
    untried = tuple(sorted({*found.known, *goals} - {one}))
    if one in edit.tried[:1]:
        return Narrowing(untried, tried=edit.tried)
    if twins.can_be_twin(edit) and one in found.searched:
        return Narrowing(untried, tried=(one, *answers.arguments_of(edit)))
    if is_alone(edit) and one in held:
        return Narrowing(only=(one, *[TERMS] * (one in found.by_terms)))
    return Narrowing(untried)


def is_alone(edit):
    """Whether no other goal is searched beside the one that an edit asks for: no attribute tells how those of its function are."""
    return twins.can_be_twin(edit) and not twins.tells_tactic(edit.text.lines, edit.text.at)


def tried_of(edit, goals):
    """The goal that is tried of those that an edit leaves open: that of its line, or a clause of the function itself, or the first."""
    wanted = [it for it in goals if it in edit.tried[:1]] + [it for it in goals if it.startswith("returns")]
    return "".join([*wanted, *goals][:1])


def without_wrong(edits, report):
    """The edits whose `tried:` or `only:` stands, by the report on their functions as they are with these answers alone, and those that are to be
    asked again, with longer searches. Beside one that stands nothing has to be left open. Those of the others go, and an `only:` of a goal to which
    the function has no answer."""
    kept, longer = [], []
    for edit in edits:
        has_answer = not edit.only or edit.asked in answers.goals_among(edit, edit.only)
        if has_answer and report.proves_answers(edit.function, [edit.asked]):
            kept.append(edit)
            narrowing.write(edit, dataclasses.replace(edit.narrowing, untried=() if is_alone(edit) else edit.untried))
        elif has_answer and report.has_verdict and (edit.is_by_terms or edit.is_short):
            longer.append(with_longer(edit))
        else:
            narrowing.write(edit, Narrowing(edit.untried))
            print(f"{edit.name}: `{edit.asked}` of its function is not proved by the answer that its line asks for, which goes", flush=True)
    return kept, longer


def with_longer(edit):
    """The edit with short searches in its answer where it had none, and with searches as long as the prover has them where they were short."""
    print(f"{edit.name}: `{edit.asked}` is not proved {'without searches' if edit.is_by_terms else 'by short searches'}", flush=True)
    return with_words(edit, [TERMS, SHORT], [SHORT] * edit.is_by_terms)


def with_short(edit):
    """The edit with short searches in its answer, or with none, as it has it."""
    return edit if edit.is_by_terms else with_words(edit, [SHORT], [SHORT])


def with_words(edit, without, words):
    """The edit whose `only:` or `tried:` has not those words, and ends in these."""
    found = tuple([it for it in (*edit.only, *edit.tried) if it not in without] + words)
    return dataclasses.replace(edit, narrowing=dataclasses.replace(edit.narrowing, **{"only" if edit.only else "tried": found}))
