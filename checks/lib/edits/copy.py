"""A copy of a crate: the texts of files in which it differs from the crate, so that one check of it judges many edits."""

import dataclasses
import math
import os
import re

from lib import sources
from lib.edits import answers, twins
from lib.edits.edit import Span, own_proof


@dataclasses.dataclass(frozen=True)
class Narrowed:
    """The file of answers of a function of which goals are left open, and the first line of these, where each has to be there."""

    path: str
    first: float


class Copy:
    """The texts of a copy with these edits, the function in which each stands, the twins without an edit, and what is left open of each function."""

    def __init__(self, crate, edits=(), narrows=False, has_all_twins=False):
        self.crate, self.texts, self.functions, self.spans, self.unedited, self.narrowed = crate, {}, {}, {}, {}, {}
        self.has_all_twins = has_all_twins
        for edit in edits:
            if edit.function not in self.functions.values():
                self.functions[edit], self.spans[edit] = edit.function, edit.spans
        self.change()
        if len(edits) == 1:
            self.texts = dict(edits[0].texts)
        # (of these an error tells that the text cannot be read)
        self.edited = {*self.texts}
        self.add_twins(edits)
        self.named = [*self.functions.values(), *self.unedited.values()]
        for function in filter(None, self.functions.values()):
            self.answer_nothing(function)
        for edit in edits if narrows else ():
            if edit.is_narrowed and self.functions[edit]:
                self.leave(edit, self.functions[edit])

    def change(self):
        """Makes the changes of the edits that stand in their functions themselves."""
        changes = [it for edit in self.functions for it in edit.changes]
        for it in sorted(changes, key=lambda it: -it.at):
            text = self.text(it.file)
            self.texts[it.file] = text[: it.at] + it.new + text[it.at + len(it.old) :]

    def add_twins(self, edits):
        """Adds a twin for each other edit, and twins without an edit where texts do not show that a twin lacks nothing."""
        for edit in edits:
            if edit not in self.functions:
                if edit.function not in self.unedited and (self.has_all_twins or not twins.is_carried_over(self.crate, edit.function)):
                    self.unedited[edit.function] = self.add(edit, "_twin_0", ())[0]
                self.functions[edit], self.spans[edit] = self.add(edit, f"_twin_{len(self.functions)}", edit.changes)
        for edit in edits if self.has_all_twins else ():
            if twins.can_be_twin(edit) and edit.function not in self.unedited:
                self.unedited[edit.function] = self.add(edit, "_twin_0", ())[0]

    def add(self, edit, ending, changes):
        """Adds a twin of the edit's function, with its proof files, and gives its name and where it stands."""
        file, text = edit.spans[0].file, self.text(edit.spans[0].file)
        self.texts[file] = text + "\n" + twins.twin_text(edit, ending, changes)
        folder = own_proof(edit.function)
        for name in sources.names_in(f"{self.crate.folder}/{folder}"):
            proof = sources.text_of(f"{self.crate.folder}/{folder}/{name}")
            for it in changes:
                proof = proof.replace(it.old, it.new) if it.file == f"{folder}/{name}" else proof
            self.texts[f"{folder}{ending}/{name}"] = twins.twin_proof(self.crate, edit.function, proof, ending)
        return edit.function + ending, (Span(file, text.count("\n") + 1, self.texts[file].count("\n")),)

    def answer_nothing(self, function):
        """Gives an edited function a file of answers where it has none. To one with no file the check offers one, and searches for that again."""
        path = answers.answers_path(function)
        if path not in self.texts and not sources.names_in(f"{self.crate.folder}/{own_proof(function)}"):
            self.texts[path] = ""

    def answers_of(self, function):
        """The file of a function's answers, and its text."""
        path = answers.answers_path(function)
        is_there = path in self.texts or os.path.exists(f"{self.crate.folder}/{path}")
        return path, self.text(path) if is_there else ""

    def ask_goals(self, edits):
        """Has a function as it is answer the goals that these edits of it ask for, as they do, and no other."""
        function = edits[0].function
        path, text = self.answers_of(function)
        asks = self.search_nothing(function, edits[0].spans[0])
        lines, left = answers.alone(text, {it.asked for it in edits}) if asks else (text.split("\n"), ())
        lines = answers.without_searches(lines, {it.asked for it in edits if it.is_by_terms})
        lines = answers.with_short_searches(lines, {it.asked for it in edits if it.only and it.is_short})
        lines = answers.with_tries(lines, function, [it.tried for it in edits if it.tried])
        self.texts[path] = "\n".join(lines + answers.left_open(left, lines))
        self.narrowed[function] = Narrowed(path, math.inf)
        self.named.append(function)

    def leave(self, edit, function):
        """Has the goal that is asked for answered by a search, or by the function's own answer, and no other. Where its line asks for none, or the
        others would be searched, it leaves those open that its line names."""
        path, text = self.answers_of(function)
        asks = bool(edit.asked) and self.search_nothing(function, self.spans[edit][0])
        if asks:
            lines, left = answers.alone(text, {edit.asked})
        else:
            lines, left = answers.without_answers(text, edit.untried), edit.untried
        lines = answers.without_searches(lines, {edit.asked}) if edit.is_by_terms else lines
        lines = answers.with_short_searches(lines, {edit.asked}) if edit.only and edit.is_short else lines
        lines = answers.with_tries(lines, function, [edit.tried] if edit.tried else [])
        # (where one goal is asked for, the others may be gone: nothing is said of them)
        self.narrowed[function] = Narrowed(path, math.inf if asks else len(lines))
        self.texts[path] = "\n".join(lines + answers.left_open(left, lines))

    def search_nothing(self, function, span):
        """Has the check of a function that stands there search for none of its goals by itself: so a goal without an answer costs nothing. Where an
        attribute tells how it searches, that stays. No line moves. Returns whether nothing is searched."""
        file, first, last = dataclasses.astuple(span)
        lines = self.text(file).split("\n")
        at = twins.line_of(function, lines, first - 1, last)
        if at is None or twins.tells_tactic(lines, at):
            return False
        lines[at] = re.sub("^ *", r"\g<0>#[tactic(none)] ", lines[at])
        self.texts[file] = "\n".join(lines)
        return True

    def text(self, file):
        return self.texts[file] if file in self.texts else sources.text_of(f"{self.crate.folder}/{file}")


def batches_of(edits):
    """Edits of functions' bodies stand side by side, in twins where a function has several. Every other edit, and what does not apply by itself,
    stands alone."""
    batches = []
    for edit in sorted(edits, key=lambda it: it.is_control):
        fits = [it for it in batches if edit.is_of_body and has_room(it, edit)]
        if fits:
            fits[0].append(edit)
        else:
            batches.append([edit])
    return batches


def has_room(batch, edit):
    """Whether an edit can stand beside those of a batch."""
    return all(other.function and (twins.can_be_twin(edit) or other.function != edit.function) for other in batch)
