"""Tries edits of a crate: makes a copy with them, has it checked, and judges each by the report."""

import dataclasses
import os

from lib.edits import narrowing, notes
from lib.edits.answers import answers_path
from lib.edits.copy import Copy
from lib.edits.report import Report, is_part
from lib.edits.shut import shut_texts


@dataclasses.dataclass(frozen=True)
class Options:
    """What checks/edits was asked for besides its verdicts."""

    tells_times: bool = False
    writes_notes: bool = False
    has_all_twins: bool = False


@dataclasses.dataclass(frozen=True)
class Found:
    """What is wrong with an edit, or nothing, and whether its refusal says little."""

    edit: object
    why: str
    is_weak: bool = False


@dataclasses.dataclass(frozen=True)
class Checked:
    """A copy of some edits with what its check said, and how it was checked: with functions shut, with goals left open."""

    batch: list
    copy: Copy
    report: Report
    shuts: bool
    narrows: bool

    def name_of(self, edit):
        """The name by which the report tells of the function that an edit stands in."""
        return self.report.name_of(self.copy.functions[edit])

    @property
    def unsettled(self):
        """Why the check does not say of each function what the edits did to it, or nothing: it has no verdict, or what no edit touches fails."""
        names = [*map(self.name_of, self.batch), *map(self.report.name_of, self.copy.unedited.values())]
        strange = [it for it in self.report.open if None not in names and not any(is_part(it, name) for name in names)]
        said = "" if self.report.has_verdict else self.report.trouble
        return said or self.report.unread or next((f"{it}: {self.report.verdicts[it].said}" for it in strange), "")

    def is_refused(self, edit):
        # (where no line tells of the function by its name, only a check of the edit alone can be judged, by all that fails)
        name = self.name_of(edit)
        return self.report.fails(name) if name else len(self.batch) == 1 and bool(self.report.failed)

    def fault(self, edit):
        """What is wrong with the edit, or nothing."""
        report = self.report
        if edit.is_control:
            is_well = report.is_proved(self.name_of(edit))
            return "" if is_well else "this control keeps the meaning, and its function is not reported as proved"
        if report.unread or not report.has_verdict:
            return f"it does not reach the prover: {(report.unread or report.trouble)[:200]}"
        return "" if self.is_refused(edit) else "NOT REFUSED: what it changes is still proved"

    def is_weak(self, edit):
        return self.report.is_weak(self.name_of(edit), self.copy.spans[edit])

    def leaves_too_much(self, edit, found):
        """Why what its line leaves open keeps the edit from being judged, or nothing."""
        narrowed, report = self.copy.narrowed.get(self.copy.functions[edit]), self.report
        if not narrowed:
            return ""
        if found.why or found.is_weak:
            return found.why or "only what the edit took away is refused"
        if not report.has_searched(narrowed, edit.tried):
            return f"no search for `{edit.tried[0]}` failed"
        if report.misses(narrowed):
            return "a goal that is left open is not there"
        if edit.only:
            return "" if report.refuses(narrowed.path, edit.asked) else f"the answer to `{edit.asked}` is not there, or not refused by itself"
        return "all that is refused is an answer to a goal that is not there" if report.may_have_lost(self.name_of(edit), edit.tried) else ""


def tell(line):
    print(line, flush=True)


class Trial:
    """Tries edits of a crate over what is kept of it in a folder. `ask` gives what the prover says of a copy (prover.py). `stale` are the edits whose
    lines were found to narrow them to what does not refuse them, or is not there, and why."""

    def __init__(self, crate, kept, ask, options=Options()):
        self.crate, self.kept, self.ask, self.options, self.stale = crate, kept, ask, options, {}

    def report(self, copy, shuts):
        """What the check of a copy says: of the edited functions alone, or of all where one is not one function's, or is by itself and not found by
        its name. Those that they call are shut, where that is asked for."""
        if all(copy.named):
            words = [word for it in copy.named for word in ("--only", it)]
            holes = ["--allow-holes"] if shuts or copy.narrowed else []
            texts = shut_texts(self.crate, copy.text, copy.named) if shuts else {}
            found = Report(self.ask(copy, [*holes, *words], self.kept, texts, self.options.tells_times), copy.edited)
            if not found.has_found_none or len(copy.functions) > 1:
                return found
            tell(f"{self.crate.name}: all is checked: {found.trouble}")
        return Report(self.ask(copy, [], self.kept, {}, self.options.tells_times), copy.edited)

    def judged(self, batch, shuts, narrows=True):
        """What is found of each edit of a batch. What its check does not settle is tried again: whole, with nothing shut, then in halves. Where it
        knows no function of a name, halves find which."""
        copy = Copy(self.crate, batch, narrows, self.options.has_all_twins)
        report = self.report(copy, shuts)
        checked = Checked(batch, copy, report, shuts, narrows)
        if checked.unsettled:
            tell(f"{self.crate.name}: a copy with {len(batch)} does not settle them: {checked.unsettled[:300]}")
            if copy.narrowed and not report.has_found_none:
                return self.judged(batch, shuts, False)
            if shuts and all(copy.named) and not report.has_found_none:
                return self.judged(batch, False, narrows)
            if len(batch) > 1:
                half = len(batch) // 2
                return self.judged(batch[:half], shuts, narrows) + self.judged(batch[half:], shuts, narrows)
        found = [(it, self.judged_in(checked, it)) for it in batch]
        # (what is tried whole goes into one copy, which costs what loading costs)
        whole = [it for it, those in found if not those]
        return [one for _, those in found for one in those] + (self.judged(whole, shuts, False) if whole else [])

    def judged_in(self, checked, edit):
        """What is found of an edit by the check of its batch, or by one more; nothing where it has to be tried whole."""
        shuts, narrows = checked.shuts, checked.narrows
        if self.lacks(checked, edit):
            return self.judged([edit], shuts, narrows)
        why = checked.fault(edit)
        found = Found(edit, why, not edit.is_control and not why and checked.is_weak(edit))
        if edit.is_control:
            return [found]
        left = checked.leaves_too_much(edit, found)
        if left:
            self.find_stale(edit, left)
            return []
        if why and len(checked.batch) > 1:
            return self.judged([edit], shuts, narrows)
        if self.options.writes_notes:
            self.note(checked, found)
        return [found]

    def stale_lines(self, found):
        """One line that tells which of these edits that are refused have a stale line, and how it is written anew, or none."""
        refused = [it.edit for it in found if not it.why and not it.edit.is_control]
        stale = {it: "it is for another text" for it in refused if it.narrowing.is_stale}
        stale.update({it: self.stale[it] for it in refused if it in self.stale})
        told = ", ".join(f"{os.path.basename(it.path)} ({why})" for it, why in stale.items())
        anew = f"`checks/edits --note {self.crate.name}`, then `--tries {self.crate.name}`, write them anew"
        return [f"{self.crate.name}: {len(stale)} stale in {narrowing.PLACE}, tried whole ({anew}): {told}"] if stale else []

    def find_stale(self, edit, why):
        """Takes the line of an edit for stale. Where lines are written, it goes."""
        self.stale[edit] = why
        if self.options.writes_notes:
            narrowing.write(edit, narrowing.Narrowing())

    def lacks(self, checked, edit):
        """Whether the twin without an edit of its function is not proved, so that an edit in a twin may be refused for that alone."""
        bare = checked.copy.unedited.get(edit.function)
        if not bare or checked.report.proves(checked.report.name_of(bare)):
            return False
        tell(f"{edit.name}: a twin of its function without an edit is not proved")
        return checked.copy.functions[edit] != edit.function

    def note(self, checked, found):
        """Writes into an edit that is refused which of its goals its check does not have to try."""
        edit, copy, report = found.edit, checked.copy, checked.report
        name = checked.name_of(edit)
        # (of an edit that tries a goal the other goals are not searched for)
        asks = edit.asked and copy.functions[edit] in copy.narrowed
        if name and not asks and not found.why and not found.is_weak and name == copy.functions[edit] and not report.may_have_lost(name, ()):
            known = edit.untried if copy.functions[edit] in copy.narrowed else ()
            refused = report.refused_goals(name)
            held = [it for it in refused if report.refuses(answers_path(name), it)]
            by_terms = tuple(it for it in held if report.refuses_terms(answers_path(name), it))
            opened = notes.Open(refused, held, report.searched_goals(name, copy.spans[edit]), known, by_terms)
            notes.note(edit, opened, edit in self.stale)

    def confirmed(self, edits, shuts):
        """Gives each function as it is the answers by which edits of it are tried, and no other. The lines of those go that are not proved, by longer
        searches neither, and of those whose goal it does not have, since it is one of the edited function alone. Those that are proved by short ones
        are told so. Returns how many are left and how many went."""
        asking = [it for it in edits if it.asked and it.function and not it.is_control]
        left, next_to_ask = 0, [*map(notes.with_short, asking)]
        while next_to_ask:
            copy = Copy(self.crate)
            for function in dict.fromkeys(it.function for it in next_to_ask):
                copy.ask_goals([it for it in next_to_ask if it.function == function])
            kept, next_to_ask = notes.without_wrong(next_to_ask, self.report(copy, shuts))
            left += len(kept)
        return left, len(asking) - left
