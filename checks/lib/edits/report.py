"""Reads what the prover says of a copy into records: a verdict for each function, and a remark for each place of a file that a line names.

All that is known of the prover's words stands here. checks/lib/test has outputs of the prover that was read so."""

import dataclasses
import re

from lib.edits.answers import answers_path
from lib.edits.edit import own_proof

NAMES = r"((?:`[^`]+`(?:, | and )?)+)"
# What a function says that is only the end of another's failure.
ENDS = rf"it (?:calls|passes the block) {NAMES}, which (?:is|are) not proved"
BORROWS = r"the borrow checker's part in its proof is not made yet: a call of `[^`]+`, which has no proof(: help: .*)?"
FOLLOWS = re.compile(rf"no proof: ({ENDS}(; {ENDS})*|{BORROWS})")
# What a function says that rests on an answer that is refused. Where that is one of another function, it follows from that one too.
STANDS = re.compile(rf"it stands on {NAMES}, which antt refuses")
STANDS_ALONE = re.compile(rf"not proved; {STANDS.pattern}(; {ENDS})*")
SEARCHED = re.compile(rf"`search` did not prove {NAMES}")
# What a function says that is proved, but for the holes of those that are shut.
IS_PROVED = re.compile(r"proved|no holes|depends on a hole in .*")
# A line on a place of a file.
PLACE = re.compile(r"(note: )?(?:\./)?(\S+?):(\d+):\d+: (error: )?(.*)")
GOAL = re.compile(r"`([^`]+)`: (.*)")
# (the second is what is said of one that broke off at its limit)
OF_SEARCH = re.compile(r"`(?:search|grind)`|give the call less to do")
OF_ANY_SEARCH = re.compile(r"`(?:search|grind|omega|first_of)`|give the call less to do")
NOT_PROVED = re.compile(r"it is not proved that .*?\(`([^`]+)`\)")
NO_GOAL = re.compile(r"module `[^`]*\.Goals` has no `")
# A proof file that names what the edit took away says little of the contract. (Behind a long name what a record lacks is told in the next line.)
GONE = re.compile(r"has no field|\(nearest: \.|is not in scope|has no `|was not admitted")
# How antt says that it cannot read a text, where it names a definition.
UNREAD = re.compile(r"is not in scope|has no field|is no name|operand is missing|expected the end|cannot continue")


def quoted(text):
    """The words in backticks."""
    return re.findall(r"`([^`]+)`", text)


@dataclasses.dataclass(frozen=True)
class Output:
    """What the prover printed on a copy, its exit status, and whether it could not use what was kept of a library."""

    status: int
    said: str
    is_stale: bool = False

    @property
    def has_found_none(self):
        """Whether a name that the check was given is that of no function, or of several."""
        return self.status == 2


@dataclasses.dataclass(frozen=True)
class Verdict:
    """What is said of a function: whether it is proved, refused, or not proved only since one that it calls is not; the answers of its own that are
    refused; and the goals that the search did not prove."""

    name: str
    said: str
    is_proved: bool
    is_refused: bool
    follows: bool
    refused: tuple
    searched: tuple


@dataclasses.dataclass(frozen=True)
class Remark:
    """A line on a place: whether it is a note or an error, its file and line, the goal that it begins with, or nothing, and what it says."""

    is_note: bool
    is_error: bool
    file: str
    line: int
    goal: str
    says: str
    whole: str

    @property
    def is_of_what_is_gone(self):
        return bool(GONE.search(self.whole))


def verdict_of(line):
    """The verdict of a line, or None."""
    if not re.match(r"fn \S+: ", line):
        return None
    name, _, said = line.removeprefix("fn ").partition(": ")
    own = rf"proofs\.{re.escape('.'.join(name.split('::')[1:]))}\."
    stands, searched = STANDS.search(said), SEARCHED.search(said)
    answers = quoted(stands[1]) if stands else []
    is_own = any(re.match(rf"Rattle\.\w+\.{own}", it) for it in answers)
    follows = bool(FOLLOWS.fullmatch(said)) or bool(STANDS_ALONE.fullmatch(said)) and not is_own
    refused = [found for it in answers for found in re.findall(rf"{own}Answers\.([^`.]+)$", it)]
    return Verdict(
        name,
        said,
        bool(IS_PROVED.fullmatch(said)),
        said.startswith(("not proved", "no proof")),
        follows,
        tuple(dict.fromkeys(refused)),
        tuple(quoted(searched[1]) if searched else ()),
    )


def remark_of(line):
    """The remark of a line, or None."""
    at = PLACE.match(line)
    if not at:
        return None
    goal = GOAL.match(at[5])
    return Remark(bool(at[1]), bool(at[4]), at[2], int(at[3]), goal[1] if goal else "", goal[2] if goal else at[5], line)


def is_unread(remark, edited):
    """Whether antt could not read a text of src/, specs/ or an edited file. An edit that only makes a statement false reads well."""
    if remark.is_note or not remark.is_error or remark.file not in edited and not remark.file.startswith(("src/", "specs/")):
        return False
    return not remark.goal or bool(UNREAD.search(re.sub(r"`[^`]*`", "", remark.says)))


def is_part(name, function):
    """Whether a report's name is the function's or that of a closure in it."""
    if name == function:
        return True
    before, closure, behind = name.partition("::fn::")
    return bool(closure) and f"{before}::{behind}".startswith(f"{function}::")


class Report:
    """What a check said, function by function. `edited` are the files whose text an edit changed."""

    def __init__(self, output, edited=()):
        self.lines, self.has_found_none = output.said.rstrip("\n").split("\n"), output.has_found_none
        ends = self.lines[-1].startswith(("logic=", "only="))
        self.has_verdict = output.status in (0, 1) and ends and not output.is_stale
        self.verdicts = {it.name: it for it in map(verdict_of, self.lines) if it}
        self.remarks = [it for it in map(remark_of, self.lines) if it]
        self.unread = next((it.whole for it in self.remarks if is_unread(it, edited)), None)
        # those that are not proved for a reason of their own, and those among them that the prover refuses
        self.open = {name for name, it in self.verdicts.items() if not it.is_proved and not it.follows}
        self.failed = {it for it in self.open if self.verdicts[it].is_refused}

    @property
    def trouble(self):
        """What a check without a verdict says of why."""
        return next((it for it in self.lines if "error" in it), self.lines[0])

    def name_of(self, function):
        """The name by which a line tells of the function, or None: a method stands in the module of its type, wherever its `impl` does."""
        if not function or function in self.verdicts:
            return function
        method = "::" + "::".join(function.split("::")[-2:])
        found = [it for it in self.verdicts if it.endswith(method) and "::fn::" not in it]
        return found[0] if len(found) == 1 else None

    def fails(self, function):
        return any(is_part(it, function) for it in self.failed)

    def proves(self, function):
        """Whether the function is proved, or lacks only the proof of one that it calls."""
        return function in self.verdicts and not any(is_part(it, function) for it in self.open)

    def is_proved(self, function):
        return self.has_verdict and function in self.verdicts and self.verdicts[function].is_proved

    def refused_goals(self, function):
        """The goals of the function whose answer is refused."""
        return [*self.verdicts[function].refused] if function in self.verdicts else []

    def searched_goals(self, function, spans):
        """The goals of the function that the search did not prove."""
        found = [*self.verdicts[function].searched] if function in self.verdicts else []
        # (where an answer is refused too, a line for each goal tells of the searches)
        for it in self.remarks:
            says = NOT_PROVED.match(it.says) if it.is_note else None
            if says and any(span.holds(it.file, it.line) for span in spans):
                found.append(says[1])
        return [*dict.fromkeys(found)]

    def errors_at(self, path):
        """The errors in a file."""
        return [it for it in self.remarks if it.is_error and not it.is_note and it.file == path]

    def has_searched(self, narrowed, tried):
        """Whether the answer to the goal that is tried failed by a search, and by nothing else."""
        return not tried or any(it.goal == tried[0] and OF_SEARCH.match(it.says) for it in self.errors_at(narrowed.path))

    def proves_answers(self, function, goals):
        """Those of these goals whose answers in the function's file are proved: no error names them, and each error names a goal."""
        errors = self.errors_at(answers_path(function))
        is_read = self.has_verdict and not self.unread and self.name_of(function) in self.verdicts and all(it.goal for it in errors)
        return [it for it in goals if is_read and it not in {error.goal for error in errors}]

    def refuses(self, path, goal):
        """Whether the answer to this goal in a file is refused by more than that it names what is not there."""
        return any(it.goal == goal and not it.is_of_what_is_gone for it in self.errors_at(path))

    def refuses_terms(self, path, goal):
        """Whether the answer to this goal in a file is refused by that too and not by a search in it."""
        return any(it.goal == goal and not it.is_of_what_is_gone and not OF_ANY_SEARCH.match(it.says) for it in self.errors_at(path))

    def misses(self, narrowed):
        """Whether a goal that is left open is none of the function's, or its file cannot be read: an error from its line on, or of no name."""
        return any(it.line > narrowed.first or not it.goal and not it.says.startswith("`") for it in self.errors_at(narrowed.path))

    def may_have_lost(self, function, tried):
        """Whether the function fails by goals alone that may hold, since an answer names a goal that its edit took away: no answer of it is refused
        but that to the goal that is tried."""
        is_lost = bool(function) and any(NO_GOAL.search(it.whole) for it in self.errors_at(answers_path(function)))
        return is_lost and not {*self.refused_goals(function)} - {*tried[:1]}

    def is_weak(self, function, spans):
        """Whether the function fails only because a proof file names what its edit took away."""
        if not function:
            told = [it for it in self.remarks if ": error" in it.whole or it.is_note]
            return bool(told) and all(not it.is_note and "proofs/" in it.file and it.is_of_what_is_gone for it in told)
        # (a hole that leaves a goal open is told there too, and is no reason)
        own = [it for it in self.remarks if it.is_error and not it.is_note and it.file.startswith(own_proof(function) + "/")]
        inside = [it for it in self.remarks if any(span.holds(it.file, it.line) for span in spans)]
        return bool(own) and not inside and all(it.is_of_what_is_gone for it in own)
