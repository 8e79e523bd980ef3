"""What the house rules say of functions: their sizes, their clauses, their edits, their errors."""

import collections
import dataclasses
import functools
import re

from lib import sources
from lib.edits.edit import applied, triples
from lib.edits.narrowing import MARKS


@dataclasses.dataclass(frozen=True)
class Body:
    """A function with a body, its file, and its clauses but for those that an `impl` has to repeat from its trait."""

    path: str
    function: sources.Function
    clauses: tuple

    @property
    def ensures(self):
        return [it for it in self.clauses if it.word == "ensures"]

    def __str__(self):
        return f"{self.path}: {self.function.name}"


@functools.lru_cache(maxsize=None)
def paths():
    """The sources of all crates, and of the judges that are built without a proof."""
    return (*sources.files_of_crates(".rt", "src"), *sources.files_below("judges", ".rt.unproved"))


def functions():
    """All functions, with their files."""
    for path in paths():
        yield from ((path, it) for it in sources.functions_in(sources.text_of(path)))


@functools.lru_cache(maxsize=None)
def of_traits():
    """The names of the clauses of each function of a trait."""
    stands_in = lambda it: it.indent and it.owner and it.owner.kind == "trait"
    return {(it.owner.trait, it.name): {(c.word, c.name) for c in it.declared_clauses} for _, it in functions() if stands_in(it)}


@functools.lru_cache(maxsize=None)
def bodies():
    """The functions with a body."""
    found = []
    for path, it in functions():
        if not it.is_declared_alone:
            repeated = of_traits().get((it.owner.trait if it.owner else None, it.name), set())
            found.append(Body(path, it, tuple(c for c in it.clauses if (c.word, c.name) not in repeated)))
    return tuple(found)


def proved_bodies():
    """Those of crates: a judge without a proof has no clause that anybody answers."""
    return [it for it in bodies() if not it.path.endswith(".unproved")]


def long_ones():
    return [f"{it} has {it.function.size}" for it in bodies() if it.function.size > 25]


def most_ensures():
    """The most clauses that a function ensures, one of a trait among them."""
    traits = (sum(word == "ensures" for word, _ in it) for it in of_traits().values())
    return max([*(len(it.ensures) for it in bodies()), *traits])


def crate_of_most_clauses():
    """The crate whose functions ensure the most clauses in the mean, those with none aside, and how many."""
    crates = collections.defaultdict(list)
    for it in bodies():
        if it.ensures:
            crates[sources.crate_of(it.path)].append(len(it.ensures))
    mean, crate = max((sum(it) / len(it), name) for name, it in crates.items())
    return crate, round(mean, 1)


def over_five():
    return [f"{it} has {len(it.clauses)}" for it in proved_bodies() if len(it.clauses) > 5]


def parts_of(text):
    """The parts between the first bracket and the one that closes it, which commas part that no other bracket holds."""
    depth, parts = 0, [""]
    for before, sign in zip(" " + text, text):
        opens, closes = sign in "([{<", sign in ")]}" or sign == ">" and before not in "-="
        depth += opens - closes
        if not depth and closes:
            break
        if depth == 1 and sign == ",":
            parts.append("")
        elif depth > 1 or depth and not opens:
            parts[-1] += sign
    return [it for it in parts if it.strip()]


def over_five_parameters():
    """The functions of crates that have more than five parameters, `self` among them."""
    for it in proved_bodies():
        head = "\n".join(it.function.lines[it.function.at : it.function.begin + 1])
        behind = re.split(r"\bfn \w+", head, maxsplit=1)[1]
        of_types = len(f"<{','.join(parts_of(behind))}>") if behind.startswith("<") else 0
        many = len(parts_of(behind[behind.index("(", of_types) :]))
        if many > 5:
            yield f"{it} has {many}"


def repeated(word):
    """The clauses of this word that stand the same in another function. Those that an `impl` has to repeat are not counted."""
    places = collections.defaultdict(list)
    for it in proved_bodies():
        for clause in it.clauses:
            if clause.word == word:
                places[clause.says].append(str(it))
    return [f"{it}: {{{says}" for says, there in places.items() if len({*there}) > 1 for it in there]


def all_of(word):
    """How many clauses of this word there are."""
    return sum(clause.word == word for it in proved_bodies() for clause in it.clauses)


def edited():
    """The lines of the sources that an edit of edits/ or must-fail/ changes: pairs of a file and the number of a line."""
    for path in sources.files_of_crates(".edit", "edits", "must-fail"):
        for file, kind, old, _ in triples(sources.text_of(path)):
            file = f"crates/{sources.crate_of(path)}/{file}"
            is_it = lambda line: old in line if kind == "old" else old.strip() == line.strip()
            yield from ((file, number) for number, line in enumerate(sources.lines_of(file)) if is_it(line))


def edits_and_controls():
    """The files of edits and controls."""
    return [it for it in sources.files_of_crates("", "edits", "must-fail") if it.endswith((".edit", ".control"))]


def without_place():
    """The edits and controls that cannot be applied, with the reason. Where they are tried, each would be told only behind its crate's proof."""
    found = ((it, applied(f"crates/{sources.crate_of(it)}", sources.text_of(it))[2]) for it in edits_and_controls())
    return [f"{path}: {why}" for path, why in found if why]


def narrowed_in_themselves():
    """The lines of edits that would narrow their checks: nothing reads them there, since checks/edits has a file for these."""
    return [f"{path}: {line}" for path in edits_and_controls() for line in sources.lines_of(path) if line.startswith(MARKS)]


def without_edit():
    """The public functions of which no edit changes the body and that checks/without_edit does not name, and how many it names that have one, or
    are not there."""
    changed = {*edited()}
    is_edited = lambda it: any((it.path, n) in changed for n in range(it.function.at, it.function.end + 1))
    lacking = [str(it) for it in proved_bodies() if it.function.is_public and not is_edited(it)]
    named = [it.rpartition(": ")[0] for it in sources.lines_of("checks/without_edit") if it and not it.startswith("#")]
    for it in {*named} - {*lacking}:
        print(f"checks/without_edit: {it} has an edit, or is not there")
    return [it for it in lacking if it not in named], len({*named} - {*lacking})


def without_errors():
    """The public functions and methods of traits that answer a Result, and whose text does not say when it is an error."""
    found = []
    for path, it in functions():
        if not it.is_public and not (it.indent and it.owner and it.owner.kind == "trait"):
            continue
        ends = (n for n in range(it.at, len(it.lines)) if it.lines[n].strip().startswith(sources.WORDS) or re.search(r"[{;]$", it.lines[n].rstrip()))
        answer = " ".join(it.lines[it.at : next(ends, it.at) + 1]).partition("->")[2]
        told = next((n for n in range(it.at - 1, -1, -1) if not re.match(r"\s*(///|#\[)", it.lines[n])), -1)
        if re.match(r" *[\w:]*Result\b", answer) and not any("# Errors" in line for line in it.lines[told + 1 : it.at]):
            found.append(f"{path}: {it.name}")
    return found
