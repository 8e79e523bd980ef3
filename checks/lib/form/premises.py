"""Which records the laws suppose, and which of these no clause gives.

A law is a function that does nothing: its contract is the law. If nothing meets a premise of it, the law is of nothing. So each record of facts that
a premise names is given by a clause of a public function, perhaps by a law of its own (`premise_laws` of `theorems`): the clause concludes it, and
supposes only records that clauses give. A record within another is met where the outer one is, and a sum counts as each of its parts. That a
clause is ever met, that a sum is each of its parts, and that a premise which is no record holds of anything, this does not tell."""

import dataclasses
import re

from lib import sources
from lib.form import functions, statements

RELATES = {"≡", "≢", "≤", "<", "¬", "⊥"}


@dataclasses.dataclass(frozen=True)
class Rule:
    """Where these records are met, this one is."""

    supposed: frozenset
    given: statements.Definition


@dataclasses.dataclass(frozen=True)
class Reading:
    """What a statement gives, and all that it supposes on the way."""

    rules: frozenset = frozenset()
    supposed: frozenset = frozenset()

    def behind(self, premises):
        """The same behind these premises."""
        return Reading(frozenset(Rule(premises | it.supposed, it.given) for it in self.rules), premises | self.supposed)

    def __or__(self, other):
        return Reading(self.rules | other.rules, self.supposed | other.supposed)


def once(first):
    """Has a function answer each definition once, and by this while it reads the definition itself."""

    def wrap(function):
        answers = {}

        def answer(it):
            if it not in answers:
                answers[it] = first
                answers[it] = function(it)
            return answers[it]

        return answer

    return wrap


def parts(file, tree):
    """What stands side by side behind the last arrow: each name with its definition, and each bracket."""
    for part in statements.split(statements.split(tree, "→")[-1], "×", "⊎", "↔"):
        part = statements.unbound(part)
        if part[:1] != ("¬",):
            for it in part:
                yield it, statements.found(file, it) if isinstance(it, str) else None


@once(False)
def is_fact(it):
    """Whether a definition is of facts, and not of data: a field of it, or what it computes to, is one."""
    return it.is_type and it.kind != "data" and any(says_fact(it.file, tree) for tree in it.trees)


def says_fact(file, tree):
    last = statements.split(statements.unbound(tree), "→")[-1]
    for part in statements.split(last, "×", "⊎", "↔"):
        part = statements.unbound(part)
        if RELATES & {it for it in part if isinstance(it, str)}:
            return True
        head = part[0] if part else ""
        if isinstance(head, tuple) and len(part) == 1 and says_fact(file, head):
            return True
        named = statements.found(file, head) if isinstance(head, str) else None
        if named and is_fact(named):
            return True
    return False


def supposed_by(file, premise):
    """The outermost records of facts in a premise: the types of names that it binds, or what it says."""
    found = frozenset()
    for it, named in parts(file, statements.unbound(premise)):
        if isinstance(it, tuple):
            found |= supposed_by(file, it)
        elif named:
            found |= outermost(named)
    return found


@once(frozenset())
def outermost(it):
    if it.kind == "record":
        return frozenset({it} if is_fact(it) else ())
    return frozenset().union(*(supposed_by(it.file, tree) for tree in it.trees)) if it.is_type else frozenset()


def read(file, tree):
    """What a statement says."""
    tree = statements.unbound(tree)
    premises = frozenset().union(*(supposed_by(file, it) for it in statements.split(tree, "→")[:-1]))
    reading = Reading()
    for it, named in parts(file, tree):
        if isinstance(it, tuple):
            reading |= read(file, it)
        elif named:
            reading |= reading_of(named)
    return reading.behind(premises)


@once(Reading())
def reading_of(it):
    """What a definition gives, itself where it is a record, and the statements in it."""
    reading = Reading(frozenset({Rule(frozenset(), it)} if it.kind == "record" and is_fact(it) else ()))
    for tree in it.trees if it.is_type and it.kind != "data" else ():
        reading |= read(it.file, tree)
    return reading


def is_law(it):
    """Whether a function does nothing."""
    comment = "\n".join(it.lines[it.first : it.at])
    return it.lines[it.end].strip() == "{}" or re.search(r"// Does nothing\b", comment) is not None


def met(rules):
    """The records that these rules give."""
    given, more = set(), True
    while more:
        more = {it.given for it in rules if it.supposed <= given} - given
        given |= more
    return given


def supposed_and_given(found):
    """The records that the laws among these functions suppose, each with these laws, and the records that the public ones give."""
    laws, rules = {}, set()
    for path, it in found:
        in_trait = bool(it.indent and it.owner and it.owner.kind == "trait")
        for clause in it.declared_clauses if in_trait else it.clauses:
            if clause.word == "ensures" and (it.is_public or in_trait or is_law(it)):
                reading = read(path, statements.tree_of(clause.says))
                rules |= reading.rules if it.is_public or in_trait else set()
                for record in reading.supposed if is_law(it) else ():
                    laws.setdefault(record, set()).add(f"{sources.crate_of(path)}::{it.name}")
    return laws, met(rules)


def without_witness():
    """The records that laws suppose, that no clause gives and that checks/without_witness does not name, and how many it names that one gives."""
    laws, given = supposed_and_given(functions.functions())
    lacking = {str(it): f"{it}, of {', '.join(sorted(laws[it]))}" for it in laws if it not in given}
    named = {it.rpartition(": ")[0] for it in sources.lines_of("checks/without_witness") if it and not it.startswith("#")}
    for it in sorted(named - {*lacking}):
        print(f"checks/without_witness: a clause gives {it}, or no law supposes it")
    return [lacking[it] for it in sorted({*lacking} - named)], len(named - {*lacking})
