"""Relations that hold of everything. Where an impl, a caller or a definition puts a constant function in place of a relation or a predicate, what is
said by that relation is said of nothing, and a premise that names it is empty. A ghost member that never holds counts too: what it is a premise of is
said of nothing.

What is read are texts as `rt fmt` lays them out: the ghost members of impls and the functions of sources, the abbreviations, records and fields of
specs. A name that computes to a constant counts as one, in its own file and where a file uses it. (`also_owns` of std's `Model` is no contract.)"""

import collections
import dataclasses
import functools
import re

from lib import sources

CONSTANT = re.compile(r"(?:Unit(?: \{0\})?|⊤|IsTrue true|T true|0 ≤ .*|(.+) [≡≤] \1)")
NEVER = re.compile(r"(?:λ[^.]*\. *)*⊥")
BEGINS = re.compile(r" *(?:pub )?(?:(?:abbrev|unfoldable) (?:pub )?(\w+) :|(?:pub )?(?:record|data) (\w+))|( +)pub (\w+) :")
MEMBER = re.compile(r"^ +(?:pub )?ghost (\w+) = \{ *(.*?) *\};$", re.M | re.S)
ABBREVIATION, RECORD = re.compile(r" *(?:abbrev|unfoldable) pub (\w+) :"), re.compile(r" *pub record (\w+)")
FIELD, EQUALS = re.compile(r" +pub \w+ :"), re.compile(r" =(?: |$)(.*)")
CLOSES = {"(": ")", "{": "}", "[": "]"}


@dataclasses.dataclass(frozen=True)
class Place:
    """A line of a text, the definition or function that it belongs to, and why it is listed."""

    path: str
    line: int
    name: str
    why: str

    @property
    def key(self):
        return f"{self.path}: {self.name}"

    def __str__(self):
        return f"{self.path}:{self.line}: {self.name}: {self.why}"


def bare(text):
    """A text on one line, without comments and the brackets around all of it."""
    text = " ".join(re.split(r"(?:--|//)", it)[0].strip() for it in text.split("\n")).strip()
    while text.startswith("(") and end_of(text, 1) == len(text) - 1:
        text = text[1:-1].strip()
    return text


def end_of(text, at):
    """The end of the expression that begins here: before the bracket, the comma or the semicolon that ends it."""
    open_ones = []
    for place in range(at, len(text)):
        sign = text[place]
        if sign in CLOSES:
            open_ones.append(CLOSES[sign])
        elif open_ones and sign == open_ones[-1]:
            open_ones.pop()
        elif not open_ones and sign in ")}];,":
            return place
    return len(text)


def parts_by(text, word):
    """The parts of an expression between these words, where no bracket holds them."""
    parts, depth, at = [], 0, 0
    for place, sign in enumerate(text):
        depth += (sign in "({[") - (sign in ")}]")
        if not depth and text.startswith(word, place):
            parts.append(text[at:place])
            at = place + len(word)
    return [*parts, text[at:]]


class Names:
    """The names of abbreviations and records that compute to a constant, and the files in which each is one."""

    def __init__(self, texts):
        self.modules, self.texts = collections.defaultdict(set), texts
        self.uses = {path: re.findall(r"^(?:ghost |pub )*use [^;]*?(?:\}$|\};|;|$)", text, re.M) for path, text in texts.items()}
        found = None
        while found != self.modules:
            found = {name: {*paths} for name, paths in self.modules.items()}
            for path, text in texts.items():
                for name, bodies in abbreviations(text) if path.endswith(".antt") else ():
                    if bodies and all(self.is_constant(it, path) for it in bodies):
                        self.modules[name].add(path)

    def is_known(self, name, path):
        """Whether this name is a constant in this file: it is defined there, or used from where it is defined."""
        module = lambda it: it.rpartition("/")[2].partition(".")[0]
        is_used = lambda it: any({module(it), name} <= {*re.findall(r"\w+", use)} for use in self.uses[path])
        return any(it == path or is_used(it) for it in self.modules.get(name, ()))

    def is_constant(self, text, path):
        """Whether an expression is the same whatever its names stand for, and holds."""
        text = bare(text)
        if text.startswith("λ"):
            return "." in text and self.is_constant(text.partition(".")[2], path)
        if len(parts := parts_by(text, " → ")) > 1:
            return self.is_constant(parts[-1], path)
        if len(parts := parts_by(text, " ⊎ ")) > 1:
            return any(self.is_constant(it, path) for it in parts)
        if len(parts := parts_by(text, " × ")) > 1:
            return all(self.is_constant(it, path) for it in parts)
        head = re.match(r"\w+", text)
        return bool(CONSTANT.fullmatch(text) or head and self.is_known(head[0], path))


@functools.lru_cache(maxsize=None)
def abbreviations(text):
    """The abbreviations of a text of specs, each with what its equations say, and the records that have no field, which say nothing."""
    found = []
    for paragraph in re.split(r"\n\s*\n", text):
        lines = [it for it in paragraph.split("\n") if not it.lstrip().startswith("--")]
        for at, line in enumerate(lines):
            if named := ABBREVIATION.match(line):
                found.append((named[1], equations(named[1], lines[at + 1 :])))
            elif (named := RECORD.match(line)) and not any(FIELD.match(it) for it in lines[at:]):
                found.append((named[1], ["Unit"]))
    return found


def equations(name, lines):
    """What the equations of a name say."""
    found = []
    for line in lines:
        words = line.split(None, 1)
        if words and words[0] == name and (said := EQUALS.search(line)):
            found.append(said[1])
        elif words and words[0] in ("abbrev", "unfoldable", "pub", "module"):
            break
        elif found:
            found[-1] += " " + line.strip()
    return found


def type_of(line):
    """The type of an `impl` line, or the name of a trait."""
    return re.findall(r"\w+", re.sub(r"<.*?>(?=[ {]|$)", "", line.partition(" where ")[0]).partition("{")[0])[-1]


def named_as(function):
    """A function with what it stands in."""
    return f"{type_of(function.owner.line)}::{function.name}" if function.owner else function.name


def names_of_lines(path, text):
    """The name of what each line of a text belongs to: a definition and its field, or a ghost member or a function with its owner."""
    if path.endswith(".rt"):
        functions = {n: named_as(it) for it in sources.functions_in(text) for n in range(it.first, it.end + 1)}
    name, field, owner = "", "", ""
    for number, line in enumerate(text.split("\n")):
        if path.endswith(".rt"):
            owner = type_of(line) if line.startswith("impl") else owner
            member = re.match(r" +(?:pub )?ghost (\w+) = ", line)
            name = f"{owner}::{member[1]}" if member else functions.get(number, name)
        elif begins := BEGINS.match(line):
            name, field = (begins[1] or begins[2] or name), (begins[4] or "")
        yield f"{name}.{field}" if field else name


def instances(texts, names):
    """Where a constant function stands in place of a relation: the ghost members, the definitions that are constants, and the arguments."""
    for path, text in texts.items():
        holders, at_line = [*names_of_lines(path, text)], lambda place: text.count("\n", 0, place)
        code = "\n".join(re.sub(r"(--|//).*", lambda it: " " * len(it[0]), line) for line in text.split("\n"))
        whole = {}
        for it in MEMBER.finditer(code):
            if NEVER.fullmatch(bare(it[2])):
                yield Place(path, at_line(it.start(1)) + 1, holders[at_line(it.start(1))], "a member that never holds")
            if names.is_constant(it[2], path):
                whole[at_line(it.start(1))] = it[1]
                yield Place(path, at_line(it.start(1)) + 1, holders[at_line(it.start(1))], "a member that is constant")
        for it in re.finditer(r"λ", code):
            body = code[it.start() : end_of(code, it.start())]
            line = at_line(it.start())
            if line not in whole and names.is_constant(body, path) and not is_inside(code, it.start()):
                yield Place(path, line + 1, holders[line], "an argument that is constant")
        if path.endswith(".antt"):
            for name, bodies in abbreviations(text):
                if path in names.modules.get(name, ()):
                    line = next(n for n, it in enumerate(text.split("\n")) if re.match(rf" *(?:(?:abbrev|unfoldable) pub|pub record) {name}\b", it))
                    yield Place(path, line + 1, name, "a definition that is constant")


def is_inside(code, at):
    """Whether a function here is the body of another one, which counts alone."""
    return re.search(r"λ[^.λ]*\.\s*$", code[max(at - 200, 0) : at]) is not None


def premises(texts, found):
    """The premises that an instance makes empty: what a function requires, or what stands before an arrow in a clause, where it names such a member
    of a bound or such a definition. Where the value of a member of another impl is made of such members alone, that member counts too."""
    members = {it.name.rpartition("::")[2] for it in found if "::" in it.name} - {"also_owns"}
    defined = {it.name for it in found if it.path.endswith(".antt") and "." not in it.name}
    one_of = lambda those: "|".join(map(re.escape, sorted(those))) or "-"
    for path, text in texts.items():
        for it in MEMBER.finditer(text) if path.endswith(".rt") else ():
            of_bounds = {*re.findall(r"\b[A-Z]\w*\.([a-z]\w*)", it[2])}
            members |= {it[1]} if of_bounds and of_bounds <= members else set()
    named = re.compile(rf"\b[A-Z]\w*\.(?:{one_of(members)})\b|(?<![.\w])(?:{one_of(members | defined)})\b(?!\.)")
    for path, text in texts.items():
        for it in sources.functions_in(text) if path.endswith(".rt") else ():
            of_it = it.declared_clauses if it.is_declared_alone else it.clauses
            for clause in of_it:
                empty = next(filter(None, map(named.search, assumed(clause))), None)
                if empty:
                    yield Place(path, it.at + 1, named_as(it), f"a premise of `{clause.name}`: {empty[0]}")


def assumed(clause):
    """What a clause assumes: all of it where it is required, and else what stands before each arrow, back to the bracket that holds it."""
    if clause.word == "requires":
        yield clause.says
    for it in re.finditer(r" → ", clause.says):
        depth, at = 0, it.start()
        while at and depth >= 0:
            at -= 1
            depth += (clause.says[at] in ")}]") - (clause.says[at] in "({[")
        yield re.split(r" → |λ[^.]*\. ", clause.says[at : it.start()])[-1]


def listed(texts):
    """All places in these texts, by their paths, in order."""
    found = [*instances(texts, Names(texts))]
    return sorted({*found, *premises(texts, found)}, key=lambda it: (it.path, it.line, it.why))


def of_tree():
    """Those of the crates' sources and specs."""
    paths = (*sources.files_of_crates(".rt", "src"), *sources.files_of_crates(".antt", "specs"))
    return listed({it: sources.text_of(it) for it in paths})


def without_reason():
    """The places for which checks/constant_relations gives no reason, and how many lines of it name none any more."""
    reasons = {": ".join(it.split(": ")[:2]) for it in sources.lines_of("checks/constant_relations") if it and not it.startswith("#")}
    found = of_tree()
    stale = reasons - {it.key for it in found}
    for it in stale:
        print(f"checks/constant_relations: {it} is constant no more, or is not there")
    return [str(it) for it in found if it.key not in reasons], len(stale)
