"""Reads the crates' sources: which files they have, the functions of a file with their owners, bodies and clauses, and the sentences of a document.

It reads lines as `rt fmt` lays them out, and no grammar."""

import dataclasses
import functools
import os
import re

ROOT = os.path.dirname(os.path.dirname(os.path.dirname(os.path.abspath(__file__))))
FUNCTION = re.compile(r"^( *)(pub(?:\([a-z]+\))? )?(?:unsafe )?(?:const )?(?:extern \"C\" )?fn (\w+)")
OWNER = re.compile(r"(?:pub(?:\([a-z]+\))? )?(impl|trait)\b(.*)")
OPENS = re.compile(r"(\)|-> .*) \{$")
WORDS = ("requires", "ensures")


def text_of(path):
    with open(path, encoding="utf-8") as file:
        return file.read()


def lines_of(path):
    return text_of(path).split("\n")


def names_in(folder):
    return sorted(os.listdir(folder)) if os.path.isdir(folder) else []


def files_below(folder, ending=""):
    """The files below a folder, in order, by their ending."""
    for at, folders, names in os.walk(folder):
        folders.sort()
        yield from (f"{at}/{name}" for name in sorted(names) if name.endswith(ending))


def files_of_crates(ending, *parts):
    """The files of all crates below these folders of theirs, by their ending."""
    for crate in names_in("crates"):
        for part in parts:
            yield from files_below(f"crates/{crate}/{part}", ending)


def crate_of(path):
    """The crate of a file of crates/."""
    return path.split("/")[1]


@dataclasses.dataclass(frozen=True)
class Clause:
    """A clause of a function: `requires` or `ensures`, its name (that word itself where it has none), and what it says, on one line."""

    word: str
    name: str
    says: str


def clauses(lines):
    """The clauses in these lines."""
    begun = None
    for line in [*lines, ""]:
        indent = len(line) - len(line.lstrip())
        if begun is not None and line.strip() and indent > begun[0]:
            begun[1].append(line.strip())
            continue
        if begun is not None:
            word, _, rest = " ".join(begun[1]).partition(" ")
            name, _, says = rest.partition("{")
            yield Clause(word, name.strip() or word, says.rstrip("; "))
        begun = (indent, [line.strip()]) if line.strip().startswith(WORDS) else None


@dataclasses.dataclass(frozen=True)
class Owner:
    """The `impl` or `trait` in which functions stand: which of the two, its line, and the number of that."""

    kind: str
    line: str
    at: int

    @property
    def is_inherent(self):
        """Whether it is an `impl` of no trait, whose functions can stand in another `impl` of the same line."""
        return self.line.startswith("impl") and " for " not in self.line and self.line.endswith("{")

    @property
    def trait(self):
        """The name of the trait, or None where it has none."""
        found = re.match(r"impl(?:<.*?>)? (\w+)(?:<.*>)? for |(?:pub )?trait (\w+)", self.line)
        return found and (found[1] or found[2])

    @property
    def name(self):
        """What a report calls it: the type and the trait behind it, or `trait`."""
        text = OWNER.match(self.line)[2]
        plain = text if self.kind == "impl" else re.match(r"\s*\w*", text)[0]
        while "<" in plain:
            text, plain = plain, re.sub(r"<[^<>]*>", "", plain)
            if text == plain:
                break
        trait, _, of = plain.partition(" where ")[0].rpartition(" for ")
        named = [re.search(r"(\w+)\s*(?:\{.*)?$", it) for it in (of, trait)]
        return "".join(it[1] for it in named if it)


@dataclasses.dataclass(frozen=True)
class Function:
    """A function of a file: the number of its line, the lines before and behind its body (the same where it has none), and its owner or None."""

    name: str
    indent: str
    is_public: bool
    at: int
    begin: int
    end: int
    owner: Owner
    lines: tuple = dataclasses.field(repr=False, compare=False)

    @property
    def header(self):
        return self.lines[self.at]

    @property
    def is_declared_alone(self):
        """Whether it stands in a trait, or is declared with no body."""
        return self.header.rstrip().endswith(";") or bool(self.indent and self.owner and self.owner.kind == "trait")

    @property
    def size(self):
        """The lines of its body."""
        return max(self.end - self.begin - 1, 0)

    @property
    def clauses(self):
        return [*clauses(self.lines[self.at : self.end])]

    @property
    def declared_clauses(self):
        """Those of one in a trait, whose text ends with a semicolon or an empty line."""
        ends = (n for n in range(self.at, len(self.lines)) if self.lines[n].rstrip().endswith(";") or not self.lines[n].strip())
        return [*clauses(self.lines[self.at : next(ends, self.at) + 1])]

    @property
    def first(self):
        """The first line of its comments and attributes."""
        return next((n for n in range(self.at, 0, -1) if not self.lines[n - 1].lstrip().startswith(("//", "#["))), 0)


def body_at(lines, number, indent):
    """The lines before and behind the body of the function at this line; where it has none, they are the same. It ends before the next function of
    its indent, and before the end of what it stands in, behind which a loop's end has the indent of a method's."""
    ends = {indent[:n] + "}" for n in range(len(indent))}
    following = (n for n in range(number + 1, len(lines)) if lines[n] in ends or (it := FUNCTION.match(lines[n])) and it[1] == indent)
    inside = range(number, next(following, len(lines)))
    end = next((n for n in inside if lines[n].rstrip() in (indent + "}", indent + "{}")), number)
    opens = (n for n in range(number, end) if lines[n] == indent + "{" or OPENS.search(lines[n]))
    return next(opens, end), end


@functools.lru_cache(maxsize=None)
def functions_in(text):
    """The functions of a source's text, in order."""
    lines, owner, found = tuple(text.split("\n")), None, []
    for number, line in enumerate(lines):
        begins = OWNER.match(line)
        owner = Owner(begins[1], line, number) if begins else None if line == "}" else owner
        named = FUNCTION.match(line)
        if named:
            indent, public, name = named.groups()
            found.append(Function(name, indent, public == "pub ", number, *body_at(lines, number, indent), owner if indent else None, lines))
    return tuple(found)


def function_around(text, at):
    """The function whose body holds this place of the text, or None."""
    place = text.count("\n", 0, at)
    return next((it for it in functions_in(text) if it.at <= place and it.begin < place < it.end), None)


def prose(path):
    """The lines of a document with their numbers, without tables, headings and what is set apart as code."""
    is_code = False
    for number, line in enumerate(lines_of(path), 1):
        is_code ^= line.startswith("```")
        if not is_code and not re.match(r"\||#|```| {4}", line):
            yield number, line
