"""Looks in C sources for what is hard to read: conditionals within conditionals, and comma operators.

It reads words and brackets, and no grammar: a comma separates declarators where a statement begins as a declaration does, arguments where a
bracket stands behind a name, and entries within braces. Every other comma is an operator. Lines of the preprocessor are left out."""

import dataclasses
import re

from lib import sources

SKIPPED = re.compile(r"/\*.*?\*/|//[^\n]*|^[ \t]*#(?:[^\n]*\\\n)*[^\n]*", re.S | re.M)
TOKEN = re.compile(r"\s+|(\"(?:\\.|[^\"\\])*\"|'(?:\\.|[^'\\])*'|\w+|->|[-+*/%&|^=<>!]=|&&|\|\||<<|>>|\+\+|--|.)", re.S)
CLOSES = {"(": ")", "[": "]", "{": "}"}
# What a bracket stands behind that holds one expression.
HEADS = {"if", "while", "switch", "return", "case", "for", "do", "else"}
TYPES = set("auto char const double enum extern float int long short signed static struct typedef union unsigned void volatile _Bool".split())


@dataclasses.dataclass(frozen=True)
class Word:
    text: str
    line: int


@dataclasses.dataclass(frozen=True)
class Group:
    """Brackets, with all between them."""

    text: str
    line: int
    inside: tuple


def words_of(text):
    """The words of a source with the numbers of their lines."""
    text = SKIPPED.sub(lambda it: "\n" * it[0].count("\n"), text)
    line = 1
    for it in TOKEN.finditer(text):
        if it[1]:
            yield Word(it[1], line)
        line += it[0].count("\n")


def tree_of(text):
    """The words with what is in brackets in groups."""
    open_ones = [[None, []]]
    for it in words_of(text):
        if it.text in CLOSES:
            open_ones.append([it, []])
        elif it.text in CLOSES.values() and len(open_ones) > 1:
            begun, inside = open_ones.pop()
            open_ones[-1][1].append(Group(begun.text, begun.line, tuple(inside)))
        else:
            open_ones[-1][1].append(it)
    return tuple(open_ones[0][1])


def split(items, *marks):
    """These items in parts, at marks."""
    part = []
    for it in items:
        if isinstance(it, Word) and it.text in marks:
            yield part
            part = []
        else:
            part.append(it)
    yield part


def groups_in(items):
    return [it for it in items if isinstance(it, Group)]


def count(items, mark):
    """How often a mark stands in these items, brackets and all."""
    return sum(count(it.inside, mark) if isinstance(it, Group) else it.text == mark for it in items)


def nested_conditionals(items):
    """The lines of the conditionals that have another one in them."""
    for part in split(items, ",", ";"):
        asks = [it for it in part if isinstance(it, Word) and it.text == "?"]
        if asks and count([it for it in part if not is_block(it)], "?") > 1:
            yield asks[0].line
        else:
            for it in groups_in(part):
                yield from nested_conditionals(it.inside)


def is_block(it):
    return isinstance(it, Group) and it.text == "{"


def is_declaration(part):
    """Whether these words begin as a declaration does: by a word of a type, or two names with nothing but stars between them."""
    names = [it.text for it in part if isinstance(it, Word)][:4]
    if not names or names[0] in TYPES:
        return bool(names)
    behind = [it for it in names[1:] if it != "*"]
    return bool(re.fullmatch(r"[A-Za-z_]\w*", names[0])) and names[0] not in HEADS and bool(behind) and bool(re.fullmatch(r"[A-Za-z_]\w*", behind[0]))


def commas(part):
    """The lines of the commas between these words, brackets aside."""
    return [it.line for it in part if isinstance(it, Word) and it.text == ","]


def comma_operators(items, is_list=False):
    """The lines of the comma operators of a block, or of brackets, whose own commas separate where it is a list."""
    for part in split(items, ";"):
        statement = [] if is_list else statement_of(part)
        if not is_declaration(statement):
            yield from commas(statement)
        for before, it in zip([None, *part], part):
            if isinstance(it, Group):
                yield from comma_operators(it.inside, is_list_behind(before, it))


def statement_of(part):
    """The words of the statement that ends here, without the heads of other statements, the blocks and the labels before it."""
    found = []
    for before, it in zip([None, *part], part):
        word, was = text_of(it), text_of(before)
        is_head = word in ("else", "do") or isinstance(it, Group) and was in HEADS - {"return", "case"}
        is_label = word == ":" and (text_of(found[0]) in ("case", "default") if found else False)
        is_body = is_block(it) and (isinstance(before, Group) or was in ("", "else", "do"))
        found = [] if is_head or is_label or is_body else [*found, it]
    return found


def text_of(it):
    """The text of a word, and nothing of a group."""
    return it.text if isinstance(it, Word) else ""


def is_list_behind(before, group):
    """Whether the commas of a group separate: arguments, parameters, entries of an array, a record or an enumeration."""
    if group.text == "{":
        return not any(isinstance(it, Word) and it.text == ";" for it in group.inside)
    if group.text == "[" or before is None:
        return False
    return isinstance(before, Group) or bool(re.fullmatch(r"\w+", before.text)) and before.text not in HEADS


def found_in(path):
    """The lines of a file with nested conditionals, and those with comma operators."""
    items = tree_of(sources.text_of(path))
    return sorted({*nested_conditionals(items)}), sorted({*comma_operators(items)})
