#!/usr/bin/env python3
"""dist/forms.py MODULE.ll: reads a module of LLVM's assembly as dist/module keeps it, and refuses whatever is not on the list below. Those that make
something of the module for other processors (dist/to_ll32) read it by this.

The list is the check. From these traits of a module that passes it follows that it means on 32 bits what it means on 64 (dist/README.md):

  bytes     every address is made by `getelementptr i8` of another one, by a parameter, an alloca, a load or the name of a constant; each place in
            memory is told by its distance in bytes, so that none depends on the width of an address but the second of a pair that is loaded or
            stored as a whole, which has the place that it has on 64 bits (Pair.second_at)
  one way   nothing makes an address of a number; addresses are compared for equality alone. Their number may be asked for (ptrtoaddr)
  known     calls go to functions of the module, by the types that those are defined with, or to the few of OUTSIDE. Nobody takes a function's
            address. No float, no vector, nothing atomic or volatile, no exception, no variable data, no other intrinsic
  whole     each value is made once in a function, and used by the type that it has; each branch goes to a label of the function"""

import collections
import re
import sys

INTEGER = r"i(?:1|8|16|32|64)"
TYPE = rf"(?:{INTEGER}|ptr|\{{ (?:{INTEGER}|ptr), (?:{INTEGER}|ptr) \}})"
VALUE = r"(?:%[\w.]+|-?\d+|true|false|null|@static\.\d+)"
NAME = r'@(?:[\w.]+|"[^"]*")'
PROMISES = r"(?: noundef)?(?: signext| zeroext)?"
ARGUMENT = rf"{TYPE}{PROMISES} {VALUE}"
BYTES_OF = {"i1": 1, "i8": 1, "i16": 2, "i32": 4, "i64": 8, "ptr": 8}
# What is called and not defined: the result, and the parameters.
OUTSIDE = {
    "@llvm.memset.p0.i64": ("void", ("ptr", "i8", "i64", "i1")),
    "@llvm.memmove.p0.p0.i64": ("void", ("ptr", "ptr", "i64", "i1")),
    "@llvm.memcpy.p0.p0.i64": ("void", ("ptr", "ptr", "i64", "i1")),
    "@llvm.ctlz.i64": ("i64", ("i64", "i1")),
    "@llvm.trap": ("void", ()),
    "@rattle_alloc": ("{ i64, i64 }", ("i64", "i64")),
    "@rattle_realloc": ("{ i64, i64 }", ("ptr", "i64", "i64", "i64")),
    "@rattle_dealloc": ("void", ("ptr",)),
}


class Refused(Exception):
    """The module has what is not on the list."""


# A form of instruction: its name, its line, the type of what it makes and what it uses, each by a type or by the name of the part that tells it.
Form = collections.namedtuple("Form", "kind line makes uses")
# An instruction: its kind, its parts by their names, and its line. A label is one, of the kind "label", with the part "to".
Step = collections.namedtuple("Step", "kind parts text")
Static = collections.namedtuple("Static", "bytes align text")
# What the file tells beside constants and functions (declarations and attributes) is in `rest`, as lines.
Module = collections.namedtuple("Module", "statics functions rest")
Parameter = collections.namedtuple("Parameter", "type name")


def form(kind, line, makes="", uses=""):
    """A row of the list. In its line TO, TYPE, INTEGER and VALUE stand for what they are, and <NAME:..> is a part."""
    line = re.sub(r"<(\w+):", r"(?P<\1>", line).replace("TO", r"(?P<to>%[\w.]+)")
    for word, meant in (("TYPE", TYPE), ("INTEGER", INTEGER), ("VALUE", VALUE), ("NAME", NAME), ("PROMISES", PROMISES)):
        line = re.sub(rf"\b{word}\b", lambda _, meant=meant: meant, line)
    return Form(kind, re.compile(line), makes, tuple(it.split() for it in uses.split(", ") if it))


# Promises that a line makes beside what it does (nuw, inbounds) are read over.
FORMS = tuple(form(*it) for it in (
    ("alloca", r"TO = alloca <type:\[\d+ x i8\]|INTEGER|ptr), align <align:\d+)", "ptr"),
    ("load", r"TO = load <type:TYPE), ptr <at:VALUE), align <align:\d+)", "type", "ptr at"),
    ("store", r"store <type:TYPE) <value:VALUE), ptr <at:VALUE), align <align:\d+)", "", "type value, ptr at"),
    ("getelementptr", r"TO = getelementptr (?:inbounds |nuw |nusw )*i8, ptr <at:VALUE), i64 <distance:VALUE)", "ptr", "ptr at, i64 distance"),
    ("binary", r"TO = <operator:add|sub|mul|udiv|urem|and|or|xor|shl|lshr) (?:nuw |nsw |exact |disjoint )*<type:INTEGER) <one:VALUE), <two:VALUE)",
     "type", "type one, type two"),
    ("ptrtoaddr", r"TO = ptrtoaddr ptr <value:VALUE) to i64", "i64", "ptr value"),
    ("cast", r"TO = <operator:zext|trunc) (?:nneg |nuw |nsw )*<from:INTEGER) <value:VALUE) to <type:INTEGER)", "type", "from value"),
    ("icmp", r"TO = icmp (?:samesign )?<test:eq|ne|[us][lg][te]) <type:INTEGER|ptr) <one:VALUE), <two:VALUE)", "i1", "type one, type two"),
    ("extractvalue", r"TO = extractvalue <type:TYPE) <value:VALUE), <place:[01])", "part", "type value"),
    ("insertvalue", r"TO = insertvalue <type:TYPE) <value:VALUE|undef|poison), <part:INTEGER|ptr) <given:VALUE), <place:[01])", "type",
     "type value, part given"),
    ("call", r"(?:TO = )?(?:tail )?callPROMISES <type:void|TYPE) <name:NAME)\(<given:.*)\)(?: #\d+)?".replace("PROMISES", PROMISES), "type"),
    ("goto", r"br label <label:%[\w.]+)"),
    ("if", r"br i1 <value:VALUE), label <yes:%[\w.]+), label <no:%[\w.]+)", "", "i1 value"),
    ("switch", r"switch <type:INTEGER) <value:VALUE), label <otherwise:%[\w.]+) \[<arms:(?:\s+INTEGER -?\d+, label %[\w.]+)*)\s*\]",
     "", "type value"),
    ("ret", r"ret (?:void|<type:TYPE) <value:VALUE))", "", "type value"),
    ("unreachable", r"unreachable"),
))
LINKAGE = r"((?:internal |dso_local |hidden )*)(?:noundef )?(?:signext |zeroext )?"
DEFINE = re.compile(rf"define {LINKAGE}(void|{TYPE}) ({NAME})\((.*)\)(?: unnamed_addr)?(?: #\d+)? \{{")
PARAMETER = re.compile(rf"({TYPE}){PROMISES} (%[\w.]+)")
STATIC = re.compile(r'(@static\.\d+) = private unnamed_addr constant \[(\d+) x i8\] (?:c"(.*)"|zeroinitializer), align (\d+)')
# Lines that say nothing of what the program does, but for what they promise of it.
PROMISE = r"(?:nounwind|noinline|alwaysinline|inlinehint|nobuiltin|nocallback|nofree|nosync|speculatable|willreturn|cold|noreturn|memory\([\w: ]+\))"
IDLE = re.compile(rf"|;.*|source_filename = .*|target (?:datalayout|triple) = .*|attributes #\d+ = \{{ {PROMISE}(?: {PROMISE})* \}}|![\w.]+ = .*")
DECLARE = re.compile(rf"declare (?:void|{TYPE}|\[2 x i64\]) ({NAME})\((?:(?:{TYPE})[\w ()]*(?:, (?:{TYPE})[\w ()]*)*)?\)(?: #\d+)?")
METADATA = re.compile(r"(?:, !(?:noundef|range) !\d+)+\Z")
PAIR = re.compile(r"\{ (\w+), (\w+) \}")


class Pair:
    """A type of two parts, at the places that they have on 64 bits."""

    def __init__(self, text):
        self.first, self.second = PAIR.fullmatch(text).groups()
        size = BYTES_OF[self.second]
        self.second_at = -(-BYTES_OF[self.first] // size) * size


def pair_of(text):
    """The pair that a type is, or None."""
    return Pair(text) if PAIR.fullmatch(text) else None


class Function:
    """A function of the module: its heading is its first line. It is inner where no other file calls it."""

    def __init__(self, line):
        found = DEFINE.fullmatch(line) or refuse(line)
        linkage, self.result, self.name, given = found.groups()
        self.is_inner, self.heading, self.body = "internal" in linkage, line, []
        words = re.split(r", (?=(?:i\d+|ptr|\{)\b)", given) if "{" not in given else refuse(line)
        self.parameters = [Parameter(*(PARAMETER.fullmatch(it) or refuse(line)).groups()) for it in words if it]


def refuse(line):
    raise Refused(f"not on the list: {line.strip()[:160]}")


def arguments_of(step):
    """The type and the value of each argument of a call."""
    text = step.parts["given"]
    if text and not re.fullmatch(rf"{ARGUMENT}(?:, {ARGUMENT})*", text):
        refuse(step.text)
    return re.findall(rf"({TYPE}){PROMISES} ({VALUE})(?:, |\Z)", text)


def arms_of(step):
    """The numbers of a switch, each with its label."""
    return re.findall(r"i\d+ (-?\d+), label (%[\w.]+)", step.parts.get("arms", ""))


def step_of(line, forms=FORMS):
    """An instruction, of its line."""
    # (words that come back from C are two of an array in a module that was made for AArch64, and a pair in one for x86-64)
    text = line.replace("[2 x i64]", "{ i64, i64 }")
    text = METADATA.sub("", text.strip())
    for it in forms:
        found = it.line.fullmatch(text)
        if found:
            return Step(it.kind, found.groupdict(), line)
    return refuse(line)


def bytes_of(text, size):
    """The bytes of a constant."""
    if text is None:
        return bytes(size)
    made = re.sub(rb"\\([0-9A-Fa-f]{2})", lambda it: bytes([int(it[1], 16)]), text.encode())
    if len(made) != size:
        raise Refused(f"a constant of {size} bytes has {len(made)}")
    return made


def lines_of(path):
    """The lines of a module; a switch is one of them. Without what a comment tells."""
    with open(path, encoding="utf-8") as file:
        text = re.sub(r"\s*; (?:preds = .*|No predecessors!)$", "", file.read(), flags=re.M)
    return re.sub(r"^\s+switch [^\]]*\[[^\]]*\]$", lambda it: re.sub(r"\s*\n\s*", " ", it[0]), text, flags=re.M).split("\n")


def read(path, forms=FORMS, outside=None):
    """The module of a file. Raises Refused. A maker may understand more: other forms, more that is outside."""
    module, at = Module({}, {}, []), None
    for line in map(str.rstrip, lines_of(path)):
        if at is not None and line != "}":
            if line:
                at.body.append(Step("label", {"to": f"%{line[:-1]}"}, line) if re.fullmatch(r"[\w.]+:", line) else step_of(line, forms))
        elif line.startswith("define "):
            at = Function(line)
            if module.functions.setdefault(at.name, at) is not at:
                raise Refused(f"{at.name} is defined twice")
        elif line.startswith("@"):
            found = STATIC.fullmatch(line) or refuse(line)
            module.statics[found[1]] = Static(bytes_of(found[3], int(found[2])), int(found[4]), line)
        elif line == "}" and at is not None:
            at = None
        else:
            found = DECLARE.fullmatch(line)
            is_known = found[1] in (outside or OUTSIDE) if found else IDLE.fullmatch(line)
            module.rest.append(line if is_known else refuse(line))
    for it in module.functions.values():
        check(it, module, {it.kind: it for it in forms}, outside or OUTSIDE)
    return module


def made_by(step, forms):
    """The type of the value that an instruction makes, or None."""
    if not step.parts.get("to"):
        return None
    makes = forms[step.kind].makes
    if step.kind == "extractvalue":
        pair = pair_of(step.parts["type"]) or refuse(step.text)
        return pair.second if step.parts["place"] == "1" else pair.first
    return step.parts.get(makes, makes)


def used_by(step, forms):
    """The values that an instruction uses, each with the type that it is used by."""
    if step.kind == "call":
        return arguments_of(step)
    known = step.parts
    return [(known.get(kind, kind), known[value]) for kind, value in forms[step.kind].uses if known[value] not in (None, "undef", "poison")]


def labels_of(step):
    """The labels that a branch may go to."""
    return [step.parts[it] for it in ("label", "yes", "no", "otherwise") if it in step.parts] + [it for _, it in arms_of(step)]


def check(function, module, forms, outside):
    """Each value has one type, each call is by the types of what is called, each label is there."""
    types = {it.name: it.type for it in function.parameters}
    steps = [it for it in function.body if it.kind != "label"]
    labels = [it.parts["to"] for it in function.body if it.kind == "label"]
    for it in steps:
        made = made_by(it, forms)
        if made and types.setdefault(it.parts["to"], made) != made:
            raise Refused(f"{function.name}: {it.parts['to']} is made by two types")
    made = [it.parts["to"] for it in steps if it.parts.get("to")] + labels + [it.name for it in function.parameters]
    if len(set(made)) != len(made):
        raise Refused(f"{function.name}: a name is made twice")
    for it in steps:
        if it.kind == "call":
            check_call(it, function, module, outside)
        for wanted, value in used_by(it, forms):
            if not fits(value, wanted, types, module):
                raise Refused(f"{function.name}: {value} is not {wanted}: {it.text.strip()[:120]}")
        if not set(labels_of(it)) <= set(labels):
            raise Refused(f"{function.name}: there is no such label: {it.text.strip()[:120]}")
        if it.kind == "ret" and (it.parts["type"] or "void") != function.result:
            raise Refused(f"{function.name}: it returns another type")
        if it.kind == "icmp" and it.parts["type"] == "ptr" and it.parts["test"] not in ("eq", "ne"):
            raise Refused(f"{function.name}: addresses in an order: {it.text.strip()[:120]}")


def fits(value, wanted, types, module):
    """Whether a value has this type."""
    if value.startswith("%"):
        return types.get(value) == wanted
    if value in ("true", "false"):
        return wanted == "i1"
    if value == "null" or value.startswith("@"):
        return wanted == "ptr" and (value == "null" or value in module.statics)
    return wanted.startswith("i")


def check_call(step, function, module, outside):
    name, result = step.parts["name"], step.parts["type"]
    given = tuple(it for it, _ in arguments_of(step))
    to = module.functions.get(name)
    wanted = (to.result, tuple(it.type for it in to.parameters)) if to else outside.get(name)
    if wanted != (result, given) or (step.parts["to"] is None) != (result == "void"):
        raise Refused(f"{function.name}: a call of {name} by {result} {given}, which is {wanted}")


def main(path):
    try:
        module = read(path)
    except Refused as it:
        return f"refused: {it}"
    steps = sum(step.kind != "label" for it in module.functions.values() for step in it.body)
    print(f"accepted: {len(module.functions)} functions, {steps} instructions, {len(module.statics)} constants")
    return 0


if __name__ == "__main__":
    ended = main(*sys.argv[1:])
    sys.exit(f"dist/forms.py: {ended}" if isinstance(ended, str) else ended)
