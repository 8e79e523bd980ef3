"""The whole file: what is before, the constants, the functions, and the calls of the header."""

import itertools
import os
import re

import forms
import lines

HEAD = f"{os.path.dirname(os.path.abspath(__file__))}/head.c"
# What a call of the header has in its own width: how it goes in, and how it comes back.
EDGE = {"struct usbdisk *": ("(u64)(uintptr_t){0}->at", "{0}->at = (void *)(uintptr_t){0}_;"), "size_t *": ("*{0}", "*{0} = (size_t){0}_;")}


def text_of(path):
    with open(path, encoding="utf-8") as file:
        return file.read()


def write_to(path, text):
    with open(path, "w", encoding="utf-8") as file:
        file.write(text)


def names_of(module):
    """A name of C for each function and each constant, which no other has."""
    names, taken = {}, set()
    for it in module.functions.values():
        base = re.sub(r"\W+", "_", re.sub(r"::<.*", "", it.name.strip('@"'))).strip("_") + ("" if it.is_inner else "_")
        names[it.name] = next(name for name in itertools.chain([base], (f"{base}_{n}" for n in itertools.count(2))) if name not in taken)
        taken.add(names[it.name])
    return {**names, **{it: it[1:].replace(".", "_") for it in module.statics}}


def heading(function, names):
    given = ", ".join(f"{lines.c_type(it.type)} a{n}" for n, it in enumerate(function.parameters))
    return f"static {'APART ' if function.is_inner else ''}{lines.c_type(function.result)} {names[function.name]}({given or 'void'})"


def function_of(function, names):
    """A function of the module as one of C."""
    made, text = lines.Lines(function, names), []
    for label in made.blocks.order:
        *steps, last = made.blocks.steps[label]
        text += [f"{made.labels[label]}:;", *(f"    {it}" for it in map(made.line, steps) if it), *(f"    {it}" for it in made.ending(label, last))]
    phis = [it for label in made.blocks.order for it in made.blocks.steps[label] if it.kind == "phi"]
    before = [f"    {lines.c_type(it.parts['type'])} {made.values[it.parts['to']]};" for it in phis]
    before += [f"    u64 room[{max(1, -(-made.room // 8))}];"] if made.places else []
    before += [f"    (void)a{n};" for n, it in enumerate(function.parameters) if it.name not in made.read]
    name = function.name.strip('@"').replace("*/", "* /")
    return "\n".join([f"/* {name} */", heading(function, names), "{", *before, *shortened(text), "}", ""])


def shortened(text):
    """Without a way to the next line, and without labels that nobody goes to."""
    text = [it for it, after in zip(text, [*text[1:], ""]) if not (re.fullmatch(r" *goto l\d+;", it) and f"{it.strip()[5:-1]}:;" == after)]
    used = set(re.findall(r"goto (l\d+);", "\n".join(text)))
    return [it for it in text if not re.fullmatch(r"l\d+:;", it) or it[:-2] in used]


def constant_of(name, it):
    """A constant. Its last zeros are not told."""
    rows = ", ".join(str(byte) for byte in it.bytes.rstrip(b"\0")) or "0"
    size = max(1, len(it.bytes))
    if it.align == 1:
        return f"static const u8 {name}[{size}] = {{ {rows} }};"
    return f"static const union {{ u8 bytes[{size}]; u64 whole; }} {name}_ = {{ {{ {rows} }} }};\n#define {name} {name}_.bytes"


def prototypes(header):
    """The calls that a header declares: result, name, and type, name and length of each parameter."""
    text = re.sub(r"/\*.*?\*/", "", header, flags=re.S)
    for result, name, given in re.findall(r"^(uint32_t|uint64_t) (usbdisk_\w+)\(([^;]*)\);", text, flags=re.M):
        words = [re.sub(r"\s+", " ", it).strip() for it in given.split(",")]
        yield result, name, [re.match(r"(.*?[ *])(\w+)(\[\d+\])?\Z", it).groups() for it in words if it != "void"]


def export_of(result, name, parameters, function, names):
    """A call of the header. What has eight bytes in the module, and four here, goes in and out by way of a variable."""
    given, before, after = [], [], []
    for (type_, word, _), wanted in zip(parameters, function.parameters, strict=True):
        if type_.strip() in EDGE:
            into, back = (it.format(word) for it in EDGE[type_.strip()])
            before.append(f"    u64 {word}_ = {into};")
            after.append(f"    {back};")
            given.append(f"TO(&{word}_)")
        else:
            given.append(f"TO({word})" if wanted.type == "ptr" else word)
    shown = ", ".join(f"{type_}{word}{many or ''}" for type_, word, many in parameters) or "void"
    call = f"    {result} answer = {names[function.name]}({', '.join(given)});"
    return "\n".join([f"{result} {name}({shown})", "{", *before, call, *after, "    return answer;", "}", ""])


def pairs_of(module):
    """The types of two parts that the module has."""
    kinds = {it.result for it in module.functions.values()}
    for it in (step for function in module.functions.values() for step in function.body if step.kind != "label"):
        kinds |= {it.parts.get("type")}
    for it in sorted(it for it in kinds if it and it[0] == "{" and it != "{ i64, i64 }"):
        pair = forms.pair_of(it)
        yield f"typedef struct {{ {lines.c_type(pair.first)} a; {lines.c_type(pair.second)} b; }} {lines.c_type(it)};"


def write(module, header, stamp):
    """The file."""
    names, functions = names_of(module), module.functions.values()
    calls = [(*it, module.functions.get(f"@{it[1]}") or forms.refuse(f"no {it[1]}")) for it in prototypes(header)]
    if {it.name for it in functions if not it.is_inner} != {f"@{it[1]}" for it in calls}:
        raise forms.Refused("the module has other calls than the header")
    parts = [f"/* {stamp} */", text_of(HEAD), *pairs_of(module), ""]
    bodies = [function_of(it, names) for it in functions]
    read = set(re.findall(r"\bstatic_\d+\b", "\n".join(bodies)))
    parts += [constant_of(names[name], it) for name, it in module.statics.items() if names[name] in read]
    parts += ["", *(f"{heading(it, names)};" for it in functions), "", *bodies]
    return "\n".join([*parts, *(export_of(*it, names) for it in calls)])
