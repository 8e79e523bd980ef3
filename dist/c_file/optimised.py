"""The module as LLVM's -Os leaves it, and what is understood of it: the forms of forms.py at every width up to 64 bits, and those below.

The compiler keeps what the module means on a processor of 64 bits. That of RISC-V has no vectors and no forms of its own. Words that promise more
than the plain instruction does are taken off; the alignment of what is copied or filled stays."""

import itertools
import re
import subprocess

import forms

WORDS = ["--target=riscv64-unknown-elf", "-Os", "-Wno-override-module", "-mllvm", "-switch-to-lookup=false", "-S", "-emit-llvm", "-x", "ir"]
# Each width. None is above 64.
WIDTH = r"i(?:[1-9]|[1-5]\d|6[0-4])"
PROMISE = re.compile(
    r"(?<=[ (])(?:fastcc|local_unnamed_addr|noundef|nonnull|noalias|nofree|readonly|writeonly|readnone|returned|immarg|nocapture|signext|zeroext|"
    r"captures\([^()]*\)|range\([^()]*\)|(?:dereferenceable|dereferenceable_or_null)\(\d+\)|initializes\((?:\([^()]*\)(?:, )?)+\)) "
)
# A pair that is known. No part of one is an address but null.
PART = r"\w+ (?:-?\d+|true|false|null|undef|poison)"
CONSTANT = rf"(?:undef|poison|zeroinitializer|\{{ {PART}, {PART} \}})"
ALIGN = r"(?: align <{}:\d+))?"
MORE = tuple(forms.form(*it) for it in (
    ("load", r"TO = load <type:INTEGER), ptr <at:VALUE), align <align:\d+)", "type", "ptr at"),
    ("store", r"store <type:INTEGER) <value:VALUE), ptr <at:VALUE), align <align:\d+)", "", "type value, ptr at"),
    ("phi", r"TO = phi <type:TYPE) <incoming:\[ .+ \])", "type"),
    ("select", r"TO = select i1 <test:VALUE), <type:TYPE) <one:VALUE|undef|poison), TYPE <two:VALUE|undef|poison)", "type",
     "i1 test, type one, type two"),
    ("insert", rf"TO = insertvalue <type:TYPE) <base:{CONSTANT}), <part:INTEGER|ptr) <given:VALUE), <place:[01])", "type", "part given"),
    ("return", rf"ret <type:TYPE) <base:{CONSTANT})", "type"),
    ("freeze", r"TO = freeze <type:TYPE) <value:VALUE)", "type", "type value"),
    ("inttoptr", r"TO = inttoptr i64 <value:VALUE) to ptr", "ptr", "i64 value"),
    ("ptrtoaddr", r"TO = ptrtoint ptr <value:VALUE) to i64", "i64", "ptr value"),
    ("sext", r"TO = sext <from:INTEGER) <value:VALUE) to <type:INTEGER)", "type", "from value"),
    ("lifetime", r"(?:tail )?call void @llvm\.lifetime\.<what:start|end)\.p0\(ptr <at:VALUE)\)(?: #\d+)?", "", "ptr at"),
    ("copy", rf"(?:tail )?call void @llvm\.<what:memcpy|memmove)\.p0\.p0\.i64\(ptr{ALIGN.format('to_align')} <at:VALUE), "
     rf"ptr{ALIGN.format('align')} <source:VALUE), i64 <size:VALUE), i1 false\)(?: #\d+)?", "", "ptr at, ptr source, i64 size"),
    ("fill", rf"(?:tail )?call void @llvm\.memset\.p0\.i64\(ptr{ALIGN.format('align')} <at:VALUE), i8 <byte:VALUE), "
     r"i64 <size:VALUE), i1 false\)(?: #\d+)?", "", "ptr at, i8 byte, i64 size"),
    ("funnel", r"TO = (?:tail )?call INTEGER @llvm\.fsh<way:l|r)\.i\d+\(<type:INTEGER) <one:VALUE), INTEGER <two:VALUE), "
     r"INTEGER <three:[1-9]\d*)\)(?: #\d+)?", "type", "type one, type two, type three"),
))


def widened(row):
    """A row of the list, for each width."""
    return row._replace(line=re.compile(row.line.pattern.replace(forms.INTEGER, WIDTH)))


# (no address is read or written: it is a number in memory)
FORMS = tuple(map(widened, (*MORE, *(it for it in forms.FORMS if it.kind not in ("load", "store")))))
ROWS = {it.kind: it for it in FORMS}


def outside():
    """What is called and not defined, beside what forms.py has."""
    known = {name: row for name, row in forms.OUTSIDE.items() if name in ("@llvm.trap", "@rattle_alloc", "@rattle_dealloc")}
    for kind in ("i8", "i16", "i32", "i64"):
        known.update({f"@llvm.{it}.{kind}": (kind, (kind, kind)) for it in ("umin", "umax", "usub.sat")})
        known[f"@llvm.ctlz.{kind}"] = (kind, (kind, "i1"))
    return known | {f"@llvm.bswap.{it}": (it, (it,)) for it in ("i16", "i32", "i64")}


# What is known of a constant's address, in a line that uses it.
INSIDE = re.compile(r"ptrto(?:addr|int) \(ptr (@static\.\d+) to i64\)|getelementptr (?:inbounds |nuw |nusw )*\(i8, ptr (@static\.\d+), i64 (\d+)\)")


def apart(line, names):
    """A line that makes an address out of a constant's in its middle, as two. (That of a phi would be made elsewhere.)"""
    before = []
    while " = phi " not in line and (found := INSIDE.search(line)):
        name = f"%k{next(names)}"
        before.append(f"  {name} = ptrtoaddr ptr {found[1]} to i64" if found[1] else f"  {name} = getelementptr i8, ptr {found[2]}, i64 {found[3]}")
        line = line[: found.start()] + name + line[found.end() :]
    return "\n".join([*before, line])


def plain(text):
    """The text of a module without promises, its names without quotes. (What is called is looked up where it is called: `outside`.)"""
    text, known = re.sub(r" ; (?:preds = .*|No predecessors!)$|^(?:declare|attributes) .*$", "", text, flags=re.M), {}
    text = re.sub(r'%(?:"[^"]*"|[\w.]+-[\w.-]+)', lambda it: known.setdefault(it[0], f"%q{len(known)}"), text)
    text = re.sub(r'^(?:"[^"]*"|[\w.]+-[\w.-]+)(?=: *$)', lambda it: known.setdefault(f"%{it[0]}", f"%q{len(known)}")[1:], text, flags=re.M)
    names = itertools.count()
    lines = (apart(PROMISE.sub("", it) if re.search(r"\b(?:call|define)\b", it) else it, names) for it in text.split("\n"))
    # (a switch may stand behind others; the alignment of an argument is told to copies and fills alone)
    return "\n".join(it if "@llvm.mem" in it else re.sub(r"\bptr align \d+(?= %| @)", "ptr", it) for it in lines)


def optimise(clang, path, to):
    """Writes the module as -Os leaves it."""
    subprocess.run([clang, *WORDS, path, "-o", to], check=True)


def incoming(step):
    """What a phi takes: each value with the label that it comes from."""
    text = step.parts["incoming"]
    one = rf"\[ ({forms.VALUE}|{CONSTANT}), (%[\w.]+) \]"
    return re.findall(one, text) if re.fullmatch(rf"{one}(?:, {one})*", text) else forms.refuse(step.text)
