"""What the house rules say of the borders between crates: who owns the format, what the specification names, and how much the promise does."""

import os
import re
import sys

from lib import sources
from lib.form.functions import bodies, paths

# The crate that alone knows where each byte of the log lies, and the judges, which reckon for themselves.
OWNERS = {"journal"}
JUDGES = {"abstract_disk", "judging", "hosting", "power_loss", "random_lives", "late_lives", "damage", "worked", "bench"}
# The crates in which the promise is read, lowest first: each names those before it alone.
SPECIFICATION = ("logical_blocks", "scsi", "spec")
# It tells a reader what a sector of either format is, and serves no device.
SHOWS = {"page"}
# The sizes of slots, of descriptors and of the rounds that bring a record home.
PLACES = re.compile(r"\b(?:49|50|248|249)\b|[%/] 3[01]\b|\b3[01] \*|\* 3[01]\b|div_ceil\(30\)|\+ 16 \*")
# What code asks of a format: a match on it, by its first arm, or on a version; what it is equal to; its questions; what a number of it is equal to.
BRANCHES = re.compile(
    r"\bLogFormat::One(?: if .*)? =>|[=!]= LogFormat::|matches!\(.*LogFormat::|\bmatch (?:\w+\.)*version\b|\bversion [=!]= \d"
    r"|\.(?:migrates|lacks_firsts)\(\)|\.(?:flushes|version|limit|slot_sectors)\(\) [=!]="
)
# An equation of a definition for one format, and what is said of one format alone.
EQUATIONS = re.compile(r"^ *\w+(?: [^=≡]*)? (?:LogFormat\.)?(?:One|Two)\b[^=≡]* =(?: |$)")
PREMISES = re.compile(r"\bformat ≡ (?:(?:LogFormat\.)?(?:One|Two)|[12])\b")


def beyond_spec():
    """The lines of the specification, in which the promise is read, that name another crate of ours, or one of its own above."""
    ours, found = {*sources.names_in("crates")}, []
    for path in (*sources.files_of_crates(".rt", "src"), *sources.files_of_crates(".antt", "specs", "proofs")):
        crate = sources.crate_of(path)
        if crate in SPECIFICATION:
            others = ours - {*SPECIFICATION[: SPECIFICATION.index(crate) + 1]}
            for number, line in enumerate(sources.lines_of(path), 1):
                if {*re.findall(r"Rattle\.(\w+)", line), *re.findall(r"\buse (\w+)::", line)} & others:
                    found.append(f"{path}:{number}")
    return found


def names_of_libraries():
    """The modules and types that have the name of a library that their crate stands on: the gate refuses them, and a plain check does not tell."""
    sys.path.insert(0, f"{sources.ROOT}/scripts")
    import crates as ours

    found = []
    for path in paths():
        crate = sources.crate_of(path)
        below = ours.standing(crate)
        of_kit = {it for one in below for it in ours.uses()[one][0].partition(":")[2].split()}
        taken = {"core", "std", *below, *of_kit} - {crate}
        code = "\n".join(it.partition("//")[0] for it in sources.lines_of(path))
        found += [f"{path}: {it}" for it in re.findall(r"\b(?:mod|struct|enum|trait|type)\s+(\w+)", code) if it in taken]
    return found


def lines_matching(pattern, files):
    """The lines of code of these files, comments aside, that match."""
    for path in files:
        if sources.crate_of(path) not in OWNERS | JUDGES | SHOWS:
            code = (re.split("//|--", line)[0].rstrip() for line in sources.lines_of(path))
            yield from (f"{path}:{number}" for number, line in enumerate(code, 1) if pattern.search(line))


def specs():
    return [*sources.files_of_crates(".antt", "specs")]


def reckoned_places():
    """The lines outside the owner of the format that reckon where bytes of the log lie."""
    return [*lines_matching(PLACES, [*paths(), *specs()])]


def in_bodies():
    """The lines that stand in the body of a function."""
    return {f"{it.path}:{n + 1}" for it in bodies() for n in range(it.function.begin, it.function.end)}


def branches_on_format():
    """The branches on the format of a log in code."""
    inside = in_bodies()
    return [it for it in lines_matching(BRANCHES, paths()) if it in inside]


def equations_on_format():
    """The equations of definitions for one format."""
    return [*lines_matching(EQUATIONS, specs())]


def premises_on_format():
    """What clauses and definitions say of one format alone."""
    return [*lines_matching(PREMISES, [*paths(), *specs()])]


def paragraphs(path):
    """The definitions of a file of specs: for each name, the lines of the paragraph in which it stands, comments aside."""
    found, paragraph = {}, []
    for line in [*sources.lines_of(path), ""]:
        if line.strip():
            paragraph += [line] * (not line.strip().startswith("--"))
            continue
        for begins in paragraph:
            named = re.match(r" {0,2}(?:(?:abbrev|unfoldable) pub|pub (?:record|data)) (\w+)", begins)
            if named:
                found[named[1]] = tuple(paragraph)
        paragraph = []
    return found


def definitions_of_spec():
    """The definitions of each module of the specification, and the modules that the names come from which it imports."""
    told, come = {}, {}
    for path in specs():
        if sources.crate_of(path) in SPECIFICATION:
            module = os.path.basename(path).removesuffix(".antt")
            told[module], come[module] = paragraphs(path), {}
            for named in re.findall(rf"^use Rattle\.(?:{'|'.join(SPECIFICATION)})\.specs\.(\w+)\.\{{(.*)\}}", sources.text_of(path), re.M):
                come[module].update({it.strip(): named[0] for it in named[1].split(",")})
    return told, come


def named_by_promise():
    """The lines of the definitions to which IsKept and IsKeptUpTo lead, comments and imports aside."""
    told, come = definitions_of_spec()
    reached, ahead = set(), {("Promise", "IsKept"), ("Promise", "IsKeptUpTo"), ("Disks", "prompt_disk")}
    while ahead:
        module, name = ahead.pop()
        reached.add((module, name))
        for word in {*re.findall(r"\w+", "\n".join(told[module][name]))}:
            at = module if word in told[module] else come[module].get(word)
            if at in told and word in told[at] and (at, word) not in reached:
                ahead.add((at, word))
    return sum(map(len, {(module, told[module][name]): told[module][name] for module, name in reached}.values()))


def names_twice():
    """The names that two files of specs of one crate define."""
    found = {}
    for path in specs():
        for line in sources.lines_of(path):
            if named := re.match(r"(?:abbrev|unfoldable) pub (\w+)|pub (?:record|data) (\w+)", line):
                found.setdefault((sources.crate_of(path), named[1] or named[2]), []).append(os.path.basename(path))
    return [f"crates/{crate}/specs: {name} in {', '.join(paths)}" for (crate, name), paths in found.items() if len(paths) > 1]


def lines_for_one(*names):
    """How many lines of specs and proofs these crates have for a line of source."""
    inside = lambda *files: sum(len(sources.lines_of(it)) - 1 for it in files if sources.crate_of(it) in names)
    return round(inside(*sources.files_of_crates(".antt", "specs", "proofs")) / inside(*paths()), 1)
