"""What the house rules say of documents: widths, sentences, and the version that all places tell."""

import re

from lib import sources

WIDTH = 100
LONG = 25
CODE = re.compile(r" {4}")


def documents():
    """All documents of the repository."""
    return sorted(it.removeprefix("./") for it in sources.files_below(".", ".md") if not it.startswith("./.git/") and "/out/" not in it)


def words(path):
    return len(sources.text_of(path).split())


def wide_prose():
    """The lines of prose over the width. Tables cannot be wrapped, and code is counted by itself."""
    return [f"{path}:{number}" for path in documents() for number, line in sources.prose(path) if len(line) > WIDTH]


def wide_code():
    """The lines that are set apart as code, over the width."""
    found = []
    for path in documents():
        is_code = False
        for number, line in enumerate(sources.lines_of(path), 1):
            is_code ^= line.startswith("```")
            if (is_code or CODE.match(line)) and len(line) > WIDTH:
                found.append(f"{path}:{number}")
    return found


def in_prose():
    """The documents in which a bound on words holds. CHANGELOG.md grows with each version, and is left out. With its 4,322 words the documents of
    commit 266acf9d had 61,536, the number by which the goal of 40,000 was set."""
    return [it for it in documents() if it != "CHANGELOG.md"]


def words_in_all():
    return sum(words(it) for it in in_prose())


def sentences_of(lines):
    """The sentences of these lines of prose, as lists of words. An empty line ends one, and so does the next point of a list."""
    text = "\n".join(re.sub(r"^ *(?:[-*]|\d+\.) +", "\n", line) for line in lines)
    return [one.split() for part in re.split(r"\n\s*\n", text) for one in re.split(r"(?<=[.?!])[*\"')]*\s+", part)]


def sentences(path):
    """The sentences of a document of three words or more, those in the first cell of a table's row among them."""
    rows = [it.split("|")[1] for it in sources.lines_of(path) if re.match(r"\| [^|]*\. \|", it)]
    prose = [line for _, line in sources.prose(path)]
    return [it for it in [*(one for row in rows for one in sentences_of([row])), *sentences_of(prose)] if len(it) > 2]


def words_a_sentence(path):
    """How many words a sentence of a document has in the mean."""
    sizes = [len(it) for it in sentences(path)]
    return round(sum(sizes) / len(sizes), 1)


def long_sentences():
    """The sentences of more than 25 words."""
    return [f"{path}: {len(it)} words: {' '.join(it[:8])} .." for path in in_prose() for it in sentences(path) if len(it) > LONG]


# The places that tell the version. The library's number has a byte for each of the last two.
VERSIONS = {
    "include/usbdisk.h": r"#define USBDISK_VERSION (\w+)u",
    "crates/usbdisk_c/src/codes.rt": r"const VERSION: u32 = (\w+);",
    "crates/usbdisk_c/specs/Codes.antt": r"\nVERSION = (\w+)",
    "crates/usbdisk/src/images/program.rt": r'const VERSION: .*"usbdisk_image ([\d.]+)',
    "crates/usbdisk/specs/images/Program.antt": r'"usbdisk_image ([\d.]+)"',
    "rust/usbdisk/src/lib.rs": r"const VERSION: u32 = (\w+);",
    "rust/usbdisk/Cargo.toml": r'\nversion = "([\d.]+)\.0"',
}


def other_versions():
    """The places that tell another version than the first heading of CHANGELOG.md."""
    version = next(it.split()[1].rstrip(",") for it in sources.lines_of("CHANGELOG.md") if it.startswith("## "))
    first, second, third = (int(it) for it in [*version.split("."), "0"][:3])
    number = (first << 16) + (second << 8) + third
    told = {path: re.search(text, sources.text_of(path)) for path, text in VERSIONS.items()}
    return [path for path, it in told.items() if not it or (it[1] != version if "." in it[1] else int(it[1], 0) != number)]
