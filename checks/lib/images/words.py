"""The words of a command: those that are refused, and the launchers at the root, which refuse the same ones at once and hand the others on."""

import os
import shutil

from lib.programs import ROOT, Ran, write_file
from lib.told import BAD_WORDS

REFUSED = (
    "",
    " ".join(map(str, range(1, 201))),
    "make",
    "make a.img --blocks 9 --slots 1",
    "make a.img --slots 1 --blocks 9 --format 2",
    "make -a.img --blocks 9 --slots 1 --format 2",
    "make a.img --blocks 09 --slots 1 --format 2",
    "make a.img --blocks 9 --slots 1 --format 3",
    "make a.img --blocks 9 --slots 1 --format 2 --force",
    "make a.img --blocks 9 --slots 1 --format 2 --align",
    "make a.img --blocks 9 --slots 1 --format 2 --align --replace",
    "make a.img --blocks 9 --slots 1 --format 2 --replace --align 4K",
    "make a.img --blocks 9 --slots 1 --align 4K --format 2",
    "make a.img --blocks 9 --slots 1 --format 2 --align 4K --force",
    "make a.img --blocks 9 --slots 1 --format 2 --align 4K --align 4K",
    *(f"make a.img --blocks 9 --slots 1 --format 2 --align {it}" for it in ("K", "4k", "4KB", "4G", "04K", "0.5K", "-4K", "4KK", "4294967296")),
    "import a b --slots 1 --format 1 --align 4K",
    "--help me",
    "show",
    "show -a",
    "show a b",
    "migrate",
    "migrate -a",
    "export a",
    "export a -b",
    "export -a b",
    "export a b c",
    "export a b --replace c",
    "import a b",
    "import a b --slots 1",
    "import a b --format 1 --slots 1",
    "import a b --slots 1 --format 3",
    "import a b --slots 01 --format 1",
    "import -a b --slots 1 --format 1",
    "import a -b --slots 1 --format 1",
    "import a b --slots 1 --format 1 --force",
)
# Each good command, which is tried with one word gone, twice there, or another.
GOOD = (
    "show no.img",
    "migrate no.img",
    "export no.img no.raw",
    "export no.img no.raw --replace",
    "import no.raw no.img --slots 1 --format 1",
    "import no.raw no.img --slots 6 --format 2 --replace",
    "make no/a.img --blocks 9 --slots 1 --format 1",
    "make no/a.img --blocks 0 --slots 6 --format 2 --replace",
    "make no/a.img --blocks 9 --slots 6 --format 2 --align 4096",
    "make no/a.img --blocks 9 --slots 6 --format 2 --align 64K --replace",
)
OTHERS = ("-x", "--replace", "--slots", "--format", "--align", "0", "3", "09", "1x", "4K", "K")
# The status of what the launchers are given in place of the program.
HANDED_ON = 77
LAUNCHERS = ("usbdisk", "usbdisk_image", "usbdisk_live")
LEFT_OUT = BAD_WORDS.err + b"usbdisk_image: a word is left out at the end, a file's name in UTF-8; usbdisk_image --help tells the commands\n"
# What is asked of a launcher, and the words that the program gets behind its name.
HANDED = (
    ("usbdisk run a b", "run a b"),
    ("usbdisk image show a", "image show a"),
    ("usbdisk live a --packet 64", "live a --packet 64"),
    ("usbdisk_image show a", "image show a"),
    ("usbdisk_live a --packet 64", "live a --packet 64"),
)


def refuse_words(tool):
    for words in REFUSED:
        tool.ends([*tool.image, *words.split()], BAD_WORDS, f"the words '{words[:100]}'")


def changed(words):
    """The words themselves, and with each in turn gone, twice there, or another."""
    yield words
    for at, word in enumerate(words):
        for others in ((), (word, word), *((it,) for it in OTHERS)):
            yield (*words[:at], *others, *words[at + 1 :])


def copy_launchers():
    """The launchers at the root, with another program behind them, which tells its words."""
    for path in (*LAUNCHERS, "scripts/words", "crates/usbdisk/src/images/program.rt"):
        os.makedirs(os.path.dirname(f"copy/{path}"), exist_ok=True)
        shutil.copy(f"{ROOT}/{path}", f"copy/{path}")
    write_file("copy/scripts/launch", f'#!/bin/sh\necho "$@"\nexit {HANDED_ON}\n'.encode())
    os.chmod("copy/scripts/launch", 0o755)


def agree_on_words(tool):
    """The launcher answers these words at once where the program refuses them as words, and hands all others on."""
    copy_launchers()
    for line in GOOD:
        for words in changed(line.split()):
            is_bad = tool.run([*tool.image, *words]).err.startswith(BAD_WORDS.err)
            wanted = BAD_WORDS.status if is_bad else HANDED_ON
            tool.expect(tool.run(["copy/usbdisk_image", *words]).status == wanted, f"the launcher is to end with {wanted}: {' '.join(words)}")


def hand_on_words(tool):
    """The launchers hand the same words on to one program, where they are no refused ones."""
    for words, handed in HANDED:
        launcher, *rest = words.split()
        wanted = Ran(HANDED_ON, f"usbdisk {handed}\n".encode(), b"")
        tool.ends([f"copy/{launcher}", *rest], wanted, f"{words}: the launcher hands other words on")
    tool.ends(["copy/usbdisk", "image", "show"], Ran(2, b"", LEFT_OUT), "usbdisk image refuses what usbdisk_image does")
