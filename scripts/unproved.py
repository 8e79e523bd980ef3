"""The program `usbdisk`, and the static libraries, built WITHOUT A PROOF: for whoever works on texts and programs, two to five minutes behind a change.

They are compiled as the judges are (judges.py), from sources with tests where a proof would have shown that nothing goes wrong. No proof covers them, and
so nothing takes them for proved ones: they lie in a folder of their own, have names of their own, and no sum stands beside them. What they were made
of stands in one file of that folder, which only this file reads."""

import fcntl
import hashlib
import importlib.machinery
import importlib.util
import os
import re
import shutil
import subprocess
import sys
import tempfile

sys.dont_write_bytecode = True
import crates
import judges

FOLDER = f"{crates.ROOT}/out/unproved"
# What is built, by the crate that it is of.
BUILT = {"usbdisk": "usbdisk_unproved", "usbdisk_c": "libusbdisk_c_unproved.a", "page": "page_unproved.ll"}
# The toolchain makes a module of a program alone. This one is never run: it calls each export, so that the module has it.
MAIN = """
use std::process::ExitCode;

fn none<T>() -> T {{
    none()
}}

fn main(rt: HostRuntime) -> ExitCode {{
{calls}    ExitCode::from(0)
}}
"""
# A clang that keeps the module, and ends this run of the toolchain.
KEEPS = """#!/bin/sh
case " $* " in
*" -fsanitize=address "*) ;;
*) exec "{real}" "$@" ;;
esac
cp module.bc "{made}"
exit 1
"""
EXPORT = re.compile(r'^pub extern "C" fn (\w+)\((.*?)\) -> ', re.M | re.S)


def path_of(name):
    return f"{FOLDER}/{BUILT[name]}"


def exports_of(texts):
    """The exports of a library by its sources: for each its name, and how many parameters it has."""
    return [(name, len(re.findall(r"\w+: ", words))) for text in texts for name, words in EXPORT.findall(text)]


def as_program(text, exports):
    """The first file of a library as that of a program which calls each export."""
    calls = "".join(f"    {name}({', '.join(['none()'] * count)});\n" for name, count in exports)
    return text.replace("pub use ", "use ") + MAIN.format(calls=calls)


def make_program(folder):
    """Makes a program of the sources of a library, where they lie."""
    exports = exports_of(crates.text_of(it) for it in crates.files_below(f"{folder}/src"))
    text = crates.text_of(f"{folder}/src/lib.rt")
    os.remove(f"{folder}/src/lib.rt")
    with open(f"{folder}/src/main.rt", "w", encoding="utf-8") as file:
        file.write(as_program(text, exports))
    return [name for name, _ in exports]


def as_library(module, exports):
    """A module in LLVM's assembly whose exports have their own names, for all to call. What none of them calls is dropped by its compiler."""
    module = re.sub(r"^define (?!internal )", "define internal ", module, flags=re.M)
    module = re.sub(rf'@"[\w:]+::({"|".join(exports)})"', r"@\1", module)
    return re.sub(rf"^define internal (.*@(?:{'|'.join(exports)})\()", r"define \1", module, flags=re.M)


def module_of_dist():
    """The program dist/module, which writes a module as text."""
    loader = importlib.machinery.SourceFileLoader("module_of_dist", f"{crates.ROOT}/dist/module")
    made = importlib.util.module_from_spec(importlib.util.spec_from_loader(loader.name, loader))
    loader.exec_module(made)
    return made


def write_library(rt, module, exports, path, room):
    """Writes a library, as an archive or as a module, of the bytes of a module with these exports."""
    tools, text = f"{rt.rtlib.KIT}/toolchain/bin", f"{room}/library.ll"
    module_of_dist().write_module(f"{tools}/clang", module, text)
    library = as_library(crates.text_of(text), exports)
    with open(text, "w", encoding="utf-8") as file:
        file.write(library)
    if path.endswith(".ll"):
        shutil.copyfile(text, path)
        return
    words = [f"{crates.ROOT}/dist/compile", text, f"{room}/library.o", "--target=x86_64-unknown-linux-gnu", "-O2", "-fPIC"]
    subprocess.run(words, env={**os.environ, "CLANG": f"{tools}/clang"}, check=True)
    subprocess.run([f"{tools}/llvm-ar", "rcsD", path, f"{room}/library.o"], check=True)


def make(rt, name, path, room):
    """Makes a program or a library, and returns what the toolchain said where there is none."""
    repository = f"{room}/repository"
    judges.make_repository(repository, [name])
    folder = f"{repository}/crates/{name}"
    if os.path.isfile(f"{folder}/src/main.rt"):
        return judges.compile_to(rt, judges.crates_in(rt, repository)[name], path, room)
    exports = make_program(folder)
    said = judges.hand_over(rt, judges.crates_in(rt, repository)[name], room, KEEPS, f"{room}/module.bc")
    if not os.path.isfile(f"{room}/module.bc"):
        return said
    write_library(rt, f"{room}/module.bc", exports, path, room)
    return None


def made_of(name):
    """What tells the text that is built. It is no sum of a proved program, whatever file it came to."""
    return hashlib.sha256(f"unproved {crates.sum_of(name)}".encode()).hexdigest()


def build(name):
    """Builds a program or a library where it is not there or not of this text. Returns None, or why it is not built. Of two that build it one waits."""
    os.makedirs(FOLDER, exist_ok=True)
    with open(f"{FOLDER}/{name}.lock", "w", encoding="utf-8") as held:
        fcntl.flock(held, fcntl.LOCK_EX)
        return build_alone(name, path_of(name), f"{FOLDER}/{name}.text")


def build_alone(name, path, text):
    if os.path.isfile(path) and os.path.isfile(text) and crates.text_of(text) == made_of(name):
        return None
    for it in filter(os.path.lexists, (path, text)):
        os.remove(it)
    now, before = made_of(name), crates.text_now(name)
    with tempfile.TemporaryDirectory() as room:
        made = f"{room}/{BUILT[name]}"
        said = make(crates.toolchain(), name, made, room)
        if said is not None:
            return f"not built: {said[-2000:]}"
        shutil.move(made, path)
    if crates.text_now(name) != before:
        return "its text was changed while it was built: run it again"
    with open(text, "w", encoding="utf-8") as file:
        file.write(now)
    return None
