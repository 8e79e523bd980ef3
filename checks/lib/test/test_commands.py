"""What commands say where the toolchain or Python is not there, and what the demonstration says at its end."""

import os
import re
import shutil
import subprocess
import tempfile
import unittest

from lib import sources

ROOT = sources.ROOT
# What each of them needs before it looks for the toolchain.
BASIC = "sh env dirname basename mkdir mktemp rm cat cut sed awk xargs date readlink uname head tail".split()
# The commands that need the toolchain, with their words. (What is built already needs none: no check builds this module.)
OF_TOOLCHAIN = (
    "checks/all checks/c checks/dist checks/edits checks/judges demo/run demo/try dist/library dist/make docs/page/build docs/page/make".split(),
    ["dist/module", "page", "aarch64-unknown-linux-gnu"],
)
PROGRAM = """#!/bin/sh
block() { awk -v byte="$1" 'BEGIN { printf "data "; for (i = 0; i < 512; i++) printf byte; print "" }'; }
case $1-$3 in
run-*read*) block aa ;;
sim-*) for byte in bb @ 00; do block $byte; done ;;
esac
"""


def run_in(path, words):
    """How a command ends, and the lines that it says, where only what lies in a folder is found."""
    it = subprocess.run([f"{ROOT}/{words[0]}", *words[1:]], env={"PATH": path}, stdin=subprocess.DEVNULL, capture_output=True, text=True, timeout=60)
    return it.returncode, (it.stdout + it.stderr).splitlines()


def found_in(folder, names):
    """A folder in which these programs are found."""
    for name in names:
        real = next(f"{at}/{name}" for at in os.environ["PATH"].split(":") if os.access(f"{at}/{name}", os.X_OK))
        os.symlink(os.path.realpath(real), f"{folder}/{name}")
    return folder


class WithoutTools(unittest.TestCase):
    def setUp(self):
        room = tempfile.TemporaryDirectory()
        self.addCleanup(room.cleanup)
        self.room = room.name

    def test_the_toolchain_that_is_not_there_is_named_in_one_line(self):
        path = found_in(self.room, [*BASIC, "python3"])
        for words in [*([it] for it in OF_TOOLCHAIN[0]), *OF_TOOLCHAIN[1:]]:
            status, lines = run_in(path, words)
            with self.subTest(words[0]):
                self.assertTrue(status and len(lines) == 1 and "no command rt" in lines[0], (status, lines))

    def test_a_script_without_python_names_it_in_one_line(self):
        path = found_in(self.room, BASIC)
        with open(f"{self.room}/rt", "w", encoding="utf-8") as file:
            file.write("#!/bin/sh\n")
        os.chmod(f"{self.room}/rt", 0o755)
        for name in ("checks/all", "checks/c", "checks/dist", "checks/edits", "checks/names", "demo/run", "demo/try", "dist/library", "dist/make", "docs/page/make"):
            status, lines = run_in(path, [name])
            with self.subTest(name):
                self.assertTrue(status and len(lines) == 1 and "python3" in lines[0], (status, lines))


class Words(unittest.TestCase):
    def test_a_page_of_man_and_the_completion_have_the_words_of_the_help(self):
        for name in ("usbdisk", "usbdisk_image", "usbdisk_live"):
            told = subprocess.run([f"{ROOT}/{name}", "--help"], capture_output=True, text=True).stdout
            with open(f"{ROOT}/docs/man/{name}.1", encoding="utf-8") as file:
                page = file.read().replace("\\-", "-")
            words = set(re.findall(r"--[a-z]+", told)) | {"--help"}
            commands = set(re.findall(rf"^{name} ([a-z]+)", told, re.M))
            with self.subTest(name):
                self.assertEqual(set(re.findall(r"--[a-z]+", page)), words | {"--version"})
                self.assertEqual(commands - set(re.findall(r"[a-z]+", page)), set())
                self.assertEqual(set(self.completed(name)), words | commands)

    def completed(self, name):
        script = f"source {ROOT}/gadget/completion/usbdisk; COMP_WORDS=({ROOT}/{name} ''); COMP_CWORD=1; _usbdisk; printf '%s\\n' \"${{COMPREPLY[@]}}\""
        return subprocess.run(["bash", "-c", script], capture_output=True, text=True).stdout.split()


class FreshClone(unittest.TestCase):
    @unittest.skipUnless(os.path.exists(f"{ROOT}/.git") and shutil.which("git"), "no clone, or no git here")
    def test_no_document_names_a_file_that_a_clone_has_not(self):
        with tempfile.TemporaryDirectory() as room:
            subprocess.run(["git", "clone", "-q", "--no-hardlinks", ROOT, f"{room}/clone"], check=True, stderr=subprocess.DEVNULL)
            said = subprocess.run([f"{room}/clone/checks/names"], capture_output=True, text=True).stdout
        self.assertIn("the documents: ", said)
        self.assertEqual([it for it in said.splitlines() if ": no file " in it], [])


class Names(unittest.TestCase):
    def test_a_launcher_refuses_a_name_that_is_no_text_before_any_proof(self):
        for words in ([b"usbdisk_image", b"show", b"d\xff.img"], [b"usbdisk_live", b"d\xff.img"], [b"usbdisk", b"run", b"d.img", b"d\xff"]):
            with tempfile.TemporaryDirectory() as room:
                path = found_in(room, [*BASIC, "iconv"])
                it = subprocess.run([f"{ROOT}/{words[0].decode()}", *words[1:]], env={"PATH": path}, capture_output=True, timeout=60)
            self.assertEqual((it.returncode, it.stderr.split(b"\n")[0]), (2, b"bad command line"))
            self.assertIn(b"does not fit there; a file's name in UTF-8 does", it.stderr)


class Demonstration(unittest.TestCase):
    def played(self, byte):
        with tempfile.TemporaryDirectory() as room:
            with open(f"{room}/program", "w", encoding="utf-8") as file:
                file.write(PROGRAM.replace("@", byte))
            os.chmod(f"{room}/program", 0o755)
            return run_in(os.environ["PATH"], ["demo/run", f"{room}/program"])

    def test_it_says_in_words_what_was_shown(self):
        status, lines = self.played("cc")
        self.assertEqual(status, 0)
        self.assertIn("In words:", lines[-2])

    def test_it_sees_a_promised_write_that_is_lost(self):
        status, lines = self.played("00")
        self.assertEqual(status, 1)
        self.assertIn("not what was promised", lines[-1])


if __name__ == "__main__":
    unittest.main()
