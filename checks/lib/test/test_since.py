"""Which crates a change touches since a commit."""

import os
import shutil
import subprocess
import tempfile
import unittest

from lib.edits import since

BELOW = {"low": [], "middle": ["low"], "high": ["middle"], "other": []}
ROWS = {name: f"{name}: {' '.join(below)}".rstrip() for name, below in BELOW.items()}


def standing(name):
    return {name, *(other for it in BELOW[name] for other in standing(it))}


class Touched(unittest.TestCase):
    def crates(self, paths, rows=tuple(ROWS.values())):
        return since.crates_since((paths, rows), {name: (row, BELOW[name]) for name, row in ROWS.items()}, standing)

    def test_a_text_touches_the_crates_above(self):
        self.assertEqual(self.crates(["crates/middle/specs/A.antt", "README.md"]), {"middle", "high"})

    def test_an_edit_touches_its_crate_alone(self):
        self.assertEqual(self.crates(["crates/low/edits/a.edit", "crates/other/must-fail/b.edit"]), {"low", "other"})

    def test_another_file_touches_none(self):
        self.assertEqual(self.crates(["crates/low/CALLING.md", "crates/README.md", "checks/edits"]), set())

    def test_a_row_that_is_another_or_new_touches_the_crates_above(self):
        self.assertEqual(self.crates([], [ROWS["low"] + " # the lowest", "middle:", ROWS["high"], ROWS["other"]]), {"middle", "high"})


@unittest.skipUnless(shutil.which("git"), "no git here")
class Changed(unittest.TestCase):
    def setUp(self):
        room = tempfile.TemporaryDirectory()
        self.addCleanup(room.cleanup)
        self.room = room.name
        self.git("init", "-q")
        self.write({"crates.txt": "low:\n", "crates/low/src/lib.rt": "a\n", "crates/low/src/gone.rt": "a\n"})
        self.commit()

    def git(self, *words):
        names = {f"GIT_{who}_{what}": "a@b" for who in ("AUTHOR", "COMMITTER") for what in ("NAME", "EMAIL")}
        subprocess.run(["git", "-C", self.room, *words], check=True, capture_output=True, env={**os.environ, **names})

    def write(self, files):
        for path, text in files.items():
            os.makedirs(os.path.dirname(f"{self.room}/{path}"), exist_ok=True)
            with open(f"{self.room}/{path}", "w", encoding="utf-8") as file:
                file.write(text)

    def commit(self):
        self.git("add", ".")
        self.git("commit", "-q", "-m", "a")

    def test_what_is_committed_and_what_is_not_counts(self):
        self.write({"crates.txt": "low:\nhigh: low\n", "crates/high/src/lib.rt": "a\n"})
        self.commit()
        self.write({"crates/low/src/lib.rt": "b\n", "crates/high/edits/a.edit": "a\n"})
        os.remove(f"{self.room}/crates/low/src/gone.rt")
        paths, rows = since.changed_since("HEAD~1", self.room)
        files = ["crates/high/edits/a.edit", "crates/high/src/lib.rt", "crates/low/src/gone.rt", "crates/low/src/lib.rt"]
        self.assertEqual((sorted(paths), rows), (files, ["low:"]))
        self.assertEqual(since.changed_since("HEAD", self.room)[1], ["low:", "high: low"])

    def test_a_commit_that_is_not_there(self):
        self.assertIsNone(since.changed_since("none", self.room))


if __name__ == "__main__":
    unittest.main()
