"""What a run of checks/edits keeps: it is found again where nothing that was read has changed, and nowhere else."""

import dataclasses
import os
import tempfile
import unittest
from unittest import mock

from lib.edits import kept
from lib.edits.narrowing import Narrowing


@dataclasses.dataclass(frozen=True)
class Edit:
    path: str
    narrowing: Narrowing = Narrowing()


@dataclasses.dataclass(frozen=True)
class Crate:
    name: str


class Kept(unittest.TestCase):
    def setUp(self):
        room = tempfile.TemporaryDirectory()
        self.addCleanup(room.cleanup)
        self.edit = f"{room.name}/wrong.edit"
        self.write("new: 1\n")
        for name, value in (("FOLDER", f"{room.name}/kept"), ("prover.identity", lambda: "a kit"), ("prover.ours.sum_of", lambda name: f"sum of {name}")):
            patch = mock.patch(f"lib.edits.kept.{name}", value)
            patch.start()
            self.addCleanup(patch.stop)

    def write(self, text):
        with open(self.edit, "w", encoding="utf-8") as file:
            file.write(text)

    def path(self, name="cache"):
        return kept.path_of(Crate(name), [Edit(self.edit)])

    def test_what_is_kept_is_found_again(self):
        self.assertIsNone(kept.read(self.path()))
        kept.write(self.path(), 3, ["a line"])
        self.assertEqual(kept.read(self.path()), [3, ["a line"]])
        self.assertEqual(len(os.listdir(kept.FOLDER)), 1)

    def test_each_text_that_was_read_counts(self):
        paths = {self.path(), self.path("blocks")}
        self.write("new: 2\n")
        paths.add(self.path())
        with mock.patch("lib.edits.kept.prover.identity", lambda: "another kit"):
            paths.add(self.path())
        with mock.patch("lib.edits.kept.prover.ours.sum_of", lambda name: "another text"):
            paths.add(self.path())
        with mock.patch("lib.edits.kept.OWN", ("checks/edits",)):
            paths.add(self.path())
        paths.add(kept.path_of(Crate("cache"), [Edit(self.edit, Narrowing(only=("a goal",)))]))
        self.assertEqual(len(paths), 7)

    def test_what_is_not_whole_is_nothing(self):
        os.makedirs(kept.FOLDER)
        with open(self.path(), "w", encoding="utf-8") as file:
            file.write("[3")
        self.assertIsNone(kept.read(self.path()))


if __name__ == "__main__":
    unittest.main()
