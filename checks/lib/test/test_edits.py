"""Whole trials of edits, with recorded words of the prover in its place."""

import contextlib
import dataclasses
import io
import tempfile
import unittest

from lib.edits.edit import read
from lib.edits.narrowing import Narrowing
from lib.edits.report import Output
from lib.edits.trial import Found, Options, Trial
from lib.test import recorded, toy


class Trials(unittest.TestCase):
    """Each question is found to say what toy.py says."""

    @classmethod
    def setUpClass(cls):
        cls.room = tempfile.TemporaryDirectory()
        cls.crate = toy.Crate("toy", toy.lay(cls.room.name))

    @classmethod
    def tearDownClass(cls):
        cls.room.cleanup()

    def test_questions(self):
        for question in toy.QUESTIONS:
            with self.subTest(question.name), contextlib.redirect_stdout(io.StringIO()):
                found = recorded.tried(self.crate, question, recorded.replayed(question))
                self.assertEqual({*found}, {*question.edits})
                for name, (why, is_weak) in found.items():
                    wanted = question.wrong.get(name, "")
                    self.assertTrue(why.startswith(wanted) if wanted else not why, f"{name}: {why}")
                    self.assertEqual(is_weak, name in question.weak, name)

    def test_a_stale_line_is_no_error_and_one_note_tells_it(self):
        question = next(it for it in toy.QUESTIONS if it.name == "wrong_notes")
        edits = [read(self.crate, f"{self.crate.folder}/edits/{it}") for it in question.edits]
        edits[-1] = dataclasses.replace(edits[-1], narrowing=Narrowing(is_stale=True))
        trial = Trial(self.crate, "", recorded.replayed(question))
        (line,) = trial.stale_lines(trial.judged(edits, True))
        self.assertTrue(line.startswith("toy: 3 stale in checks/edits.d/narrowed, tried whole (`checks/edits --note toy`, then"), line)
        self.assertIn("names_no_goal.edit (a goal that is left open is not there)", line)
        self.assertIn("leaves_all.edit (NOT REFUSED: what it changes is still proved)", line)
        self.assertIn("sets_nothing.edit (it is for another text)", line)
        self.assertEqual(trial.stale_lines([Found(it, "NOT REFUSED") for it in edits]), [])

    def test_a_stale_line_is_written_anew(self):
        question = next(it for it in toy.QUESTIONS if it.name == "wrong_notes")
        with tempfile.TemporaryDirectory() as room:
            crate = toy.Crate("toy", toy.lay(room))
            paths = [f"{crate.folder}/edits/{it}" for it in question.edits]
            Trial(crate, "", recorded.replayed(question), Options(writes_notes=True)).judged([read(crate, it) for it in paths], True)
            found = [" ".join(read(crate, it).narrowing.words) for it in paths]
        self.assertEqual(found, [f"tried: {toy.MORE} c", f"tried: {toy.MORE} c", "tried: returns c"])

    def test_a_name_that_the_prover_does_not_know_costs_one_check_of_all(self):
        asked = []

        def ask(copy, words, kept, texts, tells_times):
            asked.append(words[2::2] or "all")
            if "toy::is_full" in words:
                return Output(2, "rattle: error: `toy` has no function `toy::is_full`")
            return Output(1, "\n".join([*(f"fn {it}: not proved" for it in words[2::2] or ["toy::is_full"]), "only=1"]))

        names = ("empty_is_one_byte.edit", "full_is_empty.edit", "sets_nothing.edit")
        edits = [read(self.crate, f"{self.crate.folder}/edits/{it}") for it in names]
        with contextlib.redirect_stdout(io.StringIO()) as told:
            found = Trial(self.crate, "", ask).judged(edits, True)
        self.assertEqual([it.why for it in found], ["", "", ""])
        one, full, sets = "toy::is_empty", "toy::is_full", "toy::Mark::set"
        self.assertEqual(asked, [[one, full, sets], [one], [full, sets], [full], "all", [sets]])
        self.assertEqual(told.getvalue().count("`toy` has no function `toy::is_full`"), 3)

    def test_an_edit_that_does_not_apply_says_why(self):
        edit = read(self.crate, f"{self.crate.folder}/edits/stands_nowhere.edit")
        self.assertEqual(edit.why, "a 'old:' text stands in src/lib.rt not once")


if __name__ == "__main__":
    unittest.main()
