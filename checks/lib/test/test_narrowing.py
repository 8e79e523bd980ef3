"""What narrows the checks of edits: the lines of one file, and what is written there."""

import contextlib
import io
import os
import unittest

from lib import sources
from lib.edits import edit, narrowing, notes
from lib.edits.narrowing import Narrowing
from lib.edits.report import Output, Report
from lib.test import toy
from lib.test.test_sources import OfToy

SIX = "file: src/lib.rt\nold: 5 } else\nnew: 6 } else\n"
THREE = "file: src/lib.rt\nold: { 2 } else\nnew: { 3 } else\n"


class OfLines(OfToy):
    """Reads and writes lines of the toy crate's edits."""

    def line(self, found):
        """The words of an edit's line."""
        return " ".join(edit.read(self.crate, found.path).narrowing.words)

    def lines(self):
        return sources.lines_of(f"{self.room.name}/{narrowing.PLACE}")[:-1]

    def write_lines(self, lines):
        with open(f"{self.room.name}/{narrowing.PLACE}", "w", encoding="utf-8") as file:
            file.write("".join(f"{it}\n" for it in lines))


class Lines(OfLines):
    """One file has a line for each edit."""

    def test_a_line_is_written_in_its_place(self):
        was = self.lines()
        self.read(SIX, "untried: a b only: c", "other")
        line = f"toy/other.edit {narrowing.sum_of(SIX)} untried: a b only: c"
        self.assertEqual(self.lines(), sorted([*was, line]))
        self.read(SIX, "tried: c g", "other")
        self.assertEqual(self.lines(), sorted([*was, line.replace("untried: a b only: c", "tried: c g")]))
        self.read(SIX, "", "other")
        self.assertEqual(self.lines(), was)

    def test_a_line_for_another_text_narrows_nothing(self):
        path = self.read(SIX, "tried: c g").path
        with open(path, "a", encoding="utf-8") as file:
            file.write("old: return TWO;\nnew: return 3;\n")
        found = edit.read(self.crate, path)
        self.assertEqual((found.narrowing, found.is_narrowed), (Narrowing(is_stale=True), False))

    def test_of_two_lines_that_git_joined_that_for_the_text_counts(self):
        path = self.read(SIX, "tried: c g").path
        mine, other = f"toy/tried.edit {narrowing.sum_of(SIX)} only: b", f"toy/tried.edit {narrowing.sum_of(THREE)} only: a"
        self.write_lines(["<<<<<<< ours", other, "=======", "", mine, "toy/tried.edit", ">>>>>>> theirs"])
        self.assertEqual(edit.read(self.crate, path).narrowing, Narrowing(only=("b",)))
        narrowing.forget_gone(self.room.name)
        self.assertEqual(self.lines(), [mine])

    def test_lines_of_edits_that_are_gone_go(self):
        os.rename(f"{self.crate.folder}/edits/leaves_all.edit", f"{self.crate.folder}/edits/leaves_much.edit")
        was = self.lines()
        self.write_lines([*was, "none/leaves_all.edit 0123 only: a"])
        narrowing.forget_gone(self.room.name)
        self.assertEqual(self.lines(), [it for it in was if "leaves_all" not in it])

    def test_without_the_file_no_edit_is_narrowed(self):
        os.remove(f"{self.room.name}/{narrowing.PLACE}")
        found = edit.read(self.crate, f"{self.crate.folder}/edits/one_is_three.edit")
        self.assertEqual(found.narrowing, Narrowing())
        narrowing.write(found, Narrowing(only=("a",)))
        self.assertEqual(self.line(found), "only: a")

    def test_a_control_is_tried_whole(self):
        path = f"{self.crate.folder}/edits/{toy.CONTROL}"
        narrowing.write(edit.read(self.crate, path), Narrowing(only=("a",)))
        self.assertFalse(edit.read(self.crate, path).is_narrowed)


class Notes(OfLines):
    """Which goals of an edit are left open."""

    def noted(self, line, refused, searched, was_stale=False):
        found = self.read(SIX, line)
        notes.note(found, notes.Open(refused, refused, searched, found.untried), was_stale)
        return self.line(found)

    def test_a_clause_of_the_function_itself_is_tried(self):
        self.assertEqual(self.noted("", [], ["call", "returns-one", "left"]), "untried: call left tried: returns-one c")

    def test_the_goal_of_its_line_stays(self):
        self.assertEqual(self.noted("tried: left c d", [], ["returns", "left"]), "untried: returns tried: left c d")

    def test_a_goal_that_is_gone_goes(self):
        self.assertEqual(self.noted("tried: gone c d", [], ["returns", "left"]), "untried: left tried: returns c")

    def test_a_line_that_was_stale_is_not_written_again(self):
        self.assertEqual(self.noted("tried: left c d", [], ["returns", "left"], True), "untried: left tried: returns c")
        self.assertEqual(self.noted("tried: returns c short", [], ["returns"], True), "")

    def test_an_answer_that_is_refused_needs_no_search(self):
        found, goal = self.read(THREE), "returns-then-number-eq1"
        notes.note(found, notes.Open([goal], [goal], ["left"], ()))
        self.assertEqual(self.line(found), f"only: {goal}")
        self.assertEqual(sources.text_of(found.path), THREE)

    def test_an_answer_that_is_refused_without_its_searches_is_tried_so(self):
        goal = "returns-then-number-eq1"
        notes.note(self.read(THREE), notes.Open([goal], [goal], [], (), (goal,)))
        found = edit.read(self.crate, f"{self.crate.folder}/edits/tried.edit")
        self.assertEqual((self.line(found), found.is_by_terms), (f"only: {goal} terms", True))
        said = [f"./proofs/proved/Answers.antt:7:1: error: `{goal}`: expected type `a`", "fn toy::proved: not proved", "only=1"]
        with contextlib.redirect_stdout(io.StringIO()):
            kept, (again,) = notes.without_wrong([notes.with_short(found)], Report(Output(1, "\n".join(said))))
            self.assertEqual((kept, again.only), ([], (goal, "short")))
            kept, (again,) = notes.without_wrong([again], Report(Output(1, "\n".join(said))))
            self.assertEqual((kept, again.only), ([], (goal,)))
            self.assertEqual(notes.without_wrong([again], Report(Output(1, "\n".join(said)))), ([], []))
        self.assertEqual(self.line(found), "")

    def test_an_answer_that_names_what_is_gone_is_not_asked_for(self):
        found = self.read(THREE)
        notes.note(found, notes.Open(["returns-then-number-eq1"], [], ["left"], ()))
        self.assertEqual(self.line(found), "untried: left")

    def test_a_lemma_is_no_goal(self):
        self.assertEqual(self.noted("", ["written"], ["returns", "left"]), "untried: left tried: returns c")

    def test_a_line_stands_whose_answer_is_proved_by_itself(self):
        found = [self.read(SIX, f"untried: a tried: {it} c", it) for it in ("one", "two")]
        found += [self.read(THREE, "only: returns-then-number-eq1", "own"), self.read(SIX, "only: none", "none")]
        said = ["fn toy::other: not proved", "fn toy::proved: not proved", "only=2"]
        report = Report(Output(1, "\n".join(["./proofs/other/Answers.antt:7:1: error: `two`: `search`: no proof", *said])))
        with contextlib.redirect_stdout(io.StringIO()):
            left, longer = notes.without_wrong([*map(notes.with_short, found)], report)
            self.assertEqual(notes.without_wrong(longer, report), ([], []))
        self.assertEqual([it.name for it in left], ["toy/one.edit", "toy/own.edit"])
        self.assertEqual([(it.name, it.tried) for it in longer], [("toy/two.edit", ("two", "c"))])
        wanted = ["tried: one c short", "untried: a", "only: returns-then-number-eq1 short", ""]
        self.assertEqual([self.line(it) for it in found], wanted)


if __name__ == "__main__":
    unittest.main()
