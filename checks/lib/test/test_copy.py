"""What a copy with edits is made of."""

import os
import tempfile
import unittest

from lib import sources
from lib.edits import answers, shut, twins
from lib.edits.copy import Copy, Narrowed, batches_of
from lib.edits.edit import read
from lib.test import toy


class Copies(unittest.TestCase):
    def setUp(self):
        self.room = tempfile.TemporaryDirectory()
        self.addCleanup(self.room.cleanup)
        self.crate = toy.Crate("toy", toy.lay(self.room.name))

    def edits(self, *names):
        return [read(self.crate, f"{self.crate.folder}/edits/{it}") for it in names]

    def test_each_change_but_the_first_of_a_function_is_in_a_twin(self):
        one, six = self.edits("one_is_three.edit", "two_is_six.edit")
        copy = Copy(self.crate, [one, six])
        self.assertEqual([copy.functions[it] for it in (one, six)], ["toy::other", "toy::other_twin_1"])
        text = copy.texts["src/lib.rt"]
        first, behind = text[: text.index("fn other_twin_1")], text[text.index("fn other_twin_1") :]
        self.assertTrue("return 3;" in first and "{ 5 }" in first and "return TWO;" in behind and "{ 6 }" in behind)
        (span,) = copy.spans[six]
        self.assertIn("fn other_twin_1", "\n".join(text.split("\n")[span.first - 1 : span.last]))

    def test_a_twin_of_a_method_has_an_impl_as_its_own(self):
        (sets,) = self.edits("sets_nothing.edit")
        twin = twins.twin_text(sets, "_twin_1", sets.changes)
        self.assertTrue(twin.startswith("impl Mark {\n    /// Sets it.\n    pub fn set_twin_1(&mut self)"), twin)
        self.assertTrue("self.is_set = false;" in twin and twin.endswith("    }\n}\n"))

    def test_a_twin_has_the_proof_files_under_its_name(self):
        turned, three = self.edits("turned_around.edit", "proved_is_three.edit")
        copy = Copy(self.crate, [turned, three])
        self.assertIn("use Rattle.toy.proofs.proved_twin_1.Goals as goal", copy.texts["proofs/proved_twin_1/Answers.antt"])

    def test_a_proof_that_names_what_is_made_of_a_function_asks_for_a_bare_twin(self):
        with open(f"{self.crate.folder}/proofs/Law.antt", "w", encoding="utf-8") as file:
            file.write("use Rattle.toy.proofs.other.Goals as goal\n")
        one, six = self.edits("one_is_three.edit", "two_is_six.edit")
        self.assertEqual(Copy(self.crate, [one, six]).unedited, {"toy::other": "toy::other_twin_0"})

    def test_a_batch_has_one_edit_that_is_no_bodys(self):
        names = ("two_is_three.edit", "both.edit", "sets_nothing.edit", "one_is_three.edit", "two_is_six.edit")
        self.assertEqual([len(it) for it in batches_of(self.edits(*names))], [1, 1, 3])

    def test_what_is_shut_does_nothing_and_no_line_moves(self):
        copy = Copy(self.crate, self.edits("full_is_empty.edit"))
        texts = shut.shut_texts(self.crate, copy.text, copy.named)
        text, was = texts["src/lib.rt"], copy.text("src/lib.rt")
        self.assertEqual(text.count("\n"), was.count("\n"))
        self.assertTrue("bytes.len()" not in text and "    is_empty(bytes)\n" in text)
        self.assertIn("pub set_spec : {M : Type 1} → stated.statement M\nset_spec = shut", texts["proofs/Mark/set/Proof.antt"])
        self.assertEqual((texts["proofs/proved/Answers.antt"], "proofs/is_full/Proof.antt" in texts), (None, False))

    def test_a_twins_proof_leads_to_it_from_groups_too(self):
        text = "use Rattle.{std.Common.{a, named}, toy.{specs.{A as named}, proofs.{Named.proved, named.Goals.{a, b as c}}}} as d\n"
        wanted = text.replace("named.Goals", "named_twin_1.Goals")
        self.assertEqual(twins.twin_proof(self.crate, "toy::named", f"{text}a = proofs.named.b\n", "_twin_1"), f"{wanted}a = proofs.named.b\n")

    def test_a_twin_lacks_what_another_proof_file_leads_to(self):
        lines = {
            "use Rattle.toy.proofs.{Other.named, other.Goals.a}": True,
            "use Rattle.toy.{proofs.{named.Answers.held, Other.a}, specs.A}": True,
            "use Rattle.toy.{proofs.{Other.a, named.Goals.returns as a}}": False,
            "use Rattle.toy.proofs.named as a": False,
            "use Rattle.toy.{specs.A, proofs as a}": False,
            "a = Rattle.toy.proofs.named.Goals.b": False,
        }
        for line, is_carried in lines.items():
            with self.subTest(line), tempfile.TemporaryDirectory() as room:
                crate = toy.Crate("toy", toy.lay(room))
                self.assertTrue(twins.is_carried_over(crate, "toy::named"))
                os.makedirs(f"{crate.folder}/proofs/other")
                with open(f"{crate.folder}/proofs/other/Answers.antt", "w", encoding="utf-8") as file:
                    file.write(f"{line}\n")
                twins.is_carried_over.cache_clear(), twins.proof_files.cache_clear()
                self.assertEqual(twins.is_carried_over(crate, "toy::named"), is_carried)

    def test_goals_are_left_open_behind_the_answers(self):
        self.tell_how_it_searches()
        (one,) = self.edits("one_is_three.edit")
        copy = Copy(self.crate, [one], narrows=True)
        lines = copy.texts["proofs/other/Answers.antt"].split("\n")
        self.assertIn(f"{toy.ONE} c = {answers.TRIED}", lines)
        self.assertIn(f"{toy.MORE} c = not_tried", lines)
        narrowed = copy.narrowed["toy::other"]
        self.assertEqual(narrowed, Narrowed("proofs/other/Answers.antt", lines.index("not_tried = ?") - 1))

    def test_where_nothing_is_searched_nothing_has_to_be_left_open(self):
        (one,) = self.edits("one_is_three.edit")
        lines = Copy(self.crate, [one], narrows=True).texts["proofs/other/Answers.antt"].split("\n")
        self.assertEqual([it for it in lines if it.startswith("pub ")], [f"pub {toy.ONE} : goal.{toy.ONE}"])

    def test_a_goal_that_is_asked_for_alone_has_the_functions_own_answer(self):
        four, more = self.edits("proved_is_four.edit", "names_no_answer.edit")
        copy = Copy(self.crate, [four, more], narrows=True)
        own = sources.text_of(f"{self.crate.folder}/proofs/proved/Answers.antt")
        self.assertEqual(copy.texts["proofs/proved/Answers.antt"], own)
        self.assertNotIn("pub ", copy.texts["proofs/other/Answers.antt"])
        self.assertEqual(copy.texts["src/lib.rt"].count("#[tactic(none)] pub fn "), 2)

    def test_answers_on_which_one_does_not_stand_go(self):
        one, two, three = (f"pub {it} : goal.{it}\n{it} c =\n  {by}" for it, by in (("one", "two c"), ("two", "held"), ("three", "(one c)")))
        text = "\n".join(["use a", "", "held = b", one, two, three])
        (by_one, gone), (by_two, others) = answers.alone(text, {"one"}), answers.alone(text, {"two"})
        self.assertEqual(("\n".join(by_one), gone), ("\n".join(["use a", "", "held = b", one, two]), ["three"]))
        self.assertEqual(("\n".join(by_two), others), ("\n".join(["use a", "", "held = b", two]), ["one", "three"]))

    def test_a_hole_stands_for_each_search_of_an_answer(self):
        held = ["held = search a", ""]
        lines = ["pub one : goal.one", "one c ="]
        lines += ["  let a : b = omega (arith, (f c).g) in", "  record { x = f (search rules); y = grind (a, b) steps 20; }"]
        wanted = ["  let a : b = not_tried in", "  record { x = f (not_tried); y = not_tried; }"]
        others = ["", "pub two : goal.two", "two c = search rules"]
        found = answers.without_searches([*held, *lines, *others], {"one"})
        self.assertEqual(found, [*held, *answers.HOLE, *lines[:2], *wanted, *others])
        self.assertEqual(answers.left_open(["three"], found), ["pub three : goal.three", "three c = not_tried", ""])
        both = answers.without_searches([*lines, *others], {"one", "two"})
        self.assertEqual(both, [*answers.HOLE, *lines[:2], *wanted, *others[:2], "two c = not_tried"])

    def test_each_search_of_an_answer_has_a_limit(self):
        lines = ["pub one : goal.one", "one c ="]
        lines += ["  let a : b = omega (arith, (f c).g) in"]
        other = ["", "pub two : goal.two", "two c = search rules"]
        text = "  record { x = f (search (rules, g (grind arith)) depth 7); y = first_of (grind (a, b) steps 20, search c); }"
        wanted = "  record { x = f (search (rules, g (grind arith steps 400000)) depth 7 steps 300000); "
        wanted += "y = first_of (grind (a, b) steps 20, search c steps 300000); }"
        self.assertEqual(answers.with_short_searches([*lines, text, *other], {"one"}), [*lines, wanted, *other])
        both = "first_of (search tried_rules.rules, grind (tried_omega.arith, tried_grind.common_steps))"
        self.assertEqual(answers.with_limits(both), answers.SHORT_TRIED)

    def test_a_goal_is_tried_by_a_short_search(self):
        tries = [("one", "g", "c"), ("three", "c", answers.SHORT), ("two", "c", answers.SHORT), ("three", "c")]
        lines = answers.with_tries([], "toy::other", tries)
        wanted = [f"one g c = {answers.TRIED}", f"two c = {answers.SHORT_TRIED}", f"three c = {answers.SHORT_TRIED}"]
        self.assertEqual({it for it in lines if " c = " in it}, {*wanted})

    def test_a_function_as_it_is_answers_what_its_edits_ask_for(self):
        copy = Copy(self.crate)
        copy.ask_goals(self.edits("one_is_three.edit", "two_is_six.edit"))
        lines = copy.texts["proofs/other/Answers.antt"].split("\n")
        self.assertTrue({f"{it} c = {answers.TRIED}" for it in (toy.ONE, toy.MORE)} < {*lines})
        self.assertEqual((copy.named, "#[tactic(none)] pub fn other(" in copy.texts["src/lib.rt"]), (["toy::other"], True))

    def test_of_a_function_with_a_goal_that_is_tried_nothing_else_is_searched(self):
        one, six, three = self.edits("one_is_three.edit", "two_is_six.edit", "leaves_all.edit")
        copy = Copy(self.crate, [one, six, three], narrows=True)
        text, was = copy.texts["src/lib.rt"], Copy(self.crate, [one, six, three]).texts["src/lib.rt"]
        self.assertEqual(text.replace("#[tactic(none)] ", ""), was)
        told = [it for it in text.split("\n") if "tactic(none)" in it]
        self.assertEqual([it.split("(number")[0] for it in told], [f"#[tactic(none)] pub fn other{it}" for it in ("", "_twin_1")])

    def tell_how_it_searches(self):
        text = sources.text_of(f"{self.crate.folder}/src/lib.rt")
        with open(f"{self.crate.folder}/src/lib.rt", "w", encoding="utf-8") as file:
            file.write(text.replace("pub fn other", "#[tactic(auto, using(one))]\npub fn other"))

    def test_an_attribute_that_tells_how_goals_are_searched_stays(self):
        self.tell_how_it_searches()
        copy = Copy(self.crate, self.edits("one_is_three.edit"), narrows=True)
        self.assertNotIn("tactic(none)", copy.texts["src/lib.rt"])

    def test_answers_to_goals_that_are_not_tried_go(self):
        text = "use a\n\npub one : goal.one\none c =\n  b\n\npub two : goal.two\ntwo c = d\n"
        self.assertEqual(answers.without_answers(text, ("one",)), ["use a", "", "pub two : goal.two", "two c = d", ""])


if __name__ == "__main__":
    unittest.main()
