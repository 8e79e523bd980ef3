"""What single lines of the prover are read as. The lines stood in reports on crates of the product."""

import unittest

from lib.edits.copy import Narrowed
from lib.edits.edit import Span
from lib.edits.report import Output, Report, is_part

REFUSED = "fn cdb::form::check: not proved; it stands on `Rattle.cdb.proofs.form.check.Answers.returns`, which antt refuses"
END = "logic=not-proved"


def report(*lines, status=1, edited=()):
    return Report(Output(status, "\n".join([*lines, END])), edited)


class Verdicts(unittest.TestCase):
    """Which functions fail by themselves."""

    def test_a_refused_answer_of_its_own_is_a_failure(self):
        found = report(REFUSED)
        self.assertEqual((found.failed, found.refused_goals("cdb::form::check")), ({"cdb::form::check"}, ["returns"]))

    def test_a_refused_answer_of_another_is_none(self):
        found = report(REFUSED.replace("fn cdb::form::check", "fn cdb::decode::parse"))
        self.assertEqual((found.open, found.proves("cdb::decode::parse")), (set(), True))

    def test_a_call_of_one_that_is_not_proved_is_none(self):
        for said in (
            "it calls `cdb::a`, which is not proved",
            "it calls `cdb::a` and `cdb::b`, which are not proved",
            "it passes the block `cdb::a`, which is not proved; it calls `cdb::b`, which is not proved",
            "the borrow checker's part in its proof is not made yet: a call of `cdb::a`, which has no proof: help: prove it",
        ):
            self.assertEqual(report(f"fn cdb::top: no proof: {said}").open, set(), said)

    def test_a_search_and_a_call_are_a_failure(self):
        said = "expected answers in ./proofs/top/Answers.antt; `search` did not prove `returns`, `left`; it calls `cdb::a`, which is not proved"
        found = report(f"fn cdb::top: no proof: {said}")
        self.assertEqual((found.failed, found.searched_goals("cdb::top", ())), ({"cdb::top"}, ["returns", "left"]))

    def test_what_is_over_holes_is_proved(self):
        for said in ("proved", "no holes", "depends on a hole in `Rattle.cdb.proofs.a.Proof.shut`"):
            self.assertTrue(report(f"fn cdb::top: {said}").is_proved("cdb::top"), said)

    def test_a_closure_fails_for_its_function(self):
        self.assertTrue(is_part("cache::parts::fn::Parts::new::map_err+2", "cache::parts::Parts::new"))
        self.assertFalse(is_part("cache::parts::fn::Parts::renew::map_err", "cache::parts::Parts::new"))
        self.assertTrue(report("fn cache::parts::fn::Parts::new::map_err: not proved").fails("cache::parts::Parts::new"))

    def test_a_method_is_found_in_the_module_of_its_type(self):
        self.assertEqual(report("fn spec::way::Way::size: proved").name_of("spec::cases::Way::size"), "spec::way::Way::size")
        self.assertIsNone(report("fn spec::way::Way::size: proved").name_of("spec::way::Way::length"))

    def test_without_its_last_line_or_with_another_status_there_is_no_verdict(self):
        self.assertTrue(report(REFUSED).has_verdict)
        self.assertFalse(report(REFUSED, status=3).has_verdict)
        self.assertFalse(Report(Output(1, REFUSED)).has_verdict)
        self.assertFalse(Report(Output(1, f"{REFUSED}\n{END}", is_stale=True)).has_verdict)


class Remarks(unittest.TestCase):
    """What is said of places."""

    def test_goals_are_told_by_notes_too(self):
        note = "note: src/laws.rt:9:1: it is not proved that what the function ensures holds when it returns (`returns`); the facts known"
        self.assertEqual(report(REFUSED, note).searched_goals("cdb::form::check", [Span("src/laws.rt", 9, 12)]), ["returns"])
        self.assertEqual(report(REFUSED, note).searched_goals("cdb::form::check", [Span("src/laws.rt", 10, 12)]), [])

    def test_an_answer_that_the_search_does_not_find_is_told_from_another_error(self):
        narrowed, at = Narrowed("proofs/a/Answers.antt", 8), "./proofs/a/Answers.antt:7:23: error: `returns`: "
        self.assertTrue(report(at + "`search`: no proof of `x`").has_searched(narrowed, ("returns", "c")))
        self.assertTrue(report(at + "`grind`: the goal does not follow").has_searched(narrowed, ("returns", "c")))
        self.assertFalse(report(at + "as printed, the two types differ").has_searched(narrowed, ("returns", "c")))
        self.assertTrue(report(at).has_searched(narrowed, ()))

    def test_an_answer_that_is_refused_by_itself(self):
        path, at = "proofs/a/Answers.antt", "./proofs/a/Answers.antt:7:23: error: "
        self.assertTrue(report(at + "`returns`: as printed, the two types differ").refuses(path, "returns"))
        self.assertFalse(report(at + "`returns`: `step` is not in scope").refuses(path, "returns"))
        self.assertFalse(report(at + "`returns`: record `Rattle.a.Lts.After-drop3` (nearest: .room-2)").refuses(path, "returns"))
        self.assertFalse(report(at + "`returns`: module `Rattle.a.Goals` has no `returns`").refuses(path, "returns"))
        self.assertFalse(report(at + "`left`: as printed, the two types differ").refuses(path, "returns"))

    def test_answers_that_are_proved(self):
        proves = lambda *lines: report("fn cdb::form::check: not proved", *lines).proves_answers("cdb::form::check", ["one", "two"])
        at = "./proofs/form/check/Answers.antt:7:1: error: "
        self.assertEqual(proves(), ["one", "two"])
        self.assertEqual(proves(at + "`one`: `search`: no proof of `x`"), ["two"])
        self.assertEqual((proves(at + "expected the end"), report().proves_answers("cdb::form::check", ["one"])), ([], []))

    def test_a_goal_left_open_that_is_none_of_the_functions(self):
        narrowed, at = Narrowed("proofs/a/Answers.antt", 8), "./proofs/a/Answers.antt:"
        self.assertTrue(report(at + "12:1: error: `never`: module `Rattle.a.Goals` has no `never`").misses(narrowed))
        self.assertTrue(report(at + "2:1: error: expected the end").misses(narrowed))
        self.assertFalse(report(at + "7:1: error: `returns`: `search`: no proof").misses(narrowed))

    def test_a_lost_answer(self):
        lost = "./proofs/form/check/Answers.antt:7:1: error: `left`: module `Rattle.cdb.proofs.form.check.Goals` has no `left`"
        self.assertTrue(report(lost).may_have_lost("cdb::form::check", ()))
        self.assertFalse(report(lost, REFUSED).may_have_lost("cdb::form::check", ()))
        self.assertTrue(report(lost, REFUSED).may_have_lost("cdb::form::check", ("returns", "c")))

    def test_a_refusal_that_only_names_what_is_gone_is_weak(self):
        gone = "./proofs/form/check/Answers.antt:7:1: error: `returns`: `c.from_call` is not in scope"
        span = [Span("src/form.rt", 4, 9)]
        self.assertTrue(report(gone).is_weak("cdb::form::check", span))
        self.assertFalse(report(gone, "note: src/form.rt:5:1: it is not proved that (`returns`)").is_weak("cdb::form::check", span))
        self.assertFalse(report(gone, gone.replace("is not in scope", "the goal does not follow")).is_weak("cdb::form::check", span))
        # (a goal that is left open is no reason)
        left = [f"./proofs/form/check/Answers.antt:{it}" for it in ("9:1: `not_tried` is not admitted: has-holes", "10:13: goal ? in `not_tried`")]
        self.assertTrue(report(gone, *left).is_weak("cdb::form::check", span))
        self.assertTrue(report(gone).is_weak(None, ()))
        self.assertFalse(report(gone, "src/form.rt:5:1: error[E0308]: mismatched types").is_weak(None, ()))

    def test_a_text_that_cannot_be_read(self):
        self.assertIsNotNone(report("src/form.rt:5:1: error: `Kept`: `none` is not in scope").unread)
        self.assertIsNotNone(report("src/form.rt:5:1: error: expected an operand").unread)
        self.assertIsNone(report("src/form.rt:5:1: error: `check`: the clause does not follow").unread)
        self.assertIsNone(report("proofs/a/Answers.antt:5:1: error: `a`: `b` is not in scope").unread)
        self.assertIsNotNone(report("proofs/a/Answers.antt:5:1: error: `a`: `b` is not in scope", edited={"proofs/a/Answers.antt"}).unread)


if __name__ == "__main__":
    unittest.main()
