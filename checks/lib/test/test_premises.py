"""What checks/form takes for a premise of a law, and for a clause that gives it."""

import contextlib
import os
import tempfile
import unittest

from lib import sources
from lib.form import premises, statements

FACTS = """-- records of facts, and of data
use Rattle.std.specs.Prelude.{◌≡◌, ℕ}
pub record Value : Type 0 where
  pub count : ℕ
pub record IsBegun (value : Value) : Type 0 where
  -- a comment
  pub none : value.count
      ≡ 0
pub record IsDone (old new : Value)
    : Type 0 where
  pub more : new.count ≡ old.count
abbrev pub IsKept : ℕ → Value → Type 0
IsKept zero value = IsBegun value
IsKept more value = IsDone value value
"""
LAWS = """use Rattle.NAME.specs.{Facts.{Value, IsKept}, Facts.IsBegun, Facts.IsDone as Ends}
abbrev pub EachIsDone : Type 0
EachIsDone = (old new : Value) → IsKept 1 old → (mid : Value) × Ends mid new
abbrev pub Begins : Value → Type 0
Begins value = Ends value value → IsBegun value
abbrev pub Done : Value → Type 0
Done value = IsBegun value → Ends value value
"""
SOURCE = """ghost use Rattle.NAME.specs.Laws.{EachIsDone, Begins, Done};
ghost use Rattle.NAME.specs.Facts.{IsBegun};
/// Does nothing.
pub fn laws()
    ensures { EachIsDone }
{}
pub fn begin(value: &mut Value) -> bool
    ensures { CLAUSE }
{
    value.begin()
}
"""


@contextlib.contextmanager
def crate(name, clause="⊤"):
    """A crate of this name in a folder of its own, with the texts above, and its functions."""
    before = os.getcwd()
    with tempfile.TemporaryDirectory() as folder:
        os.chdir(folder)
        try:
            os.makedirs(f"crates/{name}/specs")
            os.makedirs(f"crates/{name}/src")
            texts = {"specs/Facts.antt": FACTS, "specs/Laws.antt": LAWS, "src/lib.rt": SOURCE.replace("CLAUSE", clause)}
            for path, text in texts.items():
                with open(f"crates/{name}/{path}", "w", encoding="utf-8") as file:
                    file.write(text.replace("NAME", name))
            path = f"crates/{name}/src/lib.rt"
            yield [(path, it) for it in sources.functions_in(sources.text_of(path))]
        finally:
            os.chdir(before)


def names(records):
    return sorted(it.name for it in records)


class OfStatements(unittest.TestCase):
    """Imports, definitions and the parts of a type."""

    def test_imports(self):
        self.assertEqual(dict(statements.imported("A.{B.c, d as e, F.{g, H.i}}")), {"c": "A.B.c", "e": "A.d", "g": "A.F.g", "i": "A.F.H.i"})

    def test_definitions(self):
        with crate("toy_definitions"):
            found = statements.definitions("crates/toy_definitions/specs/Facts.antt")
            self.assertEqual({it.name: len(it.says) for it in found.values()}, {"Value": 1, "IsBegun": 1, "IsDone": 1, "IsKept": 2})
            self.assertEqual(found["IsBegun"].says, ("value.count ≡ 0",))
            self.assertEqual([it.name for it in found.values() if premises.is_fact(it)], ["IsBegun", "IsDone", "IsKept"])

    def test_parts(self):
        tree = statements.tree_of("(a b : A) → P a × (λ x. Q x) → R }")
        self.assertEqual([len(it) for it in statements.split(tree, "→")], [1, 4, 1])
        self.assertEqual(statements.unbound(tree[0]), ("A",))
        self.assertEqual(statements.unbound(tree[5]), ("Q", "x"))


class OfPremises(unittest.TestCase):
    """The records that laws suppose, and those that clauses give."""

    def test_supposed(self):
        with crate("toy_supposed") as found:
            laws, given = premises.supposed_and_given(found)
            self.assertEqual((names(laws), given), (["IsBegun", "IsDone"], set()))
            self.assertEqual({*map(tuple, laws.values())}, {("toy_supposed::laws",)})

    def test_given_by_a_clause(self):
        with crate("toy_given", "OnTrue result (IsBegun value.new) × Done value.new") as found:
            self.assertEqual(names(premises.supposed_and_given(found)[1]), ["IsBegun", "IsDone"])

    def test_given_by_each_other_alone(self):
        with crate("toy_circle", "Begins value.new × Done value.new") as found:
            self.assertEqual(premises.supposed_and_given(found)[1], set())

    def test_refused(self):
        with crate("toy_refused", "¬ IsBegun value.new") as found:
            self.assertEqual(premises.supposed_and_given(found)[1], set())


if __name__ == "__main__":
    unittest.main()
