"""What is read of sources and of edits."""

import tempfile
import unittest

from lib import sources
from lib.edits import edit, narrowing
from lib.test import toy

TRAIT = """pub trait Device<T> {
    /// Gives up.
    fn stop(&mut self)
        requires open { self.old.is_open }
        ensures { self.new.is_open ≡ false };

    fn name(&self) -> u8
        ensures named {
            result ≡ 1 }
    {
        1
    }
}

impl<M: Model<Of = u8>> Device<M> for Disk<M> {
    fn stop(&mut self) {
        self.is_open = false;
    }
}

impl Disk<u8> {
    pub(crate) const fn size(
        &self,
    ) -> u64
    {
        8
    }
}
"""
LOOP = """pub trait Machine {
    /// It was refused.
    fn refused(&mut self);
}

pub fn drive<T: Machine>(machine: &mut T) {
    while true {
        machine.refused();
    }
}
"""


class Functions(unittest.TestCase):
    """Functions with their owners, bodies and clauses."""

    def setUp(self):
        self.stop, self.name, self.given, self.size = sources.functions_in(TRAIT)

    def test_owners(self):
        self.assertEqual([it.owner.name for it in (self.stop, self.given, self.size)], ["Device", "DiskDevice", "Disk"])
        self.assertEqual([it.owner.trait for it in (self.stop, self.given, self.size)], ["Device", "Device", None])
        self.assertEqual([it.owner.is_inherent for it in (self.stop, self.given, self.size)], [False, False, True])

    def test_bodies(self):
        self.assertEqual([it.size for it in (self.stop, self.name, self.given, self.size)], [0, 1, 1, 1])
        self.assertEqual([it.is_declared_alone for it in (self.stop, self.name, self.given, self.size)], [True, True, False, False])
        self.assertEqual(sources.function_around(TRAIT, TRAIT.index("        1\n")).name, "name")
        self.assertIsNone(sources.function_around(TRAIT, TRAIT.index("self.old.is_open")))

    def test_a_loop_behind_a_trait_is_no_body_of_its_last_method(self):
        refused, drive = sources.functions_in(LOOP)
        self.assertEqual((refused.size, drive.size), (0, 3))
        self.assertEqual(sources.function_around(LOOP, LOOP.index("machine.refused();")), drive)

    def test_clauses(self):
        self.assertEqual(self.name.clauses, [sources.Clause("ensures", "named", " result ≡ 1 }")])
        self.assertEqual([(it.word, it.name) for it in self.stop.declared_clauses], [("requires", "open"), ("ensures", "ensures")])

    def test_only_what_all_may_call_is_public(self):
        found = sources.functions_in("pub fn a() {\n}\npub(crate) fn b() {\n}\nfn c() {\n}\n")
        self.assertEqual([it.is_public for it in found], [True, False, False])


class OfToy(unittest.TestCase):
    """Reads edits of the toy crate."""

    def setUp(self):
        self.room = tempfile.TemporaryDirectory()
        self.addCleanup(self.room.cleanup)
        self.crate = toy.Crate("toy", toy.lay(self.room.name))

    def read(self, text, line="", name="tried"):
        """The edit of this text, with this line."""
        path = f"{self.crate.folder}/edits/{name}.edit"
        with open(path, "w", encoding="utf-8") as file:
            file.write(text)
        narrowing.write(edit.read(self.crate, path), narrowing.of_words(line.split()))
        return edit.read(self.crate, path)


class Edits(OfToy):
    """Which texts an edit changes, and whose body that is."""

    def test_a_body(self):
        found = self.read("file: src/lib.rt\nold: self.is_set = true\nnew: self.is_set = false\n", "untried: a b tried: c g")
        self.assertEqual((found.why, found.function, found.untried, found.tried), (None, "toy::Mark::set", ("a", "b"), ("c", "g")))
        self.assertEqual((found.is_narrowed, found.asked), (True, "c"))
        self.assertIn("        self.is_set = false;\n", found.texts["src/lib.rt"])

    def test_a_whole_line_has_its_indent(self):
        found = self.read("file: src/lib.rt\nline: return TWO;\nnew: return 3;\n")
        self.assertIn("    if number == 1 {\n        return 3;\n    }\n", found.texts["src/lib.rt"])

    def test_a_constant_and_two_bodies_are_no_functions(self):
        self.assertIsNone(self.read("file: src/lib.rt\nold: u32 = 2\nnew: u32 = 3\n").function)
        self.assertIsNone(self.read("file: src/lib.rt\nold: !is_empty\nnew: is_empty\nold: 5 } else\nnew: 6 } else\n").function)

    def test_the_functions_own_proof_belongs_to_it(self):
        text = "file: src/lib.rt\nold: { 2 } else\nnew: { 3 } else\nfile: proofs/proved/Answers.antt\nold: search rules\nnew: refl\n"
        self.assertEqual(self.read(text).function, "toy::proved")

    def test_what_cannot_be_applied(self):
        for text in ("", "file: src/lib.rt\nold: none\nnew: a\n", "file: src/lib.rt\nold: number\nnew: a\n", "file: ../a\nold: b\nnew: c\n"):
            self.assertTrue(self.read(text).why, text)
        self.assertEqual(self.read("file: src/lib.rt\nold: TWO: u32\nnew: TWO: u32\n").why, "it changes nothing")


if __name__ == "__main__":
    unittest.main()
