"""What checks/form counts in C, in names and in sentences, what it takes for a branch on the format, and which parameters it counts."""

import unittest

from lib import c_text
from lib.form import borders, documents, functions, names


def lines(count, text):
    return [*count(c_text.tree_of(text))]


class OfParameters(unittest.TestCase):
    """The parts between brackets, as parameters stand there."""

    def test_parts(self):
        for text, many in (("()", 0), ("(&self)", 1), ("(a: u8, b: [u8; 2],\n)", 2), ("(a: Vec<(u8, u8)>, b: &dyn Fn(u8) -> Option<u8>, c: u8)", 3)):
            self.assertEqual(len(functions.parts_of(text)), many, text)


class OfC(unittest.TestCase):
    """Conditionals within conditionals, and comma operators, by their lines."""

    def test_conditionals_within_conditionals(self):
        for text in ("a = b ? c : d ? e : f;", "return a ? (b ? c : d) : e;", "a = f(b ? c : d) ? e : g;"):
            self.assertEqual(lines(c_text.nested_conditionals, text), [1], text)

    def test_conditionals_beside_each_other(self):
        for text in ("f(a ? b : c, d ? e : g);", "a = b ? c : d;\ne = f ? g : h;", 'puts("a ? b : c ? d : e");', "/* a ? b ? c */ d();"):
            self.assertEqual(lines(c_text.nested_conditionals, text), [], text)

    def test_comma_operators(self):
        for text in ("{ a = 1, b = 2; }", "return f(), -1;", "for (i = 0; i < n; i++, j--) g();", "while (a(), b) c();", "if (a) (void)b, (void)c;"):
            self.assertEqual(lines(c_text.comma_operators, text), [1], text)

    def test_commas_that_separate(self):
        for text in (
            "uint32_t a = b ? c : d, e = 0;",
            "struct a *b, *c = f(d, e);",
            "int a[] = { 1, 2 }, b;",
            "enum { A, B };",
            "static struct { int a; } b[2], c[3];",
            "static int f(int a, int b)\n{\n    return g(a, b);\n}\nint c, d;",
            "for (int i = 0, j = 1; i < j; i++) f(i, j);",
            "switch (a) { case 1: f(a, b); default: g((struct c){ 1, 2 }, d); }",
        ):
            self.assertEqual(lines(c_text.comma_operators, text), [], text)


class OnTheFormat(unittest.TestCase):
    """Branches on the format of a log, however they are spelled."""

    def test_code(self):
        spelled = "LogFormat::One => 1,", "if sizes.format != LogFormat::Two {", "if format.migrates() {", "format.flushes() == 1", "match version {"
        for line in spelled:
            self.assertIsNotNone(borders.BRANCHES.search(line), line)
        others = '"1" => Some(LogFormat::One),', "make(m, LogFormat::One, blocks)", "LogFormat::Two => 2,", "match LogFormat::of_version(version) {"
        for line in others:
            self.assertIsNone(borders.BRANCHES.search(line), line)

    def test_equations(self):
        for line in ("steps_for One count = count + 4", "  room LogFormat.Two n = 1", "IsTryOf Two shape image =", "most_steps Two = 250"):
            self.assertIsNotNone(borders.EQUATIONS.search(line), line)
        for line in ("line_of (Two bytes) = data_line bytes", "room = room_of Two 64", "pub one : shape.format ≡ One"):
            self.assertIsNone(borders.EQUATIONS.search(line), line)

    def test_premises(self):
        for line in ("shape.format ≡ One", "format ≡ 2 → told", "sup.now.format ≡ LogFormat.Two"):
            self.assertIsNotNone(borders.PREMISES.search(line), line)


if __name__ == "__main__":
    unittest.main()


class OfNames(unittest.TestCase):
    """Definitions that name no thing, and what a line declares."""

    def test_words(self):
        for name, words in (("IsToldAt", ["Is", "Told", "At"]), ("told_place", ["told", "place"]), ("USBDisk2", ["USB", "Disk2"]), ("next", ["next"])):
            self.assertEqual(names.words_of(name), words)

    def test_of_no_thing(self):
        for name in ("SendsIn", "PlaysOut", "GoesOn", "Begins", "IsAt"):
            self.assertTrue(names.names_no_thing(name, {"book"}), name)
        for name in ("NextPost", "HasHeadroom", "Book", "BUSY", "begins", "IsReadAt"):
            self.assertFalse(names.names_no_thing(name, {"book"}), name)

    def test_declared(self):
        spelled = {"pub told : Nat": "told", "  pub record Told (a : T)": "Told", "abbrev pub told_by (n : Nat)": "told_by", "    told : IsTrue": "told"}
        for line, name in spelled.items():
            found = names.DECLARES.match(line)
            self.assertEqual(found[1] or found[2], name, line)
        for line in ("use Rattle.a.specs.Told.{told}", "pub use Rattle.a.specs.Told.{told}", "-- told : T", "pub open told use *"):
            self.assertIsNone(names.DECLARES.match(line), line)


class OfSentences(unittest.TestCase):
    """Where a sentence of a document ends."""

    def test_ends(self):
        for lines, sizes in (
            (["One two", "three. Four five."], [3, 2]),
            (["One two", "", "three four"], [2, 2]),
            (["One:", "- two three", "- four. Five"], [1, 2, 1, 1]),
            (["Is it? (It is.) So `a.b` stays."], [2, 2, 3]),
        ):
            self.assertEqual([len(it) for it in documents.sentences_of(lines)], sizes, lines)
