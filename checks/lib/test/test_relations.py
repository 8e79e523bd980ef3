"""Which relations checks/form takes for ones that hold of everything, on small texts as they stood in versions before."""

import unittest

from lib.form import relations

# What a file of the system gave and refused, and the callers that handed it on by a name.
OPENED = """impl<F: SectorFile> ToldFile for OpenedFile<F> {
    ghost told = { λ file. file };

    // What the system's read gave is what it gave: std names no bytes of a file.
    ghost gives = { λ file at bytes. Unit {0} };
}
"""
SYSTEM = """impl<S: ToldFile> DeviceFile for SystemFile<S> {
    ghost size = { λ file. file.size };

    ghost holds = { λ file sector block. GivesBlock (S.gives file.file) sector block };

    ghost refuses = { λ file first count. Unit {0} };

    ghost asked = { λ file first. Asked S.told (S.gives file.file) first };
}
"""
OPENING = """// Reads the first sectors.
fn fill<D: DeviceFile>(file: &D, sector: &[u8; SECTOR], bytes: &mut [u8]) -> Result<(), FileFault>
    requires { 512 ≤ length bytes.old }
    ensures read { D.holds file.now 0 sector.now
        → OnOk result (AreRead (D.holds file.now) 0 bytes.new) }
    ensures err { IfErr result (λ fault. D.refuses file.now 0 1) }
{
    file.read(0, bytes)
}
"""
IMAGES = """-- Of a file of the system no bytes are named.
abbrev pub unnamed : ℕ → List ℕ → Type 0
unnamed sector block = GivesBlock (λ at bytes. Unit {0}) sector block

abbrev pub untold : ℕ → ℕ → Type 0
untold first count = Unit {0}

-- through a name of this file
abbrev pub anything : ℕ → ℕ → Type 0
anything first count = untold count first × (count ≡ count)

pub record IsShow (path : List ℕ) : Type 0 where
  pub shown : IsShownOf unnamed path untold
  pub wanted : Shows (λ line. line ≡ path)
"""
LIVE = """use Rattle.images.specs.Program.{untold}

abbrev pub holds_of : FileValue → ℕ → List ℕ → Type 0
holds_of file = GivesBlock (λ at bytes. Unit {0})

-- through a name of another file
abbrev pub refuses_of : FileValue → ℕ → ℕ → Type 0
refuses_of file first count =
    untold first count

abbrev pub MissesNext : FileFault → Type 0
MissesNext (fault.From why) = 1 ≤ why
MissesNext (fault.To why) = Unit {0}

pub record IsServed (file : FileValue) : Type 0 where
  pub each : LeavesOnly (λ image. Unit {0} ⊎ IsOurs image) file
  pub good : LeavesOnly (λ image. Unit {0} × IsOurs image) file
"""
OTHER = """-- another `untold`, which is none of those
abbrev pub untold : ℕ → Type 0
untold first = 1 ≤ first

abbrev pub Uses : ℕ → Type 0
Uses first = untold first
"""
TEXTS = {
    "crates/medium/src/opened_file.rt": OPENED,
    "crates/device_file/src/system.rt": SYSTEM,
    "crates/device_file/src/opening.rt": OPENING,
    "crates/images/specs/Program.antt": IMAGES,
    "crates/live/specs/Program.antt": LIVE,
    "crates/other/specs/Other.antt": OTHER,
}
FOUND = [
    ("crates/device_file/src/opening.rt: fill", "a premise of `read`: D.holds"),
    ("crates/device_file/src/system.rt: SystemFile::refuses", "a member that is constant"),
    ("crates/images/specs/Program.antt: unnamed", "an argument that is constant"),
    ("crates/images/specs/Program.antt: untold", "a definition that is constant"),
    ("crates/images/specs/Program.antt: anything", "a definition that is constant"),
    ("crates/live/specs/Program.antt: holds_of", "an argument that is constant"),
    ("crates/live/specs/Program.antt: refuses_of", "a definition that is constant"),
    ("crates/live/specs/Program.antt: IsServed.each", "an argument that is constant"),
    ("crates/medium/src/opened_file.rt: OpenedFile::gives", "a member that is constant"),
]


class OfRelations(unittest.TestCase):
    """Members, definitions and arguments that are constant, through names too, and the premises that they make empty."""

    def test_listed(self):
        self.assertEqual([(it.key, it.why) for it in relations.listed(TEXTS)], FOUND)

    def test_lines(self):
        lines = {it.key: it.line for it in relations.listed(TEXTS)}
        self.assertEqual(lines["crates/images/specs/Program.antt: untold"], 5)
        self.assertEqual(lines["crates/medium/src/opened_file.rt: OpenedFile::gives"], 5)

    def test_constants(self):
        names = relations.Names({"a.antt": ""})
        of_functions = "(λ _ _. ⊤)", "λ a. λ b. Unit", "λ b. f b ≡ f b"
        for text in (*of_functions, "Unit {0}", "⊤", "true ≡ true", "P → ⊤", "P ⊎ Unit {0}", "(⊤ × (x ≡ x))"):
            self.assertTrue(names.is_constant(text, "a.antt"), text)
        for text in ("⊥", "x ≡ y", "⊤ → P", "Unit {0} × P", "λ a. P a", "IsUnit a", "UnitStep a b"):
            self.assertFalse(names.is_constant(text, "a.antt"), text)

    def test_never(self):
        text = "impl Machine for Starting {\n    ghost exact = { ⊥ };\n\n    ghost due = { λ s. ⊥ };\n}\n"
        found = [(it.name, it.why) for it in relations.listed({"a.rt": text})]
        self.assertEqual(found, [("Starting::exact", "a member that never holds"), ("Starting::due", "a member that never holds")])


if __name__ == "__main__":
    unittest.main()
