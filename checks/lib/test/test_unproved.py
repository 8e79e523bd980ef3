"""What is built without a proof: a library as a program that reaches its exports, its module as a library again, and that nothing takes it for a proved
one."""

import os
import sys
import tempfile
import unittest
from unittest import mock

from lib import programs, sources

sys.path.insert(0, f"{sources.ROOT}/scripts")
import crates
import unproved

LIBRARY = """//! A library.
#![tactic(auto)]

mod exports;

pub use exports::{toy_start, toy_version};
"""
EXPORTS = """pub extern "C" fn toy_version() -> u32
    ensures { TellsVersion result }
{
    1
}

pub extern "C" fn toy_start(
    alloc: Global,
    bytes: &[u8; 8],
) -> u32 {
    inner(bytes)
}

pub fn inner(bytes: &[u8; 8]) -> u32 {
    0
}
"""
MODULE = """define internal noundef i32 @"toy::exports::toy_start"(ptr noundef %a0) #0 {
  %1 = call i32 @"toy::exports::inner"(ptr %a0)
}

define internal i32 @"toy::exports::inner"(ptr noundef %a0) #0 {
  ret i32 0
}

define internal noundef i32 @"toy::exports::toy_version"() #0 {
  ret i32 1
}

define i32 @main() #0 {
  %1 = call i32 @"toy::exports::toy_start"(ptr null)
}
"""


class Library(unittest.TestCase):
    def test_each_export_is_found_with_its_parameters(self):
        self.assertEqual(unproved.exports_of([LIBRARY, EXPORTS]), [("toy_version", 0), ("toy_start", 2)])

    def test_the_exports_of_the_library_for_c_are_those_of_its_header(self):
        texts = [crates.text_of(it) for it in crates.files_below(f"{sources.ROOT}/crates/usbdisk_c/src")]
        header = crates.text_of(f"{sources.ROOT}/include/usbdisk.h")
        names = [name for name, _ in unproved.exports_of(texts)]
        self.assertEqual(sorted(names), sorted(unproved.re.findall(r"^uint\d+_t (usbdisk_\w+)\(", header, unproved.re.M)))

    def test_the_program_calls_each_export_once(self):
        text = unproved.as_program(LIBRARY, [("toy_version", 0), ("toy_start", 2)])
        self.assertIn("    toy_version();\n    toy_start(none(), none());\n", text)
        self.assertIn("\nuse exports::{toy_start, toy_version};\n", text)

    def test_of_the_module_the_exports_alone_can_be_called(self):
        text = unproved.as_library(MODULE, ["toy_version", "toy_start"])
        heads = [it for it in text.splitlines() if it.startswith("define ")]
        self.assertEqual([it.split("@")[1].split("(")[0] for it in heads if not it.startswith("define internal ")], ["toy_start", "toy_version"])
        self.assertIn('define internal i32 @"toy::exports::inner"(', text)
        self.assertIn("call i32 @toy_start(ptr null)", text)
        self.assertIn("define internal i32 @main(", text)


class Apart(unittest.TestCase):
    """What is built without a proof has no name, folder or sum of what is proved."""

    def test_it_has_another_folder_and_another_name(self):
        for name in unproved.BUILT:
            path = unproved.path_of(name)
            self.assertFalse(path.startswith(f"{crates.ROOT}/crates/"))
            self.assertNotIn(os.path.basename(path), (name, f"lib{name}.a", f"{name}.ll"))

    def test_what_it_was_made_of_is_no_sum_of_what_is_proved(self):
        for name in unproved.BUILT:
            self.assertNotEqual(unproved.made_of(name), crates.sum_of(name))

    def test_behind_a_build_there_is_no_sum(self):
        def make(rt, name, path, room):
            with open(path, "w", encoding="utf-8") as file:
                file.write("made")

        with tempfile.TemporaryDirectory() as room:
            with mock.patch("unproved.FOLDER", room), mock.patch("unproved.make", make), mock.patch("crates.toolchain"):
                self.assertIsNone(unproved.build("usbdisk_c"))
                self.assertEqual(sorted(os.listdir(room)), ["libusbdisk_c_unproved.a", "usbdisk_c.lock", "usbdisk_c.text"])

    def test_a_build_of_this_text_is_not_made_again_and_one_of_another_is(self):
        made = []

        def make(rt, name, path, room):
            made.append(name)
            with open(path, "w", encoding="utf-8") as file:
                file.write("made")

        with tempfile.TemporaryDirectory() as room:
            with mock.patch("unproved.FOLDER", room), mock.patch("unproved.make", make), mock.patch("crates.toolchain"):
                unproved.build("page")
                unproved.build("page")
                self.assertEqual(made, ["page"])
                with mock.patch("crates.sum_of", lambda name: "another"):
                    unproved.build("page")
                self.assertEqual(made, ["page", "page"])

    def test_no_part_of_the_gate_asks_for_it(self):
        self.assertNotIn("--unproved", crates.text_of(f"{sources.ROOT}/checks/all"))


class Words(unittest.TestCase):
    def test_the_word_is_no_other_word_of_the_check(self):
        with mock.patch("sys.argv", ["checks/images", "--unproved", "7"]):
            self.assertTrue(programs.is_unproved())
            self.assertEqual(programs.words_given(), ["7"])
        with mock.patch("sys.argv", ["checks/images", "7"]):
            self.assertFalse(programs.is_unproved())


if __name__ == "__main__":
    unittest.main()
