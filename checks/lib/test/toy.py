"""A small crate, edits of it, and what the prover has to be understood to say of them. `checks/tools --record` asks it, and the tests read what it
said."""

import dataclasses
import os

from lib.edits import narrowing

SOURCE = """//! What checks/tools asks the prover about.
#![tactic(auto)]
ghost use Rattle.std.specs.Prelude.{◌≡◌, ◌↔◌, ◌<◌, Bool, IsTrue, false, length, true};

use std::marker::Model;

/// What `other` answers for one.
pub const TWO: u32 = 2;

/// Whether there is no byte.
pub fn is_empty(bytes: &[u8]) -> bool
    ensures { IsTrue result ↔ (length bytes.now ≡ 0) }
{
    bytes.len() == 0
}

/// Whether there is a byte.
pub fn is_full(bytes: &[u8]) -> bool
    ensures { IsTrue result ↔ (length bytes.now ≡ 0 → IsTrue false) }
{
    !is_empty(bytes)
}

/// Another number for one and for two.
pub fn other(number: u32) -> u32
    ensures one { number ≡ 1 → result ≡ 2 }
    ensures more { number ≡ 2 → result ≡ 5 }
{
    if number == 1 {
        return TWO;
    }
    if number == 2 { 5 } else { number }
}

/// Another number for one, with a proof file.
pub fn proved(number: u32) -> u32
    ensures one { number ≡ 1 → result ≡ 2 }
{
    if number == 1 { 2 } else { number }
}

/// Whether there is a byte, with a proof that names the call.
pub fn named(bytes: &[u8], number: u32) -> bool
    requires { number < 8 }
    ensures { IsTrue result ↔ (length bytes.now ≡ 0 → IsTrue false) }
{
    let empty = is_empty(bytes);
    !empty
}

/// A mark that can be set and taken.
pub struct Mark {
    is_set: bool,
}

impl Model for Mark {
    ghost Value = { Bool };

    ghost view = { λ mark. mark.is_set };
}

impl Mark {
    /// Sets it.
    pub fn set(&mut self)
        ensures { self.new ≡ true }
    {
        self.is_set = true;
    }

    /// Whether it was set; it is not behind that.
    pub fn take(&mut self) -> bool
        ensures told { result ≡ self.old }
        ensures left { self.new ≡ false }
    {
        std::mem::take(&mut self.is_set)
    }
}
"""
ANSWERS = """use Rattle.std.proofs.Common.{rules}
use Rattle.toy.proofs.proved.Goals as goal

pub returns-then-number-eq1 : goal.returns-then-number-eq1
returns-then-number-eq1 c = search rules
"""
NAMED = """use Rattle.std.proofs.Common.{rules}
use Rattle.toy.{proofs.{named.Goals.returns as wanted}}
use Rattle.toy.proofs.named.Goals as goal

held : wanted → wanted
held it = it

pub returns : goal.returns
returns c = let said = c.is_empty-empty.ensures in held (λ c. search rules) c
"""
ONE, MORE = "returns-then-number-eq1-clause-one", "returns-then-number-eq2-clause-more"
PROVED = "returns-then-number-eq1"
CONTROL = "empty_is_less_than_one.control"
EDITS = {
    "empty_is_one_byte.edit": "file: src/lib.rt\nold: bytes.len() == 0\nnew: bytes.len() == 1\n",
    CONTROL: "file: src/lib.rt\nold: bytes.len() == 0\nnew: bytes.len() < 1\n",
    "full_is_empty.edit": "file: src/lib.rt\nold: !is_empty(bytes)\nnew: is_empty(bytes)\n",
    "both.edit": "file: src/lib.rt\nold: bytes.len() == 0\nnew: bytes.len() == 1\nold: 5 } else\nnew: 6 } else\n",
    "one_is_three.edit": "file: src/lib.rt\nline: return TWO;\nnew: return 3;\n",
    "two_is_six.edit": "file: src/lib.rt\nold: 5 } else\nnew: 6 } else\n",
    "others_are_seven.edit": "file: src/lib.rt\nold: { 5 } else { number }\nnew: { 5 } else { 7 }\n",
    "names_no_goal.edit": "file: src/lib.rt\nold: 5 } else\nnew: 6 } else\n",
    "leaves_all.edit": "file: src/lib.rt\nold: 5 } else\nnew: 6 } else\n",
    "two_is_still_five.edit": "file: src/lib.rt\nold: 5 } else\nnew: 2 + 3 } else\n",
    "two_is_three.edit": "file: src/lib.rt\nold: TWO: u32 = 2\nnew: TWO: u32 = 3\n",
    "a_name_of_none.edit": "file: src/lib.rt\nold: bytes.len() == 0\nnew: bytes.len() == none\n",
    "a_clause_of_none.edit": "file: src/lib.rt\nold: self.new ≡ true\nnew: self.new ≡ none_such\n",
    "turned_around.edit": "file: src/lib.rt\nold: if number == 1 { 2 } else { number }\nnew: if number != 1 { number } else { 2 }\n",
    "proved_is_three.edit": "file: src/lib.rt\nold: if number == 1 { 2 }\nnew: if number == 1 { 3 }\n",
    "turned_alone.edit": "file: src/lib.rt\nold: if number == 1 { 2 } else { number }\nnew: if number != 1 { number } else { 2 }\n",
    "proved_is_four.edit": "file: src/lib.rt\nold: if number == 1 { 2 }\nnew: if number == 1 { 4 }\n",
    "names_no_answer.edit": "file: src/lib.rt\nold: 5 } else\nnew: 6 } else\n",
    "asks_the_length.edit": "file: src/lib.rt\nold: let empty = is_empty(bytes);\nnew: let _more = number + 1; let empty = bytes.len() == 0;\n",
    "named_is_empty.edit": "file: src/lib.rt\nold: !empty\nnew: empty\n",
    "named_in_brackets.control": "file: src/lib.rt\nold: !empty\nnew: (!empty)\n",
    "sets_nothing.edit": "file: src/lib.rt\nold: self.is_set = true;\nnew: self.is_set = false;\n",
    "leaves_the_mark.edit": "file: src/lib.rt\nold: std::mem::take(&mut self.is_set)\nnew: self.is_set\n",
    "stands_nowhere.edit": "file: src/lib.rt\nold: no such text\nnew: another\n",
}
NARROWED = {
    "one_is_three.edit": f"untried: {MORE} tried: {ONE} c",
    "two_is_six.edit": f"untried: {ONE} tried: {MORE} c",
    "names_no_goal.edit": "untried: returns-never",
    "leaves_all.edit": f"untried: {MORE}",
    "two_is_still_five.edit": f"tried: {MORE} c",
    "turned_alone.edit": f"only: {PROVED}",
    "proved_is_four.edit": f"only: {PROVED}",
    "names_no_answer.edit": f"only: {MORE}",
    "asks_the_length.edit": "untried: overflow_add-number",
}


@dataclasses.dataclass(frozen=True)
class Crate:
    """A crate, so far as copies of it are made."""

    name: str
    folder: str


@dataclasses.dataclass(frozen=True)
class Question:
    """Edits that are tried in one batch, with functions shut or not; how what is wrong with each begins, or nothing; and those that are weak."""

    name: str
    edits: tuple
    shuts: bool = True
    wrong: dict = dataclasses.field(default_factory=dict)
    weak: tuple = ()


QUESTIONS = (
    Question("bodies", ("empty_is_one_byte.edit", "full_is_empty.edit", "sets_nothing.edit", "leaves_the_mark.edit", CONTROL)),
    Question("tries", ("one_is_three.edit", "two_is_six.edit", "full_is_empty.edit")),
    Question("kept", ("one_is_three.edit", "two_is_still_five.edit"), wrong={"two_is_still_five.edit": "NOT REFUSED"}),
    Question("missed", ("others_are_seven.edit", "full_is_empty.edit"), wrong={"others_are_seven.edit": "NOT REFUSED"}),
    Question("wrong_notes", ("names_no_goal.edit", "leaves_all.edit", "sets_nothing.edit")),
    Question("whole", ("both.edit",)),
    Question("constant", ("two_is_three.edit",)),
    Question("no_name", ("a_name_of_none.edit",), wrong={"a_name_of_none.edit": "it does not reach the prover: "}),
    Question("no_clause", ("a_clause_of_none.edit",), wrong={"a_clause_of_none.edit": "it does not reach the prover: "}),
    Question("names_gone", ("turned_around.edit", "proved_is_three.edit"), weak=("turned_around.edit",)),
    Question("alone", ("proved_is_four.edit", "turned_alone.edit", "names_no_answer.edit"), weak=("turned_alone.edit",)),
    Question("names_gone_beside_a_hole", ("asks_the_length.edit",), weak=("asks_the_length.edit",)),
    Question("in_groups", ("named_is_empty.edit", "named_in_brackets.control")),
    Question("nothing_shut", ("empty_is_one_byte.edit", "sets_nothing.edit"), shuts=False),
)


def lay(room):
    """Lays the crate into a folder as a repository, and gives its folder."""
    folder = f"{room}/crates/toy"
    files = {f"{room}/crates.txt": "toy:\n", f"{folder}/src/lib.rt": SOURCE}
    files.update({f"{folder}/proofs/{name}/Answers.antt": text for name, text in (("proved", ANSWERS), ("named", NAMED))})
    files.update({f"{folder}/edits/{name}": text for name, text in EDITS.items()})
    files[f"{room}/{narrowing.PLACE}"] = "".join(f"toy/{it} {narrowing.sum_of(EDITS[it])} {NARROWED[it]}\n" for it in sorted(NARROWED))
    for path, text in files.items():
        os.makedirs(os.path.dirname(path), exist_ok=True)
        with open(path, "w", encoding="utf-8") as file:
            file.write(text)
    return folder
