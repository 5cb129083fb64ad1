"""What is long, undocumented, or named in a document and nowhere else."""

import os
import tempfile
import unittest

from bagjulen_tools.dev import dead_names, survey

CODE = """\
//! A file.

/// Of a peer.
pub trait Peer {
    /// With a comment.
    fn send(&mut self);

    fn receive(&mut self);
}

/// Of a fault.
pub enum Fault {
    /// With a comment.
    Failed { path: Text },
    Late { path: Text },
    Lost(u64),
}

/// Of a line.
pub struct Line {
    pub text: Text,
}

// Many arguments: it is a test.
fn seven(a: u8, b: u8, c: u8, d: u8, e: u8, f: u8, g: Map<u8, u8>) {}

fn eight(a: u8, b: u8, c: u8, d: u8, e: u8, f: u8, g: u8, h: u8) {}

pub(crate) fn six<R: Fn(u8, u8) -> Map<u8, u8>>(a: u8, b: &[u8; 2], c: (u8, u8), d: u8, e: u8, f: R) -> (u8, u8) {}

pub(super) fn nine(
    &self,
    a: u8,
    b: u8,
    c: u8,
    d: u8,
    e: u8,
    f: u8,
    g: u8,
    h: &mut dyn Fn(u8) -> u8,
) -> Result<(), Map<u8, u8>>
    requires { a, b }
{}

fn late(text: &mut Text, out: Vec<u8>, alloc: Global) {}

fn early(text: &Text, alloc: Global, out: &mut Vec<u8>) {}
"""

TYPES = """\
/// It is copied.
#[derive(Debug, Drop)]
pub struct Copied<T> {
    inside: T,
}

impl<T: TryClone> Copied<T> {
    pub fn new() -> Copied<T> {}

    /// The same.
    pub fn try_clone(&self) -> Result<Copied<T>, NoMemory> {}
}

#[derive(Drop)]
pub enum Cloned {
    One,
}

impl TryClone for Cloned {
    fn try_clone(&self) -> Result<Cloned, NoMemory> {}
}

/// It isn't.
#[derive(Drop)]
pub struct Uncopied {
    inside: u8,
}

impl Uncopied {
    pub fn new() -> Uncopied {}
}

// Not copied: it is handed on.
#[derive(Drop)]
pub struct Handed {
    inside: u8,
}

#[derive(Drop)]
pub struct Loan<'a> {
    inside: &'a u8,
}

#[derive(Clone, Copy)]
pub struct Plain {
    inside: u8,
}
"""


DEFINITIONS = """\
-- Definitions.
use a.{b}
pub mod c

-- with a comment
abbrev pub one : Type 0
one = two

pub record Two : Type 0 where
  pub field : one
"""

CONTRACTS = """\
fn long(a: u8) -> u8
    requires { a }
    ensures held { b
        (c) }
    ensures* cause { d }
{
    short();
    a
}

fn short() {}
"""

RECORDS = """\
-- It is done.
pub record IsDone {X E : Type 0} (old new : ℕ) : Type 0 where
  pub one : old ≡ new
  pub two :
    (x : X) → E

pub record Line : Type 0 where
  pub text : List ℕ

pub record IsLong {X : Type 0} (old new : ℕ) (told : X → Type 0)
    (one two : List ℕ) (last : X) : Type 0 where
  pub one : old ≡ new
"""


class Survey(unittest.TestCase):
    def setUp(self):
        self.lines = [survey.Line(number, text) for number, text in enumerate(CODE.splitlines(), 1)]

    def test_what_has_no_doc_comment(self):
        found = [each.split(": ")[1].split()[0] for each in survey.undocumented("a.rt", self.lines)]
        self.assertEqual(found, ["receive", "Late", "Lost", "text"])

    def test_a_reason_stands_for_the_arguments(self):
        self.assertEqual([each.partition(": ")[2] for _, each in survey.functions("a.rt", self.lines)],
                         ["eight has 8 arguments", "nine has 9 arguments", "late has its output before the allocator"])

    def test_owning_types_that_cant_be_copied(self):
        lines = [survey.Line(number, text) for number, text in enumerate(TYPES.splitlines(), 1)]
        copied = set(survey.copied_in(lines))
        self.assertEqual(copied, {"Copied", "Cloned"})
        self.assertEqual([each.partition(": ")[2] for each in survey.uncopied("a.rt", lines, copied)],
                         ["Uncopied has no try_clone"])

    def test_wide_lines(self):
        lines = [survey.Line(1, "x" * 140), survey.Line(2, "≡" * 141)]
        self.assertEqual(list(survey.wide("A.antt", lines)), ["A.antt:2: 141 columns"])

    def test_definitions_without_a_comment(self):
        lines = [survey.Line(number, text) for number, text in enumerate(DEFINITIONS.splitlines(), 1)]
        self.assertEqual(list(survey.uncommented("A.antt", lines)), ["A.antt:9: Two has no comment"])


    def test_what_a_contract_asks(self):
        lines = [survey.Line(number, text) for number, text in enumerate(CONTRACTS.splitlines(), 1)]
        self.assertEqual(list(survey.clauses_of("a.rt", lines)), [(["held", "cause"], "long", "a.rt"), ([], "short", "a.rt")])
        self.assertEqual(survey.code_lines(survey.body_of(lines, 0)), 5)
        lines = [survey.Line(number, text) for number, text in enumerate(RECORDS.splitlines(), 1)]
        self.assertEqual(list(survey.records_of("A.antt", lines)), [
            (4, 2, "IsDone", "A.antt"), (0, 1, "Line", "A.antt"), (7, 1, "IsLong", "A.antt")])


class DeadNames(unittest.TestCase):
    def test_what_is_named_and_not_there(self):
        with tempfile.TemporaryDirectory() as folder:
            document = os.path.join(folder, "README.md")
            with open(document, "w", encoding="utf-8") as file:
                file.write("`Peer::send`, `Peer::lost`, `lines/line.rt`, `lines/no.rt`\n    `example`\n[a](none.md) docs/no.md\n")
            found = dead_names.dead_in(document, ["crates/a/src/lines/line.rt"], {"Peer", "send"})
            self.assertEqual([each.partition(":")[2] for each in found],
                             ["1: no name lost", "1: no file lines/no.rt", "3: no file none.md", "3: no file docs/no.md"])

    def test_the_documents(self):
        self.addCleanup(os.chdir, os.getcwd())
        self.assertEqual(dead_names.main([]), 0)


if __name__ == "__main__":
    unittest.main()
