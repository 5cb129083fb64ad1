"""The book of words, and what breaks its rules."""

import unittest

from bagjulen_tools.dev import words

LINES = """\
-- Lines.
use Rattle.std.specs.Prelude.{ℕ, List, [], ◌∷◌, ◌++◌}
use Rattle.base.specs.Texts.{feed as lf}

-- a text with its line feed
abbrev pub with_feed : List ℕ → List ℕ
with_feed text = text ++ lf ∷ []

abbrev hidden : ℕ
hidden = 1

-- ---- what follows

-- It is a line.
pub record IsLine {X : Type 0} (old new : List ℕ) (told : X → Type 0)
    (one two : List ℕ) (last : X) : Type 0 where
  -- its text
  pub text : old ≡ new
  pub end : one ≡ two

-- all of them
unfoldable pub listed : (a b : ℕ) → {c : ℕ} → (ℕ → ℕ) → List (List ℕ) → List ℕ
unfolding with_feed
listed a b f [] = []
listed a b f (x ∷ xs) = with_feed x ++ listed a b f xs
"""

SAME = """\
use Rattle.std.specs.Prelude.{ℕ, List, [], ◌∷◌, ◌++◌}
use Rattle.base.specs.Texts.{feed}

-- a line
abbrev pub line : List ℕ → List ℕ
line bytes = bytes ++ feed ∷ []

-- another feed
abbrev pub listed : ℕ
listed = 2
"""

CODE = """\
//! Lines.

/// A line.
#[derive(Debug)]
pub struct Line {
    text: Text,
}

impl Line {
    /// How long.
    pub fn held(&self) -> usize
        ensures one { result ≡ 1 }
        ensures two {
            result ≡ 2 }
    {
        self.text.len()
    }
}

fn first(texts: &[Text]) -> usize
    ensures { result ≡ 1 }
{
    let count = texts.len();
    count + 1
}

pub(crate) fn second(names: &[Text]) -> usize {
    let all = names.len();
    all + 1
}

fn third(names: &[Text]) -> usize {
    let all = names.len();
    all + 2
}
"""


class Book(unittest.TestCase):
    def setUp(self):
        self.definitions = [*words.definitions_in("crates/lines/specs/Lines.antt", LINES),
                            *words.definitions_in("crates/scene/specs/Same.antt", SAME)]
        self.functions = words.functions_in("crates/lines/src/line.rt", CODE)

    def breaches(self, calls=frozenset()):
        found = {}
        for kind, what in words.breaches(self.definitions, self.functions, calls):
            found.setdefault(kind, []).append(what)
        return found

    def test_public_definitions_and_their_lines(self):
        self.assertEqual([(each.name, each.kind, each.says) for each in self.definitions[:3]],
                         [("with_feed", "definition", "a text with its line feed"), ("IsLine", "record", "It is a line."),
                          ("listed", "definition", "all of them")])

    def test_parameters_of_heads_of_several_lines(self):
        self.assertEqual([len(words.parameters(each.head)) for each in self.definitions if each.kind == "record"], [7])
        self.assertEqual([words.arrows(each.head) for each in self.definitions if each.kind != "record"], [1, 5, 1, 0])
        self.assertEqual(self.breaches()[words.MANY_PARAMETERS], ["crates/lines/specs/Lines.antt: IsLine has 7"])

    def test_a_body_that_stands_twice_under_other_names(self):
        self.assertEqual(self.breaches()[words.SPECS_TWICE], ["crates/lines/specs/Lines.antt: with_feed = crates/scene/specs/Same.antt: line"])
        self.assertEqual(self.breaches()[words.CODE_TWICE], ["crates/lines/src/line.rt: first = crates/lines/src/line.rt: second"])

    def test_a_name_with_two_meanings(self):
        self.assertEqual(self.breaches()[words.NAMES_TWICE], ["listed: crates/lines/specs/Lines.antt, crates/scene/specs/Same.antt"])

    def test_bare_participles(self):
        self.assertEqual([name for name in ("listed", "held", "need", "count_held", "Held", "unread") if words.is_participle(name)],
                         ["listed", "held", "unread"])
        self.assertEqual(self.breaches()[words.FUNCTION_PARTICIPLES], ["crates/lines/src/line.rt: Line::held"])

    def test_clauses_of_public_calls(self):
        most, words.CLAUSES = words.CLAUSES, 1
        try:
            self.assertNotIn(words.MANY_CLAUSES, self.breaches())
            self.assertEqual(self.breaches({"crates/lines/src/line.rt: Line::held"})[words.MANY_CLAUSES],
                             ["crates/lines/src/line.rt: Line::held has 2"])
        finally:
            words.CLAUSES = most

    def test_rows_have_facts_and_calls(self):
        rows = words.rows(self.definitions, [["lines", "Line::held", "crates/lines/src/line.rt", "How long"]])
        self.assertEqual([row[:2] for row in rows],
                         [["with_feed", "definition"], ["IsLine", "record"], ["IsLine.text", "fact"], ["IsLine.end", "fact"],
                          ["listed", "definition"], ["line", "definition"], ["listed", "definition"], ["Line::held", "call"]])
        self.assertEqual(rows[2][4], "its text")
        self.assertEqual(rows[7], ["Line::held", "call", "lines", "crates/lines/src/line.rt", "How long"])


if __name__ == "__main__":
    unittest.main()
