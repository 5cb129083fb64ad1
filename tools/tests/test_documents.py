"""What the tools of documents make."""

import os
import re
import tempfile
import unittest

from bagjulen_tools.dev import call_index, crate_map, dead_names, definitions, doc_sizes, quotes
from bagjulen_tools.paths import CRATES
from bagjulen_tools.trouble import Trouble, read_file

ROOT = """\
mod line;
pub mod laws;
pub use line::{Line, cut};
"""

LINE = """\
/// A line of text.
pub struct Line {
    text: Text,
}

impl Line {
    /// The text. It has no line feed.
    pub fn text(&self) -> &Text {
        &self.text
    }

    fn inner(&self) {}
}

impl Display for Line {
    fn fmt(&self) {}
}

/// Cuts a text
/// into lines.
#[tactic(auto)]
pub fn cut() {}

/// Nobody sees it.
pub fn hidden() {}
"""

LAWS = """\
/// Each text is its lines.
pub fn lines_are_the_text();
"""


def write(path, text):
    os.makedirs(os.path.dirname(path), exist_ok=True)
    with open(path, "w", encoding="utf-8") as file:
        file.write(text)


class InAFolder(unittest.TestCase):
    def setUp(self):
        folder = tempfile.TemporaryDirectory()
        self.addCleanup(folder.cleanup)
        self.addCleanup(os.chdir, os.getcwd())
        os.chdir(folder.name)


class CrateMap(InAFolder):
    def test_arrows_that_follow_are_left_out(self):
        write("./crates.txt", "# the store\nfetch_store: sha1\n# names\nfetch_specs: fetch_store\n# tests: all\nrows: fetch_store fetch_specs\n")
        found = crate_map.crates()
        self.assertEqual([(crate.name, crate.below, crate.is_test()) for crate in found],
                         [("fetch_store", [], False), ("fetch_specs", ["fetch_store"], False), ("rows", ["fetch_store", "fetch_specs"], True)])
        self.assertEqual(list(crate_map.arrows(found)), [("fetch_specs", "fetch_store"), ("rows", "fetch_specs")])


class CallIndex(InAFolder):
    def test_what_a_root_hands_out(self):
        for name, text in (("lib", ROOT), ("line", LINE), ("laws", LAWS)):
            write(f"crates/a/src/{name}.rt", text)
        self.assertEqual(list(call_index.rows_of("a")), [
            ("a", "laws::lines_are_the_text", "crates/a/src/laws.rt", "Each text is its lines"),
            ("a", "Line::text", "crates/a/src/line.rt", "The text"),
            ("a", "cut", "crates/a/src/line.rt", "Cuts a text into lines"),
        ])


class Definitions(InAFolder):
    def test_what_is_imported_is_counted_once(self):
        write("crates/a/specs/One.antt", "-- One.\nuse Rattle.a.specs.Two.{two}\nuse Rattle.std.specs.Prelude.{x}\n\none = two\n")
        write("crates/a/specs/Two.antt", "two = x\nthree = x\n")
        below = definitions.all_below("crates/a/specs/One.antt")
        self.assertEqual((len(below), sum(map(definitions.counted, below))), (2, 3))


class Links(InAFolder):
    def test_a_link_leads_to_a_heading_and_to_a_name(self):
        write("./b.md", "# What it does, and what it doesn't\n`found`\n")
        dead = [dead_names.dead_link("a.md", shown, link) for shown, link in (
            ("b", "b.md#what-it-does-and-what-it-doesnt"), ("b", "b.md#none"), ("`found`", "b.md"), ("`lost`", "b.md"), ("c", "c.md"))]
        self.assertEqual(dead, [None, "no heading b.md#none", None, "no name lost in b.md", "no file c.md"])


class Quotations(InAFolder):
    def test_a_quotation_is_written_anew(self):
        write("crates/a/src/b.rt", "fn other() {}\n\n/// Adds.\n#[inline]\npub(crate) fn add<T>(\n    t: T,\n) {\n    one();\n}\n\nfn add_all() {}\n")
        write("crates/a/stdout", "= one\nx\ny\n= one more\nz\n")
        page = "a\n\n<!-- quoted: crates/a/{} -->\n```{}\n{}```\n\nb\n"
        for what, kind, text in (
                ("src/b.rt add", "rust", "/// Adds.\n#[inline]\npub(crate) fn add<T>(\n    t: T,\n) {\n    one();\n}\n"),
                ("src/b.rt other", "rust", "fn other() {}\n"), ("stdout one", "text", "x\ny\n"), ("stdout one more", "text", "z\n")):
            self.assertEqual(quotes.renewed(page.format(what, kind, "old\n")), page.format(what, kind, text))
        write("./README.md", page.format("stdout one", "text", "x\n"))
        self.assertEqual(list(quotes.differing()), [("README.md", page.format("stdout one", "text", "x\ny\n"))])

    def test_what_is_quoted_has_to_be_there(self):
        write("crates/a/stdout", "= one\nx\n")
        for what in ("stdout two", "src/b.rt add"):
            with self.assertRaises(Trouble):
                quotes.renewed(f"<!-- quoted: crates/a/{what} -->\n```\n```\n")

    def test_the_documents_quote_what_stands_there(self):
        os.chdir(quotes.TOP)
        self.assertEqual([page for page, _ in quotes.differing()], [])


class RowsNamed(unittest.TestCase):
    NAMED = re.compile(r"(?:long: |`\w+`: )?(?:in `(\w+)`, )?(.*?)(?: \([^()]*\d[^()]*\))?")

    def test_rows_that_meet_refusals_stand(self):
        page = read_file(os.path.join(CRATES, "..", "docs", "evidence", "refusals.md")).decode()
        tables = re.findall(r"^\| .* Rows \|\n.*\n((?:\|.*\n)+)", page, re.MULTILINE)
        cells = [line.strip("| ").split(" | ")[-1] for table in tables for line in table.splitlines()]
        named = [row for cell in cells for row in cell.split("; ") if row != "those above"]
        self.assertGreater(len(named), 150)
        for row in named:
            crate, title = self.NAMED.fullmatch(row).groups()
            rows = read_file(os.path.join(CRATES, crate or "fetch_rows", "stdin"))
            self.assertRegex(rows, rb"(?m)^= (?:\w+ )?%b$" % re.escape(title.encode()), row)


class Sizes(unittest.TestCase):
    def test_what_is_too_long(self):
        promise, words = " ".join(["x"] * 26), " ".join(["x"] * 901)
        for path, text, found in (
                ("README.md", "x\n" * 111, ["README.md: 111 lines, where 110 may be"]),
                ("README.md", f"| {promise} |\n", []),
                ("crates/a/README.md", f"| a | {promise} |\n", ["crates/a/README.md:1: 26 words in a promise, where 25 may be"]),
                ("crates/a/README.md", f"- `A::b`: {promise} (`c`, `d`)\n  - {promise}\n- {promise}\n", [
                    f"crates/a/README.md:{line}: 26 words in a promise, where 25 may be" for line in (1, 2)]),
                ("crates/a/README.md", f"- `A::b`, `c`: {promise[2:]} (`c`)\n", []),
                ("crates/a_rows/README.md", f"| a | {promise} |\n", []),
                ("crates/a_rows/README.md", words, ["crates/a_rows/README.md: 901 words, where 900 may be"])):
            self.assertEqual(list(doc_sizes.too_long(path, text)), found)

    def test_what_is_quoted_is_counted(self):
        quoted = "<!-- quoted: crates/a/stdout one -->\n```text\n" + "x\n" * 110 + "```"
        self.assertEqual(doc_sizes.count(f"| a | b |\n\n{quoted}\n"), 122)
        self.assertEqual(list(doc_sizes.too_long("README.md", quoted)), ["README.md: 112 lines, where 110 may be"])


if __name__ == "__main__":
    unittest.main()
