#!/usr/bin/env python3
"""Tests of checklists.py, definitions.py, claim.py and links.py.

    python3 .ci/tests.py docs/tests/test_documents.py
"""

from __future__ import annotations

import contextlib
import io
import tempfile
import unittest
from pathlib import Path
from unittest import mock

import checklists
import claim
import definitions
import links


def written(top: Path, texts: dict[str, str]) -> None:
    """Writes files below a folder."""
    for name, text in texts.items():
        (top / name).parent.mkdir(parents=True, exist_ok=True)
        (top / name).write_text(text)


class Definitions(unittest.TestCase):
    def setUp(self) -> None:
        folder = tempfile.TemporaryDirectory()
        self.addCleanup(folder.cleanup)
        self.top = Path(folder.name)
        written(
            self.top,
            {
                "crates/gic_low/specs/Far.antt": "-- What is far. And more.\n",
                "crates/gic_low/specs/Law.antt": "-- What the law\n-- says.\nuse Rattle.gic_low.specs.Far.{far}\n",
                "crates/gic_low/specs/Own.antt": "",
                "crates/gic_low/specs/Lib.antt": "pub mod Far\n",
                "crates/gic_low/src/laws.rt": "ghost use Rattle.gic_low.specs.Law.{law};\n",
                "crates/gic_study/specs/Near.antt": "-- What is near.\nuse Rattle.gic_low.specs.Far.{far}\n",
                "crates/gic_study/src/study.rt": "ghost use Rattle.gic_study.specs.Near.{near};\n",
            },
        )
        headline = mock.patch.object(definitions, "HEADLINE", "crates/gic_study/src/study.rt")
        headline.start()
        self.addCleanup(headline.stop)
        self.crates = ["gic_low", "gic_study"]
        self.found = definitions.definitions(self.top, self.crates)

    def test_a_sentence_may_go_over_lines(self) -> None:
        self.assertEqual(self.found["gic_low/Law"].says, "What the law says")
        self.assertEqual(self.found["gic_low/Far"].says, "What is far")

    def test_the_list_of_a_crate_is_no_definition(self) -> None:
        self.assertNotIn("gic_low/Lib", self.found)

    def test_the_parts_follow_what_is_cited(self) -> None:
        parts = definitions.in_parts(self.top, self.crates, self.found)
        self.assertEqual(parts, [["gic_study/Near", "gic_low/Far"], ["gic_low/Law"], ["gic_low/Own"]])

    def test_a_crate_has_one_row_in_each_part(self) -> None:
        low, far, near = "**Law**: What the law says.", "**Far**: What is far.", "**Near**: What is near."
        names = ["gic_low/Law", "gic_study/Near", "gic_low/Far"]
        self.assertEqual(
            definitions.crate_rows(self.found, names, True),
            [f"| gic_low | 1 {low} 3 {far} |", f"| gic_study | 2 {near} |"],
        )
        index = definitions.index_of(self.found, [["gic_study/Near"], ["gic_low/Law", "gic_low/Far"], []])
        self.assertIn(f"| gic_study | 1 {near} |\n\n## What theorems", index)
        self.assertIn(f"\n| gic_low | {far} {low} |\n\n## What other", index)

    def test_what_other_contracts_cite_stands_by_its_name(self) -> None:
        self.assertEqual(definitions.name_lines(["gic_low/Far", "gic_study/Near", "gic_low/Law"]), ["gic_low Far, Law; gic_study Near."])
        self.assertEqual(definitions.name_lines([]), [])

    def test_crates_of_which_the_same_is_told_have_one_row(self) -> None:
        found = {
            name: definitions.Definition(name, "What it shows", [], [f"{name.partition('/')[0]}/laws.rt"])
            for name in ("gic_low/Shows", "gic_high/Shows")
        }
        self.assertEqual(
            definitions.crate_rows(found, list(found), False),
            ["| gic_low, gic_high | **Shows**: What it shows. |"],
        )

    def test_what_fits_no_line_goes_on_in_a_row_without_a_crate(self) -> None:
        with mock.patch.object(definitions, "MOST_COLUMNS", 20):
            self.assertEqual(definitions.rows_within("gic_low", ("123456", "1234567", "1")), ["| gic_low | 123456 |", "| | 1234567 1 |"])
            self.assertEqual(definitions.rows_within("gic_low", ("1" * 30,)), [f"| gic_low | {'1' * 30} |"])

    def test_where_a_definition_is_cited(self) -> None:
        self.assertEqual(self.found["gic_low/Far"].cited_in, ["gic_low/Law", "gic_study/Near"])

    def test_faults_are_told(self) -> None:
        faults = definitions.faults_of(self.found, "made", "shown", "`Far.antt` and `Gone.antt`")
        self.assertEqual(
            [fault.split(";")[0] for fault in faults],
            [
                "gic_low/Own begins with no remark",
                "gic_low/Own is cited nowhere",
                "docs/DEFINITIONS.md names Gone.antt, which isn't there",
                "docs/INDEX.md isn't the index that is made today",
            ],
        )

    def test_each_crate_stands_once_in_the_promises(self) -> None:
        flow, more = "## Flow\n| `gic_low` |\n\n", "\n## More\n| `gic_study` |\n"
        text = flow + "## Crates\n\n| `gic_low` | a |\n| `gic_low`, `gic_old` | b |\n" + more
        self.assertEqual(
            definitions.odd_crates("\n" + text, self.crates),
            [
                "docs/PROMISES.md has gic_low 2 times in its table of crates",
                "docs/PROMISES.md has gic_study 0 times in its table of crates",
                "docs/PROMISES.md has gic_old 1 times in its table of crates",
            ],
        )


class Claim(unittest.TestCase):
    """Two files: `Near` cites `Far`, whose second definition nothing cites, and a type of the code."""

    FAR = """-- What is far.
use Rattle.std.specs.Prelude.{ℕ}
use Rattle.gic_low.specs.declared.part.Item.{Item}
use Rattle.gic_low.specs.declared.part.Item.TheVariants as item

-- how far an item is
abbrev pub far : Item → ℕ
far item.Line = 1

-- unread
abbrev pub unread : ℕ
unread = 2

-- near, or far by a number
pub data Place : Type 0 where
  Here : Place
  There : ℕ → Place
"""
    NEAR = """-- What is near.
use Rattle.gic_low.specs.Far.{far as how_far, There}

-- is it? (unread is a word of this remark)
abbrev pub near : Item → ℕ
near i = how_far i + twice (There 1)

abbrev twice : ℕ → ℕ
twice n = n * 2
"""

    def setUp(self) -> None:
        self.files = {
            "gic_low/Far": claim.read_file("gic_low/Far", self.FAR),
            "gic_top/Near": claim.read_file("gic_top/Near", self.NEAR),
        }
        self.known = claim.resolve(self.files)

    def test_a_definition_cites_what_its_code_names(self) -> None:
        near = self.known["gic_top/Near.near"]
        self.assertEqual(near.cites, ["gic_low/Far.far", "gic_top/Near.twice", "gic_low/Far.Place"])
        self.assertEqual(near.lines[0], "-- is it? (unread is a word of this remark)")

    def test_a_type_of_the_code_is_named_by_its_variants_too(self) -> None:
        self.assertEqual(set(self.known["gic_low/Far.far"].types), {"gic_low/part.Item"})

    def test_only_what_is_reached_is_read(self) -> None:
        found = claim.reached(self.known, ("gic_top/Near.near",))
        self.assertNotIn("gic_low/Far.unread", found)
        order = claim.in_order([d for f in self.files.values() for d in f.definitions if d.key in found], ["gic_low", "gic_top"])
        self.assertEqual([d.names[0] for d in order], ["far", "Place", "near", "twice"])

    def test_what_comes_later_is_told(self) -> None:
        part = claim.Part("one", [self.known["gic_top/Near.near"], self.known["gic_low/Far.far"]])
        self.assertEqual(len(claim.late_cites([part], claim.Part("front", []))), 3)
        front = claim.Part("front", [self.known["gic_low/Far.Place"]])
        self.assertEqual(len(claim.late_cites([part], front)), 2)
        self.assertEqual(part.lines, 6)

    def test_a_declaration_is_told_without_what_the_proof_adds(self) -> None:
        with tempfile.TemporaryDirectory() as folder:
            text = "use x;\n\n/// What is switched.\n#[derive(Clone)]\npub enum Item {\n    Line,\n}\n\npub const MOST: u8 = 3;\n"
            written(Path(folder), {"crates/gic_low/src/part.rt": text})
            item = claim.declaration(Path(folder), "gic_low/part.Item")
            most = claim.declaration(Path(folder), "gic_low/part.MOST")
        self.assertEqual(item[2:], ["    /// What is switched.", "    pub enum Item {", "        Line,", "    }"])
        self.assertEqual(most[2:], ["    pub const MOST: u8 = 3;"])

    def test_rows_of_other_modes_are_left_out(self) -> None:
        lines = [
            "-- one row a mode",
            "abbrev pub said : Asked → Type 0",
            "said (Field inputs) =",
            "    first inputs",
            "said (Screen inputs) = second inputs",
            "said asked.Make = third",
            "said (ListAsked inputs) = fourth",
        ]
        self.assertEqual(claim.cut_rows(lines, "said", "field"), lines[:4])
        self.assertEqual(claim.cut_rows(lines, "said", "list"), [*lines[:2], lines[6]])
        self.assertEqual(claim.cut_rows(lines[:5], "said", "field"), lines[:5])

    def test_a_mode_that_is_not_there_is_reported(self) -> None:
        out = io.StringIO()
        with contextlib.redirect_stderr(out):
            self.assertEqual(claim.main(["--mode=fields"]), 2)
        self.assertIn("claim.py: there is no mode fields; the modes are volts, list,", out.getvalue())

    def test_the_table_of_a_document_is_replaced(self) -> None:
        words = "a\n\n| part | files | lines | minutes |\n|---|---|---|---|\n| old | | 1 | 1 |\n\nb\n"
        self.assertEqual(claim.with_table(words, ["| part |", "|---|"]), "a\n\n| part |\n|---|\n\nb\n")


class ClaimOfATree(unittest.TestCase):
    """A tree with two parts, a name that is passed on, a field named as a definition is, and a type within a type."""

    TEXTS = {
        "crates.txt": "gic_low:\ngic_far:\ngic_study: gic_low gic_far\n",
        "crates/gic_low/specs/Sums.antt": "-- Sums.\n\n-- a sum\nabbrev pub total : ℕ\ntotal = 1\n\nabbrev pub spare : ℕ\nspare = 2\n",
        "crates/gic_low/specs/Passed.antt": "-- What is passed on.\npub use Rattle.gic_low.specs.Sums.{total}\n",
        "crates/gic_far/specs/First.antt": "-- The first part.\nuse Rattle.gic_low.specs.Passed.{total as whole}\n"
        "use Rattle.gic_low.specs.declared.item.Line.{Line}\n\n-- first\nabbrev pub first : Line → ℕ\nfirst l = whole\n",
        "crates/gic_study/specs/Top.antt": "-- The top.\nuse Rattle.std.specs.List.{count}\nuse Rattle.gic_far.specs.First.{first}\n"
        "use Rattle.gic_low.specs.Sums.{total, spare}\n\n"
        "-- top\npub record Top : Type 0 where\n  pub total : ℕ\n  pub is : spare ≡ 2\n\n"
        "abbrev pub made : Top\nmade = record { total = count (first 3); is = refl }\n",
        "crates/gic_study/specs/Said.antt": "-- What is said.\nuse Rattle.gic_study.specs.Top.{Top, made}\n\n"
        "-- low\nabbrev pub low_said : Top\nlow_said = made\n\n-- said\nabbrev pub said : Top\nsaid = low_said\n",
        "crates/gic_low/src/item.rt": "/// A name.\npub(crate) struct Name(pub u8);\n\n"
        "/// A line.\npub struct Line {\n    pub name: Name,\n}\n",
        "crates/gic_study/src/program.rt": "/// The call.\npub fn run() -> u8\n    ensures { said }\n{\n    0\n}\n",
        "docs/DEFINITIONS.md": "| part | files | lines | minutes |\n|---|---|---|---|\n",
        "README.md": "# All\n\n## What is proved\n\nIn short:\n\n1. A total is one\n   (`total`).\n2. It is told (`is`).\n"
        "\n## More\n\n3. `other`\n",
    }
    CONSTANTS = (
        ("CALL", "crates/gic_study/src/program.rt"),
        ("FRONT", ("gic_study/Said",)),
        ("PARTS", (("one", ("gic_far/First.first",)), ("two", ("gic_study/Top.made",)))),
        ("CHAPTERS", (("low", ("gic_low",)), ("far", ("gic_far/First",)))),
        ("OUTSIDE", {"std": {"count": "how many"}}),
        ("SIGNS", ()),
        ("FIELDS_OF", ("gic_study/Top.Top",)),
    )

    def setUp(self) -> None:
        folder = tempfile.TemporaryDirectory()
        self.addCleanup(folder.cleanup)
        self.top = Path(folder.name)
        written(self.top, self.TEXTS)
        for name, value in (("TOP", self.top), *self.CONSTANTS):
            self.put(name, value)

    def put(self, name: str, value: object) -> None:
        patch = mock.patch.object(claim, name, value)
        patch.start()
        self.addCleanup(patch.stop)

    def run_main(self, *words: str) -> tuple[int, str]:
        out = io.StringIO()
        with contextlib.redirect_stdout(out), contextlib.redirect_stderr(out):
            status = claim.main(list(words))
        return status, out.getvalue()

    def test_a_part_has_what_the_ones_before_have_not(self) -> None:
        files = claim.read_all(self.top)
        known = claim.resolve(files)
        front = claim.front_of(files, known)
        self.assertEqual([definition.names[0] for definition in front.definitions], ["said", "low_said"])
        parts = claim.parts_of(files, known, ["gic_low", "gic_far", "gic_study"], front)
        names = [[definition.names[0] for definition in part.definitions] for part in parts]
        self.assertEqual(names, [["total", "first"], ["spare", "Top", "made"]])
        top = next(definition for definition in parts[1].definitions if definition.names == ["Top"])
        self.assertEqual(top.cites, ["gic_low/Sums.spare"])

    def test_the_text_is_made_and_checked(self) -> None:
        self.assertEqual(self.run_main()[0], 1)
        self.assertEqual(self.run_main("--write"), (0, "7 definitions of the claim, 0 faults\n"))
        text = (self.top / "docs/CLAIM.txt").read_text()
        chapters = ["---- 1.1 low", "crates/gic_low/specs/Sums.antt", "---- 1.2 far", "struct Name", "struct Line", "-- first"]
        heads = ["pub fn run", "-- said", "-- low", "How to read", "count (specs/List): how many", *chapters, "2. two", "-- top"]
        places = [text.index(head) for head in heads]
        self.assertEqual(places, sorted(places))
        self.assertEqual(text.count("pub struct Line"), 1)
        self.assertIn("-- a sum\nabbrev pub total : ℕ\ntotal = 1\n    -- cited by first\n", text)
        table = (self.top / "docs/DEFINITIONS.md").read_text()
        self.assertIn("| The headline | gic_study: Said | 6 | 1 |\n", table)
        told = (
            "| **1. one, all of it** | | 6 | 1 |\n| **the headline and one** | | 12 | 1 |\n"
            "| 2. two | gic_low: Sums; gic_study: Top | 8 | 1 |\n"
        )
        self.assertIn(told + "| **all modes** | | 20 | 2 |", table)
        self.assertEqual(self.run_main(), (0, "7 definitions of the claim, 0 faults\n"))
        written(self.top, {"docs/DEFINITIONS.md": "no table\n"})
        self.assertIn("has no table of the parts", self.run_main("--write")[1])

    def test_what_is_wrong_is_told_in_a_line(self) -> None:
        for name, text, told in (
            ("crates/gic_low/src/item.rt", "", "gic_low/item.Line is declared nowhere"),
            ("crates/gic_study/src/program.rt", "", "has no call `run`"),
            ("crates/gic_low/specs/Sums.antt", "-- Sums.\n\ninfixl 3 ◌+◌\n", "there is no definition in the lines that begin"),
            ("crates/gic_far/specs/First.antt", "-- None.\n", "there is no definition gic_far/First.first"),
        ):
            with self.subTest(name):
                written(self.top, {**self.TEXTS, name: text})
                status, out = self.run_main("--write")
                self.assertEqual(status, 1)
                self.assertIn(told, out)


    def with_two_meanings(self, name: str) -> dict[str, str]:
        """The texts with a further definition of a name that the top cites too."""
        sums = self.TEXTS["crates/gic_low/specs/Sums.antt"].replace("spare", name)
        far = self.TEXTS["crates/gic_far/specs/First.antt"] + f"\n-- another\nabbrev pub {name} : ℕ\n{name} = first 2\n"
        top = self.TEXTS["crates/gic_study/specs/Top.antt"].replace("{first}", f"{{first, {name} as other}}")
        top = top.replace("first 3", "other").replace("spare", name)
        return {"crates/gic_low/specs/Sums.antt": sums, "crates/gic_far/specs/First.antt": far, "crates/gic_study/specs/Top.antt": top}

    def test_a_word_of_two_meanings_is_refused(self) -> None:
        written(self.top, self.with_two_meanings("spare"))
        for signs in ((), ("spare",)):
            self.put("SIGNS", signs)
            status, out = self.run_main("--write")
            self.assertEqual(status, 1)
            self.assertIn("spare is a name of gic_low and of gic_far: rename one\n", out)

    def test_a_sign_of_two_meanings_is_told_under_each(self) -> None:
        written(self.top, self.with_two_meanings(">>="))
        self.assertIn(">>= is a name of gic_low and of gic_far: rename one\n", self.run_main("--write")[1])
        self.put("SIGNS", (">>=",))
        self.assertEqual(self.run_main("--write")[0], 0)
        text = (self.top / "docs/CLAIM.txt").read_text()
        self.assertIn(">>= = first 2\n    -- cited by made\n    -- `>>=` is also a name of gic_low\n", text)
        self.assertIn("  pub is : >>= ≡ 2\n    -- cited by said, low_said, made\n    -- here `>>=` is that of gic_low\n", text)
        written(self.top, self.TEXTS)
        self.assertIn(">>= stands in SIGNS and has one meaning\n", self.run_main("--write")[1])

    def test_a_field_that_the_readme_does_not_name_is_told(self) -> None:
        readme = self.TEXTS["README.md"]
        unnamed = "README.md doesn't name the field `{}` in *What is proved*"
        empty = "entry {} of *What is proved* in README.md names no field"
        for old, new, told in (
            ("(`is`)", "(`was`)", (unnamed.format("is"), empty.format(2))),
            ("   (`total`)", "\n(`total`)", (unnamed.format("total"), empty.format(1))),
            ("## What is proved", "## What", (unnamed.format("total"),)),
        ):
            with self.subTest(new):
                written(self.top, {"README.md": readme.replace(old, new)})
                status, out = self.run_main("--write")
                self.assertEqual(status, 1)
                for line in told:
                    self.assertIn(line + "\n", out)

    def test_a_name_of_a_library_counts_as_a_meaning(self) -> None:
        sums = self.TEXTS["crates/gic_low/specs/Sums.antt"].replace("spare", "count")
        top = self.TEXTS["crates/gic_study/specs/Top.antt"].replace("{total, spare}", "{total, count as spare}")
        written(self.top, {"crates/gic_low/specs/Sums.antt": sums, "crates/gic_study/specs/Top.antt": top})
        self.assertIn("count is a name of gic_low and of std: rename one\n", self.run_main("--write")[1])

    def test_a_word_that_is_told_nowhere_is_refused(self) -> None:
        self.put("OUTSIDE", {"std": {"length": "how long"}})
        status, out = self.run_main("--write")
        self.assertEqual(status, 1)
        self.assertIn("count of std (List) is cited, and claim_words.py doesn't tell it\n", out)
        self.assertIn("length of std stands in claim_words.py, and no definition cites it\n", out)


class Links(unittest.TestCase):
    def test_dead_links_and_names(self) -> None:
        with tempfile.TemporaryDirectory() as folder:
            top = Path(folder)
            written(top, {"docs/A.md": "# One thing\n", "src/a.rt": ""})
            text = (
                "[a](docs/A.md) [b](docs/A.md#one-thing) [c](docs/A.md#two) [d](gone.md) [e](https://x.org/)\n"
                "`a.rt` `src/a.rt` `other/a.rt` `NAME.rt`\n```\n[f](gone.md)\n```\n"
            )
            found = list(links.dead(Path("B.md"), text, top, links.endings(links.files_below(top))))
        self.assertEqual([name for name, is_dead in found if is_dead], ["docs/A.md#two", "gone.md", "other/a.rt"])
        self.assertEqual(len(found), 7)


class Checklists(unittest.TestCase):
    """Two modes over a network, one other, and two kinds."""

    def setUp(self) -> None:
        folder = tempfile.TemporaryDirectory()
        self.addCleanup(folder.cleanup)
        self.top = Path(folder.name)
        row = '    ModeRow {{\n        mode: {},\n        word: "{}",\n    }},\n'
        written(
            self.top,
            {
                checklists.MODES: row.format("Mode::Network(NetworkMode::Near)", "near")
                + row.format("Mode::Network(NetworkMode::Far)", "far")
                + row.format("Mode::Storm", "storm"),
                checklists.KINDS: '"two-coils" => Some(KindWord::TwoCoils),\n"coil" => Some(KindWord::Coil),\n',
                "crates/gic_near/src/text.rt": "// `far`\n",
                "crates/gic_far_mode/src/text.rt": "",
                "crates/gic_top/src/rows.rt": "NetworkMode::Near => near, NetworkMode::Far => far",
                "crates/gic_top/specs/Rows.antt": "network.Near, and another",
                "generators/words.py": "MODES = ('near', 'far')",
                "crates/gic_coil/src/kind.rt": "TwoCoils, Coil",
                checklists.MAP: "**A new mode** (`gic_NAME`):\n1. `gic_words`: `src/mode.rt`;\n2. `gic_top`: `src/rows.rt`;\n"
                "3. `generators/words.py`.\n\n**A new kind of transformer**:\n1. `gic_case_reader`: `transformer.rt`; `gic_coil/src/kind.rt`.\n",
            },
        )

    def test_what_each_names_is_in_the_lists(self) -> None:
        self.assertEqual(checklists.faults(self.top), (5, []))

    def test_a_file_that_is_left_out_is_told(self) -> None:
        written(self.top, {"desk/reports.py": 'READ = {"near": 1, "far": 2}\n'})
        count, told = checklists.faults(self.top)
        self.assertEqual(count, 6)
        self.assertEqual(told, ["desk/reports.py: not in the checklist **A new mode** of docs/MAP.md"])

    def test_a_file_of_another_crate_is_not_named(self) -> None:
        written(self.top, {"crates/gic_other/src/rows.rt": "NetworkMode::Near, NetworkMode::Far"})
        self.assertEqual(len(checklists.faults(self.top)[1]), 1)

    def test_a_folder_names_the_files_in_it(self) -> None:
        parts = ("desk", "lib", "gicdesk", "reports.py")
        self.assertTrue(checklists.is_end("lib/gicdesk", parts))
        self.assertTrue(checklists.is_end("report*.py", parts))
        self.assertFalse(checklists.is_end("lib", parts))
        self.assertFalse(checklists.is_end("desk/reports.py", parts))

    def test_a_list_that_is_not_there_is_a_fault(self) -> None:
        written(self.top, {checklists.MAP: "# Map\n"})
        self.assertEqual(len(checklists.faults(self.top)[1]), 2)

    def test_a_word_has_its_files(self) -> None:
        lines = ["crates/gic_top/specs/Rows.antt", "crates/gic_top/src/rows.rt  all", "crates/gic_words/src/mode.rt  all"]
        self.assertEqual(checklists.listed(self.top, "near"), [*lines, "generators/words.py  all"])
        self.assertEqual(checklists.listed(self.top, "storm"), ["crates/gic_words/src/mode.rt"])
        self.assertIsNone(checklists.listed(self.top, "fly"))

    def test_words_that_are_not_known_end_with_2(self) -> None:
        with contextlib.redirect_stderr(io.StringIO()) as told:
            self.assertEqual(checklists.main(["fly"]), 2)
            self.assertEqual(checklists.main(["--help"]), 2)
        self.assertIn("no mode and no kind", told.getvalue())


if __name__ == "__main__":
    unittest.main()
