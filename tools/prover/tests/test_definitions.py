"""Tests of lines_to_believe.py, that docs/GUARANTEES.md says what it prints, and that comments of definitions stand
alone."""

import glob
import os
import re
import tempfile
import unittest
from unittest import mock

import definitions
import lines_to_believe as tool
from shared import stores
from shared.crates import TOP

# Words by which a comment points at what stood before. `tools/prover/definitions.py WORD` prints a definition with its comment alone.
POINTING = re.compile(
    r"(?:so|its?|and|but|n?or|then|the same|the others?|these|those|they|their|them|there|this|that|which|such|also)\b", re.I)

LOW = """-- Numbers.
use Rattle.std.specs.Prelude.{◌≡◌, ℕ}

-- a number that isn't used
abbrev pub unused : ℕ
unused = 0

infixl 10 ◌over◌
-- one number over another
abbrev pub ◌over◌ : ℕ → ℕ → Fraction
n over k = record { top = n; unused = k }

pub record Fraction : Type 0 where
  -- what stands above
  pub top : ℕ
  -- what is left below
  pub unused : ℕ

pub data Sign : Type 0 where
  plus : Sign
  minus : Sign

module _
    (n : Fraction) where
  abbrev pub IsHalf : Fraction → Type 0
  IsHalf m = (unused : ℕ) × (λ bound. m ≡ n)

abbrev pub bound : ℕ
bound = 1
""".split("\n")
HIGH = """use Rattle.low.specs.Low.{◌over◌, bound, unused}
use Rattle.low.specs.Low.Sign as signs
use Rattle.low.specs.Low as low
pub use Rattle.low.specs.Low.{IsHalf as IsOneOfTwo}

abbrev pub half : Fraction
half = 1 over 2

-- a clause names it: it binds `bound`
abbrev pub IsFine : (bound : ℕ) → Type 0
IsFine k = low.IsHalf half × (unused.k)

abbrev pub is_plus : Sign → Type 0
is_plus s = s ≡ signs.plus
""".split("\n")
CODE = """ghost use Rattle.high.specs.High.{IsFine, is_plus, IsOneOfTwo as Renamed};

/// What `is_plus` says.
pub fn claim(n: u64) -> u64
    // is_plus
    ensures fine { { IsFine } n }
    ensures sign { is_plus }
    ensures { Renamed }
{
    is_plus
}

pub fn other()
    ensures other { bound }
{}
""".split("\n")


class LinesOfClaims(unittest.TestCase):
    def setUp(self):
        held = tempfile.TemporaryDirectory()
        self.addCleanup(held.cleanup)
        for it in (definitions, tool):
            change = mock.patch.object(it, "TOP", held.name)
            change.start()
            self.addCleanup(change.stop)
        stores.write_texts(held.name, {"crates.txt": ["# crates", "low: core", "high (a note): low"]})
        stores.write_texts(f"{held.name}/crates/low/specs", {"Low.antt": LOW, "Lib.antt": ["pub mod Low"]})
        stores.write_texts(f"{held.name}/crates/high/specs", {"High.antt": HIGH})
        stores.write_texts(f"{held.name}/crates/high/src", {"lib.rt": CODE})

    def lines_of(self, *wanted):
        """The lines that clauses stand on, as they are written."""
        library = tool.Library()
        found = library.stands_on(("high/src/lib.rt", "claim", wanted))
        return [library.files[crate, file].lines[at].strip() for crate, file, at in sorted(found)]

    def test_names_are_followed(self):
        half = ["module _", "(n : Fraction) where", "abbrev pub IsHalf : Fraction → Type 0"]
        half += ["IsHalf m = (unused : ℕ) × (λ bound. m ≡ n)"]
        fraction = ["pub record Fraction : Type 0 where", "pub top : ℕ", "pub unused : ℕ"]
        sign = ["pub data Sign : Type 0 where", "plus : Sign", "minus : Sign"]
        self.assertEqual(self.lines_of("sign"), ["abbrev pub is_plus : Sign → Type 0", "is_plus s = s ≡ signs.plus", *sign])
        found = self.lines_of("fine")
        self.assertEqual(found[:4], [it for it in HIGH if "half =" in it or " half " in it or "IsFine" in it])
        over = ["abbrev pub ◌over◌ : ℕ → ℕ → Fraction", "n over k = record { top = n; unused = k }"]
        unused = ["abbrev pub unused : ℕ", "unused = 0"]
        self.assertEqual(found[4:], [*unused, *over, *fraction, *half])
        self.assertEqual(len(self.lines_of()), len({*found, *sign, "is_plus"}) + 1)

    def test_clauses_that_are_not_there(self):
        for claim in (("claim", ("fine", "none")), ("other", ("fine",)), ("no_function", ())):
            with self.subTest(claim), self.assertRaisesRegex(SystemExit, "^error: crates/high/src/lib.rt: "):
                tool.Library().stands_on(("high/src/lib.rt", *claim))


class Comments(unittest.TestCase):
    def test_each_names_its_subject(self):
        """It says what it is about, as `the stream was opened anew`, not `it was`."""
        files = [(crate, file) for crate in definitions.crates_in_order() for file, _, _ in definitions.files_of(crate)]
        found = [(f"crates/{crate}/specs/{file}:{at}", comment) for crate, file in files
                 for at, comment in definitions.comments_of(definitions.lines_of(crate, file))]
        self.assertGreater(len(found), 1000)
        pointing = [f"{place}: {' '.join(comment.split()[:6])} .." for place, comment in found if POINTING.match(comment)]
        self.assertEqual(pointing, [], "these begin with a word that points at what stood before: name what they are about")

    def test_what_is_read(self):
        lines = ["-- What a file", "-- is about.", "use x", "", "-- ---- it is a heading", "-- of a word", "abbrev pub word : A", "",
                 "pub record R where", "  -- so it is", "  pub a : A", "", "-- ---- a heading", "-- and more of it", "", "-- at the end"]
        told = [(1, "What a file is about."), (6, "of a word"), (10, "so it is"), (16, "at the end")]
        self.assertEqual(list(definitions.comments_of(lines)), told)

    def test_which_words_point(self):
        for comment in ("So it is", "it is", "Its name", "the same again", "the others", "nor these", "Then", "which line", "and"):
            self.assertTrue(POINTING.match(comment), comment)
        for comment in ("some", "items", "an item", "android", "the sameness", "theory", "thesis", "order of names", "normal"):
            self.assertFalse(POINTING.match(comment), comment)


class Words(unittest.TestCase):
    def test_each_public_word_is_found(self):
        """Each public word of specs/ is found, whatever keyword it begins with, in sections too. (A record's fields are none.)"""
        head = r"^(?:(?:\w+ )?pub (?!mod |use )| +(?:\w+ pub |pub (?:data|record|abbrev) ))"
        for file in glob.glob(f"{TOP}/crates/*/specs/*.antt"):
            with open(file, encoding="utf-8") as text:
                words = re.findall(head, text.read(), re.M)
            crate, name = file.split("/")[-3], os.path.basename(file)
            self.assertEqual(len(words), len(definitions.definitions_of(crate, name)[1]), file)


class Page(unittest.TestCase):
    """docs/GUARANTEES.md, and the definitions that stand here."""

    @classmethod
    def setUpClass(cls):
        cls.library = tool.Library()
        with open(f"{TOP}/docs/GUARANTEES.md") as page:
            cls.page = page.read()

    def test_the_page_says_what_the_tool_prints(self):
        lacking = [it for it in tool.sentences(self.library) if it not in self.page]
        self.assertEqual(lacking, [], "docs/GUARANTEES.md lacks what tools/prover/lines_to_believe.py prints")
        told = dict(re.findall(r"`(\w+)` \(([\d,]+)\)", self.page))
        counts = tool.lines_by_crate(self.library)
        self.assertGreater(len(told), 5)
        self.assertEqual(told, {crate: f"{counts[crate]:,}" for crate in told})

    def test_no_claim_stands_on_what_is_left_out(self):
        for claim in (tool.PROGRAM, tool.HEADLINE):
            found = {(crate, file) for crate, file, _ in self.library.stands_on(claim)}
            self.assertEqual([it for it in sorted(found) if tool.is_aside(*it)], [], "ASIDE of tools/prover/lines_to_believe.py")

    def test_each_line_is_of_a_definition(self):
        """Else what the claims stand on would be without it. Sections without definitions, and signs' precedence, are none."""
        for place, words in self.library.files.items():
            counted = {at for it in words.found for at in words.numbers_of(it)}
            others = [line for at, line in enumerate(words.lines) if tool.is_code(line) and at not in counted]
            self.assertEqual([it for it in others if not re.match("mutual$|infix[lr] ", it)], [], place)

    def test_what_is_left_out_is_there(self):
        there = {(crate, file.removesuffix(".antt")) for crate, file in self.library.files}
        self.assertEqual({(crate, it) for crate, names in tool.ASIDE.items() for it in names} - there, set())
