#!/usr/bin/env python3
"""Tests how scripts/believed.py reads definitions and contracts, on small files and on a small repository of two crates.

The last line counts what passed and failed."""
import sys
import tempfile
import unittest
from pathlib import Path

from results import TOP, run_unit_tests

sys.path.insert(0, str(TOP / "scripts"))
import believed
import spec_reader
import toolchain_reader

SPECS = """-- Colours.
use Rattle.std.specs.Prelude.{ℕ, List, ◌≡◌}
pub use Rattle.low.specs.Base.{base as ground_floor}
use Rattle.low.specs.Other as other

-- A colour.
data pub Colour : Type 0 where
  Red Green : Colour
  Mixed : Colour → Colour → Colour

-- How bright a colour is.
pub bright : Colour → ℕ
bright Red = 1
bright Green = 2
bright (Mixed a b) = bright a + bright b
undescribed : ℕ → ℕ
undescribed n = let m = other.twice n in
  m

-- Two that need each other.
mutual
  even : ℕ → Bool
  even n = odd (n - 1)
  odd : ℕ → Bool
  odd n = even (n - 1)

-- A pair.
record pub Pair where
  first : Colour
  second : List Colour
"""

CODE = """//! A file. fn in_a_comment()
ghost use Rattle.low.specs.Base.{base};
use crate::other::Thing;

/// A number behind a name.
pub struct Named { name: [u8; 3], thing: Thing }

impl Model for Named {
    ghost Value = { Bytes };
    ghost view = { names_of };
    ghost invariant = { IsShort };
}

impl Named {
    /// Gives a text with a brace: "}".
    pub fn text(&self, other: &Thing) -> &str
        requires some { is_some other.now }
        ensures same { result ≡ base self.now }
        ensures { (n : ℕ) → n ≤ 3 }
    {
        "fn not_one() }"
    }
}

fn alone(xs: [u8; 4]) -> u8
    ensures { λ y. bound y ≡ first xs }
{
    0
}
"""


def module_of(text: str) -> spec_reader.Module:
    """A module with this text."""
    with tempfile.TemporaryDirectory() as folder:
        file = Path(folder) / "Colours.antt"
        file.write_text(text)
        return spec_reader.read_module(file, "high.specs.Colours")


class Definitions(unittest.TestCase):
    def setUp(self) -> None:
        self.module = module_of(SPECS)
        self.found = {definition.name: definition for definition in self.module.definitions}

    def test_each_is_found_once_with_its_kind(self) -> None:
        kinds = [(d.name, d.kind) for d in self.module.definitions]
        wanted = [("Colour", "data"), ("bright", "plain"), ("undescribed", "plain"), ("even", "plain"), ("odd", "plain"), ("Pair", "record")]
        self.assertEqual(kinds, wanted)

    def test_constructors_of_one_line_and_of_their_own(self) -> None:
        self.assertEqual(self.found["Colour"].constructors, ["Red", "Green", "Mixed"])

    def test_lines_of_a_definition_are_its_head_and_its_clauses(self) -> None:
        sizes = {name: definition.size() for name, definition in self.found.items()}
        self.assertEqual(sizes, {"Colour": 3, "bright": 4, "undescribed": 3, "even": 2, "odd": 2, "Pair": 3})

    def test_a_line_in_plain_words_belongs_to_what_stands_below_it(self) -> None:
        described = {name for name, definition in self.found.items() if definition.described}
        self.assertEqual(described, {"Colour", "bright", "Pair"})

    def test_definitions_of_a_mutual_block_are_one_unit(self) -> None:
        self.assertEqual(self.found["even"].unit, self.found["odd"].unit)
        self.assertNotEqual(self.found["bright"].unit, self.found["undescribed"].unit)

    def test_imports(self) -> None:
        self.assertEqual(self.module.names["ground_floor"], ("low.specs.Base", "base"))
        self.assertEqual(self.module.names["◌≡◌"], ("std.specs.Prelude", "◌≡◌"))
        self.assertEqual(self.module.aliases, {"other": "low.specs.Other"})
        self.assertEqual(self.module.passed_on, {"ground_floor"})

    def test_a_clause_goes_on_in_a_deeper_line(self) -> None:
        self.assertEqual(self.found["undescribed"].parts()[1], "undescribed n = let m = other.twice n in m")

    def test_what_a_definition_takes_and_gives(self) -> None:
        self.assertEqual(self.found["bright"].domains(), ["Colour", "ℕ"])
        self.assertEqual(spec_reader.domains_of("(n : ℕ → ℕ) → {A : Type 0} → List A"), ["(n : ℕ → ℕ)", "{A : Type 0}", "List A"])


UNUSUAL = """-- Definitions that look otherwise, and texts that look like definitions.
use Rattle.std.specs.Prelude.{ℕ, ◌+◌, codes}

-- one after the other
infixl 10 ◌+++◌
abbrev pub ◌+++◌ : ℕ → ℕ → ℕ
a +++ b = a + b

-- pub commented : ℕ → ℕ
-- commented n = n
text : ℕ → ℕ
text n = first_of (codes "pub quoted : ℕ") n

-- What has a parameter of its own.
module _ {R : Type 0} where
  -- whether it is so
  abbrev pub inside : R → ℕ
  inside r = 1
  -- a thing
  pub record Kept : Type 0 where
    kept : R
"""


class Unusual(unittest.TestCase):
    def setUp(self) -> None:
        self.module = module_of(UNUSUAL)
        self.found = {definition.name: definition for definition in self.module.definitions}

    def test_comments_and_strings_define_nothing(self) -> None:
        self.assertEqual(list(self.found), ["◌+++◌", "text", "inside", "Kept"])

    def test_an_operator_has_its_clause_and_the_line_above_its_rank(self) -> None:
        operator = self.found["◌+++◌"]
        self.assertEqual((operator.described, operator.parts()[1:]), (True, ["a +++ b = a + b"]))

    def test_what_stands_in_a_module_without_a_name_is_read_like_the_rest(self) -> None:
        self.assertEqual([(d.name, d.kind, d.size()) for d in self.module.definitions[2:]], [("inside", "abbrev", 2), ("Kept", "record", 2)])
        self.assertNotEqual(self.found["inside"].unit, self.found["Kept"].unit)

    def test_words_that_nothing_explains(self) -> None:
        unknown = {name: spec_reader.unknown_words(self.module, definition) for name, definition in self.found.items()}
        self.assertEqual(unknown, {"◌+++◌": [], "text": ["first_of"], "inside": [], "Kept": []})

    def test_words_that_a_definition_binds(self) -> None:
        text = """use Rattle.std.specs.Prelude.{ℕ, ◌+◌, map}
f : {A : Type 0} → (k : ℕ) → ℕ
f (some x) = do
  y ← map (λ z. z + x) x
  let w = y in record { member = w + k; other = v }
"""
        [found] = module_of(text).definitions
        self.assertEqual(spec_reader.unknown_words(module_of(text), found), ["v"])


class Words(unittest.TestCase):
    def test_words_with_their_members_and_operators(self) -> None:
        words = list(spec_reader.words_of('f (a.b.c) ≡ "no words" ∷ xs'))
        self.assertIn(("a", ["b", "c"]), words)
        self.assertIn(("◌≡◌", []), words)
        self.assertNotIn("no", [head for head, _ in words])

    def test_names_that_a_line_binds(self) -> None:
        self.assertEqual(spec_reader.bound_names("(x y : ℕ) → λ z w. let v = x in {T : Type 0}"), {"x", "y", "z", "w", "v", "T"})


class Code(unittest.TestCase):
    def setUp(self) -> None:
        with tempfile.TemporaryDirectory() as folder:
            file = Path(folder) / "named.rt"
            file.write_text(CODE)
            self.source = spec_reader.read_source("high", file)
        self.items: dict[tuple[str, ...], list[spec_reader.Item]] = {}
        for item in self.source.items:
            self.items.setdefault(item.key, []).append(item)

    def test_calls_are_those_of_the_code_and_not_of_comments_or_strings(self) -> None:
        self.assertEqual(set(self.items), {("high", "Named"), ("high", "Named", "text"), ("high", "alone")})

    def test_each_clause_of_a_contract_is_found(self) -> None:
        [text] = self.items["high", "Named", "text"]
        self.assertEqual([clause.strip() for clause in text.clauses], ["is_some other.now", "result ≡ base self.now", "(n : ℕ) → n ≤ 3"])
        self.assertTrue(text.public)
        [alone] = self.items["high", "alone"]
        self.assertEqual(alone.clauses, [" λ y. bound y ≡ first xs "])
        self.assertFalse(alone.public)

    def test_what_a_type_is_seen_as_and_what_always_holds_of_it(self) -> None:
        clauses = [clause.strip() for item in self.items["high", "Named"] for clause in item.clauses]
        always = [clause.strip() for item in self.items["high", "Named"] for clause in item.invariants]
        self.assertEqual((clauses, always), (["Bytes", "names_of"], ["IsShort"]))

    def test_types_that_a_head_names(self) -> None:
        [text] = self.items["high", "Named", "text"]
        self.assertIn("Thing", text.mentions)

    def test_comments_and_strings_are_blank_and_lines_stay(self) -> None:
        blank = spec_reader.blanked(CODE)
        self.assertEqual(blank.count("\n"), CODE.count("\n"))
        self.assertNotIn("not_one", blank)
        self.assertNotIn("in_a_comment", blank)


# A small repository: the files of its crates.
REPOSITORY = {
    "crates.txt": "low: memchr\nhigh: low\n",
    "crates/low/specs/Lib.antt": "pub mod Base\npub mod calls\n",
    "crates/low/specs/Base.antt": "-- Bases.\nuse Rattle.std.specs.Prelude.{ℕ}\n\n-- A base.\npub base : ℕ → ℕ\nbase n = helped n\n\n-- A help.\nhelped : ℕ → ℕ\nhelped n = n\n",
    "crates/low/specs/calls.antt": "pub mod Calls\n",
    "crates/low/specs/calls/Calls.antt": "-- Calls.\nuse Rattle.std.specs.Prelude.{ℕ}\n\n-- What a call of low does.\npub called : ℕ → ℕ\ncalled n = n\n",
    "crates/low/src/lib.rt": "pub use low::low;\nmod low;\n",
    "crates/low/src/low.rt": "ghost use Rattle.low.specs.calls.Calls.{called};\npub fn low()\n    ensures { called 1 ≡ 1 }\n{\n}\n",
    "crates/high/specs/Lib.antt": "pub mod Theorem\npub mod calls\n",
    "crates/high/specs/calls.antt": "pub mod Verdicts\n",
    "crates/high/specs/calls/Verdicts.antt": "-- Verdicts.\nuse Rattle.low.specs.Base.{base}\nuse Rattle.std.specs.Prelude.{ℕ, ◌≡◌}\n\n-- A help.\nsaid : ℕ → ℕ\nsaid n = base n\n\n-- Says.\npub Says : (ℕ → ℕ) → ℕ → Type 0\nSays f n = f n ≡ said n\n\n-- A text.\ntext : ℕ → ℕ\ntext n = n\n\n-- Remarks.\npub remark : ℕ → ℕ\nremark n = text n\n",
    "crates/high/specs/Theorem.antt": "-- It.\nuse Rattle.low.specs.Base.{base}\nuse Rattle.std.specs.Prelude.{ℕ, ◌≡◌}\n\n-- Holds.\npub Holds : ℕ → Type 0\nHolds n = base n ≡ n\n",
    "crates/high/src/lib.rt": "pub use high::high;\npub use lint::lint;\nmod high;\nmod lint;\n",
    "crates/high/src/high.rt": "ghost use Rattle.high.specs.Theorem.{Holds};\npub fn high()\n    ensures { Holds 1 }\n{\n}\n",
    "crates/high/src/lint.rt": "ghost use Rattle.high.specs.calls.Verdicts.{Says, remark};\npub fn lint()\n    ensures { Says remark 1 }\n{\n}\n",
}


class Places(unittest.TestCase):
    def setUp(self) -> None:
        self.folder = Path(self.enterContext(tempfile.TemporaryDirectory()))
        remark = ("high.specs.calls.Verdicts", "remark")
        replaced = {"THEOREM": {("high", "high")}, "VERDICTS": ("high", "lint"), "PARAMETER": remark, "GUARANTEES": {remark}}
        for name, value in replaced.items():
            self.addCleanup(setattr, believed, name, getattr(believed, name))
            setattr(believed, name, value)

    def failures(self, **changes: str) -> list[str]:
        """What is wrong with the repository where some of its files are others."""
        for name, text in {**REPOSITORY, **changes}.items():
            file = self.folder / name
            file.parent.mkdir(parents=True, exist_ok=True)
            file.write_text(text)
        return list(believed.failures(believed.Repository(self.folder)))

    def test_a_repository_in_order(self) -> None:
        self.assertEqual(self.failures(), [])

    def test_a_definition_that_only_a_call_reaches_stands_among_those_to_be_believed(self) -> None:
        text = REPOSITORY["crates/low/specs/Base.antt"] + "\n-- Another.\npub other : ℕ → ℕ\nother n = n\n"
        call = "ghost use Rattle.low.specs.Base.{other};\npub fn low()\n    ensures { other 1 ≡ 1 }\n{\n}\n"
        changes = {"crates/low/specs/Base.antt": text, "crates/low/src/low.rt": call}
        found = [failure for failure in self.failures(**changes) if "other" in failure]
        self.assertEqual(len(found), 1)
        self.assertIn("it belongs to specs/calls/", found[0])

    def test_a_definition_that_the_theorem_reaches_stands_apart(self) -> None:
        text = REPOSITORY["crates/high/specs/Theorem.antt"].replace("Base.{base}", "calls.Calls.{called}").replace("base n", "called n")
        found = [failure for failure in self.failures(**{"crates/high/specs/Theorem.antt": text}) if "called" in failure]
        self.assertEqual(len(found), 1)
        self.assertIn("it belongs right into specs/", found[0])

    def test_a_definition_that_nothing_reaches(self) -> None:
        text = REPOSITORY["crates/low/specs/Base.antt"] + "\n-- Alone.\nlonely : ℕ → ℕ\nlonely n = n\n"
        found = self.failures(**{"crates/low/specs/Base.antt": text})
        self.assertEqual(len(found), 1)
        self.assertIn("lonely is reached by no public contract", found[0])

    def assert_stray(self, name: str, place: str, **changes: str) -> None:
        """One thing is wrong: this definition belongs to another place."""
        [found] = self.failures(**changes)
        self.assertRegex(found, f": {name} .* it belongs {place}$")

    def test_a_definition_that_is_reached_by_an_alias_of_its_module(self) -> None:
        theorem = REPOSITORY["crates/high/specs/Theorem.antt"].replace("Base.{base}", "calls.Calls as other").replace("base n", "other.called n")
        [found] = [failure for failure in self.failures(**{"crates/high/specs/Theorem.antt": theorem}) if "called" in failure]
        self.assertIn("it belongs right into specs/", found)

    def test_a_definition_that_is_reached_by_another_name(self) -> None:
        theorem = REPOSITORY["crates/high/specs/Theorem.antt"].replace("{base}", "{base as ground}").replace("base n", "ground n")
        self.assertEqual(self.failures(**{"crates/high/specs/Theorem.antt": theorem}), [])

    def test_a_definition_that_is_reached_through_a_module_that_passes_it_on(self) -> None:
        theorem = REPOSITORY["crates/high/specs/Theorem.antt"].replace("low.specs.Base", "low.specs.calls.Calls")
        calls = REPOSITORY["crates/low/specs/calls/Calls.antt"].replace("use Rattle.std", "pub use Rattle.low.specs.Base.{base}\nuse Rattle.std")
        self.assertEqual(self.failures(**{"crates/high/specs/Theorem.antt": theorem, "crates/low/specs/calls/Calls.antt": calls}), [])

    def test_an_operator(self) -> None:
        operator = "\n-- A sum.\ninfixl 10 ◌+++◌\npub ◌+++◌ : ℕ → ℕ → ℕ\na +++ b = a\n"
        base = {"crates/low/specs/Base.antt": REPOSITORY["crates/low/specs/Base.antt"] + operator}
        self.assert_stray("◌\\+\\+\\+◌", "to specs/inner/", **base)
        theorem = REPOSITORY["crates/high/specs/Theorem.antt"].replace("{base}", "{base, ◌+++◌}").replace("base n", "base n +++ n")
        self.assertEqual(self.failures(**base, **{"crates/high/specs/Theorem.antt": theorem}), [])

    def test_a_definition_in_a_module_without_a_name(self) -> None:
        block = "\nmodule _ {R : Type 0} where\n  -- Inside.\n  pub inside : R → ℕ\n  inside r = 1\n"
        base = {"crates/low/specs/Base.antt": REPOSITORY["crates/low/specs/Base.antt"] + block}
        self.assert_stray("inside", "to specs/inner/", **base)
        theorem = REPOSITORY["crates/high/specs/Theorem.antt"].replace("{base}", "{base, inside}").replace("base n", "base (inside n)")
        self.assertEqual(self.failures(**base, **{"crates/high/specs/Theorem.antt": theorem}), [])

    def test_comments_and_strings_reach_nothing(self) -> None:
        lonely = "\n-- Alone.\nlonely : ℕ → ℕ\nlonely n = n\n"
        base = {"crates/low/specs/Base.antt": REPOSITORY["crates/low/specs/Base.antt"] + lonely}
        imports = "Base.{base, lonely}\nuse Rattle.std.specs.Prelude.{codes}"
        theorem = REPOSITORY["crates/high/specs/Theorem.antt"].replace("Base.{base}", imports).replace("-- Holds.", "-- lonely")
        theorem = theorem.replace("base n ≡ n", 'base n ≡\n  -- lonely n\n  codes "lonely n"')
        code = "ghost use Rattle.high.specs.Theorem.{Holds};\nghost use Rattle.low.specs.Base.{lonely};\n// ensures { lonely 1 }\npub fn high()\n"
        code += '    // ensures { lonely 1 }\n    ensures { Holds 1 }\n{\n    "ensures { lonely 1 }"; fn private() ensures { lonely 1 } {}\n}\n'
        changes = {"crates/high/specs/Theorem.antt": theorem, "crates/high/src/high.rt": code}
        self.assert_stray("lonely", "to specs/inner/", **base, **changes)

    def test_a_name_that_a_line_binds_counts_as_that_of_a_definition(self) -> None:
        theorem = REPOSITORY["crates/high/specs/Theorem.antt"].replace("base n ≡ n", "(λ base. base) (base n) ≡ n")
        self.assertEqual(self.failures(**{"crates/high/specs/Theorem.antt": theorem}), [])

    def test_a_definition_among_those_of_proofs_that_a_call_reaches(self) -> None:
        moved = {
            "crates/low/specs/Lib.antt": "pub mod Base\npub mod inner\n",
            "crates/low/specs/inner.antt": "pub mod Calls\n",
            "crates/low/specs/inner/Calls.antt": REPOSITORY["crates/low/specs/calls/Calls.antt"],
            "crates/low/src/low.rt": REPOSITORY["crates/low/src/low.rt"].replace("calls.", "inner."),
        }
        self.assert_stray("called", "to specs/calls/", **moved)

    def test_a_proof_among_the_definitions(self) -> None:
        proof = "\n-- So it is.\npub same : (n : ℕ) → base n ≡ n\nsame n = refl\n"
        text = REPOSITORY["crates/low/specs/Base.antt"].replace("{ℕ}", "{ℕ, ◌≡◌, refl}") + proof
        [found] = self.failures(**{"crates/low/specs/Base.antt": text})
        self.assertIn("same is a proof, which nobody has to believe", found)

    def test_a_word_that_cannot_be_followed(self) -> None:
        theorem = REPOSITORY["crates/high/specs/Theorem.antt"].replace("base n ≡ n", "base n ≡ hidden n")
        [found] = self.failures(**{"crates/high/specs/Theorem.antt": theorem})
        self.assertEqual(found, "crates/high/specs/Theorem.antt: Holds names hidden, which its module neither defines nor imports")

    def test_an_import_that_is_not_found(self) -> None:
        theorem = REPOSITORY["crates/high/specs/Theorem.antt"].replace("{base}", "{base, gone}")
        [found] = self.failures(**{"crates/high/specs/Theorem.antt": theorem})
        self.assertEqual(found, "crates/high/specs/Theorem.antt imports low.specs.Base.gone, which is not found")

    def test_modules_in_another_order_than_that_of_reading(self) -> None:
        text = "-- First.\nuse Rattle.low.specs.Base.{base}\nuse Rattle.std.specs.Prelude.{ℕ}\n\n-- It.\npub first : ℕ\nfirst = base 1\n"
        changes = {"crates/low/specs/Lib.antt": "pub mod First\npub mod Base\npub mod calls\n", "crates/low/specs/First.antt": text}
        theorem = REPOSITORY["crates/high/specs/Theorem.antt"].replace("Base.{base}", "First.{first}").replace("base n", "first")
        self.assertEqual(self.failures(**changes, **{"crates/high/specs/Theorem.antt": theorem}), [])
        [found] = believed.late_names(believed.Repository(self.folder))
        self.assertIn("crates/low/specs/First.antt names Base", found)

    def test_a_definition_with_no_line_in_plain_words(self) -> None:
        text = REPOSITORY["crates/low/specs/Base.antt"].replace("-- A help.\n", "")
        found = self.failures(**{"crates/low/specs/Base.antt": text})
        self.assertEqual(found, ["crates/low/specs/Base.antt: helped has no line in plain words above it"])

    def test_a_theorem_that_is_gone(self) -> None:
        believed.THEOREM = {("high", "high"), ("high", "gone")}
        self.assertEqual(self.failures(), ["high has no call gone, whose contract is a part of the theorem"])

    def test_the_second_list_has_what_the_first_lacks_and_not_what_the_parameter_reaches(self) -> None:
        self.failures()
        rows = believed.verdicts_table(believed.Repository(self.folder))
        self.assertEqual(rows[2], "| high | [`Verdicts`](../crates/high/specs/calls/Verdicts.antt) | 4 | `said`, `Says` |")
        self.assertEqual(rows[3:], ["|  | in 1 files of definitions | 4 |  |", "|  | in 0 files of code | 0 |  |"])

    def test_a_second_list_whose_call_or_parameter_is_gone(self) -> None:
        believed.VERDICTS = ("high", "gone")
        self.assertEqual(self.failures(), ["high has no call gone, on whose contract the sentences of ctd-lint rest"])
        believed.VERDICTS, believed.PARAMETER = ("high", "lint"), ("high.specs.calls.Verdicts", "gone")
        self.assertEqual(self.failures(), ["high.specs.calls.Verdicts has no definition gone, which is passed over"])

    def test_the_third_list_has_what_the_others_lack(self) -> None:
        self.failures()
        rows = believed.guarantees_table(believed.Repository(self.folder))
        self.assertEqual(rows[2], "| high | [`Verdicts`](../crates/high/specs/calls/Verdicts.antt) | 4 | `text`, `remark` |")

    def test_a_third_list_of_which_a_definition_is_gone(self) -> None:
        believed.GUARANTEES = {("high.specs.calls.Verdicts", "gone")}
        self.assertEqual(self.failures(), ["high.specs.calls.Verdicts has no definition gone, on which the lines of ctd-lint on accepted files rest"])

    def test_a_word_of_the_second_list_that_cannot_be_followed(self) -> None:
        text = REPOSITORY["crates/high/specs/calls/Verdicts.antt"].replace("said n = base n", "said n = unheard n")
        self.assertEqual(len(self.failures(**{"crates/high/specs/calls/Verdicts.antt": text})), 1)


class Toolchain(unittest.TestCase):
    def setUp(self) -> None:
        self.folder = Path(self.enterContext(tempfile.TemporaryDirectory()))
        texts = {
            "kit/specs/Words.antt": "pub use Rattle.kit.specs.Inner.{word as passed}\n",
            "kit/specs/Inner.antt": "use Rattle.std.specs.Prelude.{ℕ}\nuse Rattle.std.specs.Deep.{deep}\n\nword : ℕ → ℕ\nword n = deep n\n\nunused : ℕ\nunused = 1\n",
            "std/specs/Lib.antt": "pub use Rattle.core.specs.Deep\n",
            "core/specs/Deep.antt": "use Rattle.ucd_rows.specs.Rows.{rows}\n\ndeep : ℕ → ℕ\ndeep n =\n  n + rows\n",
            "ucd_rows/specs/Rows.antt": "rows : ℕ\nrows = 1\n",
        }
        for name, text in texts.items():
            file = self.folder / name
            file.parent.mkdir(parents=True, exist_ok=True)
            file.write_text(text)
        self.toolchain = toolchain_reader.Toolchain(self.folder)

    def test_words_lead_on_through_modules_that_pass_them_on(self) -> None:
        reached = self.toolchain.reached([("kit.specs.Words", "passed")])
        self.assertEqual(reached, {("kit.specs.Inner", "word"), ("core.specs.Deep", "deep")})

    def test_lines_are_those_of_what_is_reached(self) -> None:
        self.assertEqual(self.toolchain.lines({("kit.specs.Inner", "word"), ("core.specs.Deep", "deep")}), 5)

    def test_a_type_of_code_leads_nowhere(self) -> None:
        self.assertEqual(self.toolchain.reached([("kit.specs.declared.thing.Thing", "Thing")]), set())


if __name__ == "__main__":
    sys.exit(run_unit_tests("belief"))
