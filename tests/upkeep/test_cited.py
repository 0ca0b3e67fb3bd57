"""Tests of upkeep/cited.py, on a small tree."""
import os
import sys
import unittest

ROOT = os.path.dirname(os.path.dirname(os.path.dirname(os.path.abspath(__file__))))
sys.path[:0] = [os.path.join(ROOT, "upkeep"), os.path.join(ROOT, "tests", "tools")]

from common import call, scratch

SCRIPT = os.path.join(ROOT, "upkeep", "cited.py")

FILES = {
    "crates.txt": "low:\nmiddle: low\nknot: middle low\nbeside: low\n",
    "crates/low/specs/Lib.antt": "pub mod Size\n",
    "crates/low/specs/Size.antt": """-- Sizes.
use Rattle.std.specs.Prelude.{ℕ}

-- the size
abbrev pub size : ℕ → ℕ
size n = n

abbrev pub twice : ℕ → ℕ
twice n = n + size n

pub record HasSize (n : ℕ) : Type 0 where
  pub is : size n ≡ n

abbrev pub forgotten : ℕ
forgotten = 3
""",
    "crates/low/proofs/Sizes.antt": """use Rattle.low.specs.Size.{size, twice}

helps : (n : ℕ) → size n ≡ n
helps n = refl

-- cited above
unfolding size
pub of_size : (n : ℕ) → size n ≡ n
of_size n = helps n

pub of_twice : (n : ℕ) → twice n ≡ n + n
of_twice zero = refl
of_twice (suc n) = refl

module _ (n : ℕ) where
  pub inside : size n ≡ n
  inside = helps n

pub of_beside : (n : ℕ) → n ≡ n
of_beside n = refl

pub of_test : (n : ℕ) → n ≡ n
of_test n = refl

pub alone : (n : ℕ) → n ≡ n
alone n = refl
""",
    "crates/low/src/lib.rt": "pub mod laws;\n#[cfg(test)]\nmod tests;\n\nghost use Rattle.low.specs.Size.{HasSize};\n\n"
                             "fn size(n: u8) -> u8\n    ensures { HasSize result }\n{\n    n\n}\n",
    "crates/low/src/tests.rt": "#[tactic(auto, using(crate::proofs::Sizes::of_test))]\n#[test]\nfn it_works() {}\n",
    "crates/low/src/laws.rt": """//! Laws.
ghost use Rattle.low.specs.Size.{size, twice};

/// It is called above.
pub fn a_size_is_itself()
    ensures { (n : ℕ) → size n ≡ n }
{}

/// No code calls it.
pub fn twice_is_twice()
    ensures { (n : ℕ) → twice n ≡ n + n }
{
    a_size_is_itself();
}
""",
    "crates/low/proofs/laws/a_size_is_itself/Answers.antt": "use Rattle.low.proofs.Sizes.{inside}\n\npub returns : goal.returns\nreturns c = inside\n",
    "crates/low/proofs/laws/twice_is_twice/Answers.antt": "use Rattle.low.proofs.Sizes.{of_twice}\n\npub returns : goal.returns\nreturns c = of_twice\n",
    "crates/middle/proofs/Above.antt": """use Rattle.low.proofs.Sizes as sizes

pub above : (n : ℕ) → n ≡ n
above n = sizes.of_size n
""",
    "crates/middle/proofs/put/Answers.antt": "use Rattle.middle.proofs.Above.{above}\n\npub returns : goal.returns\nreturns c = above\n",
    "crates/middle/src/lib.rt": "use low::laws::{a_size_is_itself, twice_is_twice};\n\npub fn put() {\n    a_size_is_itself();\n}\n",
    "crates/knot/src/main.rt": "fn main() {\n    middle::put();\n}\n",
    "crates/beside/src/lib.rt": "#[tactic(auto, using(low::proofs::Sizes::of_beside))]\npub fn beside() {}\n",
}


class Cited(unittest.TestCase):
    def setUp(self):
        self.top = scratch(self)
        for path, text in FILES.items():
            path = os.path.join(self.top, path)
            os.makedirs(os.path.dirname(path), exist_ok=True)
            with open(path, "w", encoding="utf-8") as file:
                file.write(text)

    def lines(self, *words):
        done = call([sys.executable, "-B", SCRIPT, *words, "--top", self.top])
        self.assertEqual((done.returncode, done.stderr), (0, ""))
        return done.stdout.splitlines()

    def test_what_the_programs_do_not_need_stands_too_low(self):
        place = "crates/low/proofs/Sizes.antt"
        self.assertEqual(self.lines("low"), [
            "low: 22 lines in 7 items",
            f"  {place}, for laws, 3 lines: of_twice",
            f"  {place}, for leaves, 2 lines: of_beside",
            f"  {place}, for nobody, 2 lines: alone",
            f"  {place}, for tests, 2 lines: of_test",
            "  crates/low/specs/Size.antt, for laws, 2 lines: twice",
            "  crates/low/specs/Size.antt, for nobody, 2 lines: forgotten",
            "  crates/low/src/laws.rt, for laws, 9 lines: twice_is_twice",
        ])

    def test_lines_are_counted_by_crate(self):
        head, _, *rows = self.lines()
        self.assertEqual(head, "| crate | lines | too low | lemmas | laws | definitions | for laws | for leaves | for tests | for nobody |")
        self.assertEqual(rows, ["| low | 42 | 22 | 9 | 9 | 4 | 14 | 2 | 2 | 4 |", "| all 3 | 44 | 22 | 9 | 9 | 4 | 14 | 2 | 2 | 4 |"])

    def test_who_cites_an_item(self):
        told = dict(line.split(": ") for line in self.lines("who", "low"))
        self.assertEqual(told["low definition size (3 lines)"], "own definitions, own laws, own lemmas")
        self.assertEqual(told["low definition HasSize (2 lines)"], "own code")
        self.assertEqual(told["low lemma helps (2 lines)"], "own lemmas")
        self.assertEqual(told["low lemma of_size (4 lines)"], "middle")
        self.assertEqual(told["low lemma inside (2 lines)"], "own laws")
        self.assertEqual(told["low lemma of_test (2 lines)"], "own tests")
        self.assertEqual(told["low lemma of_beside (2 lines)"], "beside")
        self.assertEqual(told["low lemma alone (2 lines)"], "nobody")
        self.assertEqual(told["low law a_size_is_itself (7 lines)"], "middle, own laws")
        self.assertEqual(told["low law twice_is_twice (9 lines)"], "nobody")

    def test_public_modules_of_a_crate_of_laws_have_laws(self):
        law = "/// It is no code.\npub fn it_is_one()\n    ensures { (n : ℕ) → n ≡ n }\n{}\n"
        for path, text in {
            "crates.txt": FILES["crates.txt"].replace("middle: low", "middle: low low_laws") + "low_laws: low\n",
            "crates/low_laws/src/lib.rt": "pub mod doubles;\nmod shown;\npub mod sizes;\n",
            "crates/low_laws/src/doubles.rt": law,
            "crates/low_laws/src/shown.rt": "pub fn show() {}\n",
            "crates/low_laws/src/sizes.rt": law,
            "crates/low_laws/proofs/sizes/it_is_one/Answers.antt": "use Rattle.low.proofs.Sizes.{alone}\n\npub returns : goal.returns\nreturns c = alone\n",
        }.items():
            path = os.path.join(self.top, path)
            os.makedirs(os.path.dirname(path), exist_ok=True)
            with open(path, "w", encoding="utf-8") as file:
                file.write(text)
        self.assertEqual(self.lines("low", "low_laws"), [
            "low_laws: 11 lines in 2 items",
            "  crates/low_laws/src/doubles.rt, for laws, 4 lines: it_is_one",
            "  crates/low_laws/src/sizes.rt, for laws, 7 lines: it_is_one",
        ])
        self.assertIn("  crates/low/proofs/Sizes.antt, for laws, 5 lines: of_twice, alone", self.lines("low", "low"))

    def test_a_program_needs_what_it_stands_on(self):
        self.assertEqual(self.lines("low", "middle"), [])
        self.assertEqual(self.lines("low", "middle", "--programs", "beside"), [])
        found = self.lines("low", "low", "--programs", "beside")
        self.assertIn("  crates/low/proofs/Sizes.antt, for leaves, 4 lines: of_size", found)
        self.assertFalse([line for line in found if "of_beside" in line])

    def test_an_unknown_crate_ends_it(self):
        done = call([sys.executable, "-B", SCRIPT, "who", "lower", "--top", self.top])
        self.assertEqual((done.returncode, done.stdout), (2, ""))
        self.assertIn("there is no crate lower", done.stderr)

    def test_help_says_what_is_too_low(self):
        done = call([sys.executable, "-B", SCRIPT, "--help"])
        self.assertEqual(done.returncode, 0)
        self.assertIn("is too low", done.stdout)


if __name__ == "__main__":
    unittest.main()
