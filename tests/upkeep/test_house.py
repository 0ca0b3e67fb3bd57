"""Tests of upkeep/house.py and house_crates.py: names with several meanings, functions, floors and sizes, on small texts and trees."""
import contextlib
import io
import os
import sys
import unittest
import unittest.mock

ROOT = os.path.dirname(os.path.dirname(os.path.dirname(os.path.abspath(__file__))))
sys.path[:0] = [os.path.join(ROOT, "upkeep"), os.path.join(ROOT, "tests", "tools")]

import house
import house_crates
from common import scratch

CODE = """use std::io;

/// With a contract.
pub fn first(n: u8) -> u8
    ensures { result ≡ n }
{
    if n == 0 {
        return 0;
    }
    n
}

/// Without one.
pub(crate) fn second(n: u8) -> u8 {
    n
}

impl Third for Fourth {
    fn third(
        &self,
        n: u8,
    ) -> u8 {
        n
    }

    pub const fn fourth() -> u8
    where
        Fourth: Fifth,
    {
        4
    }
}

trait Sixth {
    fn sixth(&self) -> u8
        ensures small { result ≤ 3 }
        ensures { result ≡ 3 };
}

/// A law.
pub fn seventh()
    ensures { (n : ℕ)
        → n ≡ n }
{}

fn eighth() {}
"""


class Functions(unittest.TestCase):
    def test_a_body_is_found_with_and_without_a_contract(self):
        self.assertEqual(list(house_crates.functions_of(CODE.splitlines())), [
            ("first", 4, 6, 11), ("second", 14, 14, 16), ("third", 19, 22, 24), ("fourth", 26, 29, 31), ("sixth", 35, 37, 37), ("seventh", 41, 44, 44),
            ("eighth", 46, 46, 46)])


class Crates(unittest.TestCase):
    def setUp(self):
        self.top = scratch(self)
        self.write("crates.txt", "# --- floor 0: low\nlow: arrayvec memchr\n# --- floor 1: above\nmiddle: low\n# --- floor 3: top\nhigh: middle low arrayvec\n")
        self.write("crates/low/src/lib.rt", "use arrayvec::ArrayVec;\n// memchr::memchr\n")
        self.write("crates/middle/specs/Size.antt", "use Rattle.low.specs.Size.{size}\n")
        self.write("crates/high/src/main.rt", "#[cfg(test)]\nmod tests;\n\nfn main() {\n    middle::run();\n}\n")
        self.write("crates/high/src/tests.rt", "fn it_works() {}\n" * 5)

    def write(self, path, text):
        path = os.path.join(self.top, path)
        os.makedirs(os.path.dirname(path), exist_ok=True)
        with open(path, "w", encoding="utf-8") as file:
            file.write(text)

    def said(self, part):
        said = io.StringIO()
        with contextlib.redirect_stdout(said):
            part(self.top)
        return said.getvalue().splitlines()

    def test_floors_are_chains_of_names(self):
        self.assertEqual(self.said(house_crates.floors), [
            "floor 0: low", "floor 1: middle", "floor 2: high",
            "high is on floor 3 in crates.txt, and on 2 by the names in its files",
            "low: crates.txt lists what no file names: memchr",
            "high: crates.txt lists what no file names: low arrayvec",
            "1 crates are on a floor other than crates.txt says; it lists 3 libraries that no file of their crate names"])

    def test_crates_that_name_one_another_are_an_error(self):
        self.write("crates/low/specs/Size.antt", "use Rattle.high.specs.Size.{size}\n")
        self.assertRaises(ValueError, self.said, house_crates.floors)

    def test_sizes_leave_tests_out(self):
        self.assertEqual(house_crates.size_of("high", self.top), (1, 6))
        self.write("crates/middle/src/lib.rt", "fn one() {}\n" * 101)
        self.write("crates/low/src/more.rt", "\n" * 1500)
        self.assertEqual(self.said(house_crates.sizes), [
            "middle: 101 functions, 101 lines of code", "low: 0 functions, 1502 lines of code",
            "2 of 3 crates have over 100 functions or 1500 lines of code; the largest others: high 1 / 6"])


class Meanings(unittest.TestCase):
    def setUp(self):
        self.top = scratch(self)
        self.write("crates/one/specs/Walk.antt", "use Rattle.two.specs.Walk.{size}\n\nabbrev pub walked : ℕ → ℕ\nwalked n = n\n\n"
                   "pub record Holds (n : ℕ) : Type 0 where\n  pub size : n ≡ 1\n")
        self.write("crates/one/specs/Lib.antt", "pub mod Walk\npub use Rattle.two.specs.Walk as Other\n")
        self.write("crates/two/specs/Walk.antt", "unfoldable pub walked : ℕ → ℕ\nwalked n = n + 1\n\nabbrev pub size : ℕ\nsize = 1\n")
        self.write("crates/two/specs/Held.antt", "abbrev pub Holds : ℕ → Type 0\nHolds n = n ≡ 2\n")
        self.write("crates/one/src/walk.rt", "pub struct Row {\n    left: u8,\n}\n\npub(crate) enum Side {\n    Left,\n}\n")
        self.write("crates/two/src/lib.rt", "pub struct Row {\n    right: u8,\n}\n\nstruct Side {\n    left: u8,\n}\n")
        self.write("crates/two/src/tests/side.rt", "pub struct Side {\n    left: u8,\n}\n")
        self.write("CONTRIBUTING.md", "- A top-level name of Python has one meaning. Several define `main`, which a program begins with.\n- `size` is whole.\n")
        self.write("tools/one.py", "__all__ = ()\nMOST, LEAST = 3, [size for size in range(3)]\n\n\ndef main():\n    size = 1\n\n\nclass Row:\n    size = 2\n")
        self.write("tools/lib/two.py", "__all__ = ()\nfrom one import Row\nMOST: int = 4\nRow.size = 3\n\n\ndef size():\n    pass\n\n\ndef main():\n    pass\n")
        self.write("bench/three.py", "class Row:\n    pass\n\n\ndef size():\n    pass\n")

    def write(self, path, text):
        path = os.path.join(self.top, path)
        os.makedirs(os.path.dirname(path), exist_ok=True)
        with open(path, "w", encoding="utf-8") as file:
            file.write(text)

    def said(self):
        said = io.StringIO()
        with unittest.mock.patch.object(house, "TOP", self.top), contextlib.redirect_stdout(said):
            house.meanings()
        return said.getvalue().splitlines()

    def test_a_name_of_several_files_is_printed_with_its_places(self):
        self.assertEqual(self.said(), [
            "Holds: crates/one/specs/Walk.antt:6, crates/two/specs/Held.antt:1",
            "walked: crates/one/specs/Walk.antt:3, crates/two/specs/Walk.antt:1",
            "Row: crates/one/src/walk.rt:1, crates/two/src/lib.rt:1",
            "MOST: tools/one.py:2, tools/lib/two.py:3", "Row: tools/one.py:9, bench/three.py:1", "size: tools/lib/two.py:7, bench/three.py:5",
            "2 of 3 names of definitions have several meanings, 1 of 2 types of the code, and 3 of 5 names of Python"])

    def test_a_name_of_one_file_has_one_meaning(self):
        self.write("crates/two/specs/Held.antt", "abbrev pub IsTwo : ℕ → Type 0\nIsTwo n = n ≡ 2\n")
        self.write("crates/two/specs/Walk.antt", "abbrev pub size : ℕ\nsize = 1\n\nabbrev pub stepped : ℕ\nstepped = size\n")
        self.write("crates/two/src/lib.rt", "")
        self.write("tools/lib/two.py", "def size():\n    pass\n\n\ndef main():\n    pass\n")
        self.write("bench/three.py", "import two\n")
        self.assertEqual(self.said(), ["0 of 5 names of definitions have several meanings, 0 of 2 types of the code, and 0 of 5 names of Python"])

    def test_a_name_that_the_page_lists_and_one_module_defines_is_a_finding(self):
        self.write("tools/lib/two.py", "")
        self.assertIn("main: CONTRIBUTING.md says that several modules define it", self.said())


if __name__ == "__main__":
    unittest.main()
