"""Lists of `simplify` and of `decide` joined into one certificate, ruled on by the independent reader, and moves undone."""
import os
import random
import unittest

import common
import reader
from knot_workbench.diagrams import CORNERS, Braid, Grid, closure, diagram_text, grid_text
from knot_workbench.moves import Illegal, made, tidied, undone
from knot_workbench.texts import move_text

TREFOIL = Grid((4, 3, 2, 1, 0), (2, 1, 0, 4, 3))


def moves_of(grid):
    """All legal moves of a grid, and where each leads."""
    size = len(grid.xs)
    every = [("shift", which, by) for which in ("columns", "rows") for by in range(1, size)]
    every += [(word, which, place) for word in ("exchange", "slide") for which in ("columns", "rows") for place in range(size - 1)]
    every += [("stabilise", column, kind, corner) for column in range(size) for kind in "xo" for corner in CORNERS]
    every += [("destabilise", column, row) for column in range(size - 1) for row in range(size - 1)]
    for move in every:
        try:
            yield move, made(grid, move)
        except Illegal:
            pass


def walk(dice, grid, length, words):
    """A random walk by moves of some kinds: the moves, and where they lead."""
    moves = []
    for _ in range(length):
        choices = [step for step in moves_of(grid) if step[0][0] in words and len(step[1].xs) <= 9]
        if choices:
            move, grid = dice.choice(choices)
            moves.append(move)
    return moves, grid


def lines_of(moves):
    return "".join(f"{move_text(move)}\n" for move in moves)


class Undone(unittest.TestCase):
    def test_each_move_is_undone(self):
        dice = random.Random(2)
        grid, seen = TREFOIL, set()
        for _ in range(30):
            steps = list(moves_of(grid))
            for move, after in steps:
                self.assertEqual(made(after, undone(grid, move)), grid, (grid, move))
                seen.add(move[0])
            grid = dice.choice([after for _, after in steps if len(after.xs) <= 8])
        self.assertEqual(seen, {"shift", "exchange", "slide", "stabilise", "destabilise"})

    def test_a_tidied_list_leads_to_the_same_grid_and_is_tidy(self):
        dice = random.Random(3)
        for _ in range(40):
            moves, end = walk(dice, TREFOIL, 12, ("shift", "shift", "exchange", "stabilise", "destabilise"))
            grid = TREFOIL
            tidy = tidied(TREFOIL, moves)
            for move in tidy:
                grid = made(grid, move)
            self.assertEqual(grid, end)
            self.assertTrue(all(reader.may_follow(before, move) for before, move in zip(tidy, tidy[1:])))


class Joined(unittest.TestCase):
    def setUp(self):
        self.folder = common.scratch(self)

    def put(self, name, text):
        path = os.path.join(self.folder, name)
        with open(path, "w", encoding="utf-8") as out:
            out.write(text)
        return path

    def files(self, first, second, simple, verdict):
        """The four files, by both given diagrams, both simplified grids with their moves, and the text of the verdict."""
        return [self.put("problem.txt", "# two diagrams\n" + diagram_text(first) + diagram_text(second)),
                *(self.put(f"{place}.simple", grid_text(grid) + f"moves {len(moves)}\n" + lines_of(moves) + "irreducible\n") for place, (grid, moves) in enumerate(simple)),
                self.put("verdict.txt", verdict)]

    def test_certificates_of_random_lists_are_accepted(self):
        dice = random.Random(4)
        for turn in range(8):
            first, kinds = TREFOIL, ("shift", "exchange", "slide", "stabilise", "destabilise")
            to_first, one = walk(dice, first, 5, kinds)
            between, two = walk(dice, one, 5, kinds)
            # The second given diagram leads to `two`: a walk from there, undone.
            away, second = walk(dice, two, 5, kinds)
            grids = [two]
            for move in away:
                grids.append(made(grids[-1], move))
            to_second = [undone(grid, move) for grid, move in zip(grids, away)][::-1]
            head = "certificate 2\n" if turn % 2 else ""
            files = self.files(first, second, [(one, to_first), (two, to_second)], f"{head}equal {len(between)}\n" + lines_of(between))
            for words, version in (((), "certificate 2\nequal "), (("--plain",), "equal ")):
                status, out, said = common.run("join.py", *files, *words)
                self.assertEqual((status, said), (0, ""))
                self.assertTrue(out.startswith(grid_text(first) + grid_text(second) + version), out)
                answer = reader.answer([b"check"], out.encode())
                self.assertEqual((answer.status, answer.text), (0, b"accepted\n"))

    def test_a_braid_stays_a_braid_and_quandles_stay(self):
        braid = Braid(2, (1, -1, 1))
        grid = closure(braid)[0]
        files = self.files(braid, braid, [(grid, []), (grid, [])], "equal 0\n")
        with open(files[0], "a", encoding="utf-8") as out:
            out.write("quandle dihedral 3\n")
        self.assertEqual(common.run("join.py", *files), (0, "braid 2 1 -1 1\nbraid 2 1 -1 1\nquandle dihedral 3\ncertificate 2\nequal 0\n", ""))

    def test_two_diagrams_with_one_least_diagram_are_joined(self):
        least = common.read("examples", "least", "trefoil.out")
        problem = self.put("problem.txt", 2 * common.read("examples", "least", "trefoil.txt"))
        one, two = self.put("one.least", least), self.put("two.least", least)
        status, out, said = common.run("join.py", problem, one, two, self.put("verdict.txt", "certificate 2\nequal 0\n"))
        self.assertEqual((status, said), (0, ""))
        self.assertEqual(reader.answer([b"check"], out.encode()).text, b"accepted\n")
        status, out, said = common.run("join.py", problem, one, self.put("two.least", least + "whole\n"), problem)
        self.assertEqual((status, out), (1, ""))

    def test_a_verdict_behind_its_problem_is_read_and_a_file_is_written(self):
        path = os.path.join(self.folder, "out.txt")
        shifted = made(TREFOIL, ("shift", "rows", 1))
        files = self.files(TREFOIL, shifted, [(TREFOIL, []), (shifted, [])], grid_text(TREFOIL) + grid_text(shifted) + "certificate 2\nequal 1\nshift rows 1\n")
        self.assertEqual(common.run("join.py", *files, "--out", path), (0, "", ""))
        with open(path, encoding="utf-8") as written:
            self.assertEqual(reader.answer([b"check"], written.read().encode()).text, b"accepted\n")

    def test_what_does_not_fit_is_said_by_its_file(self):
        shifted = made(TREFOIL, ("shift", "rows", 1))
        good = (TREFOIL, [])
        for simple, verdict, said in (
                ((good, (shifted, [])), "equal 0\n", "1.simple: its moves don't lead from the diagram of the problem to its own"),
                ((good, (TREFOIL, [("exchange", "columns", 0)])), "equal 0\n", "1.simple: move 0, 'exchange columns 0', is not legal: interleaved"),
                ((good, good), "equal 1\nshift rows 1\n", "verdict.txt: its moves don't lead from the first simplified diagram to the second"),
                ((good, good), "equal 1\nshift rows 9\n", "verdict.txt: move 0, 'shift rows 9', is not legal: range"),
                ((good, good), "unknown budget 20000\n", "verdict.txt: line 1: a verdict 'equal' is due, and not 'unknown budget 20000'"),
                ((good, good), "equal 2\nshift rows 1\n", "verdict.txt: line 3: a move is due")):
            files = self.files(TREFOIL, TREFOIL, simple, verdict)
            status, out, fault = common.run("join.py", *files)
            self.assertEqual((status, out), (1, ""), verdict)
            self.assertTrue(fault.startswith(f"join.py: {self.folder}/{said}"), fault)
        self.assertEqual(common.run("join.py", "a", "b")[0], 2)


if __name__ == "__main__":
    unittest.main()
