"""Tests of what tools/census.py is made of: turned moves, shorter braid words, plans and names of files."""
import os
import random
import unittest

import common
import grid_facts
from lib.batch.stages import BatchError
from lib.census.plan import read_plan
from lib.census.results import pair_name
from lib.codes.smaller import reduced, related
from lib.tables.blocks import split_blocks
from knot_workbench.diagrams import Braid, Grid, closure, mirror_image, reverse
from knot_workbench.moves import back, made, turned as turned_moves
from knot_workbench.tables.knots import BOTH, MIRRORED, SAME
from knot_workbench.texts import braid_fault
from test_join import walk

TREFOIL = Grid((4, 3, 2, 1, 0), (2, 1, 0, 4, 3))
KINDS = ("shift", "exchange", "slide", "stabilise", "destabilise")


class Moves(unittest.TestCase):
    def test_turned_moves_lead_to_the_turned_grid_and_back(self):
        dice = random.Random(6)
        for turn in range(30):
            moves, end = walk(dice, TREFOIL, 10, KINDS)
            for is_mirror, is_reverse in ((True, False), (False, True), (True, True)):
                def after(grid):
                    grid = mirror_image(grid) if is_mirror else grid
                    return reverse(grid) if is_reverse else grid
                grid = after(TREFOIL)
                for move in turned_moves(5, moves, is_mirror, is_reverse):
                    grid = made(grid, move)
                self.assertEqual(grid, after(end), (turn, moves))
            for move in back(TREFOIL, moves):
                end = made(end, move)
            self.assertEqual(end, TREFOIL)


class Smaller(unittest.TestCase):
    def test_shorter_words_have_the_jones_polynomial(self):
        dice = random.Random(8)
        for strands, letters in ((2, (1, 1, 1)), (3, (1, -2, 1, -2)), (2, ()), (3, (1, 1, -2, 1, -2, -2)), (4, (1, 1, 2, 2, 3))):
            for _ in range(6):
                word, count = list(letters), strands
                for _ in range(8):
                    place, letter = dice.randrange(len(word) + 1), dice.choice((1, -1)) * dice.randrange(1, count)
                    word[place:place] = [letter, -letter]
                    word = related(word, dice)
                    if dice.random() < 0.2 and count < 5:
                        word.append(dice.choice((1, -1)) * count)
                        count += 1
                found = reduced(Braid(count, tuple(word)), dice, 300)
                self.assertIsNone(braid_fault(found))
                self.assertLessEqual((found.strands, len(found.letters)), (count, len(word)))
                self.assertEqual(grid_facts.jones(*closure(found)[0]), grid_facts.jones(*closure(Braid(strands, letters))[0]), (word, found))


class Plans(unittest.TestCase):
    def setUp(self):
        self.folder = common.scratch(self)

    def put(self, name, text):
        path = os.path.join(self.folder, name)
        with open(path, "w", encoding="utf-8") as out:
            out.write(text)
        return path

    def test_the_plan_of_the_tree_is_read(self):
        steps = read_plan(os.path.join(common.TOOLS, "census.txt"))
        self.assertEqual([step.kind for step in steps[:2]], ["linking", "numbers"])
        self.assertEqual([len(step.blocks) for step in steps if step.name == "short"], [18])
        self.assertTrue(all(len(step.blocks) <= 64 for step in steps))

    def test_many_quandles_become_several_steps(self):
        self.put("q.txt", "".join(f"quandle dihedral {order}\n" for order in range(1, 33)))
        self.put("r.txt", "".join(f"quandle trivial {order}\n" for order in range(1, 33)) + "quandle dihedral 3\nquandle tetrahedral\n")
        steps = read_plan(self.put("plan", "all numbers +q.txt +r.txt\n"))
        self.assertEqual([(step.name, len(step.blocks)) for step in steps], [("all-1", 64), ("all-2", 1)])

    def test_faults_are_named(self):
        self.put("none.txt", "# no quandle\n")
        for text, said in (("", "no step"), ("a linking\na linking\n", "2: a step before has the name 'a'"), ("a\n", "1: one of linking,"),
                           ("a colour\n", "1: one of linking,"), ("a numbers\n", "words +FILE, and one at least"), ("a linking x\n", "no words"), ("a linear x\n", "no words"),
                           ("a seek +none.txt\n", "options and no +FILE"),
                           ("a least\n", "1: one of linking,"), ("a numbers +none.txt\n", "no quandle"), ("a numbers +no.txt\n", "No such file")):
            with self.assertRaises(BatchError, msg=text) as caught:
                read_plan(self.put("plan", text))
            self.assertIn(said, str(caught.exception))

    def test_blocks(self):
        head, blocks = split_blocks("# two\nbraid 2 1\n# a quandle\nquandle table 1\n0\n\nweight 2\n0\nquandle dihedral  3\nshadow mochizuki\n")
        self.assertEqual(head, "# two\nbraid 2 1\n# a quandle\n")
        self.assertEqual([(block.quandle, block.text, block.has_weight) for block in blocks],
                         [("quandle table 1\n0\n", "quandle table 1\n0\nweight 2\n0\n", True), ("quandle dihedral 3\n", "quandle dihedral 3\nshadow mochizuki\n", True)])


class Names(unittest.TestCase):
    def test_files_of_other_diagrams_have_other_names(self):
        self.assertEqual(pair_name(["a", "b"], BOTH), "a--b~mirrored~reversed")
        asked = [(["a--b", "c"], SAME), (["a", "b--c"], SAME), (["a-", "b"], SAME), (["a", "-b"], SAME), (["a~mirrored", "b"], SAME), (["a", "b"], MIRRORED),
                 (["a" * 200, "b"], SAME), (["a" * 200, "b"], MIRRORED), (["a" * 100, "b" * 100], SAME), (["a" * 100, "b" * 101], SAME)]
        names = [pair_name(*words) for words in asked]
        self.assertEqual(len(set(names)), len(names))
        self.assertLessEqual(max(map(len, names)), 150)


if __name__ == "__main__":
    unittest.main()
