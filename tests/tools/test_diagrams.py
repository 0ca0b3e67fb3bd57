"""The moves, closures and carried colours of tools/lib against the stored examples of the program."""
import glob
import os
import unittest

import common
from knot_workbench import colourings, diagrams, faults, texts
from knot_workbench.moves import Illegal, carried, made


def replayed(text):
    """What `./knot replay` writes, by the Python."""
    lines = texts.Lines(text)
    grid = diagrams.grid_of(texts.read_diagram(lines))
    moves = texts.read_moves(lines)
    quandle = colours = None
    if lines.peek():
        quandle = texts.read_quandle(lines)
        colours = [int(token) for token in lines.take("colours")[1][1:]]
        if not colourings.is_colouring(grid, quandle, colours):
            return "rejected colours\n"
    for place, move in enumerate(moves):
        try:
            after = made(grid, move)
        except Illegal as fault:
            return f"rejected step {place} {fault}\n"
        if quandle:
            colours = carried(grid, quandle, colours, move)
        grid = after
    return diagrams.grid_text(grid) + (f"colours {' '.join(map(str, colours))}\n" if quandle else "")


class Diagrams(unittest.TestCase):
    def examples(self, job):
        found = sorted(glob.glob(os.path.join(common.ROOT, "examples", job, "*.txt")))
        self.assertTrue(found)
        return [(common.read(path), common.read(path[:-4] + ".out")) for path in found]

    def test_replays_are_those_of_the_program(self):
        for text, wanted in self.examples("replay"):
            self.assertEqual(replayed(text), wanted, text)

    def test_closures_are_those_of_the_program(self):
        for text, wanted in self.examples("close"):
            grid, feet = diagrams.closure(texts.read_diagram(texts.Lines(text)))
            self.assertTrue(wanted.startswith(diagrams.grid_text(grid) + f"feet {' '.join(map(str, feet))}\n"), text)

    def test_fixed_points_of_the_trefoil_are_those_of_the_program(self):
        text = common.read("examples", "close", "trefoil.txt")
        lines = texts.Lines(text)
        braid = texts.read_diagram(lines)
        quandle = texts.read_quandle(lines)
        listed = [" ".join(map(str, feet)) for feet in colourings.fixed_points(braid, quandle)]
        self.assertIn(f"list {len(listed)}\n" + "\n".join(listed) + "\n", common.read("examples", "close", "trefoil.out"))

    def test_a_closure_has_as_many_bottoms_as_strands(self):
        for letters in ((1, -2, 1, -2), (1, 2, 2, -1, -2, 1)):
            self.assertEqual(diagrams.bottoms(diagrams.closure(diagrams.Braid(3, letters))[0]), 3)

    def test_faults_name_their_line(self):
        for text, line in (("x 0 1\no 0 1\n", 2), ("x 0 1 1\no 1 0 2\n", 1), ("braid 2 2\n", 1), ("braid 9 1\n", 1), ("y 0 1\n", 1), ("", 1), ("x 0 1\n", 2), ("x 0 1", 2), ("x 0 1\n\n", 3)):
            with self.assertRaises(faults.BadText) as caught:
                texts.read_diagram(texts.Lines(text))
            self.assertEqual(caught.exception.line, line, text)

    def test_a_byte_order_mark_is_named(self):
        with self.assertRaises(faults.BadText) as caught:
            texts.Lines("\ufeffx 0 1\no 1 0\n")
        self.assertEqual(caught.exception.line, 1)
        self.assertIn("byte order mark", str(caught.exception))

    def test_a_table_that_fails_the_third_law_is_refused_at_its_last_line(self):
        with self.assertRaises(faults.BadText) as caught:
            texts.read_quandle(texts.Lines("quandle table 3\n0 2 0\n2 1 1\n1 0 2\n"))
        self.assertEqual(caught.exception.line, 4)


if __name__ == "__main__":
    unittest.main()
