"""Are the closure of a braid and a published grid the same knot? And the trefoil and the unknot?"""
from knot_workbench import Braid, Certificate, Grid, colour, decide, seek

braid = Braid(2, [1, 1, 1])
grid = Grid([4, 3, 2, 1, 0], [1, 0, 4, 3, 2])

found = seek(braid, grid)
print(found, found.check())
print(*(move for move in found.moves if move[0] != "shift"), sep="\n")
found.save("trefoil.certificate")
print(Certificate.load("trefoil.certificate").second == grid)

unknot = Grid([0, 1], [1, 0])
found = decide(braid, unknot)
print(found, found.verdict.quandle.name)
for by in colour(grid, "dihedral 3", "tetrahedral"):
    print(by.quandle.name, len(by.colours))
print(decide(grid, grid.mirror(), spare=0))
