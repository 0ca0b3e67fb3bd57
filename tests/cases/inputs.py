"""A case, and inputs that many cases are made of."""
import reader

UNKNOT = b"x 0 1\no 1 0\n"
TREFOIL = b"x 4 3 2 1 0\no 2 1 0 4 3\n"
MIRRORED = b"x 0 1 2 3 4\no 2 3 4 0 1\n"
SHIFTED = UNKNOT + b"x 1 0\no 0 1\n"

# An input that each job answers with status 0.
GOOD = {
    b"decide": SHIFTED,
    b"check": SHIFTED + b"equal 1\nshift columns 1\n",
    b"replay": UNKNOT + b"moves 1\nshift rows 1\nquandle trivial 2\ncolours 0 1\n",
    b"colour": TREFOIL,
    b"close": b"braid 2 1 1 1\n",
    b"code": TREFOIL,
    b"sample": b"",
    b"braid": TREFOIL,
    b"linking": b"braid 2 1 1\nbraid 2 -1 -1\n",
    b"braidcheck": b"braid 3 2 1 2 1\nbraid 2 1 1 1\nsteps 5\ntriple 0\nturn 2\ninsert 1 -2\ncancel 1\nshrink\n",
    b"simplify": b"x 1 0 2\no 0 2 1\n",
    b"least": b"x 1 0 2\no 0 2 1\n",
    b"grid": b"crossings 2\nX[4,1,3,2]\nX[2,3,1,4]\nloops 1\ngauss O1- U2-\ngauss O2- U1-\n",
    b"numbers": TREFOIL + b"quandle tetrahedral\nweight 2\n0 1 1 0\n1 0 1 0\n1 1 0 0\n0 0 0 0\nquandle dihedral 3\n",
    b"weights": TREFOIL + b"braid 2\nquandle tetrahedral\nweight 2\n0 1 1 0\n1 0 1 0\n1 1 0 0\n0 0 0 0\n",
}

# A table of three classes, two of which are left open, by one block and by another that is claimed to be wide.
BLOCKS = b"quandle dihedral 3\nquandle tetrahedral\nweight 2\n0 1 1 0\n1 0 1 0\n1 1 0 0\n0 0 0 0\n"
TABLE = (b"certificate 4\nblocks 2\n" + BLOCKS + b"classes 3\n" + TREFOIL + b"seeds 0 1\nnumbers 9\nwide 2\n" + UNKNOT + b"seeds 0\nnumbers 3\nwide 1\n"
         + MIRRORED + b"seeds 0 1\nnumbers 9\nwide 2\nopen 1\nclasses 0 2\nrows 2\n" + TREFOIL + b"class 0\nmoves 0\n"
         + b"x 1 0\no 0 1\nclass 1\nmoves 1\nshift columns 1\n")


class Case:
    """A call: its words and input, the way in which it is made with what that way needs, and the answer that a document states."""

    def __init__(self, section, name, words, data, way="plain", need=None, due=None, program_name=b"knot"):
        self.section, self.name, self.words, self.data = section, name, words, data
        self.way, self.need, self.due, self.program_name = way, need, due, program_name


def jobs():
    return list(reader.JOBS)
