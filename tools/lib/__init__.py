"""What the scripts of tools/ share, by subject; each package says in its docstring which modules it has, and in its README what it is for.

calls      how scripts are called: streams, files, signals, stores of answers, workers, and faults in one line
codes      codes of other programs, and braid words
batch      a folder of problems, stage by stage: batch.py
pieces     a list of inputs in pieces, for many machines: pieces.py
tables     tables of knots, and diagrams that are given: from_table.py, to_table.py
knot_table what belongs to a table of knots, made anew: knot_table.py
identify   which knot a diagram is: identify.py
sorting    diagrams sorted into classes, for tabulate.py and census.py
classes    what is said of the classes, with a certificate
census     a folder of diagrams sorted by a plan: census.py
tabulate   a table of knots from nothing: tabulate.py
cocycles   2-cocycles of quandles: cocycles.py, and the makers in quandles/make

Diagrams, quandles, moves, codes and tables are in python/knot_workbench, which is found from here on. A script imports from here first.
"""
import os
import sys

# The scripts whose status 1 is an answer, so that what can't be begun ends with 2.
ENDING_WITH_2 = ("batch.py", "census.py", "from_table.py", "identify.py", "pieces.py", "tabulate.py")

# These lines are such that an older Python reads them too. The module refuses it by an error of its own, which isn't for those who call a script.
if sys.version_info < (3, 9):
    _script = os.path.basename(sys.argv[0])
    sys.stderr.write("%s: Python 3.9 or newer is needed, and this is Python %d.%d\n" % ((_script,) + tuple(sys.version_info[:2])))
    sys.exit(2 if _script in ENDING_WITH_2 else 1)

TOP = os.path.dirname(os.path.dirname(os.path.dirname(os.path.realpath(__file__))))
_python = os.path.join(TOP, "python")
if not os.path.isdir(_python) and os.path.isfile(os.path.join(TOP, "python-folder.txt")):
    # An installation says where it put the module.
    with open(os.path.join(TOP, "python-folder.txt"), encoding="utf-8") as _said:
        _python = _said.read().rstrip("\n")
sys.path.insert(0, _python)
