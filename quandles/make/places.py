"""Where things are, for the makers: with this imported, `lib` of tools/ and the module knot_workbench are found too."""
import os
import sys

QUANDLES = os.path.dirname(os.path.dirname(os.path.realpath(__file__)))

sys.path.append(os.path.join(os.path.dirname(QUANDLES), "tools"))
