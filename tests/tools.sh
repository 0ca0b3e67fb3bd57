#!/bin/sh
# Runs the tests of tools/, of the module in python/, of tests/edits.py and of tests/rows.py: those that need knot itself run where KNOT names a built one,
# or crates/knot/out/knot is there. Then those of the launchers, in trees of their own. The words are those of all_tools.py.
here=$(CDPATH='' cd -- "$(dirname -- "$0")" && pwd) || exit 1
exec python3 -B "$here/all_tools.py" "$@"
