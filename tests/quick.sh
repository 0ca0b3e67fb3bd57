#!/bin/sh
# Runs what tries the built programs and the scripts, side by side. The rest is in quick.py.
here=$(CDPATH='' cd -- "$(dirname -- "$0")" && pwd) || exit 1
exec python3 -B "$here/quick.py" "$@"
