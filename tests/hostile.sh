#!/bin/sh
# Runs the built program as a user on a bad day would meet it: tests/hostile.py says how, and takes the same words.
set -u

here=$(CDPATH='' cd -- "$(dirname -- "$0")" && pwd) || exit 1
if ! command -v python3 >/dev/null 2>&1; then
    echo 'hostile: python3 is not on PATH' >&2
    exit 127
fi
exec python3 "$here/hostile.py" "$@"
