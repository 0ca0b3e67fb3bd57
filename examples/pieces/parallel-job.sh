#!/bin/sh
# The pieces of a run by GNU parallel, a process a piece, on this machine or on those of a file of logins, as examples/batch/hosts.txt:
#   examples/pieces/parallel-job.sh RUN [HOSTS]
# Call it at the top of the tree. Each host must see the tree, the program and the run under the same path, and take logins without a password.
# A piece that fails on a host, or whose host is dead, is tried on another one, three times in all. Ends with 0 where nothing is left.
set -u

if [ $# -lt 1 ] || [ $# -gt 2 ]; then
    echo 'usage: examples/pieces/parallel-job.sh RUN [HOSTS]' >&2
    exit 2
fi
run=$1
logins=$(cd -- "$(dirname -- "${2-.}")" && pwd)/$(basename -- "${2-.}") || exit 2
set -- --retries 3 --joblog "+$run/parallel.log"
[ "$logins" = "$PWD/." ] || set -- "$@" --sshloginfile "$logins" --workdir "$PWD"

tools/pieces.py left --lines "$run" | parallel "$@" tools/pieces.py run --processes 1 "$run"
tools/pieces.py left "$run"
