#!/bin/sh
# Runs every example through ./knot: examples/JOB/NAME.txt must give NAME.out, and the exit status in NAME.status, or 0.
# Further words are in NAME.args, in one line. What decide answers with status 0 must be accepted by check after its input.
# Those of check are answered likewise by the separate checker, where crates/knot_check/out/knot_check is there or KNOT_CHECK names it.
# Then every example of ./seek: the words in seek/NAME.words, one a line, must give NAME.out and NAME.err, or nothing, and the status.
# Where KNOT or SEEK names a program, the launchers call it, and none is built.
set -u

here=$(CDPATH='' cd -- "$(dirname -- "$0")" && pwd) || exit 1
top=$here/..
checker=${KNOT_CHECK:-$top/crates/knot_check/out/knot_check}
found=${TMPDIR:-/tmp}/knot-example.$$
trap 'rm -rf "$found" "$found".*' EXIT
if [ -n "${KNOT-}${SEEK-}" ]; then
    python3 -B "$top/tests/launched.py" "$found.tree" || exit 1
    top=$found.tree
fi
knot=$top/knot
seek=$top/seek
passed=0
failed=0

# Whether the answer that was found, after the input, is accepted. The examples end with a line feed.
is_accepted() {
    [ "$(cat "$1" "$found" | "$knot" check)" = accepted ]
}

for input in "$here"/*/*.txt; do
    job=$(basename -- "$(dirname -- "$input")")
    case $job in
        decide | check | replay | colour | close | code | braid | linking | braidcheck | weights | numbers | simplify | least | grid | sample) ;;
        *) continue ;;
    esac
    stem=${input%.txt}
    name=$job/$(basename -- "$stem")
    wanted=0
    [ -f "$stem.status" ] && wanted=$(cat "$stem.status")
    further=
    [ -f "$stem.args" ] && further=$(cat "$stem.args")
    # The further words are parted at blanks.
    "$knot" "$job" $further <"$input" >"$found"
    status=$?
    if [ "$status" -ne "$wanted" ] || ! cmp -s "$found" "$stem.out"; then
        failed=$((failed + 1))
        echo "differs: $name, status $status, wanted $wanted"
    elif [ "$job" = decide ] && [ "$status" -eq 0 ] && ! is_accepted "$input"; then
        failed=$((failed + 1))
        echo "not accepted after its input: $name"
    else
        passed=$((passed + 1))
    fi
    if [ "$job" = check ] && [ -x "$checker" ]; then
        "$checker" <"$input" >"$found" 2>"$found.told"
        status=$?
        if [ "$status" -ne "$wanted" ] || ! cmp -s "$found" "$stem.out" || [ -s "$found.told" ]; then
            failed=$((failed + 1))
            echo "differs: $name by the separate checker, status $status, wanted $wanted"
        else
            passed=$((passed + 1))
        fi
    fi
done

cd "$here/seek" || exit 1
for words in *.words; do
    stem=${words%.words}
    wanted=0
    [ -f "$stem.status" ] && wanted=$(cat "$stem.status")
    for stream in out err; do
        [ -f "$stem.$stream" ] || printf '' >"$found.$stream.wanted"
        [ -f "$stem.$stream" ] && cp "$stem.$stream" "$found.$stream.wanted"
    done
    set --
    while IFS= read -r word; do
        set -- "$@" "$word"
    done <"$words"
    "$seek" "$@" >"$found.out" 2>"$found.err" </dev/null
    status=$?
    if [ "$status" -ne "$wanted" ] || ! cmp -s "$found.out" "$found.out.wanted" || ! cmp -s "$found.err" "$found.err.wanted"; then
        failed=$((failed + 1))
        echo "differs: seek/$stem, status $status, wanted $wanted"
    else
        passed=$((passed + 1))
    fi
done
echo "$passed as written, $failed different"
[ "$passed" -gt 0 ] && [ "$failed" -eq 0 ]
