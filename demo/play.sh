#!/bin/sh
# Plays a script of lines, and shows each line with its answer beside it.
#   demo/play.sh SCRIPT
# It takes the proved program where that is there and no source is newer, and else the program as 'rt try' builds it,
# which proves nothing. It says which of the two it was, and ends with the status of the program.
# RT is the toolchain's command.

rt=${RT:-rt}
top=$(cd "$(dirname "$0")/.." && pwd) || exit 1
proved=$top/crates/notifyd/out/notifyd

if [ $# -ne 1 ] || [ ! -f "$1" ] || [ ! -r "$1" ]; then
    echo "demo: there is no script '${1:-}' to play" >&2
    exit 1
fi
script=$(realpath "$1") || exit 1

work=$(mktemp -d) || exit 1
trap 'rm -rf "$work"' EXIT
trap 'exit 129' HUP
trap 'exit 130' INT
trap 'exit 143' TERM

is_current() {
    [ -x "$proved" ] &&
        [ -z "$(find "$top/crates.txt" "$top"/crates/*/src "$top"/crates/*/specs "$top"/crates/*/proofs \
            -newer "$proved" -print 2>&1 | head -n 1)" ]
}

if is_current; then
    "$proved" play < "$script" > "$work/answers"
    status=$?
    which="This was the proved program, crates/notifyd/out/notifyd."
else
    echo "The program is built without its proofs, which takes up to a minute the first time." >&2
    (cd "$top/crates/notifyd" && "$rt" try -- play) < "$script" > "$work/answers" 2> "$work/notes"
    status=$?
    if ! grep -q '^run=ended' "$work/notes"; then
        cat "$work/notes" >&2
        echo "demo: the program was not built, or did not end" >&2
        [ "$status" -ne 0 ] || status=1
        exit "$status"
    fi
    which="This was the program as '$rt try' builds it, which proves nothing. '$rt ci' proves it."
fi

awk -v answers="$work/answers" -f "$top/demo/side_by_side.awk" "$script"
echo "$which" >&2
exit "$status"
