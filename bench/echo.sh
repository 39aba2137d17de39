#!/usr/bin/env bash
# Times the built program on scripts of a quarter, a half and a whole MiB, whose replies go to nothing and to a pipe.
# First run `rt run` in crates/quake_cli, which builds it.
set -e
cd "$(dirname "$0")/.."
program=$PWD/crates/quake_cli/out/quake_cli
scripts=$(mktemp -d)
trap 'rm -r "$scripts"' EXIT
mkdir "$scripts/game"

# time_lines NAME LINE: scripts of this line alone.
time_lines() {
    local size
    for size in 262144 524288 1048576; do
        yes "$2" | head -c $((size / (${#2} + 1) * (${#2} + 1))) >"$scripts/script.cfg"
        TIMEFORMAT="$1, $size bytes, to nothing: %R s (user %U, system %S)"
        time "$program" -heapsize 1024 "$scripts/game" <"$scripts/script.cfg" >/dev/null
        TIMEFORMAT="$1, $size bytes, to a pipe: %R s (user %U, system %S)"
        time "$program" -heapsize 1024 "$scripts/game" <"$scripts/script.cfg" | cat >/dev/null
    done
}

time_lines "one word a line" "echo a"
time_lines "70 words a line" "echo$(printf ' a%.0s' {1..70})"
time_lines "empty lines" ""
time_lines "8000 empty commands a line" "$(printf ';%.0s' {1..8000})"
