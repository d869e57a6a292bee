#!/usr/bin/env bash
# The capture program beside the trace program, with arguments that it refuses, and on an input that can't be read; ends
# with status 1 at the first difference.
set -euo pipefail
cd "$(dirname "$0")/../.."
own=crates/capture/stdin
words=$(mktemp)
trap 'rm "$words"' EXIT

fail() {
    echo "tests: capture $1" >&2
    exit 1
}

# Without the numbers the lines are the trace program's.
./run capture words <"$own" >"$words"
./run trace <"$words" | cmp - <(cut -d' ' -f2- crates/capture/stdout) || fail "and trace disagree"
echo "tests: capture, its bare words through trace: the same lines"

# refuses TEXT ARGUMENT..: says so and reads nothing.
refuses() {
    local text=$1 said
    shift
    said=$(./run capture "$@" <"$own" 2>&1 >/dev/null)
    [[ $said == "$text"* ]] || fail "said '$said' to: $*"
    [ -z "$(./run capture "$@" <"$own" 2>/dev/null)" ] || fail "printed something for: $*"
}

refuses "usage: capture" lines
refuses "usage: capture" words words
refuses "usage: capture" C0FF D0FF
refuses "usage: capture" ""
refuses "capture: a RESET's word is C000 to DFFF" BFFF
refuses "capture: a RESET's word is C000 to DFFF" words E0FF
echo "tests: capture, arguments that it doesn't take: told"

# A directory can be opened and not read.
said=$(./run capture <tests 2>&1 >/dev/null)
[ "$said" = "capture: the input could not be read" ] || fail "took a failed read for the end"
echo "tests: capture, an input that can't be read: told"
