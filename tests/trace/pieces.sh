#!/usr/bin/env bash
# The trace program on an input that comes in pieces, and on one that can't be read; ends with status 1 at the first
# difference. Nothing is sent before the header has come, so that each byte is a piece of its own.
set -euo pipefail
cd "$(dirname "$0")/../.."
pipes=$(mktemp -d)
trap 'rm -r "$pipes"' EXIT
mkfifo "$pipes/in" "$pipes/out"

fail() {
    echo "tests: trace $1" >&2
    exit 1
}

# expect LINE: the program's next line.
expect() {
    local line
    IFS= read -r -t 120 -u "$out" line || fail "did not print: $1"
    [ "$line" = "$1" ] || fail "printed '$line', not '$1'"
}

start() {
    ./run trace <"$pipes/in" >"$pipes/out" &
    exec {in}>"$pipes/in" {out}<"$pipes/out"
    expect "word ref rep byte out"
}

# send BYTE..: two digits each.
send() {
    local byte
    for byte in "$@"; do
        printf "\\x$byte" >&"$in"
        sleep 0.05
    done
}

# The input ends, and with it the output.
finish() {
    local line
    exec {in}>&-
    for line in "$@"; do
        expect "$line"
    done
    ! IFS= read -r -t 120 -u "$out" line || fail "printed more: $line"
    exec {out}<&-
    wait
}

start
send C0 BF
expect "C0BF 0 0 00 000"
send 00
finish "odd"
echo "tests: trace, a word cut in two: told while the input is still open"

mapfile -t lines <tests/trace/refused.out
start
send $(od -An -v -tx1 tests/trace/refused.in)
finish "${lines[@]:1}"
echo "tests: trace, byte by byte: as stored for the whole"

# A directory can be opened and not read.
./run trace <tests >"$pipes/text" 2>&1
printf 'word ref rep byte out\ntrace: the input could not be read\n' | cmp - "$pipes/text" || fail "took a failed read for the end"
echo "tests: trace, an input that can't be read: told"
