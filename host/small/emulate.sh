# shellcheck shell=bash disable=SC2034,SC2154
# Sourced by host/run: the library on emulated boards, held against the one for x86-64. Every program here is the same C
# on both sides, and what it prints there must be what it prints here.

player_sources=("$here"/c/{player,words,situations}.c "$here/plain/held.c")

# The timer and the interrupts of a Cortex-M drive the main loop there; on the RISC-V board, as on a PC, nothing does.
build_images() {
    local chip=$small/chip.c
    [ "$1" != riscv32 ] || chip=$here/c/chip.c
    image loop "$1" "$here"/c/{firmware,store,board}.c "$chip"
    image c-example "$1" "$here/c/example.c"
    image calls "$1" "$here/c/calls.c"
    image wire-calls "$1" "$here/c/wire_calls.c"
    image queue-calls "$1" "$here/c/queue_calls.c"
    image chassis-calls "$1" "$here/c/chassis_calls.c"
    image player "$1" "${player_sources[@]}"
}

# differs WHAT: told, and remembered for the last line.
differs() {
    echo "emulate: $1" >&2
    differences=$((differences + 1))
}

# same WHAT FILE OTHER: told where both have the same.
same() {
    if diff "$2" "$3" >"$firmware/difference"; then
        echo "emulate: $1"
    else
        head -n 5 "$firmware/difference" >&2
        differs "$1: not so"
    fi
}

# there PROGRAM PROCESSOR OUTPUT: runs an image on its board.
there() {
    emulate "$1" "$2" >"$firmware/$2/$3" || differs "$1 on $2 ends with status $?"
}

# The words of an input of the trace program, as a line for the player. A lone last byte is no word.
trace_line() {
    local digits
    digits=$(od -An -v -tx1 "$1" | tr -d ' \n' | tr a-f A-F)
    digits=${digits:0:${#digits} / 4 * 4}
    echo "words$(sed -E 's/.{4}/ &/g' <<<"$digits")"
}

# What the trace program is stored to print, as the player's records.
trace_records() {
    sed -nE 's/^[0-9A-F]{4} ([0-9]) ([0-9]) ([0-9A-F]{2}) ([0-9A-F]{3})$/\1 \2 \3 \4/p' "$1" |
        while read -r refusal reply byte outputs; do
            printf '  %08X\n' $((refusal << 28 | reply << 25 | 0x$byte << 17 | 0x$outputs << 8))
        done
}

# The stored runs of the trace program, each from a fresh state; one without a word is left out.
trace_runs() {
    local input line
    for input in "$top"/crates/trace/stdin "$top"/tests/trace/*.in; do
        line=$(trace_line "$input")
        [ "$line" = words ] || printf 'begin\n%s\n' "$line"
    done
}

trace_expected() {
    local output
    for output in "$top"/crates/trace/stdout "$top"/tests/trace/*.out; do trace_records "$output"; done
}

# Words generated on the board from a seed: short lists, each from a fresh state, then a long one, one step each; the
# half of that in batches; and what the steps came to, which too few of them would not.
generated_runs() {
    local list
    for list in {1..20}; do printf '%s\n' begin "stream $(($2 + list)) 200"; done
    printf '%s\n' "stream $2 $1" save registers "batches $(($2 + 1)) $(($1 / 2))" save registers
    [ "$1" -lt 100000 ] || echo situations
}

# The hex digits of a state, as the header has its length.
state_digits() { echo $((2 * $(sed -nE 's/^#define DOCK_STATE_BYTES ([0-9]+)u$/\1/p' "$here/include/dock.h"))); }

# States on the way, saved, some of the second kind. Before them bytes that are none, which are refused.
saving_runs() {
    local seed
    printf 'load %0*d\nsave\n' "$(state_digits)" 0
    for seed in {11..18}; do printf '%s\n' begin "stream $seed $((seed * 97))" save; done
    for seed in {21..24}; do printf '%s\n' begin "kind 2" "stream $seed $((seed * 97))" save; done
}

# onward_runs FILE: from each state that was saved in what FILE has, on.
onward_runs() {
    local state
    sed -nE "s/^  ([0-9A-F]{$(state_digits)})\$/\1/p" "$1" | while read -r state; do
        printf '%s\n' "load $state" "stream 5 3000" save "batches 6 1000" save registers
    done
}

# play_here NAME, play_there NAME PROCESSOR: the player, on x86-64 and on a board.
play_here() { (start player) <"$firmware/$1.in" >"$firmware/$1.out" || differs "$1 on x86-64 ends with status $?"; }
play_there() { there player "$2" "$1.out" <"$firmware/$1.in"; }

# The number of words that a player's last line tells; 0 where it did not come to that.
words_in() { awk 'END { print /^[0-9]+ words, / ? $1 : 0 }' "$1"; }

# A run of no words would be the same everywhere.
add_words() {
    local played
    played=$(words_in "$1")
    [ "$played" -gt 0 ] || differs "no words were played: $1"
    words=$((words + played))
}

check_programs() {
    there loop "$1" loop.out <"$here/c/firmware.in"
    there c-example "$1" c-example.out </dev/null
    there calls "$1" calls.out </dev/null
    there wire-calls "$1" wire-calls.out </dev/null
    there queue-calls "$1" queue-calls.out </dev/null
    there chassis-calls "$1" chassis-calls.out </dev/null
    same "$1: the main loop prints what is stored" "$firmware/$1/loop.out" "$here/firmware.out"
    same "$1: the example prints what is stored" "$firmware/$1/c-example.out" "$here/example.out"
    same "$1: the calls, checked from C, as on x86-64" "$firmware/$1/calls.out" "$firmware/calls.out"
    same "$1: the wire cell's calls likewise" "$firmware/$1/wire-calls.out" "$firmware/wire-calls.out"
    same "$1: the queue's calls likewise" "$firmware/$1/queue-calls.out" "$firmware/queue-calls.out"
    same "$1: the chassis' call likewise" "$firmware/$1/chassis-calls.out" "$firmware/chassis-calls.out"
}

# An interrupt that comes at any moment, as only a Cortex-M's does here: each word that it puts is taken, in order.
# Without the mask that must go wrong, or it would show nothing.
check_interrupts() {
    local image_flags=() sources=("$here"/c/{firmware,store}.c "$small/interrupted.c")
    image interrupted "$1" "${sources[@]}"
    image_flags=(-DUNMASKED)
    image unmasked "$1" "${sources[@]}"
    there interrupted "$1" interrupted.out </dev/null
    echo "emulate: $1: $(cat "$firmware/$1/interrupted.out")"
    if emulate unmasked "$1" </dev/null >"$firmware/$1/unmasked.out"; then
        differs "$1: without the mask nothing goes wrong"
    fi
    echo "emulate: $1: .. and without the mask $(cat "$firmware/$1/unmasked.out")"
}

check_runs() {
    local name
    for name in trace paper generated saving; do
        play_there "$name" "$1"
        same "$1: $name, $(words_in "$firmware/$name.out") words, as on x86-64" "$firmware/$1/$name.out" \
            "$firmware/$name.out"
        add_words "$firmware/$1/$name.out"
    done
    sed -nE '/^  [0-9A-F]{8}$/p' "$firmware/$1/trace.out" >"$firmware/$1/trace.records"
    same "$1: the trace program's stored lines" "$firmware/$1/trace.records" "$firmware/trace.expected"
}

# Saved on x86-64 and gone on with on the board; saved on the board and gone on with on x86-64.
check_interchange() {
    onward_runs "$firmware/saving.out" >"$firmware/onward-there.in"
    onward_runs "$firmware/$1/saving.out" >"$firmware/onward-here.in"
    play_there onward-there "$1"
    play_here onward-here
    same "$1: states that x86-64 saved go on there as here, and those of the board here as there" \
        "$firmware/$1/onward-there.out" "$firmware/onward-here.out"
    add_words "$firmware/$1/onward-there.out"
}

# emulate_all [WORDS [SEED]]
emulate_all() {
    local processor name differences=0 words=0
    [[ $# -le 2 && ${1:-0} =~ ^[0-9]+$ && ${2:-0} =~ ^[0-9]+$ ]] || usage
    trace_runs >"$firmware/trace.in"
    trace_expected >"$firmware/trace.expected"
    (start runs) >"$firmware/paper.in"
    generated_runs "${1:-200000}" "${2:-1}" >"$firmware/generated.in"
    saving_runs >"$firmware/saving.in"
    for name in trace paper generated saving; do play_here "$name"; done
    for name in calls wire-calls queue-calls chassis-calls; do
        (start "$name") >"$firmware/$name.out" || differs "$name on x86-64 ends with status $?"
    done
    for processor in "${processors[@]}"; do
        build_images "$processor"
        check_programs "$processor"
        [ "$processor" = riscv32 ] || check_interrupts "$processor"
        check_runs "$processor"
        check_interchange "$processor"
    done
    echo "emulate: ${#processors[@]} boards, $words words, $differences differences"
    [ "$differences" = 0 ]
}
