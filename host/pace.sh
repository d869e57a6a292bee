# shellcheck shell=bash disable=SC2154
# Sourced by host/run: the proved library beside the C controller, both by the toolchain's clang at -O3. Times are of the
# machine itself, for which the library's module is compiled; instructions are x86-64's, as an emulator of it runs them, one
# at a time, where the machine has one: QEMU's for programs, qemu-x86_64.

pace=$out/pace
pace_flags=(-O3 -ffunction-sections -fdata-sections -Wno-override-module)

# pace_objects TARGET: the library, the C controller, the wire cell, the queue and the chassis in C.
pace_objects() {
    local part
    mkdir -p "$pace/$1"
    "$tools/bin/clang" --target="$1" "${pace_flags[@]}" -c -x ir "$module" -o "$pace/$1/dock.o" 2>"$pace/messages" || {
        cat "$pace/messages" >&2
        return 1
    }
    for part in held wire queue chassis; do
        "$tools/bin/clang" --target="$1" "${c_flags[@]}" "${pace_flags[@]}" -ffreestanding -nostdlibinc \
            -isystem "$small/libc" -c "$here/plain/$part.c" -o "$pace/$1/$part.o"
    done
}

time_pace() {
    local target
    target=$(uname -m)-linux-gnu
    if ! command -v cc >/dev/null; then
        echo "host/run: no cc here, so nothing is timed"
        return 0
    fi
    pace_objects "$target"
    cc -std=gnu99 "${warnings[@]}" -O2 -I "$library" -I "$here/plain" "$here/c/pace.c" \
        "$pace/$target"/{dock,held,wire,queue,chassis}.o -o "$pace/pace"
    echo "on this machine, $(uname -m), medians of $1 runs; batch: 16,384 events a call; step: one event a call;"
    echo "in turns: a word is put and taken; 128: so many are put, and then taken; four and one: so many controllers"
    "$pace/pace" "$1"
}

# One instruction at a time, by the flag's name in this QEMU: it was another before version 8.1.
choose_single() {
    single=-one-insn-per-tb
    qemu-x86_64 -help | grep -q -e "$single" || single=-singlestep
}

# lines LIST SIDE WORDS: how many instructions that run has, with what comes before and after.
lines() {
    qemu-x86_64 "$single" -d exec,nochain -D "$pace/log" "$pace/count" "$@"
    wc -l <"$pace/log"
}

# row_of_counts NAME LIST WORDS: over a whole number of times that the list's part comes.
row_of_counts() {
    local side counts=()
    for side in 0 1 2 3; do
        counts+=($((($(lines "$2" "$side" $(($3 + 1))) - $(lines "$2" "$side" 1)) / $3)))
    done
    printf '%-36s %8s %8s %6s %8s %8s %6s\n' "$1" "${counts[0]}" "${counts[1]}" "$(pace_ratio "${counts[0]}" "${counts[1]}")" \
        "${counts[2]}" "${counts[3]}" "$(pace_ratio "${counts[2]}" "${counts[3]}")"
}

pace_ratio() { awk -v one="$1" -v other="$2" 'BEGIN { printf "%.2f", one / other }'; }

count_pace() {
    local target=x86_64-linux-gnu
    if ! command -v qemu-x86_64 >/dev/null; then
        echo "host/run: there is no qemu-x86_64 here, so no instructions are counted"
        return 0
    fi
    choose_single
    pace_objects "$target"
    "$tools/bin/clang" --target="$target" -O2 -fno-builtin -ffreestanding -nostdlibinc -isystem "$small/libc" \
        -DPACE_COUNT -I "$library" -I "$here/plain" -c "$here/c/pace.c" -o "$pace/$target/count.o"
    "$tools/bin/clang" --target="$target" -Os -fno-builtin -ffreestanding -nostdlibinc -isystem "$small/libc" \
        -c "$small/memory.c" -o "$pace/$target/memory.o"
    "$tools/bin/ld.lld" --gc-sections -o "$pace/count" "$pace/$target"/{count,dock,held,wire,queue,chassis,memory}.o
    echo
    printf '%-36s %8s %8s %6s %8s %8s %6s\n' "x86-64 instructions for each event" batch C ratio step C ratio
    row_of_counts ticks 0 96
    row_of_counts "bus events (whole writes and reads)" 1 96
    row_of_counts "a realistic mix" 2 390
    echo
    printf '%-36s %8s %8s %6s %8s %8s %6s\n' "x86-64 instructions for each sample" listen C ratio singly C ratio
    row_of_counts "idle lines" 3 390
    row_of_counts "a clock held low" 4 390
    row_of_counts "a bus at 100 kHz" 5 390
    echo
    printf '%-36s %8s %8s %6s %8s %8s %6s\n' "x86-64 instructions for each word" "in turns" C ratio 128 C ratio
    row_of_counts "a put and a take" 6 384
    echo
    printf '%-36s %8s %8s %6s %8s %8s %6s\n' "x86-64 instructions for each call" four C ratio one C ratio
    row_of_counts ticks 7 96
    row_of_counts "bus events, for the first" 8 96
    row_of_counts "a realistic mix, for the first" 9 390
}

pace() {
    keep_module
    find_kit
    mkdir -p "$pace"
    time_pace "${1:-1001}"
    count_pace
}
