# shellcheck shell=bash disable=SC2154
# Sourced by host/run: what a dock pays for the library, as a text with tables. Sizes are the linker's, the rest is
# measured on the emulated boards (measure.c). The same toolchain gives the same numbers on every machine.

held_calls=(dock_begin dock_step dock_batch dock_reading dock_outputs)
plain_calls=(plain_begin plain_step plain_batch plain_register plain_pins)
wire_calls=(dock_wire_begin dock_wire_listen)
plain_wire_calls=(plain_wire_begin plain_wire_listen)
queue_calls=(dock_queue_put dock_queue_take)
plain_queue_calls=(plain_queue_put plain_queue_take)
chassis_calls=(dock_chassis_step)
plain_chassis_calls=(plain_chassis_step)

# link_calls MAP CALL.. -- FILE..: what these calls need, and nothing else.
link_calls() {
    local map=$1 calls=()
    shift
    for (( ; $# > 0; )); do
        [ "$1" != -- ] || break
        calls+=(-u "$1")
        shift
    done
    shift
    "$tools/bin/ld.lld" --gc-sections -e "${calls[1]}" "${calls[@]}" -Map="$map" -o "$map.elf" "$@"
}

# A line with bytes and a name for each section of code or constants that a map has.
sections() {
    awk '
        function hex(digits,   n, i) {
            for (i = 1; i <= length(digits); i++) n = 16 * n + index("0123456789abcdef", substr(digits, i, 1)) - 1
            return n
        }
        $5 ~ /:\(\.(text|rodata)/ && hex($3) > 0 {
            name = $5
            constant = name ~ /:\(\.rodata/
            sub(/^.*:\(\.[a-z]+\.?/, "", name)
            sub(/\)$/, "", name)
            print hex($3), constant ? "constants" : name
        }' "$1"
}

bytes() {
    sections "$1" | awk '{ sum += $1 } END { print sum + 0 }'
}

# Into $firmware/PROCESSOR: all seventeen calls, those on a held state, the wire cell's, the queue's, the chassis', and
# those in C like them.
map_sizes() {
    local folder=$firmware/$1
    flags_of "$1"
    link_calls "$folder/all.map" "${held_calls[@]}" "${wire_calls[@]}" dock_queue_begin "${queue_calls[@]}" \
        dock_{name_kind,held_byte,replay,pack,unpack,version,chassis_step} -- "$folder/libdock.a"
    link_calls "$folder/held.map" "${held_calls[@]}" -- "$folder/libdock.a"
    link_calls "$folder/loop-calls.map" dock_{begin,step,outputs,pack,version} dock_queue_begin "${queue_calls[@]}" \
        -- "$folder/libdock.a"
    link_calls "$folder/wire.map" "${wire_calls[@]}" -- "$folder/libdock.a"
    compile_small "$folder/wire.o" "$here/plain/wire.c"
    link_calls "$folder/plain-wire.map" "${plain_wire_calls[@]}" -- "$folder/wire.o" "$folder/memory.o"
    link_calls "$folder/queue.map" "${queue_calls[@]}" -- "$folder/libdock.a"
    compile_small "$folder/queue.o" "$here/plain/queue.c"
    link_calls "$folder/plain-queue.map" "${plain_queue_calls[@]}" -- "$folder/queue.o" "$folder/memory.o"
    link_calls "$folder/chassis.map" "${chassis_calls[@]}" -- "$folder/libdock.a"
    compile_small "$folder/chassis.o" "$here/plain/chassis.c"
    link_calls "$folder/plain-chassis.map" "${plain_chassis_calls[@]}" -- "$folder/chassis.o" "$folder/memory.o"
    compile_small "$folder/held.o" "$here/plain/held.c"
    link_calls "$folder/plain.map" "${plain_calls[@]}" -- "$folder/held.o" "$folder/memory.o"
    (level=(-Os) && compile_small "$folder/held-small.o" "$here/plain/held.c")
    link_calls "$folder/plain-small.map" "${plain_calls[@]}" -- "$folder/held-small.o" "$folder/memory.o"
}

measure() {
    image measure "$1" "$small/measure.c" "$here"/plain/{held,wire,queue,chassis}.c
    emulate measure "$1" </dev/null >"$firmware/$1/measured"
}

ratio() { awk -v one="$1" -v other="$2" 'BEGIN { printf "%.1f", one / other }'; }

# measured PROCESSOR WHAT COLUMN
measured() { awk -F'|' -v what="$2" -v column="$3" '$1 == what { print $column }' "$firmware/$1/measured"; }

# The deepest stack of any call but the chassis', of the library (column 4) or the C controller (5).
deepest() {
    awk -F'|' -v column="$2" '
        NF == 1 { several = $1 == "chassis" }
        !several && $column > most { most = $column }
        END { print most + 0 }
    ' "$firmware/$1/measured"
}

# row WHAT FUNCTION: a row with what the function says of each processor.
row() {
    local processor line="| $1 |"
    for processor in "${processors[@]}"; do
        line+=" $("$2" "$processor") |"
    done
    echo "$line"
}

all_bytes() { bytes "$firmware/$1/all.map"; }
held_bytes() { bytes "$firmware/$1/held.map"; }
wire_bytes() { bytes "$firmware/$1/wire.map"; }
plain_wire_bytes() { bytes "$firmware/$1/plain-wire.map"; }
wire_bytes_ratio() { ratio "$(wire_bytes "$1")" "$(plain_wire_bytes "$1")"; }
queue_bytes() { bytes "$firmware/$1/queue.map"; }
plain_queue_bytes() { bytes "$firmware/$1/plain-queue.map"; }
queue_bytes_ratio() { ratio "$(queue_bytes "$1")" "$(plain_queue_bytes "$1")"; }
chassis_bytes() { bytes "$firmware/$1/chassis.map"; }
plain_chassis_bytes() { bytes "$firmware/$1/plain-chassis.map"; }
chassis_bytes_ratio() { ratio "$(chassis_bytes "$1")" "$(plain_chassis_bytes "$1")"; }
loop_bytes() { bytes "$firmware/$1/loop-calls.map"; }
plain_bytes() { bytes "$firmware/$1/plain.map"; }
plain_small_bytes() { bytes "$firmware/$1/plain-small.map"; }
bytes_ratio() { ratio "$(held_bytes "$1")" "$(plain_bytes "$1")"; }
small_bytes_ratio() { ratio "$(held_bytes "$1")" "$(plain_small_bytes "$1")"; }

head_row() {
    local processor line="| $1 |" rule="|---|"
    for processor in "${processors[@]}"; do
        line+=" $processor |"
        rule+="---|"
    done
    printf '%s\n%s\n' "$line" "$rule"
}

tell_sizes() {
    head_row "bytes of code and constants"
    row "library: begin, step, batch, reading, outputs" held_bytes
    row "C controller: the same five, with the same flags" plain_bytes
    row "**library / C controller**" bytes_ratio
    row "C controller: the same five at \`-Os\`" plain_small_bytes
    row "**library / C controller at \`-Os\`**" small_bytes_ratio
    row "library's wire cell: wire_begin, wire_listen" wire_bytes
    row "wire cell in C, with the same flags" plain_wire_bytes
    row "**library's wire cell / in C**" wire_bytes_ratio
    row "library's queue: queue_put, queue_take" queue_bytes
    row "queue in C, with the same flags" plain_queue_bytes
    row "**library's queue / in C**" queue_bytes_ratio
    row "library's chassis: chassis_step" chassis_bytes
    row "chassis in C, with the same flags" plain_chassis_bytes
    row "**library's chassis / in C**" chassis_bytes_ratio
    row "library: all seventeen calls" all_bytes
    row "library: the eight that the main loop calls" loop_bytes
}

function_bytes() {
    sections "$firmware/$1/all.map" | awk -v name="$function" '$2 == name { sum += $1 } END { print sum + 0 }'
}

# The largest first, whichever processor has it.
function_names() {
    local processor
    for processor in "${processors[@]}"; do sections "$firmware/$processor/all.map"; done |
        awk '{ sum[$2] += $1 } END { for (name in sum) print sum[name], name }' | sort -k1,1nr -k2 | cut -d' ' -f2
}

tell_functions() {
    local function
    head_row "bytes of each function"
    function_names | while read -r function; do row "\`$function\`" function_bytes; done
}

# What the compiler says that a function's frame has.
frame_bytes() { sed -nE "s/^.*module\.bc:$function\t([0-9]+)\tstatic$/\1/p" "$firmware/$1/dock.su"; }

tell_frames() {
    local function
    head_row "bytes of each frame"
    sed -E 's/^.*module\.bc:([^\t]+)\t.*$/\1/' "$firmware/${processors[0]}/dock.su" | sort |
        while read -r function; do row "\`$function\`" frame_bytes; done
}

# tell_measured PROCESSOR PART WHAT [OTHER]: rows of one part of what was measured, a ratio where both were.
tell_measured() {
    local other=${4:-C controller}
    echo "| $3 | library | $other | ratio | library's stack | $other's | ratio |"
    echo "|---|---|---|---|---|---|---|"
    awk -F'|' -v part="$2" '
        function over(one, other) { return other == "" || other == 0 ? "" : sprintf("%.1f", one / other) }
        NF == 1 { inside = $1 == part; next }
        inside && NF == 5 {
            printf "| %s | %s | %s | %s | %s | %s | %s |\n", $1, $2, $3, over($2, $3), $4, $5, over($4, $5)
        }
    ' "$firmware/$1/measured"
}

tell_processor() {
    cat <<END
## Instructions and stack: $1

$(tell_measured "$1" events "instructions of an event, by one step")

$(tell_measured "$1" batches "instructions by a batch")

$(tell_measured "$1" samples "instructions of a sample, by one call" "cell in C")

$(tell_measured "$1" words "instructions of the queue" "queue in C")

$(tell_measured "$1" chassis "instructions of the chassis' call" "chassis in C")

$(tell_measured "$1" calls "instructions of the other calls")

END
}

tell_memory() {
    local processor library plain
    echo "| bytes of RAM | library's state | deepest stack | both | C controller's | deepest stack | both | ratio |"
    echo "|---|---|---|---|---|---|---|---|"
    for processor in "${processors[@]}"; do
        library=$(($(measured "$processor" state 2) + $(deepest "$processor" 4)))
        plain=$(($(measured "$processor" state 3) + $(deepest "$processor" 5)))
        echo "| $processor | $(measured "$processor" state 2) | $(deepest "$processor" 4) | $library |" \
            "$(measured "$processor" state 3) | $(deepest "$processor" 5) | $plain | $(ratio $library $plain) |"
    done
}

# In folders of their own, so that the libraries that are handed out stay.
tell_level() {
    local firmware=$firmware/levels processor level
    read -ra level <<<"$1"
    for processor in "${processors[@]}"; do
        small_library "$processor"
        map_sizes "$processor"
        measure "$processor"
        echo "| \`$1\`, $processor | $(held_bytes "$processor") | $(measured "$processor" 'TICK: nothing to do' 2) |" \
            "$(measured "$processor" '33 ticks, each' 2) | $(deepest "$processor" 4) | $(plain_bytes "$processor") |" \
            "$(measured "$processor" 'TICK: nothing to do' 3) | $(deepest "$processor" 5) |"
    done
}

tell_levels() {
    echo "| level | library's bytes | a TICK by step | in a batch | stack | C controller's bytes | a TICK | stack |"
    echo "|---|---|---|---|---|---|---|---|"
    tell_level "${level[*]}"
    tell_level "-O3"
    tell_level "-O2"
    tell_level "-Os"
    tell_level "-Os -mllvm -inline-threshold=2000"
}

report() {
    local processor
    for processor in "${processors[@]}"; do map_sizes "$processor"; done
    for processor in "${processors[@]}"; do measure "$processor"; done
    cat <<END
# What a dock pays for the library on a small processor

The library is made for each processor from the module of the one for x86-64; the C controller beside it is
\`plain/plain.c\`, the first kind's job by hand, with its state in place, the chassis in C \`plain/chassis.c\`, one to four
of it, the wire cell in C \`plain/wire.c\`, and the queue in C \`plain/queue.c\`, which makes the same tests on the same
bytes. All are compiled by the toolchain's clang at \`${level[*]}\`. How each number comes about, and what it means: the README of this folder.

## Code

$(tell_sizes)

A firmware that links with \`--gc-sections\` takes only what it calls. All seventeen calls, one by one:

$(tell_functions)

## RAM

$(tell_memory)

The library keeps nothing but the state, one for each controller of a chassis, and 7 bytes for a wire cell and 261 for a
queue where a firmware has one; the stack is free again after each call. The deepest stack is that of the deepest byte
written, by any call on one controller; the chassis' call has rows of its own below. A frame may reserve bytes below it
that nothing was written to, and what an interrupt takes comes below the frame; so room for a call is the sum of the
frames under it: its own, and for step, batch, replay and the chassis' call that of \`link::held::run\`, besides which
only one that clears bytes is called.

$(tell_frames)

$(for processor in "${processors[@]}"; do tell_processor "$processor"; done)

## Other levels

$(tell_levels)
END
}
