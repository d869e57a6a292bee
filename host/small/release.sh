# shellcheck shell=bash disable=SC2154
# Sourced by host/run: what a firmware team is handed that has no Rattle toolchain, as one folder. It is made of a
# commit that passed the gate and of nothing else.

release=$top/target/release

# The gate leaves the commit that it passed and its last line.
find_verdict() {
    local passed
    commit=$(git -C "$top" rev-parse HEAD)
    if [ -n "$(git -C "$top" status --porcelain)" ]; then
        echo "host/run: a release is made of a commit, and there are changes: commit them and run .ci/run" >&2
        return 1
    fi
    passed=$(sed -n 1p "$top/target/gate.txt" 2>/dev/null || true)
    verdict=$(sed -n 2p "$top/target/gate.txt" 2>/dev/null || true)
    if [ "$passed" != "$commit" ]; then
        echo "host/run: the gate has not passed here on commit $commit: run .ci/run" >&2
        return 1
    fi
}

library_version() {
    local digits
    digits=$(sed -nE 's/^#define DOCK_VERSION 0x([0-9A-F]{4})u$/\1/p' "$here/include/dock.h")
    echo "$((0x${digits:0:2})).$((0x${digits:2:2}))"
}

gather() {
    local processor
    rm -rf "$release"
    mkdir -p "$release"/{include,example,lib/x86_64}
    cp "$here/include/dock.h" "$release/include/"
    cp "$library/libdock.a" "$release/lib/x86_64/"
    for processor in "${processors[@]}"; do
        mkdir "$release/lib/$processor"
        cp "$firmware/$processor/libdock.a" "$release/lib/$processor/"
    done
    cp -r "$here/dock" "$release/rust"
    cp "$here"/c/{firmware,store,board,chip,example,driver}.c "$release/example/"
    cp "$here"/c/{firmware,store,board,chip,driver}.h "$release/example/"
    cp "$here"/c/firmware.in "$here"/{firmware,example}.out "$release/example/"
    cp "$top/docs/TRUST.md" "$release/TRUST.md"
    report >"$release/REPORT.md"
}

# Of everything but itself and the page, which has them too.
write_sums() {
    (cd "$release" && find . -type f ! -name SUMS -printf '%P\n' | LC_ALL=C sort | xargs sha256sum) >"$firmware/sums"
    mv "$firmware/sums" "$release/SUMS"
}

write_page() {
    cat <<END
# The dock's controller, library $(library_version)

The proved controller of a two-bay cartridge dock, to be linked into a firmware. Nothing else is needed to use it: no
toolchain of ours, no C library, no heap.

| | |
|---|---|
| commit | $commit |
| the gate's last line | $verdict |
| the libraries on emulated boards | $(tail -n 1 "$firmware/emulate.log") |
| proved with | $(rt version) |
| compiled with | $("$tools/bin/clang" --version | head -n 1), \`${level[*]}\`; for x86-64 at \`-O3\` |

## What is here

- \`include/dock.h\`: the calls, their refusals and the bytes of a state, for C99 or C++11 and newer.
- \`lib/PROCESSOR/libdock.a\`: the library, for $(printf '%s, ' "${processors[@]}")x86_64. It
  needs nothing else: the functions that move memory are in it, on Arm by the names of its run-time ABI, on a RISC-V by
  those of C, and all are weak; where a C library of the firmware's comes before it on the command line, those are taken.
- \`rust/\`: a safe wrapper, without std; its build script takes the library of the processor that is built for.
- \`example/\`: a firmware's main loop to copy (\`firmware.c\`, \`store.c\`, what it asks of a board: \`board.h\`), a
  board made of text to try it on (\`board.c\`, \`chip.c\`, \`firmware.in\`), one event at a time (\`example.c\`), and
  what drives SDAT on a processor that has no bus cell (\`driver.c\`), to copy too.
- \`REPORT.md\`: code, stack and instructions on each processor. \`TRUST.md\`: what is proved and what must be believed; it
  names files of the repository that this was made of. \`SUMS\`: the sums below, for \`sha256sum -c SUMS\`.

## To build with it

    cc -I include example/example.c -L lib/x86_64 -ldock -o button && ./button
    cc -I include example/{firmware,store,board,chip}.c -L lib/x86_64 -ldock -o loop && ./loop <example/firmware.in
    cd rust && cargo run --example button

    arm-none-eabi-gcc -mcpu=cortex-m3 -mthumb -Wl,--gc-sections YOUR.. -I include -L lib/cortex-m3 -ldock

The second prints \`example/firmware.out\`, the first and the third \`example/example.out\`.

A length has 64 bits in every call, so a program includes the header, or declares the calls as it does.

## Sums

$(sed 's/^/    /' "$release/SUMS")
END
}

# From a copy outside the repository, with what is in it alone.
check_release() {
    local copy
    copy=$(mktemp -d)
    cp -r "$release/." "$copy"
    (cd "$copy" && sha256sum --quiet -c SUMS)
    cc "${c_flags[@]}" -O2 -I "$copy/include" -o "$copy/button" "$copy/example/example.c" \
        -L "$copy/lib/x86_64" -ldock
    cc "${c_flags[@]}" -O2 -I "$copy/include" -o "$copy/loop" "$copy"/example/{firmware,store,board,chip}.c \
        -L "$copy/lib/x86_64" -ldock
    cc "${c_flags[@]}" -O2 -I "$copy/include" -c -o "$copy/driver.o" "$copy/example/driver.c"
    rustc "${rust_flags[@]}" --crate-type rlib --crate-name dock -o "$copy/libdock.rlib" \
        "$copy/rust/src/lib.rs" -L native="$copy/lib/x86_64" -l static=dock "${features[@]}"
    rustc "${rust_flags[@]}" -L "$copy" --extern dock="$copy/libdock.rlib" -o "$copy/rust-button" \
        "$copy/rust/examples/button.rs"
    (out=$copy && check_output button "$copy/example/example.out")
    (out=$copy && check_output loop "$copy/example/firmware.out" <"$copy/example/firmware.in")
    (out=$copy && check_output rust-button "$copy/example/example.out")
    check_release_with_cargo "$copy"
    rm -rf "$copy"
}

check_release_with_cargo() {
    if ! command -v cargo >/dev/null; then
        echo "host/run: left out: the wrapper with cargo, which is not here"
        return 0
    fi
    (cd "$1/rust" && cargo run --quiet --offline --example button) | diff - "$1/example/example.out"
    echo "host/run: the wrapper builds with cargo, and its example prints what is stored"
}

make_release() {
    find_verdict
    emulate_all | tee "$firmware/emulate.log"
    gather
    write_sums
    write_page >"$release/README.md"
    check_release
    echo "release: ${release#"$top/"}, of commit $commit"
}
