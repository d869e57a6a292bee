# shellcheck shell=bash disable=SC2034,SC2154
# Sourced by host/run: the proved library for small processors, and programs on it. Clang, linker and archiver are those
# of the Rattle toolchain; headers and helpers of a program that runs without a system stand in this folder.

small=$here/small
firmware=$top/target/firmware
module=$firmware/module.bc
processors=(cortex-m3 cortex-m0 riscv32)

# What clang is told of a processor. A Cortex-M3 may be set to refuse what is not aligned, so nothing counts on that.
flags_of() {
    case $1 in
    cortex-m3) flags=(--target=thumbv7m-none-eabi -mcpu=cortex-m3 -mno-unaligned-access) ;;
    cortex-m0) flags=(--target=thumbv6m-none-eabi -mcpu=cortex-m0) ;;
    riscv32) flags=(--target=riscv32-unknown-none-elf -march=rv32imc -mabi=ilp32) ;;
    esac
}

# Records are passed by value, which costs code, time and stack wherever a call is left between two functions; so the
# compiler is told to put a function into its callers up to eight times the usual size. DOCK_LEVEL has other words.
read -ra level <<<"${DOCK_LEVEL:--O3 -mllvm -inline-threshold=2000}"

find_kit() {
    kit=$(dirname "$(rt doc)")
    tools=$kit/toolchain
}

# link_all FROM TO BUT..: everything in FROM but these names leads to the same in TO.
link_all() {
    local path
    mkdir -p "$2"
    for path in "$1"/*; do
        [[ " ${*:3} " == *" ${path##*/} "* ]] || ln -s "$path" "$2/${path##*/}"
    done
}

# make_listening_kit FOLDER: a kit that is the toolchain's own, by links, but for its clang: ours keeps the module that it
# is given, which is the whole proved library, and then is the toolchain's. A kit is where rt's own file really is, so rt
# is a copy. The compiler is given no environment.
make_listening_kit() {
    link_all "$kit" "$1" bin toolchain
    link_all "$kit/bin" "$1/bin" rt rtlib.py
    cp "$kit"/bin/rt{,lib.py} "$1/bin/"
    link_all "$tools" "$1/toolchain" bin
    link_all "$tools/bin" "$1/toolchain/bin" clang
    cat >"$1/toolchain/bin/clang" <<END
#!/bin/sh
for word; do
    case \$word in *.bc) /bin/cp "\$word" "$module" ;; esac
done
exec "$tools/bin/clang" "\$@"
END
    chmod +x "$1/toolchain/bin/clang"
}

# Outside the repository, of which a kit is no part.
make_library_again() {
    local folder made=0
    folder=$(mktemp -d)
    make_listening_kit "$folder/kit"
    (cd "$linked" && "$folder/kit/bin/rt" lib) || made=$?
    rm -rf "$folder"
    return "$made"
}

# The library for x86-64 is made once more, and comes out as it was: so the module is the one that it was made from.
keep_module() {
    find_kit
    if [ -e "$module" ] && [ ! "$library/libdock.a" -nt "$module" ]; then
        return 0
    fi
    mkdir -p "$firmware"
    rm -f "$module"
    echo "host/run: making the library once more, to keep what the compiler is given" >&2
    if ! make_library_again >"$firmware/module.log" 2>&1; then
        tail -n 5 "$firmware/module.log" >&2
        return 1
    fi
    if [ ! -e "$module" ]; then
        echo "host/run: the compiler was given no module: $firmware/module.log" >&2
        return 1
    fi
    if ! cmp "$linked/out/liblink_c.a" "$library/libdock.a"; then
        echo "host/run: this module is not the one that $library/libdock.a was made from" >&2
        rm -f "$module"
        return 1
    fi
    echo "host/run: the library for x86-64 is made from this module, byte for byte"
}

# The module names the processor that it was first meant for, which a back end for another one says that it ignores.
compile_module() {
    "$tools/bin/clang" "${flags[@]}" "${level[@]}" -Wno-override-module -ffunction-sections -fdata-sections \
        -fstack-usage -c -x ir "$module" -o "$1" 2>"$firmware/messages" || {
        cat "$firmware/messages" >&2
        return 1
    }
    ! grep -v "^'x86-64[^']*' is not a recognized processor for this target" "$firmware/messages" >&2
}

# compile_small OBJECT SOURCE [FLAG..]
compile_small() {
    "$tools/bin/clang" "${flags[@]}" "${level[@]}" "${c_flags[@]}" -ffreestanding -nostdlibinc -isystem "$small/libc" \
        -ffunction-sections -fdata-sections -I "$library" "${@:3}" -c -o "$1" "$2"
}

# All of the library and nothing else links, so it calls nothing outside itself.
link_small_alone() {
    "$tools/bin/ld.lld" -e dock_version -o "$1/alone" --whole-archive "$1/libdock.a"
}

small_library() {
    local folder=$firmware/$1
    mkdir -p "$folder"
    flags_of "$1"
    compile_module "$folder/dock.o"
    compile_small "$folder/memory.o" "$small/memory.c" -Os -fno-builtin -fshort-enums
    rm -f "$folder/libdock.a"
    "$tools/bin/llvm-ar" crsD "$folder/libdock.a" "$folder/dock.o" "$folder/memory.o"
    link_small_alone "$folder"
    take "$here/include/dock.h" "$folder/dock.h"
}

build_small_libraries() {
    local processor
    keep_module
    for processor in "${processors[@]}"; do
        small_library "$processor"
    done
}
