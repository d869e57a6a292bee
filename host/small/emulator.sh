# shellcheck shell=bash disable=SC2154
# Sourced by host/run: QEMU for small boards, and images that run on them. Where the machine lacks it, it is fetched
# below the folder $qemu.

qemu=$here/.qemu

# The board that a processor is emulated on. The calls as calls.c checks them take more RAM than the Cortex-M0's board
# has; a Cortex-M3 runs that code as well.
board_of() {
    case $1-$2 in
    cortex-m3-* | cortex-m0-calls | cortex-m0-wire-calls) system=arm board=mps2-an385 clock=25000000 ;;
    cortex-m0-*) system=arm board=microbit clock=16000000 ;;
    riscv32-*) system=riscv32 board=virt clock=0 ;;
    esac
}

download_qemu() {
    apt-get -q update && apt-get -q -y --no-install-recommends --reinstall --download-only install \
        qemu-system-arm qemu-system-misc
}

# The second package has many more processors than the one asked for.
unpack_qemu() {
    unpack_into "$qemu/root" "$qemu"/archives/*.deb
    find "$qemu/root/usr/bin" -name 'qemu-system-*' ! -name '*-arm' ! -name '*-riscv32' -delete
}

choose_emulator() {
    if command -v qemu-system-arm >/dev/null && command -v qemu-system-riscv32 >/dev/null; then
        run_qemu() { "qemu-system-$system" "$@"; }
    else
        fetch_packages "$qemu" "qemu-system-arm and qemu-system-riscv32" download_qemu unpack_qemu
        run_qemu() {
            local libraries
            libraries=$(find "$qemu/root" -name '*.so*' -printf '%h\n' | grep -v /qemu$ | sort -u | paste -sd:)
            LD_LIBRARY_PATH=$libraries "$qemu/root/usr/bin/qemu-system-$system" -L "$qemu/root/usr/share/qemu" "$@"
        }
    fi
}

# image PROGRAM PROCESSOR SOURCE..: a program with the library, for the processor's board. The compiler is also told
# what image_flags has.
image_flags=()
image() {
    local program=$1 processor=$2 folder=$firmware/$2 source objects=()
    shift 2
    flags_of "$processor"
    board_of "$processor" "$program"
    for source in "$small"/{start,semihost}.c "$small"/libc/*.c "$@"; do
        objects+=("$folder/$program-$(basename "$source").o")
        compile_small "${objects[-1]}" "$source" -DCLOCK_HZ="${clock}u" "${image_flags[@]}"
    done
    "$tools/bin/ld.lld" --gc-sections -L "$small" -T "$small/$board.ld" -o "$folder/$program.elf" "${objects[@]}" \
        "$folder/libdock.a"
}

# emulate PROGRAM PROCESSOR: runs an image with standard input as its script. An instruction takes 64 ns of the board's
# time, whatever the emulator takes, so that every run is the same; a sleeping processor is woken at once. That a
# board's network has no cable is no news.
emulate() {
    local folder=$firmware/$2/run
    board_of "$2" "$1"
    mkdir -p "$folder"
    cat >"$folder/script"
    (cd "$folder" && run_qemu -M "$board" -bios none -kernel "../$1.elf" -nodefaults -nographic -monitor none \
        -chardev stdio,id=out -semihosting-config enable=on,target=native,chardev=out \
        -icount shift=6,align=off,sleep=off </dev/null 2> >(sed '/ has no peer$/d' >&2))
}
