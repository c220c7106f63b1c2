# For the scripts of this folder: builds the proved library and a C program over it. The library is for x86-64; on another processor
# the program is cross-compiled and runs under qemu-x86_64.
root=$(CDPATH='' cd -- "$(dirname -- "$0")/.." && pwd) || exit 2
say() { printf '%s: %s\n' "$(basename -- "$0")" "$1" >&2; }

if [ "$(uname -m)" = x86_64 ]; then
    compiler=${CC:-cc}
    emulator=
else
    compiler="${CC:-x86_64-linux-gnu-gcc} -static"
    emulator=qemu-x86_64
fi

# library: builds it where it is not there or its crates have changed since.
library=$root/crates/host/out/libhost.a
if [ ! -f "$library" ] || [ -n "$(find "$root/crates.txt" "$root/crates" -name out -prune -o -type f -newer "$library" -print | head -n 1)" ]; then
    command -v rt >/dev/null || { say 'the Rattle toolchain (rt) is not on the PATH'; exit 2; }
    say 'building the proved library; from nothing this takes some minutes'
    (cd -- "$root/crates/host" && rt lib) </dev/null >&2 || { say 'it was not built'; exit 2; }
    touch "$library"
fi

# program NAME: host/NAME.c, compiled and linked with the library, is then target/host/NAME.
program() {
    mkdir -p "$root/target/host"
    $compiler -std=c11 -D_POSIX_C_SOURCE=200809L -O3 -Wall -Wextra -I"$root/include" -o "$root/target/host/$1" "$root/host/$1.c" "$library" ||
        { say "host/$1.c was not compiled"; exit 2; }
}
