# What the scripts share that compile the library's module anew. Sourced; sets `here`, `root`, `module`, `clang` and `kit_words`.

here=$(cd "$(dirname "${BASH_SOURCE[0]}")" && pwd)
root=$(cd "$here/../.." && pwd)

stop() {
    printf 'attack: %s\n' "$@" >&2
    exit 2
}

command -v rustc >/dev/null || stop "rustc is not there: install a Rust toolchain (1.88 or later)"
command -v cc >/dev/null || stop "cc is not there: a C compiler links what is compiled"
module=$("$here/module")
rt=$(command -v rt) || stop "the kit's own clang is needed: put the Rattle kit's command rt on the PATH"
clang=$(dirname "$(dirname "$(readlink -f "$rt")")")/toolchain/bin/clang
kit_words=(--no-default-config -no-canonical-prefixes --target=x86_64-unknown-linux-gnu -march=x86-64 -fPIC)

# The plain driver as ./attack, which loads lib/librecorder.so when it starts.
build_driver() {
    rustc --edition 2024 -O --crate-type rlib --crate-name attack -o libattack.rlib "$here/src/lib.rs" &&
        rustc --edition 2024 -O --extern attack=libattack.rlib -L native="$PWD/lib" -l dylib=recorder -o attack "$here/src/main.rs" ||
        stop "the driver does not build; rustc's words stand above"
}
