#!/bin/sh
# Compiles both programs from the packed C file for WebAssembly of 32 bits: portable/wasm.sh FOLDER [PROGRAM..]. Each program, checktestdata and
# ctd-lint, is made twice: NAME.wasm, the whole of it, for a runtime that has WASI, and NAME-library.wasm, the library, which needs no system.
#
# WASM_CC is the compiler, clang-16 by default, with the C library of WASI. Clang 14 crashes on the file.
set -eu
here=$(CDPATH='' cd "$(dirname "$0")" && pwd)
mkdir -p "$1"
folder=$(CDPATH='' cd "$1" && pwd)
shift
[ $# -gt 0 ] || set -- checktestdata ctd-lint
compiler=${WASM_CC:-clang-16}
# (in the same folder, so that each file comes whole or not at all)
work=$(mktemp -d "$folder/compiling.XXXXXX")
trap 'rm -rf "$work"' EXIT

# (for size: -O2 makes the modules a tenth larger, and no faster)
compile() { "$compiler" --target=wasm32-wasi -Os -msimd128 -mbulk-memory "$@"; }

# The stack stands at the start of the memory, so that one which is full ends the program.
link() { "$compiler" --target=wasm32-wasi -Wl,--stack-first -Wl,-z,stack-size=1048576 -Wl,--strip-all "$@"; }

echo 'int main(void) { return 0; }' >"$work/try.c"
if ! compile "$work/try.c" -o "$work/try.wasm" >"$work/log" 2>&1; then
    echo "wasm: $compiler compiles nothing for WebAssembly: install a clang with its linker and the C library of WASI (in Debian clang-16, lld-16," \
        "libclang-rt-16-dev-wasm32 and wasi-libc)" >&2
    exit 2
fi
"$here/unpack.sh" >"$work/program.c"

# make_modules PROGRAM: the library differs from the whole program in the first of the four parts alone.
make_modules() {
    program=$1
    shift
    [ "$program" = checktestdata ] || set -- -DCTD_LINT
    compile "$@" -DCTD_PART=0 -DCHECKTESTDATA_LIBRARY -c "$work/program.c" -o "$work/$program.library.o" &
    jobs=$!
    for part in 0 1 2 3; do
        compile "$@" -DCTD_PART=$part -c "$work/program.c" -o "$work/$program.$part.o" &
        jobs="$jobs $!"
    done
    for job in $jobs; do
        wait "$job"
    done
    link "$work/$program".[0-3].o -o "$work/$program.wasm"
    link -mexec-model=reactor -Wl,--export=checktestdata_run -Wl,--export=malloc "$work/$program".[1-3].o "$work/$program.library.o" \
        -o "$work/$program-library.wasm"
    mv "$work/$program.wasm" "$work/$program-library.wasm" "$folder"
}

for program in "$@"; do
    make_modules "$program"
done
