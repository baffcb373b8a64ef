#!/bin/sh
# Says in one line all that is missing to make the page, and ends with status 2; writes no line where all is there. The compiler for WebAssembly is
# needed where the modules are not made yet, and then it is that of Debian, unless WASM_CC names one: web/needs.sh MODULES
missing=
# need PACKAGE FILE..: one of these files is there.
need() {
    package=$1
    shift
    for file in "$@"; do
        if [ -e "$file" ]; then return; fi
    done
    missing="$missing $package"
}
path_of() { command -v "$1" || echo /none; }

need libjs-codemirror /usr/share/javascript/codemirror/lib/codemirror.js
for command in cmark-gfm esbuild python3; do
    need $command "$(path_of $command)"
done
if [ ! -e "$1" ] && [ -z "${WASM_CC:-}" ]; then
    need clang-16 "$(path_of clang-16)"
    need lld-16 "$(path_of wasm-ld-16)" /usr/lib/llvm-16/bin/wasm-ld
    need libclang-rt-16-dev-wasm32 /usr/lib/llvm-16/lib/clang/16/lib/wasi/libclang_rt.builtins-wasm32.a
    need wasi-libc /usr/lib/wasm32-wasi/libc.a
fi
if [ -n "$missing" ]; then
    echo "page: these packages of Debian are missing:$missing" >&2
    exit 2
fi
