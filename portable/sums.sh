#!/bin/sh
# Prints the SHA-256 sums of all that decides what stands in the C file of some programs, or of both: portable/sums.sh [PROGRAM..]. That is the code of
# the crates that they are made of, and the scripts that make C of it. Definitions (specs/) and proofs are not among them: they decide whether a
# program is built, and not what it is.
CDPATH='' cd "$(dirname "$0")/.." || exit
[ $# -gt 0 ] || set -- checktestdata ctd-lint
{
    for program in "$@"; do
        for crate in $(portable/crates.sh "$program"); do
            find "crates/$crate/src" -name '*.rt'
        done
    done
    for name in whole.sh build.sh retarget.py wasm_module.py wasm_code.py wasm_to_c.py host.h runtime.h run.c host.c library.c; do
        echo "portable/$name"
    done
    echo embed/checktestdata.h
} | LC_ALL=C sort -u | if command -v sha256sum >/dev/null; then xargs sha256sum; else xargs shasum -a 256; fi
