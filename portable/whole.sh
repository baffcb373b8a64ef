#!/usr/bin/env bash
# Makes the C file of both programs again: portable/whole.sh RESULT.c. The checker first, since ctd-lint is made over the same libraries.
set -eu
cd "$(dirname "${BASH_SOURCE[0]}")/.."
result=$1
work=$(mktemp -d)
trap 'rm -rf "$work"' EXIT
for crate in checktestdata ctd_lint; do
    portable/build.sh "$crate" "$work/$crate.c"
done

# The system comes last, since it includes more headers.
{
    echo "/* checktestdata and, with -DCTD_LINT, ctd-lint: of the proved programs, made with $(rt version)."
    echo ' * How to compile it and what is tested of it: portable/README.md. */'
    printf '#ifndef _WIN32\n#define _POSIX_C_SOURCE 200809L\n#endif\n'
    cat portable/host.h portable/runtime.h
    echo '#ifdef CTD_LINT'
    cat "$work/ctd_lint.c"
    echo '#else'
    cat "$work/checktestdata.c"
    echo '#endif'
    echo '#if IN_PART(0)'
    cat portable/run.c
    echo '#ifdef CHECKTESTDATA_LIBRARY'
    cat embed/checktestdata.h portable/library.c
    echo '#else'
    cat portable/host.c
    printf '#endif\n#endif\n'
} >"$work/whole.c"
mkdir -p "$(dirname "$result")"
mv "$work/whole.c" "$result"
