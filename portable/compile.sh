#!/usr/bin/env bash
# Compiles a program from the packed C file: portable/compile.sh checktestdata|ctd-lint RESULT [WORD..]. Further words are for the compiler, CC, which
# is cc by default. The file is compiled in four parts, side by side, with -O1: LLVM has optimised the program before, and -O2 takes
# twice as long and makes it no faster. The compilers end with this script, and what they made is removed.
set -eu
here=$(CDPATH='' cd "$(dirname "$0")" && pwd)
name=$1
program=$2
shift 2
[ "$name" = checktestdata ] || set -- -DCTD_LINT "$@"
folder=$(dirname "$program")
mkdir -p "$folder"
# (beside the program, so that it comes whole or not at all)
work=$(mktemp -d "$folder/compiling.XXXXXX")
export TMPDIR=$work
parts=

finish() {
    for part in $parts; do
        kill -- "-$part" 2>/dev/null || true
    done
    wait 2>/dev/null
    rm -rf "$work"
}
trap finish EXIT
trap 'exit 129' HUP
trap 'exit 130' INT
trap 'exit 143' TERM
"$here/unpack.sh" >"$work/program.c"

# A compiler starts processes of its own: together they are a group, which can be ended as one.
set -m
for part in 0 1 2 3; do
    ${CC:-cc} -O1 -c -DCTD_PART=$part "$@" -o "$work/$part.o" "$work/program.c" &
    parts="$parts $!"
done
set +m
for part in $parts; do
    wait "$part"
done
parts=
${CC:-cc} "$work"/[0-3].o "$@" -o "$work/program.out"
mv "$work/program.out" "$program"
