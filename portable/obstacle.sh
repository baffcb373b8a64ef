#!/bin/sh
# Prints in one line why a program cannot be compiled from the packed C file here, and what to do; nothing where it can: portable/obstacle.sh PROGRAM.
CDPATH='' cd "$(dirname "$0")/.." || exit
packed=portable/checktestdata.c.xz

# need COMMAND..: one of these commands is there; else says so, and ends.
need() {
    for command in "$@"; do
        command -v "$command" >/dev/null && return
    done
    first=$1
    shift
    echo "no command $first$([ $# -eq 0 ] || echo " and no $1"), which compiling $packed takes: install it"
    exit
}

toolchain=$(scripts/missing_toolchain.sh)
[ -f "$packed" ] || { echo "$packed is not there${toolchain:+, and $toolchain}" && exit; }
compiler=${CC:-cc}
for command in "${compiler%% *}" awk bash find grep sed sort xargs; do
    need "$command"
done
need sha256sum shasum
need xz python3

changed=$(portable/sums.sh "$1" | grep -Fxv -f portable/checktestdata.c.sums | sed 's/^[^ ]* *//')
if [ -n "$changed" ]; then
    # shellcheck disable=SC2086
    set -- "$1" $changed
    more=$(($# - 2))
    # shellcheck disable=SC2016
    renewing=${toolchain:+'`make` with the Rattle toolchain (rattle-kit-13f) proves and compiles what stands here'}
    echo "$packed is older than $2$([ $more -eq 0 ] || echo " and $more more"): \`portable/compile.sh $1 out/$1\` compiles it all the same, as the" \
        "version that it is; ${renewing:-\`make portable\` makes it anew}"
fi
