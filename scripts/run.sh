#!/usr/bin/env bash
# Runs a program of this checkout with the words, streams and status of the call: scripts/run.sh checktestdata|ctd-lint [WORD..]. The path of this
# script is a full one. The status is 2 wherever the program does not run.
# (the options of the caller's shell may be in force here too, by SHELLOPTS)
set +eu +o pipefail
unset CDPATH
name=$1
shift
top=${BASH_SOURCE[0]%/scripts/run.sh}
crate=${name//-/_}
program=$top/crates/$crate/out/$crate
compiled=$top/out/$name

stop() {
    echo "$name: $1" >&2
    exit 2
}

# is_there PROGRAM: bash would run an empty file as a script.
is_there() { [ -x "$1" ] && [ -s "$1" ]; }

# Compiles the C file, or proves and compiles the sources.
make_program() {
    local obstacle
    obstacle=$("$top/portable/obstacle.sh" "$name")
    [ -z "$obstacle" ] || [ -z "$("$top/scripts/missing_toolchain.sh")" ] || stop "$obstacle"
    mkdir -p "$top/out" 2>/dev/null
    [ -w "$top/out" ] || stop "cannot write to $top/out, where the program is compiled: use a copy of this checkout, or an installed $name"
    if [ -z "$obstacle" ]; then
        echo "$name: compiling portable/checktestdata.c.xz, made of these sources, in about half a minute" >&2
        "$top/portable/compile.sh" "$name" "$compiled" </dev/null >&2 || exit 2
        program=$compiled
    else
        echo "$name: proving and compiling these sources on first use, which takes eight to twenty minutes on four cores" >&2
        env --unset=MAKEFLAGS --unset=MAKELEVEL make --no-print-directory --directory="$top" build </dev/null >&2 || exit 2
    fi
}

# newer FOLDER..: one source that is newer than the program.
newer() { find "$@" -name '*.rt' -newer "$program" 2>/dev/null | head -n 1; }

# The source that changed since the program was made, if one did. Where its time alone is newer, what was compiled is still of these sources.
changed_source() (
    cd "$top/crates" && [ -n "$(newer ./*/src)" ] || exit
    if [ "$program" != "$compiled" ] || [ -n "$("$top/portable/obstacle.sh" "$name")" ]; then
        # shellcheck disable=SC2046
        newer $("$top/portable/crates.sh" "$name" | sed 's,$,/src,')
    fi
)

if is_there "$program"; then
    changed=$(changed_source)
elif is_there "$compiled" && [ "$compiled" -nt "$top/portable/checktestdata.c.xz" ]; then
    program=$compiled
    changed=$(changed_source)
else
    make_program
    changed=
fi
[ -z "$changed" ] || echo "$name: crates/$changed is newer than the program that runs here: \`make\` builds it anew" >&2
shopt -s execfail
exec "$program" "$@"
exit 2
