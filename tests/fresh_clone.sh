#!/usr/bin/env bash
# Walks the first steps of a user who has no toolchain, in a fresh clone: the first command of README.md, ./ctd-lint, make, make install, and ctd-lint
# as it is installed. What is not committed is not seen. It needs a C compiler. The last line counts what passed and failed.
set -u
CDPATH='' cd "$(dirname "${BASH_SOURCE[0]}")/.." || exit
work=$(mktemp -d)
trap 'rm -rf "$work"' EXIT
passed=0
failed=0
unset MAKEFLAGS MFLAGS MAKELEVEL PREFIX DESTDIR

# expect NAME WANTED COMMAND..: a command ends with status 0 and writes this to standard output.
expect() {
    local name=$1 wanted=$2 found
    shift 2
    if found=$("$@" 2>"$work/log") && [ "$found" = "$wanted" ]; then
        passed=$((passed + 1))
    else
        printf 'fresh_clone: %s: %s, not %s\n' "$name" "$found" "$wanted"
        sed 's/^/    /' "$work/log"
        failed=$((failed + 1))
    fi
}

# here COMMAND..: runs a command in the clone, where no rt is in PATH.
here() { (cd "$work/clone" && env PATH="$work/bin" "$@"); }

# The commands of the system, but for rt.
mkdir "$work/bin"
for folder in /usr/local/bin /usr/bin /bin; do
    for command in "$folder"/*; do
        [ "${command##*/}" = rt ] || ln -s "$command" "$work/bin/" 2>/dev/null
    done
done
git clone --quiet . "$work/clone" || exit
first=$(sed -n 's/^    \(\.\/checktestdata .*\)/\1/p' README.md | head -n 1)
printf 'INT(1,10) NEWLINE\n' >"$work/number.ctd"
verdicts="$work/number.ctd: every data file gets a verdict"

expect 'the first command of README.md' 'testdata ok!' here bash -c "$first"
expect './ctd-lint' "$verdicts" here ./ctd-lint --verdicts "$work/number.ctd"
expect 'make' '' here make --silent
expect 'make install' '' here make --silent install PREFIX="$work/prefix"
expect 'ctd-lint as it is installed' "$verdicts" here "$work/prefix/bin/ctd-lint" --verdicts "$work/number.ctd"
printf '%s passed, %s failed\n' "$passed" "$failed"
[ "$failed" -eq 0 ]
