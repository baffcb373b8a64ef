#!/usr/bin/env bash
# Runs the built checker and ctd-lint with standard streams that are closed or full: what stands on the other streams, and the status. What they
# do with all of their streams open is in tests/tables/process.toml and tests/lint.toml. The last line counts passed and failed.
# usage: tests/process.sh [CHECKER [LINTER]]
set -u
top=$(CDPATH='' cd "$(dirname "${BASH_SOURCE[0]}")/.." && pwd)
checker=$(readlink -f "${1:-$top/crates/checktestdata/out/checktestdata}")
linter=$(readlink -f "${2:-$top/crates/ctd_lint/out/ctd_lint}")
work=$(mktemp -d)
trap 'rm -rf "$work"' EXIT
cd "$work" || exit
passed=0
failed=0

# expect NAME STATUS OUT ERR COMMAND..: runs the command on an input that is at its end, and compares what it leaves; both texts have the escapes
# of printf.
expect() {
    local name=$1 status=$2 got
    printf '%b' "$3" >want.out
    printf '%b' "$4" >want.err
    "${@:5}" </dev/null >out 2>err
    got=$?
    if [ $got -eq "$status" ] && cmp -s out want.out && cmp -s err want.err; then
        passed=$((passed + 1))
    else
        failed=$((failed + 1))
        printf 'process: %s: status %s, wanted %s\n' "$name" "$got" "$status"
        diff want.out out | sed 's/^/    out /'
        diff want.err err | sed 's/^/    err /'
    fi
}

# closed STREAMS COMMAND..: runs the command with the streams of these numbers closed.
closed() (
    [[ $1 != *0* ]] || exec <&-
    [[ $1 != *1* ]] || exec >&-
    [[ $1 != *2* ]] || exec 2>&-
    exec "${@:2}"
)

# with_closed SETS NAME STATUS OUT ERR COMMAND..: runs the command once with the streams of each set closed. A closed stream shows nothing, and a
# text that goes to a closed standard output is a failed write.
with_closed() {
    local set status out err
    for set in $1; do
        status=$3 out=$4 err=$5
        [[ $set != *2* ]] || err=
        if [[ $set == *1* && -n $out ]]; then
            status=2 out=
        fi
        expect "$2, closed: $set" "$status" "$out" "$err" closed "$set" "${@:6}"
    done
}

full_output() { "$checker" "$@" >/dev/full; }
full_error() { "$checker" "$@" 2>/dev/full; }

printf 'INT(1,10) NEWLINE' >p.ctd
printf '' >empty.ctd
printf '# 12345' >comment.ctd
printf 'INT(1,10' >open.ctd
printf '5\n' >right.in
printf '5' >short.in
fits='testdata ok!\n'
refused='checktestdata: program line 1 column 9: syntax error\n'
no_first_byte='checktestdata: line 1 column 1: read failed (program line 1 column 1)\n'
no_end='checktestdata: line 1 column 1: read failed (program end)\n'

# All eight sets of streams that may be closed: no file that the checker opens stands for one of them. A read of a closed standard input fails, and
# so does a write to a closed output.
sets='none 0 1 2 01 02 12 012'
with_input='none 1 2 12'
without_input='0 01 02 012'
with_closed "$sets" 'data that fit' 0 "$fits" '' "$checker" p.ctd right.in
with_closed "$sets" 'data that fit, and -q' 0 '' '' "$checker" -q p.ctd right.in
with_closed "$sets" 'a program that is refused' 2 '' "$refused" "$checker" open.ctd right.in
with_closed "$sets" 'the version' 0 'checktestdata 1.0 (whole-number profile)\n' '' "$checker" --version
with_closed "$with_input" 'an input that is at its end' 0 "$fits" '' "$checker" empty.ctd
with_closed "$without_input" 'an input that is at its end' 2 '' "$no_end" "$checker" empty.ctd
with_closed "$without_input" 'an input for a program that asks for nothing' 2 '' "$no_end" "$checker" comment.ctd -
with_closed "$without_input" 'an input that is read' 2 '' "$no_first_byte" "$checker" p.ctd

# The data are what standard input still has as the checker starts.
printf 'no integer\n5\n' >lines.in
behind_the_first_line() {
    {
        read -r _
        "$checker" "$@"
    } <lines.in
}
expect 'an input behind its first line' 0 "$fits" '' behind_the_first_line p.ctd
expect 'an input behind its first line, as a dash' 0 "$fits" '' behind_the_first_line p.ctd -

expect 'a full output' 2 '' '' full_output p.ctd right.in
expect 'a full output for data that do not fit' 2 '' '' full_output p.ctd short.in
expect 'a full output that is not written to' 2 '' "$refused" full_output open.ctd right.in
expect 'a full output for -q' 0 '' '' full_output -q p.ctd right.in
expect 'a full output for -q and data that do not fit' 1 '' '' full_output -q p.ctd short.in
expect 'a full error output' 2 '' '' full_error open.ctd right.in
expect 'a full error output that is not written to' 0 "$fits" '' full_error p.ctd right.in

# ctd-lint reads no standard input, so that a closed one changes nothing. A stream that fails ends it: no further program is opened.
printf 'SPACE' >space.ctd
printf 'ASSERT(1==2)' >false.ctd
finding='false.ctd:1:1: warning: the test is false whatever the data are [always-false]\n'
not_there='none.ctd: error: cannot open\n'
with_closed "$sets" 'ctd-lint: a finding' 1 "$finding" '' "$linter" false.ctd
with_closed "$sets" 'ctd-lint: no findings' 0 '' '' "$linter" space.ctd
with_closed "$sets" 'ctd-lint: a program that is refused' 2 '' 'open.ctd:1:9: error: syntax error: expected , or ) or an operator\n' "$linter" open.ctd
with_closed "$sets" 'ctd-lint: a folder' 2 '' '.: error: cannot read program\n' "$linter" .
with_closed "$sets" 'ctd-lint: a file that is not there' 2 '' "$not_there" "$linter" none.ctd
with_closed "$sets" 'ctd-lint: the version' 0 'ctd-lint 1.0 (whole-number profile)\n' '' "$linter" --version
checker=$linter
expect 'ctd-lint: a full output' 2 '' '' full_output false.ctd
expect 'ctd-lint: a full output at the first of two programs' 2 '' '' full_output false.ctd none.ctd
expect 'ctd-lint: a full output at the last of two programs' 2 '' "$not_there" full_output none.ctd false.ctd
expect 'ctd-lint: a full output for an error as JSON' 2 '' '' full_output --json none.ctd false.ctd
expect 'ctd-lint: a full output that is not written to' 0 '' '' full_output space.ctd
expect 'ctd-lint: a full error output' 2 '' '' full_error none.ctd false.ctd
expect 'ctd-lint: a full error output that is not written to' 1 "$finding" '' full_error space.ctd false.ctd

# A long command line needs no more open files than a short one: each file is closed once it is read.
few_files() (
    ulimit -n 16
    exec "$linter" "$@"
)
many=()
for ((number = 0; number < 300; number++)); do
    many+=(space.ctd)
done
expect 'ctd-lint: three hundred programs, of which few may be open at once' 0 '' '' few_files "${many[@]}"
expect 'ctd-lint: the last of three hundred programs' 1 "$finding" '' few_files "${many[@]}" false.ctd

printf '%s passed, %s failed\n' "$passed" "$failed"
[ "$failed" -eq 0 ]
