#!/usr/bin/env bash
# Runs the prover in the folder of a crate: scripts/prove.sh CRATE COMMAND.., of which the last word is what is made. It says on standard error which
# crate is proved and how long that took. What the prover prints is shown only where it fails. The prover ends with this script, and so does all that
# it started.
set -u
crate=$1
shift
CDPATH='' cd "$(dirname "${BASH_SOURCE[0]}")/../crates/$crate" && mkdir -p out/build || exit
log=$(mktemp) || exit
prover=

finish() {
    [ -z "$prover" ] || kill -- "-$prover" 2>/dev/null
    rm -f "$log"
}
trap finish EXIT
trap 'exit 129' HUP
trap 'exit 130' INT
trap 'exit 143' TERM

echo "proving $crate" >&2
# The prover starts processes of its own: together they are a group, which can be ended as one.
setsid "$@" </dev/null >"$log" 2>&1 &
prover=$!
wait "$prover"
status=$?
prover=
# A crate that rests on the contract of a C function, which nothing proves, or takes handles, of which HANDLES allows none, is refused as in the gate.
if [ "$status" -eq 0 ] && beyond=$(grep '^logic=proved ' "$log" | grep -oE ' (foreign|hides|partial|bugs|main|may-(abort|serve|wait))=[^ ]*'); then
    echo "the gate refuses what this proof rests on:$beyond" >>"$log"
    rm -rf "${@:$#}"
    status=1
fi
took="$((SECONDS / 60)) min $((SECONDS % 60)) s"
if [ "$status" -eq 0 ]; then
    echo "proved $crate in $took" >&2
else
    cat "$log" >&2
    echo "could not prove $crate, after $took" >&2
    exit "$status"
fi
