#!/bin/sh
# Prints the crates of this repository that a program is made of, its own among them: portable/crates.sh PROGRAM, as ctd-lint or ctd_lint.
CDPATH='' cd "$(dirname "$0")/.." || exit
awk -v wanted="$1" '
    { sub(/#.*/, "") }
    /:/ { name = $1; sub(/:.*/, "", name); rest = $0; sub(/^[^:]*:/, "", rest); uses[name] = rest }
    END {
        gsub("-", "_", wanted)
        is_needed[wanted] = 1
        for (grown = 1; grown;) {
            grown = 0
            for (name in uses) if (name in is_needed) {
                count = split(uses[name], below, " ")
                for (i = 1; i <= count; i++) if (below[i] in uses && !(below[i] in is_needed)) grown = is_needed[below[i]] = 1
            }
        }
        for (name in is_needed) print name
    }' crates.txt | LC_ALL=C sort
