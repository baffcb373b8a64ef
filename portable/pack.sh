#!/usr/bin/env bash
# Makes the C file of both programs again, as out/checktestdata.c, and packs it into this folder with the sums of its sources.
set -eu
unset CDPATH
cd "$(dirname "${BASH_SOURCE[0]}")/.."
# The sums are taken first, so that a source that changes meanwhile is seen.
mkdir -p out
portable/sums.sh >out/checktestdata.c.sums
portable/whole.sh out/checktestdata.c
mv out/checktestdata.c.sums portable/checktestdata.c.sums
if ! cmp --silent out/checktestdata.c <(xz -dc portable/checktestdata.c.xz 2>/dev/null); then
    xz -9e --threads=1 <out/checktestdata.c >out/checktestdata.c.xz
    mv out/checktestdata.c.xz portable/checktestdata.c.xz
fi
