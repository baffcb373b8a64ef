#!/bin/sh
# Compiles the packed C file as a library: libchecktestdata.a and libchecktestdata.so.1 in a folder: portable/library.sh FOLDER. The call is that of
# embed/checktestdata.h. In one part, so that nothing but the call is seen outside.
set -eu
here=$(CDPATH='' cd "$(dirname "$0")" && pwd)
mkdir -p "$1"
# (in the same folder, so that each file comes whole or not at all)
work=$(mktemp -d "$1/compiling.XXXXXX")
trap 'rm -rf "$work"' EXIT
trap 'exit 130' HUP INT TERM
"$here/unpack.sh" >"$work/library.c"
${CC:-cc} -O1 -fPIC -fvisibility=hidden -DCHECKTESTDATA_LIBRARY -c -o "$work/library.o" "$work/library.c"
ar rcs "$work/libchecktestdata.a" "$work/library.o"
${CC:-cc} -shared -o "$work/libchecktestdata.so.1" "$work/library.o"
mv "$work/libchecktestdata.a" "$work/libchecktestdata.so.1" "$1"
