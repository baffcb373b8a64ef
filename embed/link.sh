#!/usr/bin/env bash
# Makes the libraries for C in embed/out: libchecktestdata.a and libchecktestdata.so.1, of what scripts/crates.mk compiled and the heap of the toolchain.
set -eu
top=$(CDPATH='' cd "$(dirname "${BASH_SOURCE[0]}")/.." && pwd)
kit=$(dirname "$(rt doc)")
out=$top/embed/out
mkdir -p "$out"
# (in the same folder, so that each file comes whole or not at all)
objects=$(mktemp -d "$out/linking.XXXXXX")
trap 'rm -rf "$objects"' EXIT
cd "$objects"
ar x "$top/crates/ctd_capi/out/build/libctd_capi.a"
ar x "$kit/c/liblibc_c.a"
ar rcsD libchecktestdata.a ./*.o
echo '{ global: checktestdata_*; local: *; };' >exports
"${CC:-cc}" -shared -Wl,-soname,libchecktestdata.so.1 -Wl,--version-script=exports -Wl,-z,relro,-z,now -s -o libchecktestdata.so.1 ./*.o
mv libchecktestdata.a libchecktestdata.so.1 "$out"
