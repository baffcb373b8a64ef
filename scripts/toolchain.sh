#!/usr/bin/env bash
# Makes the kit's toolchain once more, but with a clang that keeps the LLVM module of a crate, and prints its folder: scripts/toolchain.sh CRATE.
# The module is crates/CRATE/out/build/CRATE.bc. Of such modules the page and the C file are made. The tools are scripts that run those of the kit,
# since the gate refuses a tree with links.
set -eu
top=$(CDPATH='' cd "$(dirname "${BASH_SOURCE[0]}")/.." && pwd)
kit=$(dirname "$(rt doc)")
built=$top/crates/$1/out/build
made=$built/toolchain
rm -rf "$made"
mkdir -p "$made/bin"
for tool in "$kit"/toolchain/bin/*; do
    script=$made/bin/${tool##*/}
    echo '#!/usr/bin/env bash' >"$script"
    # The compiler passes no variables on to it.
    # shellcheck disable=SC2016
    [ "${tool##*/}" != clang ] || printf 'for word in "$@"; do [[ $word != *.bc ]] || cp -- "$word" %q; done\n' "$built/$1.bc" >>"$script"
    printf 'exec %q "$@"\n' "$tool" >>"$script"
    chmod +x "$script"
done
echo "$made"
