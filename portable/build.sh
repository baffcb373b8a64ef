#!/usr/bin/env bash
# Makes C of a proved program: portable/build.sh CRATE RESULT.c. It needs the Rattle toolchain and Python 3. What of the crates is not proved yet
# is proved first. The same sources and toolchain give the same bytes.
set -eu
top=$(cd "$(dirname "${BASH_SOURCE[0]}")/.." && pwd)
crate=$1
result=$(realpath --canonicalize-missing "$2")
kit=$(dirname "$(rt doc)")
work=$(mktemp -d)
trap 'rm -rf "$work"' EXIT
cd "$top"

# The program is proved and compiled over libraries that are there already, if they can be used: those that rt ci made of these sources, or those
# that other commands of rt made, which have a stamp each; else over those of make.
make=(env --unset=MAKEFLAGS --unset=MAKELEVEL make --no-print-directory --silent -f scripts/crates.mk)
object=crates/$crate/out/build/$crate.o
module=${object%.o}.bc
libraries=() stamps=()
for library in $(portable/crates.sh "$crate" | grep -vx "$crate"); do
    libraries+=("crates/$library/out/rlib/$library.rlib")
    stamps+=("crates/$library/out/rlib/stamp")
done
# Whether each library has a stamp, and rt says that it is of these sources. Their times say nothing, so the object file goes by the stamps.
have_stamps() {
    local direct library
    cat "${stamps[@]}" >"$work/stamps" 2>/dev/null || return
    read -r -a direct < <(sed -n "s/^$crate://p" crates.txt)
    for library in "${direct[@]}"; do
        [ ! -d "crates/$library" ] || (cd "crates/$library" && rt lib) || return
    done
    cat "${stamps[@]}" >"$work/stamps"
    cmp --silent "$work/stamps" "$object.stamps" || rm -f "$object"
    cp "$work/stamps" "$object.stamps"
}
mkdir -p "$(dirname "$object")"
if "${make[@]}" --question LIBRARY_FOLDER=rlib "${libraries[@]}" 2>/dev/null; then
    make+=(LIBRARY_FOLDER=rlib)
elif have_stamps; then
    make+=(LIBRARY_FOLDER=rlib "${libraries[@]/#/--assume-old=}")
else
    make+=("-j$(nproc)")
fi
[ -e "$module" ] || rm -f "$object"
"${make[@]}" "$object"

# To WebAssembly and from there to C, position independent: not with wide-arithmetic, of which LLVM 22 reads a result too early.
clang=("$kit/toolchain/bin/clang" --no-default-config)
wasm=("${clang[@]}" --target=wasm64-unknown-unknown -mcpu=mvp -mbulk-memory -msign-ext -mmutable-globals -mnontrapping-fptoint -msimd128)
"${clang[@]}" --target=x86_64-unknown-linux-gnu -x ir "$module" -S -emit-llvm -O0 -Xclang -disable-llvm-passes -o "$work/x86.ll"
layout=$("${wasm[@]}" -x c /dev/null -S -emit-llvm -o - | sed -n 's/^target datalayout = "\(.*\)"$/\1/p')
python3 portable/retarget.py "$work/x86.ll" "$work/wasm.ll" "$layout"
"${wasm[@]}" -fPIC -mllvm -no-trap-after-noreturn -mllvm -trap-unreachable -O2 -c -x ir "$work/wasm.ll" -o "$work/wasm.o"
ln -s "$kit/toolchain/bin/clang" "$work/wasm-ld"
"$work/wasm-ld" -mwasm64 --experimental-pic -pie --no-entry --allow-undefined --export=ctd_main --gc-sections -O2 "$work/wasm.o" -o "$work/program.wasm"

mkdir -p "$(dirname "$result")"
python3 portable/wasm_to_c.py "$work/program.wasm" >"$work/program.c"
mv "$work/program.c" "$result"
