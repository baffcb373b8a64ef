#!/usr/bin/env bash
# Makes an archive of the programs, companions, man pages and documents for each of some systems in out/, and its SHA-256 sum.
# usage: packaging/dist.sh VERSION SYSTEM.. (make dist)
#
# For x86_64-linux the programs are linked statically from what the toolchain compiled of them, if it did; else, and for other systems, they are
# compiled from their C file: aarch64-linux, x86_64-windows, and wasm, WebAssembly with WASI. Of a system whose compiler is not there no archive is
# made, and it is said which package of Debian has it. OUT names another folder.
set -eu -o pipefail
CDPATH='' cd "$(dirname "${BASH_SOURCE[0]}")/.."
. packaging/common.sh
version=$1
shift
work=$(mktemp -d)
trap 'rm -rf "$work"' EXIT

# What each system needs: the commands, the packages of Debian that have them, words for the compiler, which comes first, and where its programs run.
declare -A commands=([x86_64-linux]=cc [aarch64-linux]=aarch64-linux-gnu-gcc [x86_64-windows]='x86_64-w64-mingw32-gcc zip' [wasm]=${WASM_CC:-clang-16})
declare -A packages=([x86_64-linux]='gcc libc6-dev' [aarch64-linux]='gcc-aarch64-linux-gnu libc6-dev-arm64-cross' [x86_64-windows]='gcc-mingw-w64-x86-64 zip'
    [wasm]='clang-16 lld-16 libclang-rt-16-dev-wasm32 wasi-libc')
declare -A words=([x86_64-linux]='-static -s' [aarch64-linux]='-static -s' [x86_64-windows]='-static -s -Wl,--stack,8388608 -lshell32'
    [wasm]=--target=wasm32-wasi)
declare -A where=([x86_64-linux]='any Linux on x86-64' [aarch64-linux]='any Linux on ARM of 64 bits' [x86_64-windows]='Windows 10 or later on x86-64'
    [wasm]='any system with Node 20 or later, or another runtime for WebAssembly that has WASI')

# object PROGRAM: the object file that the toolchain made of a program, in make build or in the gate, whichever came later.
object() {
    local crate=${1//-/_} made build
    made=crates/$crate/out/$crate.o
    build=crates/$crate/out/build/$crate.o
    [ ! -e "$build" ] || [ "$made" -nt "$build" ] || made=$build
    [ ! -e "$made" ] || echo "$made"
}

# is_by_c SYSTEM: whether the programs for a system are compiled from the C file.
is_by_c() {
    [ "$1" != x86_64-linux ] || [ -z "$(object checktestdata)" ] || [ -z "$(object ctd-lint)" ]
}

# make_program SYSTEM PROGRAM FILE: compiles or links a program.
make_program() {
    local kit
    if ! is_by_c "$1"; then
        kit=$(dirname "$(rt doc)")
        cc -static -s -Wl,--gc-sections "$(object "$2")" "$kit/c/libos_c.a" "$kit/c/liblibc_c.a" -o "$3"
    elif [ "$1" = wasm ]; then
        portable/wasm.sh "$work/modules" "$2"
        install -m 755 packaging/wasm/run.js "$3"
    else
        # shellcheck disable=SC2086
        CC=${commands[$1]%% *} portable/compile.sh "$2" "$3" ${words[$1]}
    fi
}

# for_windows FOLDER: gives what is installed the form of Windows: programs end with .exe, and a companion is called by a command beside it.
for_windows() {
    local file name
    for file in "$1"/bin/*; do
        name=${file##*/}
        if [ -L "$file" ]; then
            printf '@py -3 "%%~dp0..\\share\\checktestdata\\tools\\%s" --checker "%%~dp0checktestdata.exe" %%*\r\n' "$name" >"$file.cmd"
            rm "$file"
        else
            mv "$file" "$file.exe"
        fi
    done
    rm -r "$1"/share/{man,bash-completion,zsh,fish}
}

# archive SYSTEM FOLDER NAME: packs a folder beside it, and prints the archive.
archive() {
    case $1 in
        *-windows)
            (cd "$2" && find "$3" ! -type d | LC_ALL=C sort | TZ=UTC zip --quiet -X -@ "$3.zip")
            echo "$2/$3.zip"
            ;;
        *)
            tar --create --directory="$2" --sort=name --owner=0 --group=0 --numeric-owner "$3" | gzip -9n >"$2/$3.tar.gz"
            echo "$2/$3.tar.gz"
            ;;
    esac
}

# pack SYSTEM: makes the archive of a system.
pack() {
    local name=checktestdata-$version-$1 stage=$work/$1 file how
    mkdir -p "$stage/programs"
    for program in checktestdata ctd-lint; do
        make_program "$1" "$program" "$stage/programs/$program"
    done
    make --silent install-built BUILT="$stage/programs" strip= DESTDIR="$stage/$name" PREFIX=
    case $1 in
        *-windows) for_windows "$stage/$name" ;;
        wasm)
            cp "$work"/modules/{checktestdata,ctd-lint}.wasm "$stage/$name/bin"
            cp /usr/share/doc/wasi-libc/copyright "$stage/$name/wasi-libc-license.txt"
            ;;
    esac
    cp LICENSE-MIT LICENSE-APACHE NOTICE "$stage/$name"
    how='They were compiled by the toolchain that proved them.'
    ! is_by_c "$1" || how='They were compiled from the proved programs as C; TRUST.md in share/doc says what that adds to what is trusted.'
    sed -e "s|@VERSION@|$version|g; s|@HOW@|$how|; s|@WHERE@|${where[$1]}|g" "packaging/archive/${1#*-}.md" >"$stage/$name/README.md"
    (cd "$stage/$name" && find . -type f -printf '%P\0' | sort --zero-terminated | xargs --null sha256sum >"$stage/sums" && mv "$stage/sums" SHA256SUMS)
    settle "$stage/$name"
    file=$(archive "$1" "$stage" "$name")
    (cd "$stage" && sha256sum "${file##*/}" >"$file.sha256")
    put "$file"
    put "$file.sha256" >/dev/null
}

# why_not SYSTEM: in one line why no archive can be made for a system, if that is so.
why_not() {
    local command missing=
    printf '#include <stdlib.h>\nint main(void) { return 0; }\n' >"$work/try.c"
    # shellcheck disable=SC2086
    ${commands[$1]%% *} ${words[$1]} "$work/try.c" -o "$work/try.out" 2>/dev/null || missing="${commands[$1]%% *} compiles nothing"
    for command in ${commands[$1]}; do
        command -v "$command" >/dev/null || missing="no command $command"
    done
    [ -z "$missing" ] || { echo "$missing (in Debian: apt install ${packages[$1]})" && return; }
    ! is_by_c "$1" || for program in checktestdata ctd-lint; do
        CC=${commands[$1]%% *} portable/obstacle.sh "$program"
    done | sed -n 1p
}

for system in "$@"; do
    reason=$(why_not "$system")
    if [ -z "$reason" ]; then
        pack "$system"
    else
        echo "dist: no archive for $system: $reason" >&2
    fi
done
