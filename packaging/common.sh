# shellcheck shell=bash
# What the package and the archive share; read by both scripts.

unset CDPATH

# Where the package and the archive are put.
out=${OUT:-out}
mkdir -p "$out"

# put FILE: copies a file into that folder, and prints its name there. It comes whole or not at all.
put() {
    local made=$out/${1##*/}
    if ! cp "$1" "$made.$$" || ! mv "$made.$$" "$made"; then
        rm -f "$made.$$"
        exit 1
    fi
    echo "$made"
}

# The last change of the sources, in seconds, so that the same sources give the same files.
SOURCE_DATE_EPOCH=${SOURCE_DATE_EPOCH:-$(git log -1 --format=%ct 2>/dev/null || date +%s)}
export SOURCE_DATE_EPOCH

# The least version of the GNU C library on which a program runs: that of the newest symbol that it takes from there.
needed_libc() {
    readelf --version-info --wide "$1" | grep -o 'GLIBC_[0-9.]*' | sed 's/GLIBC_//' | sort --version-sort --unique | tail -n 1
}

# Gives every file below a folder the rights and the time that a package has.
settle() {
    chmod -R u=rwX,go=rX "$1"
    find "$1" -exec touch --no-dereference --date="@$SOURCE_DATE_EPOCH" '{}' +
}
