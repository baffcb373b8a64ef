#!/usr/bin/env bash
# Prints in one line what is missing to build the checker and where it comes from, and nothing where all is there.
set -u
package="take the built program from the package checktestdata-nagdimot or the archive checktestdata-VERSION-x86_64-linux.tar.gz"
if ! command -v rt >/dev/null 2>&1 || ! guide=$(rt doc 2>/dev/null) || [ ! -x "$(dirname "$guide")/bin/rattle" ]; then
    echo "the Rattle toolchain is missing (no command rt): install rattle-kit-13f to build, or $package"
elif ! command -v make >/dev/null 2>&1; then
    echo "GNU make is missing: install make to build, or $package"
fi
