#!/usr/bin/env bash
# Compiles the library for C from the packed C file, and runs the tests of the library on it (embed/test.py): buffers that a text fits and does not
# fit, the C example, the Python module on the rows of tests/tables/. The last line counts what passed and failed.
set -eu
CDPATH='' cd "$(dirname "${BASH_SOURCE[0]}")/.."
LIBRARIES=$(mktemp -d)
export LIBRARIES
trap 'rm -rf "$LIBRARIES"' EXIT
portable/library.sh "$LIBRARIES"
embed/test.py
