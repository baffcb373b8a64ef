#!/bin/sh
# Prints the C file of both programs. Where there is no xz, as on macOS, Python unpacks it.
packed=$(dirname "$0")/checktestdata.c.xz
cat <<'END'
/* A result of a call that the program drops has a name here all the same; a function may be used in another part alone; and GCC guesses where
 * a variable could be without a value. */
#ifdef __GNUC__
#pragma GCC diagnostic ignored "-Wunused-but-set-variable"
#pragma GCC diagnostic ignored "-Wunused-function"
#ifndef __clang__
#pragma GCC diagnostic ignored "-Wmaybe-uninitialized"
#endif
#endif
END
if command -v xz >/dev/null; then
    exec xz -dc "$packed"
fi
exec python3 -c 'import lzma, shutil, sys; shutil.copyfileobj(lzma.open(sys.argv[1]), sys.stdout.buffer)' "$packed"
