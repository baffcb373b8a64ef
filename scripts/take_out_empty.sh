#!/bin/sh
# Takes out folders that are empty, and those around them that are empty then, but for DESTDIR and what each system has: scripts/take_out_empty.sh DESTDIR FOLDER..
destdir=$1
shift
for folder; do
    folder=$destdir${folder%/}
    while [ "$folder" != "$destdir" ]; do
        around=${folder%/*}
        case $around in
        '' | "$folder" | /usr | /usr/local) break ;;
        esac
        [ ! -d "$folder" ] || rmdir "$folder" 2>/dev/null || break
        folder=$around
    done
done
