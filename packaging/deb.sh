#!/usr/bin/env bash
# Makes the Debian package of the built programs in out/, with dpkg-deb alone. usage: packaging/deb.sh VERSION (make deb)
#
# DEBFULLNAME and DEBEMAIL name another maintainer, OUT another folder.
set -eu
CDPATH='' cd "$(dirname "${BASH_SOURCE[0]}")/.."
. packaging/common.sh
version=$1-1
name=checktestdata-nagdimot
maintainer="${DEBFULLNAME:-The Nagdimot developers} <${DEBEMAIL:-maintainers@users.noreply.nagdimot.example}>"
escaped=$(printf '%s' "$maintainer" | sed 's/[|&\\]/\\&/g')
architecture=$(dpkg --print-architecture)
work=$(mktemp -d)
trap 'rm -rf "$work"' EXIT
stage=$work/stage
package=$work/${name}_${version}_$architecture.deb
documents=$stage/usr/share/doc/$name

make --silent install-built DESTDIR="$stage" PREFIX=/usr docdir=/usr/share/doc/$name zshdir=/usr/share/zsh/vendor-completions
for program in checktestdata ctd-lint; do
    [ ! -e "$stage/usr/bin/$program" ] || strip --remove-section=.comment --remove-section=.note "$stage/usr/bin/$program"
done
# (the Python of the system, at which the shell's lines of a companion look)
sed -i '1,6s,\(-v\|exec\) python3,\1 /usr/bin/python3,' "$stage"/usr/share/checktestdata/tools/ctd-*
gzip -9n "$stage"/usr/share/man/man?/*

# Debian has the licences in one file, and the changes of a package beside those of its sources.
cat packaging/debian/copyright LICENSE-MIT <(printf '\n\n') NOTICE >"$documents/copyright"
rm "$documents"/{LICENSE-MIT,LICENSE-APACHE,NOTICE}
gzip -9nc CHANGELOG.md >"$documents/changelog.gz"
rm "$documents/CHANGELOG.md"
scripts/take_out_links.sh "$documents"
printf '%s (%s) unstable; urgency=medium\n\n  * Version %s.\n\n -- %s  %s\n' "$name" "$version" "$1" "$maintainer" "$(LC_ALL=C date --utc --rfc-email --date="@$SOURCE_DATE_EPOCH")" |
    gzip -9n >"$documents/changelog.Debian.gz"
install -D -m 644 packaging/debian/lintian-overrides "$stage/usr/share/lintian/overrides/$name"

# (what make builds without the toolchain comes by way of C)
by_c=(-e '/@BY_C@/d')
command -v rt >/dev/null || by_c=(-e '/@BY_C@/r packaging/debian/by_c' "${by_c[@]}")
size=$(du --summarize --apparent-size --block-size=1024 "$stage" | cut -f 1)
mkdir "$stage/DEBIAN"
sed "${by_c[@]}" -e "s|@VERSION@|$version|; s|@MAINTAINER@|$escaped|; s|@SIZE@|$size|; s|@ARCHITECTURE@|$architecture|; s|@LIBC@|$(needed_libc "$stage/usr/bin/checktestdata")|" packaging/debian/control >"$stage/DEBIAN/control"
(cd "$stage" && find usr -type f -print0 | sort --zero-terminated | xargs --null md5sum >DEBIAN/md5sums)
settle "$stage"
dpkg-deb --build --root-owner-group -Zxz "$stage" "$package" >/dev/null
put "$package"
