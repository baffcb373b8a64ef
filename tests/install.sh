#!/usr/bin/env bash
# Tries what users install: make install and uninstall, the package, the archive, man pages, and what is said without the toolchain. It
# needs the built program, and neither a network nor root. What needs a tool that is not there is left out, and said. The last line counts
# passed and failed.
set -u
top=$(CDPATH='' cd "$(dirname "${BASH_SOURCE[0]}")/.." && pwd)
cd "$top" || exit
work=$(mktemp -d)
trap 'rm -rf "$work"' EXIT
passed=0
failed=0
# The make that may have called this is not to be asked by those called here.
unset MAKEFLAGS MFLAGS MAKELEVEL PREFIX DESTDIR

# expect NAME COMMAND..: the command ends with status 0; else what it wrote is shown.
expect() {
    local name=$1
    shift
    if "$@" >"$work/log" 2>&1; then
        passed=$((passed + 1))
    else
        printf 'install: %s: status %s\n' "$name" $?
        sed 's/^/    /' "$work/log"
        failed=$((failed + 1))
    fi
}

# has TOOL NAME: whether a tool is there; says what is left out where it is not.
has() {
    command -v "$1" >/dev/null 2>&1 || { printf 'install: left out %s: %s is not there\n' "$2" "$1" && false; }
}

# same WANTED FOUND: two texts are the same.
same() {
    diff <(printf '%s\n' "$1") <(printf '%s\n' "$2")
}

version=$(sed -n 's/^version := //p' Makefile)
# A folder with a blank in its name.
stage="$work/a stage"
prefix=$stage/usr/local
quiet_make() { make --silent --no-print-directory "$@"; }

expect 'make install' quiet_make install-built DESTDIR="$stage"
wanted='bin/checktestdata
bin/ctd-cover
bin/ctd-language-server
bin/ctd-lint
bin/ctd-mutate
bin/ctd-package
bin/ctd-show
bin/ctd-validate
share/bash-completion/completions/checktestdata
share/bash-completion/completions/ctd-cover
share/bash-completion/completions/ctd-language-server
share/bash-completion/completions/ctd-lint
share/bash-completion/completions/ctd-mutate
share/bash-completion/completions/ctd-package
share/bash-completion/completions/ctd-show
share/bash-completion/completions/ctd-validate
share/checktestdata/tools/ctd-cover
share/checktestdata/tools/ctd-language-server
share/checktestdata/tools/ctd-mutate
share/checktestdata/tools/ctd-package
share/checktestdata/tools/ctd-show
share/checktestdata/tools/ctd-validate
share/checktestdata/tools/ctd_asked.py
share/checktestdata/tools/ctd_changes.py
share/checktestdata/tools/ctd_companion.py
share/checktestdata/tools/ctd_coverage.py
share/checktestdata/tools/ctd_data_faults.py
share/checktestdata/tools/ctd_decisions.py
share/checktestdata/tools/ctd_diagnostics.py
share/checktestdata/tools/ctd_document.py
share/checktestdata/tools/ctd_editing.py
share/checktestdata/tools/ctd_edits.py
share/checktestdata/tools/ctd_equal.py
share/checktestdata/tools/ctd_file_runs.py
share/checktestdata/tools/ctd_findings.py
share/checktestdata/tools/ctd_guesses.py
share/checktestdata/tools/ctd_ladders.py
share/checktestdata/tools/ctd_likely.py
share/checktestdata/tools/ctd_limits.py
share/checktestdata/tools/ctd_lists.py
share/checktestdata/tools/ctd_manual.py
share/checktestdata/tools/ctd_messages.py
share/checktestdata/tools/ctd_others.py
share/checktestdata/tools/ctd_patterns.py
share/checktestdata/tools/ctd_possible.py
share/checktestdata/tools/ctd_presets.py
share/checktestdata/tools/ctd_problem.py
share/checktestdata/tools/ctd_processes.py
share/checktestdata/tools/ctd_program.py
share/checktestdata/tools/ctd_questions.py
share/checktestdata/tools/ctd_ranges.py
share/checktestdata/tools/ctd_reader.py
share/checktestdata/tools/ctd_reduce.py
share/checktestdata/tools/ctd_refusals.py
share/checktestdata/tools/ctd_report.py
share/checktestdata/tools/ctd_schema.py
share/checktestdata/tools/ctd_second.py
share/checktestdata/tools/ctd_server.py
share/checktestdata/tools/ctd_settings.py
share/checktestdata/tools/ctd_shares.py
share/checktestdata/tools/ctd_statement.py
share/checktestdata/tools/ctd_symbols.py
share/checktestdata/tools/ctd_takers.py
share/checktestdata/tools/ctd_text.py
share/checktestdata/tools/ctd_trees.py
share/checktestdata/tools/ctd_turns.py
share/checktestdata/tools/ctd_untried.py
share/checktestdata/tools/ctd_validators.py
share/checktestdata/tools/ctd_values.py
share/checktestdata/vscode/extension.js
share/checktestdata/vscode/language-configuration.json
share/checktestdata/vscode/package.json
share/checktestdata/vscode/syntaxes/checktestdata.tmLanguage.json
share/fish/vendor_completions.d/checktestdata.fish
share/fish/vendor_completions.d/ctd-cover.fish
share/fish/vendor_completions.d/ctd-language-server.fish
share/fish/vendor_completions.d/ctd-lint.fish
share/fish/vendor_completions.d/ctd-mutate.fish
share/fish/vendor_completions.d/ctd-package.fish
share/fish/vendor_completions.d/ctd-show.fish
share/fish/vendor_completions.d/ctd-validate.fish
share/man/man1/checktestdata.1
share/man/man1/ctd-cover.1
share/man/man1/ctd-language-server.1
share/man/man1/ctd-lint.1
share/man/man1/ctd-mutate.1
share/man/man1/ctd-package.1
share/man/man1/ctd-show.1
share/man/man1/ctd-validate.1
share/man/man5/checktestdata.5
share/vim/vimfiles/compiler/checktestdata.vim
share/vim/vimfiles/compiler/ctd-lint.vim
share/vim/vimfiles/ftdetect/checktestdata.vim
share/vim/vimfiles/ftplugin/checktestdata.vim
share/vim/vimfiles/indent/checktestdata.vim
share/vim/vimfiles/syntax/checktestdata.vim
share/zsh/site-functions/_checktestdata
share/zsh/site-functions/_ctd-cover
share/zsh/site-functions/_ctd-language-server
share/zsh/site-functions/_ctd-lint
share/zsh/site-functions/_ctd-mutate
share/zsh/site-functions/_ctd-package
share/zsh/site-functions/_ctd-show
share/zsh/site-functions/_ctd-validate'
installed() { (cd "$prefix" && find . ! -type d ! -path './share/doc/*' -printf '%P\n' | LC_ALL=C sort); }
expect 'all is installed, and nothing else' same "$wanted" "$(installed)"
documents=$prefix/share/doc/checktestdata
# without_links FOLDER: the documents and examples of a folder, of links their text alone.
without_links() { (cd "$1" && find README.md SECURITY.md docs examples -type f | LC_ALL=C sort | while IFS= read -r file; do echo "$file" && tr '\n' ' ' <"$file" | sed 's/\[\([^][]*\)\]([^() ]*)/\1/g'; done); }
expect 'the documents and examples are installed' same "$(without_links .)" "$(without_links "$documents")"
for text in CHANGELOG.md LICENSE-MIT LICENSE-APACHE NOTICE; do
    expect "$text is installed" cmp "$text" "$documents/$text"
done
expect 'no link of an installed document is dead' tests/links.py "$documents"
expect 'links to what is installed are left' grep -q '(docs/LANGUAGE.md#answers)' "$documents/README.md"
expect 'the installed program runs' same "checktestdata $version (whole-number profile)" "$("$prefix/bin/checktestdata" --version)"
if has readelf 'whether the program is stripped'; then
    expect 'the installed program is stripped' same '' "$(readelf --sections --wide "$prefix/bin/checktestdata" | grep -o '\.symtab')"
fi

# An own problem, so that it does not depend on the examples.
printf 'INT(1,10) NEWLINE' >"$work/number.ctd"
printf '7\n' >"$work/right.in"
printf '77\n' >"$work/wrong.in"
beside() { (cd "$work" && "$prefix/bin/$1" number.ctd "${@:2}"); }
expect 'ctd-lint runs' same '' "$(beside ctd-lint)"
expect 'ctd-show finds the checker beside it' same 'right.in: testdata ok!' "$(beside ctd-show right.in)"
expect 'ctd-mutate finds the checker beside it' same 'may fit' "$(beside ctd-mutate right.in | sed -n '$s/:.*, 0 without verdict$//p')"
expect 'ctd-cover finds the checker beside it' same 'number.ctd:1:1: note: INT: took 7..7 of 1..10: neither bound is ever taken (right.in:1:1, right.in:1:1)' "$(beside ctd-cover right.in | head -n 1)"
package=$work/package/data
mkdir -p "$package/sample" "$package/invalid_inputs" "$work/package/input_validators"
cp "$work/number.ctd" "$work/package/input_validators"
cp "$work/right.in" "$package/sample"
cp "$work/wrong.in" "$package/invalid_inputs"
expect 'ctd-validate finds the checker beside it' same $'testdata ok!\nstatus 42' "$(beside ctd-validate <"$work/right.in" || echo "status $?")"
expect 'ctd-package finds the checker and ctd-lint beside it' same $'ctd-lint: input_validators/number.ctd: 0 findings\n2 checked, 2 as they have to be, 0 not' "$("$prefix/bin/ctd-package" "$work/package" | grep -v ctd-cover)"
for companion in ctd-show ctd-cover ctd-mutate ctd-package ctd-validate ctd-language-server; do
    without=$(cd "$work" && PATH=$work/none "$prefix/bin/$companion" number.ctd right.in 2>&1 || echo "status $?")
    expect "$companion without Python" same "$companion: Python is missing (no command python3): install version 3.9 or later"$'\nstatus 2' "$without"
done
expect 'the companions leave nothing where they stand' same "$wanted" "$(installed)"

touch "$prefix/bin/other" "$prefix/share/vim/vimfiles/syntax/other.vim"
if has mandoc 'the form of the man pages'; then
    # (it looks for pages that are referred to in the folder that it runs in)
    for page in man/*; do
        expect "mandoc $page" same '' "$(cd man && mandoc -T lint "${page#man/}" 2>&1)"
    done
fi
expect 'make uninstall' quiet_make uninstall DESTDIR="$stage"
expect 'uninstall leaves what is not ours' same $'bin/other\nshare/vim/vimfiles/syntax/other.vim' "$(installed)"
expect 'uninstall leaves no documents' test ! -e "$documents"
expect 'uninstall leaves no empty folders' same '' "$(find "$stage" -type d -empty)"
expect 'install with another prefix' quiet_make install-built DESTDIR="$stage" PREFIX=/opt/tools
expect 'another prefix' test -x "$stage/opt/tools/bin/ctd-show"

# Without the toolchain and the packed C file one line is written, whatever is asked for.
mkdir -p "$work/bare/crates"
cp -r Makefile HANDLES crates.txt checktestdata ctd-lint scripts tests embed web portable "$work/bare"
rm -f "$work/bare/portable/checktestdata.c.xz"
if PATH=/usr/bin:/bin command -v rt >/dev/null; then
    echo 'install: left out what is said without the toolchain: rt is in /usr/bin'
else
    toolchain='the Rattle toolchain is missing (no command rt): install rattle-kit-13f to build, or take the built program from the package checktestdata-nagdimot or the archive checktestdata-VERSION-x86_64-linux.tar.gz'
    line="portable/checktestdata.c.xz is not there, and $toolchain"
    without() { (cd "$work/bare" && env PATH=/usr/bin:/bin "$@" 2>&1); }
    stopped() { without make "$1" | sed 's/^Makefile:[0-9]*/Makefile/'; }
    for program in checktestdata ctd-lint; do
        expect "./$program without the toolchain" same "$program: $line" "$(without "./$program" p.ctd d.in)"
    done
    for goal in build install deb dist bench fuzz lib wasm test-lib; do
        expect "make $goal without the toolchain" same "Makefile: *** $line.  Stop." "$(stopped "$goal")"
    done
    for goal in test portable; do
        expect "make $goal without the toolchain" same "Makefile: *** $toolchain.  Stop." "$(stopped "$goal")"
    done
fi

needed='cmark-gfm esbuild python3 clang-16'
expect 'make page names all that is missing at once' grep -q "^page: these packages of Debian are missing:.* $needed" <(PATH=$work/none /bin/sh web/needs.sh "$work/none" 2>&1)

# Without the toolchain, but with a packed C file that is of these sources: the programs are compiled from it. A stub stands for the compiler.
copy=$work/copy
cat >"$work/cc" <<'END'
#!/bin/sh
while [ $# -gt 0 ]; do
    [ "$1" != -o ] || made=$2
    shift
done
printf '#!/bin/sh\necho "compiled $*"\n' >"$made"
chmod +x "$made"
END
chmod +x "$work/cc"
here() { (cd "$copy" && env CC="$work/cc" PATH=/usr/bin:/bin "$@" 2>&1); }
if ! PATH=/usr/bin:/bin command -v rt >/dev/null; then
    mkdir "$copy"
    tar --create --exclude=out --exclude=.git . | tar --extract --directory="$copy"
    : | xz >"$copy/portable/checktestdata.c.xz"
    here portable/sums.sh >"$copy/portable/checktestdata.c.sums"
    for program in checktestdata ctd-lint; do
        expect "the first use of ./$program compiles the packed file" same "$program: compiling portable/checktestdata.c.xz, made of these sources, in about half a minute
compiled a b" "$(here "./$program" a b)"
        expect 'the second use does not' same 'compiled c' "$(here "./$program" c)"
    done
    expect 'make does not compile what is there' same '' "$(here make --silent)"
    rm -r "$copy/out"
    compiling() { echo "compiling $1 from portable/checktestdata.c.xz, made of these sources: the Rattle toolchain, which proves them, is not here"; }
    expect 'make compiles the packed file' same "$(compiling checktestdata && compiling ctd-lint)" "$(here make)"
    expect 'make install without the toolchain' here make install strip= DESTDIR="$copy/stage"
    expect 'what it installs' same 'checktestdata ctd-cover ctd-language-server ctd-lint ctd-mutate ctd-package ctd-show ctd-validate' "$(cd "$copy/stage/usr/local/bin" && echo *)"
    rm -r "$copy/out"
    mkdir "$work/few"
    for command in awk bash cat dirname find grep readlink sed sort xz; do
        ln -s "$(command -v "$command")" "$work/few/$command"
    done
    expect 'a command that is missing is named' same 'checktestdata: no command xargs, which compiling portable/checktestdata.c.xz takes: install it' "$(here env PATH="$work/few" ./checktestdata a)"
    echo '// another source' >>"$copy/crates/ctd_tool/src/lib.rt"
    # shellcheck disable=SC2016
    line='portable/checktestdata.c.xz is older than crates/ctd_tool/src/lib.rt: `portable/compile.sh checktestdata out/checktestdata` compiles it all the same, as the version that it is; `make` with the Rattle toolchain (rattle-kit-13f) proves and compiles what stands here'
    expect 'a packed file of other sources is not used' same "checktestdata: $line" "$(here ./checktestdata a b)"
    expect 'make does not use it either' same "Makefile: *** $line.  Stop." "$(here make | sed 's/^Makefile:[0-9]*/Makefile/')"
    expect 'it is compiled all the same' here portable/compile.sh checktestdata out/checktestdata
    expect 'and runs' same 'compiled a b' "$(here ./checktestdata a b)"
    expect 'ctd-lint is not of that source' same 'compiled a' "$(here ./ctd-lint a | tail -n 1)"
fi

# The archives that documents name are those that make dist makes.
# shellcheck disable=SC2016
systems=$(sed -n 's/^\t@packaging\/dist\.sh \$(version) //p' Makefile)
expect 'the archives in docs/BUILDING.md' same "$(for system in $systems; do echo "checktestdata-$version-$system"; done | LC_ALL=C sort)" \
    "$(grep -o "checktestdata-$version-[a-z0-9_-]*" docs/BUILDING.md | LC_ALL=C sort -u)"
expect 'the archive in docs/INTEGRATION.md' same "checktestdata-$version-x86_64-linux" "$(grep -oE 'checktestdata-[0-9.]+-[a-z0-9_-]+' docs/INTEGRATION.md | sort -u)"

# Each crate of the toolchain that crates.txt names is in NOTICE.
ours=$(sed 's/:.*//' crates.txt)
for crate in $(sed 's/.*://' crates.txt | tr -s ' ' '\n' | sort -u); do
    grep -qx "$crate" <<<"$ours" || expect "NOTICE names $crate" grep -qw "$crate" NOTICE
done
expect 'the version of the grammar for VS Code' grep -q "\"version\": \"$version.0\"" editors/vscode/package.json

if has shellcheck 'the form of the scripts'; then
    expect 'shellcheck' shellcheck -x checktestdata ctd-lint .ci/run scripts/*.sh packaging/*.sh tests/*.sh embed/*.sh web/*.sh portable/*.sh
    expect 'shellcheck of the completions' shellcheck --shell=bash completions/bash/*
fi

export OUT=$work/out
archive=checktestdata-$version-x86_64-linux
if has readelf 'the archive and the package'; then
    libc=$(. packaging/common.sh && needed_libc crates/checktestdata/out/checktestdata)
    expect 'the archive' packaging/dist.sh "$version" x86_64-linux
    cp "$OUT/$archive.tar.gz" "$work/first.tar.gz"
    expect 'the archive again' packaging/dist.sh "$version" x86_64-linux
    expect 'both archives are the same' cmp "$OUT/$archive.tar.gz" "$work/first.tar.gz"
    expect 'the sum of the archive' env --chdir="$OUT" sha256sum --check "$archive.tar.gz.sha256"
    tar -xzf "$OUT/$archive.tar.gz" -C "$work"
    expect 'the sums in the archive' env --chdir="$work/$archive" sha256sum --check --strict SHA256SUMS
    expect 'the program in the archive' same "checktestdata $version (whole-number profile)" "$("$work/$archive/bin/checktestdata" --version)"
    expect 'a companion in the archive' "$work/$archive/bin/ctd-show" "$work/number.ctd" "$work/right.in"
    expect 'the program in the archive needs no library' same '' "$(readelf --dynamic --wide "$work/$archive/bin/checktestdata" | grep NEEDED)"
    expect 'the archive says what it runs on' grep -q ': any Linux on x86-64' "$work/$archive/README.md"
    expect 'what the archive says to try' same 'testdata ok!' "$(cd "$work/$archive" && sh -c "$(sed -n 's,^    \(bin/checktestdata .*\),\1,p' README.md)")"
    expect 'the archive has no mark that is not filled in' same '' "$(grep -o '@[A-Z]*@' "$work/$archive/README.md")"
    if has dpkg-deb 'the package'; then
        package=$OUT/checktestdata-nagdimot_$version-1_$(dpkg --print-architecture).deb
        field() { dpkg-deb --field "$package" "$1"; }
        expect 'the package' packaging/deb.sh "$version"
        expect 'the name of the package' same checktestdata-nagdimot "$(field Package)"
        for relation in Provides Conflicts Replaces; do
            expect "$relation" same checktestdata "$(field $relation)"
        done
        expect 'what the package depends on' same "libc6 (>= $libc)" "$(field Depends)"
        expect 'what the companions need' same 'python3:any (>= 3.9), python3-pylsp-jsonrpc' "$(field Recommends)"
        dpkg-deb --extract "$package" "$work/package"
        expect 'the program in the package' same "checktestdata $version (whole-number profile)" "$("$work/package/usr/bin/checktestdata" --version)"
        expect 'a companion in the package' "$work/package/usr/bin/ctd-show" "$work/number.ctd" "$work/right.in"
        expect 'the Python of the package' same 2 "$(grep -cE '^(exec|command -v) /usr/bin/python3 ' "$work/package/usr/bin/ctd-show")"
        expect 'a companion of the package without Python in PATH' env PATH="$work/none" "$work/package/usr/bin/ctd-show" "$work/number.ctd" "$work/right.in"
        expect 'no link of a document in the package is dead' tests/links.py "$work/package/usr/share/doc/checktestdata-nagdimot"
        if has lintian 'lintian'; then
            expect 'lintian' lintian --fail-on error,warning,info "$package"
        fi
    fi
fi

printf '%s passed, %s failed\n' "$passed" "$failed"
[ "$failed" -eq 0 ]
