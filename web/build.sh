#!/usr/bin/env bash
# Makes the page in web/out, of the two WebAssembly libraries in out/wasm: its files, the editor, the examples and the documents. Its code is one script
# with all that it needs, so the page also works where it is opened from a folder.
set -eu
top=$(CDPATH='' cd "$(dirname "${BASH_SOURCE[0]}")/.." && pwd)
out=$top/web/out
editor=/usr/share/javascript/codemirror
work=$(mktemp -d)
trap 'rm -rf "$work"' EXIT
mkdir -p "$out" "$work/made"

for program in checktestdata ctd-lint; do
    gzip -9nc "$top/out/wasm/$program-library.wasm" >"$work/made/$program.wasm.gz"
done
cp "$top/editors/vscode/syntaxes/checktestdata.tmLanguage.json" "$work/made/grammar.json"
python3 "$top/web/examples.py" "$top/examples" >"$work/made/examples.json"
python3 -B "$top/web/language.py" >"$work/made/language.json"
# The files in made/ and the editor are found by NODE_PATH.
bundle() { NODE_PATH=$work:${editor%/*} esbuild --bundle --minify --log-level=warning --loader:.gz=binary "$@"; }
bundle "$top/web/worker.js" --outfile="$work/made/worker.txt"
bundle "$top/web/page.js" --outfile="$out/page.js"

cp "$top"/web/*.{html,css} "$out/"
cp "$editor/lib/codemirror.css" "$out/"
cp /usr/share/doc/libjs-codemirror/copyright "$out/codemirror-license.txt"
cp /usr/share/doc/wasi-libc/copyright "$out/wasi-libc-license.txt"
python3 "$top/web/documents.py" "$top/docs" "$out/docs"
