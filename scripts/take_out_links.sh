#!/bin/sh
# Takes the links that lead to no file out of the documents below a folder: of "[text](file)" the text is left. So the documents that are
# installed have no links to what is not. usage: scripts/take_out_links.sh FOLDER
set -eu

# The links of a document that lead to no file, one a line.
dead_links() {
    grep -o '](\([A-Za-z0-9_./#-]*\))' "$1" | sed 's/^](//; s/)$//' | sort -u | while IFS= read -r link; do
        file=${link%%#*}
        [ -z "$file" ] || [ -e "${1%/*}/$file" ] || printf '%s\n' "$link"
    done
}

find "$1" -type f -name '*.md' | while IFS= read -r document; do
    dead=$(dead_links "$document")
    [ -n "$dead" ] || continue
    DEAD=$dead awk '
        BEGIN {
            count = split(ENVIRON["DEAD"], links, "\n")
            for (number = 1; number <= count; number++) dead[links[number]] = 1
        }
        { text = text $0 "\n" }
        # where the bracket opens that closes at a place
        function opening(text, at,    depth) {
            for (depth = 1; depth > 0 && at > 1; ) {
                at--
                if (substr(text, at, 1) == "]") depth++
                if (substr(text, at, 1) == "[") depth--
            }
            return at
        }
        END {
            while (match(text, /\]\([A-Za-z0-9_.\/#-]*\)/)) {
                link = substr(text, RSTART + 2, RLENGTH - 3)
                done = done substr(text, 1, RSTART - 1)
                rest = substr(text, RSTART + RLENGTH)
                if (link in dead) {
                    open = opening(done, length(done) + 1)
                    done = substr(done, 1, open - 1) substr(done, open + 1)
                } else {
                    done = done substr(text, RSTART, RLENGTH)
                }
                text = rest
            }
            printf "%s", done text
        }' "$document" >"$document.new"
    # (the mode of the document stays)
    cat "$document.new" >"$document"
    rm "$document.new"
done
