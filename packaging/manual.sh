#!/usr/bin/env bash
# Makes a manual page of its template: packaging/manual.sh PAGE TEMPLATE VERSION. What the header says is taken from there, so that no page
# can disagree with it: @CALLS@, @DECLARATIONS@ and @REFUSALS@ in the library's page, @VERSION@ in every page.
set -eu

page=$1
template=$2
version=$3
here=$(dirname "$0")
header=$here/../include/stragumella.h

# The names of the calls, with a comma before each.
calls() {
    "$here/calls.sh" | sed 's/.*/, &/' | tr -d '\n'
}

# The structs and calls without comments and without what is for the preprocessor or for C++. Each is folded behind a comma, for a
# screen of 80 columns.
declarations() {
    awk '
        function fold(text, margin,    cut) {
            while (length(text) > 72) {
                for (cut = 72; cut > 0 && substr(text, cut, 2) != ", "; cut--)
                    ;
                if (cut == 0)
                    break
                print substr(text, 1, cut)
                text = margin substr(text, cut + 2)
            }
            print text
        }
        /^#ifdef __cplusplus/, /^#endif/ { next }
        /^\/\*/, /\*\// { next }
        /^#/ || more { more = /\\$/; next }
        /^$/ { next }
        /^typedef struct/ { inside = 1; print "" }
        inside { fold($0, "        "); inside = !/^}/; next }
        { sub(/^ +/, " "); whole = whole $0 }
        /;$/ { gsub(/, */, ", ", whole); print ""; fold(whole, "    "); whole = "" }
    ' "$header" | sed 1d
}

# A paragraph for each row of the table of refusals: its number, its words, and in square brackets its stage and its column.
refusals() {
    awk '
        function put() {
            if (number != "")
                printf ".TP 5\n.B %s\n%s\n[%s%s]\n", number, text, stage, column
        }
        /^ \*   No\. Stage/ { table = 1; next }
        table && /^ \*$/ { exit }
        !table { next }
        { sub(/^ \* */, ""); gsub(/-n/, "\\-n") }
        !/^[0-9]+  / { text = text "\n" $0; next }
        {
            put()
            split($0, part, /  +/)
            number = part[1]
            stage = part[2] == "-" ? "" : (part[2] ~ /^[0-9]/ ? "stage " : "judged ") part[2] "; "
            text = part[3]
            column = part[4] == "-" ? "no place" : "column: " part[4]
        }
        END { put() }
    ' "$header"
}

text=$(cat "$template")
for name in calls declarations refusals; do
    words=$($name)
    text=${text//@${name^^}@/"$words"}
done
text=${text//@VERSION@/"$version"}
mkdir -p "$(dirname "$page")"
printf '%s\n' "$text" >"$page"
