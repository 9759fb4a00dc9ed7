#!/bin/sh
# An edit of several functions, none of which calls another, says in lines '# refuses: NAME...' which of them the prover must refuse. rt ci sees to it that
# the edit is refused; this, that each of those functions is, and not because it calls one that is. It checks a copy of each such crate with its edit, over
# the libraries that stand in the crates' out/ when rt ci has passed.
set -eu
cd "$(dirname "$0")/.."
# shellcheck source=tools/over-libraries.sh
. tools/over-libraries.sh
room=$(mktemp -d)
trap 'rm -rf "$room"' EXIT
trap 'exit 130' INT TERM HUP

# As rt reads an edit: each 'old:' text stands once in the file, as the pairs above left it.
apply() { # EDIT FOLDER
    awk -v folder="$2" '
        function put(new,    text, line, at) {
            while ((getline line <file) > 0) text = text line "\n"
            close(file)
            at = index(text, old)
            if (!at) { print FILENAME ": an old text is not there: " old; exit 1 }
            printf "%s", substr(text, 1, at - 1) new substr(text, at + length(old)) >file
            close(file)
        }
        sub(/^file: /, "") { file = folder "/" $0; next }
        sub(/^old: /, "") { old = $0; next }
        sub(/^new: ?/, "") { put($0) }' "$1" >&2
}

count=0
for edit in $(grep -l '^# refuses: ' crates/*/must-fail/*.edit); do
    crate=${edit#crates/}
    crate=${crate%%/*}
    rm -rf "$room/crate"
    mkdir "$room/crate"
    for part in src specs proofs; do
        if [ -d "crates/$crate/$part" ]; then cp -R "crates/$crate/$part" "$room/crate/$part"; fi
    done
    apply "$edit" "$room/crate"
    over_libraries check "$crate" "$room/crate" >"$room/log" 2>&1 || true
    for name in $(sed -n 's/^# refuses: //p' "$edit"); do
        if ! grep -e "^fn $name: not proved" -e "^fn $name: no proof" "$room/log" | grep -qv 'it calls'; then
            cat "$room/log" >&2
            echo "$edit: $name is not refused by itself" >&2
            exit 1
        fi
        count=$((count + 1))
    done
done
echo "$count functions of such edits are refused, each by itself"
