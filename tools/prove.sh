#!/bin/sh
# prove.sh NAME...: proves crates and all that they use, and makes of a program crates/NAME/out/NAME, of a static library crates/NAME/out/libNAME.a.
# It says on standard error each crate that it comes to; where all is made it says nothing.
set -eu
cd "$(dirname "$0")/.."
sh tools/need.sh rt
# shellcheck source=tools/made.sh
. tools/made.sh
room=$(mktemp -d)
trap 'rm -rf "$room"' EXIT
trap 'exit 130' INT TERM HUP

say() { printf 'prove: %s\n' "$*" >&2; }

# The crate and all that it uses, each behind what it uses: the order in which rt goes.
needed_by() { # NAME
    WANTED=$1 awk '
        function visit(name,    used, count, k) {
            if (name in seen || !(name in uses)) return
            seen[name] = 1
            count = split(uses[name], used, " ")
            for (k = 1; k <= count; k++) visit(used[k])
            print name
        }
        { sub(/#.*/, ""); colon = index($0, ":") }
        colon { name = substr($0, 1, colon - 1); sub(/ .*/, "", name); uses[name] = substr($0, colon + 1) }
        END { visit(ENVIRON["WANTED"]) }' crates.txt
}

# Of a library rt makes the archive; a program it also runs, here on nothing.
make_one() { # NAME
    case $(made_of "$1") in *.a) verb=lib ;; *) verb=run ;; esac
    needed_by "$1" >"$room/needed"
    count=$(wc -l <"$room/needed")
    say "$1 and what it uses, $count crates, each proved once"
    { (cd "crates/$1" && rt "$verb" </dev/null 2>&1) || : >"$room/failed"; } | while IFS= read -r line; do
        printf '%s\n' "$line" >>"$room/log"
        case $line in
        'rt: chose --jobs '*' for '*) say "${line##* }, $(grep -nx "${line##* }" "$room/needed" | cut -d : -f 1) of $count" ;;
        esac
    done
    [ -e "$room/failed" ] || return 0
    grep -v -e ': proved$' -e '^note: ' -e '^library ' -e '^statements ' -e '^logic /' "$room/log" >&2 || true
    mkdir -p "crates/$1/out"
    mv "$room/log" "crates/$1/out/prove.log"
    say "rt $verb FAILED in crates/$1; crates/$1/out/prove.log has all that it said"
    exit 1
}

sum=$(text_sum)
for name in "$@"; do
    if is_made "$name" "$sum"; then continue; fi
    make_one "$name"
    note_made "$name" "$sum"
done
