#!/bin/sh
# The gate: every proof, edit, recorded run and test; what `rt ci` passed on this machine before, and nothing under it changed, it does not prove again. Its last line is
# rt ci's, 'N passed, 0 failed', and stands there only where all else passed too.
set -eu
cd "$(dirname "$0")/.."
sh tools/need.sh rt cargo nm
# shellcheck source=tools/made.sh
. tools/made.sh
# shellcheck source=tools/over-libraries.sh
. tools/over-libraries.sh
room=$(mktemp -d)

# A library that rt ci left is of use to no command of rt, and would be put back by the next rt ci in the place of its own.
end() {
    rm -rf "$room"
    for libraries in crates/*/out/rlib; do
        if [ ! -e "$libraries/stamp" ]; then rm -rf "$libraries"; fi
    done
}
trap end EXIT
trap 'exit 130' INT TERM HUP

part() { # TITLE COMMAND...
    title=$1
    shift
    since=$(date +%s)
    if ! "$@"; then
        echo "part FAILED: $title"
        # rt ci's own verdict, where it is the one that failed
        if [ "$1" = proofs ]; then grep '^[0-9]* passed, [1-9][0-9]* failed$' "$room/ci"; fi
        exit 1
    fi
    echo "part: $title, $(($(date +%s) - since)) s"
}

# rt ci's last line, the verdict, is held back until all else has passed too. It passes with edits that say nothing of a contract, the bad ones, and with those that only a limit of the prover refuses: this does not.
proofs() {
    sum=$(text_sum)
    : >"$room/began"
    { rt ci 2>&1 || : >"$room/failed"; } | tee "$room/ci" | grep --line-buffered -v '^[0-9]* passed, [0-9]* failed$'
    if [ -e "$room/failed" ]; then return 1; fi
    if ! grep -q '^rt: ok' "$room/ci"; then return 1; fi
    if grep -q -e '^rt: ok.*, [0-9][0-9]* bad' -e '^rt: must-fail .*only by a limit' "$room/ci"; then
        echo "must-fail edits are bad, or refused by a limit alone, as told above"
        return 1
    fi
    if [ "$(text_sum)" != "$sum" ]; then
        echo "files of crates/ changed while they were proved"
        return 1
    fi
    tail -n 1 "$room/ci" | grep '^[1-9][0-9]* passed, 0 failed$' >"$room/verdict"
}

# Whether every library in out/ is of this run: a crate that was checked before gets back what that left.
made_by_ci() {
    for libraries in crates/*/out/rlib; do
        if [ -e "$libraries/stamp" ] || [ -z "$(find "$libraries" -prune -newer "$room/began")" ]; then return 1; fi
    done
}

# rt ci proves the crates of the archives, and makes none.
archives() {
    by=rt
    if made_by_ci; then by=rattle; fi
    for name in interface timing; do
        if [ "$by" = rattle ]; then build_archive "$name"; else (cd "crates/$name" && rt lib); fi >"$room/log" 2>&1 || {
            cat "$room/log"
            return 1
        }
    done
    for name in bench audit interface timing; do note_made "$name" "$sum"; done
    for name in interface timing; do needs_only "crates/$name/out/lib$name.a" memcpy memset || return 1; done
}

# A control unit may have no C library: an archive needs these names from outside, and no other.
needs_only() { # ARCHIVE NAME...
    archive=$1
    shift
    needed=$(nm -u "$archive" | awk '$1 == "U" { print $2 }' | sort -u | xargs)
    if [ "$needed" != "$*" ]; then
        echo "$archive needs $needed from outside, and may need $*"
        return 1
    fi
}

comparisons() {
    cargo test --offline --release --quiet --manifest-path model/Cargo.toml --features timing,session \
        --test proved_load --test proved_calls --test proved_session --test proved_queries --test proved_audit
}

echo "the gate: every proof, edit and test; each part says how long it took"
part "recorded plans" sh examples/recorded-plans.sh --check
part "the model's own tests" cargo test --offline --release --quiet --manifest-path model/Cargo.toml
part "proofs and edits" proofs
part "libraries" archives
part "edits of several functions" sh tools/refused.sh
part "recorded runs and audits" sh tools/recorded-runs.sh
part "pictures" sh tools/picture-check.sh
part "the model compared with the libraries" comparisons
cat "$room/verdict"
