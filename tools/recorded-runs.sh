#!/bin/sh
# The recorded runs of the bench and audit programs: each folder has a plan (or none, where it is to be unreadable), an input, and what the papers answer to
# it. The programs are the proved ones.
set -eu
cd "$(dirname "$0")/.."
wrote=$(mktemp)
trap 'rm -f "$wrote"' EXIT

compare() { # PROGRAM FOLDER INPUT OUTPUT
    count=0
    for run in "examples/$2"/*; do
        if ! sh tools/run-program.sh "$1" "$run/plan.bin" "$run/$3" >"$wrote" || ! cmp "$wrote" "$run/$4"; then
            echo "$run: the $1 program does not answer as recorded" >&2
            exit 1
        fi
        count=$((count + 1))
    done
    echo "$count recorded $2 agree"
}

compare bench runs session.txt answers.txt
compare audit audits jobs.txt figures.txt
