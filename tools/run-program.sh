#!/bin/sh
# run-program.sh PROGRAM PLAN INPUT: the bench or the audit program on a plan and its input, in a directory of its own.
set -eu
program=$(pwd)/crates/$1/out/$1
work=$(mktemp -d)
trap 'rm -rf "$work"' EXIT
if [ -r "$2" ]; then cp "$2" "$work/plan.bin"; fi
exec 3<"$3"
cd "$work"
"$program" <&3
