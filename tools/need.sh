#!/bin/sh
# need.sh TOOL...: says so where a tool is not found.
set -eu
for tool in "$@"; do
    if command -v "$tool" >/dev/null 2>&1; then continue; fi
    case $tool in
    rt) where="It is the Rattle toolchain's command: put its folder bin on the PATH." ;;
    cargo) where="It builds the model and its tests, and comes with Rust. 'make run' does without it." ;;
    nm) where="It comes with the linker that cargo needs." ;;
    *) where="" ;;
    esac
    echo "$tool is not found. $where" >&2
    exit 1
done
