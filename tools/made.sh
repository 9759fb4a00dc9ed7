# shellcheck shell=sh
# Sourced at the top of the repository: what is made of a crate, and whether it is made of the files as they stand.

made_of() { # NAME
    if [ -f "crates/$1/src/main.rt" ]; then echo "crates/$1/out/$1"; else echo "crates/$1/out/lib$1.a"; fi
}

# The toolchain's line and every file that a proof reads.
text_sum() {
    { rt version && cat crates.txt && find crates/*/src crates/*/specs crates/*/proofs -type f -exec sha256sum {} + | LC_ALL=C sort; } | sha256sum | cut -d ' ' -f 1
}

note_made() { # NAME SUM
    file=$(made_of "$1")
    echo "$2 $(sha256sum <"$file")" >"$file.made"
}

is_made() { # NAME SUM
    file=$(made_of "$1")
    [ -f "$file" ] && [ -f "$file.made" ] && [ "$(cat "$file.made")" = "$2 $(sha256sum <"$file")" ]
}
