# shellcheck shell=sh
# Sourced at the top of the repository: a crate is checked or built over the libraries that rt ci has just left in the crates' out/. For rt's own commands they
# do not count, so `rt lib` would prove each of them again.

over_libraries() { # COMMAND NAME FOLDER WORD...
    rattle_command=$1 name=$2 folder=$3
    shift 3
    kit=$(dirname "$(rt doc)")
    for used in $(sed -n "s/#.*//; s/^$name\( staticlib\)\{0,1\}://p" crates.txt); do set -- "$@" --extern "$used=$PWD/crates/$used/out/rlib/$used.rlib"; done
    for libraries in crates/*/out/rlib; do set -- "$@" -L "dependency=$PWD/$libraries"; done
    (cd "$folder" && "$kit/bin/rattle" "$rattle_command" --crate-name "$name" src/lib.rt --jobs 2 --links "$name=" --extern "std=$kit/rlibs/std.rlib" \
        -L "dependency=$kit/rlibs" --antt-project "$kit/rattle/logic/antt-project.json" --logic-built "$kit/logic_built" "$@")
}

build_archive() { # NAME
    mkdir -p "crates/$1/out"
    over_libraries build "$1" "crates/$1" --crate-type staticlib --toolchain "$(dirname "$(rt doc)")/toolchain" --backend llvm -o "out/lib$1.a"
}
