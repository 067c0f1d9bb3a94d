# parts.sh: read by oracle/run and bench/run, which have set here to their own folder and root to that of the repository. It
# finds the Rust, and builds a program of oracle/ with it.
# shellcheck shell=sh disable=SC2034,SC2154

# Sets RONAKVESH_RUST to the folder of the Rust, or says that it is not there and answers 3.
find_rust() {
    rust=${RONAKVESH_RUST:-$root/../shared/docs/src}
    while read -r file; do
        if [ ! -f "$rust/$file" ]; then
            echo "${here##*/}/run: the Rust is not there: no file $rust/$file (set RONAKVESH_RUST to its folder)" >&2
            return 3
        fi
    done <"$root/oracle/rust-files.txt"
    RONAKVESH_RUST=$(CDPATH='' cd -- "$rust" && pwd) || exit 4
    export RONAKVESH_RUST
}

# Builds a program in a cargo profile, with further options of cargo, and sets program to it.
build() { # PROFILE PROGRAM OPTION..
    profile=$1 name=$2 program=$CARGO_TARGET_DIR/$1/$2
    shift 2
    (CDPATH='' cd -- "$root/oracle" &&
        cargo build --quiet --offline --locked --profile "$profile" --bin "$name" "$@") || exit 4
}
