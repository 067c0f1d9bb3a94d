# build.sh: read by the commands beside it. It builds the attack, once for each driver.
# shellcheck shell=sh disable=SC2034

here=$(CDPATH='' cd -- "$(dirname -- "$0")" && pwd) || exit 4
root=$(dirname -- "$here")
out=$root/target/attack
[ -z "${RONAKVESH_ARCHIVES:-}" ] || RONAKVESH_ARCHIVES=$(CDPATH='' cd -- "$RONAKVESH_ARCHIVES" && pwd) || exit 4

fail() {
    echo "attack/${0##*/}: $*" >&2
    exit 4
}

# Sets archive to the archive of crate interface for this machine, or for this machine with counters.
find_archive() { # host | host-counted
    archive=${RONAKVESH_ARCHIVES:-$root/target/archive/$1}/libinterface.a
    if [ -z "${RONAKVESH_ARCHIVES:-}" ]; then
        (CDPATH='' cd -- "$root" && tools/archive interface "$1") >/dev/null || fail "no archive was made"
    fi
    [ -f "$archive" ] || fail "no archive $archive"
}

# Compiles C files of the repository, named without their ending, into objects of a folder.
compile() { # COMPILER FOLDER FILE..
    with=$1 into=$out/$2
    shift 2
    mkdir -p "$into" || exit 4
    for file in "$@"; do
        "$with" -std=gnu11 -O2 -Wall -Wextra -Werror -I "$root/include" -c "$root/$file.c" -o "$into/${file##*/}.o" ||
            fail "$file.c was not built"
    done
}

parts='attack/lent attack/store attack/input attack/calls attack/judge attack/helpers attack/damage attack/finding attack/tally
    attack/sequence bench/check'

# Builds the attack with the driver of our own, as own/attack.
build_own() {
    # shellcheck disable=SC2086
    compile gcc own $parts attack/main
    gcc "$out"/own/*.o "$archive" -o "$out/own/attack" || fail "the attack was not linked"
}

# Builds the attack with libFuzzer, as libfuzzer/attack, on an archive that counts the edges of its code.
build_libfuzzer() {
    # shellcheck disable=SC2086
    compile clang libfuzzer $parts attack/libfuzzer
    clang -fsanitize=fuzzer "$out"/libfuzzer/*.o "$archive" -o "$out/libfuzzer/attack" || fail "the attack was not linked"
}

# Can programs be linked with libFuzzer here?
has_libfuzzer() {
    command -v clang >/dev/null 2>&1 || return 1
    mkdir -p "$out" || exit 4
    echo 'int LLVMFuzzerTestOneInput(const char *data, long size) { return data == 0 && size != 0; }' |
        clang -x c -fsanitize=fuzzer - -o "$out/linked" 2>/dev/null
}
