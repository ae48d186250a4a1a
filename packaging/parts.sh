# shellcheck shell=bash disable=SC2034
# Read by stage and dist: the program and the core that an installation is made of, and whether they were proved. Sets
# `program`, `core` and `unproved`.
#
# In the environment:
#   PROGRAM   the program: crates/famsync/out/famsync where it isn't said
#   CORE      the core: crates/famsync_core/out/libfamsync_core.a where it isn't said
# With `unproved` for one of them, or for both, it is compiled without proofs, if it wasn't yet. A path doesn't do for
# such a part: then nobody installs it by mistake.
crates=$(cd "$(dirname "$0")/.." && pwd)/crates
mark='famsync: compiled without proofs' # what tests/lib/unproved.py puts into each

fail() {
    echo "packaging/${0##*/}: $*" >&2
    exit 1
}

is_unproved() { grep -qF "$mark" "$1"; }

# Prints the path of a part, which is a file of a crate.
part() {
    local word=$1 given=$2 crate=$crates/$3 file=$4 path
    if [ "$given" = unproved ]; then
        "$crate/build" --unproved || exit
        echo "$crate/out/unproved/$file"
        return
    fi
    path=$(realpath -m "${given:-$crate/out/$file}")
    [ -f "$path" ] || fail "$path isn't there: crates/$3/build proves and builds it"
    ! is_unproved "$path" || fail "$path isn't proved: $word=unproved installs it all the same"
    echo "$path"
}

program=$(part PROGRAM "${PROGRAM:-}" famsync famsync)
core=$(part CORE "${CORE:-}" famsync_core libfamsync_core.a)
unproved=
if is_unproved "$program" || is_unproved "$core"; then unproved=yes; fi
