# For the scripts here, from the root of the repository: where the files of quick-xml 0.42.0 are, which QUICK_XML_SRC says, and that they are those.
# `form` is `given` for a folder with the given files, under the names that compare/given.sha256 has, and `published` for one with the crate as it is
# published, with src/reader/mod.rs and all others.
given=${QUICK_XML_SRC:-../shared/docs/src}
form=given
[ ! -f "$given/src/reader/mod.rs" ] || form=published

fail() {
    echo "compare: $*" >&2
    exit 2
}

# path_of NAME: where a given file stands in the crate
path_of() {
    echo "$1" | sed 's/^src--//; s|--|/|g; s/\.txt$//'
}

# file_of PATH: the file that stands there in the crate
file_of() {
    case $form in
    given) echo "$given/src--$(echo "$1" | sed 's|/|--|g').txt" ;;
    published) echo "$given/$1" ;;
    esac
}

# untested FILE: what is given of a file. A published one has its tests behind that.
untested() {
    sed '/^#\[cfg(test)\]$/,$d' "$1"
}

# sums_hold: the twelve files are those of 0.42.0
sums_hold() {
    while read -r sum name; do
        file=$(file_of "$(path_of "$name")")
        [ -f "$file" ] || fail "no $file; tools/compare --help says what QUICK_XML_SRC is to name"
        found=$(untested "$file" | sha256sum)
        [ "${found%% *}" = "$sum" ] || fail "$file is not that of 0.42.0"
    done <compare/given.sha256
}

# archive: SPOREBASKET_LIB_DIR is the folder with libsporebasket.a, by its whole path; it is made unless one is named
archive() {
    if [ -z "${SPOREBASKET_LIB_DIR:-}" ]; then
        tools/host-staticlib capi >&2
        SPOREBASKET_LIB_DIR=$PWD/target/host${HOST_CPU:+/$HOST_CPU}
    fi
    [ -f "$SPOREBASKET_LIB_DIR/libsporebasket.a" ] || fail "no libsporebasket.a in $SPOREBASKET_LIB_DIR"
    SPOREBASKET_LIB_DIR=$(cd "$SPOREBASKET_LIB_DIR" && pwd)
    export SPOREBASKET_LIB_DIR
}
