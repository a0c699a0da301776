# shellcheck shell=bash
# scripts/copy.sh, sourced by scripts that try other function bodies: makes a copy of the tree that they may change.
#
# copied                makes the copy and sets `copy` to its path; it is removed when the script ends
# proved_below NAME..   proves the libraries that the crates use in the copy, one after another, since crates that are
#                       tried in parallel would build them at the same time. Names the library that fails

copied() {
    copy=$(mktemp -d) || exit 2
    trap 'rm -rf "$copy"' EXIT
    cp -r crates.txt crates "$copy/"
    [ ! -f HANDLES ] || cp HANDLES "$copy/"
    export copy
}

proved_below() {
    local name library
    for name in "$@"; do
        sed -n "s/^$name\( [^:]*\)\?://p" crates.txt
    done | tr ' ' '\n' | sort -u | while read -r library; do
        [ -d "$copy/crates/$library/src" ] || continue
        (cd "$copy/crates/$library" && rt lib) > "$copy/$library.lib.log" 2>&1 && continue
        echo "$0: $library is not proved" >&2
        tail -n 5 "$copy/$library.lib.log" >&2
        return 1
    done
}
