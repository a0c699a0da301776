#!/usr/bin/env bash
# scripts/install.sh install program|library, scripts/install.sh uninstall: installs what was built, with the files that
# belong to it, or removes exactly these files. The environment has the folders, whose names may contain spaces:
# DESTDIR, PREFIX, SHARE, DOC, LIBDIR and INCLUDEDIR; ZSH, the folder of completions below SHARE; PC_PREFIX, the prefix
# in the file for pkg-config; and VERSION.
set -euo pipefail
umask 022
cd "$(dirname "$0")/.."
verb=$1

# Makes the folder of a file, or removes the file and those of our folders that are then empty.
place() { # PATH
    local folder
    if [ "$verb" = install ]; then
        mkdir -p "$(dirname "$DESTDIR$1")"
        return
    fi
    rm -f "$DESTDIR$1"
    folder=$(dirname "$1")
    if [[ $1 == *.py ]]; then # and what Python made of it
        rm -f "$DESTDIR$folder/__pycache__/$(basename "$1" .py)".*.pyc
        rmdir "$DESTDIR$folder/__pycache__" 2> /dev/null || true
    fi
    while case $folder/ in "$SHARE/plistconv/"* | "$DOC/"*) true ;; *) false ;; esac; do
        rmdir "$DESTDIR$folder" 2> /dev/null || break
        folder=$(dirname "$folder")
    done
}
put() { # MODE FROM PATH
    place "$3"
    [ "$verb" = uninstall ] || install -T -m "$1" "$2" "$DESTDIR$3"
}
link() { # TARGET PATH
    place "$2"
    [ "$verb" = uninstall ] || ln -sfn "$1" "$DESTDIR$2"
}
print() { # PATH LINE..
    place "$1"
    [ "$verb" = install ] || return 0
    rm -f "$DESTDIR$1" # so that a link is not followed
    printf '%s\n' "${@:2}" > "$DESTDIR$1"
    chmod 644 "$DESTDIR$1"
}

# Installs the pages, with the files that they link to.
pages() {
    local file
    for file in *.md docs/*.{md,svg} include/*.h bindings/{README.md,rows.txt} \
        bindings/python/{README.md,pyproject.toml,wheel_of_plistconv.py,plistconv/__init__.py,plistconv/py.typed} \
        bindings/rust/{README.md,Cargo.toml} bindings/rust/plistconv{,-sys}/{Cargo.toml,src/*.rs} \
        bindings/rust/plistconv-sys/build.rs bindings/go/{README.md,go.mod,plistconv.go,refused.go} \
        examples/c/*.{c,cpp} examples/rust/{Cargo.toml,src/*.rs} examples/go/{go.mod,*.go}; do
        put 644 "$file" "$DOC/$file"
    done
}

# Installs the notices that the licences of third parties ask for.
notices() { put 644 THIRD-PARTY "$DOC/THIRD-PARTY"; }

program() {
    local file
    put 755 plistconv "$PREFIX/bin/plistconv"
    for file in plistconv-{canonicalise,diff,digest,staged,textconv,where}; do
        put 755 "tools/$file" "$SHARE/plistconv/tools/$file"
        # A link, since a command finds its modules beside its real file.
        case $SHARE in
            "$PREFIX"/*) link "../${SHARE#"$PREFIX"/}/plistconv/tools/$file" "$PREFIX/bin/$file" ;;
            *) link "$SHARE/plistconv/tools/$file" "$PREFIX/bin/$file" ;;
        esac
        print "$SHARE/man/man1/$file.1" '.so man1/plistconv-tools.1'
    done
    for file in plistconv_{early,files,git,lines,objects,processes,tools,xml}.py; do put 644 "tools/$file" "$SHARE/plistconv/tools/$file"; done
    for file in plistconv.1 plistconv-tools.1; do put 644 "man/$file" "$SHARE/man/man1/$file"; done
    put 644 completions/plistconv.bash "$SHARE/bash-completion/completions/plistconv"
    put 644 completions/_plistconv "$SHARE/$ZSH/_plistconv"
    put 644 completions/plistconv.fish "$SHARE/fish/vendor_completions.d/plistconv.fish"
    for file in plistconv/__init__.py plistconv/py.typed pyproject.toml wheel_of_plistconv.py; do
        put 644 "bindings/python/$file" "$SHARE/plistconv/python/$file"
    done
    pages
    notices
}

below_prefix() { case $1 in "$PREFIX"/*) echo "\${prefix}/${1#"$PREFIX"/}" ;; *) echo "$1" ;; esac; } # FOLDER

library() {
    # pkgconf escapes blanks in pcfiledir itself, and removes quotes around a value; blanks in other prefixes need quotes.
    local value='' flag='"'
    [[ $PC_PREFIX != *pcfiledir* ]] || { value='"' flag=''; }
    put 644 include/plistconv.h "$INCLUDEDIR/plistconv.h"
    put 644 libplistconv.a "$LIBDIR/libplistconv.a"
    put 644 libplistconv.so "$LIBDIR/libplistconv.so.1"
    link libplistconv.so.1 "$LIBDIR/libplistconv.so"
    print "$LIBDIR/pkgconfig/plistconv.pc" "prefix=$PC_PREFIX" "libdir=$value$(below_prefix "$LIBDIR")$value" \
        "includedir=$value$(below_prefix "$INCLUDEDIR")$value" '' 'Name: plistconv' \
        'Description: Property lists in their canonical form, proved' "Version: $VERSION" \
        "Libs: -L$flag\${libdir}$flag -lplistconv" "Cflags: -I$flag\${includedir}$flag"
    notices
}

case $verb-${2:-} in
    install-program) program ;;
    install-library) library ;;
    uninstall-) program; library ;;
    *) echo 'usage: install.sh install program|library, install.sh uninstall' >&2; exit 2 ;;
esac
