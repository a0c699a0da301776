#!/usr/bin/env bash
# scripts/deb.sh MULTIARCH: makes Debian packages in dist/ from what was built: plistconv (program, commands, man pages,
# completions, pages), libplistconv1, libplistconv-dev, python3-plistconv, and the sources librust-plistconv-dev,
# librust-plistconv-sys-dev and golang-plistconv-dev. They are reproducible: one commit always gives the same bytes. The
# environment has VERSION.
set -euo pipefail
umask 022
cd "$(dirname "$0")/.."
multiarch=$1
for tool in dpkg-deb python3; do
    command -v $tool > /dev/null || { echo "deb: there is no $tool" >&2; exit 1; }
done
source scripts/commit.sh
arch=$(dpkg --print-architecture)
lib=usr/lib/$multiarch
rm -rf dist/deb
export DESTDIR=dist/deb/all PREFIX=/usr SHARE=/usr/share DOC=/usr/share/doc/plistconv ZSH=zsh/vendor-completions \
    LIBDIR=/$lib INCLUDEDIR=/usr/include PC_PREFIX=/usr
scripts/install.sh install program
scripts/install.sh install library
cd dist/deb

# Prints the oldest version of libc that has all the functions that the file calls.
libc() { objdump -T "$1" | grep -o 'GLIBC_[0-9.]*' | cut -c7- | sort -V | tail -n 1; }

take() { # PACKAGE PATH..: moves installed files into the package
    local package=$1 path
    shift
    for path; do
        mkdir -p "$package/$(dirname "$path")"
        mv "all/$path" "$package/$path"
    done
}

# Prints the lines of THIRD-PARTY from one to another, as the text of a licence.
terms() { sed -n "/^$1/,/^$2/p" ../../THIRD-PARTY | sed 's/^$/./; s/^/ /'; } # FROM TO

# Adds the documents that each package has.
documents() { # PACKAGE
    local folder=$1/usr/share/doc/$1
    mkdir -p "$folder"
    cat > "$folder/copyright" <<END
Format: https://www.debian.org/doc/packaging-manuals/copyright-format/1.0/
Upstream-Name: plistconv
Upstream-Contact: $MAINTAINER

Files: *
Copyright: $(date -u -d "@$SOURCE_DATE_EPOCH" +%Y), $MAINTAINER
License: none-yet
 The owners have chosen no licence yet. Until they do, nobody but them has a
 right to copy, change or hand on this software.
END
    case $1 in
        plistconv | libplistconv*) cat >> "$folder/copyright" <<END

Files: ucd_*
Copyright: 1991-2023, Unicode, Inc.
License: Unicode-3.0
$(terms 'UNICODE LICENSE' 'authorization of')

Files: byteorder/* clap/* indexmap/* itoa/* simdutf8/* thiserror/*
Copyright: 2015, Andrew Gallant
 2016-2017, the authors of indexmap
 the contributors of clap, itoa, simdutf8 and thiserror
License: Expat
$(terms 'Permission is hereby granted, free of charge, to any person obtaining a copy$' 'THE SOFTWARE.$')
END
            ;;
    esac
    gzip -n9 > "$folder/changelog.gz" <<END
plistconv ($VERSION) unstable; urgency=medium

  * Property lists in their canonical form, proved; CHANGELOG.md of the
    package plistconv tells what has changed.

 -- $MAINTAINER  $(date -u -R -d "@$SOURCE_DATE_EPOCH")
END
}

pack() { # PACKAGE SECTION ARCHITECTURE DEPENDS PART CONTENT [FIELD..]: PART and CONTENT belong to the description
    local package=$1
    documents "$package"
    mkdir -p "$package/DEBIAN"
    {
        printf '%s\n' "Package: $package" 'Source: plistconv' "Version: $VERSION" "Architecture: $3" "Section: $2" \
            'Priority: optional' "Maintainer: $MAINTAINER" "Depends: $4" "${@:7}" \
            "Installed-Size: $(du -k -s --apparent-size "$package" | cut -f 1)" \
            "Description: canonical form of Apple property lists${5:+ - $5}" \
            ' Gives each Apple property list, binary or OpenStep text, the one file that all' \
            ' its spellings share, so that property lists can be compared, hashed and cached.' ' .' " $6"
    } > "$package/DEBIAN/control"
    (cd "$package" && find usr -type f -print0 | LC_ALL=C sort -z | xargs -0 md5sum > DEBIAN/md5sums)
    chmod -R u+rwX,go+rX,go-w "$package"
    dpkg-deb --root-owner-group --build "$package" "../${package}_${VERSION}_$3.deb"
}

strip --strip-unneeded --remove-section=.comment --remove-section=.note all/usr/bin/plistconv "all/$lib/libplistconv.so.1"
strip --strip-debug --remove-section=.comment --enable-deterministic-archives "all/$lib/libplistconv.a"
gzip -n9 all/usr/share/man/man1/*.1
sed -i '1s|.*|#!/usr/bin/python3|' all/usr/share/plistconv/tools/plistconv-*

take libplistconv1 "$lib/libplistconv.so.1"
take libplistconv-dev "$lib/libplistconv.so" "$lib/libplistconv.a" "$lib/pkgconfig" usr/include/plistconv.h
mkdir -p python3-plistconv/usr/lib/python3/dist-packages
packages=python3-plistconv/usr/lib/python3/dist-packages
mv all/usr/share/plistconv/python/plistconv "$packages/plistconv"
info=$packages/plistconv-$VERSION.dist-info
mkdir "$info"
PYTHONPATH=../../bindings/python python3 -Bc 'import sys, wheel_of_plistconv as wheel; sys.stdout.buffer.write(wheel.METADATA)' \
    > "$info/METADATA"
echo dpkg > "$info/INSTALLER"
mkdir python3-plistconv/DEBIAN
# Removes what Python has made of the module.
printf '%s\n' '#!/bin/sh' 'set -e' 'if command -v py3clean > /dev/null; then py3clean -p python3-plistconv; fi' \
    > python3-plistconv/DEBIAN/prerm
chmod 755 python3-plistconv/DEBIAN/prerm
rm -r all/usr/share/plistconv/python
take plistconv usr/bin usr/share
# An empty file, which is of no use among the pages.
rm plistconv/usr/share/doc/plistconv/bindings/python/plistconv/py.typed
rmdir "all/$lib" all/usr/lib all/usr/include all/usr all # fails if a file was left out

mkdir -p libplistconv1/DEBIAN
echo "libplistconv 1 libplistconv1 (>= $VERSION)" > libplistconv1/DEBIAN/shlibs
echo 'activate-noawait ldconfig' > libplistconv1/DEBIAN/triggers
{
    echo 'libplistconv.so.1 libplistconv1 #MINVER#'
    objdump -T "libplistconv1/$lib/libplistconv.so.1" | sed -n "s/.* g .* \\(plistconv_[a-z_]*\\)$/ \\1@Base $VERSION/p" | LC_ALL=C sort
} > libplistconv1/DEBIAN/symbols

# The sources of the crates as a directory registry of cargo, in which crates depend on each other by version.
for crate in plistconv plistconv-sys; do
    folder=librust-$crate-dev/usr/share/cargo/registry/$crate-$VERSION
    mkdir -p "$folder"
    cp -R ../../bindings/rust/$crate/{Cargo.toml,src} "$folder/"
    sed -i 's/^plistconv-sys = .*/plistconv-sys = "'"$VERSION"'"/; /^readme = /d' "$folder/Cargo.toml"
    [ $crate = plistconv ] || cp ../../bindings/rust/$crate/build.rs "$folder/"
    printf '{"package":null,"files":{}}\n' > "$folder/.cargo-checksum.json"
done
mkdir -p golang-plistconv-dev/usr/share/gocode/src/plistconv
cp ../../bindings/go/{plistconv.go,refused.go,go.mod} golang-plistconv-dev/usr/share/gocode/src/plistconv/

library="libplistconv-dev (>= $VERSION), pkgconf"
pack plistconv utils "$arch" "libc6 (>= $(libc plistconv/usr/bin/plistconv)), python3:any (>= 3.7)" '' \
    'With commands for git, caches and files in their places.' 'Suggests: git, libplist-utils'
pack libplistconv1 libs "$arch" "libc6 (>= $(libc "libplistconv1/$lib/libplistconv.so.1"))" library \
    'This package holds the shared library.' 'Multi-Arch: same'
pack libplistconv-dev libdevel "$arch" "libplistconv1 (= $VERSION)" development \
    'This package holds the header, the static library and a file for pkg-config.' 'Multi-Arch: same'
pack python3-plistconv python all "python3:any (>= 3.8), libplistconv1 (>= $VERSION)" 'Python module' \
    'This package holds the Python module.'
pack librust-plistconv-sys-dev rust all "$library" 'functions for Rust' \
    'This package holds the source of the crate plistconv-sys.'
pack librust-plistconv-dev rust all "librust-plistconv-sys-dev (= $VERSION)" 'Rust crate' \
    'This package holds the source of the crate plistconv.'
pack golang-plistconv-dev golang all "$library" 'Go package' 'This package holds the source of the package plistconv.'
