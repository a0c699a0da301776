#!/usr/bin/env bash
# Does what a new user does, in a clean checkout of the last commit whose path contains a space: the commands of the
# README, the installation, the man pages, completions, commands and examples, the tar file and the Debian packages.
#
# new-user.sh [PART..]           uses ./plistconv, libplistconv.a and libplistconv.so as they were built here
# new-user.sh --build [PART..]   builds them in the checkout by `make` and `make lib`, which takes long
#
# The parts are readme, install, manual, completions, tools, examples, dist and deb; without PART all are tried.
# `make test` is left out. A part whose tool is missing is skipped with a line; if all parts are skipped, the status is
# 77. PLISTCONV and PLISTCONV_LIBDIR are other paths of what was built here.
set -euo pipefail
unset MAKEFLAGS MFLAGS MAKELEVEL CDPATH # do not share the jobs of a `make` that started this
top=$(cd "$(dirname "$0")/.." && pwd)
program=$(realpath "${PLISTCONV:-$top/plistconv}")
libraries=$(realpath "${PLISTCONV_LIBDIR:-$top}")
unset PLISTCONV PLISTCONV_LIBDIR
work=$(mktemp -d)
trap 'rm -rf "$work"' EXIT
tried=0
fail() { echo "new-user: $*" >&2; exit 1; }
step() { printf '== %s\n' "$*"; }
has() { # COMMAND PACKAGE WHAT
    command -v "$1" > /dev/null && return 0
    echo "skipped: $3 needs $1 (Debian: $2)"
    return 1
}
build=
[ "${1:-}" != --build ] || { build=yes; shift; }
parts=" ${*:-readme install manual completions tools examples dist deb} "
wants() { [[ $parts == *" $1 "* ]]; }

has git git 'a clean checkout' && has make make 'an installation' || exit 77
if ! commit=$(git -C "$top" rev-parse --short HEAD 2>&1); then
    echo "skipped: git does not read this checkout: $commit"
    exit 77
fi
step "a clean checkout of $commit"
git clone --quiet "$top" "$work/a new user/plistconv"
cd "$work/a new user/plistconv"
if [ "$build" ]; then
    step make; make
    step 'make lib'; make lib
else
    for file in "$program" "$libraries/libplistconv.a" "$libraries/libplistconv.so"; do
        [ -f "$file" ] || fail "there is no $file: run \`make\` and \`make lib\`, or give --build"
        cp -p "$file" "$(basename "$file")"
    done
fi
# Nothing is built here, so no toolchain is needed.
make() { command make --no-print-directory RT=no-toolchain "$@"; }
version=$(./plistconv --version | cut -d ' ' -f 2)

if wants readme; then
    step 'the README'
    PLISTCONV=./plistconv scripts/readme
    tried=1
fi

# Prints the broken links of pages.
broken_links() { # FOLDER
    local page link
    while IFS= read -r page; do
        while IFS= read -r link; do
            [ -e "$(dirname "$page")/$link" ] || echo "$page: $link"
        done < <(grep -o '](\([^)#:]\+\)' "$page" | cut -c3-)
    done < <(find "$1" -name '*.md')
}
no_broken_links() { # FOLDER
    local broken
    broken=$(broken_links "$1")
    [ -z "$broken" ] && [ -f "$1/README.md" ] || fail "links that name no file: $broken"
}
has_files() { # FOLDER FILE..
    local file
    for file in "${@:2}"; do [ -f "$1/$file" ] || fail "there is no $1/$file"; done
}
root=$work/a\ root prefix=/usr/a\ prefix
installed=$root$prefix
quietly() { "$@" > "$work/log" 2>&1 || { cat "$work/log" >&2; fail "$*"; }; } # COMMAND..

# Makes packages twice, which have to be the same bytes, and sets `digests`.
packages() { # TARGET END
    step "make $1"
    quietly make "$1"
    digests=$(sha256sum dist/*"$2")
    quietly make "$1"
    [ "$digests" = "$(sha256sum dist/*"$2")" ] || fail "make $1 makes other bytes at the second time"
    echo "$digests, twice"
}

if wants install || wants manual; then
    step 'make install install-lib DESTDIR=.. PREFIX=.., without the toolchain'
    mkdir "$work/a"
    quietly make install install-lib DESTDIR="$root" PREFIX="$prefix"
    (cd "$root" && find . -type f -o -type l) | LC_ALL=C sort
    [ "$("$installed/bin/plistconv" --version)" = "$(./plistconv --version)" ] || fail 'another program is installed'
fi
if wants install; then
    while read -r kilobytes jobs; do
        printf 'MemFree: 7 kB\nMemTotal:       %d kB\n' "$kilobytes" > "$work/memory"
        [ "$(scripts/jobs.sh "$work/memory")" = $((jobs < $(nproc) ? jobs : $(nproc))) ] || fail "the jobs of make for $kilobytes kB"
    done < <(printf '%s\n' '1 1' '8000000 1' '16300000 2' '24700000 4' '1000000000000 9999')
    no_broken_links "$installed/share/doc/plistconv"
    printf '{b=a;a=b;}' > "$work/a.plist"
    if has python3 python3 'the commands'; then
        # A command finds the program of its own installation.
        (cd "$work" && "$installed/bin/plistconv-digest" a.plist)
        for command in "$installed"/bin/plistconv-*; do "$command" --help > "$work/log" || fail "$command --help"; done
    fi
    grep -qx "Version: $version" "$installed/lib/pkgconfig/plistconv.pc" || fail 'the file for pkg-config is of another version'
    [ ! -x "$installed/lib/libplistconv.so.1" ] || fail 'the shared library can be run'
    if has pkg-config pkgconf 'the file for pkg-config'; then
        PKG_CONFIG_PATH=$installed/lib/pkgconfig pkg-config --define-variable=prefix="$installed" --cflags --libs plistconv
    fi
    make help > "$work/log"
    grep -q '^make install ' "$work/log" || fail 'make help'
    step 'make uninstall'
    cp -R "$root" "$work/left"
    mkdir -p "$work/left$prefix/share/doc/plistconv/mine" "$work/a"
    if has python3 python3 'what Python makes of its files'; then python3 -m compileall -q "$work/left$prefix/share/plistconv"; fi
    quietly make uninstall DESTDIR="$work/left" PREFIX="$prefix"
    [ -z "$(find "$work/left" -type f -o -type l)" ] || fail "make uninstall leaves $(find "$work/left" -type f -o -type l)"
    [ "$(find "$work/left" -name 'plistconv*' -o -name mine)" = "$(printf '%s\n' "$work/left$prefix/share/doc/plistconv"{,/mine})" ] ||
        fail "make uninstall leaves, or takes, $(find "$work/left")"
    [ -d "$work/a" ] && [ -z "$(ls -A "$work/a")" ] || fail 'make install or uninstall changed a folder beside'
    tried=1
fi

if wants manual; then
    step 'the man pages'
    for page in "$installed"/share/man/man1/plistconv{,-tools}.1; do
        grep -q "\"plistconv $version\"" "$page" || fail "$page is of another version"
        if has man man-db 'man --warnings'; then
            LC_ALL=C.UTF-8 MANROFFSEQ='' MANWIDTH=80 man --warnings -l "$page" 2> "$work/warnings" > "$work/log"
            sed -n 3,4p "$work/log"
            [ ! -s "$work/warnings" ] || { cat "$work/warnings" >&2; exit 1; }
            tried=1
        fi
        if has mandoc mandoc 'mandoc -Tlint'; then
            mandoc -Tlint -W warning "$page"
            tried=1
        fi
    done
fi

if wants completions; then step completions; completions/test; tried=1; fi
if wants tools && has python3 python3 tools; then step tools; PLISTCONV=./plistconv python3 -B tools/test_tools.py; tried=1; fi
if wants examples; then step examples; examples/test && tried=1 || [ $? = 77 ]; fi

if wants dist && has objdump binutils 'the tar file'; then
    packages dist .tar.gz
    (cd dist && sha256sum --quiet -c ./*.tar.gz.sha256)
    # If git cannot tell the commit, no tar file is made unless the values from the commit are given.
    mkdir "$work/bin"
    printf '#!/bin/sh\necho "git: dubious ownership" >&2\nexit 128\n' > "$work/bin/git"
    chmod +x "$work/bin/git"
    epoch=$(git log -1 --format=%ct) maintainer=$(git log -1 --format='%an <%ae>')
    if (unset SOURCE_DATE_EPOCH MAINTAINER; PATH="$work/bin:$PATH" make dist) > "$work/log" 2>&1; then
        fail 'a tar file is made though git does not tell the commit'
    fi
    grep -q 'set SOURCE_DATE_EPOCH' "$work/log" || fail "make dist says $(cat "$work/log")"
    PATH="$work/bin:$PATH" SOURCE_DATE_EPOCH=$epoch MAINTAINER=$maintainer quietly make dist
    [ "$digests" = "$(sha256sum dist/*.tar.gz)" ] || fail 'the tar file is another without git'
    mkdir "$work/unpacked" && tar -C "$work/unpacked" --strip-components=1 -xzf dist/*.tar.gz
    (cd "$work/unpacked" && sha256sum --quiet -c SHA256SUMS && bin/plistconv --version)
    no_broken_links "$work/unpacked/share/doc/plistconv"
    has_files "$work/unpacked" INSTALL bin/plistconv-digest share/plistconv/python/pyproject.toml \
        share/doc/plistconv/{README.md,SECURITY.md,THIRD-PARTY,docs/FORMATS.md,examples/c/canonical.c} share/man/man1/plistconv-tools.1
    grep -q LD_LIBRARY_PATH "$work/unpacked/INSTALL" || fail 'the tar file does not say how its library is found'
    moved=$work/moved\ here/unpacked
    mkdir "$work/moved here" && mv "$work/unpacked" "$moved"
    if has python3 python3 'the commands'; then printf '{a=b;}' | "$moved/bin/plistconv-digest" -; fi
    if has pkg-config pkgconf 'the file for pkg-config of the tar file'; then
        flags=()
        eval "flags=($(PKG_CONFIG_PATH="$moved/lib/pkgconfig" pkg-config --cflags --libs plistconv))"
        [ -f "${flags[0]#-I}/plistconv.h" ] && [ -f "${flags[1]#-L}/libplistconv.so" ] || fail "pkg-config prints ${flags[*]}"
    fi
    # The commands of INSTALL, without ldconfig, for another folder than /usr/local.
    commands=$(sed -n "s/ && ldconfig\$//; s|/usr/local|'$work/local'|; s/^    \(sha256sum\|find\)/\1/p" "$moved/INSTALL")
    mkdir "$work/local"
    (cd "$moved" && eval "$(head -n 1 <<< "$commands")")
    "$work/local/bin/plistconv" --version
    if has python3 python3 'what Python makes of its files'; then python3 -m compileall -q "$work/local/share/plistconv/python"; fi
    # In another folder they do nothing.
    (cd "$work/local" && eval "$(head -n 2 <<< "$commands" | tail -n 1)") > "$work/log" 2>&1 && fail 'INSTALL removes files in any folder'
    "$work/local/bin/plistconv" --version
    (cd "$moved" && eval "$(tail -n +2 <<< "$commands")")
    left=$(find "$work/local" ! -type d -o -name 'plistconv*')
    [ -z "$left" ] || fail "INSTALL's commands leave $left"
    tried=1
fi

if wants deb && has dpkg-deb dpkg 'the Debian packages' && has objdump binutils 'the Debian packages' &&
    has strip binutils 'the Debian packages'; then
    packages deb .deb
    mkdir "$work/deb"
    for package in dist/*.deb; do
        dpkg-deb --info "$package" | sed -n '/Package:/,$p'
        [ "$(dpkg-deb --field "$package" Version)" = "$version" ] || fail "$package is of another version"
        dpkg-deb -x "$package" "$work/deb"
    done
    "$work/deb/usr/bin/plistconv" --version
    no_broken_links "$work/deb/usr/share/doc/plistconv"
    has_files "$work/deb/usr" bin/plistconv-digest share/man/man1/plistconv-{tools,digest}.1.gz \
        share/doc/plistconv/{README.md,SECURITY.md,CHANGELOG.md,THIRD-PARTY,docs/FORMATS.md,examples/c/canonical.c} \
        lib/python3/dist-packages/plistconv/py.typed
    dpkg-deb --info dist/python3-plistconv_*.deb prerm | grep -q 'py3clean -p python3-plistconv' || fail 'Python files stay'
    for package in plistconv libplistconv1 libplistconv-dev; do
        grep -q 'Unicode, Inc' "$work/deb/usr/share/doc/$package/copyright" || fail "$package has no notice of Unicode's"
    done
    if has python3 python3 'the Python module of the packages'; then
        PLISTCONV_LIBRARY=$(echo "$work"/deb/usr/lib/*/libplistconv.so.1) PYTHONPATH=$work/deb/usr/lib/python3/dist-packages \
            python3 -Bc 'import plistconv, importlib.metadata as about
assert about.version("plistconv") == plistconv.library_version()
print(plistconv.library_version())'
    fi
    [ ! -x /usr/bin/python3 ] || printf '{a=b;}' | "$work/deb/usr/bin/plistconv-digest" -
    [ "$(dpkg-deb --ctrl-tarfile dist/libplistconv1_*.deb | tar -xO ./symbols | grep -c '^ plistconv_[a-z]*@Base ')" = \
        "$(grep -c '^uint[0-9]*_t plistconv_' include/plistconv.h)" ] || fail 'the symbols of the library are not those of the header'
    # A program that uses the sources and the library of the packages.
    library=$(dirname "$work"/deb/usr/lib/*/libplistconv.so)
    if has cargo cargo 'the Rust crates of the packages'; then
        mkdir -p "$work/rust/src" "$work/rust/.cargo"
        printf '[package]\nname = "one"\nversion = "0.1.0"\nedition = "2021"\n[dependencies]\nplistconv = "%s"\n' "$version" \
            > "$work/rust/Cargo.toml"
        printf 'fn main() { print!("{}", plistconv::to_openstep(b"{a=b;}").unwrap()) }\n' > "$work/rust/src/main.rs"
        printf '[source.crates-io]\nreplace-with = "packages"\n[source.packages]\ndirectory = "%s"\n' \
            "$work/deb/usr/share/cargo/registry" > "$work/rust/.cargo/config.toml"
        (cd "$work/rust" && PLISTCONV_LIBDIR=$library PLISTCONV_STATIC=1 CARGO_TARGET_DIR=$work/rust/target \
            cargo run --quiet --offline) | grep -q '^a = b;$' || fail 'the Rust crates of the packages'
    fi
    if has go golang-go 'the Go package of the packages'; then
        mkdir "$work/go"
        printf 'module one\n\ngo 1.19\n\nrequire plistconv v0.0.0\n\nreplace plistconv => %s\n' \
            "$work/deb/usr/share/gocode/src/plistconv" > "$work/go/go.mod"
        printf 'package main\n\nimport (\n\t"fmt"\n\t"plistconv"\n)\n\nfunc main() { text, _ := plistconv.OpenStep([]byte("{a=b;}")); fmt.Print(text) }\n' \
            > "$work/go/main.go"
        (cd "$work/go" && PKG_CONFIG_SYSROOT_DIR=$work/deb PKG_CONFIG_PATH=$library/pkgconfig CGO_ENABLED=1 GOFLAGS=-mod=mod \
            GOPROXY=off GOTOOLCHAIN=local GOCACHE=$work/gocache GOPATH=$work/gopath LD_LIBRARY_PATH=$library go run .) |
            grep -q '^a = b;$' || fail 'the Go package of the packages'
    fi
    if has lintian lintian 'what lintian says'; then lintian --allow-root --fail-on error,warning dist/*.deb; fi
    tried=1
fi
[ "$(ls -A "$work/a new user")" = plistconv ] || fail 'something is written outside of the checkout'
[ $tried = 1 ] || exit 77
echo 'new user: all as expected'
