#!/usr/bin/env bash
# scripts/prove.sh NAME: proves the crate and builds its library, in a copy of the crate and of those that it uses. So
# several crates can be proved in parallel, although the toolchain locks the folders of a crate and of all below it. The
# crates below have to be proved and built already. The result is moved to crates/NAME/out.
set -eu
cd "$(dirname "$0")/.."
name=$1
copy=out/prove/$name
if [ -d "$copy/crates/$name/out" ]; then # continues an interrupted run
    rm -rf "crates/$name/out"
    mv "$copy/crates/$name/out" "crates/$name/out"
fi
rm -rf "$copy"
mkdir -p "$copy/crates"
cp HANDLES "$copy/"

# Prints the crates of this repository that a crate uses, directly or not.
below() {
    local uses lower
    read -ra uses < <(sed -n "s/^$1\( [^:]*\)\{0,1\}://p" crates.txt)
    for lower in "${uses[@]}"; do
        if [ -d "crates/$lower" ]; then
            echo "$lower"
            below "$lower"
        fi
    done
}
for lower in "$name" $(below "$name" | sort -u); do
    grep "^${lower}[ :]" crates.txt >> "$copy/crates.txt"
    cp -al "crates/$lower" "$copy/crates/$lower"
done
# The toolchain writes only for this crate, whose files must therefore not be hard links.
rm -rf "$copy/crates/$name/out"
[ -d "crates/$name/out" ] && cp -a "crates/$name/out" "$copy/crates/$name/out"

(cd "$copy/crates/$name" && "${RT:-rt}" lib --jobs 2)
rm -rf "crates/$name/out"
mv "$copy/crates/$name/out" "crates/$name/out"
rm -rf "$copy"
