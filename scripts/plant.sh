#!/usr/bin/env bash
# scripts/plant.sh [NAME..]: lists wrong function bodies that contracts accept. `rt plant` tries small bodies for each
# public function, on a copy of the tree, for MINUTES (default 4) per crate; without NAME, for every crate with mutants.
# Runs as many crates in parallel as there are processors (or JOBS). Review the list: a body may be correct.
# docs/MUTATION.md has the findings. The last line counts the bodies of all crates.
set -u
cd "$(dirname "$0")/.." || exit 2
. scripts/copy.sh

names=("$@")
if [ ${#names[@]} -eq 0 ]; then
    for folder in crates/*/; do
        [ -d "$folder/must-fail" ] || [ -d "$folder/edits" ] || continue
        names+=("$(basename "$folder")")
    done
fi
copied
proved_below "${names[@]}" || exit 1

# Drops the comments within enums, which `rt plant` would copy into its bodies, where they do not compile.
export UNCOMMENTED='/^(pub(\([a-z]+\))? )?enum /{within = 1} /^}/{within = 0} !(within && /^ *\/\//)'

# Tries wrong bodies in one crate, and prints those that its contracts accept. The toolchain locks a crate and all below
# it, and some of those may be planted too, so each crate is planted in a copy of its own. All but the crate are links.
plant() {
    local own=$copy/apart/$1
    mkdir -p "$own"
    cp "$copy"/crates.txt "$copy"/HANDLES "$own/"
    cp -al "$copy/crates" "$own/"
    rm -rf "$own/crates/$1"
    cp -a "$copy/crates/$1" "$own/crates/"
    find "$own/crates/$1/src" -name '*.rt' | while read -r file; do
        awk "$UNCOMMENTED" "$file" > "$copy/$1.rt" && cp "$copy/$1.rt" "$file"
    done
    (cd "$own/crates/$1" && rt plant --minutes "${MINUTES:-4}" --jobs 1) > "$copy/$1.log" 2>&1 || {
        echo "$1: not planted"
        tail -n 5 "$copy/$1.log" | sed 's/^/    /'
        return 1
    }
    # Each line names its crate, since lines of several crates are mixed.
    sed -n -e "s/^plants crate=//p" -e "s/^\(proves\|no-ensures\)/    $1: \1/p" "$copy/$1.log"
    return 0
}
export -f plant

printf '%s\n' "${names[@]}" | xargs -P "${JOBS:-$(nproc)}" -I NAME bash -c 'plant NAME'
status=$?
echo "all: $(cat "$copy"/*.log | sed -n 's/^plants crate=//p' | tr ' ' '\n' | awk -F= '
    NF == 2 { sum[$1] += $2 }
    END { for (kind in sum) printf "%s=%d ", kind, sum[kind] }')"
exit $status
