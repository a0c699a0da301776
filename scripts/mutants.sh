#!/usr/bin/env bash
# scripts/mutants.sh [NAME..]: tries the mutants crates/NAME/edits/*.edit, which the gate leaves out, on a copy of the
# tree: the prover must refuse each one. Without NAME, tries those of every crate that has some. Runs as many crates in
# parallel as there are processors (or JOBS). Prints one line per crate, and fails if a mutant is not refused or no
# longer applies. scripts/stale_mutants.py finds the latter within a second, also among the mutants of the gate.
set -u
cd "$(dirname "$0")/.." || exit 2
. scripts/copy.sh
scripts/stale_mutants.py "$@" || exit 1

names=("$@")
if [ ${#names[@]} -eq 0 ]; then
    for folder in crates/*/edits; do
        [ -d "$folder" ] && names+=("$(basename "$(dirname "$folder")")")
    done
fi
for name in "${names[@]}"; do
    if ! compgen -G "crates/$name/edits/*.edit" > /dev/null; then
        echo "mutants: $name has none in crates/$name/edits" >&2
        exit 2
    fi
done

copied
for name in "${names[@]}"; do
    rm -rf "$copy/crates/$name/must-fail"
    mv "$copy/crates/$name/edits" "$copy/crates/$name/must-fail"
done

proved_below "${names[@]}" || exit 1

# Tries the mutants of one crate, and prints how many were refused and the messages about the others.
try() {
    local wanted refused
    wanted=$(find "$copy/crates/$1/must-fail" -name '*.edit' | wc -l)
    (cd "$copy" && rt must-fail "$1") > "$copy/$1.log" 2>&1
    refused=$(grep -c ': refused, as it must be' "$copy/$1.log")
    echo "$1: $refused of $wanted mutants refused"
    # A mutant that removes a name is refused because of that, and not because of its meaning.
    sed -n 's/^rt: must-fail \([^:]*\): refused.*only because a proof file names.*/    \1 takes away what a proof names/p' \
        "$copy/$1.log"
    [ "$refused" -eq "$wanted" ] && return 0
    grep -v ': refused, as it must be' "$copy/$1.log" | sed 's/^/    /'
    return 1
}
export -f try

printf '%s\n' "${names[@]}" | xargs -P "${JOBS:-$(nproc)}" -I NAME bash -c 'try NAME'
