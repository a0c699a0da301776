#!/usr/bin/env bash
# Compares whole texts with those stored beside this script, which were read against docs/FORMATS.md: each explanation of
# `plistconv explain` (explained.txt), asked for by number, by name and by its line in the list, and the help of each
# command (help.txt). The contract of the list names the tables that it is printed from; of texts no contract speaks.
#
# PLISTCONV=./plistconv scripts/explained.sh [--store]   (--store stores what is printed)
#
# A stored text is a line, with ¶ for each line end: a change of it is to be read again.
set -eu
PLISTCONV=$(realpath "${PLISTCONV:-plistconv}")
cd "$(dirname "$0")"
work=$(mktemp -d) && trap 'rm -rf "$work"' EXIT

# Prints the output of these arguments as a line.
line() {
    local text
    text=$("$PLISTCONV" "$@") || { echo "'plistconv $*' ends with status $?" >&2; exit 1; }
    printf '%s\n' "${text//$'\n'/¶}"
}
explained() { # number, name or line: how each explanation is asked for
    local listed first second
    "$PLISTCONV" explain | while IFS= read -r listed; do
        # A rule has only a name.
        read -r first second _ <<< "${listed%%:*} ${listed%%:*}"
        case $1 in
            number) line explain "$first" ;;
            name) line explain "$second" ;;
            line) line explain "$listed" ;;
        esac
    done
}
helps() {
    line --help
    for command in convert same lint check print explain; do line "$command" --help; done
}

explained number > "$work/explained.txt"
helps > "$work/help.txt"
if [ "${1:-}" = --store ]; then cp "$work"/*.txt .; fi
failed=
for file in explained.txt help.txt; do
    diff "$file" "$work/$file" || { echo "what plistconv prints differs from $file" >&2; failed=1; }
done
for way in name line; do
    explained $way | diff explained.txt - || { echo "explanations by $way differ from explained.txt" >&2; failed=1; }
done
"$PLISTCONV" explain | diff <(sed 's/¶.*//' explained.txt) - || { echo "the list differs from explained.txt" >&2; failed=1; }
[ ! "$failed" ] || exit 1
echo 'explained: all as expected'
