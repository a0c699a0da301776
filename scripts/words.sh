#!/usr/bin/env bash
# Tests arguments that the tests of the crates cannot pass: PLISTCONV=./plistconv scripts/words.sh
# - One that is not UTF-8 ends with status 3 and one line that names it, and changes no file. Files with such names can be
#   standard input or output.
# - With many paths there is a line for each, and the status of the last.
# - Empty arguments, and paths that begin or end with a blank, are taken as they are.
# - Standard input is left to who gave it, but for a path that names it, which is read once.
set -eu
PLISTCONV=$(realpath "${PLISTCONV:-plistconv}")
work=$(mktemp -d) && trap 'rm -rf "$work"' EXIT
cd "$work"
printf '{b=a;a=b;}' > plain.plist
printf '{a=b;a=c;}' > twice.plist

for count in 44 4999; do
    mapfile -t paths < <(yes plain.plist | head -n $count)
    status=0
    "$PLISTCONV" lint "${paths[@]}" twice.plist > lines || status=$?
    [ "$status" = 2 ] || { echo "status $status in place of 2: $count paths and one" >&2; exit 1; }
    { yes 'plain.plist: OK' | head -n $count; echo 'twice.plist: refused 14 DuplicateKey at octet 5'; } | diff - lines
done

answers() { # STATUS PRINTED WORD..: PRINTED may end in *
    status=0
    printed=$("$PLISTCONV" "${@:3}") || status=$?
    [ "$status" = "$1" ] || { echo "status $status in place of $1: ${*:3}" >&2; exit 1; }
    # shellcheck disable=SC2053 # (it is a pattern)
    [[ $printed == $2 ]] || { echo "printed '$printed' in place of '$2': ${*:3}" >&2; exit 1; }
}
printf '(a' > ' x' && printf '(b, c' > 'x ' && printf '{' > x && printf '{}' > y
answers 2 ' x: refused 30 Expected at octet 2' lint ' x'
answers 2 'x : refused 30 Expected at octet 5' lint 'x '
answers 2 'x: refused 30 Expected at octet 1' print x
answers 4 'y : refused 50 ReadFailed' lint 'y '
answers 4 ' y: refused 50 ReadFailed' same ' y' y
answers 0 '' convert openstep y 'z '
answers 0 'z : OK' lint 'z '
answers 4 ': refused 50 ReadFailed'$'\n''y: OK' lint '' y
answers 4 'y: OK'$'\n'': refused 50 ReadFailed'$'\n''y: OK' lint y '' y
answers 4 ': refused 50 ReadFailed' check ''
answers 4 ': refused 50 ReadFailed' print ''
answers 4 ': refused 50 ReadFailed' same '' y
answers 4 ': refused 50 ReadFailed' same y ''
answers 4 ': refused 50 ReadFailed' convert binary1 '' new
answers 4 ': refused 51 WriteFailed after 0 octets' convert binary1 y ''
answers 3 'error: *' convert '' y new
answers 3 'error: *' explain ''
answers 3 'error: *' ''
answers 3 'error: *' '' lint y
[ ! -e new ] && [ ! -e z ] || { echo 'a file was made' >&2; exit 1; }
for command in lint check print 'same plain.plist' 'convert binary1 plain.plist' explain --version; do
    left=$(printf 'a\nb\nc\n' | while read -r path; do
        cp plain.plist "$path"
        # shellcheck disable=SC2086 # (it has several words)
        "$PLISTCONV" $command "$path" > log || true
        echo
    done | wc -l)
    [ "$left" = 3 ] || { echo "a loop does $left lines of 3: $command" >&2; exit 1; }
done
printed=$(printf '{a=b;a=c;}' | "$PLISTCONV" lint /dev/stdin) || true
[ "$printed" = '/dev/stdin: refused 14 DuplicateKey at octet 5' ] || { echo "printed '$printed' of a pipe" >&2; exit 1; }

named=$(printf 'caf\351.plist')
cp plain.plist "$named" || { echo 'words: skipped, no file here has such a name'; exit 77; }

refused() { # LINE WORD..
    status=0
    printed=$("$PLISTCONV" "${@:2}") || status=$?
    [ "$status" = 3 ] || { echo "status $status in place of 3: ${*:2}" >&2; exit 1; }
    [ "$printed" = "error: $1" ] || { echo "printed '$printed': ${*:2}" >&2; exit 1; }
}
told='is not UTF-8: caf\xe9.plist'
refused "argument 1 $told" "$named"
refused "argument 2 $told" lint "$named"
refused "argument 2 $told" check "$named"
refused "argument 3 $told" lint plain.plist "$named"
refused "argument 2 $told" check "$named" plain.plist
refused "argument 3 $told" same plain.plist "$named"
refused "argument 2 $told" same "$named" plain.plist
refused "argument 3 $told" convert binary1 "$named" made
refused "argument 4 $told" convert binary1 plain.plist "$named"
refused "argument 3 $told" convert openstep "$named" "$named"
refused 'argument 1 is not UTF-8: l\xednt' "$(printf 'l\355nt')" plain.plist
refused 'argument 2 is not UTF-8: \x1b[2J\n\\\xff' lint "$(printf '\033[2J\n\\\377')"
long=$(printf 'x%.0s' $(seq 5000))
refused "argument 3 $told" lint plain.plist "$named" "$long"
mapfile -t paths < <(yes plain.plist | head -n 50)
refused "argument 52 $told" lint "${paths[@]}" "$named"
refused 'an argument is not UTF-8' lint "$long" "$named"
cmp plain.plist "$named"
[ ! -e made ] || { echo "a file was made" >&2; exit 1; }

"$PLISTCONV" < "$named" > made
"$PLISTCONV" check made > /dev/null
"$PLISTCONV" same made plain.plist > /dev/null
echo "words: all as expected"
