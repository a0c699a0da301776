#!/usr/bin/env bash
# scripts/toolchain.sh: checks that the toolchain, `rt` or RT, is not older than the one in README.md, the oldest that is
# known to prove this repository. Without a toolchain it is skipped (status 77).
set -euo pipefail
cd "$(dirname "$0")/.."
is_older() { # KIT KIT, such as rattle-kit-9c and rattle-kit-13f
    [ "$1" != "$2" ] && [ "$(printf '%s\n' "$1" "$2" | LC_ALL=C sort -V | head -n 1)" = "$1" ]
}
for pair in 13b:13f 13:13f 9z:13f 13f:14 13f:13g 13z:14a; do
    old=rattle-kit-${pair%:*} new=rattle-kit-${pair#*:}
    if ! is_older "$old" "$new" || is_older "$new" "$old" || is_older "$old" "$old"; then
        echo "toolchain: $pair is compared wrongly" >&2
        exit 1
    fi
done

least=$(grep -o -m 1 'rattle-kit-[0-9]*[a-z]*' README.md | head -n 1)
command -v "${RT:-rt}" > /dev/null || { echo 'toolchain: skipped, there is none'; exit 77; }
version=$("${RT:-rt}" version | head -n 1 | cut -d ' ' -f 1)
[[ $version =~ ^rattle-kit-[0-9]+[a-z]*$ ]] || { echo "toolchain: \`rt version\` prints $version" >&2; exit 1; }
if is_older "$version" "$least"; then
    echo "toolchain: $version is older than $least, which README.md asks for" >&2
    exit 1
fi
echo "toolchain: $version, at least $least"
