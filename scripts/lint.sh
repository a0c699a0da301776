#!/usr/bin/env bash
# scripts/lint.sh: checks the layout of Python with black, its names with pyflakes and its types with mypy, shell scripts
# with shellcheck, that the commands in tools/ are Python 3.7, and that code, contracts and definitions have at most 100
# columns. A tool that is missing is skipped with a line.
set -u
cd "$(dirname "$0")/.." || exit 2
failed=0
work=$(mktemp -d) || exit 2
trap 'rm -rf "$work"' EXIT

has() { # TOOL PACKAGE
    command -v "$1" > /dev/null && "$1" --version > /dev/null 2>&1 && return
    echo "lint: $1 skipped (Debian: $2)"
    return 1
}
passes() { "$@" || { echo "lint: $1 fails" && failed=1; }; } # COMMAND..
typed() { # FILE..
    MYPYPATH=bench:bindings/python:fuzz:scripts:tools passes mypy --ignore-missing-imports --scripts-are-modules \
        --no-error-summary --cache-dir "$work" "$@"
}

# Files are of a kind by their names or their first lines.
python=() shell=() commands=()
while IFS= read -r -d '' file; do
    first=
    { IFS= read -r first < "$file"; } 2> /dev/null
    case $file:$first in
        *.py:* | *:'#!'*python3) python+=("$file") ;;
        *.sh:* | *.bash:* | *:'#!'*sh) shell+=("$file") ;;
    esac
    case $file:$first in tools/*.py:* | tools/*:'#!'*python3) commands+=("$file") ;; esac
done < <(find .ci bench bindings completions examples fuzz scripts tools -name target -prune -o -type f -print0)

if has black black; then
    # Each year's black has another layout; pyproject.toml says whose is meant.
    if black --version | grep -q '^black, 23\.'; then
        passes black --quiet --check --diff --config pyproject.toml "${python[@]}"
    else
        echo 'lint: black skipped, it is not one of 2023'
    fi
fi
if has pyflakes3 pyflakes3; then passes pyflakes3 "${python[@]}"; fi
if has mypy mypy; then
    # There is another module of this name, fuzz/rows.py.
    typed bindings/rows.py
    mapfile -t others < <(printf '%s\n' "${python[@]}" | grep -vx bindings/rows.py)
    typed "${others[@]}"
fi
if has python3 python3; then
    passes python3 -c 'import ast, pathlib, sys
for path in sys.argv[1:]:
    ast.parse(pathlib.Path(path).read_bytes(), path, feature_version=(3, 7))' "${commands[@]}"
fi
if has shellcheck shellcheck; then passes shellcheck "${shell[@]}"; fi

# Imports in src/ may be wider, as `rt fmt` lays them out. Proofs may be too: nobody has to read them.
wide() { LC_ALL=C.UTF-8 grep -rnE "--include=$1" '^.{101}' crates/*/"$2"; } # PATTERN FOLDER
if { wide '*.rt' src | grep -vE '^[^:]*:[0-9]+: *((pub|ghost) )?use '; } || wide '*.antt' specs; then
    echo 'lint: lines have more than 100 columns' && failed=1
fi
echo "lint: ${#python[@]} files in Python, ${#shell[@]} in shell"
exit $failed
