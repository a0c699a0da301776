#!/usr/bin/env bash
# The gate: `make test`, and the same as `.ci/run`. First runs `rt ci`, which proves every crate, tries the mutants that
# must be refused, and runs the tests and the programs. `rt ci` skips what already passed on this machine. Then checks
# everything around the proofs, with the program that `rt ci` built. Each step prints a line, and its log if it fails. A
# step whose tool is missing is skipped, and counted as skipped. The last line is `N passed, M failed`, including those
# of `rt ci`; the status is 0 if M is 0.
#
# gate.sh            everything
# gate.sh --around   without `rt ci`: uses ./plistconv, libplistconv.a and libplistconv.so, or the program PLISTCONV and
#                    the folder PLISTCONV_LIBDIR
#
# SEED is the seed of the random inputs, and FUZZ for how many seconds they are tried.
set -u
cd "$(dirname "$0")/.." || exit 2
unset MAKEFLAGS MFLAGS MAKELEVEL CDPATH GIT_DIR GIT_INDEX_FILE GIT_WORK_TREE
export PYTHONDONTWRITEBYTECODE=1
passed=0 failed=0 skipped=0
rm -f out/gate.summary 2> /dev/null
fuzz=${FUZZ:-60} seed=${SEED:-$(date +%s)}
work=$(mktemp -d) || { echo '0 passed, 1 failed'; exit 1; }
trap 'kill $(jobs -p) 2> /dev/null; rm -rf "$work"' EXIT
trap 'exit 130' INT
trap 'exit 143' TERM HUP
if [ -z "${HOME:-}" ]; then
    mkdir "$work/home"
    export HOME=$work/home
fi

limited() { # SECONDS COMMAND..
    if command -v timeout > /dev/null; then
        timeout -k 10 "$@"
    else
        shift
        "$@"
    fi
}

# Succeeds if a tool is installed and runs.
works() { command -v "$1" > /dev/null && "$@" > /dev/null 2>&1; } # COMMAND WORD..

report() { # STATUS LOG SECONDS NAME: counts and reports a step that has ended
    case $1 in
        0) passed=$((passed + 1)); echo "gate: $4: passed ($3 s)" ;;
        77) echo "gate: $4: skipped" ;;
        *) failed=$((failed + 1)); echo "gate: $4: FAILED with status $1 ($3 s)"; sed 's/^/    /' "$2" ;;
    esac
    # What a step skipped because a tool is missing.
    grep -a 'skipped' "$2" | sed 's/^/    /'
    local parts
    parts=$(grep -ac 'skipped' "$2")
    [ "$1" != 77 ] || [ "$parts" -gt 0 ] || parts=1
    skipped=$((skipped + parts))
}

step() { # NAME SECONDS COMMAND..: runs one step
    local name=$1 begin=$SECONDS status=0
    limited "${@:2}" > "$work/log" 2>&1 < /dev/null || status=$?
    report $status "$work/log" $((SECONDS - begin)) "$name"
}

# Starts a step in the background; `ended NAME` waits for it.
begun() { # NAME SECONDS COMMAND..
    local name=$1
    (
        begin=$SECONDS status=0
        limited "${@:2}" > "$work/$name.log" 2>&1 < /dev/null || status=$?
        echo "$status $((SECONDS - begin))" > "$work/$name.ended"
    ) &
}
ended() { # NAME
    local status seconds
    while [ ! -e "$work/$1.ended" ]; do
        jobs -r | grep -q . || { echo '1 0' > "$work/$1.ended"; break; }
        sleep 0.2
    done
    read -r status seconds < "$work/$1.ended"
    report "$status" "$work/$1.log" "$seconds" "$1"
    return "$status"
}

needs() { # TOOL..: makes a step end as skipped if a tool is missing
    local tool
    for tool; do
        works "$tool" --version || { echo "skipped: there is no $tool"; return 77; }
    done
}

proofs() {
    local line
    "${RT:-rt}" ci 2>&1 | tee "$work/log"
    local status=${PIPESTATUS[0]}
    line=$(tail -n 1 "$work/log")
    if [[ $line =~ ^([0-9]+)\ passed,\ ([0-9]+)\ failed$ ]]; then
        passed=$((passed + BASH_REMATCH[1])) failed=$((failed + BASH_REMATCH[2]))
        [ "$status" -eq 0 ] || [ "${BASH_REMATCH[2]}" -gt 0 ] || failed=$((failed + 1))
    else
        failed=$((failed + 1))
        echo "gate: rt ci ended with status $status and no count"
    fi
}

# Builds the C library from what `rt ci` proved, which leaves the crates below as libraries but no archive.
library() { # FOLDER
    needs python3 "${CC:-cc}" ld objcopy ar || return
    mkdir "$1" || return
    python3 scripts/static_library.py "$1/libplistconv_c.a" || return
    local libc
    libc=$(dirname "$(dirname "$(realpath "$(command -v "${RT:-rt}")")")")/c/liblibc_c.a
    scripts/link-library.sh "$1/libplistconv_c.a" "$libc" "$1/libplistconv.a" &&
        scripts/link-library.sh "$1/libplistconv_c.a" "$libc" "$1/libplistconv.so"
}

fuzzed() {
    needs python3 || return
    echo "seed $seed"
    # Inputs with differences are kept in the folder fuzz-differences.
    python3 fuzz/fuzz.py "$PLISTCONV" --seconds "$fuzz" --seed "$seed"
}
export -f library needs works fuzzed
export work fuzz seed

if [ "${1:-}" = --around ]; then
    program=${PLISTCONV:-./plistconv} libraries=${PLISTCONV_LIBDIR:-.}
else
    proofs
    program=crates/plistconv/out/plistconv libraries=
fi

if [ -x "$program" ]; then
    begin=$SECONDS
    PLISTCONV=$(realpath "$program")
    export PLISTCONV
    begun fuzz $((fuzz + 600)) bash -c fuzzed
    export PLISTCONV_LIBDIR=$work/libraries
    if [ -n "$libraries" ]; then
        PLISTCONV_LIBDIR=$(realpath "$libraries")
    else
        begun library 1500 bash -c 'library "$PLISTCONV_LIBDIR"'
    fi

    step toolchain 60 scripts/toolchain.sh
    step 'stale mutants' 900 bash -c 'needs python3 && scripts/stale_mutants.py'
    step 'names in the pages' 900 bash -c 'needs python3 && python3 scripts/test_docs.py && scripts/docs.py'
    step lint 900 scripts/lint.sh
    step claims 900 bash -c 'needs python3 && python3 scripts/test_claims.py && scripts/claims.py'
    step 'out of memory' 900 bash -c 'needs python3 && python3 scripts/test_out_of_memory.py && scripts/out_of_memory.py'
    step 'rows against the second reading' 900 bash -c 'needs python3 && python3 fuzz/rows.py'
    step README 900 scripts/readme
    step tools 900 bash -c 'needs python3 && python3 tools/test_tools.py'
    step 'arguments and streams' 900 scripts/words.sh
    step explanations 900 scripts/explained.sh
    step completions 900 completions/test
    step 'long input' 900 bash -c 'needs python3 && python3 bench/limits.py "$PLISTCONV"'
    # Prints its seed, so that differences can be reproduced.
    ended fuzz
    echo "    seed $seed"
    is_built=yes
    [ -n "$libraries" ] || ended library || is_built=
    if [ "$is_built" ]; then
        step growths 900 bash -c 'needs python3 cc &&
            python3 bench/growths.py "$PLISTCONV" --short --library "$PLISTCONV_LIBDIR/libplistconv.a"'
        for part in exports c c++ python rust go; do step "examples, $part" 900 examples/test $part; done
        for part in install manual dist deb; do step "new user, $part" 900 scripts/new-user.sh $part; done
    else
        echo 'gate: growths of check, examples, packages: skipped, there is no C library'
        skipped=$((skipped + 11))
        step growths 900 bash -c 'needs python3 cc && python3 bench/growths.py "$PLISTCONV" --short'
    fi
    echo "gate: $skipped skipped; what stands around the proofs took $((SECONDS - begin)) s"
else
    failed=$((failed + 1))
    echo "gate: there is no program $program, so nothing around the proofs was tried"
fi
mkdir -p out
echo "$passed passed, $failed failed" | tee out/gate.summary 2> /dev/null
[ $failed -eq 0 ]
