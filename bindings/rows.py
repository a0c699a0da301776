#!/usr/bin/env python3
"""Checks bindings/rows.txt, the inputs and answers that the test of each binding reads.

    bindings/rows.py [--print]

The answers come from fuzz/oracle.py, a second implementation of docs/FORMATS.md, never from
the library. The exit status is 1 if rows.txt differs from them. With --print, prints what
rows.txt should contain.
"""
import re
import sys
from pathlib import Path

HERE = Path(__file__).resolve().parent
sys.dont_write_bytecode = True
sys.path.insert(0, str(HERE.parent / "fuzz"))

import oracle  # noqa: E402
import rows  # noqa: E402

HEAD = """\
# Inputs and the answer of each call, for the tests of all bindings; written by
# bindings/rows.py --print.
#
#     NAME INPUT CANONICAL TEXT PRINT CHECK
#
# Input and output are in hexadecimal; `-` is an empty input. A refusal is NUMBER/UNIT/PLACE, and
# its unit is none, object or octet. The answer of a check is `canonical`, a broken rule and its
# object (`C5/0`), or a refusal.
"""

# Rows of crates/rows/stdin: scalars, containers, texts, and each refusal that a
# short input can have.
NAMES = """
whole-5 whole-5-in-eight-octets whole-minus-7 whole-2-to-the-63 flag-true real4 real8 moment data-of-four text-a
text-a-in-two-octets surrogate-d800 string-empty string-line-ends string-e-acute string-smile
table-empty list-empty keys-in-order keys-not-in-order list-twice shared-at-two-depths rule-1-top rule-2
rule-3-gap-between rule-6 rule-7-left-over
bplist bplist10 no-objects place-in-the-header no-such-object cut marker-70 null uid set not-ascii wide key-is-a-flag
key-twice cycle-of-one
text-braces text-empty text-comment text-mark-of-utf-8 text-table text-list text-escapes text-data-empty text-key-alone
text-smile text-rows text-big-endian text-of-a-project
refused-no-utf-8 refused-xml refused-at-sign refused-open-string refused-open-comment refused-bad-escape
refused-octal-range refused-odd-data refused-comma-in-data refused-no-comma refused-two-words refused-low-alone
refused-key-twice
""".split()


def inputs():
    """Yields the name and the input of each row."""
    held = {}
    for line in rows.lines("stdin"):
        if line and not line.startswith("#"):
            name, _, form = line.split(" ", 2)
            held[name] = form
    for name in NAMES:
        yield name, rows.octets_of(held[name])
    yield "refused-too-deep", b"(" * 513 + b")" * 513


def refusal(fault):
    unit, place = fault.place or ("none", 0)
    return f"{fault.code}/{unit}/{place}"


def answer(call, octets):
    try:
        output = call(octets)
    except oracle.Refused as fault:
        return refusal(fault)
    return (output if isinstance(output, bytes) else output.encode()).hex()


def verdict(octets):
    try:
        said = rows.overlapping(octets) or oracle.check(octets)
    except oracle.Refused as fault:
        return refusal(fault)
    broken = re.fullmatch(r"broken (C\d) at object (\d+)", said)
    return f"{broken[1]}/{broken[2]}" if broken else said


def of_value(write):
    return lambda octets: write(oracle.read_any(octets))


def text():
    """Returns what rows.txt should contain."""
    lines = []
    for name, octets in inputs():
        answers = [
            answer(of_value(write), octets)
            for write in (oracle.canonical, oracle.openstep, oracle.printed)
        ]
        lines.append(" ".join([name, octets.hex() or "-", *answers, verdict(octets)]) + "\n")
    return HEAD + "".join(lines)


def main():
    wanted = text()
    if sys.argv[1:] == ["--print"]:
        print(wanted, end="")
        return 0
    told = (HERE / "rows.txt").read_text(encoding="ascii")
    for ours, theirs in zip(told.splitlines(), wanted.splitlines()):
        if ours != theirs:
            print(f"rows.txt: {ours}\noracle:   {theirs}")
    if told != wanted:
        print("bindings/rows.txt is not what bindings/rows.py --print says")
    return int(told != wanted)


if __name__ == "__main__":
    sys.exit(main())
