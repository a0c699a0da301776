#!/usr/bin/env python3
"""scripts/out_of_memory.py [TREE]: prints the lines of code that make the refusal 60 by
hand, or ask for memory of a size, within a second.

No contract can say that memory was refused, so 60 has to come from the library's `AllocError`
through `?`. A line makes it by hand if its code has one of the names in NAMES: outside of comments,
clauses, types, declarations and `use` lines, and not only in the pattern of an arm of a `match`. An
arm may give 60 if each of its patterns is 60. Another name for one of them is such a line too, and
so are calls of `to_u32`, which fails for large numbers, what sets `needs_memory` or hands it on,
and a `DeviceFault` in a file that the list has for one: a sink in memory, whose failure is 60. A line
that asks for memory of a size (SIZES: `reserve`, `with_capacity`, `resize` and the like) makes 60
too, if the size is one that cannot be had.

Each such line has to be in scripts/out_of_memory.txt, with the reason that it may. A line of that
list is `FILE | FUNCTION | REASON | CODE`, in which FUNCTION begins with the type or impl that it is
in, or is `-` outside of functions, and CODE with the head of the `if` that it is in, if any. Fails
if a line is not in the list, or if a line of the list is not in the code. Tests are passed over.
"""
from __future__ import annotations

import re
import sys
from collections import Counter
from pathlib import Path

from claims import TESTS

TOP = Path(__file__).resolve().parent.parent
LIST = "scripts/out_of_memory.txt"
NAMES = re.compile(
    r"\b(?:OutOfMemory|NoMemory|AllocError|AllocFailed|(?<!fn )(?:print_no_memory|to_u32))\b"
    r"|\bneeds_memory\b(?!: bool)|\b(?:60|0x3[cC])(?:_?u8)?\b(?!\s*(?:\||=>))"
)
SIZES = re.compile(
    r"\b(?<!fn )(?:(?:try_)?reserve(?:_exact)?|with_capacity\w*|resize(?:_with)?|repeat|zeroed"
    r"|extend_from_within|extend_with|from_elem)\("
    r"|\bvec!\[in [^;\]]*;[^;\]]*;"
)
FAULT = re.compile(r"\bDeviceFault\b")
PATTERN = re.compile(r"\b(?:OutOfMemory|NoMemory|AllocError)\b|^60$")
STRING = re.compile(r"""b?"(?:[^"\\]|\\.)*"|b?'(?:[^'\\\n]|\\[^\n]+?)'""", re.DOTALL)
# A string or a character, a comment, a clause up to its brace, or a `use` line.
TOKEN = re.compile(
    rf"""
    (?P<string> {STRING.pattern} )
  | (?P<comment> //[^\n]* )
  | (?P<clause> \b(?:requires|ensures)\*?(?:\s+\w+)?\s*(?=\{{) | \bghost\s+\w+\s*[:=]\s*(?=\{{) )
  | (?P<use> \b(?:pub\s+)?(?:ghost\s+)?use\s[^;]*; )
""",
    re.VERBOSE | re.DOTALL,
)
TYPE = re.compile(
    r"(?:(?<=, )|(?<=<)|(?<=: )|(?<=-> ))(?:DeviceFault|Alloc(?:Error|Failed<\w+>))(?=\s*(?:[>,;){]|$))"
)
SCOPE = re.compile(
    r"\bfn\s+(?P<fn>\w+)|\bimpl\b(?P<impl>[^;{]*)|\btrait\s+(?P<trait>\w+)"
    r"|\b(?:enum|struct)\s+(?P<type>\w+)|(?P<brace>[{};])"
)


def blank(text):
    """Returns as many lines, with nothing on them."""
    return "\n" * text.count("\n")


def closed(text, start):
    """Returns the position after the brace that closes the one at `start`."""
    depth = 0
    for at in range(start, len(text)):
        depth += {"{": 1, "}": -1}.get(text[at], 0)
        if depth == 0:
            return at + 1
    return len(text)


def code_of(text):
    """Returns the code without comments, clauses and `use` lines. Line breaks stay."""
    done, at = [], 0
    while True:
        found = TOKEN.search(text, at)
        if not found:
            break
        done.append(text[at : found.start()])
        at = found.end()
        if found["string"]:
            done.append(found[0])
        elif found["clause"]:
            at = closed(text, at)
            done.append(blank(text[found.start() : at]))
        elif re.search(
            r"\b(?:AllocError|AllocFailed|OutOfMemory|NoMemory|to_u32)\s+as\b", found[0]
        ):
            done.append(found[0])
        else:
            done.append(blank(found[0]))
    return "".join(done) + text[at:]


def functions(code):
    """Returns for each line of the code the function that it begins in, or `None` in a
    type's declaration."""
    places, scopes, next_scope, seen = [], [], "", 0
    marks = list(SCOPE.finditer(STRING.sub(lambda string: re.sub(r"[^\n]", "_", string[0]), code)))
    for start in (at.start() for at in re.finditer(r"^", code, re.MULTILINE)):
        while seen < len(marks) and marks[seen].start() < start:
            mark = marks[seen]
            seen += 1
            if mark["fn"] or mark["trait"]:
                next_scope = mark["fn"] or mark["trait"]
            elif mark["impl"] is not None:
                next_scope = re.sub(r"^<[^>]*(?:<[^>]*>[^>]*)*>", "", mark["impl"].strip()).strip()
            elif mark["type"]:
                next_scope = None
            elif mark["brace"] == "{":
                scopes.append(next_scope)
                next_scope = ""
            elif mark["brace"] == "}":
                scopes.pop()
            else:
                next_scope = ""
        places.append(
            None if None in scopes else ": ".join(scope for scope in scopes if scope) or "-"
        )
    return places


def is_made(line):
    """Returns whether the line makes 60, and does not only give on what its pattern has."""
    if line.count("=>") != 1:
        return bool(NAMES.search(line))
    pattern, arrow, given = line.partition("=>")
    if not NAMES.search(arrow + given):
        return False
    alternatives = pattern.partition(" if ")[0].split(" | ")
    return not all(PATTERN.search(one.strip()) for one in alternatives)


def condition(lines, at):
    """Returns the head of the `if` that the line is directly in, or an empty text."""
    indent, head = len(lines[at]) - len(lines[at].lstrip()), ""
    for line in reversed(lines[:at]):
        if line.strip() and len(line) - len(line.lstrip()) < indent or head:
            head = f"{line.strip()} {head}"
            if line.strip() != "{" and not line.lstrip().startswith(("&&", "||")):
                break
    return head if re.match(r"(\} else )?if ", head) else ""


def made(tree, sinks):
    """Yields file, function and code of each line that makes 60 by hand, and its number. `sinks`
    are the files of sinks in memory."""
    for path in sorted(tree.glob("crates/*/src/**/*.rt")):
        name = path.relative_to(tree)
        if name.parts[1] in TESTS:
            continue
        code = code_of(path.read_text(encoding="utf-8"))
        lines = code.split("\n")
        for at, (line, function) in enumerate(zip(lines, functions(code))):
            bare = TYPE.sub("_", line)
            is_fault = str(name) in sinks and FAULT.search(bare)
            if function is not None and (is_fault or is_made(bare) or SIZES.search(bare)):
                yield (str(name), function, condition(lines, at) + line.strip()), at + 1


def listed(tree):
    """Yields file, function and code of each line of the list."""
    for number, line in enumerate((tree / LIST).read_text(encoding="utf-8").splitlines(), 1):
        if line.strip() and not line.startswith("#"):
            fields = [field.strip() for field in line.split(" | ", 3)]
            if len(fields) != 4 or not all(fields):
                raise ValueError(f"{LIST}:{number}: not FILE | FUNCTION | REASON | CODE")
            yield (fields[0], fields[1], fields[3])


def differences(tree):
    """Returns a message for each line of code that is not in the list, and for each that is
    only in the list."""
    left, wrong = Counter(listed(tree)), []
    for place, number in made(tree, {file for file, _, code in left if FAULT.search(code)}):
        if left[place] > 0:
            left[place] -= 1
        else:
            made_by = "asks for memory" if SIZES.search(place[2]) else "makes 60 by hand"
            wrong.append(f"{place[0]}:{number}: {place[1]} {made_by}: {place[2]}")
    return wrong + [f"{LIST}: not in the code: {' | '.join(place)}" for place in left.elements()]


def main(tree):
    wrong = differences(tree)
    for line in wrong:
        print(line)
    if not wrong:
        print(f"60 can be made in {sum(1 for _ in listed(tree))} lines, each in {LIST}")
    return 1 if wrong else 0


if __name__ == "__main__":
    sys.exit(main(Path(sys.argv[1]) if len(sys.argv) > 1 else TOP))
