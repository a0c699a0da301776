#!/usr/bin/env python3
"""scripts/stale_mutants.py [NAME..]: prints the mutants that no longer apply, within a second.

Checks the mutants in crates/NAME/must-fail/ and crates/NAME/edits/, of every crate if there is no
NAME. Each `old:` text has to occur exactly once in its file, after the changes of the pairs before
it, and its `new:` text has to change the file. Two mutants of one crate that make the same change
are reported too. Fails if a mutant is stale.
"""

import sys
from pathlib import Path

CRATES = Path(__file__).resolve().parent.parent / "crates"


def pairs(mutant):
    """Yields the file of each pair of texts, with the text that the pair removes and the
    one that it inserts."""
    file = old = None
    for line in mutant.read_text(encoding="utf-8").splitlines():
        word, _, text = line.partition(": ")
        if word == "file":
            file = text
        elif word == "old":
            old = text
        elif word == "new" or line == "new:":
            yield file, old, text
        elif line.strip():
            raise ValueError(f"no line of a mutant: {line}")


def change(crate, mutant):
    """Returns the files that the mutant changes. Raises `ValueError` with the reason if
    it does not apply."""
    made = {}
    for file, old, new in pairs(mutant):
        text = made.get(file)
        if text is None:
            path = crate / (file or "")
            if not path.is_file():
                raise ValueError(f"no file {file}")
            text = path.read_text(encoding="utf-8")
        if text.count(old) != 1:
            raise ValueError(f"stands {text.count(old)} times in {file}: {old}")
        if old == new:
            raise ValueError(f"changes nothing: {old}")
        made[file] = text.replace(old, new)
    if not made:
        raise ValueError("has no pair of texts")
    return tuple(sorted(made.items()))


def main(names):
    found = stale = 0
    for crate in [CRATES / name for name in names] or sorted(CRATES.iterdir()):
        changes = {}
        for mutant in sorted([*crate.glob("must-fail/*.edit"), *crate.glob("edits/*.edit")]):
            found += 1
            name = mutant.relative_to(CRATES)
            try:
                other = changes.setdefault(change(crate, mutant), name)
                if other != name:
                    raise ValueError(f"makes the same change as {other}")
            except ValueError as fault:
                stale += 1
                print(f"{name}: {fault}")
    print(f"{found} mutants, {stale} stale")
    return 1 if stale else 0


if __name__ == "__main__":
    sys.exit(main(sys.argv[1:]))
