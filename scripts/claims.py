#!/usr/bin/env python3
"""scripts/claims.py [--print]: checks that each contract that docs/PROOFS.md names exists.

A row of a table in PROOFS.md is a promise: a sentence | its contract. The contract is names in
backticks, or `—`: `FUNCTION: CLAUSE, CLAUSE` (all its clauses, if it names none), where FUNCTION is
`fits`, `Whole::new`, `plist_forms::laws::headline` or `laws::{one_value, limits}`, as long as tells
it from others; or `Fault as Display`, an implementation. After names of functions that no other
crate can call comes `(private)`. --print prints each promise with its contract, as the code has it.

Fails if a name stands for no function or for several, if a clause is missing, if functions are
private and not marked so or the other way round, if the section `Premises` leaves out a crate of
the toolchain that a crate uses, or if there is no section `Only tested`.
"""
from __future__ import annotations

import re
import sys
from dataclasses import dataclass
from pathlib import Path

TESTS = {"plist_tests", "program_tests", "test_files", "rows"}  # crates of tests
SPAN = re.compile(r"`([^`\n]+)`( \(private\))?")
NAMED = re.compile(r"((?:\w+::)*)(\{[\w, ]+\}|\w+)(?:: (\w+(?:, \w+)*)| as (\w+))?")
FUNCTION = re.compile(
    r'(?P<indent>(?:    )?)(?P<visible>pub(?:\(\w+\))? )?(?:const |unsafe |extern "C" )*fn (?P<name>\w+)'
)
OWNER = re.compile(
    r"(?P<visible>pub )?(?:impl(?:<.*>)? (?:(?P<trait>[\w:]+)(?:<.*>)? for )?&?(?P<type>\w+)"
    r"|trait (?P<name>\w+))"
)
CLAUSE = re.compile(r" *(?:(?P<comment>//)|(?P<word>requires|ensures)\*?(?: (?P<name>\w+))? \{)")


def declared(top: Path) -> dict[str, list[str]]:
    """Returns the crates of a tree, with the crates that each uses."""
    lines = (top / "crates.txt").read_text(encoding="utf-8").splitlines()
    return {line.split()[0].rstrip(":"): line.partition(":")[2].split() for line in lines}


class Fault(Exception):
    """What is wrong, in words for whoever wrote the page."""


@dataclass
class Item:
    """A function with its clauses, or an implementation with its ghost members."""

    crate: str
    scope: set[str]  # (its modules, and the type or trait that it is a member of)
    owner: str
    name: str  # (of an implementation: that of the trait)
    is_public: bool
    place: str
    lines: list[str]

    def clauses(self) -> set[str]:
        """Returns the names of what it ensures, of which one may be empty."""
        found = (CLAUSE.match(line) for line in self.lines)
        return {match["name"] or "" for match in found if match and match["word"] == "ensures"}

    def shown(self, wanted: set[str]) -> list[str]:
        """Returns its place and its lines, without clauses that are not wanted."""
        shown, comments, is_wanted = [self.place], [], True
        for line in self.lines:
            match = CLAUSE.match(line)
            if match and match["comment"]:
                comments.append(line)
                continue
            if match:
                is_wanted = match["word"] == "requires" or not wanted or match["name"] in wanted
            shown += [*comments, line] if is_wanted else []
            comments = []
        return shown


def head(lines: list[str], indent: str = "") -> list[str]:
    """Returns the first lines, which are those of an item, up to its body."""
    taken = []
    for line in lines:
        if line.startswith(indent + "{"):
            break
        is_last = line.endswith((" {", " {}", ";")) and not line.startswith(indent + "    ")
        taken.append(re.sub(r" \{\}?$", "", line) if is_last else line)
        if is_last or line.endswith(";"):
            break
    return taken


def items(crate: str, path: Path, src: Path) -> list[Item]:
    """Returns the functions and implementations of a file, in the layout of `rt fmt`."""
    modules = set(path.relative_to(src).with_suffix("").parts) - {"lib", "main", "mod"}
    lines, found = path.read_text(encoding="utf-8").splitlines(), []
    owner, is_open = "", False
    for at, line in enumerate(lines):
        place = f"crates/{crate}/src/{path.relative_to(src)}:{at + 1}"
        if re.match(r"(pub )?(impl|trait)\b", line):
            match = OWNER.match(" ".join(map(str.strip, head(lines[at:]))))
            if match is None:
                raise Fault(f"{place}: an implementation or a trait that is not read")
            owner, trait = match["type"] or match["name"], (match["trait"] or "").split("::")[-1]
            is_open = bool(trait or match["name"] and match["visible"])
            if trait:
                rest = range(at + 1, len(lines))
                ends = (n for n in rest if re.match(r"    .*\bfn |\}", lines[n]))
                ghosts = lines[at : next(ends, at + 1)]
                found.append(Item(crate, modules, owner, trait, True, place, ghosts))
        elif line.startswith("}"):
            owner, is_open = "", False
        elif match := FUNCTION.match(line):
            scope, is_public = modules | {owner}, match["visible"] == "pub " or is_open
            taken = head(lines[at:], match["indent"])
            found.append(Item(crate, scope, owner, match["name"], is_public, place, taken))
    return found


class Tree:
    """What the crates have, but those of tests that define nothing."""

    def __init__(self, top: Path) -> None:
        uses = declared(top)
        defines = {path.parent.name for path in (top / "crates").glob("*/specs")}
        crates = [crate for crate in uses if crate not in TESTS or crate in defines]
        files = [
            (crate, path, top / "crates" / crate / "src")
            for crate in crates
            for path in sorted((top / "crates" / crate).glob("src/**/*.rt"))
        ]
        self.crates = set(crates)
        self.items = [item for file in files for item in items(*file)]
        text = "".join(path.read_text(encoding="utf-8") for _, path, _ in files)
        others = {other for crate in crates for other in uses[crate] if other not in uses}
        self.others = sorted(it for it in others if re.search(rf"\buse (Rattle\.)?{it}\b", text))

    def find(self, path: list[str], name: str, trait: str | None) -> Item:
        """Returns the function of a name, of which the path tells crate, module or type, or
        the implementation of a trait for a type of that name."""
        crates, rest = self.crates, set(path)
        if path and path[0] in crates:
            crates, rest = {path[0]}, set(path[1:])
        found = [
            it
            for it in self.items
            if it.crate in crates
            and (
                (it.owner, it.name) == (name, trait)
                if trait
                else it.name == name and rest <= it.scope and (not it.owner or it.owner in rest)
            )
        ]
        found = [it for it in found if it.is_public] or found
        if len(found) != 1:
            places = "".join(f", {it.place}" for it in found)
            name = "::".join([*path, name]) + (f" as {trait}" if trait else "")
            raise Fault(f"{len(found)} items are {name}{places}")
        return found[0]


def contracts(tree: Tree, named: str, is_private: bool) -> list[tuple[Item, set[str]]]:
    """Returns what a name in PROOFS.md stands for, each with the clauses that it names."""
    match = NAMED.fullmatch(named)
    if match is None:
        raise Fault(f"`{named}` does not name a contract")
    path, wanted = match[1].split("::")[:-1], set(re.findall(r"\w+", match[3] or ""))
    found = [tree.find(path, name, match[4]) for name in re.findall(r"\w+", match[2])]
    for item in found:
        if item.is_public == is_private:
            raise Fault(f"{item.name} is {'not ' if is_private else ''}private")
        missing = wanted - item.clauses()
        if missing or not (match[4] or item.clauses()):
            raise Fault(f"{item.name} has no clause {', '.join(sorted(missing))}".rstrip())
    return [(item, wanted) for item in found]


def promises(text: str) -> list[tuple[int, str, list[tuple[str, bool]]]]:
    """Returns the rows of the tables: their line, their sentence, and names with their marks."""
    found = []
    for number, line in enumerate(text.splitlines(), 1):
        sentence, is_row, names = line.partition(" | ")
        if is_row and sentence != "promise":
            spans = [(name, bool(mark)) for name, mark in SPAN.findall(names)]
            if SPAN.sub("", names).strip(", ") != ("" if spans else "—"):
                raise Fault(f"PROOFS.md:{number}: not SENTENCE | CONTRACT")
            found.append((number, sentence, spans))
    return found


def check(top: Path) -> tuple[list[str], list[str]]:
    """Returns the lines of --print, and what is wrong."""
    text, tree = (top / "docs" / "PROOFS.md").read_text(encoding="utf-8"), Tree(top)
    printed, wrong = [], []
    for number, sentence, spans in promises(text):
        printed += ["", f"# {sentence}"]
        for name, mark in spans:
            try:
                for item, wanted in contracts(tree, name, mark):
                    printed += ["", *item.shown(wanted)]
            except Fault as fault:
                wrong.append(f"PROOFS.md:{number}: {fault}")
    sections = {part.partition("\n")[0]: part for part in re.split(r"(?m)^## ", text)}
    for name in ("Premises", "Only tested"):
        wrong += [] if name in sections else [f"PROOFS.md has no section {name}"]
    wrong += [
        f"the premises in PROOFS.md do not name `{other}`, which is used"
        for other in tree.others
        if f"`{other}`" not in sections.get("Premises", "")
    ]
    return printed, wrong


def main(arguments: list[str], top: Path = Path(__file__).resolve().parent.parent) -> int:
    try:
        printed, wrong = check(top)
    except Fault as fault:
        printed, wrong = [], [str(fault)]
    if arguments == ["--print"]:
        print("\n".join(printed[1:]))
    said = "\n".join([*wrong, f"claims: {len(wrong)} faults"])
    print(said, file=sys.stderr if arguments else None)
    return 1 if wrong else 0


if __name__ == "__main__":
    sys.exit(main(sys.argv[1:]))
