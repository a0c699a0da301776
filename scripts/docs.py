#!/usr/bin/env python3
"""scripts/docs.py: checks the pages against the repository: links, names, numbers.

A span in backticks is checked if its form tells what it is:
- a path (`fuzz/rows.py`, `plist_value/specs/Limits.antt`, `crates/rows`): the file or folder
  exists. The path of a crate may begin with its name. A link is resolved from the page's folder,
  and its heading has to be in that page;
- the name of a file of definitions or lemmas (`Begins.antt`): some crate has it;
- `make TARGET`: the target exists;
- a name `plist_*` or `ostep_*`: a crate, or a function or file of that name;
- a name with `::` or with clauses after a colon (`laws::{headline, one_value}`, `fits: limits`):
  the crate that it begins with, or else any crate, has such functions or types, and such clauses;
- in docs/PROOFS.md, ARCHITECTURE.md and DECISIONS.md a name with `_`
  (`put_scalar`): some crate has it.
Words in capitals are placeholders (`crates/NAME/src`); spans with them are skipped.
Besides:
- docs/ARCHITECTURE.md has a row for each crate, and its layers have each crate once, none
  above one that it uses;
- docs/FORMATS.md has each refusal with its number and its name, and the limits of the code, and
  so does SECURITY.md; `plist_explain` explains its refusals and rules, in its order, in lines
  of at most 79 columns;
- each file in CONTRIBUTING.md's list of what a new refusal needs has the name of each refusal;
- CHANGELOG.md has the version of the program, which is also that of the man page, the
  header and the packages;
- docs/RECIPES.md and the man page plistconv-tools.1 name each command in tools/;
- CONTRIBUTING.md, Makefile and build.mk state the same cost of the first `make`;
- docs/BENCHMARKS.md names the commit that was measured.
Fails if anything is stale.
"""
import re
import sys
from pathlib import Path

from claims import TESTS, declared

TOP = Path(__file__).resolve().parent.parent
CRATES = TOP / "crates"
PAGES = sorted([*TOP.glob("*.md"), *TOP.glob("docs/*.md"), *TOP.glob("bindings/**/*.md")])
SPAN = re.compile(r"`([^`\n]+)`")
LINK = re.compile(r"\]\(([^)#:]*)(?:#([\w-]+))?\)")
PATH = re.compile(r"[\w.-]+(/[\w.-]*)+")
STAND_IN = re.compile(r"\b[A-Z]{2,}\b(?!\.)")
NAMED = re.compile(r"((?:\w+::)*)(\{[\w, ]+\}|\w+)(?:: (\w+(?:, \w+)*))?")


USES = declared(TOP)


class Sources:
    """The names in the code of some crates."""

    def __init__(self, crates):
        files = [file for crate in crates for file in (CRATES / crate / "src").rglob("*.rt")]
        self.text = "\n".join(file.read_text(encoding="utf-8") for file in files)
        self.words = set(re.findall(r"\w+", re.sub(r"//.*", "", self.text)))
        self.words.update(file.stem for file in files)
        self.clauses = set(re.findall(r"ensures (\w+) \{", self.text))


SOURCES = {crate: Sources([crate]) for crate in USES}
ALL = Sources(USES)
ALL.words.update(USES, *USES.values())
TARGETS = {
    target
    for file in (TOP / "Makefile", *TOP.glob("*.mk"))
    for line in file.read_text(encoding="utf-8").splitlines()
    if re.match(r"[\w -]+:(?!=)", line)
    for target in line.partition(":")[0].split()
}
ANTT = {file.name for file in CRATES.rglob("*.antt") if "out" not in file.parts}


def stands(path, page):
    """Returns whether the file or folder exists."""
    bases = TOP, CRATES, page.parent, *(CRATES / crate for crate in USES)
    return any((base / path).exists() for base in bases)


def wrong_name(span, is_exact):
    """Returns the part of a name and its clauses that does not exist, or None."""
    match = NAMED.fullmatch(span)
    if match is None:
        return None
    first, last, clauses = match.groups()
    modules = first.split("::")[:-1]
    if modules[:1] in (["std"], ["core"]):
        return None
    source = SOURCES.get(modules[0]) if modules else None
    names = (modules[1:] if source else modules) + re.findall(r"\w+", last)
    if not modules and clauses is None and not (is_exact and re.fullmatch(r"[a-z]\w*_\w+", last)):
        return None
    source = source or ALL
    missing = [name for name in names if name not in source.words]
    missing += [it for it in re.findall(r"\w+", clauses or "") if it not in source.clauses]
    return missing[0] if missing else None


def stale(span, page):
    """Returns why the span is stale, or None."""
    if STAND_IN.search(span) or "*" in span or ".." in span:
        return None
    if match := re.match(r"make ([a-z][\w-]*)", span):
        return None if match[1] in TARGETS else f"no target {match[1]}"
    if PATH.fullmatch(span):
        first = span.split("/")[0]
        is_ours = first in (*USES, "specs", "proofs", "src") or (TOP / first).exists()
        is_stale = first != ".git" and is_ours and not stands(span, page)
        return f"no file {span}" if is_stale else None
    if span.endswith(".antt"):
        return None if span in ANTT else f"no file {span}"
    if re.fullmatch(r"(plist|ostep)_\w+", span):
        return None if span in USES or span in ALL.words else f"no crate {span}"
    name = wrong_name(span, page.name in ("PROOFS.md", "ARCHITECTURE.md", "DECISIONS.md"))
    return None if name is None else f"no {name}"


def headings(page):
    """Returns the headings of a page in the form of links."""
    lines = re.findall(r"(?m)^#+ (.*)$", page.read_text(encoding="utf-8"))
    return {re.sub(r"[^\w -]", "", line).lower().replace(" ", "-") for line in lines}


def page_faults(page, text):
    """Yields what is stale in a page, with the line."""
    for number, line in enumerate(text.splitlines(), 1):
        for span in SPAN.findall(line):
            if why := stale(span, page):
                yield f"{page.name}:{number}: `{span}`: {why}"
        for path, heading in LINK.findall(line):
            file = page.parent / path if path else page
            if not file.exists():
                yield f"{page.name}:{number}: no file {path}"
            elif heading and heading not in headings(file):
                yield f"{page.name}:{number}: no heading {heading} in {file.name}"


def read(name):
    return (TOP / name).read_text(encoding="utf-8")


def blocks(text):
    """Returns the blocks of lines indented by four spaces."""
    found = re.findall(r"(?m)(?:^    .*\n)+", text)
    return [re.findall(r"(?m)^    (.*)", block) for block in found]


def layer_faults(text):
    """Yields the crates without a row in ARCHITECTURE.md, or without a layer, or with a layer
    above one they use."""
    rows = [re.split(r"\s*\|\s*", line.strip("| ")) for line in text.splitlines() if "|" in line]
    named = {name for row in rows for name in re.findall(r"`(\w+)`", row[0])}
    yield from (f"ARCHITECTURE.md: no row of `{crate}`" for crate in USES if crate not in named)
    layer = {}
    for block in blocks(text):
        groups = [re.split(r"\s{2,}", line, maxsplit=1)[-1].split(", ") for line in block]
        if ["plistconv"] in groups:
            layer = {crate: at for at, group in enumerate(groups) for crate in group}
    for crate in USES:
        if crate in TESTS:
            continue
        if crate not in layer:
            yield f"ARCHITECTURE.md: no layer has {crate}"
        elif high := [low for low in USES[crate] if layer.get(low, len(layer)) < layer[crate]]:
            yield f"ARCHITECTURE.md: {crate} uses {', '.join(high)} above it"


def number_faults():
    """Yields the refusals and limits that differ between a page and the code."""
    formats = read("docs/FORMATS.md")
    table = {}
    for line in formats.partition("\n## Refusals\n")[2].partition("\n## ")[0].splitlines():
        cells = [cell.strip() for cell in line.strip("|").split("|")]
        if re.match(r"\d", cells[0]):
            ends = re.fullmatch(r"(\d+) to (\d+)", cells[0])
            listed = map(int, cells[0].split(", "))
            numbers = range(int(ends[1]), int(ends[2]) + 1) if ends else listed
            table.update(zip(numbers, cells[1].split(", ")))
    specs = read("crates/plist_value/specs/Refusals.antt")
    code = re.findall(r"(?m)^number_of (\w+) = (\d+)$", specs)
    if table != {int(number): name for name, number in code}:
        yield "FORMATS.md: its refusals are not those of plist_value/specs/Refusals.antt"
    texts = "".join(read(f"crates/plist_explain/src/{file}.rt") for file in ("refusals", "rules"))
    explained = re.findall(r"Subject::(?:Refusal\(Refusal::|Rule\()(\w+)", texts)
    rules = re.findall(r"(?m)^C(\d) \|", formats)
    if explained != [table[number] for number in sorted(table)] + rules:
        yield "FORMATS.md: its refusals and rules are not those of plist_explain"
    plain = re.sub(r"\\(.)", r"\1", texts)
    if long := [line for line in re.findall(r'(?m)^[^ /].*?(?=",$|$)', plain) if len(line) > 79]:
        yield f"plist_explain: a line is too long: {long[0]}"
    files = "plist_value/src/lib.rt", "plist_forms/src/loading.rt"
    constants = "".join(read(f"crates/{file}") for file in files)
    for name, number in re.findall(r"pub const (MAX_\w+): u64 = ([\d_]+);", constants):
        for page in ("docs/FORMATS.md", "SECURITY.md"):
            if number.replace("_", ",") not in read(page):
                yield f"{page}: no limit {number}, which is {name}"


def refusal_faults(text):
    """Yields the refusals that a file lacks which has to name them: each file in the list of
    CONTRIBUTING.md, which has this text."""
    needed = text.partition("\n**A new refusal** needs\n")[2]
    paths = [
        TOP / base / span
        for span in SPAN.findall(needed.partition("\n\n`")[0])
        for base in (".", "crates")
        if PATH.fullmatch(span) and (TOP / base / span).is_file()
    ]
    if len(paths) < 10:
        yield "CONTRIBUTING.md: no list of what a new refusal needs"
    specs = read("crates/plist_value/specs/Refusals.antt")
    for name in re.findall(r"(?m)^number_of (\w+) = \d+$", specs):
        upper = re.sub(r"(?<=[a-z0-9])(?=[A-Z])", "_", name).upper()
        form = re.compile(rf"(?<![A-Za-z])(?:{name}|{upper})(?![A-Za-z])")
        for path in paths:
            if not form.search(path.read_text(encoding="utf-8")):
                yield f"{path.relative_to(TOP)}: no refusal {name}"


def version_faults():
    """Yields the files whose version is not that of the program."""
    version = re.search(r'\.version\("([^"]+)"\)', read("crates/plist_convert/src/commands.rt"))[1]
    if f"\n## {version}\n" not in read("CHANGELOG.md"):
        yield f"CHANGELOG.md: nothing of version {version}"
    for file, before in (
        ("man/plistconv.1", '"plistconv '),
        ("man/plistconv-tools.1", '"plistconv '),
        ("tools/plistconv_tools.py", 'VERSION = "'),
        ("include/plistconv.h", 'PLISTCONV_VERSION "'),
        ("bindings/python/plistconv/__init__.py", '__version__ = "'),
        ("examples/rust/Cargo.toml", 'version = "'),
        ("bindings/rust/plistconv/Cargo.toml", 'version = "'),
        ("bindings/rust/plistconv-sys/Cargo.toml", 'version = "'),
    ):
        if before + version + '"' not in read(file):
            yield f"{file}: its version is not {version}"


def cost_faults():
    """Yields the files whose cost of the first `make` is not that of CONTRIBUTING.md."""
    costs = {
        file: re.findall(r"(\d+) processor minutes", read(file))[:1]
        for file in ("CONTRIBUTING.md", "Makefile", "build.mk")
    }
    for file, cost in costs.items():
        if not cost or cost != costs["CONTRIBUTING.md"]:
            yield f"{file}: its cost of the first make is not that of CONTRIBUTING.md"


def tool_faults():
    """Yields the commands in tools/ that a page does not name."""
    pages = {
        "RECIPES.md": read("docs/RECIPES.md"),
        "plistconv-tools.1": read("man/plistconv-tools.1").replace("\\-", "-"),
    }
    for tool in sorted(TOP.glob("tools/plistconv-*")):
        for name, page in pages.items():
            if tool.name not in page:
                yield f"{name}: no command {tool.name}"


def main():
    faults = []
    for page in PAGES:
        faults += page_faults(page, page.read_text(encoding="utf-8"))
    faults += layer_faults(read("docs/ARCHITECTURE.md"))
    faults += [
        *number_faults(),
        *refusal_faults(read("CONTRIBUTING.md")),
        *version_faults(),
        *tool_faults(),
    ]
    faults += cost_faults()
    if not re.search(r"commit [0-9a-f]{7,}", read("docs/BENCHMARKS.md")):
        faults.append("BENCHMARKS.md: it does not name the commit that was measured")
    print("\n".join([*faults, f"{len(PAGES)} pages, {len(faults)} faults"]))
    sys.exit(1 if faults else 0)


if __name__ == "__main__":
    main()
