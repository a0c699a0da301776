#!/usr/bin/env python3
"""Measures `plistconv convert` on binary files and texts beside other programs, in one run.

usage: bench/bench.py [PLISTCONV] [--runs N] [--only NAME,..] [--small]
                      [--plot FILE] [--instructions]
       bench/bench.py PLISTCONV --other PLISTCONV [--command ARGUMENTS] ..

The programs run in turns, N times (default 5), so that other work on the machine affects all of
them alike. Seconds are user and system time of the processor, the least of these runs, and beside
them elapsed time, which counts what a program waits for the disk. Memory is the greatest resident
size. A peer reads the file and writes it as a binary property list (GNUstep's
pl: as a text). Peers that are not installed are skipped, with a line that names the Debian package.
Within 60 seconds each program has to write a file with the value of its input, which is checked by
`plistconv same`; a peer that does not is left out with a line. The status is 1 if plistconv does
not, or if a target at the end is missed.

Each file is made at a sixteenth, at a quarter and at the whole of its size, to show growth; --small
leaves out the whole. Growth itself is measured separately: in each turn the sixteenth is converted
sixteen times and the whole once. --plot writes a plot of time and memory against size.
--instructions also counts instructions of plistconv with callgrind (Debian's valgrind), which other
work on the machine does not affect. Files are made in separate processes.

--other measures another plistconv in place of the peers, on whole files and on those of shapes.py,
without targets. --command has other arguments than `convert binary1`.
"""
import argparse
import json
import os
import statistics
import subprocess
import sys
import tempfile

import files
import peers
import shapes
from measure import HERE, MOST, Measure, heads, instructions, least, row

OURS, BACK, OTHER = "plistconv", "plistconv, to a text", "the other"
SCALES = (1 / 16, 1 / 4, 1)
COPY, CRATE, OPENSTEP = "read and write", "plist (Rust)", "openstep_plist"
# The peer, the most time of the peer's, and the most memory of the input's. The time of texts varies
# between runs, so their limits are in instructions: for each byte, and of those of a sixteenth. To
# read and write `data` is to wait for memory, which other work takes too: ten runs on a busy machine
# had 1.0 to 1.5, and for `keys` 0.17 to 0.23, `chinese` 0.15 to 0.22, `cyrillic` 0.21 to 0.29.
TARGETS = {
    "mixed": (CRATE, 0.1, 3),
    "keys": (CRATE, 0.25, 3.5),
    "chinese": (CRATE, 0.25, 4),
    "cyrillic": (CRATE, 0.3, 4),
    "numbers": (CRATE, 0.12, 4),
    "data": (COPY, 1.6, 1.1),
    "project": (OPENSTEP, None, 4),
    "strings": (OPENSTEP, None, 4),
    "strings16": (OPENSTEP, None, 4),
}
INSTRUCTIONS = {"project": 90, "strings": 115, "strings16": 80}


class Files:
    """The files to measure, each made on first use."""

    def __init__(self, folder):
        self.folder = folder

    def path(self, name, scale, program=None):
        path = os.path.join(self.folder, f"{name} {scale}")
        if not os.path.exists(path):
            script = os.path.join(HERE, "files.py")
            subprocess.run([sys.executable, script, name, str(scale), path], check=True)
        return path if program is None else f"{path} {program}"


def best(runs):
    """Returns the least processor time, the greatest size and the least elapsed time, or None if a
    run failed (1 is an answer of `check`)."""
    if any(run.status > 1 for run in runs):
        return None
    return *least(runs), min(run.seconds for run in runs)


def measured(measure, programs, source, target, count):
    """Returns the seconds, bytes and elapsed seconds of each program. The programs run in
    turns."""
    runs = {name: [] for name in programs}
    for _ in range(count):
        for name, words in programs.items():
            # A run that takes seconds is not repeated, nor is one that failed.
            if runs[name] and (runs[name][0].status > 1 or runs[name][0].processor > 5):
                continue
            into = [target(name)] if "convert" in programs[OURS] else []
            words = [*words, target(OURS) if name == BACK else source, *into]
            runs[name].append(measure.run(words, subprocess.DEVNULL, subprocess.DEVNULL))
    return {name: best(found) for name, found in runs.items()}


def rows(name, octets, figures):
    """Prints a row for each program."""
    ours = figures[OURS][0]
    for program, found in figures.items():
        if found is not None:
            time = f"{found[0]:.3f}", f"{found[2]:.3f}", f"{ours / found[0]:.2f}"
            memory = f"{found[1] / 1e6:.1f}", f"{found[1] / octets:.1f}"
            row(name, f"{octets:,}", program, *time, *memory)


def says_the_same(measure, program, source, written):
    """Returns whether the value that a program wrote is that of the source."""
    return measure.run([program, "same", source, written]).status == 0


def one(measure, program, programs, made, name, scale, count):
    """Measures one file, and returns its size, the figures and what is wrong."""
    source, wrong = made.path(name, scale), []
    octets = os.path.getsize(source)
    figures = measured(measure, programs, source, lambda of: made.path(name, scale, of), count)
    if figures[OURS] is None:
        raise SystemExit(f"{name}: {program} does not succeed.")
    for other, found in figures.items():
        target = made.path(name, scale, other)
        if found is None:
            wrong.append((other, f"{name} at {scale}: {other} fails, or takes over {MOST} seconds"))
        elif "convert" in programs[OURS] and not says_the_same(measure, program, source, target):
            wrong.append((other, f"{name} at {scale}: {other} does not write the same value"))
            figures[other] = None
        if os.path.exists(target):
            os.remove(target)
    rows(name, octets, figures)
    return octets, figures, wrong


def growth(measure, words, made, name, turns):
    """Returns how many times as long a file of 16 times the size takes, as the median of the turns.
    In each turn a sixteenth of the file is converted sixteen times and the whole once, so that
    other work on the machine affects both alike. A file with 16 times the items may have more than
    16 times the bytes: references and offsets are wider."""
    small, whole = (made.path(name, scale) for scale in (1 / 16, 1))

    def seconds(path):
        return measure.run([*words, path, path + " out"], subprocess.DEVNULL).processor

    ratios = [16 * seconds(whole) / sum(seconds(small) for _ in range(16)) for _ in range(turns)]
    return statistics.median(ratios) * 16 * os.path.getsize(small) / os.path.getsize(whole)


def targets(figures, growths, counts):
    """Prints each target, and returns how many are missed."""
    lines = []
    for name, most in INSTRUCTIONS.items():
        if (name, 1) in counts:
            least, whole = counts[name, 1 / 16], counts[name, 1]
            lines.append((f"{name}: instructions for each byte", whole / figures[name, 1][0], most))
            lines.append((f"{name}: instructions of those of a sixteenth", whole / least, 17))
    for name, (peer, time, memory) in TARGETS.items():
        octets, found = figures.get((name, 1), (0, {}))
        if found.get(peer) and time is not None:
            lines.append((f"{name}: time of {peer}'s", found[OURS][0] / found[peer][0], time))
        if found:
            lines.append((f"{name}: memory of the input's", found[OURS][1] / octets, memory))
        if name in growths and name in files.BINARY:
            lines.append((f"{name}: time of that of a sixteenth", growths[name], 18))
    for text, number, most in lines:
        told = "met" if number <= most else "missed"
        print(f"- {text}: at most {most:g}, measured {number:.2f}: {told}")
    return sum(number > most for _, number, most in lines)


def read_words():
    words = argparse.ArgumentParser()
    words.add_argument("program", nargs="?", default="./plistconv")
    words.add_argument("--other")
    words.add_argument("--command", default="convert binary1")
    words.add_argument("--runs", type=int, default=5)
    words.add_argument("--only", default="", help="names of files, with commas between")
    words.add_argument("--small", action="store_true")
    words.add_argument("--plot")
    words.add_argument("--instructions", action="store_true")
    return words.parse_args()


def kinds(words, folder):
    """Returns the files to measure, each with the programs that take it."""
    under = lambda path: [os.path.abspath(path), *words.command.split()]
    first = {OURS: under(words.program)}
    if words.other:
        every = [*files.BINARY, *files.TEXTS, *shapes.BINARY, *shapes.WRITTEN]
        found = dict.fromkeys(every, {**first, OTHER: under(words.other)})
    else:
        of_binary = {**first, **peers.found(peers.OF_BINARY, folder)}
        of_text = {**first, **peers.found(peers.OF_TEXT, folder)}
        of_text[BACK] = [os.path.abspath(words.program), "convert", "openstep"]
        found = {**dict.fromkeys(files.BINARY, of_binary), **dict.fromkeys(files.TEXTS, of_text)}
    names = words.only.split(",") if words.only else [*found]
    return {name: found[name] for name in names}


def plot(figures, path):
    """Has plot.py make the plot."""
    rows = [
        (name, program, octets, *figure[:2])
        for (name, _), (octets, found) in figures.items()
        for program, figure in found.items()
        if figure is not None and program != BACK
    ]
    words = [peers.python(), os.path.join(HERE, "plot.py"), path]
    if subprocess.run(words, input=json.dumps(rows).encode(), check=False).returncode:
        print("No plot is made: it needs python3-matplotlib.")


def main():
    words = read_words()
    program = os.path.abspath(words.program)
    figures, growths, counts, wrong = {}, {}, {}, []
    scales = SCALES[:2] if words.small else SCALES
    scales = scales[-1:] if words.other else scales
    with tempfile.TemporaryDirectory() as folder:
        measure, made, programs = Measure(folder), Files(folder), kinds(words, folder)
        heads("file | octets | program | seconds | elapsed | ours / its | MB | memory / input")
        for name, those in programs.items():
            for scale in scales:
                *found, more = one(measure, program, those, made, name, scale, words.runs)
                figures[name, scale], wrong = found, wrong + more
            if scales == SCALES:
                growths[name] = growth(measure, those[OURS], made, name, words.runs)
        if words.instructions:
            counts = counted(programs, made, figures)
    print("\n" + "".join(line + ".\n\n" for _, line in wrong))
    if words.plot:
        plot(figures, words.plot)
    missed = 0 if words.other else targets(figures, growths, counts)
    return 1 if missed or any(program in (OURS, BACK) for program, _ in wrong) else 0


def counted(programs, made, figures):
    """Prints how many instructions plistconv takes, and the other. Returns those of plistconv."""
    counts = {}
    print()
    heads("file | octets | program | instructions, millions | for each octet | ours / its")
    for (name, scale), (octets, _) in figures.items():
        source, ours = made.path(name, scale), None
        for program, words in programs[name].items():
            into = [source + program] if "convert" in words else []
            count = instructions([*words, source, *into]) if program in (OURS, OTHER) else None
            if count is not None:
                ours = ours or count
                if program == OURS:
                    counts[name, scale] = count
                each = f"{count / 1e6:.1f}", f"{count / octets:.1f}", f"{ours / count:.3f}"
                row(name, f"{octets:,}", program, *each)
    return counts


if __name__ == "__main__":
    sys.exit(main())
