#!/usr/bin/env python3
"""Measures each command of `plistconv` on files made to be slow, at two sizes, the
second twice the first.

usage: bench/hostile.py [PLISTCONV] [--only NAME,..]   (./plistconv if no program is given)
       bench/hostile.py [PLISTCONV] --worst            (what SECURITY.md says of the worst files)

Time is processor time, the least of three runs, or of six if that of three misses a limit. The
sizes take turns, so that other work on the machine slows both alike. A command may take at most 0.5
s on a file of about 1 MB, and its time may grow at most 1.5 times as much as the file, where less
than 0.02 s counts as 0.02 s. A print and an OpenStep text repeat each string that the value
repeats, so they may be hundreds of times longer than the file. On such files these two commands run
once, and may take 25 ns for each byte that they write; what they take for a byte may grow 1.5
times. A conversion runs also where the system refuses random bytes, as a sandbox may
(bench/no_random.c, built with cc): scalars are then hashed under a key from /dev/urandom.

Each cell has the seconds for the larger file and, if it is not too short, the growth of the time
divided by that of the file, or the nanoseconds for each byte written and their growth. A cell that
misses a limit says so, a line after the table has its figures, and the status is 1. The answer is
that of `lint`, and must be the one listed here.

With --worst each command runs once on files whose values are at the limits, which are far larger
than the files. Each cell has the seconds and the MB of memory.
"""
import argparse
import collections
import os
import shutil
import struct
import subprocess
import sys
import tempfile

import collisions
import hostile_files as files
from measure import HERE, Measure, heads, row

SIZES = (500_000, 1_000_000)
MOST_SECONDS, MOST_GROWTH, LEAST_SECONDS = 0.5, 1.5, 0.02
MOST_NANOSECONDS = 25

# How a file is made, the beginning of the answer of `lint`, whether its value repeats long strings,
# and the commands that refuse it though it is accepted.
File = collections.namedtuple("File", "make answer repeats refusers", defaults=("OK", False, ()))


def rows(*makers, **more):
    return {make.__name__.replace("_", " "): File(make, **more) for make in makers}


def late(names, count=20, key=files.wide_key, **more):
    return File(lambda size: files.late_dictionary(count, size, key, names), **more)


def alike(forms, overlapping):
    return File(lambda size: files.alike_keys(size, forms, overlapping), repeats=True)


def tied(*blocks):
    """Returns a row of keys in few groups, whose next units are equal each time that they are
    compared: eight of 8 bits, or four of 16 bits."""
    return File(lambda size: files.one_dictionary(size, lambda place: files.tied(place, blocks)))


def repeating(make):
    return File(make, repeats=True)


ASCII, WIDE, NARROW_UNITS, WIDE_UNITS = files.ASCII, files.WIDE, [0x61] * 8, [0x4E00] * 4
FILES = {
    **rows(
        files.shared_keys,
        files.overlapping_keys,
        files.unordered_keys,
        files.one_string_often,
        files.overlapping_later,
        answer="refused 18",
    ),
    **rows(files.one_dictionary_often, answer="refused 14"),
    "boolean keys": late([2] * 9, answer="refused 13"),
    "keys nowhere": late([10**6] * 9, answer="refused 5"),
    "late wide keys": late(range(3, 12), repeats=True),
    "late ASCII keys": late(range(3, 12), key=files.ascii_key, repeats=True),
    "late 256 keys": late(range(3, 12), count=256, repeats=True),
    "one place": repeating(
        lambda size: files.at_one_place(size // 8, files.wide_string(size // 250, 0))
    ),
    "one short place": repeating(
        lambda size: files.at_one_place(size // 7, files.wide_string(255, 0))
    ),
    # (longer keys would have more bytes in all dictionaries than a value may have)
    "reordered 16": repeating(lambda size: files.reordered(16, size * 2 // 17, size)),
    "reordered 256": repeating(lambda size: files.reordered(256, size // 2, size)),
    **rows(
        files.one_key,
        files.three_in_turn,
        files.overlapping_unreached,
        files.agreeing_keys,
        repeats=True,
    ),
    "mixed overlapping": alike((ASCII, WIDE), 64),
    "ASCII overlapping": alike((ASCII,), 64),
    "wide overlapping": alike((WIDE,), 64),
    "mixed apart": alike((ASCII, WIDE), 0),
    "tied narrow keys": tied(*[NARROW_UNITS] * 5),
    "tied wide keys": tied(*[WIDE_UNITS] * 5),
    "changing keys": tied(*[NARROW_UNITS, WIDE_UNITS] * 3),
    **rows(
        files.lists_in_turn,
        files.one_narrow_key,
        files.surrogate_keys,
        files.quotes,
        files.unseen_units,
        *collisions.FILES,
    ),
    **rows(*collisions.TEXTS, refusers=("check",)),
}
REPEATERS = ("print", "openstep")

# The worst files found, of values at the limits, and the commands that are measured on them.
MEASURED = ("lint", "check", "print", "same", "binary1", "openstep")
WORST = {
    "keys in three orders": lambda: files.alike_keys(1_320_000, (WIDE,), 64, 64, 4000, 3),
    "15,059,072 dates": lambda: files.nested_arrays(
        [2] + [14] * 6, b"\x33" + struct.pack(">d", 1e-9 / 3)
    ),
    "an escaped string, 1,075,648 times": lambda: files.nested_arrays(
        [2] + [14] * 5, files.head(0x60, 480) + b"\x20\x0e" * 480
    ),
}
NO_RANDOM = "binary1 without random bytes"

COMMANDS = {
    "lint": ["lint", "IN"],
    "check": ["check", "IN"],
    "print": ["print", "IN"],
    # (of two equal files only their bytes are compared, so the other one differs: see `write`)
    "same": ["same", "IN", "OTHER"],
    "binary1": ["convert", "binary1", "IN", "OUT"],
    "openstep": ["convert", "openstep", "IN", "OUT"],
    NO_RANDOM: ["convert", "binary1", "IN", "OUT"],
    # (without arguments, from standard input to standard output)
    "filter": [],
    # (a check of any other file ends at the first rule that it breaks)
    "check of its canonical file": ["check", "CANONICAL"],
}

Figure = collections.namedtuple("Figure", "size seconds status length")


def words_of(command, path, out=os.devnull):
    """Returns the arguments of a command."""
    paths = {"IN": path, "OTHER": path + " other", "CANONICAL": path + " canonical", "OUT": out}
    return [paths.get(word, word) for word in COMMANDS[command]]


def write(made, path):
    """Writes an input, and another one beside it: a file that differs in an unused byte, a text
    with a line more."""
    other = made[:-32] + b"\x01" + made[-31:] if made.startswith(b"bplist00") else made + b"\n"
    for name, content in ((path, made), (path + " other", other)):
        with open(name, "wb") as target:
            target.write(content)


def without_random(folder):
    """Returns the words before a program to which random bytes are refused."""
    library, source = os.path.join(folder, "no_random.so"), os.path.join(HERE, "no_random.c")
    subprocess.run(["cc", "-shared", "-fPIC", "-O1", "-o", library, source], check=True)
    return [shutil.which("env"), f"LD_PRELOAD={library}"]


class Trial:
    """Runs the program on a file and on what is made of it."""

    def __init__(self, program, measure, refused, path, made):
        self.program, self.measure, self.refused, self.path = program, measure, refused, path
        write(made, path)
        run = self.run("lint", into=subprocess.PIPE)
        self.answer = run.printed.replace(self.path + ": ", "")
        if run.status == 0:
            self.measure.run([program, *words_of("binary1", self.path, self.path + " canonical")])

    def run(self, command, into=subprocess.DEVNULL):
        words = [self.program, *words_of(command, self.path)]
        words = self.refused + words if command == NO_RANDOM else words
        return self.measure.run(words, into=into, source=self.path)

    def counted(self, command):
        """Returns the figure of a command whose output is measured too."""
        words = [self.program, *words_of(command, self.path, "/dev/stdout")]
        run, length = self.measure.count(words)
        return Figure(self.size(command), run.processor, run.status, length)

    def figure(self, command, runs):
        return Figure(self.size(command), min(run.processor for run in runs), runs[0].status, None)

    def size(self, command):
        """Returns the size of the file that a command reads."""
        return os.path.getsize(self.path + " canonical" * ("CANONICAL" in COMMANDS[command]))


def statuses(command, file):
    """Returns the statuses with which a command may end."""
    if command in file.refusers:
        return (2,)
    ends = (2,) if file.answer.startswith("refused") else (0,)
    return (1, *ends) if command == "check" else ends


def compared(half, whole):
    """Returns the cell of a command, and the limits that it misses."""
    if whole.length is not None:
        each = [figure.seconds / max(figure.length, 1) * 1e9 for figure in (half, whole)]
        growth, shown = each[1] / each[0], f"{each[1]:.1f} ns"
        missed = [f"{shown} for each byte written"] * (each[1] > MOST_NANOSECONDS)
    else:
        longer = max(whole.seconds, LEAST_SECONDS) / max(half.seconds, LEAST_SECONDS)
        growth, shown = longer / (whole.size / half.size), f"{whole.seconds:.3f}"
        missed = [f"more than {MOST_SECONDS} s"] * (whole.seconds > MOST_SECONDS)
    is_long = whole.length is not None or whole.seconds > LEAST_SECONDS
    missed += [f"growth {growth:.2f}"] * (growth > MOST_GROWTH)
    return shown + f" ×{growth:.1f}" * is_long, missed


def figures(trials, command, repeats):
    """Returns the figures of a command for the smaller and the larger file, which take turns."""
    if repeats and command in REPEATERS:
        return [trial.counted(command) for trial in trials]
    turns = []
    while len(turns) < 6:
        turns.append([trial.run(command) for trial in trials])
        found = [trial.figure(command, runs) for trial, runs in zip(trials, zip(*turns))]
        if len(turns) >= 3 and not compared(*found)[1]:
            break
    return found


def of_file(name, file, trials):
    """Prints the row of a file, and returns a line for each limit that is missed."""
    cells, faults = dict.fromkeys(COMMANDS, ""), []
    size, answer = trials[1].size("lint"), trials[1].answer
    if not all(trial.answer.startswith(file.answer) for trial in trials):
        faults.append(f"{name}: {trials[0].answer}, {answer}, not {file.answer}")
    accepted = all(trial.answer == "OK" for trial in trials)
    for command in (it for it in COMMANDS if accepted or "CANONICAL" not in COMMANDS[it]):
        half, whole = figures(trials, command, file.repeats)
        cell, missed = compared(half, whole)
        if whole.status not in statuses(command, file):
            missed.append(f"status {whole.status}")
        cells[command] = cell + " missed" * bool(missed)
        faults += [
            f"{command} of {name}: {one} ({half.seconds:.3f} s of {half.size:,} bytes, "
            f"{whole.seconds:.3f} s of {whole.size:,}; written: {half.length}, {whole.length})"
            for one in missed
        ]
    row(name, f"{size:,}", answer, *cells.values())
    return faults


def limits(names, under, folder):
    """Prints the table of these files, and returns how many limits are missed."""
    heads(f"file | bytes | answer | {' | '.join(COMMANDS)}")
    faults = []
    for name in names:
        paths = [(size, os.path.join(folder, str(size))) for size in SIZES]
        trials = [Trial(*under, path, FILES[name].make(size)) for size, path in paths]
        faults += of_file(name, FILES[name], trials)
    print("", *(f"missed: {fault}" for fault in faults), sep="\n")
    print(f"{len(faults)} limits are missed.")
    return len(faults)


def worst(under, folder):
    """Prints the table of the worst files."""
    heads(f"file | bytes | answer | {' | '.join(MEASURED)}")
    for name, make in WORST.items():
        trial, cells = Trial(*under, os.path.join(folder, "worst"), make()), []
        for run in map(trial.run, MEASURED):
            ended = f", status {run.status}" * (run.status > 1)
            cells.append(f"{run.processor:.2f} s, {run.octets / 1e6:.0f} MB{ended}")
        row(name, f"{trial.size('lint'):,}", trial.answer, *cells)
    return 0


def main():
    parser = argparse.ArgumentParser()
    parser.add_argument("program", nargs="?", default="./plistconv")
    parser.add_argument("--only", default="", help="names of files, with commas between")
    parser.add_argument("--worst", action="store_true")
    arguments = parser.parse_args()
    names = arguments.only.split(",") if arguments.only else [*FILES]
    if unknown := set(names).difference(FILES):
        sys.exit(f"no such file: {', '.join(unknown)}")
    with tempfile.TemporaryDirectory() as folder:
        under = os.path.abspath(arguments.program), Measure(folder), without_random(folder)
        wrong = worst(under, folder) if arguments.worst else limits(names, under, folder)
    return 1 if wrong else 0


if __name__ == "__main__":
    sys.exit(main())
