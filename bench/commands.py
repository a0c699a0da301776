#!/usr/bin/env python3
"""Compares commands of `plistconv` with others, on canonical files and on many small ones.

usage: bench/commands.py [PLISTCONV]   (the program to measure, ./plistconv if not given)

The first table has the files of bench.py, and two arrays of references to one boolean, whose print
is far longer than they are. Time is processor time, the least of five runs in turns. `same` compares
a file with itself, and `write` writes as many bytes as `print` does. On some files a check may take
0.6 of the time of a conversion, but 0.9 on that of keys, `same` 1.5 of that of `lint`, and a print
twice that of a conversion. These are kept by the worst of ten runs on a busy machine, where one of
two short times may be half as long again; a run alone had 0.61 and 1.23. A print may take 1 MiB
more memory than `lint`, and as much beside either array.

The second table has prints of 30,000 strings of 117 units, in one script each. A unit of any script
may take three times that of ASCII.

The third table has one call with 1,000 small files beside a call for each: it prints the same
lines in a tenth of the time, and with a large file among them takes a tenth more memory than for
that file alone. The status is 1 if a limit is missed.
"""
import os
import plistlib
import random
import shutil
import sys
import tempfile

import files
from hostile_files import head, joined
from measure import Measure, heads, least, row

# The most time of a check, of that of a conversion.
CHECKED = {"mixed": 0.6, "keys": 0.9, "numbers": 0.6}
PRINTED = ("mixed", "cyrillic", "chinese")
SCRIPTS = {
    "ascii": (0x61, 26),
    "accents": (0xE0, 32),
    "cyrillic": (0x430, 32),
    "chinese": (0x4E00, 20_992),
}
REFERENCES = {f"{count:,} references": count for count in (1_000_000, 16_777_215)}
MEBIBYTE, COUNT = 1 << 20, 1_000


MISSED = []


def hold(number, most, of):
    """Notes a limit that is missed."""
    if number > most:
        MISSED.append(f"{of}: {number:.3f}, at most {most:.3f}")


def write_source(name, path):
    if name in files.BINARY:
        files.make(name, 1, path)
        return
    count = REFERENCES[name]
    with open(path, "wb") as into:
        into.write(joined([head(0xA0, count) + b"\x01" * count, b"\x09"], 1))


def in_turns(measure, commands):
    """Returns the least seconds and the greatest size of each command, which run in turns. The
    output of each goes to the file `out` of its words, or nowhere."""
    turns = []
    for _ in range(5):
        turns.append([])
        for words, out in commands.values():
            with open(out or os.devnull, "wb") as into:
                turns[-1].append(measure.run(words, into=into))
            if turns[-1][-1].status:
                sys.exit(f"{' '.join(words)} ends with {turns[-1][-1].status}")
    seconds, sizes = zip(*map(least, zip(*turns)))
    return dict(zip(commands, seconds)), dict(zip(commands, sizes))


def of_files(program, measure):
    """Prints the row of each file."""
    beside, names = [], ("check", "convert", "same", "lint", "print", "write")
    heads(f"file | bytes | printed | {', s | '.join(names)}, s | lint, MiB | print, MiB")
    for name in [*files.BINARY, *REFERENCES]:
        write_source(name, "source")
        measure.run([program, "convert", "binary1", "source", "file"])
        words = (
            "check file",
            "convert binary1 file out",
            "same file file",
            "lint file",
            "print file",
        )
        commands = {it.split()[0]: ([program, *it.split()], None) for it in words}
        commands["print"] = commands["print"][0], "printed"
        commands["write"] = [shutil.which("cat"), "printed"], "written"
        time, memory = in_turns(measure, commands)
        size = os.path.getsize("file")
        sizes = (f"{os.path.getsize(it):,}" for it in ("file", "printed"))
        mebibytes = (f"{memory[it] / MEBIBYTE:.1f}" for it in ("lint", "print"))
        row(name, *sizes, *(f"{time[it]:.3f}" for it in names), *mebibytes)
        if name in CHECKED:
            hold(time["check"], CHECKED[name] * time["convert"], f"{name}: seconds of check")
            hold(time["same"], 1.5 * time["lint"], f"{name}: seconds of same")
        if name in PRINTED:
            hold(time["print"], 2 * time["convert"], f"{name}: seconds of print")
        hold(memory["print"], memory["lint"] + MEBIBYTE, f"{name}: memory of print")
        beside += [memory["print"] - size] * (name in REFERENCES)
    hold(max(beside) - min(beside), MEBIBYTE, "memory of print that grows with the output")


def of_scripts(program, measure):
    """Prints the row of each script."""
    print()
    heads("script | print, s | ns a unit | of ascii")
    commands, chance = {}, random.Random(3)
    for name, (first, count) in SCRIPTS.items():
        letters = [chr(first + number) for number in range(count)]
        strings = ["".join(chance.choices(letters, k=117)) for _ in range(30_000)]
        with open(name, "wb") as into:
            plistlib.dump(strings, into, fmt=plistlib.FMT_BINARY)
        commands[name] = ([program, "print", name], None)
    time, _ = in_turns(measure, commands)
    for name in SCRIPTS:
        times = time[name] / time["ascii"]
        row(name, f"{time[name]:.3f}", f"{time[name] / 117 / 30_000 * 1e9:.1f}", f"{times:.2f}")
        hold(times, 3, f"{name}: seconds of print, of ascii")


def of_many(program, measure):
    """Prints the row of `lint` and of `check`."""
    print()
    heads("command | one call, s | calls, s | memory of several, MB | of the largest, MB")
    files.make("mixed", 1, "source")
    measure.run([program, "convert", "binary1", "source", "large"])
    names = [f"file{number}" for number in range(COUNT)]
    for name in names:
        with open("source", "wb") as source:
            source.write(b"{ name = Ada; langs = (en, fr); }")
        measure.run([program, "convert", "binary1", "source", name])
    for word in ("lint", "check"):
        runs = [measure.run([program, word, *names]) for _ in range(5)]
        once = min(runs, key=lambda run: run.seconds)
        singles = [measure.run([program, word, name]) for name in names]
        calls = sum(run.seconds for run in singles)
        path = "" if word == "lint" else "{}: "
        lines = [path.format(name) + run.printed for name, run in zip(names, singles)]
        mixed = measure.run([program, word, *names[:100], "large", *names[100:]])
        alone = measure.run([program, word, "large"])
        megabytes = (f"{run.octets / 1e6:.1f}" for run in (mixed, alone))
        row(word, f"{once.seconds:.3f}", f"{calls:.3f}", *megabytes)
        is_wrong = once.status or mixed.status or once.printed != "\n".join(lines)
        hold(is_wrong, 0, f"{word}: lines or statuses that differ")
        hold(once.seconds, 0.1 * calls, f"{word}: seconds of one call")
        hold(mixed.octets, 1.1 * alone.octets, f"{word}: memory of several")


def main():
    program = os.path.abspath(sys.argv[1] if len(sys.argv) > 1 else "./plistconv")
    with tempfile.TemporaryDirectory() as folder:
        os.chdir(folder)
        for table in (of_files, of_scripts, of_many):
            table(program, Measure(folder))
    print("\n".join(MISSED or ["No limit is missed."]))
    return 1 if MISSED else 0


if __name__ == "__main__":
    sys.exit(main())
