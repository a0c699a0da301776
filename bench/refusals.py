#!/usr/bin/env python3
"""Measures what hostile input costs `plistconv`: files and texts that are refused, at three sizes
that grow by a factor of two, and the memory of each command.

usage: bench/refusals.py [PLISTCONV]   (the program to measure, ./plistconv if not given)

Each answer must be the one listed here. Of the first table, a refusal may take at most 16 MiB of
memory, and input of a few hundred bytes must be refused within 10 ms. If callgrind is installed
(Debian's valgrind), the instructions of a refusal, less those of an empty run, must not grow more
than 1.2 times as much as the bytes of its input. Time is processor time, the least of three runs.
Memory is the greatest resident size.

The other table has the memory of each command for each byte of input, or in MB for files that
encode far larger values, and the most that is allowed. `same` compares two files, which differ in
an unused byte, and its memory is divided by the bytes of both. A row or cell that fails ends with a
cross, and the status is 1. Files are made in separate processes (--make).
"""
import collections
import itertools
import os
import subprocess
import sys
import tempfile

from hostile import words_of, write
from hostile_files import array, dictionary, head, joined, lists_of, number, trailer
from measure import Measure, heads, instructions, least, row

MIB = 1 << 20


# Files and texts that are refused.


def arrays_named_twice(levels, last=b"\xa0"):
    """Returns arrays that each contain the next one twice, down to an empty one."""
    return joined([*(array((n, n), 1) for n in range(1, levels)), last], 1)


def dictionaries_named_twice(levels):
    """Returns dictionaries that each have the next one for two keys, down to an empty one."""
    outer = [dictionary((levels, levels + 1), n, 1) for n in range(1, levels)]
    return joined([*outer, b"\xd0", b"Qa", b"Qb"], 1)


def chain(count):
    """Returns arrays that each contain the next one, down to an empty one."""
    return joined([*(array((n,), 3) for n in range(1, count)), b"\xa0"], 3)


def shared_array(count):
    """Returns an array that contains another one many times, which contains a boolean as often."""
    return joined([array([1] * count, 1), array([2] * count, 1), b"\x09"], 1)


def counted(marker):
    """Returns an object with a count of 2^62."""
    return lambda size: joined([marker + b"\x13" + number(1 << 62, 8) + bytes(size)], 1)


def too_many_objects(size):
    whole = joined([b"\x09" + bytes(size)], 1)
    return whole[:-24] + number(1 << 62, 8) + whole[-16:]


def heavy_data(size):
    """Returns an array that contains data once more than the limit allows."""
    count = 2**30 // size + 1
    return joined([array([1] * count, 1), head(0x40, size) + bytes(size)], 1)


QUARTERS = (250_000, 500_000, 1_000_000)

REFUSED = {
    "arrays, each named twice": (arrays_named_twice, (30, 60, 120), "17 TooManyNodes"),
    "dictionaries, each named twice": (dictionaries_named_twice, (30, 60, 120), "17 TooManyNodes"),
    "a chain of arrays": (chain, QUARTERS, "16 TooDeep at object 512"),
    "an array in an array": (shared_array, (1 << 18, 1 << 19, 1 << 20), "17 TooManyNodes"),
    "an array of 2^62": (counted(b"\xaf"), QUARTERS, "6 CutObject at object 0"),
    "a dictionary of 2^62": (counted(b"\xdf"), QUARTERS, "6 CutObject at object 0"),
    "data of 2^62": (counted(b"\x4f"), QUARTERS, "6 CutObject at object 0"),
    "a string of 2^62": (counted(b"\x6f"), QUARTERS, "6 CutObject at object 0"),
    "2^62 objects": (too_many_objects, QUARTERS, "3 BadTrailer"),
    "data past 2^30": (heavy_data, (MIB, 2 * MIB, 4 * MIB), "18 TooMuchPayload at object 1"),
    "parentheses": (lambda size: b"(" * size, QUARTERS, "16 TooDeep at octet 512"),
    "braces": (lambda size: b"{a=" * size, QUARTERS, "16 TooDeep at octet 1534"),
}


# Files and texts whose memory is measured.


def often(part, size, before=b"(", after=b")="):
    """Returns a text that repeats one part, and by default ends with a fault."""
    return before + part * (size // len(part)) + after


def nested(levels):
    """Returns arrays of arrays, down to an empty one, and a comma."""
    return b"(" * levels + b")" * levels + b","


def strings_file(size):
    """Returns pairs without braces whose last key repeats the first."""
    names = [b"k%07d" % n for n in range(size // 16)]
    return b"".join(b'%s = "v";\n' % name for name in [*names, names[0]])


def short_keys(count, after):
    """Returns a dictionary of `count` distinct keys of four letters, without values, and what
    comes after them."""
    keys = itertools.product(b"abcdefghijklmnopqrstuvwxyz012345", repeat=4)
    return b"{" + b"".join(bytes(key) + b";" for key in itertools.islice(keys, count)) + after


def accented_keys(count):
    """Returns a dictionary of `count` distinct keys, each an é and four letters, without values. A
    tree that orders keys by their last letters is given them in order, so its nodes stay half
    full."""
    keys = itertools.product(b"abcdefghijklmnopqrstuvwxyz012345", repeat=4)
    quoted = (b'"\xc3\xa9' + bytes(key[::-1]) + b'";' for key in itertools.islice(keys, count))
    return b"{" + b"".join(quoted) + b"}"


def shared_dictionaries(levels):
    """Returns dictionaries that each have the next one for two long keys, down to an empty one."""
    names = ((levels + 2 * n, levels + 2 * n + 1) for n in range(levels - 1))
    made = [dictionary(pair, n, 1) for n, pair in enumerate(names, 1)]
    keys = [head(0x50, 105) + b"%0105d" % n for n in range(2 * levels - 2)]
    return joined([*made, b"\xd0", *keys], 1)


def narrow_offsets(size):
    """Returns a file with an offset of one byte for each of its many objects, whose
    first names the last."""
    body = b"bplist00" + array([1] * 20 + [size - 1] * 10, 4)
    text = len(body)
    body += head(0x50, 60) + b"a" * 60
    boolean = len(body)
    body += b"\x09"
    places = bytes([8, text]) + bytes([boolean]) * (size - 2)
    return body + places + trailer(1, 4, size, len(body))


def fan(count, item):
    """Returns an array of so many references to one object."""
    return joined([head(0xA0, count) + b"\x01" * count, item], 1)


CHECK = "check of its canonical file"
MEASURED = ("lint", "binary1", "openstep", "print", "same", CHECK)
MOST_MB = 32

# The input, the beginning of the answer, the most bytes of memory for each byte of input, or the most
# MB of some commands, and the answer of `convert openstep` if that is another one.
Row = collections.namedtuple("Row", "make answer most openstep", defaults=(None,))
MEMORY = {
    "short dictionaries, then an error": Row(lambda: often(b"{a;},", 4_000_000), "refused 31", 12),
    "empty arrays, then an error": Row(lambda: often(b"(),", 4_000_000), "refused 31", 12),
    "nested arrays, then an error": Row(lambda: often(nested(400), 4_000_000), "refused 31", 12),
    "short strings, then an error": Row(lambda: often(b"a,", 4_000_000), "refused 31", 12),
    "the last key repeats the first": Row(lambda: strings_file(16_000_000), "refused 14", 12),
    "short keys, then an error": Row(lambda: short_keys(800_000, b"="), "refused 30", 12),
    "too many items": Row(lambda: often(b"a,", 34_000_000, after=b")"), "refused 17", 4),
    # (each key of four letters is an object of the draft and a row that is sorted; a print, which takes
    # 18.3, keeps the text too, which a conversion frees)
    "short keys": Row(lambda: short_keys(800_000, b"}"), "", 19),
    "short keys that are not ASCII": Row(lambda: accented_keys(400_000), "", 12),
    "short dictionaries": Row(lambda: often(b"{a;},", 4_000_000, after=b")"), "", 16),
    "nested arrays": Row(lambda: often(nested(400), 4_000_000, after=b")"), "", 16),
    "short strings": Row(lambda: often(b"a,", 4_000_000, after=b")"), "", 16),
    "empty arrays": Row(lambda: often(b"(),", 4_000_000, after=b")"), "", 16),
    "two long lists of keys": Row(
        lambda: lists_of(65_000, 9_200_000, b"\x09"), "", 12, "refused 40"
    ),
    # (12 bytes are kept for each object, here of one byte, and the file itself is in memory)
    "offsets of one byte": Row(lambda: narrow_offsets(16_000_000), "", 14, "refused 40"),
    # Files that encode far larger values: one and a half times what these took.
    "shared dictionaries": Row(
        lambda: shared_dictionaries(20), "", {"binary1": 35, "same": 100, CHECK: 55}
    ),
    "shared arrays": Row(
        lambda: arrays_named_twice(24), "", {"binary1": 400, "same": 760, CHECK: 580}
    ),
    "one boolean, 16,777,215 times": Row(
        lambda: fan(16_777_215, b"\x09"), "", {"binary1": 155, "same": 230}, "refused 40"
    ),
    "1 MiB of data, 1,024 times": Row(lambda: fan(1024, head(0x40, MIB) + bytes(MIB)), "", {}),
}


def make(name, size, path):
    write(REFUSED[name][0](int(size)) if name in REFUSED else MEMORY[name].make(), path)


def made(name, size, path):
    words = [sys.executable, os.path.abspath(__file__), "--make", name, str(size), path]
    subprocess.run(words, check=True)
    return os.path.getsize(path)


def cross(good):
    return "" if good else " ✗"


def refused(measure, program, source):
    """Prints the rows of refused inputs, and returns how many fail."""
    wrong, empty = 0, instructions([program, "--version"])
    words = [program, "convert", "binary1", source, source + " out"]
    heads("refused | bytes | answer | ms | MiB | instructions for each byte, of the first size's")
    for name, (_, sizes, answer) in REFUSED.items():
        first = None
        for parameter in sizes:
            size = made(name, parameter, source)
            runs = [measure.run(words) for _ in range(3)]
            line = runs[0].printed.removeprefix(source + ": refused ")
            ms, used = least(runs)[0] * 1000, least(runs)[1] / MIB
            each = 1 if empty is None else max(instructions(words) - empty, 1) / size
            first = first or each
            good = runs[0].status == 2 and line.startswith(answer) and used < 16
            good = good and (size > 1000 or ms < 10) and each < 1.2 * first
            wrong += not good
            growth = f"{each / first:.2f}{cross(good)}"
            row(name, f"{size:,}", line, f"{ms:.1f}", f"{used:.1f}", growth)
    return wrong


def memory(measure, program, source):
    """Prints the rows of memory, and returns how many cells fail."""
    wrong = 0
    print()
    heads(f"memory for each byte, or MB / at most | bytes | {' | '.join(MEASURED)} | longest, s")
    for name, wanted in MEMORY.items():
        size, cells, longest = made(name, 0, source), [], 0
        for command in MEASURED if wanted.answer == "" else MEASURED[:-1]:
            target = source + " canonical" if command == "binary1" else os.devnull
            words = [program, *words_of(command, source, target)]
            answer = wanted.openstep or wanted.answer if command == "openstep" else wanted.answer
            is_long = command == "print" and not answer
            run = measure.run(words, into=subprocess.DEVNULL if is_long else subprocess.PIPE)
            unit, most = size * (1 + (command == "same")), wanted.most
            if isinstance(most, dict):
                unit, most = 1e6, most.get(command, MOST_MB)
            good = run.status == (2 if answer else 0) and run.octets <= most * unit
            good = good and run.printed.removeprefix(source + ": ").startswith(answer)
            wrong += not good
            cells.append(f"{run.octets / unit:.1f} / {most}{cross(good)}")
            longest = max(longest, run.processor)
        cells += [""] * (len(MEASURED) - len(cells))
        row(name, f"{size:,}", *cells, f"{longest:.2f}")
    return wrong


def main():
    if sys.argv[1:2] == ["--make"]:
        make(*sys.argv[2:])
        return 0
    program = os.path.abspath(sys.argv[1] if len(sys.argv) > 1 else "./plistconv")
    with tempfile.TemporaryDirectory() as folder:
        source, measure = os.path.join(folder, "source"), Measure(folder)
        seconds, size = least([measure.run([program, "--version"]) for _ in range(3)])
        print(f"An empty run takes {seconds * 1000:.1f} ms and {size / MIB:.1f} MiB.\n")
        wrong = refused(measure, program, source) + memory(measure, program, source)
    return 1 if wrong else 0


if __name__ == "__main__":
    sys.exit(main())
