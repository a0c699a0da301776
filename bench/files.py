"""The binary files and texts that bench.py measures, with those of shapes.py, at any size.

usage: python3 bench/files.py NAME SCALE PATH   (makes one file, in a separate process)
"""
import datetime
import plistlib
import random
import string
import sys

import shapes
import texts


def mixed(scale):
    """Returns typical records of a program: at scale 1 about 460,000 objects in 13 MB."""
    chance = random.Random(7)
    return [
        {
            "name": f"record {number} of the catalogue of 2026",
            "size": chance.randrange(1 << 40),
            "ratio": chance.random(),
            "made": datetime.datetime(2001, 1, 1)
            + datetime.timedelta(seconds=chance.randrange(1 << 30)),
            "digest": chance.randbytes(32),
            "flags": [chance.random() < 0.5 for _ in range(3)],
            "title": "Überschrift %d" % chance.randrange(1000),
        }
        for number in range(int(65_700 * scale))
    ]


def keys(scale):
    """Returns a dictionary of 200,000 shuffled keys, as a hash table would list them."""
    names = [f"key {number:06d} of the table" for number in range(int(200_000 * scale))]
    random.Random(9).shuffle(names)
    return {name: number % 7 for number, name in enumerate(names)}


def chinese(scale):
    """Returns a dictionary of 80,000 keys, each of ideographs and a number, with strings of
    ideographs as values."""
    chance = random.Random(11)

    def ideographs(least, most):
        return shapes.chinese(chance, chance.randint(least, most))

    count = int(80_000 * scale)
    return {f"{ideographs(4, 12)}{number}": ideographs(5, 30) for number in range(count)}


def cyrillic(scale):
    """Returns a dictionary of 80,000 keys, each of two to four words in Cyrillic or ASCII letters
    and a number, with strings of such words as values."""
    chance = random.Random(12)
    alphabets = (string.ascii_lowercase, "".join(map(chr, range(0x0430, 0x0450))))

    def words(least, most):
        return " ".join(
            "".join(chance.choices(chance.choice(alphabets), k=chance.randint(3, 9)))
            for _ in range(chance.randint(least, most))
        )

    return {f"{words(2, 4)} {number}": words(3, 8) for number in range(int(80_000 * scale))}


def numbers(scale):
    """Returns an array of 1,000,000 distinct integers."""
    return list(range(int(1_000_000 * scale)))


def data(scale):
    """Returns 100 MB of data."""
    return random.Random(5).randbytes(int(100_000_000 * scale))


BINARY = {
    "mixed": mixed,
    "keys": keys,
    "chinese": chinese,
    "cyrillic": cyrillic,
    "numbers": numbers,
    "data": data,
}
TEXTS = {
    "project": lambda scale: texts.project(int(10_000_000 * scale)),
    "strings": lambda scale: texts.strings(int(9_000_000 * scale), "utf-8"),
    "strings16": lambda scale: texts.strings(int(9_000_000 * scale), "utf-16-le"),
}


def make(name, scale, path):
    makers = {**TEXTS, **shapes.WRITTEN, **BINARY, **shapes.BINARY}
    made = makers[name](scale)
    with open(path, "wb") as target:
        if name in TEXTS or name in shapes.WRITTEN:
            target.write(made)
        else:
            plistlib.dump(made, target, fmt=plistlib.FMT_BINARY, sort_keys=False)


if __name__ == "__main__":
    make(sys.argv[1], float(sys.argv[2]), sys.argv[3])
