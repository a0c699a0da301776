#!/usr/bin/env python3
"""Compares the program with a second reading of the formats (oracle.py) on random inputs.

    fuzz.py PROGRAM [--seconds N] [--seed N] [--binary]
            [--words lint,check,binary1,openstep,print,same,none]

Each case is a random value, encoded as a binary file (with any order, sharing and widths) or as an
OpenStep text (with any whitespace, comments and quotes), and often damaged. The program must answer
like the second reading to `lint`, `check`, `same`, `print`, `convert binary1`, `convert openstep`
and to no command. Often the second file of `same` is another encoding of the same value. Written
files must be read as the same value, a canonical file must be its own canonical file, and Python's
plistlib must read it as the same value. A run that takes over a minute, or ends by a signal, is a
difference. The first differences are printed, and their inputs are kept. The status is 1 if there
are any. --words limits the commands that are tried, and --binary the inputs to those that begin
like binary files."""
import argparse
import datetime
import os
import plistlib
import random
import struct
import subprocess
import sys
import tempfile
import time

import oracle
from oracle import Refused

WORDS = [
    "a",
    "b",
    "key",
    "k-1",
    "a.b",
    "bplist",
    "bplist00",
    "",
    "0",
    "x" * 14,
    "y" * 15,
    "z" * 300,
]


# Random values.


def random_text(rng):
    choice = rng.random()
    if choice < 0.6:
        return tuple(map(ord, rng.choice(WORDS)))
    if choice < 0.61:
        return long_text(rng)
    pool = [
        0,
        9,
        10,
        34,
        39,
        92,
        0x7E,
        0x7F,
        0x80,
        0xFF,
        0x2028,
        0xD83D,
        0xDE00,
        0xD800,
        0xFEFF,
        0xFFFF,
        0x0434,
        0x4E2D,
        0xD7FF,
        0xE000,
        65,
    ]
    return tuple(rng.choice(pool) for _ in range(rng.choice([0, 1, 2, 3, 15, 40])))


def long_text(rng):
    """Returns a long string in one script, with a few units that are printed as escapes, or as
    halves of a pair."""
    first, count = rng.choice([(0x61, 26), (0xE0, 32), (0x430, 32), (0x4E00, 20_000)])
    size = rng.choice([63, 64, 65, 95, 96, 97, 600, 5_000])
    units = [first + rng.randrange(count) for _ in range(size)]
    for _ in range(rng.choice([0, 1, 2, 5])):
        units[rng.randrange(size)] = rng.choice([10, 34, 92, 0x200B, 0x3000, 0xD83D, 0xDE00])
    return tuple(units)


def random_whole(rng):
    edge = 1 << rng.choice([0, 7, 8, 15, 16, 31, 32, 62, 63, 64])
    number = rng.choice([1, 1, -1]) * edge + rng.randint(-2, 2)
    return max(-(2**63), min(2**64 - 1, number))


def random_real(rng, size):
    """Returns a random decimal, the real before or after it, or a power of two."""
    plain = rng.choice([0.0, 0.1, 0.5, 1.0, 3.25, 1e-21, 1e21, float("inf"), rng.random()])
    number = rng.choice(
        [plain, rng.randrange(10**6) / 10 ** rng.randrange(1, 9), 2.0 ** rng.randrange(-80, 60)]
    )
    form, unsigned = (">f", ">I") if size == 4 else (">d", ">Q")
    bits = struct.unpack(unsigned, struct.pack(form, number))[0]
    bits = max(bits + rng.choice([0, 0, 0, 1, -1]), 0)
    return struct.pack(unsigned, bits | rng.choice([0, 0, 1 << 8 * size - 1]))


def random_date(rng):
    """Returns seconds since 2001: whole or not, near or far, and at the first and last
    year that is printed."""
    edge = rng.choice([0, 10**6, 785534062, -63113904000, 252423993600, 10**11, -(10**11)])
    return struct.pack(">d", edge + rng.choice([0, 1, -1, 0.5, rng.randrange(-(10**9), 10**9)]))


def random_scalar(rng, writable):
    kind = rng.choice(
        ["text", "text", "bytes"]
        if writable
        else ["text", "text", "bytes", "whole", "flag", "real4", "real8", "moment"]
    )
    some = lambda size: bytes(rng.randrange(256) for _ in range(size))
    real = lambda size: random_real(rng, size) if rng.random() < 0.8 else some(size)
    return {
        "text": lambda: ("text", random_text(rng)),
        "bytes": lambda: ("bytes", some(rng.choice([0, 1, 2, 14, 15, 16, 300]))),
        "whole": lambda: ("whole", random_whole(rng)),
        "flag": lambda: ("flag", rng.random() < 0.5),
        "real4": lambda: ("real4", real(4)),
        "real8": lambda: ("real8", real(8)),
        "moment": lambda: ("moment", random_date(rng) if rng.random() < 0.9 else some(8)),
    }[kind]()


def random_value(rng, depth, writable):
    if depth == 0 or rng.random() < 0.3:
        return random_scalar(rng, writable)
    size = rng.choice([0, 1, 2, 3, 5, 16]) if rng.random() < 0.97 else 260
    child = lambda: random_value(rng, depth - 1 if size < 100 else 0, writable)
    if rng.random() < 0.5:
        return ("list", [child() for _ in range(size)])
    return ("table", {random_text(rng): child() for _ in range(size)})


# Random encodings in binary form.


def random_file(rng, value):
    """Returns a file of the value: objects in any order, shared or not, with any widths
    that are wide enough."""
    objects, known = [], {}
    share = rng.random()

    def add(value):
        key = repr(value)
        if key in known and rng.random() < share:
            return known[key]
        kind, content = value
        at = len(objects)
        objects.append(None)
        if kind == "list":
            objects[at] = (10, [[add(item) for item in content]])
        elif kind == "table":
            pairs = list(content.items())
            rng.shuffle(pairs)
            keys = [add(("text", key)) for key, _ in pairs]
            objects[at] = (13, [keys, [add(item) for _, item in pairs]])
        else:
            objects[at] = random_scalar_octets(rng, value)
        known[key] = at
        return at

    top = add(value)
    order = list(range(len(objects)))
    if rng.random() < 0.7:
        rng.shuffle(order)
    number = {old: new for new, old in enumerate(order)}
    width = rng.choice([w for w in range(1, 9) if len(objects) <= 256**w][: rng.choice([1, 8])])
    body, places = b"", []
    for old in order:
        places.append(8 + len(body))
        item = objects[old]
        if isinstance(item, tuple):
            refs = b"".join(number[ref].to_bytes(width, "big") for part in item[1] for ref in part)
            item = random_head(rng, item[0], len(item[1][0])) + refs
        body += item
        if rng.random() < 0.02:
            body += bytes([rng.randrange(256)])
    table = 8 + len(body)
    offset = rng.choice([w for w in range(1, 9) if table < 256**w][: rng.choice([1, 8])])
    slack = bytes(6) if rng.random() < 0.9 else bytes(rng.randrange(256) for _ in range(6))
    numbers = [len(order), number[top], table]
    return (
        b"bplist00"
        + body
        + b"".join(place.to_bytes(offset, "big") for place in places)
        + slack
        + bytes([offset, width])
        + b"".join(n.to_bytes(8, "big") for n in numbers)
    )


def random_head(rng, high, count):
    if count < 15 and rng.random() < 0.95:
        return bytes([high << 4 | count])
    sizes = [s for s in (0, 1, 2, 3, 4) if count < 256 ** (1 << s)]
    size = sizes[0] if rng.random() < 0.9 else rng.choice(sizes)
    return bytes([high << 4 | 15, 0x10 | size]) + count.to_bytes(1 << size, "big")


def random_scalar_octets(rng, value):
    kind, content = value
    if kind == "text":
        wide = any(unit > 127 for unit in content) or rng.random() < 0.1
        octets = b"".join(u.to_bytes(2, "big") for u in content) if wide else bytes(content)
        return random_head(rng, 6 if wide else 5, len(content)) + octets
    if kind == "bytes":
        return random_head(rng, 4, len(content)) + content
    if kind == "whole" and rng.random() < 0.1:
        if -(2**63) <= content < 2**63:
            return b"\x13" + content.to_bytes(8, "big", signed=True)
        return b"\x14" + content.to_bytes(16, "big")
    return oracle.spelled(value)


# Random OpenStep texts.


def random_gap(rng):
    pieces = [
        "",
        "",
        "",
        " ",
        "\n",
        "\t",
        "\x0b",
        "\x0c",
        "\u2028",
        "/* c */",
        "//x\n",
        "// \u2029",
        "/**/",
    ]
    return "".join(rng.choice(pieces) for _ in range(rng.choice([0, 0, 1, 2])))


def random_string(rng, units, unquoted=True):
    text = "".join(map(chr, units))
    plain = text and all(unit in oracle.RUN for unit in units) and not text.startswith(("//", "/*"))
    if plain and unquoted and rng.random() < 0.8:
        return text
    quote = rng.choice("\"'")
    out = quote
    for unit, behind in zip(units, list(units[1:]) + [0]):
        if chr(unit) in quote + "\\":
            out += "\\" + chr(unit)
        elif 0xD800 <= unit < 0xE000 or rng.random() < 0.2:
            out += (
                "\\U%04x" % unit if rng.random() < 0.7 or behind in oracle.HEX else "\\U%x" % unit
            )
        elif unit < 0x80 and rng.random() < 0.1 and not 48 <= behind < 56:
            out += "\\%o" % unit
        else:
            out += chr(unit)
    return out + quote


def random_text_of(rng, value, top=False):
    gap = lambda: random_gap(rng)
    kind, content = value
    if kind == "text":
        return random_string(rng, content)
    if kind == "bytes":
        white = lambda: rng.choice(["", "", "", " ", "\n"])
        digits = [
            white() + (d if rng.random() < 0.5 else d.upper()) for d in map("%02x".__mod__, content)
        ]
        return "<" + "".join(digits) + white() + ">"
    if kind == "list":
        items = [gap() + random_text_of(rng, item) + gap() for item in content]
        last = "," + gap() if items and rng.random() < 0.3 else gap() if not items else ""
        return "(" + ",".join(items) + last + ")"
    rows = []
    pairs = list(content.items())
    rng.shuffle(pairs)
    for key, item in pairs:
        alone = item == ("text", key) and rng.random() < 0.7
        rest = "" if alone else "=" + gap() + random_text_of(rng, item) + gap()
        rows.append(gap() + random_string(rng, key) + gap() + rest + ";")
    if rows and rng.random() < 0.02:
        rows.append(rng.choice(rows))
    inside = "".join(rows) + gap()
    return inside if top and rng.random() < 0.4 else "{" + inside + "}"


def random_text_octets(rng, value):
    text = random_gap(rng) + random_text_of(rng, value, top=True) + random_gap(rng)
    choice = rng.random()
    if choice < 0.7:
        return text.encode("utf-8", "surrogatepass")
    if choice < 0.8:
        return b"\xef\xbb\xbf" + text.encode("utf-8", "surrogatepass")
    mark, name = rng.choice([(b"\xfe\xff", "utf-16-be"), (b"\xff\xfe", "utf-16-le")])
    return mark + text.encode(name, "surrogatepass")


# Damage.


def damaged(rng, octets):
    octets = bytearray(octets)
    for _ in range(rng.choice([1, 1, 1, 2, 4])):
        at = rng.randrange(len(octets) + 1)
        kind = rng.random()
        if kind < 0.25 and at < len(octets):
            octets[at] = rng.randrange(256)
        elif kind < 0.4 and at < len(octets):
            octets[at] = rng.randrange(6)
        elif kind < 0.5 and at < len(octets):
            octets[at] ^= 1 << rng.randrange(8)
        elif kind < 0.65:
            octets[at:at] = bytes([rng.choice(b"{}(),;=\"'<>\\/*a0 U\xe2\xd8\x00")])
        elif kind < 0.8:
            del octets[at : at + rng.choice([1, 1, 2, 5])]
        elif kind < 0.9:
            del octets[at:]
        else:
            other = rng.randrange(len(octets) + 1)
            octets[at:at] = octets[other : other + rng.randrange(12)]
    return bytes(octets)


def is_writable(value):
    """Returns whether the value can be written as OpenStep text."""
    kind, content = value
    inside = content if kind == "list" else content.values() if kind == "table" else []
    return kind in ("text", "bytes", "list", "table") and all(map(is_writable, inside))


def spelling(rng, value, binary):
    """Returns the value in a random form, order, sharing and width."""
    if binary or not is_writable(value) or rng.random() < 0.5:
        return random_file(rng, value)
    return random_text_octets(rng, value)


def random_input(rng, binary):
    if not binary and rng.random() < 0.03:
        pool = [
            b"{",
            b"}",
            b"(",
            b")",
            b",",
            b";",
            b"=",
            b"a",
            b'"b"',
            b"<0f>",
            b"c",
            b" ",
            b"//",
            b"/*",
            b"*/",
        ]
        return b"".join(rng.choice(pool) for _ in range(rng.randrange(12)))
    value = random_value(rng, rng.choice([0, 1, 2, 3]), writable=not binary and rng.random() < 0.7)
    octets = spelling(rng, value, binary)
    if rng.random() >= (0.6 if binary else 0.4):
        return octets
    octets = damaged(rng, octets)
    return octets if not binary or octets.startswith(b"bplist") else b"bplist" + octets[6:]


# The program, and the answers that it has to give.


class Program:
    def __init__(self, path, folder, words):
        self.path, self.folder, self.words = os.path.abspath(path), folder, words

    def run(self, *words, input=b""):
        try:
            done = subprocess.run(
                [self.path, *words], input=input, capture_output=True, cwd=self.folder, timeout=60
            )
        except subprocess.TimeoutExpired:
            return None, b"no end within a minute"
        return done.returncode, done.stdout

    def file(self, name, octets=None):
        path = os.path.join(self.folder, name)
        if octets is not None:
            with open(path, "wb") as out:
                out.write(octets)
            return octets
        with open(path, "rb") as file:
            return file.read()


def answer(call, path):
    """Returns the value of the call and `None`, or `None` with the status and the
    line of its refusal."""
    try:
        return call(), None
    except Refused as fault:
        return None, (2, ("%s: refused %s\n" % (path, fault.text())).encode())


def differences(program, octets, other):
    """Returns a line for each answer of the program that is not that of the second reading."""
    program.file("in", octets)
    program.file("other", other)
    found = []

    def expect(word, got, want):
        if got != want:
            found.append("%s: answered %r, and not %r" % (word, got, want))

    value, refusal = answer(lambda: oracle.read_any(octets), "in")
    if "lint" in program.words:
        expect("lint", program.run("lint", "in"), refusal or (0, b"in: OK\n"))
    if "check" in program.words:
        expect_verdict(program, expect, octets)
    if "same" in program.words:
        second, second_refusal = answer(lambda: oracle.read_any(other), "other")
        same = (
            refusal
            or second_refusal
            or ((0, b"equal\n") if value == second else (1, b"different\n"))
        )
        expect("same", program.run("same", "in", "other"), same)
    if "print" in program.words:
        expect("print", program.run("print", "in"), refusal or (0, oracle.printed(value)))
    file = None if refusal else oracle.canonical(value)
    if "binary1" in program.words:
        expect_written(program, expect, "binary1", value, refusal, oracle.canonical)
    if "openstep" in program.words:
        written = expect_written(program, expect, "openstep", value, refusal, oracle.openstep)
        if written is not None and "none" in program.words:
            expect("no words, of the text", program.run(input=written), (0, file))
    if "none" in program.words:
        line = refusal and refusal[1].replace(b"in:", b"-:", 1)
        expect("no words", program.run(input=octets), (2, line) if refusal else (0, file))
    if not refusal:
        expect_canonical(program, expect, value, file)
    return found


def expect_verdict(program, expect, octets):
    verdict, fault = answer(lambda: oracle.check(octets), "in")
    told = fault or (0 if verdict == "canonical" else 1, verdict.encode() + b"\n")
    expect("check", program.run("check", "in"), told)


def expect_canonical(program, expect, value, file):
    if "none" in program.words:
        expect("no words, again", program.run(input=file), (0, file))
    if "check" in program.words:
        program.file("canonical", file)
        expect(
            "check of the canonical file", program.run("check", "canonical"), (0, b"canonical\n")
        )
    expect_plistlib(expect, value, file)


def expect_written(program, expect, form, value, refusal, write):
    program.file("out", b"as it was")
    octets, fault = (None, refusal) if refusal else answer(lambda: write(value), "in")
    expect("convert " + form, program.run("convert", form, "in", "out"), fault or (0, b""))
    expect("the file of convert " + form, program.file("out"), b"as it was" if fault else octets)
    return octets


EPOCH = datetime.datetime(2001, 1, 1)


def is_read(read, value):
    """Returns whether what plistlib read is the value."""
    kind, content = value
    if kind == "list":
        return (
            isinstance(read, list)
            and len(read) == len(content)
            and all(map(is_read, read, content))
        )
    if kind == "table":
        keys = {units_as_string(key): item for key, item in content.items()}
        return (
            isinstance(read, dict)
            and read.keys() == keys.keys()
            and all(is_read(read[key], item) for key, item in keys.items())
        )
    if kind in ("real4", "real8"):
        number = struct.unpack(">f" if kind == "real4" else ">d", content)[0]
        return isinstance(read, float) and (read == number or read != read and number != number)
    if kind == "moment":
        return read == EPOCH + datetime.timedelta(seconds=struct.unpack(">d", content)[0])
    plain = units_as_string(content) if kind == "text" else content
    return type(read) is type(plain) and read == plain


def units_as_string(units):
    return b"".join(unit.to_bytes(2, "big") for unit in units).decode("utf-16-be")


def expect_plistlib(expect, value, file):
    """Expects plistlib to read the file as the value. It refuses lone surrogates, and
    dates far from now."""
    try:
        read = plistlib.loads(file)
    except (plistlib.InvalidFileException, OverflowError, UnicodeDecodeError, ValueError):
        return
    expect("plistlib, which read %r, not that but the value" % (read,), is_read(read, value), True)


def main():
    parser = argparse.ArgumentParser()
    parser.add_argument("program")
    parser.add_argument("--seconds", type=float, default=60)
    parser.add_argument("--seed", type=int, default=1)
    parser.add_argument(
        "--keep", default="fuzz-differences", help="a folder for inputs that differ"
    )
    parser.add_argument(
        "--words", default="lint,check,binary1,openstep,print,same,none", help="what is tried"
    )
    parser.add_argument("--binary", action="store_true", help="binary files alone")
    arguments = parser.parse_args()
    rng, cases, bad = random.Random(arguments.seed), 0, 0
    end = time.monotonic() + arguments.seconds
    with tempfile.TemporaryDirectory() as folder:
        program, other = Program(arguments.program, folder, arguments.words.split(",")), b"{}"
        while time.monotonic() < end and bad < 5:
            octets = random_input(rng, arguments.binary)
            value, _ = answer(lambda: oracle.read_any(octets), "in")
            if value is not None and rng.random() < 0.4:
                other = spelling(rng, value, arguments.binary)
            found = differences(program, octets, other)
            cases += 1
            if found:
                bad += 1
                os.makedirs(arguments.keep, exist_ok=True)
                path = os.path.join(arguments.keep, "%d-%d" % (arguments.seed, cases))
                with open(path, "wb") as out:
                    out.write(octets)
                print(path, *found, sep="\n  ")
            other = octets if rng.random() < 0.5 else random_input(rng, arguments.binary)
    print("%d cases, %d differ" % (cases, bad))
    return 1 if bad else 0


if __name__ == "__main__":
    sys.exit(main())
