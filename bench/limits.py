#!/usr/bin/env python3
"""bench/limits.py PROGRAM [--large]: checks what is too long for tests. No contract says when
memory is refused, so a command could report 60 for whatever is longer than the values of the tests.

- `lint` refuses a text that exceeds the limit of nodes, of 50 MB or in UTF-16 of 100, though
  another refusal is true of it too.
- Each command reads, writes and compares values of 70,000 keys, of 1,100,000 strings, of 3 MiB of
  data, of strings of 30 MB, and of 450 levels. It refuses such a value with a duplicate key, and a
  long text with an error at its end. Each of these texts is read as UTF-8 and as UTF-16.
- Each command reads files with 140,000 keys in descending order, with a top object past 2^21, with
  65,700 strings twice, and with 110 MB of text; `check` names the first broken rule of files that
  are longer than those of the tests, or have long keys in many dictionaries.
- `lint` opens a path of 200 bytes, and one of 4,090, and reports one that is longer than
  any path of the system.

With --large also the limit of payload (537 MB, 2 GB of memory), a file of 16,777,300 objects, and a
text of 300 MB. What does not fit on this machine is skipped."""
import collections
import os
import shutil
import subprocess
import sys
import tempfile

from hostile_files import array, dictionary, file, head, joined, least, number, trailer

NODES = 16_777_216
UNITS = 1_073_741_824 // 2
NODES_17, PAYLOAD_18 = b"17 TooManyNodes", b"18 TooMuchPayload"


def available():
    """Returns how many bytes of memory are left, or 0 if the system does not tell."""
    try:
        with open("/proc/meminfo", encoding="ascii") as lines:
            found = dict(line.split(":") for line in lines)
        return 1024 * int(found["MemAvailable"].split()[0])
    except (OSError, KeyError):
        return 0


class Runs:
    """Runs of the program in a folder, and how many of them ended otherwise than they must."""

    def __init__(self, program, folder):
        self.program, self.folder, self.wrong = program, folder, 0

    def put(self, name, octets):
        with open(os.path.join(self.folder, name), "wb") as file:
            file.write(octets)

    def content(self, name):
        with open(os.path.join(self.folder, name), "rb") as file:
            return file.read()

    def expect(self, name, words, status, printed, file=None):
        """Runs the program, which has to print this. With `file` the path `out` has to have
        these bytes then."""
        run = subprocess.run([self.program, *words.split()], cwd=self.folder, capture_output=True)
        if (run.returncode, run.stdout) != (status, printed):
            fault = f"status {run.returncode}, {run.stdout[:200]!r}"
        elif file is not None and self.content("out") != file:
            fault = "another file"
        else:
            return
        self.wrong += 1
        print(f"{name}: {words[:80]}: {fault}", flush=True)


def wide(text):
    """Returns a text as UTF-16."""
    return text.decode().encode("utf-16")


# How a text is written, and where its offsets are then.
PLAIN, WIDE = FORMS = [(bytes, int), (wide, lambda octet: 2 + 2 * octet)]

# Texts at the limits, with their form, and the refusal and its offset, if there is one. Each empty
# array is a node, and so is what contains it.
DEEP, TWICE = NODES - 512, NODES - 3
LIMITS = {
    "all nodes": (lambda: b"(" + b"()," * (NODES - 1) + b")", PLAIN, None, 0),
    "one more": (lambda: b"(" + b"()," * NODES + b")", WIDE, NODES_17, 3 * NODES - 2),
    "one too deep": (lambda: b"(" + b"()," * DEEP + b"(" * 512, PLAIN, NODES_17, 512 + 3 * DEEP),
    "a duplicate": (lambda: b"{a=(" + b"()," * TWICE + b");a;}", PLAIN, NODES_17, 6 + 3 * TWICE),
}
LARGE = {
    "all payload": (lambda: b"(" + b"a" * (UNITS - 1) + b",b)", PLAIN, None, 0),
    "one letter more": (lambda: b"(" + b"a" * UNITS + b",b)", PLAIN, PAYLOAD_18, UNITS + 2),
    "another string": (lambda: b"a" * (UNITS + 1) + b" b", PLAIN, PAYLOAD_18, 0),
    "too deep as well": (lambda: b"(" * 512 + b"a" * (UNITS + 1), PLAIN, b"16 TooDeep", 512),
}


def keep_limits(runs, limits):
    """Has `lint` read the texts."""
    for name, (make, (form, offset), refusal, place) in limits.items():
        runs.put("text", form(make()))
        said = b"refused %s at octet %d" % (refusal, offset(place)) if refusal else b"OK"
        runs.expect(name, "lint text", 2 if refusal else 0, b"text: " + said + b"\n")


# Values, in each of their forms.

Value = collections.namedtuple("Value", "text file written printed")


def canonical(objects):
    """Returns the canonical file of these objects."""
    return joined(objects, least(len(objects)), least(8 + sum(map(len, objects))))


def keys(count):
    """Returns a dictionary of numbered keys with the same value."""
    names = [b"%06d" % key for key in range(count)]
    first = dictionary(range(1, count + 1), count + 1, least(count + 2))
    return Value(
        b"{" + b"".join(b"%s=v;" % name for name in reversed(names)) + b"}",
        canonical([first, *(b"\x56" + name for name in names), b"Qv"]),
        b"{\n" + b"".join(b"%s = v;\n" % name for name in names) + b"}\n",
        b"{\n" + b"".join(b'  "%s" => "v"\n' % name for name in names) + b"}\n",
    )


def items(count):
    """Returns an array of different strings."""
    names = [b"%07d" % item for item in range(count)]
    first = array(range(1, count + 1), least(count + 1))
    return Value(
        b"(" + b",".join(names) + b")",
        canonical([first, *(b"\x57" + name for name in names)]),
        b"(\n" + b"".join(b"%s,\n" % name for name in names) + b")\n",
        b"[\n" + b"".join(b'  "%s"\n' % name for name in names) + b"]\n",
    )


def data(size):
    lines = b"".join(b"  " + b"07" * min(32, size - start) + b"\n" for start in range(0, size, 32))
    return Value(
        b"<" + b"07" * size + b">",
        canonical([head(0x40, size) + b"\x07" * size]),
        b"<" + b"07" * size + b">\n",
        b"<\n" + lines + b">\n",
    )


def strings(size):
    """Returns an array of a string of ASCII and one in UTF-16, of three bytes of text for each."""
    letters, accents = b"a" * size, "é".encode() * size
    units = head(0x60, size) + b"\0\xe9" * size
    return Value(
        b"(" + letters + b',"' + accents + b'")',
        canonical([b"\xa2\x01\x02", head(0x50, size) + letters, units]),
        b"(\n" + letters + b',\n"' + b"\\U00e9" * size + b'",\n)\n',
        b'[\n  "' + letters + b'"\n  "' + accents + b'"\n]\n',
    )


def arrays(levels):
    """Returns arrays that each contain the next one, down to an empty one."""
    outer = [array([level], least(levels)) for level in range(1, levels)]
    *indents, last = (b"  " * min(level, 32) for level in range(levels))
    opened = b"".join(indent + b"[\n" for indent in indents)
    closed = b"".join(indent + b"]\n" for indent in reversed(indents))
    return Value(
        b"(" * levels + b")" * levels,
        canonical([*outer, b"\xa0"]),
        b"(\n" * levels + b")" + b",\n)" * (levels - 1) + b"\n",
        opened + last + b"[]\n" + closed,
    )


def dictionaries(levels):
    """Returns dictionaries that each have the next one for their key `k`, down to an empty one."""
    inner = [dictionary([1], level, least(levels + 1)) for level in range(2, levels + 1)]
    *indents, last = (b"  " * min(level, 32) for level in range(levels))
    opened = b"".join(indent + b'"k" => {\n' for indent in indents[1:])
    closed = b"".join(indent + b"}\n" for indent in reversed(indents))
    return Value(
        b"{k=" * (levels - 1) + b"{}" + b";}" * (levels - 1),
        canonical([inner[0], b"Qk", *inner[1:], b"\xd0"]),
        b"{\nk = " * (levels - 1) + b"{\n}" + b";\n}" * (levels - 1) + b"\n",
        b"{\n" + opened + last + b'"k" => {}\n' + closed,
    )


def accept(runs, name, value):
    """Has each command read the value as a text, in UTF-8 and UTF-16, and as a file."""
    runs.put("text", value.text)
    runs.put("wide", wide(value.text))
    runs.put("file", value.file)
    for path in ("text", "wide", "file"):
        runs.expect(name, f"lint {path}", 0, path.encode() + b": OK\n")
        runs.expect(name, f"convert binary1 {path} out", 0, b"", value.file)
        runs.expect(name, f"convert openstep {path} out", 0, b"", value.written)
        runs.expect(name, f"print {path}", 0, value.printed)
    runs.expect(name, "same text file", 0, b"equal\n")
    runs.expect(name, "same file wide", 0, b"equal\n")
    runs.expect(name, "check file", 0, b"canonical\n")


def refuse_all(runs, name, octets, refusal):
    """Has each command refuse the input."""
    runs.put("file", octets)
    runs.put("other", b"a")
    converting = "convert binary1 file out", "convert openstep file out"
    for words in (*converting, "lint file", "print file", "same file other", "same other file"):
        runs.expect(name, words, 2, b"file: refused " + refusal + b"\n")


def repeated(count):
    """Returns a text of a dictionary whose last key repeats the first, the offset of that key,
    and a file of it."""
    made, width = keys(count), least(count + 2)
    at = 8 + len(head(0xD0, count)) + (count - 1) * width
    file = made.file[:at] + number(1, width) + made.file[at + width :]
    return made.text[:-1] + made.text[1:10] + b"}", len(made.text) - 1, file


def refuse_text(runs, name, text, refusal, octet):
    """Has each command refuse the text, in UTF-8 and UTF-16."""
    for form, offset in FORMS:
        refuse_all(runs, name, form(text), b"%s at octet %d" % (refusal, offset(octet)))


def refuse_long(runs):
    text, second, file = repeated(70_000)
    refuse_text(runs, "70,000 keys and a duplicate", text, b"14 DuplicateKey", second)
    refuse_all(runs, "70,000 keys and a duplicate, in a file", file, b"14 DuplicateKey at object 0")
    digits = b"<" + b"07" * (3 << 20)
    refuse_text(runs, "3 MiB of data without an end", digits, b"29 BadData", len(digits))
    strings = b"(" + b"a, " * 1_100_000
    refuse_text(runs, "strings without an end", strings, b"30 Expected", len(strings))


def unused(count):
    """Returns a file of so many objects, all of them one boolean, and the
    canonical file of that."""
    file = b"bplist00\x09" + b"\x08" * count + trailer(1, 4, count, 9)
    return file, canonical([b"\x09"])


def read_many(runs, count):
    """Has each command read a file of many objects."""
    name, (octets, own) = f"{count:,} objects", unused(count)
    runs.put("file", octets)
    runs.put("own", own)
    runs.expect(name, "lint file", 0, b"file: OK\n")
    runs.expect(name, "convert binary1 file out", 0, b"", own)
    runs.expect(name, "convert openstep file out", 2, b"file: refused 40 NotInOpenStep\n")
    runs.expect(name, "print file", 0, b"true\n")
    runs.expect(name, "same file own", 0, b"equal\n")
    runs.expect(name, "check file", 1, b"broken C3 at object 1\n")


def convert_all(runs, name, octets, value):
    """Has each command read the file, which is not canonical but spells the value."""
    runs.put("file", octets)
    runs.put("own", value.file)
    runs.expect(name, "lint file", 0, b"file: OK\n")
    runs.expect(name, "convert binary1 file out", 0, b"", value.file)
    runs.expect(name, "convert openstep file out", 0, b"", value.written)
    runs.expect(name, "print file", 0, value.printed)
    runs.expect(name, "same file own", 0, b"equal\n")


def descending(count):
    """Returns a file of the dictionary of `keys`, whose keys are in descending order."""
    names = [b"\x56%06d" % key for key in reversed(range(count))]
    return joined([dictionary(range(1, count + 1), count + 1, 4), *names, b"Qv"], 4)


def named_twice(count):
    """Returns a file of an array of strings, each of them twice, with an object for each, and its
    value."""
    names = [b"%07d" % item for item in range(count)] * 2
    objects = [b"\x57" + name for name in names]
    own = array([*range(1, count + 1)] * 2, least(count + 1))
    return joined([array(range(1, 2 * count + 1), 4), *objects], 4), Value(
        None,
        canonical([own, *objects[:count]]),
        b"(\n" + b"".join(b"%s,\n" % name for name in names) + b")\n",
        b"[\n" + b"".join(b'  "%s"\n' % name for name in names) + b"]\n",
    )


def one_often(count, size):
    """Returns a file of an array with many references to one string, and its value."""
    text = b"a" * size
    objects = head(0x50, size) + text
    return joined([array([1] * count, 2), objects], 2), Value(
        None,
        canonical([array([1] * count, 1), objects]),
        b"(\n" + b"%s,\n" % text * count + b")\n",
        b"[\n" + b'  "%s"\n' % text * count + b"]\n",
    )


def read_last(runs, count):
    """Has each command read a file whose top object is the last of many."""
    name, table = f"object {count - 1:,} as the top", b"\x08" * count
    end = bytes(6) + b"\x01\x04" + b"".join(number(n, 8) for n in (count, count - 1, 9))
    runs.put("file", b"bplist00\x09" + table + end)
    runs.put("own", canonical([b"\x09"]))
    runs.expect(name, "lint file", 0, b"file: OK\n")
    runs.expect(name, "convert binary1 file out", 0, b"", canonical([b"\x09"]))
    runs.expect(name, "print file", 0, b"true\n")
    runs.expect(name, "same file own", 0, b"equal\n")
    runs.expect(name, "check file", 1, b"broken C1 at object 0\n")


def gapped(objects, width, place):
    """Returns a file of these objects, with an unused byte before the one at this place."""
    own = [b"\x09" * (number == place) + one for number, one in enumerate(objects)]
    ends = [8 + sum(map(len, own[: number + 1])) for number in range(len(own))]
    places = [end - len(one) for end, one in zip(ends, objects)]
    return file(b"".join(own), places, width, least(ends[-1]))


LONG = b"\x5f\x10\x07"  # (the marker of seven ASCII characters, with a count that needs no byte)


def broken_late(runs):
    """Has `check` name the first broken rule of files that break another one at a later object."""
    count = 5_000
    names = [b"\x57%07d" % name for name in range(1, count + 1)]
    items = [array(range(1, count + 1), 2), *names]
    items[20], items[4_500] = items[10], LONG + b"abcdefg"
    runs.put("file", canonical(items))
    runs.expect("a string again, and a long count", "check file", 1, b"broken C6 at object 20\n")
    pairs = [dictionary(range(1, count + 1), count + 1, 2), *names, b"Qv"]
    pairs[3] = LONG + b"0000003"
    runs.put("file", gapped(pairs, 2, 4_500))
    runs.expect("a long count, and a gap", "check file", 1, b"broken C4 at object 3\n")
    keys_of = [bytes([0xD2, 11, 12 + one % 2, 14, 15]) for one in (1, 0) * 5]
    texts = [head(0x50, 200) + letter * 200 for letter in (b"a", b"b", b"c")]
    file_of_keys = [array(range(1, 11), 1), *keys_of, *texts, b"\x5f\x10\x01v", b"Qw"]
    runs.put("file", gapped(file_of_keys, 1, 15))
    runs.expect("long keys in many dictionaries", "check file", 1, b"broken C4 at object 14\n")


def open_paths(runs):
    """Has the program open long paths."""
    runs.put("text", b"a")
    for size in (200, 4_090):
        name, folder = f"a path of {size} bytes", "./" * ((size - 4) // 2)
        runs.expect(name, f"lint {folder}text", 0, folder.encode() + b"text: OK\n")
        runs.expect(name, f"convert openstep {folder}text {folder}out", 0, b"", b"a\n")
    for size in (300, 5_000):
        path = "n" * size
        refused = path.encode() + b": refused 50 ReadFailed\n"
        runs.expect(f"a name of {size} bytes", f"lint {path}", 4, refused)


def try_all(runs):
    keep_limits(runs, LIMITS)
    for name, make, size in (
        ("70,000 keys", keys, 70_000),
        ("1,100,000 strings", items, 1_100_000),
        ("3 MiB of data", data, 3 << 20),
        ("strings of 30 MB", strings, 10_000_000),
        ("450 levels of arrays", arrays, 450),
        ("450 levels of dictionaries", dictionaries, 450),
    ):
        accept(runs, name, make(size))
    refuse_long(runs)
    convert_all(runs, "140,000 keys that descend", descending(140_000), keys(140_000))
    convert_all(runs, "65,700 strings twice", *named_twice(65_700))
    convert_all(runs, "110 MB of text", *one_often(1_100, 100_000))
    read_last(runs, 2**21 + 6)
    broken_late(runs)
    open_paths(runs)


def try_large(runs):
    keep_limits(runs, LARGE)
    read_many(runs, NODES + 84)
    accept(runs, "a text of 300 MB", data(150_000_000))


def main():
    program, large = os.path.abspath(sys.argv[1]), "--large" in sys.argv[2:]
    with tempfile.TemporaryDirectory() as folder:
        runs = Runs(program, folder)
        for trying, memory in [(try_all, 1 << 30), (try_large, 3 << 30)][: 2 if large else 1]:
            if shutil.disk_usage(folder).free < 2_000_000_000 or 0 < available() < memory:
                print("skipped: there is not enough memory, or no room on the disk")
                return 1 if runs.wrong else 77
            trying(runs)
    return 1 if runs.wrong else 0


if __name__ == "__main__":
    sys.exit(main())
