#!/usr/bin/env python3
"""Makes each allocation fail in turn, in runs of `plistconv` with each of its commands and in the
tests of the crates.

usage: bench/growths.py [PLISTCONV] [--short] [--library libplistconv.a] [--tests CRATE..]
       (./plistconv if not given; all crates with built tests)

A run of the program with a failed allocation must end as with ample memory, or with status 5 and
the line of 60, after writing as many bytes as that line says. If it fails before the first byte was
written, the output file must be unchanged. If several files are checked, one of them may have that
line, and the others must have their own. A test must pass, or return an allocation error or 60. One
whose assertion fails was given another answer, whatever numbers the assertion prints. Tests that
make more than 2,000 allocations, take longer than a second, or cannot tell these endings, are left
out by name.

With --library each allocation of plistconv_check fails in turn, on the canonical file of the array
of the strings 000 to 254. The function builds no value, so it makes fewer than 100 allocations. If
the 100th is to fail, the answer is therefore canonical; a checker that read and wrote the value
made 318. A test that reads the value of that file has to make more than 255, and to fail without
the 100th, so such a checker would be noticed. Each allocation of examples/c/calls.c fails in turn
too. It makes each call of the C library, and ends with 0, or with 5 after a 60 that changed
nothing.

With --short the program gets only a few inputs, and only a few tests run, which between them make
each call that allocates. That takes seconds. `rt test` in a crate builds its tests. The library
that makes allocations fail is bench/refuse.c, built with cc.
"""
import argparse
import collections
import glob
import os
import re
import subprocess
import sys
import tempfile
import time

from hostile_files import array, dictionary, head, joined, number as octets_of
from measure import HERE

MOST = 2_000
BEFORE = b"as it was"

SCALARS = b"\x10\x05", b"\x23" + bytes(8), head(0x40, 20) + bytes(20)
KEY = head(0x50, 16) + b"k" * 16
INPUTS = {
    "table.txt": b"{b=a;a=b;}",
    "mixed.txt": b'(a, <0f 61>, {k; "\\Ud800" = (b, {}); }, "/* c */", // c\n \'\xf0\x9f\x98\x80\')',
    "pairs.strings": '"a" = "b"; "c";'.encode("utf-16"),
    "twice.txt": b"{a;a=b;}",
    "open.txt": b"(a, b",
    "bad.txt": b"@",
    "table.bin": joined([b"\xd2\x01\x02\x02\x01", b"Qa", b"Qb"], 1),
    "unsorted.bin": joined([b"\xd2\x01\x02\x02\x01", b"Qb", b"Qa"], 1),
    "shared.bin": joined([b"\xa3\x01\x01\x02", b"\xa2\x02\x03", b"\x61\xd8\x00", b"\x41a"], 1),
    "scalars.bin": joined([array([1, 2, 3, 4], 1), *SCALARS, dictionary([5], 3, 1), KEY], 1),
    "cycle.bin": joined([b"\xa1\x00"], 1),
    "same-keys.bin": joined([b"\xd2\x01\x02\x03\x03", b"Qa", b"Qa", b"\x09"], 1),
    "short.bin": b"bplist00",
    # More keys than are sorted by their strings alone, whose order is reused; more numbers than fit
    # a set before it reserves space, of which some occur twice; long data.
    "seventy.bin": joined(
        [dictionary(range(70, 0, -1), 71, 1), *(b"\x54k%03d" % key for key in range(70)), b"\x09"],
        1,
    ),
    "numbers.bin": joined(
        [
            array([1 + place % 5_000 for place in range(6_000)], 2),
            *(b"\x11" + octets_of(place, 2) for place in range(5_000)),
        ],
        2,
    ),
    "long.bin": joined([b"\xa2\x01\x02", *[head(0x40, 80_000) + bytes(80_000)] * 2], 1),
}

# The inputs of --short: each command gets a file and a text that it accepts, and
# one that it refuses.
SHORT = ["table.txt", "twice.txt", "shared.bin", "same-keys.bin"]

# The tests of --short: between them they make each call of the library that allocates.
SHORT_TESTS = {
    "plist_tests": (
        "growths::",
        "object_tests::a_refused_put_leaves_the_list",
        "drafts::a_refused_put_leaves_the_draft",
        "sink_tests::loads_a_list_in_pieces",
        "tokens::a_refused_growth_changes_no_answer",
        "transfer_tests::what_went_out_is_a_front_of_the_output",
        "value_tests::copies_are_equal",
    ),
    "program_tests": ("growths::",),
}

WORDS = """convert binary1 IN out
convert openstep IN out
lint IN
check IN
print IN
same IN table.txt
same unsorted.bin IN
lint table.txt IN shared.bin
check unsorted.bin IN shared.bin""".splitlines()
OTHER_WORDS = """--help
convert --help
--version
turn table.bin
check
lint missing
check missing
convert binary1 table.bin no/out
same table.bin missing
explain
explain 14
explain turn""".splitlines()


# The test that reads the value of the file that plistconv_check is tried on.
BUILDS = "growths::a_value_of_many_strings_is_read"


# The tests that do not tell refused memory from another answer: they assert whole outputs or
# statuses, or write to a list whose refused growth is a failed write, 51. The calls that they make
# are those of SHORT_TESTS.
UNTOLD = (
    "device_tests::",
    "help_tests::",
    "host_tests::",
    "judge_tests::keys_in_another_order",
    "memory_tests::",
    "several_tests::",
    "sink_tests::a_writer_takes_what_is_put",
)

# What a test prints if one of its calls returned an allocation error or 60: the error that it
# returns itself, or the left side of a failed comparison, which is what the call returned. The
# right side is what was wanted instead, and the text of another assertion has the numbers that it
# allows.
REFUSED = re.compile(
    rb"^(?:[Ee]rror: (?!\").*(?:AllocError|AllocFailed|OutOfMemory|out of memory).*"
    rb"|  left: (?:.*\bOutOfMemory\b.*|60|Some\(60\)))$",
    re.MULTILINE,
)

# What a test may print, and whether that says that memory was refused.
SAID = {
    "error: AllocError": True,
    "Error: AllocError": True,
    "error: OutOfMemory { sent: 0 }": True,
    "assertion `left == right` failed\n  left: Some(OutOfMemory { sent: 0 })\n right: Some(ReadFailed)": True,
    "assertion `left == right` failed\n  left: Some(60)\n right: Some(14)": True,
    "assertion `left == right` failed\n  left: Cycle { object: 60 }\n right: OutOfMemory": False,
    "assertion `left == right` failed\n  left: 15\n right: 60": False,
    "assertion `left == right` failed\n  left: Some([60, 61])\n right: Some([])": False,
    "assertion failed: code == 15 || code == 60": False,
    "assertion failed: answer == Ok(verdict) || answer == Err(CheckFault::OutOfMemory)": False,
    "assertion failed: neither 15 nor 60": False,
    "error: Cycle { object: 60 }": False,
    'error: "60 OutOfMemory, AllocError"': False,
}


class Refusing:
    """Runs programs in which one allocation fails."""

    def __init__(self, folder):
        self.folder, self.out = folder, os.path.join(folder, "out")
        self.library, self.count = os.path.join(folder, "refuse.so"), os.path.join(folder, "count")
        words = ["cc", "-shared", "-fPIC", "-O1", "-o", self.library, HERE + "/refuse.c", "-ldl"]
        subprocess.run(words, check=True)

    def run(self, words, octets, number):
        """Returns the status, the output and the content of `out`, then standard error and the
        allocation count. Fails the allocation of this number, or none if it is 0."""
        # A run that is aborted leaves this count. It got at least to the failed allocation.
        for path, content in (self.out, BEFORE), (self.count, b"%d" % number):
            with open(path, "wb") as file:
                file.write(content)
        more = {"LD_PRELOAD": self.library, "FAIL_AT": str(number), "FAIL_COUNT": self.count}
        env = {**os.environ, **more}
        ran = subprocess.run(words, input=octets, capture_output=True, env=env, timeout=60)
        with open(self.out, "rb") as out, open(self.count, "rb") as count:
            return (ran.returncode, ran.stdout, out.read()), ran.stderr, int(count.read())

    def each(self, words, octets, allocations, way):
        """Fails each allocation in turn. Returns how many runs ended in which way, as `way` tells
        by the ending and standard error, and prints those that ended otherwise."""
        counts, number, most = collections.Counter(), 0, allocations
        while number < allocations:
            number += 1
            ending, complaint, allocations = self.run(words, octets, number)
            # A run that is aborted does not count the allocations after the refused one.
            allocations = most if ending[0] < 0 else allocations
            told = way(ending, complaint)
            counts[told] += 1
            if told == "otherwise":
                run = f"{os.path.basename(words[0])} {words[1:]}, {octets[:80]!r}"
                said = [it[-200:] for it in (*ending[1:], complaint)]
                print(f"{run}, allocation {number}: {ending[0]}, {said}", flush=True)
        return counts


def report(name, counts):
    """Prints how often runs ended in which way, and returns how many ended otherwise."""
    told = ", ".join(f"{runs} runs ended {told}" for told, runs in sorted(counts.items()))
    print(f"{name}: {told}", flush=True)
    return counts["otherwise"]


def is_wanting(ending, ample, path):
    """Returns whether the run ended out of memory, after writing as many bytes of the ample output
    as it says. If the output goes to standard output, it precedes the line of this path there."""
    status, output, written = ending
    # The bytes before the line need not end with a newline.
    named = rb"[^\n]*" if path is None else re.escape(path)
    line = re.search(
        rb"(?:" + named + rb": )?refused 60 OutOfMemory(?: after (?P<sent>\d+) octets)?\n$", output
    )
    if status != 5 or line is None:
        return False
    sent = int(line["sent"] or 0)
    if path is not None:
        return output == ample[1][:sent] + line[0] and written == BEFORE
    return output == line[0] and written == (ample[2][:sent] if sent else BEFORE)


def wanting_file(ending, ample):
    """Returns the number of the one file that has the line of 60, if the lines of the other files
    are as with ample memory, or 0."""
    status, output, written = ending
    lines, others = output.splitlines(keepends=True), ample[1].splitlines(keepends=True)
    differing = [number for number, pair in enumerate(zip(lines, others), 1) if pair[0] != pair[1]]
    if status != 5 or written != BEFORE or len(lines) != len(others) or len(differing) != 1:
        return 0
    line = re.fullmatch(
        rb"(?:[^\n]*: )?refused 60 OutOfMemory(?: after 0 octets)?\n", lines[differing[0] - 1]
    )
    return differing[0] if line else 0


def how_it_ended(words, ending, ample):
    """Returns how the run ended: otherwise than it must, or as it may."""
    path = b"-" if len(words) == 1 else words[2].encode() if words[1] == "print" else None
    if ending == ample:
        return "as with ample memory"
    if is_wanting(ending, ample, path):
        return "60"
    is_of_files = words[1:2] in (["lint"], ["check"]) and len(words) > 3
    number = wanting_file(ending, ample) if is_of_files else 0
    return f"60 for file {number}" if number else "otherwise"


def program_runs(program, names):
    for words in WORDS:
        for name in names:
            yield [program, *words.replace("IN", name).split()], b""
    for words in OTHER_WORDS:
        yield [program, *words.split()], b""
    for name in names:
        yield [program], INPUTS[name]


def texts_to_254(program):
    """Returns the canonical file of the array of the strings 000 to 254."""
    objects = [array(range(1, 256), 1), *(b"\x53%03d" % text for text in range(255))]
    return subprocess.run([program], input=joined(objects, 1), stdout=subprocess.PIPE).stdout


def built(source, library, folder):
    """Builds a C program of this repository with the library, and returns its path."""
    top, program = os.path.join(HERE, ".."), os.path.join(folder, os.path.basename(source)[:-2])
    words = ["cc", "-std=c99", "-D_POSIX_C_SOURCE=200809L", f"-I{top}/include", f"{top}/{source}"]
    subprocess.run([*words, library, "-o", program], check=True)
    return program


def refuse_in_calls(library, refusing):
    """Returns how many runs of the calls of the C library do not end as they must."""
    program = built("examples/c/calls.c", library, refusing.folder)
    (status, *_), _, allocations = refusing.run([program], b"", 0)
    ways = {0: "with 0", 5: "with 5"}
    way = lambda ending, _: ways.get(ending[0], "otherwise")
    counts = refusing.each([program], b"", allocations, way)
    return report("the calls of the C library", counts) + (status != 0)


def refuse_in_check(ours, library, refusing):
    """Returns how many runs of plistconv_check do not end as they must."""
    program, octets = built("bench/check.c", library, refusing.folder), texts_to_254(ours)
    ample = 0, b"canonical\n", BEFORE
    ending, _, allocations = refusing.run([program], octets, 100)
    print(f"plistconv_check: {allocations} allocations; with the 100th refused: {ending[:2]}")
    ways = {ample: "as with ample memory", (5, b"refused 60\n", BEFORE): "60"}
    way = lambda ending, _: ways.get(ending, "otherwise")
    counts = refusing.each([program], octets, allocations, way)
    return report("plistconv_check", counts) + (ending != ample or not 0 < allocations < 100)


def refuse_in_program(program, refusing, names):
    """Returns how many runs of the program do not end as they must."""
    endings = collections.defaultdict(collections.Counter)
    for words, octets in program_runs(program, names):
        ample, _, allocations = refusing.run(words, octets, 0)
        kind = " ".join(words[1:3] if words[1:2] == ["convert"] else words[1:2]) or "no words"
        if kind in ("lint", "check") and len(words) > 3:
            kind += " of several files"
        way = lambda ending, _: how_it_ended(words, ending, ample)
        endings[kind] += refusing.each(words, octets, allocations, way)
    return sum(report(kind, counts) for kind, counts in endings.items())


def way_of_test(ample, ending, complaint):
    """Returns how a run of a test ended whose allocation was refused."""
    if ending[:2] == ample[:2]:
        return "as with ample memory"
    is_refused = REFUSED.search(ending[1] + complaint)
    return "with an allocation error or 60" if is_refused else "otherwise"


def tests_of(crate):
    """Returns the names of a crate's tests, module by module."""
    root = os.path.join(HERE, "..", "crates", crate, "src")
    for path in sorted(glob.glob(os.path.join(root, "**", "*.rt"), recursive=True)):
        module = os.path.relpath(path, root)[: -len(".rt")].replace(os.sep, "::")
        with open(path, encoding="utf-8") as source:
            for name in re.findall(r"#\[test\]\s+fn (\w+)", source.read()):
                yield name if module == "lib" else f"{module}::{name}"


def refuse_in_tests(crate, refusing, only=None):
    """Returns how many runs of the tests do not end as they must; `only` are the
    beginnings of names."""
    counts, left_out = collections.Counter(), []
    program = os.path.abspath(os.path.join(HERE, "..", "crates", crate, "out", crate + "_tests"))
    if not os.path.exists(program):
        print(f"tests of {crate}: skipped, not built, which `rt test` in crates/{crate} does")
        return 0
    names = [name for name in tests_of(crate) if only is None or name.startswith(only)]
    absent = [it for it in only or () if not any(name.startswith(it) for name in names)]
    wrong = [f"there is no {it}" for it in absent]
    for name in names:
        words, begin = [program, name], time.perf_counter()
        ample, _, allocations = refusing.run(words, b"", 0)
        is_long = time.perf_counter() - begin > 1 or allocations > MOST
        if only is None and (is_long or name.startswith(UNTOLD)):
            left_out.append(name)
            continue
        if name == BUILDS:
            is_needed = refusing.run(words, b"", 100)[0][:2] != ample[:2]
            if allocations <= 255 or not is_needed:
                wrong.append(f"{name}: {allocations} allocations, and the 100th: {is_needed}")
        way = lambda *ending: way_of_test(ample, *ending)
        counts += refusing.each(words, b"", allocations, way)
    if left_out:
        print(f"tests of {crate} left out: {', '.join(left_out)}", flush=True)
    for line in wrong:
        print(f"tests of {crate}: {line}", flush=True)
    return report(f"tests of {crate}", counts) + len(wrong)


def built_tests():
    """Returns the crates whose tests are built."""
    found = glob.glob(os.path.join(HERE, "..", "crates", "*", "out", "*_tests"))
    return sorted(path.split(os.sep)[-3] for path in found if os.path.isfile(path))


def main():
    parser = argparse.ArgumentParser()
    parser.add_argument("program", nargs="?", default="./plistconv")
    parser.add_argument("--short", action="store_true")
    parser.add_argument("--library", type=os.path.abspath)
    parser.add_argument("--tests", nargs="*", metavar="CRATE")
    words = parser.parse_args()
    program, names = os.path.abspath(words.program), SHORT if words.short else INPUTS
    tests = SHORT_TESTS if words.short else dict.fromkeys(words.tests or built_tests())
    with tempfile.TemporaryDirectory() as folder:
        refusing = Refusing(folder)
        os.chdir(folder)
        for name, octets in INPUTS.items():
            with open(name, "wb") as file:
                file.write(octets)
        mistaken = [it for it in SAID if bool(REFUSED.search(it.encode())) != SAID[it]]
        print("".join(f"taken for the other ending: {it!r}\n" for it in mistaken), end="")
        wrong = len(mistaken) + refuse_in_program(program, refusing, names)
        if words.library:
            wrong += refuse_in_check(program, words.library, refusing)
            wrong += refuse_in_calls(words.library, refusing)
        wrong += sum(refuse_in_tests(crate, refusing, only) for crate, only in tests.items())
    print("each run ended as it should" if wrong == 0 else f"{wrong} runs ended otherwise")
    return 1 if wrong else 0


if __name__ == "__main__":
    sys.exit(main())
