"""Tests plistconv, beside plistlib: python3 bindings/python/test_plistconv.py

PLISTCONV_LIBRARY names the library, as for the module."""
import concurrent.futures
import ctypes
import datetime
import doctest
import mmap
import os
import pickle
import plistlib
import random
import re
import subprocess
import sys
import threading
import unittest

import plistconv

TOP = os.path.join(os.path.dirname(os.path.abspath(__file__)), "..", "..")

VALUES = [
    {},
    [],
    "",
    "text",
    "héé 🙂",
    b"",
    b"\x00\xff" * 9,
    True,
    False,
    0,
    -1,
    2**63 - 1,
    -(2**63),
    1.5,
    -0.0,
    datetime.datetime(2026, 1, 2, 3, 4, 5),
    ["a", "a", ["a"]],
    {"b": 1, "a": [True, {"c": b"x"}]},
    {f"key{k}": list(range(k)) for k in range(20)},
    ["x" * 300, list(range(-20, 300))],
]


def raised(call, *arguments):
    """Returns the refusal that a call raises, or None."""
    try:
        call(*arguments)
    except plistconv.Refused as refusal:
        return refusal
    return None


def refused(call, *arguments):
    """Returns what the refusal of a call says, or None."""
    found = raised(call, *arguments)
    return found and (found.number, found.unit, found.place, found.input)


class Rows(unittest.TestCase):
    """The answers of bindings/rows.txt, which every binding gives."""

    @staticmethod
    def answer(call, octets):
        try:
            output = call(octets)
        except plistconv.Refused as refused:
            return f"{refused.number}/{refused.unit or 'none'}/{refused.place or 0}"
        if isinstance(output, plistconv.Finding):
            return "canonical" if output else f"C{output.rule}/{output.object}"
        return (output.encode() if isinstance(output, str) else output).hex()

    def test_rows(self):
        calls = plistconv.canonical, plistconv.text, plistconv.printed, plistconv.check
        with open(os.path.join(TOP, "bindings", "rows.txt"), encoding="ascii") as file:
            rows = [line.split() for line in file if not line.startswith("#")]
        self.assertGreater(len(rows), 50)
        for name, octets, *answers in rows:
            octets = bytes.fromhex(octets.strip("-"))
            with self.subTest(name):
                self.assertEqual([self.answer(call, octets) for call in calls], answers)
                is_refused = refused(plistconv.lint, octets) is not None
                self.assertEqual(is_refused, "/" in answers[0])
                if not is_refused:
                    self.assertTrue(plistconv.same(octets, plistconv.canonical(octets)))


class Values(unittest.TestCase):
    def test_values(self):
        files = []
        for value in VALUES:
            with self.subTest(value):
                ours = plistconv.canonical(plistlib.dumps(value, fmt=plistlib.FMT_BINARY))
                self.assertEqual(plistlib.loads(ours), value)
                self.assertEqual(plistconv.canonical(ours), ours)
                self.assertEqual(plistconv.check(ours), plistconv.Finding(True))
                files.append(ours)
        for i, first in enumerate(files):
            for j, second in enumerate(files):
                self.assertEqual(plistconv.same(first, second), i == j, (i, j))

    def test_order_of_keys(self):
        def dumps(order):
            return plistlib.dumps(
                {key: key for key in order}, fmt=plistlib.FMT_BINARY, sort_keys=False
            )

        keys = [f"k{n}" for n in range(50)]
        first = dumps(keys)
        random.Random(1).shuffle(keys)
        second = dumps(keys)
        self.assertNotEqual(first, second)
        self.assertTrue(plistconv.same(first, second))
        self.assertEqual(plistconv.canonical(first), plistconv.canonical(second))
        finding = plistconv.check(second)
        self.assertFalse(finding or finding.canonical)
        self.assertNotIn(None, (finding.rule, finding.object))
        self.assertEqual(pickle.loads(pickle.dumps(finding)), finding)
        self.assertTrue(plistconv.check(plistconv.canonical(second)))

    def test_texts(self):
        octets, value = b'{ b = (x, "y"); a = <00ff>; }', {"a": b"\x00\xff", "b": ["x", "y"]}
        self.assertEqual(plistlib.loads(plistconv.canonical(octets)), value)
        self.assertTrue(plistconv.same(octets, plistlib.dumps(value, fmt=plistlib.FMT_BINARY)))

    def test_openstep(self):
        octets = plistlib.dumps({"b": ["x", "y z"], "a": b"\x00\xff"}, fmt=plistlib.FMT_BINARY)
        text = plistconv.text(octets)
        self.assertEqual(plistconv.text(text), text)
        self.assertTrue(plistconv.same(octets, text))
        number = plistlib.dumps([1], fmt=plistlib.FMT_BINARY)
        self.assertEqual(refused(plistconv.text, number), (40, None, None, 1))

    def test_printed(self):
        date = datetime.datetime(2025, 11, 22, 19, 54, 22)
        value = {"b": ["x", 5, 3.25, True, {}], "a": b"\x00\xff", "\u00e9\n": date}
        octets = plistlib.dumps(value, fmt=plistlib.FMT_BINARY, sort_keys=False)
        lines = [
            "{",
            '  "a" => <00ff>',
            '  "b" => [',
            '    "x"',
            "    5",
            "    3.25",
            "    true",
            "    {}",
            "  ]",
            '  "\u00e9\\n" => date 785534062.0 (2025-11-22T19:54:22Z)',
            "}",
        ]
        self.assertEqual(plistconv.printed(octets), "\n".join(lines) + "\n")

    def test_corpus_of_plistlib(self):
        """The files that the tests of plistlib hold: where both accept one, they read the same."""
        try:
            from test import test_plistlib as corpus
        except ImportError:
            self.skipTest("there is no test.test_plistlib (Debian: libpython3-testsuite)")
        octets = corpus.TESTDATA[plistlib.FMT_BINARY]
        ours = plistconv.canonical(octets)
        self.assertEqual(plistlib.loads(ours), plistlib.loads(octets))
        self.assertTrue(plistconv.check(ours) and plistconv.same(ours, octets))
        self.assertEqual(refused(plistconv.canonical, corpus.TESTDATA["KEYED_ARCHIVE"])[0], 9)
        self.assertEqual(refused(plistconv.canonical, corpus.TESTDATA[plistlib.FMT_XML])[0], 21)
        # What plistlib refuses is refused, but here a string is any UTF-16 units, and
        # a date any 8 bytes.
        for name, octets in corpus.INVALID_BINARY_PLISTS:
            accepted = refused(plistconv.canonical, b"bplist00" + octets) is None
            self.assertEqual(accepted, name == "invalid UTF-16" or "datetime" in name, name)


class Refusals(unittest.TestCase):
    def test_places(self):
        self.assertEqual(refused(plistconv.canonical, b"bplist00"), (1, None, None, 1))
        self.assertEqual(refused(plistconv.check, b""), (1, None, None, 1))
        self.assertEqual(refused(plistconv.canonical, b'("a'), (24, "octet", 1, 1))
        self.assertEqual(refused(plistconv.same, b"(a)", b"{a=1;a=2;}"), (14, "octet", 5, 2))
        self.assertEqual(refused(plistconv.same, b"(", b"("), (30, "octet", 1, 1))
        uid = plistlib.dumps([plistlib.UID(1)], fmt=plistlib.FMT_BINARY)
        self.assertEqual(refused(plistconv.canonical, uid), (9, "object", 1, 1))

    def test_enum(self):
        """The enum has the numbers and names of the library's source, and the library
        knows each of them."""
        source = os.path.join(TOP, "crates", "plist_value", "src", "refusals.rt")
        with open(source, encoding="utf-8") as file:
            names = re.findall(r"(?m)^    (\w+) = (\d+),$", file.read())
        wanted = {
            re.sub(r"(?<=.)([A-Z])", r"_\1", name).upper(): int(number) for name, number in names
        }
        self.assertEqual({refusal.name: refusal.value for refusal in plistconv.Refusal}, wanted)
        for name, number in names:
            lines = [
                str(plistconv.Refused(int(number), unit, place))
                for unit, place in [(None, None), ("object", 7), ("octet", 7), ("sent", 7)]
            ]
            self.assertIn(f"{number} {name}", [" ".join(line.split()[:2]) for line in lines])
        with self.assertRaises(plistconv.Refused) as raised:
            plistconv.canonical(b"{a;a;}")
        self.assertIs(raised.exception.refusal, plistconv.Refusal.DUPLICATE_KEY)
        self.assertRaises(ValueError, lambda: plistconv.Refused(19).refusal)
        self.assertEqual(str(plistconv.Refused(19)), "refused 19")

    def test_lint(self):
        self.assertIsNone(plistconv.lint(b"(a, b)"))
        found = raised(plistconv.lint, b'("a')
        self.assertEqual((found.refusal, found.place), (plistconv.Refusal.UNCLOSED_STRING, 1))

    def test_size_of_input(self):
        """No call reads an input of 4,294,967,296 bytes: its refusal is 52. The memory
        is never touched."""
        try:
            large = mmap.mmap(-1, 1 << 32)
        except (OSError, ValueError, OverflowError) as fault:
            self.skipTest(f"there are no addresses for it ({fault})")
        library = ctypes.CDLL(plistconv._library._name)
        octets, size = ctypes.c_uint8.from_buffer(large), ctypes.c_size_t(1 << 32)
        key, into, length, equal = bytes(16), bytes(1), ctypes.c_size_t(), ctypes.c_uint8()
        refusal, finding = plistconv._Refusal(), plistconv._Finding()
        input, output = [ctypes.byref(octets), size], [
            into,
            ctypes.c_size_t(1),
            ctypes.byref(length),
        ]
        short, broken = [b"a", ctypes.c_size_t(1)], [b"(", ctypes.c_size_t(1)]
        for name, given, wanted in [
            ("canonical", [*input, key, *output], (52, 1)),
            ("text", [*input, *output], (52, 1)),
            ("print", [*input, *output], (52, 1)),
            ("lint", input, (52, 1)),
            ("check", [*input, key, ctypes.byref(finding)], (52, 1)),
            ("same", [*input, *short, key, ctypes.byref(equal)], (52, 1)),
            ("same", [*short, *input, key, ctypes.byref(equal)], (52, 2)),
            ("same", [*broken, *input, key, ctypes.byref(equal)], (30, 1)),
        ]:
            with self.subTest(name):
                function = getattr(library, "plistconv_" + name)
                function.restype = ctypes.c_uint8
                number = function(*given, ctypes.byref(refusal))
                self.assertEqual((number, refusal.number, refusal.input), (wanted[0], *wanted))
        del octets, input

    def test_lines(self):
        for octets, line in [
            (b'("a', b"a b.plist: refused 24 UnclosedString at octet 1"),
            (b"{a=1;a=2;}", b"a b.plist: refused 14 DuplicateKey at octet 5"),
            (b"bplist00", b"a b.plist: refused 1 TooShort"),
            (
                plistlib.dumps([plistlib.UID(1)], fmt=plistlib.FMT_BINARY),
                b"a b.plist: refused 9 UidObject at object 1",
            ),
        ]:
            found = raised(plistconv.lint, octets)
            self.assertEqual(found.line("a b.plist"), line)
            self.assertEqual(str(found), line.decode()[len("a b.plist: refused ") :])
            # A path that is not UTF-8, and one that is longer than the first buffer.
            for path in [b"\xff\xfe", b"p" * 1000]:
                self.assertEqual(found.line(path), path + line[len(b"a b.plist") :])

    def test_between_processes(self):
        for octets, place in [
            (b"{a=1;a=2;}", (14, "octet", 5, 1)),
            (b"bplist00", (1, None, None, 1)),
        ]:
            found = raised(plistconv.lint, octets)
            copy = pickle.loads(pickle.dumps(found))
            self.assertEqual((copy.number, copy.unit, copy.place, copy.input), place)
            self.assertEqual(
                (str(copy), copy.line("a"), copy.args), (str(found), found.line("a"), found.args)
            )
        try:
            pool = concurrent.futures.ProcessPoolExecutor(1)
        except (ImportError, NotImplementedError, OSError) as fault:
            self.skipTest(f"there are no semaphores ({fault})")
        with pool:
            self.assertEqual(
                pool.submit(plistconv.canonical, b"{}").result(), plistconv.canonical(b"{}")
            )
            self.assertEqual(
                refused(pool.submit(plistconv.canonical, b'("a').result), (24, "octet", 1, 1)
            )


class Arguments(unittest.TestCase):
    def test_buffers(self):
        octets = b"(a, b)"
        for other in [bytearray(octets), memoryview(octets), memoryview(b")b ,a(")[::-1]]:
            self.assertEqual(plistconv.canonical(other), plistconv.canonical(octets))
        for call in [plistconv.canonical, plistconv.text, plistconv.check, plistconv.lint]:
            for wrong in [5, "text", None, [1, 2], 1.5]:
                self.assertRaises(TypeError, call, wrong)
        self.assertTrue(plistconv.same(b"", b"{}"))

    def test_keys(self):
        for value in VALUES:
            octets = plistlib.dumps(value, fmt=plistlib.FMT_BINARY)
            ours = plistconv.canonical(octets)
            for key in [bytes(16), b"k" * 16, bytearray(range(16))]:
                self.assertEqual(plistconv.canonical(octets, key), ours)
                self.assertTrue(
                    plistconv.same(octets, ours, key=key) and plistconv.check(ours, key)
                )
        for wrong in [b"", b"k" * 15, bytes(17)]:
            with self.assertRaises(ValueError) as raised:
                plistconv.check(b"", wrong)
            self.assertNotIsInstance(raised.exception, plistconv.Refused)

    def test_data_that_collide(self):
        """Data that were picked to collide under the fixed seed have the same canonical
        file under any key."""
        zero = 0x9E3779B97F4A7C15.to_bytes(8, "little")
        data = [n.to_bytes(8, "little") + zero + bytes(16) for n in range(2_000)]
        octets = plistlib.dumps(data, fmt=plistlib.FMT_BINARY)
        keyed = plistconv.canonical(octets)
        self.assertEqual(plistconv.canonical(octets, bytes(16)), keyed)
        self.assertEqual(plistlib.loads(keyed), data)


class Module(unittest.TestCase):
    def test_versions(self):
        self.assertRegex(plistconv.__version__, r"^\d+\.\d+\.\d+$")
        self.assertEqual(plistconv.library_version(), plistconv.__version__)

    def test_examples(self):
        self.assertEqual(doctest.testmod(plistconv).failed, 0)

    def fault_of_import(self, library, lines=""):
        """Returns the last line that an import of the module prints, after these lines,
        with this library."""
        environment = dict(os.environ, PLISTCONV_LIBRARY=library)
        environment["PYTHONPATH"] = os.path.dirname(os.path.dirname(plistconv.__file__))
        code = f"import ctypes\n{lines}\nimport plistconv"
        ended = subprocess.run([sys.executable, "-c", code], env=environment, capture_output=True)
        self.assertEqual(ended.returncode, 1)
        last = ended.stderr.decode().splitlines()[-1]
        for part in ["ImportError", "PLISTCONV_LIBRARY", library]:
            self.assertIn(part, last)
        return last

    def test_missing_library(self):
        self.fault_of_import("/nowhere/libplistconv.so")

    def test_wrong_library(self):
        last = self.fault_of_import("libc.so.6")
        self.assertIn("libc.so.6 is no library libplistconv: ", last)
        self.assertIn("plistconv_version", last)

    def test_old_and_incomplete_library(self):
        fake = """class Library:
    def __init__(self, name): pass
    def __getattr__(self, name):
        if name != "plistconv_version": raise AttributeError("no symbol " + name)
        self.plistconv_version = version
        return version
def version(): return %s
ctypes.CDLL = Library"""
        wanted = (
            f"plistconv {plistconv.__version__} needs libplistconv {plistconv.__version__} or later"
        )
        last = self.fault_of_import("old.so", fake % "200")
        self.assertIn(f"old.so has version 0.2.0, which is too old: {wanted}", last)
        last = self.fault_of_import("part.so", fake % "99_99_99")
        self.assertIn(
            "part.so, version 99.99.99, is incomplete: no symbol plistconv_canonical", last
        )

    def test_order_of_versions(self):
        self.assertLess(plistconv._numbers("0.9.0"), plistconv._numbers("0.10.0"))


class Threads(unittest.TestCase):
    def run_with_stack(self, size, work):
        """Runs `work` in a thread with a stack of `size` bytes."""
        seen = []
        before = threading.stack_size(size)
        thread = threading.Thread(target=lambda: seen.append(work()))
        try:
            thread.start()
        finally:
            threading.stack_size(before)
        thread.join()
        self.assertEqual(threading.stack_size(), before)
        return seen[0]

    def test_depth(self):
        """Values of the greatest depth, 512, and one level more, in threads with stacks
        of several sizes."""
        deep = b"(" * 511 + b"a" + b")" * 511

        def work():
            file = plistconv.canonical(deep)
            is_same = plistconv.same(deep, file) and plistconv.same(deep, plistconv.text(file))
            return (
                is_same,
                bool(plistconv.check(file)),
                refused(plistconv.lint, b"(" + deep + b")")[0],
            )

        for size in [64 << 10, 128 << 10, 1 << 20, 8 << 20]:
            with self.subTest(size):
                self.assertEqual(self.run_with_stack(size, work), (True, True, 16))

    def test_many(self):
        octets = [plistlib.dumps(value, fmt=plistlib.FMT_BINARY) for value in VALUES]
        wanted = [plistconv.canonical(each) for each in octets]
        with concurrent.futures.ThreadPoolExecutor(4) as pool:
            for answers in pool.map(
                lambda _: [plistconv.canonical(each) for each in octets], range(80)
            ):
                self.assertEqual(answers, wanted)


if __name__ == "__main__":
    unittest.main()
