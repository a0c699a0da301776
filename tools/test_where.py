"""Tests plistconv-where."""
import re

from testing import PROGRAM, TEXT, Case, binary, trailer


class Where(Case):
    """Lines and columns."""

    def test_lines_columns_and_carets(self):
        self.put("lines", b'{\r\n  a = "\303\251\t\033";\r\n  a = b;\n}')
        for offset, wanted in (
            (20, "lines:3:3\n  a = b;\n  ^\n"),
            (13, 'lines:2:10\n  a = "é .";\n         ^\n'),
            (27, "lines:4:1\n}\n^\n"),
            (28, "lines:4:2\n}\n ^\n"),
            (0, "lines:1:1\n{\n^\n"),
            (2, "lines:1:2\n{\n ^\n"),
            (11, 'lines:2:8\n  a = "é .";\n       ^\n'),
        ):
            self.prints(wanted.encode(), f"where lines {offset}")
        wanted = "-:1:6\n{a = \ufffd;}\n     ^\n"
        self.prints(wanted.encode(), "where - 5", input=b"{a = \xff;}")
        self.refuses("lines: has 28 bytes", "where lines 29")
        for wrong in ("x", "-1", "", "1.5", "٣"):
            self.refuses("usage: plistconv-where", "where -- lines", wrong, status=2)

    def test_place_of_a_refusal_in_utf16(self):
        for encoding, mark in (
            ("utf-16-le", b"\xff\xfe"),
            ("utf-16-be", b"\xfe\xff"),
            ("utf-8", b"\xef\xbb\xbf"),
        ):
            self.put("wide", mark + '{\nk = "é"; @'.encode(encoding))
            offset = self.call([PROGRAM, "lint", "wide"], 2).stdout.split()[-1]
            self.prints('wide:2:10\nk = "é"; @\n         ^\n'.encode(), "where wide", offset)

    def test_binary_files_and_long_lines(self):
        self.put("binary", self.canonical(TEXT))
        for place in ("1", "octet 1"):
            why = "binary: a binary property list has no lines"
            self.refuses(why, f"where binary {place}")
        self.prints(b"-:1:2\nab\n ^\n", "where - octet 1", input=b"ab")
        wanted = b"-:1:5001\n" + b"x" * 120 + b"\n" + b" " * 60 + b"^\n"
        self.prints(wanted, "where - 5000", input=b"x" * 10_000)


class Objects(Case):
    """Objects of binary files, and the paths to them."""

    def finds(self, octets, number, where, path) -> None:
        """Expects this place of an object, and this path."""
        self.put("f", octets)
        wanted = f"f: object {number} begins at byte {where}\n{path}\n"
        self.prints(wanted.encode(), f"where f object {number}")

    def test_archive_whose_uid_is_refused(self):
        top = b"\xd2\1\2\3\4", b"T$top", b"Wobjects", b"\xd1\5\6", b"\xa4\7\7\7\x08"
        rest = b"Troot", b"\x80\1", b"\x09", b"\xd1\x09\x0a", b"Sisa", b"\x81\1\x2c"
        octets = binary(*top, *rest)
        self.put("f", octets)
        number = int(self.call([PROGRAM, "lint", "f"], 2).stdout.split()[-1])
        self.finds(octets, number, "39: 80, a UID of 1 byte", 'root["$top"].root')
        self.finds(octets, 10, "49: 81, a UID of 2 bytes", "root.objects[3].isa")

    def test_paths(self):
        top = b"\xd2\1\2\3\4", b"Sisa", b'T"\x7f a', b"\xa2\5\6"
        octets = binary(*top, b"\xd1\6\5", b"\x09", b"\x11\1\2", b"\x08")
        for number, where, path in (
            (0, "8: d2, a dictionary of 2 pairs", "root"),
            (1, "13: 53, a string of 3 ASCII characters", "root.isa (the key)"),
            (3, "22: a2, an array of 2 items", "root.isa"),
            (4, "25: d1, a dictionary of 1 pair", 'root["\\"\\x7f a"]'),
            (5, "28: 09, true", "root.isa[0]"),
            (6, "29: 11, an integer of 2 bytes", "root.isa[1]"),
            (7, "32: 08, false", "no path leads to it from the top, object 0"),
        ):
            self.finds(octets, number, where, path)
        # A key that is no string, and what it contains.
        octets = binary(b"\xd1\1\2", b"\xa1\3", b"\x00", b"a\0\xe9")
        self.finds(octets, 1, "11: a1, an array of 1 item", "root{0} (the key)")
        self.finds(octets, 2, "13: 00, a null", "root{0}")
        self.finds(octets, 3, "14: 61, a string of 1 UTF-16 unit", "root{key 0}[0]")

    def test_markers_in_words(self):
        for octets, words in (
            (b"\x10\1", "an integer of 1 byte"),
            (b"\x14" + bytes(16), "an integer of 16 bytes"),
            (b"\x22" + bytes(4), "a real of 4 bytes"),
            (b"\x23" + bytes(8), "a real of 8 bytes"),
            (b"\x33" + bytes(8), "a date"),
            (b"\x41x", "data of 1 byte"),
            (b"\x40", "data of 0 bytes"),
            (b"_\x10\x10" + b"x" * 16, "a string of 16 ASCII characters"),
            (b"\xc1\0", "a set of 1 item"),
            (b"_\x09", "a string of ASCII characters, whose count cannot be read"),
            (b"\x15", "an unknown marker"),
            (b"\x70", "an unknown marker"),
            (b"\x20", "an unknown marker"),
        ):
            self.finds(binary(octets), 0, f"8: {octets[0]:02x}, {words}", "root")

    def test_key_that_a_dictionary_has_twice_is_named(self):
        spaced = b"\xd3\1\2\3\4\4\4", b"Sa b", b"Qb", b"\x63\0a\0 \0b", b"\x09"
        for octets, pairs, key in (
            (binary(b"\xd2\1\1\2\3", b"Qa", b"\x09", b"\x08"), "0 and 1", ".a"),
            (binary(*spaced), "0 and 2", '["a b"]'),
        ):
            self.put("f", octets)
            line = self.call([PROGRAM, "lint", "f"], 2).stdout.decode()
            self.assertIn("refused 14 DuplicateKey at object 0", line)
            printed = self.tool("where", "f", *line.split()[-2:]).stdout.decode()
            said = f"\nroot\nthe pairs {pairs} have the same key: {key}\n"
            self.assertEqual(printed[printed.index("\n") :], said)
            explained = self.call([PROGRAM, "explain", "14"]).stdout.decode()
            command = re.search(r"(?ms)^python3 -c .* FILE$", explained)[0].replace(" FILE", " f")
            self.assertIn(self.call(["sh", "-c", command]).stdout.decode().strip(), key)

    def test_cycles_and_shared_objects_end(self):
        cycle = binary(b"\xa2\1\2", b"\xa2\0\1", b"\xd1\3\0", b"Qk", b"\x09")
        self.finds(cycle, 2, "14: d1, a dictionary of 1 pair", "root[1]")
        self.finds(cycle, 4, "19: 09, true", "no path leads to it from the top, object 0")
        chain = binary(*(b"\xa2" + bytes([at + 1, at + 1]) for at in range(60)), b"\x09")
        self.finds(chain, 60, "188: 09, true", "root" + "[0]" * 60)
        # Fifty thousand levels, which no recursion would survive.
        many = 50_000
        body = b"".join(b"\xa1" + (at + 1).to_bytes(2, "big") for at in range(many)) + b"\x09"
        table = b"".join((8 + 3 * at).to_bytes(4, "big") for at in range(many + 1))
        end = trailer(b"\4\2", many + 1, 0, 8 + len(body))
        deep = b"bplist00" + body + table + end
        self.finds(deep, many, f"{8 + 3 * many}: 09, true", "root" + "[0]" * many)

    def test_broken_files(self):
        good = binary(b"\xa1\1", b"Qa")
        past = "it reaches past byte 11, the last before the offset table"
        self.finds(good[:8] + b"\xa7" + good[9:], 0, f"8: a7, an array of 7 items; {past}", "root")
        where, none = "10: 51, a string of 1 ASCII character", "no path leads to it from the top"
        self.finds(good[:8] + b"\xa1\x09" + good[10:], 1, where, f"{none}, object 0")
        self.finds(binary(b"\xa1\1", b"Qa", top=9), 1, where, f"{none}, object 9")
        where = "255; the objects are from byte 8 to 11"
        self.finds(good[:12] + b"\x08\xff" + good[14:], 1, where, "root[0]")
        most = 2**64 - 1
        for octets, why in (
            (good, "its offset table has 2 objects, so there is no object 2"),
            (binary(b"\x09", count=9), "its offset table is cut, so there is no object 2"),
            (binary(b"\x09", count=most, table=most), "its offset table is cut, so there is no"),
            (b"bplist00", "has 8 bytes, too few for objects"),
            (good[:-26] + b"\0" + good[-25:], "a width that is not from 1"),
            (TEXT, "is no binary property list, so it has no objects"),
        ):
            self.put("f", octets)
            self.refuses(why, "where f object 2")
        for words in ("object -1", "object", "place 1", "object 1 2", f"object {'9' * 21}"):
            self.refuses("usage: plistconv-where", f"where -- f {words}", status=2)

    def test_hostile_files_end(self):
        # Each byte begins an array with all bytes that follow; and one array that
        # every object shares.
        many = 5_000
        body = b"".join(b"\xaf\x12" + (1 << 20).to_bytes(4, "big") for _ in range(many))
        for step in (6, 0):
            table = b"".join((8 + step * at).to_bytes(4, "big") for at in range(many))
            end = trailer(b"\4\2", many, 0, 8 + len(body))
            self.put("f", b"bplist00" + body + table + end)
            self.tool(f"where f object {many - 1}")

    def test_long_keys_that_share_their_bytes_end(self):
        many, long = 5_000, 1 << 21
        keys = b"".join(number.to_bytes(2, "big") for number in range(1, many + 1))
        head = b"bplist00\xdf\x11" + many.to_bytes(2, "big") + keys + bytes(2 * many)
        begins = [len(head) + 6 * number for number in range(many)]
        body = head + (b"\x6f\x12" + long.to_bytes(4, "big")) * many + bytes(2 * long)
        table = b"".join(begin.to_bytes(4, "big") for begin in [8, *begins])
        self.put("f", body + table + trailer(b"\4\2", many + 1, 0, len(body)))
        self.tool("where f object 0")
