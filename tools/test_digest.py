"""Tests plistconv-digest and plistconv-diff."""
import hashlib
import os
import random
import re
import shutil
import sys

from testing import ARCHIVE, OTHER, PROGRAM, SAME, TEXT, TOOLS, TOP, TWICE, XML, Case


class Digest(Case):
    """Digests as sha256sum prints them."""

    def test_equal_values_have_one_digest_as_sha256sum_prints_it(self):
        names = "a", "b c", "n\nl", "back\\slash", "r\rt", "é"
        self.put_all({**dict.fromkeys(names, TEXT), "b c": SAME, "é": SAME})
        printed = self.tool("digest", *names).stdout
        if shutil.which("sha256sum") is None:
            self.skipTest("skipped: there is no sha256sum")
        self.put_all(dict.fromkeys(names, self.canonical(TEXT)))
        wanted = self.call(["sha256sum", *names]).stdout
        if b"\r" in wanted:  # Older versions do not escape it.
            wanted, printed = (
                re.sub(rb"(?m)^.*r(\r|\\r)t\n", b"", lines) for lines in (wanted, printed)
            )
        self.assertEqual(printed, wanted)

    def test_what_is_refused_has_no_digest_and_the_others_have(self):
        self.put("a", TEXT)
        digest = self.tool("digest a").stdout
        for octets, why in (
            (TWICE, "refused 14 DuplicateKey at octet 3"),
            (XML, "refused 21 XmlForm at octet 0 (XML)"),
            (XML + b" ", "refused 21 XmlForm at octet 0 (XML)"),
            (ARCHIVE, "refused 9 UidObject at object 2"),
        ):
            self.put("b\\", octets)
            self.refuses(f"plistconv-digest: b\\: {why}", "digest b\\ none a", printed=digest)
            # With --all-lines files that are refused differ, but not those that cannot be read.
            line = f"\\{why}; bytes {hashlib.sha256(octets).hexdigest()}  b\\\\\n".encode()
            self.prints(line + digest, "digest --all-lines b\\ a")
            said = "none: No such file"
            self.refuses(said, "digest --all-lines b\\ none a", printed=line + digest)

    def test_digest_of_xml_is_that_of_its_binary_file(self):
        self.put("x", XML)
        made = self.tool("canonicalise --from-xml -", input=XML).stdout
        digest = hashlib.sha256(made).hexdigest().encode()
        self.prints(digest + b"  x\n", "digest --from-xml x")
        self.prints(digest + b"  -\n", "digest --from-xml -", input=made)
        self.put("x", XML[:-9])
        self.refuses("x: refused as XML", "digest --from-xml x")

    def test_xml_is_refused_with_the_way_out_in_every_encoding(self):
        latin = XML.replace(b'"1.0"?', b'"1.0" encoding="ISO-8859-1"?').replace(b">a<", b">\xe9<")
        convert = "plistconv-canonicalise --from-xml FILE; plistutil -i IN -f bin -o OUT"
        for octets in (
            XML,
            latin,
            b"<!-- one -->\n" + XML[22:],
            b"\n " + XML[22:],
            XML.decode().encode("utf-16"),
            XML.decode().encode("utf-16-le"),
            b"\xef\xbb\xbf" + XML,
        ):
            self.put("x", octets)
            self.refuses("(XML)", "digest x")
            self.refuses(f"one of: {convert}; on macOS plutil", "digest x")

    def test_standard_input(self):
        digest = hashlib.sha256(self.canonical(TEXT)).hexdigest().encode()
        self.prints(digest + b"  -\n", "digest -", input=TEXT)
        self.prints(digest + b"  /dev/stdin\n", "digest /dev/stdin", input=TEXT)

    def lines(self, *names) -> bytes:
        """Returns the lines of these files, from a program for each alone."""
        return b"".join(self.tool("digest", name).stdout for name in names)

    def test_programs_run_at_the_same_time_and_lines_are_in_order(self):
        self.put_all({"first": b"{first;}", "second": b"{second;}"})
        wanted = self.lines("first", "second")
        os.mkfifo(str(self.folder / "fifo"))
        # The program for the first file waits until that for the second one has ended.
        env = self.program(
            'cat > "$0.$$"\n'
            'if grep -q first "$0.$$"; then timeout 60 cat fifo || exit 3; else exec 9> fifo; fi\n'
            'exec "$PROGRAM" "$@" < "$0.$$"'
        )
        two, names = "os.cpu_count = lambda: 2", ("first", "second")
        with (self.folder / "printed").open("wb") as printed:
            self.patched(two, *names, tool="digest", env=env, stdout=printed)
        self.assertEqual(self.content("printed"), wanted)

    def test_many_files_have_their_lines_and_messages_in_order(self):
        names = list(map(str, range(40)))
        wrong = {"3": TWICE, "13": b"(killed)", "23": b"(memory)", "33": TWICE}
        self.put_all({name: wrong.get(name, f"(a{name},b)".encode()) for name in names})
        wanted = self.lines(*(name for name in names if name not in wrong))
        kill = "grep -q killed /dev/stdin && kill -9 $$"
        full = "if grep -q memory /dev/stdin; then echo '-: refused 60 OutOfMemory'; exit 5; fi"
        env = self.program(f'{kill}\n{full}\nexec "$PROGRAM" < /dev/stdin')
        run = self.tool("digest", *names, status=2, env=env)
        self.assertEqual(run.stdout, wanted)
        why = "refused 14 .*", ".* ended with status -9, .*", "refused 60 .*", "refused 14 .*"
        said = "".join(f"plistconv-digest: {name}: {it}\n" for name, it in zip(wrong, why))
        self.assertRegex(run.stderr.decode(), f"^{said}$")

    def test_lines_of_the_page_compare_folders_and_fail_if_a_list_is_not_whole(self):
        page = (TOP / "docs" / "RECIPES.md").read_text(encoding="utf-8")
        lines = re.search(r"(?m)^    (digests\(\) .*)\n    (diff .*)$", page).groups()
        words = ["bash", "-c", "\n".join(lines)]
        if shutil.which("bash") is None:
            self.skipTest("skipped: there is no bash")
        named = "Old.app: not read completely", "New.app: not read completely"
        for there in ("", "Old.app", "New.app"):
            (self.folder / there).mkdir(exist_ok=True)
            shown = self.call(words, 1 if there != "New.app" else 0).stdout.decode()
            self.assertEqual([name in shown for name in named], [not there, there != "New.app"])
        self.put_all({"Old.app/a b/x.plist": TEXT, "New.app/a b/x.plist": SAME})
        for old, new in (
            (b"a=b;", b"a=c;"),
            (XML, XML.replace(b"2.5", b"3.5")),
            (TWICE, TWICE + b" "),
            (XML[:-9], XML[:-8]),
            (ARCHIVE, ARCHIVE.replace(b"\x80\x01", b"\x80\x02")),
        ):
            self.put_all({"Old.app/one.plist": old, "New.app/one.plist": old})
            self.assertEqual(self.call(words).stdout, b"")
            self.put("New.app/one.plist", new)
            self.assertEqual(self.call(words, 1).stdout.count(b"one.plist"), 2)
        # No program, no command, and files that cannot be read, since they are removed.
        self.script("bin/sort", "cat\nrm -r ./one.plist 'a b'")
        path = self.environment["PATH"]
        for env in ({"PLISTCONV": "/none"}, {"PATH": os.defpath}, {"PATH": f"bin:../bin:{path}"}):
            shown = self.call(words, 1, env=env).stdout.decode()
            self.assertEqual([name in shown for name in named], [True, True], env)


class Diff(Case):
    """Unified diffs of prints."""

    def test_statuses_are_those_of_diff(self):
        self.put_all({"a": TEXT, "b": SAME, "c": OTHER, "twice": TWICE})
        self.prints(b"", "diff a b")
        lines = b'@@ -1,4 +1,4 @@\n {\n-  "a" => "b"\n+  "a" => "c"\n   "b" => "a"\n }\n'
        self.prints(b"--- a\n+++ c\n" + lines, "diff a c", status=1)
        for words in ("a twice", "twice a"):
            self.refuses("twice: refused 14 DuplicateKey at octet 3", f"diff {words}", status=2)

    def test_pipes_as_of_a_shell_and_standard_input(self):
        self.put_all({"a": TEXT, "c": OTHER})
        self.prints(b"", "diff - a", input=SAME)
        if shutil.which("bash") is None:
            self.skipTest("skipped: there is no bash")
        command = f"'{sys.executable}' '{TOOLS}/plistconv-diff' <(cat a) <(cat c)"
        self.assertIn(b'+  "a" => "c"', self.call(["bash", "-c", command], 1).stdout)

    def applied(self, diff: bytes, old: list) -> list:
        """Returns the old lines after a unified diff is applied."""
        made: list[bytes] = []
        at = 0
        for line in diff.splitlines(keepends=True)[2:]:
            hunk = re.match(rb"@@ -(\d+)(,0)?", line)
            if hunk:
                begin = int(hunk[1]) - (0 if hunk[2] else 1)
                made, at = made + old[at:begin], begin
            elif line[:1] == b"+":
                made.append(line[1:])
            else:
                self.assertEqual(old[at], line[1:])
                made, at = made + [line[1:]] * (line[:1] == b" "), at + 1
        return made + old[at:]

    def test_diff_makes_the_new_print_of_the_old_one(self):
        chance = random.Random(1)
        values = [
            (b"", b"x"),
            (b"x," * 3000, b"x," * 2000 + b"y," * 1000),
            (b"a,b," * 900, b"b,c," * 900),
        ]
        for _ in range(6):
            pairs = ((chance.randrange(9), chance.randrange(5000)) for _ in range(2000))
            old = [b"%d,{a=%d;b=x;}," % pair for pair in pairs]
            new = [line for line in old if chance.random() < 0.99]
            new[7:9] = chance.sample(old, chance.randrange(5))
            values.append((b"".join(old), b"".join(new)))
        for old, new in values:
            prints = []
            for name, items in (("old", old), ("new", new)):
                self.put(name, b"(" + items + b")")
                prints.append(self.call([PROGRAM, "print", name]).stdout.splitlines(keepends=True))
            diff = self.tool("diff old new", status=1).stdout
            self.assertEqual(self.applied(diff, prints[0]), prints[1])

    def test_xml_is_compared_through_plistlib(self):
        self.put_all({"x": XML, "text": b"{a=2.5;}"})
        printed = self.tool("diff x text", status=1).stdout
        self.assertIn(b'-  "a" => 2.5\n+  "a" => "2.5"\n', printed)
