"""Tests which files plistconv-canonicalise replaces."""
import os
import resource
import shutil
import stat

from testing import ARCHIVE, OTHER, PROGRAM, SAME, TEXT, TWICE, XML, Case


def limit_files() -> None:
    """Limits the files that a process writes to 16 bytes."""
    resource.setrlimit(resource.RLIMIT_FSIZE, (16, 16))


class Canonicalise(Case):
    """Files that are replaced."""

    def changing(self, line: str) -> dict:
        """Returns an environment in which the program does what the line says before it answers."""
        return self.program(f'{line}\nexec "$PROGRAM" "$@"')

    def test_files_become_canonical_and_keep_their_modes(self):
        files = {"0 a": TEXT, "1 a": SAME, "2 a": self.canonical(OTHER), "3 a": XML}
        for name, octets in files.items():
            self.put(name, octets).chmod(0o640)
        self.prints(b"", "canonicalise --from-xml", *files)
        self.assertEqual(self.left(), [*files])
        for name in files:
            self.assertEqual(stat.S_IMODE((self.folder / name).stat().st_mode), 0o640)
            self.call([PROGRAM, "check", name])

    def test_file_that_changes_meanwhile_is_left(self):
        path = self.put("a", TEXT)
        for line in (
            "printf '{b=a;a=c;}\\n' > a",
            "rm a; echo '(new)' > a",
            "chmod 600 a; chmod 640 a",
            "rm a",
            "rm a; ln -s b a",
            "mv a c; mkdir a",
        ):
            self.put_all({"a": TEXT, "b": TEXT})
            self.refuses("; left as it is", "canonicalise a", env=self.changing(line))
            changed = path.read_bytes() if path.is_file() else None
            self.assertIn(changed, (None, TEXT, OTHER, b"(new)\n"))
            self.assertFalse([name for name in self.left() if name.startswith(".")])
            shutil.rmtree(str(path)) if path.is_dir() else path.exists() and path.unlink()
        self.put("a", TEXT)
        env = self.changing("echo >> a")
        self.refuses("a: changed meanwhile; left as it is", "canonicalise a", env=env)
        self.assertEqual(path.read_bytes().rstrip(b"\n") + b"\n", TEXT)

    def test_canonical_files_are_not_touched(self):
        before = self.put("a", self.canonical(TEXT)).stat()
        self.prints(b"", "canonicalise a")
        after = (self.folder / "a").stat()
        self.assertEqual((after.st_ino, after.st_mtime_ns), (before.st_ino, before.st_mtime_ns))

    def test_files_of_one_word_or_of_none_are_left(self):
        comments = [b"// { all }\n", b"/* { */ /**/", "// é\u2028 // {".encode()]
        comments.append("/* é { */".encode("utf-16"))
        for octets in (b"", b"\n", b"word", b"0123abc\n", b'"a b"', b"<00>", *comments):
            path = self.put("a", octets)
            self.refuses("one word or of none", "canonicalise a")
            self.assertEqual(path.read_bytes(), octets)
            self.prints(b"", "canonicalise --any a")
            self.call([PROGRAM, "check", "a"])
        long, env = b"(" + b"word," * 9000 + b")", {"PLISTCONV_PRINT_LIMIT": "1"}
        for octets in (b"{}", b"()", b"/* */ {/**/}", b"a=b;", "{}".encode("utf-16"), long):
            self.put("a", octets)
            self.prints(b"", "canonicalise a", env=env)  # However long it prints.
            self.call([PROGRAM, "check", "a"])

    def test_what_is_refused_is_left_and_the_others_are_made(self):
        files = {"archive": ARCHIVE, "twice": TWICE, "xml": XML, "a": TEXT}
        self.put_all(files)
        said = self.says("canonicalise", *files)
        self.assertEqual(said.count("left as it is"), 3)
        self.assertIn("xml: refused 21 XmlForm at octet 0 (XML); left as it is\n", said)
        for name, octets in {**files, "a": self.canonical(TEXT)}.items():
            self.assertEqual(self.content(name), octets)

    def test_links_are_left_unless_they_are_followed(self):
        path = self.put("folder/a", TEXT)
        path.chmod(0o600)
        links = {"link": "folder/a", "second": "link", "dangling": "none", "way": "folder"}
        for name, target in links.items():
            os.symlink(target, str(self.folder / name))
        why = "is a symbolic link (--follow replaces the file that it points to); left as it is"
        for name in ("link", "second"):
            self.refuses(f"{name}: {why}", f"canonicalise {name}")
        self.assertEqual(path.read_bytes(), TEXT)
        self.prints(b"", "canonicalise --follow second")
        self.assertEqual(os.readlink(str(self.folder / "second")), "link")
        self.assertEqual(path.read_bytes(), self.canonical(TEXT))
        self.assertEqual(stat.S_IMODE(path.stat().st_mode), 0o600)
        self.refuses("dangling: No such file", "canonicalise --follow dangling")
        self.refuses("way: is no regular file", "canonicalise --follow way")
        self.put("folder/a", SAME)
        self.prints(b"", "canonicalise way/a")  # A folder may be a link.
        self.assertEqual(path.read_bytes(), self.canonical(SAME))
        self.assertEqual(self.left(), ["dangling", "folder", "folder/a", "link", "second", "way"])

    def test_pipes_and_folders_are_left(self):
        os.mkfifo(str(self.folder / "pipe"))
        for name in ("pipe", ".", "/dev/stdin"):
            self.refuses("is no regular file", "canonicalise --from-xml", name, input=TEXT)
        with open(str(self.put("a", TEXT)), "rb") as file:
            self.refuses("is no regular file", "canonicalise /dev/stdin", stdin=file)
        self.assertEqual(self.content("a"), TEXT)
        self.assertTrue(stat.S_ISFIFO((self.folder / "pipe").stat().st_mode))

    def test_devices_stay_devices(self):
        node = self.folder / "device"  # Like /dev/null, which a faulty command would destroy.
        try:
            os.mknod(str(node), 0o666 | stat.S_IFCHR, os.makedev(1, 3))
            node.read_bytes()
        except OSError:
            self.skipTest("skipped: no device can be made here")
        self.refuses("is no regular file", "canonicalise --from-xml device")
        self.assertTrue(stat.S_ISCHR(node.stat().st_mode))
        with node.open("wb") as device:
            self.tool("canonicalise -", stdout=device, input=TEXT)
        self.assertTrue(stat.S_ISCHR(node.stat().st_mode))

    def test_dash_converts_standard_input_to_standard_output(self):
        self.prints(self.canonical(TEXT), "canonicalise -", input=SAME)
        self.refuses("-: refused 14", "canonicalise -", input=TWICE)

    def test_out_is_written_in_one_step(self):
        before = self.put("a", TEXT)
        mask = os.umask(0o027)
        self.addCleanup(os.umask, mask)
        self.prints(b"", "canonicalise -o out a")
        out = self.folder / "out"
        self.assertEqual((out.read_bytes(), before.read_bytes()), (self.canonical(TEXT), TEXT))
        self.assertEqual(stat.S_IMODE(out.stat().st_mode), 0o640)
        out.chmod(0o604)
        self.prints(b"", "canonicalise -o out --from-xml -", input=XML)
        self.assertEqual(stat.S_IMODE(out.stat().st_mode), 0o604)
        self.prints(out.read_bytes(), "canonicalise --from-xml -", input=XML)
        self.prints(self.canonical(OTHER), "canonicalise -o - /dev/stdin", input=OTHER)
        self.prints(b"", "canonicalise -o a -- a")
        self.assertEqual(before.read_bytes(), self.canonical(TEXT))
        self.assertEqual(self.left(), ["a", "out"])

    def test_out_stays_if_the_file_is_refused_or_it_cannot_be_written(self):
        out = self.put("out", b"old")
        os.symlink("none", str(self.folder / "dangling"))
        os.symlink("out", str(self.folder / "link"))
        self.put_all({"a": TEXT, "twice": TWICE, "word": b"word"})
        left = self.left()
        why = "twice: refused 14 DuplicateKey at octet 3; not converted"
        self.refuses(why, "canonicalise -o out twice")
        self.refuses("word: a text of one word", "canonicalise -o out word")
        why = "none: No such file or directory; not converted"
        self.refuses(why, "canonicalise -o out none")
        for name in (".", "none/out", "dangling", "link", ""):
            self.refuses(f"{name}: ", "canonicalise -o", name, "a")
        self.refuses(": No such file or directory; not written", "canonicalise -o", "", "a")
        self.refuses("with -o there is one FILE", "canonicalise -o out a a", status=2)
        for name in ("out", "new"):
            why = f"{name}: File too large; not written"
            self.refuses(why, f"canonicalise -o {name} a", preexec_fn=limit_files)
        env = self.changing("touch out")
        self.refuses("out: changed meanwhile; not written", "canonicalise -o out a", env=env)
        shutil.rmtree(str(self.folder / "bin"))
        self.assertEqual((out.read_bytes(), self.left()), (b"old", left))
        self.prints(b"", "canonicalise -o link --follow a")
        self.assertEqual(out.read_bytes(), self.canonical(TEXT))

    def test_full_disk_leaves_the_file_as_it_was(self):
        self.put("a", TEXT)
        why = "a: File too large; left as it is"
        self.refuses(why, "canonicalise a", preexec_fn=limit_files)
        self.assertEqual((self.content("a"), self.left()), (TEXT, ["a"]))
        # For the input of the program, which then is not called.
        self.put_all({"a": SAME, "b": OTHER})
        for command in ("canonicalise a", "digest a", "diff a b", "textconv a"):
            why = "cannot be run over it: File too large"
            self.refuses(why, command, status=2, preexec_fn=limit_files)
        self.assertEqual((self.content("a"), self.left()), (SAME, ["a", "b"]))
