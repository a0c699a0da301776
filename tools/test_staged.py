"""Tests plistconv-staged, the pre-commit hook: what it checks and what it says."""
import os
import plistlib
import re
import shutil

from testing import ARCHIVE, OTHER, TEXT, TOP, TWICE, XML, Repository

MANUAL = (TOP / "man" / "plistconv-tools.1").read_text(encoding="utf-8").replace("\\-", "-")
# The attributes that end what makes git change bytes.
(ENDING,) = re.findall(r"(?m)^\.B Old\.plist (-text .*)$", MANUAL)

OLD = "an OpenStep text, which is not canonical"
UNSORTED = plistlib.dumps({"b": "a", "a": "b"}, fmt=plistlib.FMT_BINARY, sort_keys=False)
NAMES = ["a folder/blank .plist", "n\nl.plist", "-dash.plist", "caf\u00e9.plist", "UPPER.PLIST"]
FAULTS = (
    *((name, TEXT, OLD) for name in [*NAMES, "[a]*?.plist", ":(top)x.plist"]),
    ("empty.plist", b"", "empty, which reads as an empty dictionary"),
    ("binary.plist", UNSORTED, "not canonical"),
    ("x.plist", XML, "refused 21 XmlForm at octet 0 (XML)"),
    ("archive.plist", ARCHIVE, "refused 9 UidObject at object 2"),
    ("twice.plist", TWICE, "refused 14 DuplicateKey at octet 3"),
)
# The line after those of the files.
END = (
    "plistconv-staged: {} refused: plistconv-canonicalise FILE.. makes files canonical (texts with "
    "--any, which loses comments; XML with --from-xml); man plistconv-tools has the attributes "
    "that keep bytes or exclude files\n"
)


class Staged(Repository):
    """The hook."""

    def test_every_property_list_of_the_index_is_checked(self):
        self.add({"good.plist": self.canonical(TEXT)})
        self.prints(b"", "staged")
        for name, octets, why in FAULTS:
            self.add({name: octets})
            line = f"{name}: {why}".replace("\n", r"\n")
            self.assertEqual(self.says("staged"), f"plistconv-staged: {line}\n{END.format(1)}")
            self.git("--literal-pathspecs rm -qf --", name)
            self.prints(b"", "staged")

    def test_index_counts_and_not_the_work_tree(self):
        self.add({"a.plist": TEXT})
        self.put("a.plist", self.canonical(TEXT))
        self.refuses("a.plist: an OpenStep text", "staged")
        self.add()
        self.put("a.plist", TWICE)
        self.prints(b"", "staged")
        (self.folder / "a.plist").unlink()
        self.prints(b"", "staged")

    def test_link_that_became_a_file_is_checked(self):
        self.hook()
        os.symlink("nowhere", str(self.folder / "a.plist"))
        self.add()
        self.commit()
        (self.folder / "a.plist").unlink()
        self.put("a.plist", TEXT)
        self.assertIn("a.plist: an OpenStep text", self.commit("-a", status=1))
        (self.folder / "a.plist").unlink()
        self.add({"b.plist/file": b"a folder"})
        self.commit("-a")

    def test_git_variables_and_options_for_patterns_change_nothing(self):
        self.hook()
        self.add({"sub/a.plist": TEXT})
        for variable in ("LITERAL", "NOGLOB", "GLOB", "ICASE"):
            env = {f"GIT_{variable}_PATHSPECS": "1"}
            self.refuses("sub/a.plist: an OpenStep text", "staged", env=env)
            self.assertIn("sub/a.plist: an OpenStep text", self.commit(status=1, env=env))
        for option in ("literal", "noglob", "glob"):
            self.git(f"--{option}-pathspecs commit -qm one", status=1)
        plain = "diff.noprefix", "diff.relative", "core.quotePath"
        for setting in (*plain, "diff.renames copies", "diff.external false"):
            self.git(f"config {setting}" if " " in setting else f"config {setting} true")
        self.assertIn("sub/a.plist: an OpenStep text", self.commit(status=1))

    def test_hook_runs_in_every_kind_of_commit(self):
        self.add({"a.plist": self.canonical(TEXT), "b.plist": self.canonical(TEXT)})
        self.hook()
        self.commit()
        self.put("a.plist", TEXT)
        self.assertIn("a.plist: an OpenStep", self.commit("-a", status=1))
        self.assertIn("a.plist: an OpenStep", self.commit("--", "a.plist", status=1))
        self.add()
        self.assertIn("a.plist: an OpenStep", self.commit("--amend", status=1))
        # A commit of b.plist only leaves a.plist unchanged.
        self.put("b.plist", self.canonical(OTHER))
        self.commit("--", "b.plist")
        self.commit("--no-verify", "--", "a.plist")
        # Files that are as in HEAD are not checked.
        self.commit("--amend")
        self.refuses("a.plist: an OpenStep", "staged --all")

    def test_below_the_top_and_in_a_folder_of_another_work_tree(self):
        self.add({"sub/a.plist": self.canonical(TEXT)})
        self.commit()
        self.git("worktree add -q -b other", "other tree")
        self.add({"sub/a.plist": TEXT})
        self.refuses("staged: sub/a.plist: an OpenStep", "staged", cwd="sub")
        self.prints(b"", "staged", cwd="other tree/sub")
        self.hook()
        self.put("other tree/sub/b.plist", TEXT)
        for folder in ("other tree", "other tree/sub"):
            words = ["sh", "-c", "git add -A . && git commit -qm two"]
            said = self.call(words, 1, cwd=folder).stderr
            self.assertIn(b"staged: sub/b.plist: an OpenStep", said)

    def test_only_what_differs_from_head_is_checked(self):
        self.add({"old.plist": TEXT, "moved.plist": OTHER, "good.plist": self.canonical(TEXT)})
        self.refuses("old.plist: an OpenStep", "staged")  # There is no HEAD.
        self.commit()
        self.hook()
        self.put("good.plist", self.canonical(OTHER))
        self.commit("-a")
        self.git("mv moved.plist new.plist")
        said = self.commit(status=1)
        self.assertIn("new.plist: an OpenStep", said)
        self.assertNotIn("old.plist", said)
        self.git("mv new.plist moved.plist")
        self.git("rm -q good.plist")
        self.commit("-a")
        self.assertEqual(self.says("staged --all").count(": an OpenStep text"), 2)

    def test_many_files_are_read_by_one_git(self):
        self.add({f"{number}.plist": b"{a=%d;}" % number for number in range(40)})
        self.script(".git/bin/git", 'echo "$1" >> "$CALLS"\nPATH=${PATH#*:} exec git "$@"')
        said = self.says("staged", env={"CALLS": str(self.folder / "calls")})
        self.assertEqual(said.count(": an OpenStep text"), 40)
        calls = self.content("calls").split()
        self.assertLess(len(calls), 12)
        self.assertEqual(calls.count(b"cat-file"), 1)

    def test_attributes_of_the_index_leave_files_out_and_add_some(self):
        texts = "Localizable.strings", "Info.txt", "a.plist.orig"
        self.add({"k.plist": ARCHIVE, **dict.fromkeys(texts, b"/* for translators */ a = b;")})
        self.put(".gitattributes", b"k.plist -plistconv\n*.strings plistconv\n")
        why = "k.plist: refused 9 UidObject at object 2"
        self.assertEqual(self.says("staged"), f"plistconv-staged: {why}\n{END.format(1)}")
        self.add()
        why = f"Localizable.strings: {OLD}"
        self.assertEqual(self.says("staged"), f"plistconv-staged: {why}\n{END.format(1)}")
        self.hook()
        self.git("rm -q --cached Localizable.strings")
        self.commit()

    def test_attributes_that_change_bytes_are_refused(self):
        value = self.canonical(b"(" + b"word," * 100 + b'"\n\r\n", ' * 99 + b'"$Id$")')
        self.put_all({"a.plist": value, "Settings": value})
        for line, name in (
            ("text", "text"),
            ("eol=crlf", "eol"),
            ("text eol=lf", "text"),
            ("text=input", "text"),
            ("crlf", "crlf"),
            ("crlf=input", "crlf"),
            ("ident", "ident"),
            ("ident eol=lf", "eol and ident"),
            ("-text ident", "ident"),
        ):
            self.add({".gitattributes": f"* {line}\nSettings plistconv".encode()})
            said = self.says("staged --all")
            for file in ("a.plist", "Settings"):
                self.assertIn(f"{file}: git changes its bytes, by the attribute {name}\n", said)
            self.put(".gitattributes", f"* {line}\nSettings plistconv\n* {ENDING}".encode())
            self.keeps(value, line)
        for line in (
            "* text=auto eol=crlf\nSettings plistconv\n",
            "* -text eol=crlf\n",
            "* -crlf\n",
            "* diff=plist\n",
            "* working-tree-encoding=UTF-8\n",
        ):
            self.add({".gitattributes": line.encode()})
            self.keeps(value, line)

    def keeps(self, value: bytes, why: str) -> None:
        """Expects that no file is refused, and that git does keep the bytes."""
        self.add()
        self.git("add --renormalize .")
        self.prints(b"", "staged --all")
        self.git("-c core.autocrlf=false checkout-index --prefix=out/ -a")
        self.assertEqual(self.content("out/a.plist"), value, why)
        shutil.rmtree(str(self.folder / "out"))
        self.git("rm -rqf --cached .")

    def test_encoded_text_is_made_canonical_after_its_attribute(self):
        for encoding in ("UTF-16", "UTF-16LE-BOM"):
            line = f"a.plist working-tree-encoding={encoding}\n"
            octets = '\ufeff{b = "é";}'.encode("utf-16-le")
            self.add({"a.plist": octets, ".gitattributes": line.encode()})
            why = "git changes its bytes, by the attribute working-tree-encoding"
            self.refuses(f"a.plist: {why}\n", "staged --print0")
            self.add({".gitattributes": f"{line}a.plist {ENDING}".encode()})
            self.git("add --renormalize .")
            self.refuses("a.plist: an OpenStep", "staged --print0", printed=b"a.plist\0")
            self.tool("canonicalise --any a.plist")
            self.add()
            self.prints(b"", "staged --print0")

    def test_nothing_is_written_to_the_repository(self):
        self.add({"a.plist": TEXT, "sub/b.plist": TEXT})
        self.put(".git/index.lock", b"")
        left = self.left()
        for words in ("", " --all", " --all --print0"):
            self.assertIn(END.format(2), self.says(f"staged{words}"))
        self.assertEqual(self.left(), left)

    def test_file_that_is_not_merged_is_status_2(self):
        self.add({"a.plist": TEXT})
        rows = "".join(f"100644 {'1' * 40} {stage}\tb.plist\n" for stage in (1, 2, 3))
        self.git("update-index --index-info", input=rows.encode())
        self.refuses("staged: b.plist: is not merged yet\n", "staged --all", status=2)

    def test_bare_repository_is_checked_at_its_head(self):
        files = {"sub/a.plist": TEXT, "sub/b.plist": self.canonical(TEXT), "k.plist": ARCHIVE}
        self.add({**files, ".gitattributes": b"k.plist -plistconv\nsub/b.plist text"})
        self.commit()
        self.git("clone -q --bare . bare.git")
        said = self.says("staged --all", cwd="bare.git")
        named = re.findall(r"(?m)^plistconv-staged: (\S*):", said)
        self.assertEqual(named, ["sub/b.plist", "sub/a.plist"])
        self.assertNotIn("in the work tree\n", said)
        why = "a bare repository has no index and no work tree: give --all alone"
        for words in ("", " --all --print0"):
            self.refuses(why, f"staged{words}", status=2, cwd="bare.git")
        self.add({"sub/a.plist": self.canonical(TEXT), ".gitattributes": b"k.plist -plistconv"})
        self.commit()
        self.git("push -q bare.git HEAD")
        self.prints(b"", "staged --all", cwd="bare.git")

    def test_attributes_are_checked_if_they_change(self):
        self.add({"a.plist": self.canonical(TEXT), "old.plist": TEXT})
        self.commit()
        self.add({"sub/.gitattributes": b"", ".gitattributes": b"*.plist text\n"})
        said = self.says("staged")
        self.assertEqual(said.count(": git changes its bytes, by the attribute text\n"), 2)
        self.assertNotIn("an OpenStep text", said)
        self.commit()
        self.prints(b"", "staged")

    def test_partly_staged_files_are_named(self):
        self.add(dict.fromkeys(("a.plist", "b.plist", "c.plist"), TEXT))
        self.put("b.plist", OTHER)
        (self.folder / "c.plist").unlink()
        more = "an OpenStep text, which is not canonical; differs in the work tree"
        run = self.tool("staged --print0", status=1)
        named = re.findall(f"(?m)^plistconv-staged: (.*): {more}$", run.stderr.decode())
        self.assertEqual((named, run.stdout), (["b.plist", "c.plist"], b"a.plist\0"))

    def test_relative_folders_in_the_variables_of_git_are_kept(self):
        attributes = {"work/sub/.gitattributes": b"k.plist -plistconv\n"}
        self.put_all({"work/sub/a.plist": TEXT, "work/sub/k.plist": ARCHIVE, **attributes})
        self.git("add -A", env={"GIT_DIR": ".git", "GIT_WORK_TREE": "work"})
        for folder, way in ((".", "."), ("work", ".."), ("work/sub", "../..")):
            env = {"GIT_DIR": f"{way}/.git", "GIT_WORK_TREE": f"{way}/work"}
            said = self.says("staged", env=env, cwd=folder)
            self.assertIn("staged: sub/a.plist: an OpenStep", said)
            self.assertNotIn("k.plist", said)
            self.assertNotIn("differs in the work tree", said)

    def test_file_that_is_only_intended_to_be_added_is_no_fault(self):
        self.put("a.plist", TEXT)
        self.git("add -N a.plist")
        self.prints(b"", "staged")

    def test_nothing_staged_and_no_repository(self):
        self.prints(b"", "staged")
        env = {"GIT_CEILING_DIRECTORIES": str(self.folder.parent), "GIT_DIR": "/none"}
        self.refuses("git rev-parse ended with status 128", "staged", status=2, env=env)
        self.refuses("git cannot be run", "staged", status=2, env={"PATH": "/none"})
        if not os.path.exists("/dev/full"):
            self.skipTest("skipped: there is no /dev/full")
        with open("/dev/full", "wb") as full:
            self.tool("staged", status=2, stdout=full, stderr=full, env=env)
