"""Tests the installation of the hook, plistconv-textconv, and the examples of the page
with git and bundles."""
import os
import plistlib
import re

from testing import ARCHIVE, OTHER, PRINTED, SAME, TEXT, TOP, TWICE, XML, Repository

SIDES = b"<<<<<<< one\na = b;\n=======\na = c;\n>>>>>>> two\n"
CALLS = b"#!/bin/sh\nplistconv-staged || exit 1\n"
# Equal to TEXT.
UNSORTED = plistlib.dumps({"b": "a", "a": "b"}, fmt=plistlib.FMT_BINARY, sort_keys=False)
PAGE = (TOP / "docs" / "RECIPES.md").read_text(encoding="utf-8")
REFUSED = (
    (ARCHIVE, "refused 9 UidObject at object 2"),
    (TWICE, "refused 14"),
    (b"\x00\xff\x1b[31m", "refused"),
    (XML.replace(b"real", b"rael"), "refused as XML: line 2: there is no element <rael>"),
)


class Install(Repository):
    """The hook is added to a repository."""

    def test_hook_is_made_once_and_works(self):
        hooks = ".git/hooks/pre-commit", ".git/hooks/pre-merge-commit"
        line = "has the line: plistconv-staged || exit 1"
        said = "".join(f"{hook} {line}\n" for hook in hooks).encode()
        for _ in range(2):
            self.prints(said, "staged --install")
        for hook in hooks:
            self.assertEqual(self.content(hook), CALLS)
        self.add({"a.plist": TEXT})
        self.assertIn("a.plist: an OpenStep text", self.commit(status=1))

    def test_hook_of_a_shell_keeps_its_lines(self):
        rest = b"# plistconv-staged\necho mine >&2\nexit 0"
        hook = self.put(".git/hooks/pre-commit", b"")
        hook.chmod(0o750)
        for lines in (
            rest,
            b"echo plistconv-staged\n",
            b"plistconv-staged || true\n",
            b"  plistconv-staged || exit 1 # never\n",
            b"exec true\nplistconv-staged || exit 1\n",
            b"exec plistconv-staged\n",
            b": <<END\n  plistconv-staged || exit 1\nEND\n",
        ):
            hook.write_bytes(b"#!/bin/sh\n" + lines)
            for _ in range(2):
                self.hook()
                self.assertEqual(hook.read_bytes(), CALLS + lines)
        wanted = b"#!/bin/sh\necho mine >&2\nplistconv-staged || exit 1\n"
        hook.write_bytes(wanted)
        self.hook()
        self.assertEqual(hook.read_bytes(), wanted)
        hook.write_bytes(CALLS + rest)
        self.assertEqual(hook.stat().st_mode & 0o777, 0o750)
        self.add({"a.plist": TEXT})
        self.assertNotIn("mine", self.commit(status=1))
        self.put("a.plist", self.canonical(TEXT))
        self.assertIn("mine", self.commit("-a"))

    def test_merges_are_checked(self):
        self.hook()
        self.add({"a": b""})
        self.commit()
        self.git("checkout -qb other")
        self.add({"a.plist": TEXT})
        self.commit("--no-verify")
        self.git("checkout -q -")
        self.add({"b": b""})
        self.commit()
        said = self.call(["git", "merge", "-q", "other"], 1).stderr.decode()
        self.assertIn("a.plist: an OpenStep text", said)

    def test_no_hook_where_git_runs_none(self):
        self.git("config core.hooksPath", "")
        self.refuses("core.hooksPath is empty, so git runs no hook", "staged --install")
        self.assertEqual([name for name in self.left() if not name.startswith(".git")], [])
        self.git("init -q --bare bare.git")
        before = self.left()
        self.refuses("nobody commits in a bare repository", "staged --install", cwd="bare.git")
        self.assertEqual(self.left(), before)

    def test_folder_of_hooks_that_others_use_is_named(self):
        inner = str(self.folder / "one" / "two")
        self.git("init -q", inner)
        own = "plistconv-staged: {}: other repositories with this folder run the hooks too\n"
        shared = str(self.folder / "hooks"), "../../hooks", ".."
        for path in (*shared, "hooks", f"{inner}/.git/other"):
            self.git("config core.hooksPath", path, cwd=inner)
            said = self.says("staged --install", status=0, cwd=inner)
            self.assertEqual(said, own.format(path) if path in shared else "", path)

    def left_as_it_is(self, why: str) -> None:
        """Expects that the hook pre-commit is left, and that the other is made."""
        merged = b".git/hooks/pre-merge-commit has the line: plistconv-staged || exit 1\n"
        said = f"{why}; left as it is. Have it call: plistconv-staged || exit 1"
        self.refuses(said, "staged --install", printed=merged)

    def test_other_hooks_are_left(self):
        hook = self.folder / ".git" / "hooks" / "pre-commit"
        for octets, mode, why in (
            (b"#!/usr/bin/env python3\n", 0o755, "is no shell script"),
            (b"\x7fELF", 0o755, "is no shell script"),
            (b"#!/bin/sh\n", 0o644, "cannot be run, so git ignores it"),
            (CALLS, 0o644, "cannot be run, so git ignores it"),
            (b"", 0o755, "is no shell script"),
            (b"#!/bin/sh\r\nexit\r\n", 0o755, "is no shell script"),
        ):
            self.put(".git/hooks/pre-commit", octets).chmod(mode)
            self.left_as_it_is(f".git/hooks/pre-commit: {why}")
            self.assertEqual(hook.read_bytes(), octets)
        hook.unlink()
        os.symlink("../../hook", str(hook))
        self.left_as_it_is("is a symbolic link")
        self.put("hook", b"#!/bin/sh\n").chmod(0o755)
        self.left_as_it_is("is a symbolic link")
        hook.unlink()
        hook.mkdir()
        self.left_as_it_is("is no regular file")

    def test_work_trees_submodules_and_folders_of_hooks(self):
        self.add({"sub/a": b""})
        self.commit()
        self.git("worktree add -q -b other", "other tree")
        self.git("-c protocol.file.allow=always submodule add -q", str(self.folder), "module")
        hooks, of_module = self.folder / ".git/hooks", self.folder / ".git/modules/module/hooks"
        for folder, made in (("other tree/sub", hooks), ("sub", hooks), ("module/sub", of_module)):
            self.tool("staged --install", cwd=folder)
            self.assertTrue(os.access(str(made / "pre-commit"), os.X_OK))
            (made / "pre-commit").unlink()
        self.assertFalse((hooks / "pre-commit").exists())
        self.git("config core.hooksPath", "my hooks")
        said = self.tool("staged --install", cwd="sub").stdout
        self.assertIn(b"../my hooks/pre-merge-commit has the line: ", said)
        self.put("a.plist", TEXT)
        self.git("add a.plist")
        self.assertIn("a.plist: an OpenStep", self.commit(status=1))
        why, env = "git rev-parse ended with status 128", {"GIT_DIR": "/none"}
        self.refuses(why, "staged --install", status=2, env=env)

    def test_file_for_the_framework_names_the_command(self):
        lines = (TOP / ".pre-commit-hooks.yaml").read_text(encoding="utf-8").splitlines()
        for line in ("- id: plistconv-staged", "  language: script", "  always_run: true"):
            self.assertIn(line, lines)
        self.assertIn("  pass_filenames: false", lines)
        self.assertIn("  entry: tools/plistconv-staged", lines)


class Textconv(Repository):
    """git diff."""

    def test_what_is_refused_is_one_line_without_its_octets(self):
        for octets, why in REFUSED:
            self.put("a", octets)
            run = self.tool("textconv a")
            wanted = rf"^Binary file: {re.escape(why)}[ -~]*; SHA-256 [0-9a-f]{{64}}\n$"
            self.assertRegex(run.stdout.decode(), wanted)
            self.assertEqual(run.stderr, b"")

    def test_lines_of_the_page_make_git_diff_readable(self):
        command = re.search(r"(?m)^    (git config .*)$", PAGE)[1]
        self.put(".gitattributes", re.search(r"(?m)^    (\*\.plist .*)$", PAGE)[1].encode())
        self.environment["GIT_CONFIG_GLOBAL"] = str(self.folder / ".git" / "global")
        self.environment["HOME"] = str(self.folder / ".git")
        self.call(["sh", "-ec", command])
        files = {
            "a b.plist": (TEXT, OTHER),
            "-x.plist": (XML, XML.replace(b"2.5", b"3.5")),
            "k.plist": (ARCHIVE, ARCHIVE.replace(b"\x80\x01", b"\x80\x02")),
        }
        for number in (0, 1):
            self.put_all({name: octets[number] for name, octets in files.items()})
            if number == 0:
                self.add()
                self.commit()
        shown = self.git("diff").decode()
        for line in ('-  "a" => "b"', '+  "a" => "c"', '-  "a" => 2.5', '+  "a" => 3.5'):
            self.assertIn(f"\n{line}", shown)
        for sign in "-+":
            self.assertIn(f"\n{sign}Binary file: refused 9 UidObject", shown)
        self.assertNotIn("\x80", shown)

    def test_edits_of_the_writing_alone_show_in_a_last_line(self):
        self.git("config diff.plist.textconv plistconv-textconv")
        self.put(".gitattributes", b"*.plist diff=plist")
        binary = self.canonical(TEXT)
        sides = (TEXT, SAME), (XML, XML + b"<!-- -->"), (TEXT, binary), (binary, UNSORTED)
        for old, new in sides:
            self.add({"a.plist": old})
            self.put("a.plist", new)
            changed = re.findall(r"(?m)^[-+](\w.*)$", self.git("diff").decode())
            wanted = "^Bytes: SHA-256 [0-9a-f]{64}; if only this line differs, the "
            for line in changed:
                self.assertRegex(line, wanted)
            self.assertEqual(len(changed), (old != binary) + (new != binary))
        self.prints(PRINTED, "textconv -", input=binary)


class Tree(Repository):
    """The property lists of a repository, found as the page says."""

    def test_line_of_the_page_makes_canonical_what_the_hook_refuses_and_nothing_else(self):
        end = "xargs -0 -r plistconv-canonicalise --any --"
        line = re.search(f"(?m)^    (plistconv-staged .*{end})$", PAGE)[1]
        self.call(["sh", "-ec", line])  # There is none.
        self.git("config core.symlinks false")
        names = "a b.plist", "-x.plist", "n\nl.PLIST", "[a]*.plist", ":x.plist", "sub/b.plist", "-"
        made = {**dict.fromkeys(names, TEXT), "binary.plist": UNSORTED}
        left = {
            "word.txt": b"word",
            "b.strings": b"a=b;",
            "c.plist/d": TEXT,
            "k.plist": TEXT,
            "old.plist": XML,
            "twice.plist": TWICE,
            "conflict.plist": SIDES,
            "old conflict.plist": XML.replace(b"<dict>", b"<dict>\n" + SIDES),
            "lfs.plist": b"version https://git-lfs.github.com/spec/v1\noid sha256:0\nsize 1\n",
            "annex.plist": b"/annex/objects/SHA256E-s1--0.plist\n",
            "empty.plist": b"\n",
            "edited.plist": TEXT,
            "lines.plist": TEXT,
            "link.plist": b"a b.plist",  # as git checks a link out if the system has none
        }
        attributes = b"/- plistconv\nk.plist -plistconv\nlines.plist text\n"
        self.add({**made, **left, ".gitattributes": attributes})
        blob = self.git("rev-parse :link.plist").decode().strip()
        self.git(f"update-index --cacheinfo 120000,{blob},link.plist")
        self.commit()
        left.update({"untracked.plist": TEXT, "edited.plist": OTHER})
        self.put_all(left)
        said = self.call(["sh", "-c", line], 123, cwd="sub").stderr.decode()
        for why in (
            "conflict.plist: refused 29 BadData at octet 1, a merge conflict: keep one side, and",
            "old conflict.plist: refused 21 XmlForm at octet 0 (XML), a merge conflict: keep one",
            "lfs.plist: a pointer of Git LFS, which has the file: it is not checked",
            "annex.plist: a pointer of git-annex, which has the file: it is not checked",
            "empty.plist: empty, which reads as an empty dictionary",
            "edited.plist: an OpenStep text, which is not canonical; differs in the work tree",
            "lines.plist: git changes its bytes, by the attribute text",
            "twice.plist: refused 14 DuplicateKey at octet 3",
        ):
            self.assertIn(f"plistconv-staged: {why}", said)
        self.assertIn("plistconv-canonicalise: ../old.plist: refused 21 XmlForm", said)
        for name, octets in made.items():
            self.assertEqual(self.content(name), self.canonical(octets))
        for name, octets in left.items():
            self.assertEqual(self.content(name), octets)

    def test_branch_is_no_property_list_of_a_repository(self):
        self.add({"a": b""})
        self.commit()
        self.git("branch update-Info.plist")
        self.refuses("one word or of none", "canonicalise .git/refs/heads/update-Info.plist")
        self.git("rev-parse update-Info.plist")

    def test_archives_of_the_page_have_equal_bytes_if_folders_have_equal_content(self):
        archive = re.search(r"(?m)^    (test -d .* tar (?:.*\\\n)?.*)$", PAGE)[1]
        if b"GNU tar" not in self.call(["tar", "--version"]).stdout:
            self.skipTest("skipped: there is no GNU tar")
        one, two = (self.put(f"Example.app/{name}", b"program") for name in ("one", "two"))
        self.call(["sh", "-ec", archive])
        first = self.content("example.tar")
        self.call(["sh", "-ec", archive.replace("Example.app", "None.app")], 1)
        self.assertEqual(self.content("example.tar"), first)
        two.unlink()
        os.link(str(one), str(two))
        os.utime(str(one), (1, 1))
        one.chmod(0o600)
        self.call(["sh", "-ec", archive])
        self.assertEqual(self.content("example.tar"), first)
