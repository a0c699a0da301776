#!/usr/bin/env python3
"""Tests what holds for all of the commands, and runs all tests, or those of some modules:
PLISTCONV=./plistconv python3 tools/test_tools.py [test_git..]"""
import ast
import hashlib
import importlib
import os
import shutil
import signal
import sys
import unittest

from testing import COMMANDS, OTHER, PRINTED, PROGRAM, SAME, TEXT, TOOLS, TWICE
from testing import XML, XML_PRINTED, Case, binary

WORDS = {
    "canonicalise": ["-"],
    "diff": ["a", "other"],
    "digest": ["a"],
    "staged": [],
    "textconv": ["a"],
    "where": ["a", "1"],
}


class EveryCommand(Case):
    """What holds for each of the commands."""

    def setUp(self):
        super().setUp()
        self.put_all({"a": TEXT, "other": OTHER})

    def test_help_is_the_docstring_in_80_columns(self):
        for name in COMMANDS:
            shown = self.tool(f"{name} --help").stdout.decode()
            source = (TOOLS / f"plistconv-{name}").read_text(encoding="utf-8")
            self.assertIn(ast.get_docstring(ast.parse(source)), shown)
            self.assertLessEqual(max(map(len, shown.splitlines())), 80, name)
            self.assertEqual(shown, self.tool(f"{name} -h").stdout.decode())

    def test_arguments_that_are_missing_or_unknown_are_status_2(self):
        for name in COMMANDS:
            if name != "staged":
                self.refuses(f"usage: plistconv-{name}", name, status=2)
            for words, option in (
                (["--none", "1", "2", "3"], "--none"),
                (["a", "--none=3", "1"], "--none=3"),
                (["--none", "--", "-x"], "--none"),
                (["-x\n--none", "a"], r"-x\n--none"),
            ):
                self.refuses(f"usage: plistconv-{name}", name, *words, status=2)
                self.refuses(f"error: there is no option {option}\n", name, *words, status=2)

    def test_version_is_that_of_the_program(self):
        version = self.call([PROGRAM, "--version"]).stdout.split()[1].decode()
        for name in COMMANDS:
            self.prints(f"plistconv-{name} {version}\n".encode(), f"{name} --version")

    def test_standard_input_is_read_once(self):
        for name in ("canonicalise", "digest", "diff"):
            for words in (["-", "-"], ["-", "/dev/stdin"]):
                self.refuses("error: standard input is named twice", name, *words, status=2)

    def test_no_program_is_status_2(self):
        self.git("init -q")
        self.put("a.plist", TEXT)
        self.git("add -A")
        why, env = "there is no program /none/plistconv", {"PLISTCONV": "/none/plistconv"}
        for name in COMMANDS:
            if name != "where":
                self.refuses(why, name, *WORDS[name], status=2, env=env, input=TEXT)

    def redirected(self, files: str, name: str, *words, status: int) -> bytes:
        """Runs a command after the shell opened or closed files, and returns its messages."""
        command = ["sh", "-c", f'exec "$@" {files}', "sh", sys.executable]
        path = str(TOOLS / f"plistconv-{name}")
        return self.call([*command, path, *words], status, input=TEXT).stderr

    def test_output_that_cannot_be_written_is_status_2_and_said(self):
        ways = {">&-": b"Bad file descriptor", "> /dev/full": b"No space left on device"}
        if not os.path.exists("/dev/full"):
            self.skipTest("skipped: there is no /dev/full")
        for name in COMMANDS:
            for words in [["--help"], ["--version"], *([WORDS[name]] if name != "staged" else [])]:
                for files, why in ways.items():
                    said = self.redirected(files, name, *words, status=2)
                    self.assertIn(b"standard output cannot be written: " + why, said)

    def test_closed_error_and_input_write_into_no_file(self):
        self.put("b.plist", SAME)
        self.redirected("<&- >&- 2>&-", "canonicalise", "b.plist", "none", status=1)
        self.assertEqual(self.content("b.plist"), self.canonical(SAME))
        said = self.redirected("<&-", "digest", "-", status=1)
        self.assertIn(b"-: Bad file descriptor", said)

    def test_reader_that_goes_away_gets_no_traceback(self):
        for name in ("digest", "diff", "textconv", "where", "canonicalise"):
            reading, writing = os.pipe()
            os.close(reading)
            run = self.tool(name, *WORDS[name], status=141, stdout=writing, input=TEXT)
            os.close(writing)
            self.assertEqual(run.stderr, b"")

    def test_interrupt_prints_no_traceback(self):
        # While the first and other modules are read, and while the program runs.
        lines = b"import os, time\nos.kill(os.getpid(), 2)\ntime.sleep(9)\n"
        for module in ("signal", "argparse"):
            path = self.put(f"{module}/{module}.py", lines)
            env = {"PYTHONPATH": str(path.parent)}
            for name in COMMANDS:
                self.prints(b"", name, *WORDS[name], status=-signal.SIGINT, env=env, input=TEXT)
        env = self.program("kill -INT $PPID")
        for name in ("canonicalise", "digest", "diff", "textconv"):
            self.prints(b"", name, *WORDS[name], status=130, env=env, input=TEXT)

    def test_what_nobody_expects_is_status_2_in_one_line(self):
        # While the modules are read, and in a command.
        path = self.put("modules/argparse.py", b"raise MemoryError")
        env = {"PYTHONPATH": str(path.parent)}
        for name in COMMANDS:
            said = self.says(name, *WORDS[name], status=2, env=env, input=TEXT)
            self.assertEqual(said, f"plistconv-{name}: out of memory\n")
        fails = "import hashlib\nhashlib.sha256 = lambda octets: 1 / 0"
        said = self.patched(fails, "a", tool="digest", status=2)
        self.assertEqual(said, b"plistconv-digest: ZeroDivisionError: division by zero\n")
        no_threads = "import threading\nthreading.Thread.start = None"
        self.assertEqual(self.patched(no_threads, "a", "other", tool="digest"), b"")
        self.assertEqual(self.patched(no_threads, "a", "other", tool="diff", status=1), b"")

    def test_names_show_as_they_are_whatever_the_encoding(self):
        env = {"PYTHONIOENCODING": "ascii", "LC_ALL": "C"}
        self.refuses("plistconv-digest: é: No such file", "digest é", status=1, env=env)
        self.refuses("error: there is no option --é\n", "digest --é", status=2, env=env)

    def test_texts_that_are_too_long(self):
        # Twenty-two arrays that each contain the one before twice print more than 64 MB.
        deep = binary(*(b"\xa2" + bytes([at + 1, at + 1]) for at in range(22)), b"Qx")
        self.put_all({"deep": deep, "copy": deep})
        digest = hashlib.sha256(deep).hexdigest()
        why = "prints more than 64000000 bytes, the limit (PLISTCONV_PRINT_LIMIT)"
        self.prints(f"Binary file: {why}; SHA-256 {digest}\n".encode(), "textconv deep")
        self.refuses(f"plistconv-diff: deep: {why}", "diff a deep", status=2)
        self.prints(b"", "diff deep copy")
        # An empty limit is as if none was set.
        for limit, status in ((len(PRINTED), 1), (len(PRINTED) - 1, 2), ("", 1)):
            env = {"PLISTCONV_PRINT_LIMIT": str(limit)}
            self.tool("diff a other", status=status, env=env)
            self.prints(b"", "diff a a", env=env)
        why, env = "is no number of bytes: 1 GB", {"PLISTCONV_PRINT_LIMIT": "1 GB"}
        self.refuses(f"PLISTCONV_PRINT_LIMIT {why}", "textconv a", status=2, env=env)

    def textconv(self, *words, **more) -> bytes:
        """Returns what plistconv-textconv prints of a text before the line with its digest."""
        return self.tool("textconv", *words, **more).stdout.partition(b"Bytes: SHA-256 ")[0]

    def test_temporary_files_have_no_name(self):
        self.environment["TMPDIR"] = str(self.folder)
        env = self.program('ls -A > "$0.seen"; exec "$PROGRAM" "$@"')
        self.tool("diff a other", status=1, env=env)
        self.assertEqual(self.content("bin/program.seen"), b"a\nbin\nother\n")
        self.assertEqual(self.textconv("a", env={"TMPDIR": "/none"}), PRINTED)

    def test_no_module_of_this_folder_is_run(self):
        for module in ("plistlib", "argparse", "unicodedata", "plistconv_tools"):
            self.put(f"{module}.py", b'open("taken", "w")\n')
        self.put("x", XML)
        self.assertEqual(self.textconv("x"), XML_PRINTED)
        self.tool("where a 1")
        self.assertNotIn("taken", self.left())

    def test_program_is_found_beside_the_command_or_on_the_path(self):
        del self.environment["PLISTCONV"]
        checkout, installed = (self.folder / it / "share" / "plistconv" for it in ("one", "two"))
        for folder in (checkout, installed):
            shutil.copytree(str(TOOLS), str(folder / "tools"))
        (checkout / "crates.txt").write_bytes(b"")
        command = self.put("bin/plistconv-textconv", b"")

        def prints(folder, path="/none", status=0):
            command.unlink()
            os.symlink(str(folder / "tools" / "plistconv-textconv"), str(command))
            words = [sys.executable, "bin/plistconv-textconv", "a"]
            run = self.call(words, status, env={"PATH": path})
            self.assertEqual(run.stdout.partition(b"Bytes")[0], b"" if status else PRINTED)

        for folder in (checkout, installed):
            prints(folder, status=2)
            # Somebody else's program, which is not called.
            self.script(folder / "bin" / "plistconv", "echo other")
            prints(folder, status=2)
        for path, folder, is_there in (
            ("one/bin", checkout, False),
            ("one/share/plistconv", checkout, True),
            ("two/bin", installed, True),
            ("two/share/plistconv", installed, False),
            ("bin", checkout, True),
            ("bin", installed, True),
        ):
            (self.folder / path).mkdir(exist_ok=True)
            program = shutil.copy(PROGRAM, str(self.folder / path / "plistconv"))
            prints(folder, status=0 if is_there else 2)
            prints(folder, path=str(self.folder / path))
            os.unlink(program)

    def test_files_that_are_not_there_or_folders_are_said(self):
        statuses = {"canonicalise": 1, "digest": 1, "diff": 2, "textconv": 2, "where": 1}
        for name, status in statuses.items():
            for file, why in (("none", "No such file"), ("", "No such file"), (".", "")):
                words = [file, *WORDS[name][1:]]
                self.refuses(f"plistconv-{name}: {file}: {why}", name, *words, status=status)

    def test_names_that_are_not_utf8_or_begin_with_a_dash(self):
        digest = hashlib.sha256(self.canonical(TEXT)).hexdigest().encode()
        for name in (b"caf\xe9 .plist", b"-x.plist"):
            try:
                self.put(name, TEXT)
            except OSError:
                self.skipTest("skipped: no file here has such a name")
            self.prints(digest + b"  " + name + b"\n", "digest --", name)
            self.assertEqual(self.textconv("--", name), PRINTED)
            self.assertEqual(self.textconv(name), PRINTED)
            self.tool("diff --", name, "other", status=1)
            self.tool("where --", name, "1")
            self.tool("canonicalise --", name)
        self.put(b"caf\xe9\n\x1b.plist", TWICE)
        self.refuses(r"caf\xe9\n\x1b.plist: refused 14", "digest", b"caf\xe9\n\x1b.plist")


def main() -> int:
    """Runs the tests of these modules, or all, and reports which fail and which are skipped."""
    load, result = unittest.defaultTestLoader.loadTestsFromModule, unittest.TestResult()
    for name in sys.argv[1:] or sorted(path.stem for path in TOOLS.glob("test_*.py")):
        load(importlib.import_module(name)).run(result)
    for test, trace in result.errors + result.failures:
        print(f"{test.id()} fails:\n{trace}")
    for test, why in result.skipped:
        print(f"tools: {test.id()} {why}")
    faults = len(result.errors) + len(result.failures)
    print(f"tools: {result.testsRun} tests, {faults} fail")
    return 1 if faults else 0


if __name__ == "__main__":
    sys.exit(main())
