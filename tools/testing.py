"""Shared code of the tests of the commands: a folder for each test, and calls of
the commands in it."""
import os
import shlex
import shutil
import subprocess
import sys
import tempfile
import unittest
from pathlib import Path
from typing import Any

TOOLS = Path(__file__).resolve().parent
TOP = TOOLS.parent
COMMANDS = ("canonicalise", "diff", "digest", "staged", "textconv", "where")
TEXT, SAME, OTHER = b"{b=a;a=b;}\n", b'/* the same */ { "a" = b; b = a; }\n', b"{b=a;a=c;}\n"
PRINTED = b'{\n  "a" => "b"\n  "b" => "a"\n}\n'
TWICE = b"{a;a=b;}\n"
XML = b'<?xml version="1.0"?>\n<plist version="1.0"><dict><key>a</key><real>2.5</real></dict></plist>\n'
XML_PRINTED = b'{\n  "a" => 2.5\n}\n'


def trailer(widths: bytes, *numbers: int) -> bytes:
    """Returns the trailer of a binary file: the widths of offsets and references, the count of
    objects, the number of the top one, and the offset of the table."""
    return bytes(6) + widths + b"".join(number.to_bytes(8, "big") for number in numbers)


def binary(*objects, top=0, count=None, table=None) -> bytes:
    """Returns a binary file of these objects, with references and offsets of one byte."""
    begins, body = [], b"bplist00"
    for octets in objects:
        begins.append(len(body))
        body += octets
    count, table = len(objects) if count is None else count, table or len(body)
    return body + bytes(begins) + trailer(b"\1\1", count, top, table)


# A binary file with a UID, as in keyed archives.
ARCHIVE = binary(b"\xd1\x01\x02", b"Qa", b"\x80\x01")


def found_program() -> str:
    """Returns the absolute path of the program to test."""
    for place in (os.environ.get("PLISTCONV") or str(TOP / "plistconv"), "plistconv"):
        program = shutil.which(place)
        if program is not None:
            return os.path.abspath(program)
    sys.exit("test_tools: there is no plistconv: set PLISTCONV")


PROGRAM = found_program()
ENVIRONMENT = {
    **{it: os.environ[it] for it in os.environ if not it.startswith(("GIT_", "PYTHON"))},
    "PLISTCONV": PROGRAM,
    "PATH": f"{TOOLS}{os.pathsep}{os.environ.get('PATH', os.defpath)}",
    "LC_ALL": "C.UTF-8",
    "GIT_CONFIG_GLOBAL": os.devnull,
    "GIT_CONFIG_SYSTEM": os.devnull,
    "GIT_CONFIG_NOSYSTEM": "1",
    **{f"GIT_{who}_{it}": "a@b" for who in ("AUTHOR", "COMMITTER") for it in ("NAME", "EMAIL")},
}


class Case(unittest.TestCase):
    """A test in a new, empty folder."""

    def setUp(self) -> None:
        self.folder = Path(tempfile.mkdtemp())
        self.addCleanup(shutil.rmtree, self.folder, ignore_errors=True)
        self.environment = dict(ENVIRONMENT)

    def put(self, name, octets: bytes) -> Path:
        """Makes a file, and its folders if they do not exist."""
        path = Path(os.path.join(str(self.folder), os.fsdecode(name)))
        path.parent.mkdir(parents=True, exist_ok=True)
        path.write_bytes(octets)
        return path

    def put_all(self, files: dict) -> None:
        """Makes files of these names and contents."""
        for name, octets in files.items():
            self.put(name, octets)

    def content(self, name: str) -> bytes:
        """Returns the content of a file."""
        return (self.folder / name).read_bytes()

    def call(self, words, status=0, cwd="", env=None, **more) -> subprocess.CompletedProcess:
        """Runs a program in the folder, or in `cwd` there, which must exit with the status. `env`
        has more variables."""
        options: dict[str, Any] = {"stdout": subprocess.PIPE, "stderr": subprocess.PIPE, **more}
        if "stdin" not in more:
            options.setdefault("input", b"")
        options.update(cwd=str(self.folder / cwd), env={**self.environment, **(env or {})})
        run = subprocess.run(words, check=False, **options)
        self.assertEqual(run.returncode, status, (words, run.stdout, run.stderr))
        return run

    def tool(self, command: str, *words, status=0, **more) -> subprocess.CompletedProcess:
        """Runs a command with the words that its text has, and with more."""
        name, *first = command.split(" ")
        path = str(TOOLS / f"plistconv-{name}")
        return self.call([sys.executable, path, *first, *words], status, **more)

    def says(self, command: str, *words, status=1, **more) -> str:
        """Runs a command, and returns its messages."""
        return self.tool(command, *words, status=status, **more).stderr.decode()

    def prints(self, octets: bytes, command: str, *words, **more) -> None:
        """Runs a command, which must print the bytes, and nothing on standard error."""
        run = self.tool(command, *words, **more)
        self.assertEqual((run.stdout, run.stderr), (octets, b""), (command, words))

    def refuses(self, said: str, command: str, *words, status=1, printed=b"", **more) -> None:
        """Runs a command, which must print this message on standard error."""
        run = self.tool(command, *words, status=status, **more)
        self.assertIn(said.encode(), run.stderr, (command, words))
        self.assertEqual(run.stdout, printed, (command, words))

    def script(self, name: str, lines: str) -> Path:
        """Makes a shell script."""
        path = self.put(name, f"#!/bin/sh\n{lines}\n".encode())
        path.chmod(0o755)
        return path

    def program(self, lines: str) -> dict:
        """Returns the variable that makes this shell script the program. In it "$PROGRAM" is the
        real one."""
        lines = f"PROGRAM={shlex.quote(PROGRAM)}\n{lines}"
        return {"PLISTCONV": str(self.script("bin/program", lines))}

    def patched(self, lines: str, *words, status=0, tool="canonicalise", **more) -> bytes:
        """Runs a command after these lines of Python, and returns its messages."""
        path = str(TOOLS / f"plistconv-{tool}")
        code = f"import os, runpy, sys\n{lines}\nsys.argv[0] = {path!r}\nrunpy.run_path({path!r}, run_name='__main__')"
        return self.call([sys.executable, "-B", "-c", code, *words], status, **more).stderr

    def canonical(self, octets: bytes) -> bytes:
        """Returns the canonical file of a property list."""
        return self.call([PROGRAM], input=octets).stdout

    def left(self) -> list:
        """Returns the paths of everything below the folder."""
        return sorted(str(path.relative_to(self.folder)) for path in self.folder.rglob("*"))

    def git(self, command: str, *words, status=0, **more) -> bytes:
        """Runs git with the words that the text has, and with more."""
        if shutil.which("git") is None:
            self.skipTest("skipped: there is no git")
        return self.call(["git", *command.split(" "), *words], status, **more).stdout


class Repository(Case):
    """A test in a new repository, with the commands on the path, in which the hook
    may be installed."""

    def setUp(self):
        super().setUp()
        self.git("init -q")
        self.git("symbolic-ref HEAD refs/heads/main")
        for path in TOOLS.glob("plistconv-*"):
            self.assertTrue(os.access(str(path), os.X_OK), path)
        # So that `#!/usr/bin/env python3` is the Python that runs the tests.
        python = self.script(".git/bin/python3", f'exec {shlex.quote(sys.executable)} "$@"')
        self.environment["PATH"] = f"{python.parent}{os.pathsep}{self.environment['PATH']}"

    def add(self, files=None) -> None:
        """Makes files, and stages everything."""
        self.put_all(files or {})
        self.git("add -A")

    def hook(self):
        """Installs the hook."""
        self.tool("staged", "--install")

    def commit(self, *words, status=0, env=None):
        """Commits, and returns the messages."""
        run = self.call(["git", "commit", "-qm", "one", *words], status, env=env)
        return run.stderr.decode()
