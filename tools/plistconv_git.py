"""Asks git about its index, with names taken literally. Writes nothing to the repository."""
from __future__ import annotations

import os
import subprocess
import tempfile
from contextlib import contextmanager
from typing import Iterator

import plistconv_tools as tools
from plistconv_processes import holding, start, undoing

PLAIN = (b"100644", b"100755")  # modes of regular files, not of links and submodules
ENCODING = "working-tree-encoding"
ATTRIBUTES = ("plistconv", "text", "crlf", "eol", "ident", ENCODING)
CHANGING = {"text": ("set", "input"), "crlf": ("set", "input"), "eol": ("lf", "crlf")}


class Git:
    """Calls git in the current folder, since its variables may have relative paths."""

    def __init__(self) -> None:
        kept = {name: os.environ[name] for name in os.environ if not name.endswith("_PATHSPECS")}
        self.environment = {**kept, "GIT_LITERAL_PATHSPECS": "1"}
        self.is_bare = self.call("rev-parse", "--is-bare-repository") == b"true\n"
        # The way to the top folder, which is empty there.
        self.top = b"" if self.is_bare else self.call("rev-parse", "--show-cdup")[:-1]

    def call(self, *words: str, given: bytes = b"", also: int = 0) -> bytes:
        """Returns the output of git, whose status must be 0 or `also`. Its error messages show."""
        try:
            status, output = start(["git", *words], given, env=self.environment)()
        except OSError as fault:
            raise tools.Trouble(f"git cannot be run: {tools.reason(fault)}") from None
        if status not in (0, also):
            raise tools.Trouble(f"git {words[0]} ended with status {status}")
        return output

    @contextmanager
    def head(self) -> Iterator[None]:
        """Gives a bare repository, which has no index, that of HEAD."""
        folder = tempfile.TemporaryDirectory()
        with folder, undoing(folder.cleanup):
            self.environment["GIT_INDEX_FILE"] = os.path.join(folder.name, "index")
            self.call("read-tree", "HEAD")
            yield

    def path(self, name: bytes) -> bytes:
        """Returns the path of a file of the work tree from the current folder."""
        return os.path.join(self.top, name)

    def files(self, is_all: bool) -> dict[bytes, bytes]:
        """Returns the files of the index that differ from HEAD, or all, with the names of their
        blobs, which are empty for what is no regular file or was removed."""
        empty = self.call("hash-object", "-t", "tree", "--stdin")
        head = self.call("rev-parse", "--verify", "--quiet", "HEAD^{tree}", also=1)
        tree = (empty if is_all else head or empty).decode().strip()
        words = ["diff-index", "--cached", "-z", "--no-renames", "--ita-invisible-in-index"]
        fields = self.call(*words, tree, "--").split(b"\0")[:-1]
        rows = [(name, about.split(b" ")) for about, name in zip(fields[::2], fields[1::2])]
        for name, about in rows:
            if about[4] == b"U":
                raise tools.Trouble(f"{tools.shown(os.fsdecode(name))}: is not merged yet")
        return {name: about[3] if about[1] in PLAIN else b"" for name, about in rows}

    def attributes(self, names: list[bytes]) -> list[dict[str, str]]:
        """Returns the attributes of files by the .gitattributes of the index."""
        given = b"".join(self.path(name) + b"\0" for name in names)
        printed = self.call("check-attr", "--cached", "--stdin", "-z", *ATTRIBUTES, given=given)
        values = (value.decode("utf-8", "replace") for value in printed.split(b"\0")[2::3])
        return [dict(zip(ATTRIBUTES, row)) for row in zip(*[values] * len(ATTRIBUTES))]

    def contents(self, blobs: list[bytes]) -> Iterator[bytes]:
        """Yields the contents of these blobs, which one process reads."""
        command, names = ["git", "cat-file", "--batch"], b"".join(blob + b"\n" for blob in blobs)
        with holding(names) as file, subprocess.Popen(
            command, stdin=file, stdout=subprocess.PIPE, env=self.environment
        ) as process:
            assert process.stdout is not None
            for blob in blobs:
                about = process.stdout.readline().split()
                if len(about) != 3:
                    raise tools.Trouble(f"git cat-file does not read {blob.decode()}")
                yield process.stdout.read(int(about[2]) + 1)[:-1]


def changing(attributes: dict[str, str]) -> list[str]:
    """Returns the attributes by which git changes the bytes of a file, whatever it contains."""
    ends = [name for name in CHANGING if attributes[name] in (*CHANGING[name], "unset", "auto")]
    found = [name for name in ends[:1] if attributes[name] in CHANGING[name]]
    found += ["ident"] * (attributes["ident"] == "set")
    is_utf8 = attributes[ENCODING].lower() in ("unspecified", "utf-8", "utf8")
    return found if is_utf8 else [*found, ENCODING]
