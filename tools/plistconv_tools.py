"""What the plistconv commands share: arguments, input, the program, messages and exit statuses.

The commands read their files, and the program gets the bytes in an unnamed temporary file, so
names may be anything that the system allows.
"""
from __future__ import annotations

import argparse
import errno
import os
import re
import shutil
import signal
import struct
import sys
from contextlib import contextmanager, suppress
from functools import lru_cache
from typing import Callable, Iterator, NoReturn

from plistconv_early import COMMAND, Trouble, escaped, say, write_all
from plistconv_processes import end_at_signals, start

VERSION = "0.3.0"
STANDARD_INPUT = ("-", "/dev/stdin", "/dev/fd/0", "/proc/self/fd/0")
PRINT_LIMIT = 64_000_000  # the most bytes of a printed text, unless PLISTCONV_PRINT_LIMIT is set
PRINTED = (
    rb"(?s)(\{(\n  .*\n)?\}|\[(\n  .*\n)?\]|<([0-9a-f]*|\n  .*\n)>|\"[^\n]*\"|true|false|"
    rb"(date )?-?([0-9.]+|infinity|(real|nan) <[0-9a-f]+>)f?( \([^\n]*\))?)\n"
)
# What the program prints if it has an answer, by its command (none converts) and its status.
ANSWERS = {
    ("", 0): rb"(?s)bplist00.{32,}",
    ("same", 0): rb"equal\n",
    ("same", 1): rb"different\n",
    ("print", 0): PRINTED,
}
REFUSAL = re.compile(
    rb"(?s)(?:.*: )?(refused ([0-9]+) [A-Za-z0-9]+(?: at [a-z]+ [0-9]+| after [0-9]+ octets)?)\n"
)
XML_HINT = (
    "XML is converted first, always by the same one of: plistconv-canonicalise --from-xml FILE; "
    "plistutil -i IN -f bin -o OUT; on macOS plutil -convert binary1 -o OUT IN"
)


class Refused(Exception):
    """There is no answer for a file. The message says why."""


class RefusedXml(Refused):
    """XML, which the program refuses."""


class Failed(Exception):
    """The program fails over a file, which may be faultless. The message says how."""


def reason(fault: Exception) -> str:
    """Returns why something fails, without the name of the file."""
    return getattr(fault, "strerror", None) or str(fault)


def shown(name: str) -> str:
    """Returns the name for a message, with line ends and control characters escaped."""
    return escaped(os.fsencode(name).decode("utf-8", "backslashreplace"))


class Faults:
    """Reports what is wrong with files while the others are worked on."""

    def __init__(self) -> None:
        self.worst, self.has_xml = 0, False

    def add(self, name: str, fault: Exception, end: str = "") -> None:
        """Says why the work on a file fails."""
        say(f"{shown(name)}: {reason(fault)}{end}")
        self.worst = max(self.worst, 2 if isinstance(fault, Failed) else 1)
        self.has_xml = self.has_xml or isinstance(fault, RefusedXml)

    @contextmanager
    def of(self, name: str, end: str = "") -> Iterator[None]:
        """Says why the work on a file fails, and ends this work."""
        try:
            yield
        except (Refused, Failed, OSError) as fault:
            self.add(name, fault, end)

    def status(self) -> int:
        """Returns the exit status, and says how to convert XML if some was refused."""
        if self.has_xml:
            say(XML_HINT)
        return self.worst


class Parser(argparse.ArgumentParser):
    """An argument parser whose help is the docstring of the command, and that
    names unknown options."""

    def __init__(self, usage: str) -> None:
        self.options: set[str] = set()
        shape = argparse.RawDescriptionHelpFormatter
        super().__init__(prog=COMMAND, description=usage, formatter_class=shape, allow_abbrev=False)
        about = "print the version and exit"
        self.add_argument("--version", action="version", version=f"{COMMAND} {VERSION}", help=about)

    def add_argument(self, *names: str, **about: object) -> argparse.Action:
        """Adds an argument or an option."""
        self.options.update(name for name in names if name.startswith("-"))
        return super().add_argument(*names, **about)  # type: ignore[arg-type]

    def add_flag(self, name: str, about: str) -> None:
        """Adds an option without a value."""
        self.add_argument(name, action="store_true", help=about)

    def _print_message(self, message: str, file: object = None) -> None:
        """Prints the help or the version, or ends the command if it cannot be written."""
        write(message.encode())

    def error(self, message: str) -> NoReturn:
        """Ends the command with a usage error, which is an unknown option if there is one."""
        words = sys.argv[1:]
        words = words[: words.index("--")] if "--" in words else words
        for word in words:
            known = word.partition("=")[0] in self.options or word[:2] in self.options
            if word.startswith("-") and word != "-" and not known:
                message = f"there is no option {shown(word)}"
        with suppress(OSError):
            write_all(2, self.format_usage().encode())
        say(f"error: {message}")
        sys.exit(2)

    def read_input_once(self, names: list[str]) -> None:
        """Ends the command with a usage error if several names are those of standard input,
        which is read once."""
        if sum(name in STANDARD_INPUT for name in names) > 1:
            self.error("standard input is named twice")


def read(name: str) -> bytes:
    """Returns the content of a file or pipe, or of standard input for `-`. Raises `OSError`."""
    if name != "-":
        with open(name, "rb") as file:
            return file.read()
    if sys.stdin is None:
        raise OSError(errno.EBADF, os.strerror(errno.EBADF))
    return sys.stdin.buffer.read()


@contextmanager
def output() -> Iterator[None]:
    """Ends the command if standard output cannot be written: as by SIGPIPE if nobody reads it."""
    try:
        yield
    except BrokenPipeError:
        sys.exit(128 + signal.SIGPIPE)
    except OSError as fault:
        raise Trouble(f"standard output cannot be written: {reason(fault)}") from None


def write(octets: bytes) -> None:
    """Writes all of the bytes to standard output, or ends the command."""
    with output():
        if sys.stdout is None:
            raise OSError(errno.EBADF, os.strerror(errno.EBADF))
        write_all(1, octets)


@lru_cache(maxsize=None)
def program() -> str:
    """Returns the path of the program: PLISTCONV, or that beside the command, or that of the same
    checkout or installation, or that on the path."""
    named = os.environ.get("PLISTCONV")
    for place in [named] if named else [*own_places(), "plistconv"]:
        found = shutil.which(place)
        if found:
            return found
    raise Trouble(f"there is no program {shown(named or 'plistconv')}")


def own_places() -> list[str]:
    """Returns the paths that the program has beside the command, and in the same
    checkout or installation."""
    places = [os.path.join(os.path.dirname(os.path.abspath(sys.argv[0])), "plistconv")]
    folder = os.path.dirname(os.path.realpath(__file__))
    if os.path.isfile(os.path.join(folder, "..", "crates.txt")):
        places.append(os.path.join(folder, "..", "plistconv"))
    elif folder.endswith("/share/plistconv/tools"):
        places.append(os.path.join(folder, "..", "..", "..", "bin", "plistconv"))
    return places


def ask(asked: str, *inputs: bytes, most: int = sys.maxsize) -> Callable[[], tuple[int, bytes]]:
    """Starts the program over one or two inputs, with a command or none. Returns a function that
    returns what `answer` does. Raises `Failed` if it cannot be run."""
    try:
        finish = start([program(), *([asked, "/dev/stdin"] if asked else [])], *inputs)
    except OSError as fault:
        raise Failed(f"{shown(program())} cannot be run over it: {reason(fault)}") from None
    return lambda: answer(asked, *finish(most), is_xml(inputs[0]), most)


def answer(
    asked: str, status: int, output: bytes, has_xml: bool, most: int = sys.maxsize
) -> tuple[int, bytes]:
    """Returns the status and output of the program if they answer what it was asked. Raises
    `Refused` if it refuses an input or prints too much, and `Failed` if it says anything else."""
    if len(output) > most:
        raise Refused(f"prints more than {most} bytes, the limit (PLISTCONV_PRINT_LIMIT)")
    shape = ANSWERS.get((asked, status))
    if shape and re.fullmatch(shape, output) and (asked or is_whole(output)):
        return status, output
    refusal = REFUSAL.fullmatch(output)
    if refusal is None or status != (5 if refusal[2] == b"60" else 2):
        raise Failed(f"{shown(program())} ended with status {status}, without an answer")
    line = refusal[1].decode()
    if status == 5:
        raise Failed(f"{line}, which says nothing about it")
    raise RefusedXml(f"{line} (XML)") if has_xml else Refused(line)


def is_whole(octets: bytes) -> bool:
    """Returns whether a binary file ends where its trailer says."""
    width, count, table = struct.unpack(">6xBxQ8xQ", octets[-32:])
    return table + width * count + 32 == len(octets)


def canonical(octets: bytes) -> bytes:
    """Returns the canonical file of a property list. Raises `Refused`."""
    return ask("", octets)()[1]


def print_limit() -> int:
    """Returns the most bytes that a printed text may have."""
    given = os.environ.get("PLISTCONV_PRINT_LIMIT") or str(PRINT_LIMIT)
    if not re.fullmatch("[0-9]{1,15}", given):
        raise Trouble(f"PLISTCONV_PRINT_LIMIT is no number of bytes: {shown(given)}")
    return int(given)


def printed(octets: bytes) -> bytes:
    """Returns the printed text of a property list. Raises `Refused`, also if it is too long."""
    return ask("print", octets, most=print_limit())()[1]


def without_xml(octets: bytes) -> bytes:
    """Returns the bytes, or a binary file with the same value if they are XML. Raises `Refused`."""
    return binary_of_xml(octets) if is_xml(octets) else octets


def is_xml(octets: bytes) -> bool:
    """Returns whether the bytes begin like XML, in any encoding, possibly after
    whitespace or a comment."""
    start = octets[:4096].replace(b"\0", b"")  # UTF-16 and UTF-32 without their zeros.
    for mark in (b"\xef\xbb\xbf", b"\xfe\xff", b"\xff\xfe"):
        start = start[len(mark) :] if start.startswith(mark) else start
    return start.lstrip().startswith((b"<?", b"<!", b"<plist"))


def binary_of_xml(octets: bytes) -> bytes:
    """Returns a binary file of an XML property list, by Python's plistlib. Raises `Refused`."""
    import plistconv_xml

    try:
        return plistconv_xml.binary(octets)
    except plistconv_xml.Fault as fault:
        raise Refused(f"refused as XML: {fault}") from None


def run(main: Callable[[], int]) -> NoReturn:
    """Runs the command and exits with the status that it returns. Opens standard files that are
    closed first, so that no other file gets their numbers, and closes standard output last."""
    for number in (0, 1, 2):
        try:
            os.fstat(number)
        except OSError:
            os.open(os.devnull, os.O_RDWR)
    end_at_signals()
    try:
        status: str | int | None = main()
    except SystemExit as ended:
        status = ended.code
    with output():
        os.close(1)
    sys.exit(status)
