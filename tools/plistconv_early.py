"""The first module of each command: how it ends at an interrupt, and if nothing else handles what
fails, while it reads the other modules too."""
import _signal  # (The module `signal` takes a while to read.)
import os
import sys

COMMAND = os.path.basename(sys.argv[0])


class Trouble(Exception):
    """The command ends with status 2. The message says why."""


def begin() -> None:
    """Has an interrupt end the process as if it had no handler, unless the command was started with
    another one, and everything that is not handled end it with status 2 and one line."""
    if _signal.getsignal(_signal.SIGINT) is _signal.default_int_handler:
        _signal.signal(_signal.SIGINT, _signal.SIG_DFL)
    sys.excepthook = end


def end(kind: type, fault: BaseException, _trace: object) -> None:
    """Says why the command ends."""
    name = "" if kind is Trouble else f"{kind.__name__}: "
    say(f"{name}{fault}" if kind is not MemoryError else "out of memory")
    os._exit(2)


def escaped(text: str) -> str:
    """Returns the text with line ends and control characters escaped."""
    return "".join(c if c.isprintable() else c.encode("unicode_escape").decode() for c in text)


def write_all(file: int, octets: bytes) -> None:
    """Writes all of the bytes to an open file. Raises `OSError`."""
    rest = memoryview(octets)
    while rest:
        rest = rest[os.write(file, rest) :]


def say(message: str) -> None:
    """Writes a message in one line to standard error, and ignores failures."""
    try:
        write_all(2, f"{COMMAND}: {escaped(message)}\n".encode("utf-8", "backslashreplace"))
    except OSError:
        pass
