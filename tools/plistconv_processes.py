"""Runs programs, several at a time, and undoes what a command has begun if a signal ends it."""
from __future__ import annotations

import os
import signal
import subprocess
import sys
import tempfile
from collections import deque
from contextlib import ExitStack, contextmanager, suppress
from itertools import chain
from typing import Any, Callable, Iterable, Iterator, NoReturn

SIGNALS = ("HUP", "INT", "QUIT", "ALRM", "TERM", "USR1", "USR2", "VTALRM", "PROF", "XCPU")
BEGUN: list[Callable[[], None]] = []  # what undoes the steps that are not complete


def end_at_signals() -> None:
    """Has a signal end the command, unless it is ignored."""
    for name in SIGNALS:
        number = getattr(signal, f"SIG{name}")
        if signal.getsignal(number) is signal.SIG_DFL:
            signal.signal(number, end)


def end(number: int, _frame: object) -> NoReturn:
    """Undoes what is begun and ends the command. It raises nothing that the code which it
    interrupts could take for something else."""
    try:
        for undo in reversed(BEGUN):
            with suppress(OSError):
                undo()
    finally:
        os._exit(128 + number)


@contextmanager
def undoing(undo: Callable[[], None]) -> Iterator[None]:
    """Calls `undo` if the block fails or a signal ends it, even if there is nothing to undo."""
    BEGUN.append(undo)
    try:
        yield
    except BaseException:
        with suppress(OSError):
            undo()
        raise
    finally:
        BEGUN.remove(undo)


@contextmanager
def holding(octets: bytes) -> Iterator[int]:
    """Gives the number of an unnamed temporary file with these bytes, at its beginning."""
    with tempfile.TemporaryFile() as file:
        file.write(octets)
        file.flush()
        file.seek(0)
        yield file.fileno()


def start(
    command: list[str], *inputs: bytes, env: dict[str, str] | None = None
) -> Callable[..., tuple[int, bytes]]:
    """Starts a program with the first input as standard input, and the paths of the others as its
    last arguments. Returns a function that returns its status and output, or a part that has more
    bytes than it allows, and then ends the program. Raises `OSError` if it cannot be run."""
    with ExitStack() as stack:
        files = [stack.enter_context(holding(octets)) for octets in inputs]
        words = [*command, *(f"/dev/fd/{file}" for file in files[1:])]
        process = subprocess.Popen(
            words, stdin=files[0], stdout=subprocess.PIPE, pass_fds=files[1:], env=env
        )
    BEGUN.append(process.kill)

    def finish(most: int = sys.maxsize) -> tuple[int, bytes]:
        assert process.stdout is not None
        pipe, output = process.stdout.fileno(), bytearray()
        with process:
            for part in iter(lambda: os.read(pipe, 1 << 20), b""):
                output += part
                if len(output) > most:
                    process.kill()
                    break
        BEGUN.remove(process.kill)
        return process.returncode, bytes(output)

    return finish


def in_order(jobs: Iterable[Iterator]) -> Iterator[Any]:
    """Yields the last item of each job, in their order. At the item before it, a job waits for a
    program: as many run at a time as the machine has processors."""
    many = os.cpu_count() or 1
    begun: deque = deque()
    for job in jobs:
        begun.append(chain([next(job)], job))
        if len(begun) == many:
            *_, result = begun.popleft()
            yield result
    for *_, result in begun:
        yield result
