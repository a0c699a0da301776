"""Runs programs and measures their time and memory, for the scripts of this folder."""
import collections
import os
import re
import shutil
import subprocess

HERE = os.path.dirname(os.path.abspath(__file__))

# The most seconds of processor time of a run. A run that takes longer is ended with status 255.
MOST = 60

Run = collections.namedtuple("Run", "status printed seconds processor octets")


def least(runs):
    """Returns the least processor time of the runs, and the greatest size."""
    return min(run.processor for run in runs), max(run.octets for run in runs)


def row(*cells):
    """Prints a row of a table."""
    print(f"| {' | '.join(map(str, cells))} |", flush=True)


def heads(names):
    """Prints the heads of a table, with bars between them."""
    print(f"| {names} |\n{'|---' * len(names.split(' | '))}|")


class Measure:
    """Runs programs by bench/measure.c, which is built with cc."""

    def __init__(self, folder):
        self.program, self.file = os.path.join(folder, "measure"), os.path.join(folder, "measured")
        words = ["cc", "-O1", "-o", self.program, os.path.join(HERE, "measure.c")]
        subprocess.run(words, check=True)

    def run(self, words, errors=None, into=subprocess.PIPE, source=None):
        """Returns the status, the output unless it goes to a file, the elapsed and the
        processor seconds, and the greatest resident size. Standard input is the file
        `source`, if one is given."""
        words = [self.program, self.file, str(MOST), *words]
        with open(source or os.devnull, "rb") as given:
            files = {"stdin": given if source else None, "stdout": into, "stderr": errors}
            ran = subprocess.run(words, **files, check=False)
        with open(self.file, encoding="ascii") as measured:
            seconds, processor, size = measured.read().split()
        printed = (ran.stdout or b"").decode().strip()
        return Run(ran.returncode, printed, float(seconds), float(processor), int(size) * 1024)

    def count(self, words, source=None):
        """Returns the run and the number of bytes that it writes to standard output,
        which are not kept."""
        pipe = subprocess.PIPE
        with subprocess.Popen(["wc", "-c"], stdin=pipe, stdout=pipe) as counter:
            run = self.run(words, into=counter.stdin, source=source)
            return run, int(counter.communicate()[0])


def instructions(words):
    """Returns how many instructions a run takes, as counted by callgrind, or None if valgrind
    is not installed."""
    if shutil.which("valgrind") is None:
        return None
    words = ["valgrind", "--tool=callgrind", "--callgrind-out-file=/dev/null", *words]
    ran = subprocess.run(words, capture_output=True, check=False)
    count = re.search(rb"Collected *: *(\d+)", ran.stderr)
    return int(count[1]) if count else None
