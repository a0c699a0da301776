"""Tests that a signal ends a command at once: nothing else is done, and nothing is left."""
import os
import select
import signal
from contextlib import suppress

from testing import OTHER, TEXT, Case

SIGNALS = [
    f"SIG{name}"
    for name in ("TERM", "INT", "HUP", "QUIT", "ALRM", "USR1", "USR2", "VTALRM", "PROF", "XCPU")
]
# Sends the signal at the step AT: before and after each call that writes, or opens a file.
STEPS = """
import signal
count = 0
def step():
    global count
    count += 1
    if count == AT:
        os.kill(os.getpid(), signal.NAME)
def stepping(old):
    def call(*words, **more):
        step()
        made = old(*words, **more)
        step()
        return made
    return call
for name in ("open", "write", "fchown", "fchmod", "setxattr", "removexattr", "fsync", "replace", "unlink"):
    if hasattr(os, name):
        setattr(os, name, stepping(getattr(os, name)))
"""
# The program sends the signal until it is killed itself, since one that comes just before the command
# waits is handled after the wait.
KILLS = "for at in $(seq 100); do sleep 0.1; kill -%s $PPID; done"
COUNT = "import atexit\natexit.register(lambda: sys.stderr.write(str(count)))\n"


class Signals(Case):
    """Commands that are ended by a signal."""

    def setUp(self):
        super().setUp()
        self.old, self.made = TEXT, self.canonical(TEXT)

    def contents(self) -> list:
        """Makes sure that nothing is left beside the files, and returns which are canonical."""
        self.assertEqual(self.left(), ["a", "b"])
        contents = [self.content(name) for name in ("a", "b")]
        for octets in contents:
            self.assertIn(octets, (self.old, self.made))
        return [octets == self.made for octets in contents]

    def restore(self) -> None:
        """Makes the files as they were."""
        for name in ("a", "b"):
            path = self.put(name, self.old)
            with suppress(AttributeError, OSError):
                os.setxattr(str(path), "user.comment", b"kept")

    def test_signal_at_each_call_leaves_whole_files_and_nothing_beside_them(self):
        self.restore()
        count = int(self.patched(STEPS.replace("AT", "0") + COUNT, "a", "b"))
        self.assertGreater(count, 20)
        states = []
        for at in range(1, count + 1):
            self.restore()
            name = SIGNALS[at % len(SIGNALS)]
            lines = STEPS.replace("AT", str(at)).replace("NAME", name)
            said = self.patched(lines, "a", "b", status=128 + getattr(signal, name))
            self.assertEqual(said, b"", (at, name))
            states.append(self.contents())
        # What follows a step is not done.
        self.assertEqual(states, sorted(states))
        for state in ([False, False], [True, False], [True, True]):
            self.assertIn(state, states)

    def test_every_signal_leaves_the_file_as_it_was_and_nothing_beside_it(self):
        for name in SIGNALS:
            self.restore()
            lines = f"import signal\nos.fsync = lambda file: os.kill(os.getpid(), signal.{name})"
            said = self.patched(lines, "a", "b", status=128 + getattr(signal, name))
            self.assertEqual((said, self.contents()), (b"", [False, False]), name)

    def test_second_signal_while_the_first_one_is_handled(self):
        self.restore()
        lines = (
            "import signal\nold = os.unlink\n"
            "def unlink(*names):\n    os.unlink = old\n    os.kill(os.getpid(), signal.SIGTERM)\n    old(*names)\n"
            "os.unlink = unlink\nos.fsync = lambda file: os.kill(os.getpid(), signal.SIGTERM)"
        )
        self.assertEqual(self.patched(lines, "a", "b", status=143), b"")
        self.assertEqual(self.contents(), [False, False])

    def test_signal_while_the_program_runs_ends_both(self):
        fifo = self.folder / "fifo"
        commands = "canonicalise a b", "canonicalise -o a b", "digest a", "diff a c", "textconv a"
        for name, command in zip(SIGNALS, commands):
            self.restore()
            self.put("c", OTHER)
            os.mkfifo(str(fifo))
            reading = os.open(str(fifo), os.O_RDONLY | os.O_NONBLOCK)
            env = self.program("exec 9> fifo\n" + KILLS % name[3:])
            self.prints(b"", command, status=128 + getattr(signal, name), env=env)
            # The pipe is closed once no program runs that would write to it.
            self.assertTrue(select.select([reading], [], [], 60)[0], command)
            self.assertEqual(os.read(reading, 1), b"")
            os.close(reading)
            for path in (fifo, self.folder / "bin" / "program", self.folder / "c"):
                path.unlink()
            (self.folder / "bin").rmdir()
            self.assertEqual(self.contents(), [False, False])

    def test_index_of_a_bare_repository_is_removed(self):
        self.git("init -q")
        self.put("a.plist", TEXT)
        self.git("add -A")
        self.git("commit -qm one")
        self.git("clone -q --bare . bare.git")
        temporary = self.folder / "temporary"
        temporary.mkdir()
        env = {**self.program(KILLS % "TERM"), "TMPDIR": str(temporary)}
        self.prints(b"", "staged --all", status=143, cwd="bare.git", env=env)
        env["PLISTCONV"] = "/none"
        self.refuses("no program /none", "staged --all", status=2, cwd="bare.git", env=env)
        self.assertEqual(os.listdir(str(temporary)), [])
