"""Tests what plistconv-canonicalise keeps of a file that it replaces, what a new file has, and what
happens to files that a killed command left."""
import os
import shutil
import signal
import stat
import struct
import subprocess
import time
from pathlib import Path

from testing import OTHER, TEXT, Case

ACL, DEFAULT_ACL = "system.posix_acl_access", "system.posix_acl_default"
USER, OTHER_USER = 12345, 23456
DAY = 24 * 60 * 60
DIGITS = "0123456789abcdef"
# An access control list: a tag, rights, and a user in each entry.
ENTRIES = (1, 6, -1), (2, 4, OTHER_USER), (4, 4, -1), (16, 4, -1), (32, 0, -1)
OWNED_BY_OTHERS = struct.pack("<I", 2) + b"".join(struct.pack("<HHi", *it) for it in ENTRIES)


class Kept(Case):
    """Files that are replaced, and files beside them."""

    def owned(self, name: str, owner: int, group: int, mode: int) -> Path:
        """Makes a file of this owner and group."""
        path = self.put(name, TEXT)
        try:
            os.chown(str(path), owner, group)
        except OSError:
            self.skipTest("skipped: owners cannot be changed here")
        path.chmod(mode)
        return path

    def test_owner_and_group_are_kept_if_the_system_allows_it(self):
        path = self.owned("a", USER, OTHER_USER, 0o4750)
        self.prints(b"", "canonicalise a")
        found = path.stat().st_uid, path.stat().st_gid, stat.S_IMODE(path.stat().st_mode)
        self.assertEqual(found, (USER, OTHER_USER, 0o4750))

    def test_file_whose_owner_or_group_cannot_be_kept_is_left_unless_forced(self):
        no_owner = (
            "old = os.fchown\ndef fchown(file, owner, group):\n    if owner != -1: raise PermissionError(1, 'no')\n"
            "    old(file, owner, group)\nos.fchown = fchown"
        )
        none = "def fchown(*_): raise PermissionError(1, 'no')\nos.fchown = fchown"
        for lines, lost, owners in (
            (no_owner, "owner", (os.geteuid(), OTHER_USER)),
            (none, "owner and group", (os.geteuid(), os.getegid())),
        ):
            path = self.owned("a", USER, OTHER_USER, 0o6755)
            before = path.stat().st_ino, path.stat().st_ctime_ns
            why = f"a: its {lost} cannot be kept (--force replaces it); left as it is"
            self.assertIn(why.encode(), self.patched(lines, "a", status=1))
            self.assertEqual((path.stat().st_ino, path.stat().st_ctime_ns), before)
            self.assertEqual((path.read_bytes(), self.left()), (TEXT, ["a"]))
            said = self.patched(lines, "--force", "a")
            for what in lost.split(" and "):
                self.assertIn(f"a: replaced without its {what}\n".encode(), said)
            after = path.stat()
            self.assertEqual((after.st_uid, after.st_gid), owners)
            self.assertEqual(stat.S_IMODE(after.st_mode), 0o755)
            self.assertEqual(path.read_bytes(), self.canonical(TEXT))
        # The owner of a file system without owners is always the same.
        self.put("b", TEXT)
        self.assertEqual(self.patched(none, "b"), b"")

    def attributes(self, path, **set_to) -> dict:
        """Sets extended attributes of a file and returns all of them."""
        try:
            for name, value in set_to.items():
                os.setxattr(str(path), name.replace("_of_", "."), value)
            return {name: os.getxattr(str(path), name) for name in os.listxattr(str(path))}
        except (AttributeError, OSError):
            self.skipTest("skipped: no extended attributes here")

    def test_extended_attributes_are_kept_or_named(self):
        path = self.put("a", TEXT)
        before = self.attributes(path, user_of_comment=b"\0one", user_of_empty=b"")
        self.prints(b"", "canonicalise a")
        self.assertEqual(self.attributes(path), before)
        path.write_bytes(TEXT)
        fails = "def fails(*_): raise PermissionError(1, 'no')\nos.setxattr = fails"
        said = self.patched(fails, "a").decode()
        for name in ("comment", "empty"):
            self.assertIn(f"a: replaced without its extended attribute user.{name}\n", said)
        self.assertEqual((path.read_bytes(), self.attributes(path)), (self.canonical(TEXT), {}))

    def test_access_control_lists_are_kept_and_those_of_the_folder_not_taken(self):
        path = self.put("a", TEXT)
        self.attributes(path, system_of_posix_acl_access=OWNED_BY_OTHERS)
        self.prints(b"", "canonicalise a")
        self.assertEqual(self.attributes(path), {ACL: OWNED_BY_OTHERS})
        self.assertEqual(stat.S_IMODE(path.stat().st_mode), 0o640)
        path = self.put("b", TEXT)
        path.chmod(0o640)
        os.setxattr(str(self.folder), DEFAULT_ACL, OWNED_BY_OTHERS)
        self.prints(b"", "canonicalise b")
        self.assertEqual((self.attributes(path), stat.S_IMODE(path.stat().st_mode)), ({}, 0o640))
        # The file system may have no space for attributes beside the list of the folder.
        path.write_bytes(TEXT)
        before = self.attributes(path, user_of_note=b"one")
        full = (
            "old = os.setxattr\ndef setxattr(file, name, value):\n"
            f"    if '{ACL}' in os.listxattr(file): raise OSError(28, 'No space left on device')\n"
            "    old(file, name, value)\nos.setxattr = setxattr"
        )
        self.assertEqual(self.patched(full, "b"), b"")
        self.assertEqual(self.attributes(path), before)

    def test_flags_of_chattr_that_are_lost_are_named(self):
        if not os.path.exists("/proc/self/fd"):
            self.skipTest("skipped: there is no /proc")
        # The file has A, S and d, and the new one has d.
        ioctl = (
            "import fcntl\ndef ioctl(file, number, octets):\n"
            "    is_new = '.plistconv-' in os.readlink(f'/proc/self/fd/{file}')\n"
            "    return (0x40 if is_new else 0xC8).to_bytes(4, sys.byteorder) + octets[4:]\n"
            "fcntl.ioctl = ioctl"
        )
        self.put("a", TEXT)
        line = "plistconv-canonicalise: a: replaced without its flag {} of chattr\n"
        self.assertEqual(self.patched(ioctl, "a").decode(), line.format("A") + line.format("S"))
        path = self.put("a", TEXT)
        words = ["chattr", "+d", str(path)]
        if shutil.which("chattr") is None or subprocess.call(words, stderr=subprocess.DEVNULL):
            self.skipTest("skipped: chattr sets no flag here")
        self.refuses(line.format("d"), "canonicalise a", status=0)
        self.assertEqual(path.read_bytes(), self.canonical(TEXT))

    def test_read_only_file_is_left_unless_forced(self):
        path, canonical = self.put("a", TEXT), self.canonical(TEXT)
        self.put("b", canonical).chmod(0o444)
        self.put("c", OTHER)
        path.chmod(0o444)
        why = "a: is read-only (--force replaces it)"
        self.refuses(f"{why}; left as it is\n", "canonicalise b a")
        self.refuses(f"{why}; not written\n", "canonicalise -o a c")
        self.prints(b"", "canonicalise b")
        self.assertEqual((path.read_bytes(), self.left()), (TEXT, ["a", "b", "c"]))
        self.prints(b"", "canonicalise --force a")
        self.assertEqual(path.read_bytes(), canonical)
        self.assertEqual(stat.S_IMODE(path.stat().st_mode), 0o444)
        # Somebody else's rights, as on a file system that is read-only.
        denied = "os.access = lambda path, how: how != os.W_OK"
        self.assertIn(b"c: is read-only", self.patched(denied, "c", status=1))
        self.assertEqual(self.content("c"), OTHER)

    def test_new_file_gets_the_rights_of_any_new_file(self):
        self.put("a", TEXT)
        self.addCleanup(os.umask, os.umask(0))
        for number, mask in enumerate((0o022, 0o077, 0o022, 0o077)):
            os.umask(mask)
            plain = self.put(f"{number}/plain", b"")
            if number >= 2:
                self.attributes(plain.parent, system_of_posix_acl_default=OWNED_BY_OTHERS)
                plain.unlink()
                plain.write_bytes(b"")
            self.prints(b"", f"canonicalise -o {number}/out a")
            made = plain.parent / "out"
            self.assertEqual(made.read_bytes(), self.canonical(TEXT))
            self.assertEqual(made.stat().st_mode, plain.stat().st_mode)
            self.assertEqual(self.attributes(made), self.attributes(plain))

    def aged(self, name: str, age: int) -> Path:
        """Makes a file of this age."""
        path = self.put(name, b"half")
        os.utime(str(path), (time.time() - age, time.time() - age))
        return path

    def test_what_killed_commands_left_is_removed_after_a_day_and_nothing_else(self):
        old = self.aged(f".plistconv-12-{DIGITS}", DAY + 60)
        self.aged(f".plistconv-13-{DIGITS}", DAY - 60)
        for end in ("settings", "abcd_123", DIGITS, f"12-{DIGITS}0", f"12-{DIGITS.upper()}"):
            self.aged(f".plistconv-{end}", 9 * DAY)
        self.aged(f"x.plistconv-12-{DIGITS}", 9 * DAY)
        link, folder = (self.folder / f".plistconv-{number}-{DIGITS}" for number in (14, 15))
        os.symlink("a", str(link))
        os.utime(str(link), (0, 0), follow_symlinks=False)
        folder.mkdir()
        os.utime(str(folder), (0, 0))
        if os.geteuid() == 0:
            os.chown(str(self.aged(f".plistconv-16-{DIGITS}", 9 * DAY)), USER, -1)
        self.put("a", self.canonical(TEXT))
        left = self.left()
        left.remove(old.name)
        why = f"{os.path.realpath(old)}: removed; a run that was killed left it"
        said = self.says("canonicalise a", status=0)
        self.assertEqual(said, f"plistconv-canonicalise: {why}\n")
        self.assertEqual(self.left(), left)

    def test_what_a_kill_leaves_is_removed(self):
        self.put("a", TEXT)
        kill = "import signal\nos.fsync = lambda file: os.kill(os.getpid(), signal.SIGKILL)"
        self.patched(kill, "a", status=-signal.SIGKILL)
        (name,) = set(self.left()) - {"a"}
        self.assertRegex(name, r"^\.plistconv-[0-9]+-[0-9a-f]{16}$")
        self.prints(b"", "canonicalise a")
        self.assertEqual(self.left(), [name, "a"])
        os.utime(str(self.folder / name), (0, 0))
        self.refuses(f"{name}: removed", "canonicalise a", status=0)
        self.assertEqual(self.left(), ["a"])
