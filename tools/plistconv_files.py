"""Replaces files in one step by new ones with the same owner, group, mode and
extended attributes."""
from __future__ import annotations

import errno
import fcntl
import os
import re
import stat
import sys
import time
from contextlib import suppress
from functools import lru_cache

import plistconv_tools as tools
from plistconv_processes import undoing

# How a new file is named until it replaces the old one: as nobody names a file.
BESIDE = re.compile(r"\.plistconv-[0-9]+-[0-9a-f]{16}")
DAY = 24 * 60 * 60
ACL = "system.posix_acl_access"
GET_FLAGS = 0x80086601  # FS_IOC_GETFLAGS of Linux
FLAGS = "sucSiadA--m---jt----V--C-x---P"  # those that chattr sets, by their bits


def state(about: os.stat_result) -> tuple[int, ...]:
    """Returns what changes if a file is written or replaced."""
    return about.st_dev, about.st_ino, about.st_size, about.st_mtime_ns, about.st_ctime_ns


def to_replace(name: str, follows: bool) -> tuple[str, os.stat_result]:
    """Returns the path of a regular file and its state, before it is read. Raises `OSError`, or
    `Refused` for other files, and for a symbolic link unless links are followed."""
    seen, path = os.stat(name), os.path.realpath(name)
    is_open_file = os.path.abspath(name).startswith(("/dev/std", "/dev/fd/", "/proc/"))
    if is_open_file or not stat.S_ISREG(seen.st_mode) or not os.path.samestat(seen, os.stat(path)):
        raise tools.Refused("is no regular file")  # (before it is read: a pipe may stay empty)
    if os.path.islink(name) and not follows:
        raise tools.Refused("is a symbolic link (--follow replaces the file that it points to)")
    return path, seen


def to_write(name: str, follows: bool) -> tuple[str, os.stat_result | None]:
    """Returns the path of a regular file and its state, or that of a file that does not
    exist yet, and `None`."""
    if os.path.lexists(name) or not name:
        return to_replace(name, follows)
    folder = os.path.realpath(os.path.dirname(name) or ".")
    return os.path.join(folder, os.path.basename(name)), None


def opener(path: str, how: int) -> int:
    """Opens no link, and does not wait for a pipe."""
    return os.open(path, how | os.O_NOFOLLOW | os.O_NONBLOCK)


def read(path: str, seen: os.stat_result) -> bytes:
    """Returns the content of a file, which must still be the same one."""
    with open(path, "rb", opener=opener) as file:
        if state(os.fstat(file.fileno())) != state(seen):
            raise tools.Refused("changed meanwhile")
        return file.read()


def keep_owner(file: int, seen: os.stat_result, is_forced: bool) -> list[str]:
    """Gives the new file the owner and the group of the old one, or the group alone. Returns what
    is not kept, or raises `Refused` if that is not forced."""
    for owner in (seen.st_uid, -1):
        try:
            os.fchown(file, owner, seen.st_gid)
            break
        except OSError:
            pass
    made = os.fstat(file)
    lost = ["owner"] * (made.st_uid != seen.st_uid) + ["group"] * (made.st_gid != seen.st_gid)
    if lost and not is_forced:
        raise tools.Refused(f"its {' and '.join(lost)} cannot be kept (--force replaces it)")
    return lost


def keep_attributes(file: int, path: str) -> list[str]:
    """Gives the new file the extended attributes of the old one, its access control list too.
    Returns the names of those that are not kept."""
    if not hasattr(os, "listxattr"):
        return []
    try:
        names, made = os.listxattr(path), os.listxattr(file)
    except OSError as fault:
        return [] if fault.errno in (errno.ENOTSUP, errno.ENOSYS) else ["extended attributes"]
    if ACL in made:
        os.removexattr(file, ACL)  # That of the folder, which may take the space of the others.
        made.remove(ACL)
    lost = []
    for name in names:
        try:
            value = os.getxattr(path, name)
            if name not in made or os.getxattr(file, name) != value:
                os.setxattr(file, name, value)
        except OSError:
            lost.append(f"extended attribute {name}")
    return lost


def flags(file: int) -> set[str]:
    """Returns the flags of chattr that are set. Raises `OSError` if the file system has none."""
    bits = int.from_bytes(fcntl.ioctl(file, GET_FLAGS, bytes(8))[:4], sys.byteorder)
    return {flag for bit, flag in enumerate(FLAGS) if bits >> bit & 1}


def keep(file: int, path: str, seen: os.stat_result, is_forced: bool) -> list[str]:
    """Gives the new file what the old one has beside its content, and returns what is not kept."""
    lost = keep_owner(file, seen, is_forced)
    mode = stat.S_IMODE(seen.st_mode) & ~(stat.S_ISUID | stat.S_ISGID if lost else 0)
    lost += keep_attributes(file, path)
    os.fchmod(file, mode)
    with suppress(OSError), open(path, "rb", opener=opener) as old:
        lost += [f"flag {flag} of chattr" for flag in sorted(flags(old.fileno()) - flags(file))]
    return lost


def is_unchanged(path: str, seen: os.stat_result | None) -> bool:
    """Returns whether the file is as it was seen, or still does not exist."""
    try:
        about = os.lstat(path)
    except FileNotFoundError:
        return seen is None
    return seen is not None and state(about) == state(seen)


def write(
    path: str,
    seen: os.stat_result | None,
    octets: bytes,
    is_forced: bool = False,
    mode: int = 0o666,
) -> list[str]:
    """Replaces the content of a file in one step, or makes a new one with the mode, and returns
    what could not be kept of the old one. Raises `OSError`, or `Refused` if the file has changed
    since it was seen, or is not forced and read-only or its owner or group cannot be kept. Then it
    leaves the file unchanged."""
    if seen and not is_forced and not (seen.st_mode & 0o222 and os.access(path, os.W_OK)):
        raise tools.Refused("is read-only (--force replaces it)")
    beside = os.path.join(os.path.dirname(path), f".plistconv-{os.getpid()}-{os.urandom(8).hex()}")
    with undoing(lambda: os.unlink(beside)):
        file = os.open(beside, os.O_WRONLY | os.O_CREAT | os.O_EXCL, 0o600 if seen else mode)
        try:
            tools.write_all(file, octets)
            lost = keep(file, path, seen, is_forced) if seen else []
            os.fsync(file)
        finally:
            os.close(file)
        if not is_unchanged(path, seen):
            raise tools.Refused("changed meanwhile")
        os.replace(beside, path)
    return lost


@lru_cache(maxsize=None)
def sweep(folder: str) -> None:
    """Removes the user's new files that commands left in the folder when they were killed more
    than a day ago, and says so."""
    with suppress(OSError):
        for entry in os.scandir(folder):
            about = entry.stat(follow_symlinks=False) if BESIDE.fullmatch(entry.name) else None
            is_own = about and stat.S_ISREG(about.st_mode) and about.st_uid == os.geteuid()
            if about and is_own and time.time() - about.st_mtime > DAY:
                os.unlink(entry.path)
                tools.say(f"{tools.shown(entry.path)}: removed; a run that was killed left it")
