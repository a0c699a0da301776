"""The programs that bench.py compares plistconv with. Those that are not installed are
skipped with a line.

Each is a command that a source and a target are appended to. The drivers in bench/peers are built
in the given folder, and not in the repository.
"""
import glob
import os
import shutil
import subprocess

HERE = os.path.dirname(os.path.abspath(__file__))
DRIVERS = os.path.join(HERE, "peers")
REGISTRY = "/usr/share/cargo/registry"
PYTHON = "/usr/bin/python3"


def succeeds(words, **more):
    """Returns whether the command exists and succeeds."""
    quiet = {"stdout": subprocess.DEVNULL, "stderr": subprocess.DEVNULL}
    try:
        return subprocess.run(words, check=False, **quiet, **more).returncode == 0
    except OSError:
        return False


def python():
    """Returns Debian's Python, which has Debian's modules, or the first one on the path."""
    return PYTHON if os.path.exists(PYTHON) else shutil.which("python3")


def of_c(name, folder, *libraries):
    """Returns the driver of this name, built with cc."""
    program, source = os.path.join(folder, name), os.path.join(DRIVERS, name + ".c")
    return [program] if succeeds(["cc", "-O2", "-o", program, source, *libraries]) else None


def copy(folder):
    """Reads the file and writes it, a lower bound for every conversion that keeps
    its input in memory."""
    return of_c("copy", folder)


def plist_crate(folder):
    """The Rust crate plist, built by cargo from Debian's registry only."""
    if not glob.glob(os.path.join(REGISTRY, "plist-*")):
        return None
    root = os.path.join(folder, "plist_crate")
    shutil.copytree(os.path.join(DRIVERS, "plist_crate"), root)
    sources = ('crates-io.replace-with="debian"', f'debian.directory="{REGISTRY}"')
    more = [word for source in sources for word in ("--config", "source." + source)]
    built = succeeds(["cargo", "build", "--offline", "--release", *more], cwd=root)
    return [os.path.join(root, "target", "release", "plist_crate")] if built else None


def libplist(folder):
    return of_c("libplist", folder, "-lplist-2.0")


def plistlib(folder):
    return [python(), os.path.join(DRIVERS, "with_plistlib.py")]


def openstep_plist(folder):
    found = succeeds([python(), "-c", "import openstep_plist"])
    return [python(), os.path.join(DRIVERS, "with_openstep_plist.py")] if found else None


def pl(folder):
    """GNUstep's pl, which writes a text and no binary property list."""
    found = shutil.which("pl")
    return ["/bin/sh", "-c", f'exec {found} <"$1" >"$2"', "pl"] if found else None


OF_BINARY = {
    "read and write": (copy, "cc"),
    "plist (Rust)": (plist_crate, "cargo and librust-plist-dev"),
    "libplist": (libplist, "libplist-dev"),
    "plistlib": (plistlib, "python3"),
}
OF_TEXT = {
    "openstep_plist": (openstep_plist, "python3-openstep-plist"),
    "pl": (pl, "gnustep-base-runtime"),
}


def found(kinds, folder):
    """Returns the peers that are installed."""
    there = {}
    for name, (make, package) in kinds.items():
        words = make(folder)
        if words is None:
            print(f"{name} is skipped: it needs {package}.\n", flush=True)
        else:
            there[name] = words
    return there
