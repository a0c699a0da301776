#!/usr/bin/env python3
"""scripts/static_library.py ARCHIVE: builds crates/plistconv_c as a static library from the
libraries that `rt ci` left.

`rt ci` proves the crate but leaves no archive of it. `rt lib` would prove all crates below it
again, since it does not accept libraries that were built from statements only, which have no stamp.
If none has a stamp, this script runs only the last step of `rt lib`: it proves the crate with those
libraries, like `rt ci`, and compiles it. In a tree that was worked in, `rt ci` restores the
libraries that were there, with stamps; then this script does the same as `rt lib`.
"""
import importlib.machinery
import importlib.util
import os
import shutil
import sys

NAME = "plistconv_c"
TOP = os.path.dirname(os.path.dirname(os.path.abspath(__file__)))


def toolchain():
    """Returns the Python module that implements `rt`."""
    rt = shutil.which(os.environ.get("RT", "rt"))
    if rt is None:
        sys.exit("static_library: there is no rt on the path")
    path = os.path.join(os.path.dirname(os.path.realpath(rt)), "rtlib.py")
    loader = importlib.machinery.SourceFileLoader("rtlib", path)
    module = importlib.util.module_from_spec(importlib.util.spec_from_loader("rtlib", loader))
    sys.modules["rtlib"] = module
    loader.exec_module(module)
    return module


def main():
    archive = os.path.abspath(sys.argv[1])
    folder = os.path.join(TOP, "crates", NAME)
    os.chdir(folder)
    rtlib = toolchain()
    rtlib.guarded()
    crate = rtlib.Crate(folder, TOP, {})
    held = rtlib.lock([*crate.below(), crate])
    stamps = (os.path.join(lower.folder, "out", "rlib", "stamp") for lower in crate.below())
    if any(map(os.path.isfile, stamps)):
        for lower in crate.below():
            status = lower.build_rlib([], anew=False)
            if status:
                return status
    missing = [lower.name for lower in crate.below() if not os.path.isdir(lower.rlib)]
    if missing:
        names = ", ".join(missing)
        sys.exit(f"static_library: no library of {names}: `rt ci` leaves them where it proves them")
    os.makedirs("out", exist_ok=True)
    status = crate.compile([], archive)
    if status < 0:  # killed, most likely because it ran out of memory
        status = crate.compile(["--jobs", "1"], archive)
    del held
    return status


if __name__ == "__main__":
    sys.exit(main())
