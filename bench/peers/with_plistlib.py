"""with_plistlib.py IN OUT: reads and writes a binary property list with Python's plistlib."""
import plistlib
import sys

with open(sys.argv[1], "rb") as source:
    value = plistlib.load(source)
with open(sys.argv[2], "wb") as target:
    plistlib.dump(value, target, fmt=plistlib.FMT_BINARY, sort_keys=True)
