"""with_openstep_plist.py IN OUT: reads an OpenStep text with openstep_plist, and writes a
binary property list."""
import plistlib
import sys

import openstep_plist

with open(sys.argv[1], "rb") as source:
    octets = source.read()
form = "utf-16" if octets[:2] in (b"\xfe\xff", b"\xff\xfe") else "utf-8"
value = openstep_plist.loads(octets.decode(form))
with open(sys.argv[2], "wb") as target:
    plistlib.dump(value, target, fmt=plistlib.FMT_BINARY, sort_keys=True)
