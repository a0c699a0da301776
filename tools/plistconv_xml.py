"""Reads XML property lists with Python's plistlib, and refuses documents that plistlib
would read incorrectly.

plistlib ignores unknown elements, text between values, invalid base64, undeclared entities
and every top value but the last. So the document is checked against the definition of
property lists first.
"""
from __future__ import annotations

import math
import plistlib
import re
import sys
from xml.parsers import expat

LEVELS = 512
LEAVES = {
    "string": re.compile(r"(?s).*"),
    "key": re.compile(r"(?s).*"),
    "integer": re.compile(r"0[xX][0-9a-fA-F]+|\s*[+-]?[0-9]+\s*", re.ASCII),
    "real": re.compile(
        r"\s*[+-]?(?:(?:[0-9]+\.?[0-9]*|\.[0-9]+)(?:e[+-]?[0-9]+)?|inf(?:inity)?|nan)\s*",
        re.ASCII | re.IGNORECASE,
    ),
    "date": re.compile(r"[0-9]{4}-[0-9]{2}-[0-9]{2}T[0-9]{2}:[0-9]{2}:[0-9]{2}Z"),
    "data": re.compile(
        r"(?:[A-Za-z0-9+/]{4})*(?:[A-Za-z0-9+/][AQgw]==|[A-Za-z0-9+/]{2}[AEIMQUYcgkosw048]=)?"
    ),
    "true": re.compile(r"\s*", re.ASCII),
    "false": re.compile(r"\s*", re.ASCII),
}


class Fault(Exception):
    """Why a document is refused."""


class Table(dict):
    """A dictionary that refuses duplicate keys."""

    def __setitem__(self, key: object, value: object) -> None:
        if key in self:
            raise Fault(f"the key {key!r} is there twice")
        super().__setitem__(key, value)


class Shape:
    """The open elements of a document, each with the number of its children."""

    def __init__(self) -> None:
        self.open: list[tuple[str, int]] = []
        self.text: list[str] = []

    def check_place(self, name: str) -> None:
        """Refuses an element that may not begin here."""
        parent, children = self.open[-1] if self.open else ("", 0)
        is_place_of_key = parent == "dict" and children % 2 == 0
        if name not in LEAVES and name not in ("plist", "dict", "array"):
            raise Fault(f"there is no element <{name}>")
        if parent in LEAVES or (name == "plist" and parent):
            raise Fault(f"<{name}> in <{parent}>")
        if parent == "plist" and children == 1:
            raise Fault("a second value")
        if (name == "key") != is_place_of_key:
            raise Fault(f"<{name}> in place of a {'key' if is_place_of_key else 'value'}")
        if len(self.open) > LEVELS + 1:
            raise Fault(f"more than {LEVELS} levels")

    def begin(self, name: str, _attributes: object) -> None:
        """Opens an element."""
        self.check_place(name)
        if self.open:
            parent, children = self.open[-1]
            self.open[-1] = parent, children + 1
        self.open.append((name, 0))
        self.text = []

    def end(self, name: str) -> None:
        """Closes the innermost element."""
        children = self.open.pop()[1]
        text = "".join(self.text)
        if name == "data":
            text = "".join(text.split())
        if name in LEAVES and not LEAVES[name].fullmatch(text):
            raise Fault(f"this is no <{name}>: {text[:40]!r}")
        if name == "real" and is_out_of_range(text):
            raise Fault(f"a <real> out of range: {text[:40]!r}")
        if name == "key" and text == "CF$UID":
            raise Fault("the key CF$UID, a UID of a keyed archive")
        if name == "dict" and children % 2:
            raise Fault("a key without a value")
        if name == "plist" and children == 0:
            raise Fault("no value")

    def characters(self, text: str) -> None:
        """Adds text to the open value."""
        if self.open and self.open[-1][0] in LEAVES:
            self.text.append(text)
        elif text.strip():
            raise Fault(f"text outside of a value: {text[:40]!r}")


def is_out_of_range(text: str) -> bool:
    """Returns whether 8 bytes make a decimal number infinite, or zero although it is not."""
    digits, number = text.lower().partition("e")[0], float(text)
    if math.isinf(number):
        return "n" not in digits
    return number == 0 and re.search("[1-9]", digits) is not None


def check(octets: bytes) -> None:
    """Raises `Fault` if the bytes are no XML property list."""

    def refuse_entity(name: str, *_rest: object) -> None:
        raise Fault(f"an entity: {name}")

    shape, parser = Shape(), expat.ParserCreate()
    parser.StartElementHandler = shape.begin
    parser.EndElementHandler = shape.end
    parser.CharacterDataHandler = shape.characters
    parser.EntityDeclHandler = refuse_entity
    parser.SkippedEntityHandler = refuse_entity
    try:
        parser.Parse(octets, True)
    except Fault as fault:
        raise Fault(f"line {parser.CurrentLineNumber}: {fault}") from None
    except (expat.ExpatError, LookupError, ValueError) as fault:
        raise Fault(str(fault)) from None


def binary(octets: bytes) -> bytes:
    """Returns a binary file with the value of an XML property list. Raises `Fault`."""
    check(octets)
    # plistlib recurses for each level.
    sys.setrecursionlimit(max(sys.getrecursionlimit(), 8 * LEVELS))
    try:
        value = plistlib.loads(octets, fmt=plistlib.FMT_XML, dict_type=Table)
        made = plistlib.dumps(value, fmt=plistlib.FMT_BINARY, sort_keys=False)
        # plistlib writes 0.0 and -0.0 as one object. What differs shows differently.
        if repr(plistlib.loads(made, fmt=plistlib.FMT_BINARY, dict_type=Table)) != repr(value):
            raise Fault("plistlib does not write what it has read")
    except Fault:
        raise
    except Exception as fault:  # plistlib raises errors of many types.
        raise Fault(f"plistlib: {type(fault).__name__}: {fault}") from None
    return made
