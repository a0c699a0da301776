"""Reads the objects of a binary property list, which may be broken, and finds paths to them."""
from __future__ import annotations

import json
import struct
from collections import deque

import plistconv_tools as tools

MOST = 1 << 24  # the most references that are followed
LONGEST = 60  # the most characters of a key that are shown
NAMES = {
    0x00: "a null",
    0x08: "false",
    0x09: "true",
    0x22: "a real of 4 bytes",
    0x23: "a real of 8 bytes",
    0x33: "a date",
}
# By the high half of the marker: the words, and the bytes of a unit, or 0 for references.
COUNTED = {
    0x4: ("data of", "byte", 1),
    0x5: ("a string of", "ASCII character", 1),
    0x6: ("a string of", "UTF-16 unit", 2),
    0xA: ("an array of", "item", 0),
    0xC: ("a set of", "item", 0),
    0xD: ("a dictionary of", "pair", 0),
}
TABLE = 0xD
FORMS = {1: "B", 2: "H", 4: "I", 8: "Q"}  # of references, by width
CONTAINERS = (0xA, 0xC, TABLE)


def number_of(octets: bytes) -> int:
    """Returns a number in big-endian bytes."""
    return int.from_bytes(octets, "big")


class Object:
    """Where an object begins, its marker, and where its content begins and ends. If its count
    cannot be read, `count` is `None`."""

    def __init__(self, octets: bytes, begin: int, reference: int) -> None:
        self.begin, self.marker = begin, octets[begin]
        self.kind, self.start = self.marker >> 4, begin + 1
        self.count: int | None = self.marker & 15
        size = 0
        if self.kind in COUNTED:
            if self.count == 15:
                self.read_count(octets)
            unit = COUNTED[self.kind][2] or reference * (2 if self.kind == TABLE else 1)
            size = unit * (self.count or 0)
        elif self.kind in (1, 2, 3) and self.is_known():
            size = 1 << (self.marker & 15)
        elif self.kind == 8:
            size = (self.marker & 15) + 1
        self.end = self.start + size

    def read_count(self, octets: bytes) -> None:
        """Reads the count that follows the marker."""
        marker = octets[self.start : self.start + 1]
        width = 1 << (marker[0] & 15) if marker and 0x10 <= marker[0] <= 0x14 else 0
        digits = octets[self.start + 1 : self.start + 1 + width]
        self.count = number_of(digits) if width and len(digits) == width else None
        self.start += 1 + width

    def is_known(self) -> bool:
        """Returns whether the format has the marker."""
        return self.marker in (*NAMES, *range(0x10, 0x15)) or self.kind in (*COUNTED, 8)

    def words(self) -> str:
        """Returns what the marker says, in words."""
        if not self.is_known():
            return "an unknown marker"
        if self.marker in NAMES:
            return NAMES[self.marker]
        other = ("an integer of" if self.kind == 1 else "a UID of", "byte", 1)
        what, unit, _ = COUNTED.get(self.kind, other)
        if self.count is None:
            return f"{what} {unit}s, whose count cannot be read"
        many = self.count if self.kind in COUNTED else self.end - self.start
        return f"{what} {many} {unit}" + ("" if many == 1 else "s")


class Binary:
    """A binary property list. Raises `Refused` if its trailer does not say
    where its objects are."""

    def __init__(self, octets: bytes) -> None:
        self.octets, trailer = octets, octets[-32:]
        if len(octets) < 8 + 32:
            raise tools.Refused(f"has {len(octets)} bytes, too few for objects")
        self.offset_width, self.width = trailer[6], trailer[7]
        self.count, self.top, self.table = (number_of(trailer[at : at + 8]) for at in (8, 16, 24))
        if not (1 <= self.offset_width <= 8 and 1 <= self.width <= 8):
            why = "its trailer has a width that is not from 1 to 8, so no object is found"
            raise tools.Refused(why)

    def begin(self, number: int) -> int | None:
        """Returns where an object begins, or `None` if the offset table does not say."""
        at = self.table + number * self.offset_width
        if number >= self.count or at + self.offset_width > len(self.octets) - 32:
            return None
        return number_of(self.octets[at : at + self.offset_width])

    def object(self, number: int) -> Object | None:
        """Returns an object, or `None` if there is none of this number or it
        begins past the end."""
        begin = self.begin(number)
        if begin is None or begin >= len(self.octets):
            return None
        return Object(self.octets, begin, self.width)

    def references(self, found: Object) -> list[int]:
        """Returns the numbers in a container, of a dictionary the keys first, as far as
        the file has them."""
        if found.kind not in CONTAINERS or found.count is None:
            return []
        octets = self.octets[found.start : found.end]
        many = len(octets) // self.width
        if self.width in FORMS:
            return list(struct.unpack_from(f">{many}{FORMS[self.width]}", octets))
        starts = range(0, many * self.width, self.width)
        return [number_of(octets[at : at + self.width]) for at in starts]

    def parents(self, wanted: int) -> dict[int, tuple[int, int]] | None:
        """Returns for each object that was reached from the top its container, and its place there,
        until `wanted` is reached. Returns `None` if that takes too many references."""
        found: dict[int, tuple[int, int]] = {self.top: (-1, -1)}
        begins = set()  # Objects that share their bytes have the same references.
        queue, many = deque([self.top]), 0
        while queue and wanted not in found:
            number = queue.popleft()
            holder = self.object(number)
            if holder is None or holder.begin in begins:
                continue
            begins.add(holder.begin)
            if holder.kind in CONTAINERS and holder.count is not None:
                many += min(holder.count, len(self.octets))
            if many > MOST:
                return None
            for place, other in enumerate(self.references(holder)):
                if other not in found:
                    found[other] = number, place
                    queue.append(other)
        return found

    def path(self, wanted: int) -> str:
        """Returns a path from the top to an object, or a sentence that says that there is none."""
        parents = self.parents(wanted)
        if parents is None:
            return f"no path is found within {MOST} references"
        if wanted not in parents:
            return f"no path leads to it from the top, object {self.top}"
        steps: list[str] = []
        number, place = parents[wanted]
        while number >= 0:
            steps.append(self.step(number, place, is_last=not steps))
            number, place = parents[number]
        return "root" + "".join(reversed(steps))

    def step(self, number: int, place: int, is_last: bool) -> str:
        """Returns a step of a path, from a container to what is at this place in it."""
        holder = self.object(number)
        if holder is None or holder.kind != TABLE or holder.count is None:
            return f"[{place}]"
        pair = place % holder.count
        if place < holder.count and not is_last:
            return f"{{key {pair}}}"
        key = self.object(self.references(holder)[pair])
        return self.key_step(key, pair) + (" (the key)" if place < holder.count else "")

    def key_step(self, key: Object | None, pair: int) -> str:
        """Returns the step to the value of a key: its name, or the number of the
        pair if it has none."""
        text = self.text(key, 4 * LONGEST)
        if text is None:
            return f"{{{pair}}}"
        text = text if len(text) <= LONGEST else text[:LONGEST] + ".."
        return f".{text}" if text.isidentifier() else f"[{json.dumps(text, ensure_ascii=False)}]"

    def text(self, key: Object | None, most: int) -> str | None:
        """Returns the text in the first bytes of a string, or `None` for another object."""
        if key is None or key.kind not in (0x5, 0x6) or key.count is None:
            return None
        name = self.octets[key.start : min(key.end, key.start + most)]
        if key.kind == 0x5:
            return name.decode("latin-1")
        return name[: len(name) & ~1].decode("utf-16-be", "surrogatepass")

    def repeated(self, found: Object) -> list[str]:
        """Returns a line with a key that a dictionary has again, if there is one."""
        pairs: dict[str, int] = {}
        left = MOST  # Many keys may share long content.
        for pair, number in enumerate(self.references(found)[: found.count]):
            key = self.object(number)
            text = self.text(key, left)
            left -= 2 * len(text or "")
            if text is not None and left > 0 and pairs.setdefault(text, pair) != pair:
                step = self.key_step(key, pair)
                return [f"the pairs {pairs[text]} and {pair} have the same key: {step}"]
        return []


def lines(octets: bytes, number: int) -> list[str]:
    """Returns where an object begins with what its marker says, a path to it, and a key that it
    has again. Raises `Refused` if the file does not say where it begins."""
    binary = Binary(octets)
    begin = binary.begin(number)
    if begin is None:
        has = f"has {binary.count} objects" if number >= binary.count else "is cut"
        raise tools.Refused(f"its offset table {has}, so there is no object {number}")
    found = binary.object(number)
    where = f"object {number} begins at byte {begin}"
    if found is not None:
        where += f": {found.marker:02x}, {found.words()}"
    if found is None or not 8 <= begin < binary.table:
        where += f"; the objects are from byte 8 to {binary.table - 1}"
    elif found.end > binary.table:
        where += f"; it reaches past byte {binary.table - 1}, the last before the offset table"
    more = binary.repeated(found) if found is not None and found.kind == TABLE else []
    return [where, binary.path(number), *more]
