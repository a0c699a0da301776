"""Compares long texts line by line, as a unified diff.

difflib alone takes minutes for the printed texts of large property lists, which have many
equal lines. So lines that occur once in each text are matched first, and difflib compares only
the lines between them.
"""
from __future__ import annotations

import bisect
import difflib
from collections import Counter

CONTEXT = 3  # lines around a change
MOST = 250_000  # the most pairs of lines given to difflib; larger parts are replaced as a whole


class Lines(difflib.SequenceMatcher):
    """Finds the equal lines of two texts."""

    def __init__(self, old: list[bytes], new: list[bytes]) -> None:
        super().__init__()
        self.old, self.new = old, new

    def get_matching_blocks(self) -> list[difflib.Match]:
        """Returns the runs of equal lines, as difflib does, with an empty one at the end."""
        blocks: list[difflib.Match] = []
        for i, j in sorted(self.pairs()):
            a, b, size = blocks[-1] if blocks else (0, 0, 0)
            if size and (a + size, b + size) == (i, j):
                blocks[-1] = difflib.Match(a, b, size + 1)
            else:
                blocks.append(difflib.Match(i, j, 1))
        return [*blocks, difflib.Match(len(self.old), len(self.new), 0)]

    def pairs(self) -> list[tuple[int, int]]:
        """Returns the numbers of equal lines, unordered."""
        found = []
        parts = [(0, len(self.old), 0, len(self.new))]
        while parts:
            first, last, begin, end = parts.pop()
            while first < last and begin < end and self.old[first] == self.new[begin]:
                found.append((first, begin))
                first, begin = first + 1, begin + 1
            while first < last and begin < end and self.old[last - 1] == self.new[end - 1]:
                last, end = last - 1, end - 1
                found.append((last, end))
            if first == last or begin == end:
                continue
            anchors = self.anchors(first, last, begin, end)
            if anchors:
                pairs = zip([(first, begin), *anchors], [*anchors, (last, end)])
                parts.extend((i, k, j, m) for (i, j), (k, m) in pairs)
            elif (last - first) * (end - begin) <= MOST:
                parted = self.old[first:last], self.new[begin:end]
                matcher = difflib.SequenceMatcher(None, *parted, autojunk=False)
                for i, j, size in matcher.get_matching_blocks():
                    found.extend((first + i + n, begin + j + n) for n in range(size))
        return found

    def anchors(self, first: int, last: int, begin: int, end: int) -> list[tuple[int, int]]:
        """Returns the longest ascending sequence of lines that occur once in each part."""
        old, new = Counter(self.old[first:last]), Counter(self.new[begin:end])
        places = {line: j for j, line in enumerate(self.new[begin:end], begin) if new[line] == 1}
        tails: list[int] = []  # for each length of a sequence, its least end
        rows: list[tuple[int, int, int]] = []  # the lines, each with its predecessor
        ends: list[int] = []  # for each length, the last line of the sequence
        for i in range(first, last):
            j = places.get(self.old[i], -1)
            if j < 0 or old[self.old[i]] != 1:
                continue
            length = bisect.bisect_left(tails, j)
            rows.append((i, j, ends[length - 1] if length else -1))
            tails[length : length + 1], ends[length : length + 1] = [j], [len(rows) - 1]
        found, at = [], ends[-1] if ends else -1
        while at >= 0:
            i, j, at = rows[at]
            found.append((i, j))
        return found[::-1]


def span(first: int, last: int) -> str:
    """Returns the range of lines of a hunk in the format of diff."""
    count = last - first
    return f"{first + 1}" if count == 1 else f"{first + 1 if count else first},{count}"


def unified(old: list[bytes], new: list[bytes], names: tuple[str, str]) -> bytes:
    """Returns the unified diff of two texts, which is empty if they are the same."""
    printed = [f"--- {names[0]}\n+++ {names[1]}\n".encode()]
    for group in Lines(old, new).get_grouped_opcodes(CONTEXT):
        spans = span(group[0][1], group[-1][2]), span(group[0][3], group[-1][4])
        printed.append(f"@@ -{spans[0]} +{spans[1]} @@\n".encode())
        for kind, first, last, begin, end in group:
            if kind == "equal":
                printed.extend(b" " + line for line in old[first:last])
                continue
            printed.extend(b"-" + line for line in old[first:last])
            printed.extend(b"+" + line for line in new[begin:end])
    return b"".join(printed) if len(printed) > 1 else b""
