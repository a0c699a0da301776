#!/usr/bin/env python3
"""Compares what crates/rows must print with a second reading of the formats (oracle.py).

    fuzz/rows.py [--print]

Computes the answer to each row of crates/rows/stdin by the second reading, and compares it with
crates/rows/stdout. The status is 1 if one differs. With --print the answers are printed, as
lines for new rows."""
import os
import sys

import oracle
from oracle import Refused

ROWS = os.path.join(os.path.dirname(os.path.abspath(__file__)), "..", "crates", "rows")


def shown(octets):
    return "".join(
        chr(octet) if 0x20 <= octet < 0x7F and octet != 0x25 else "%%%02X" % octet
        for octet in octets
    )


def spelled(text):
    first, *others = text.encode().split(b"%")
    return first + b"".join(bytes([int(other[:2], 16)]) + other[2:] for other in others)


def file(objects, places, width):
    numbers = (len(places).to_bytes(8, "big"), bytes(8), (8 + len(objects)).to_bytes(8, "big"))
    return b"bplist00" + objects + bytes(places) + bytes(6) + bytes([1, width]) + b"".join(numbers)


def octets_of(form):
    kind, _, rest = form.partition(" ")
    if kind == "text":
        return spelled(rest)
    width, *words = rest.split(" ")
    words = [spelled(word) for word in words]
    if kind == "laid":
        return file(words[0], words[1], int(width))
    places = [8 + sum(map(len, words[:n])) for n in range(len(words))]
    return file(b"".join(words), places, int(width))


def overlapping(octets):
    """Returns the answer for the first object that does not begin where the one before it ends, if
    the dictionaries up to it have more keys, or their keys more units, than there are bytes before
    the offset table. It comes first then."""
    file, units, keys, end = oracle.File(octets), {}, 0, 8
    for n in range(file.count):
        try:
            content, behind = file.object(n)
            if content[0] == "table":
                keys += len(content[1])
                units.update((key, len(file.object(key)[0][1][1])) for key in content[1])
        except (Refused, IndexError, TypeError):
            return None
        if file.place(n) != end:
            return (
                "broken C3 at object %d" % n
                if max(keys, sum(units.values())) > file.table
                else None
            )
        end = behind
    return None


def verdict(octets):
    try:
        return overlapping(octets) or oracle.check(octets)
    except Refused as fault:
        return "check refused %s (%d)" % (fault.text(), fault.code)


def value(octets):
    try:
        found = oracle.read_any(octets)
        said = shown(oracle.canonical(found))
        try:
            said += "; " + shown(oracle.openstep(found))
        except Refused as fault:
            said += "; refused %s (%d)" % (fault.text(), fault.code)
    except Refused as fault:
        said = "refused %s (%d, status 2)" % (fault.text(), fault.code)
    return said + ("; " + verdict(octets) if octets[:6] == b"bplist" else "")


def print_of(octets):
    return shown(oracle.printed(oracle.read_any(octets)))


def layout(octets):
    found = oracle.File(octets)
    widths = [found.offset_width, found.reference_width]
    said = "%d objects, top %d, table %d, widths %s, slack %s" % (
        found.count,
        found.top,
        found.table,
        widths,
        shown(found.slack),
    )
    for n in range(found.count):
        place = found.place(n)
        try:
            (kind, *held), behind = content, behind = found.object(n)
        except Refused as fault:
            said += "; %d refused %s (%d) %s" % (place, fault.text(), fault.code, fault.text())
            continue
        shortest = octets[place:behind] == oracle.canonical_object(found, content)
        said += "; %d..%d %s %s" % (place, behind, "shortest" if shortest else "longer", kind)
        if kind != "scalar":
            said += " to".join(
                "".join(" %d" % number for number in part) or " none" for part in held
            )
    return said


def tokens(octets):
    found, _ = oracle.tokens(octets)
    start = (
        3 if octets[:3] == b"\xef\xbb\xbf" else 2 if octets[:2] in (b"\xfe\xff", b"\xff\xfe") else 0
    )
    plain = lambda unit: chr(unit) if 0x21 <= unit <= 0x7E else "\\U%04x" % unit
    texts = {
        "string": lambda units: '"%s"' % "".join(map(plain, units)),
        "data": lambda data: "<%s>" % shown(data),
    }
    spans = (
        "; %d..%d %s" % (first, behind, texts[kind](content) if kind in texts else kind)
        for kind, content, first, behind in found
    )
    return "from %d%s" % (start, "".join(spans))


def fronts(octets):
    said, last = [], None
    for length in range(len(octets) + 1):
        try:
            oracle.read_any(octets[:length])
            answer = "accepted"
        except Refused as fault:
            answer = "refused " + fault.text()
        if answer != last:
            said.append("%d %s;" % (length, answer))
            last = answer
    return " ".join(said)


def topic(octets):
    return oracle.topic(octets.decode()) or "nothing"


def several(word, forms):
    said, status = oracle.run(word, list(zip("abcd", map(octets_of, forms))))
    return "%s (status %d)" % (shown(said.encode()), status)


def answer(line):
    name, question, form = line.split(" ", 2)
    if question in ("lint", "check"):
        return "%s: %s" % (name, several(question, form.split("&")))
    ask = {
        "value": value,
        "print": print_of,
        "layout": layout,
        "tokens": tokens,
        "fronts": fronts,
        "topic": topic,
    }[question]
    try:
        return "%s: %s" % (name, ask(octets_of(form)))
    except Refused as fault:
        return "%s: refused %s (%d)" % (name, fault.text(), fault.code)


def lines(name):
    with open(os.path.join(ROWS, name), encoding="ascii") as held:
        return held.read().splitlines()


def named(answers):
    """Returns the answers by the names of their rows."""
    return dict(answer.split(": ", 1) for answer in answers)


def main():
    answers = [answer(line) for line in lines("stdin") if line and not line.startswith("#")]
    if sys.argv[1:] == ["--print"]:
        print("\n".join(answers))
        return 0
    expected, computed = named(lines("stdout")), named(answers)
    wrong = [
        name
        for name in dict.fromkeys([*computed, *expected])
        if expected.get(name) != computed.get(name)
    ]
    for name in wrong:
        print(
            "%s\n  stdout: %s\n  second reading: %s"
            % (name, expected.get(name), computed.get(name))
        )
    in_order = [*expected] == [*computed]
    if not wrong and not in_order:
        print("the lines of stdout are not in the order of the rows")
    return 0 if in_order and not wrong and len(answers) == len(computed) else 1


if __name__ == "__main__":
    sys.exit(main())
