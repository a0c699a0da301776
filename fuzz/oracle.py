"""A second implementation of docs/FORMATS.md, for comparisons with the program: values, both
readers, the canonical file, the OpenStep text of a value, its printed text, the rules of `check`,
the lines of several files, and what `explain` explains. It is slow and simple, shares no code with
the program, and nothing about it is proved.

A value is a pair (kind, content): ('text', units), ('whole', n), ('flag', b), ('real4', octets),
('real8', octets), ('moment', octets), ('bytes', octets), ('list', values), ('table',
{units: value}). Units are a tuple of numbers."""
import datetime
import re
import sys
import unicodedata
from fractions import Fraction

sys.setrecursionlimit(20_000)

MAX_NODES = 16_777_216
MAX_DEPTH = 512
MAX_PAYLOAD = 1_073_741_824

NAMES = {
    1: "TooShort",
    2: "BadHeader",
    3: "BadTrailer",
    4: "BadOffset",
    5: "BadReference",
    6: "CutObject",
    7: "BadMarker",
    8: "NullObject",
    9: "UidObject",
    10: "SetObject",
    11: "NotAscii",
    12: "WideInteger",
    13: "KeyNotText",
    14: "DuplicateKey",
    15: "Cycle",
    16: "TooDeep",
    17: "TooManyNodes",
    18: "TooMuchPayload",
    20: "BadUtf8",
    21: "XmlForm",
    23: "UnexpectedCharacter",
    24: "UnclosedString",
    25: "UnclosedComment",
    26: "BadEscape",
    27: "OctalRange",
    28: "OddData",
    29: "BadData",
    30: "Expected",
    31: "Junk",
    32: "BadUtf16",
    40: "NotInOpenStep",
}
# The refusals of devices and of memory, which no input has.
OTHER_NAMES = {50: "ReadFailed", 51: "WriteFailed", 52: "InputTooLarge", 60: "OutOfMemory"}


class Refused(Exception):
    """A refusal: its number, and its position as ('object', n), ('octet', n) or None."""

    def __init__(self, code, place=None):
        super().__init__(code, place)
        self.code, self.place = code, place

    def text(self):
        where = "" if self.place is None else " at %s %d" % self.place
        return "%d %s%s" % (self.code, NAMES[self.code], where)


class Spent:
    """Counts what a reader has read so far, and refuses it when it exceeds a limit."""

    def __init__(self):
        self.nodes = self.payload = 0

    def node(self, place):
        self.nodes += 1
        if self.nodes > MAX_NODES:
            raise Refused(17, place)

    def pay(self, octets, place):
        self.payload += octets
        if self.payload > MAX_PAYLOAD:
            raise Refused(18, place)


def payload_of(value):
    kind, content = value
    return 2 * len(content) if kind == "text" else len(content) if kind == "bytes" else 0


# The binary form.


def number(octets):
    return int.from_bytes(octets, "big")


class File:
    """A file with the layout."""

    def __init__(self, octets):
        if len(octets) < 42:
            raise Refused(1)
        if octets[:8] != b"bplist00":
            raise Refused(2)
        trailer = octets[-32:]
        self.octets = octets
        self.slack = trailer[:6]
        self.offset_width, self.reference_width = trailer[6], trailer[7]
        self.count, self.top, self.table = (number(trailer[i : i + 8]) for i in (8, 16, 24))
        widths = all(1 <= width <= 8 for width in (self.offset_width, self.reference_width))
        fits = self.table + self.count * self.offset_width + 32 == len(octets)
        if not widths or not self.count or self.top >= self.count or self.table < 9 or not fits:
            raise Refused(3)

    def place(self, n):
        at = self.table + n * self.offset_width
        return number(self.octets[at : at + self.offset_width])

    def object(self, n):
        """Returns ('scalar', value), ('list', references) or ('table', keys, values), and
        the offset after it."""
        place, end = self.place(n), self.table
        if place < 8 or place >= end:
            raise Refused(4)
        marker = self.octets[place]
        high, low = marker >> 4, marker & 15
        at = place + 1
        fixed = {
            0x08: 0,
            0x09: 0,
            0x10: 1,
            0x11: 2,
            0x12: 4,
            0x13: 8,
            0x14: 16,
            0x22: 4,
            0x23: 8,
            0x33: 8,
        }
        if marker in fixed:
            size = fixed[marker]
            if size > end - at:
                raise Refused(6)
            return ("scalar", self.fixed(marker, self.octets[at : at + size])), at + size
        if marker == 0:
            raise Refused(8)
        if high == 8:
            raise Refused(9)
        if high == 12:
            raise Refused(10)
        if high not in (4, 5, 6, 10, 13):
            raise Refused(7)
        count = low
        if low == 15:
            count, at = self.counted(at, end)
        size = (
            count * {4: 1, 5: 1, 6: 2, 10: self.reference_width, 13: 2 * self.reference_width}[high]
        )
        if size > end - at:
            raise Refused(6)
        content, behind = self.octets[at : at + size], at + size
        if high == 4:
            return ("scalar", ("bytes", content)), behind
        if high == 5:
            if any(octet > 0x7F for octet in content):
                raise Refused(11)
            return ("scalar", ("text", tuple(content))), behind
        if high == 6:
            units = tuple(number(content[i : i + 2]) for i in range(0, size, 2))
            return ("scalar", ("text", units)), behind
        width = self.reference_width
        refs = [number(content[i : i + width]) for i in range(0, size, width)]
        if high == 10:
            return ("list", refs), behind
        return ("table", refs[:count], refs[count:]), behind

    def counted(self, at, end):
        if at >= end:
            raise Refused(6)
        marker = self.octets[at]
        if not 0x10 <= marker <= 0x14:
            raise Refused(7)
        size = 1 << (marker - 0x10)
        if size > end - at - 1:
            raise Refused(6)
        return number(self.octets[at + 1 : at + 1 + size]), at + 1 + size

    def fixed(self, marker, content):
        if marker in (0x08, 0x09):
            return ("flag", marker == 0x09)
        if marker == 0x13:
            return ("whole", int.from_bytes(content, "big", signed=True))
        if marker == 0x14 and any(content[:8]):
            raise Refused(12)
        if marker < 0x20:
            return ("whole", number(content))
        return ({0x22: "real4", 0x23: "real8", 0x33: "moment"}[marker], content)


def read_binary(octets):
    file, spent = File(octets), Spent()

    def meet(reference, holder, path, key):
        at = ("object", reference)
        if reference >= file.count:
            raise Refused(5, ("object", holder))
        if reference in path:
            raise Refused(15, ("object", holder))
        spent.node(at)
        if len(path) == MAX_DEPTH:
            raise Refused(16, at)
        try:
            held, _ = file.object(reference)
        except Refused as fault:
            raise Refused(fault.code, at) from None
        if key and (held[0] != "scalar" or held[1][0] != "text"):
            raise Refused(13, ("object", holder))
        if held[0] == "scalar":
            spent.pay(payload_of(held[1]), at)
            return held[1]
        inside = path + [reference]
        if held[0] == "list":
            return ("list", [meet(item, reference, inside, False) for item in held[1]])
        keys = [meet(item, reference, inside, True)[1] for item in held[1]]
        if len(set(keys)) < len(keys):
            raise Refused(14, at)
        return (
            "table",
            dict(zip(keys, [meet(item, reference, inside, False) for item in held[2]])),
        )

    return meet(file.top, 0, [], False)


# The text form.

WHITE = {9, 10, 11, 12, 13, 32, 0x2028, 0x2029}
LINE_ENDS = {10, 13, 0x2028, 0x2029}
RUN = set(map(ord, "abcdefghijklmnopqrstuvwxyzABCDEFGHIJKLMNOPQRSTUVWXYZ0123456789_$/:.-"))
HEX = {ord(c): int(c, 16) for c in "0123456789abcdefABCDEF"}
ESCAPES = {ord(c): unit for c, unit in zip("abfnrtv", (7, 8, 12, 10, 13, 9, 11))}


def characters(octets):
    """Returns the code points, and the offset of each, followed by the length."""
    if octets[:2] in (b"\xfe\xff", b"\xff\xfe"):
        order = "big" if octets[:1] == b"\xfe" else "little"
        codes, places, at = [], [], 2
        while at < len(octets):
            if at + 1 == len(octets):
                raise Refused(32, ("octet", at))
            unit, size = int.from_bytes(octets[at : at + 2], order), 2
            if 0xDC00 <= unit < 0xE000:
                raise Refused(32, ("octet", at))
            if 0xD800 <= unit < 0xDC00:
                low = int.from_bytes(octets[at + 2 : at + 4], order) if at + 4 <= len(octets) else 0
                if not 0xDC00 <= low < 0xE000:
                    raise Refused(32, ("octet", at))
                unit, size = 0x10000 + (unit - 0xD800) * 0x400 + low - 0xDC00, 4
            codes.append(unit)
            places.append(at)
            at += size
        return codes, places + [len(octets)]
    try:
        text = octets.decode("utf-8")
    except UnicodeDecodeError as error:
        raise Refused(20, ("octet", error.start)) from None
    codes, places, at = [], [], 0
    for character in text:
        codes.append(ord(character))
        places.append(at)
        at += len(character.encode())
    if octets[:3] == b"\xef\xbb\xbf":
        del codes[0], places[0]
    return codes, places + [len(octets)]


def units_of(code):
    if code < 0x10000:
        return [code]
    return [0xD800 + (code - 0x10000 >> 10), 0xDC00 + (code - 0x10000 & 0x3FF)]


def begins(codes, at, word):
    return codes[at : at + len(word)] == [ord(c) for c in word]


def tokens(octets):
    """Returns the tokens: kind, content, offset, and the offset after the token."""
    codes, places = characters(octets)
    at = 0
    while at < len(codes) and codes[at] in WHITE:
        at += 1
    if any(begins(codes, at, word) for word in ("<?xml", "<!DOCTYPE", "<plist")):
        raise Refused(21, ("octet", places[at]))
    found, at = [], 0
    while True:
        at = gap(codes, places, at)
        if at == len(codes):
            return found, places[-1]
        kind, content, end = token(codes, places, at)
        found.append((kind, content, places[at], places[end]))
        at = end


def gap(codes, places, at):
    while at < len(codes):
        if codes[at] in WHITE:
            at += 1
        elif begins(codes, at, "//"):
            while at < len(codes) and codes[at] not in LINE_ENDS:
                at += 1
        elif begins(codes, at, "/*"):
            end = at + 2
            while end < len(codes) and not begins(codes, end, "*/"):
                end += 1
            if end >= len(codes):
                raise Refused(25, ("octet", places[at]))
            at = end + 2
        else:
            break
    return at


def token(codes, places, at):
    code = codes[at]
    if code < 128 and chr(code) in "{}(),;=":
        return chr(code), None, at + 1
    if code in RUN:
        end = at
        while end < len(codes) and codes[end] in RUN:
            end += 1
        return "string", tuple(codes[at:end]), end
    if code in (34, 39):
        return quoted(codes, places, at)
    if code == 60:
        return data(codes, places, at)
    raise Refused(23, ("octet", places[at]))


def quoted(codes, places, start):
    units, at = [], start + 1
    while at < len(codes):
        code = codes[at]
        if code == codes[start]:
            return "string", tuple(units), at + 1
        if code != 92:
            units += units_of(code)
            at += 1
            continue
        if at + 1 == len(codes):
            break
        behind = codes[at + 1]
        if 48 <= behind < 56:
            end, value = at + 1, 0
            while end < len(codes) and end < at + 4 and 48 <= codes[end] < 56:
                value, end = 8 * value + codes[end] - 48, end + 1
            if value > 0o177:
                raise Refused(27, ("octet", places[at]))
            units.append(value)
        elif behind == 85:
            end, value = at + 2, 0
            while end < len(codes) and end < at + 6 and codes[end] in HEX:
                value, end = 16 * value + HEX[codes[end]], end + 1
            if end == at + 2:
                raise Refused(26, ("octet", places[at]))
            units.append(value)
        else:
            end = at + 2
            units += [ESCAPES[behind]] if behind in ESCAPES else units_of(behind)
        at = end
    raise Refused(24, ("octet", places[start]))


def data(codes, places, start):
    content, at = bytearray(), start + 1
    while True:
        while at < len(codes) and codes[at] in WHITE:
            at += 1
        if at < len(codes) and codes[at] == 62:
            return "data", bytes(content), at + 1
        if at == len(codes) or codes[at] not in HEX:
            raise Refused(29, ("octet", places[at]))
        if at + 1 == len(codes) or codes[at + 1] not in HEX:
            raise Refused(28, ("octet", places[at]))
        content.append(16 * HEX[codes[at]] + HEX[codes[at + 1]])
        at += 2


class Phrase:
    """Parses a list of tokens."""

    def __init__(self, found, length):
        self.found, self.length, self.at, self.open = found, length, 0, 0
        self.spent = Spent()

    def kind(self, ahead=0):
        at = self.at + ahead
        return self.found[at][0] if at < len(self.found) else None

    def place(self):
        return ("octet", self.found[self.at][2] if self.at < len(self.found) else self.length)

    def take(self, *kinds):
        if self.kind() not in kinds:
            raise Refused(30, self.place())
        self.at += 1
        return self.found[self.at - 1]

    def charge(self, place, payload):
        self.spent.node(place)
        if self.open == MAX_DEPTH:
            raise Refused(16, place)
        self.spent.pay(payload, place)

    def whole(self):
        if not self.found:
            return ("table", {})
        if self.kind() == "string" and self.kind(1) in ("=", ";"):
            self.charge(self.place(), 0)
            self.open += 1
            table = {}
            while self.kind() == "string":
                self.row(table)
            value = ("table", table)
        else:
            value = self.value()
        if self.at < len(self.found):
            raise Refused(31, self.place())
        return value

    def value(self):
        place = self.place()
        kind, content, _, _ = self.take("string", "data", "(", "{")
        if kind == "string":
            self.charge(place, 2 * len(content))
            return ("text", content)
        if kind == "data":
            self.charge(place, len(content))
            return ("bytes", content)
        self.charge(place, 0)
        self.open += 1
        value = self.items() if kind == "(" else self.rows()
        self.open -= 1
        return value

    def items(self):
        items = []
        while self.kind() != ")":
            items.append(self.value())
            if self.kind() != ")":
                self.take(",")
        self.at += 1
        return ("list", items)

    def rows(self):
        table = {}
        while self.kind() != "}":
            self.row(table)
        self.at += 1
        return ("table", table)

    def row(self, table):
        place = self.place()
        key = self.take("string")[1]
        self.charge(place, 2 * len(key))
        if key in table:
            raise Refused(14, place)
        if self.take("=", ";")[0] == ";":
            self.charge(place, 2 * len(key))
            table[key] = ("text", key)
        else:
            table[key] = self.value()
            self.take(";")


def read_text(octets):
    return Phrase(*tokens(octets)).whole()


def read_any(octets):
    return read_binary(octets) if octets[:6] == b"bplist" else read_text(octets)


# The canonical file and the OpenStep text.


def least(n):
    return next(width for width in (1, 2, 4, 8) if n < 256**width)


def marked(high, count):
    return bytes([high << 4 | count]) if count < 15 else bytes([high << 4 | 15]) + whole(count)


def whole(n):
    for size, marker in ((1, 0x10), (2, 0x11), (4, 0x12)):
        if 0 <= n < 256**size:
            return bytes([marker]) + n.to_bytes(size, "big")
    if n < 2**63:
        return b"\x13" + n.to_bytes(8, "big", signed=True)
    return b"\x14" + n.to_bytes(16, "big")


def spelled(scalar):
    kind, content = scalar
    if kind == "text":
        if all(unit < 128 for unit in content):
            return marked(5, len(content)) + bytes(content)
        return marked(6, len(content)) + b"".join(unit.to_bytes(2, "big") for unit in content)
    if kind == "bytes":
        return marked(4, len(content)) + content
    if kind == "flag":
        return b"\x09" if content else b"\x08"
    if kind == "whole":
        return whole(content)
    return {"real4": b"\x22", "real8": b"\x23", "moment": b"\x33"}[kind] + content


def canonical(value):
    objects, numbers = [], {}

    def meet(value):
        kind, content = value
        if kind not in ("list", "table"):
            if value not in numbers:
                numbers[value] = len(objects)
                objects.append(value)
            return numbers[value]
        mine = len(objects)
        objects.append(None)
        if kind == "list":
            objects[mine] = (10, len(content), [meet(item) for item in content])
        else:
            keys = sorted(content)
            refs = [meet(("text", key)) for key in keys]
            refs += [meet(content[key]) for key in keys]
            objects[mine] = (13, len(content), refs)
        return mine

    meet(value)
    width = least(len(objects))
    pieces = []
    for item in objects:
        if len(item) == 3:
            refs = b"".join(ref.to_bytes(width, "big") for ref in item[2])
            pieces.append(marked(item[0], item[1]) + refs)
        else:
            pieces.append(spelled(item))
    places, at = [], 8
    for piece in pieces:
        places.append(at)
        at += len(piece)
    table = b"".join(place.to_bytes(least(at), "big") for place in places)
    numbers = (len(objects).to_bytes(8, "big"), bytes(8), at.to_bytes(8, "big"))
    trailer = bytes(6) + bytes([least(at), width]) + b"".join(numbers)
    return b"bplist00" + b"".join(pieces) + table + trailer


def written_text(units):
    letters = "".join(map(chr, units)) if all(unit < 128 for unit in units) else ""
    if letters.isalnum() and not letters.startswith("bplist"):
        return letters
    names = {34: '\\"', 92: "\\\\", 10: "\\n", 9: "\\t", 13: "\\r"}
    plain = lambda unit: chr(unit) if 0x20 <= unit <= 0x7E else "\\U%04x" % unit
    return '"%s"' % "".join(names.get(unit) or plain(unit) for unit in units)


def written(value):
    kind, content = value
    if kind == "text":
        return written_text(content)
    if kind == "bytes":
        return "<%s>" % content.hex()
    if kind == "list":
        return "(\n%s)" % "".join(written(item) + ",\n" for item in content)
    if kind == "table":
        row = lambda key: "%s = %s;\n" % (written_text(key), written(content[key]))
        return "{\n%s}" % "".join(row(key) for key in sorted(content))
    raise Refused(40)


def openstep(value):
    return (written(value) + "\n").encode()


# The printed text.

# Default_Ignorable_Code_Point, as DerivedCoreProperties.txt of Unicode 18.0 has it.
IGNORED = [
    (0xAD, 0xAD),
    (0x34F, 0x34F),
    (0x61C, 0x61C),
    (0x115F, 0x1160),
    (0x17B4, 0x17B5),
    (0x180B, 0x180F),
    (0x200B, 0x200F),
    (0x202A, 0x202E),
    (0x2060, 0x206F),
    (0x3164, 0x3164),
    (0xFE00, 0xFE0F),
    (0xFEFF, 0xFEFF),
    (0xFFA0, 0xFFA0),
    (0xFFF0, 0xFFF8),
    (0x1BCA0, 0x1BCA3),
    (0x1D173, 0x1D17A),
    (0xE0000, 0xE0FFF),
]
# Format characters of Unicode 18.0 that the oldest Python we know of does not have: they
# came with Unicode 15.
FORMATS = [(0x13439, 0x1343F)]


def is_unseen(character):
    if unicodedata.category(character) in ("Cc", "Cf", "Cs", "Zl", "Zp", "Zs"):
        return character != " "
    return any(first <= ord(character) <= last for first, last in IGNORED + FORMATS)


def printed_text(units):
    names = {34: '\\"', 92: "\\\\", 10: "\\n", 9: "\\t", 13: "\\r"}
    shown, at = [], 0
    while at < len(units):
        unit, behind = units[at], units[at + 1] if at + 1 < len(units) else 0
        character, taken = chr(unit), units[at : at + 1]
        if 0xD800 <= unit < 0xDC00 <= behind < 0xE000:
            character, taken = (
                chr(0x10000 + (unit - 0xD800) * 0x400 + behind - 0xDC00),
                units[at : at + 2],
            )
        if unit in names:
            shown.append(names[unit])
        elif is_unseen(character):
            shown.extend("\\U%04x" % one for one in taken)
        else:
            shown.append(character)
        at += len(taken)
    return '"%s"' % "".join(shown)


def size_of_real(bits, octets):
    """Returns the magnitude with these bits, without a sign, or None if it is
    infinite or not a number."""
    width, bias = {4: (23, 127), 8: (52, 1023)}[octets]
    exponent, rest = bits >> width, bits & (1 << width) - 1
    if exponent == 2 * bias + 1:
        return None
    digits = rest if exponent == 0 else rest + (1 << width)
    return digits * Fraction(2) ** (max(exponent, 1) - bias - width)


def decimal_of_real(bits, octets):
    """Returns the decimal with the fewest digits after the point that reads
    back, if there is one."""
    size = size_of_real(bits, octets)
    if size != 0 and not Fraction(2) ** -73 <= size < 2 ** {4: 25, 8: 54}[octets]:
        return None
    lower, upper = size_of_real(max(bits - 1, 0), octets), size_of_real(bits + 1, octets)
    for digits in range(1, 22):
        count = (2 * size * 10**digits + 1) // 2
        if (lower + size) / 2 <= Fraction(count, 10**digits) < (size + upper) / 2:
            return "%d.%0*d" % (count // 10**digits, digits, count % 10**digits)
    return None


def printed_real(content):
    top = 8 * len(content) - 1
    bits = number(content)
    sign, bits = "-" if bits >> top else "", bits & (1 << top) - 1
    size = size_of_real(bits, len(content))
    if size is None:
        infinite = bits == {4: 0x7F800000, 8: 0x7FF0000000000000}[len(content)]
        return sign + ("infinity" if infinite else "nan <%s>" % content.hex())
    return sign + (decimal_of_real(bits, len(content)) or "real <%s>" % content.hex())


def printed_date(content):
    shown = printed_real(content)
    if shown.endswith(".0"):
        try:
            moment = datetime.datetime(2001, 1, 1) + datetime.timedelta(seconds=int(shown[:-2]))
        except OverflowError:
            return "date " + shown
        return "date %s (%sZ)" % (shown, moment.isoformat())
    return "date " + shown


def blanks(level):
    return "  " * min(level, 32)


def printed_bytes(octets, level):
    digits = octets.hex()
    if len(octets) <= 32:
        return "<%s>" % digits
    lines = [blanks(level + 1) + digits[at : at + 64] + "\n" for at in range(0, len(digits), 64)]
    return "<\n" + "".join(lines) + blanks(level) + ">"


def printed_lines(value, level):
    """Returns the lines of the value, of which the indentation of the first is already printed."""
    kind, content = value
    if kind in ("list", "table"):
        if kind == "list":
            brackets, heads = "[]", [("", item) for item in content]
        else:
            brackets, heads = "{}", [
                (printed_text(key) + " => ", content[key]) for key in sorted(content)
            ]
        if not heads:
            return brackets + "\n"
        inside = [blanks(level + 1) + head + printed_lines(item, level + 1) for head, item in heads]
        return brackets[0] + "\n" + "".join(inside) + blanks(level) + brackets[1] + "\n"
    return {
        "text": printed_text,
        "whole": str,
        "flag": lambda flag: "true" if flag else "false",
        "bytes": lambda octets: printed_bytes(octets, level),
        "real8": printed_real,
        "real4": lambda octets: printed_real(octets) + "f",
        "moment": printed_date,
    }[kind](content) + "\n"


def printed(value):
    return printed_lines(value, 0).encode()


# The rules of a canonical file.


def check(octets):
    """Returns 'canonical', or the broken rule and its object as the program prints them."""
    broken = broken_rule(octets)
    return "canonical" if broken is None else "broken C%d at object %d" % broken


def broken_rule(octets):
    file = File(octets)
    if any(file.slack) or file.top:
        return 1, 0
    if file.offset_width != least(file.table) or file.reference_width != least(file.count):
        return 2, 0
    held, met, end = [], set(), 8
    for n in range(file.count):
        try:
            content, behind = file.object(n)
        except Refused:
            return 0, n
        if not refers_well(file, content):
            return 0, n
        if file.place(n) != end:
            return 3, n
        end = behind
        if octets[file.place(n) : behind] != canonical_object(file, content):
            return 4, n
        if content[0] == "table":
            keys = [file.object(key)[0][1][1] for key in content[1]]
            if any(not first < second for first, second in zip(keys, keys[1:])):
                return 5, n
        if content[0] == "scalar":
            if content[1] in met:
                return 6, n
            met.add(content[1])
        held.append(content)
    if end != file.table:
        return 3, file.count - 1
    return numbered(held) or limited(octets)


def refers_well(file, content):
    refs = [ref for part in content[1:] for ref in part] if content[0] != "scalar" else []
    if any(ref >= file.count for ref in refs):
        return False
    if content[0] != "table":
        return True
    for key in content[1]:
        try:
            held, _ = file.object(key)
        except Refused:
            return False
        if held[0] != "scalar" or held[1][0] != "text":
            return False
    return True


def canonical_object(file, content):
    if content[0] == "scalar":
        return spelled(content[1])
    refs = [ref for part in content[1:] for ref in part]
    high = 10 if content[0] == "list" else 13
    octets = b"".join(ref.to_bytes(file.reference_width, "big") for ref in refs)
    return marked(high, len(content[1])) + octets


def numbered(held):
    met, pending = 1, []
    refs = lambda n: [] if held[n][0] == "scalar" else [r for part in held[n][1:] for r in part]
    pending.append((0, iter(refs(0))))
    while pending:
        holder, rest = pending[-1]
        ref = next(rest, None)
        if ref is None:
            pending.pop()
        elif ref == met:
            met += 1
            pending.append((ref, iter(refs(ref))))
        elif ref > met or held[ref][0] != "scalar":
            return 7, holder
    return None if met == len(held) else (7, 0)


def limited(octets):
    try:
        read_binary(octets)
    except Refused:
        return 0, 0
    return None


# What is explained.


def topic(text):
    """Returns what a text names: `14 DuplicateKey`, `C5`, or None."""
    words = [word for word in re.split("[ \t\n\f\r]", text) if word]
    marked = [word for mark, word in zip(words, words[1:]) if mark in ("refused", "broken")]
    word = marked[-1] if marked else "".join(words[:1])
    for code, name in {**NAMES, **OTHER_NAMES}.items():
        if word == str(code) or (word.isascii() and word.lower() == name.lower()):
            return "%d %s" % (code, name)
    rule = re.fullmatch("([Cc][0-7]):?", word)
    return rule[1].upper() if rule else None


# The lines of several files.


def line_and_status(word, path, octets, several):
    """Returns what `lint` or `check` prints for a file, alone or as one of several,
    and the exit status."""
    try:
        if word == "lint":
            read_any(octets)
            return path + ": OK", 0
        verdict = check(octets)
    except Refused as fault:
        return "%s: refused %s" % (path, fault.text()), 2
    return path + ": " + verdict if several else verdict, 0 if verdict == "canonical" else 1


def run(word, files):
    """Returns what `lint` or `check` prints for these files, pairs of a path and its bytes,
    and the exit status."""
    answers = [line_and_status(word, path, octets, len(files) > 1) for path, octets in files]
    return "".join(line + "\n" for line, _ in answers), max(status for _, status in answers)
