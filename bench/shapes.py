"""Inputs of other shapes than those of files.py, for bench.py --other. Each is the same on every
machine: its function gets a random generator and a scale.
"""
import datetime
import random
import string

from hostile_files import head, joined, numbers

EPOCH = datetime.datetime(2001, 1, 1)


def word(chance, letters, length):
    return "".join(chance.choices(letters, k=length))


def chinese(chance, length):
    return "".join(chr(chance.randrange(0x4E00, 0x9FA0)) for _ in range(length))


def rotation(chance, scale):
    """Records of 100 kinds in turn, each kind with keys of its own."""
    kinds = [[f"field {kind}.{chance.randrange(10**6)}" for _ in range(8)] for kind in range(100)]
    return [
        {key: number + at for at, key in enumerate(kinds[number % 100])}
        for number in range(int(40_000 * scale))
    ]


def long_dictionaries(chance, scale):
    """Two long dictionaries with the same keys, each in its own order."""
    names = [f"entry {number:07d}" for number in range(int(120_000 * scale))]
    return [
        {name: len(name) + side for name in chance.sample(names, len(names))} for side in range(2)
    ]


def own_keys(chance, scale):
    """Dictionaries below a short one, each with 500 keys of its own, in no order."""
    return {
        f"part {part}": {
            f"{chance.randrange(2**32):08x} of part {part}": number for number in range(500)
        }
        for part in range(int(400 * scale))
    }


def letters(chance, scale):
    """A dictionary of keys of 26 letters, in no order, which begin with the same twelve."""
    return {
        "com.example." + word(chance, string.ascii_lowercase, 14): True
        for _ in range(int(150_000 * scale))
    }


def chinese_strings(chance, scale):
    return [
        {"标题": chinese(chance, 6), "正文": chinese(chance, 40)} for _ in range(int(50_000 * scale))
    ]


def hashes(chance, scale):
    """Strings of 64 hexadecimal digits."""
    return {f"blob {number}": chance.randbytes(32).hex() for number in range(int(60_000 * scale))}


def digests(chance, scale):
    """Data of 20 bytes, each twice."""
    found = [chance.randbytes(20) for _ in range(int(80_000 * scale))]
    return found + chance.sample(found, len(found))


def reals(chance, scale):
    return [
        [chance.uniform(-180, 180), chance.uniform(-90, 90)] for _ in range(int(150_000 * scale))
    ]


def integers(chance, scale):
    return [chance.randrange(-(1 << 63), 1 << 64) for _ in range(int(400_000 * scale))]


def few_integers(chance, scale):
    """A file of integers below 2^16, each an object of its own."""
    count = int(1_000_000 * scale)
    each = [b"\x11" + numbers([chance.randrange(1 << 16)], 2) for _ in range(count)]
    return joined([head(0xA0, count) + numbers(range(1, count + 1), 3), *each], 3)


def dates(chance, scale):
    return [
        EPOCH + datetime.timedelta(seconds=chance.randrange(1 << 30))
        for _ in range(int(300_000 * scale))
    ]


def few_strings(chance, scale):
    """Short arrays of a few hundred strings."""
    tags = [word(chance, string.ascii_lowercase, chance.randrange(4, 16)) for _ in range(300)]
    return [
        {"tags": chance.sample(tags, 6), "kind": chance.choice(tags)}
        for _ in range(int(60_000 * scale))
    ]


def plain_text(chance, scale):
    """A strings file of ASCII alone."""
    return "".join(
        f'/* Button {number} */\n"{word(chance, string.ascii_lowercase, 12)}.{number}" = '
        f"\"{' '.join(word(chance, string.ascii_lowercase, 6) for _ in range(5))}\";\n\n"
        for number in range(int(70_000 * scale))
    ).encode()


def wide_text(chance, scale):
    """A strings file in UTF-16, big-endian."""
    rows = [
        f'"item.{number}" = "{chinese(chance, 12)} (%@)";\n'
        for number in range(int(90_000 * scale))
    ]
    return ("\ufeff" + "".join(rows)).encode("utf-16-be")


def chinese_text(chance, scale):
    """A strings file of Chinese in UTF-8."""
    return "".join(
        f'"item.{number}" = "{chinese(chance, 20)}\\n{chinese(chance, 5)}";\n'
        for number in range(int(80_000 * scale))
    ).encode()


def data_text(chance, scale):
    """Dictionaries with data, in groups of eight digits, and unquoted strings."""
    rows = "".join(
        f"\t{{ name = blob{number}; bytes = <{chance.randbytes(48).hex(' ', 4)}>; }},\n"
        for number in range(int(50_000 * scale))
    )
    return f"(\n{rows})\n".encode()


def coordinates(chance, scale):
    """Arrays of short unquoted strings."""
    rows = "".join(
        f"\t({chance.randrange(10**4)}, {chance.randrange(10**4)}, p{chance.randrange(100)}),\n"
        for _ in range(int(200_000 * scale))
    )
    return f"(\n{rows})\n".encode()


def seeded(*makers):
    """Returns each function by its name, with a generator that the name seeds."""
    names = {maker.__name__.replace("_", " "): maker for maker in makers}
    return {
        name: lambda scale, name=name, maker=maker: maker(random.Random(name), scale)
        for name, maker in names.items()
    }


BINARY = seeded(
    rotation,
    long_dictionaries,
    own_keys,
    letters,
    chinese_strings,
    hashes,
    digests,
    reals,
    integers,
    dates,
    few_strings,
)
WRITTEN = seeded(few_integers, plain_text, wide_text, chinese_text, data_text, coordinates)
