"""Files and texts of scalars chosen to collide, for hostile.py.

The hasher with a fixed seed (`FoldHasher` of the toolchain's library) has a state of 64 bits. For
each write it multiplies the state, xor the bytes, by a constant, and joins the halves of the
product by xor. So collisions can be computed:
- data: of 32 bytes the first 16 are one product of two factors. If the second factor is 0, so is
  the state, whatever the first 8 bytes are;
- UTF-16 strings: a string feeds two words, and the second one undoes the state after the first. A
  word is four units, or eight if all units of the string are below 256.
ASCII strings are left out: in the word that undoes a state one bit of every eight is not free, so
each takes about 256 tries to find, and would cost as much as one in UTF-16. Integers, reals and
dates whose hashes agree in the 20 bits that choose a place of a set are found in a lattice, and
cost no more than others under any hasher, since a set joins both halves of the state first. Keys of
a dictionary are sorted, not hashed; those with a common prefix of 60 characters are here since each
comparison reads that prefix.
"""
import itertools
import random
import struct

from hostile_files import dictionary, head, joined, numbers

WORD = (1 << 64) - 1
SEED, FACTOR = 0x243F6A8885A308D3, 0x9E3779B97F4A7C15


def folded(a, b):
    """Returns the xor of the halves of the product."""
    product = a * b
    return product & WORD ^ product >> 64


def after_write(state, word):
    """Returns the state after a write of 8 bytes."""
    return folded(state ^ word, FACTOR ^ 16)


def data(count):
    """Returns data of 32 bytes, after whose first 16 bytes the state is 0."""
    zero = FACTOR.to_bytes(8, "little")
    return [n.to_bytes(8, "little") + zero + bytes(16) for n in range(count)]


def plain_units(word):
    """Returns the four units of a word, or None if one is no plain character."""
    units = struct.unpack("<4H", word.to_bytes(8, "little"))
    return units if all(0xA0 <= unit < 0xD800 for unit in units) else None


def narrow_units(word):
    """Returns the eight units below 256 of a word, or None if one is 0."""
    units = tuple(word.to_bytes(8, "little"))
    return units if 0 not in units else None


def undone(count, start, units_of):
    """Returns strings of two words each that all lead from the state `start` to the same state."""
    made = []
    for n in itertools.count(1):
        first = n * FACTOR & WORD
        second = after_write(start, first) ^ 0x1234_5678_9ABC_1357
        units = units_of(first), units_of(second)
        if None not in units:
            made.append(units[0] + units[1])
        if len(made) == count:
            return made


def strings(count):
    """Returns strings of eight units, which the hasher reads after their count."""
    return undone(count, after_write(SEED, 8), plain_units)


def narrow_strings(count):
    """Returns strings of sixteen units below 256."""
    return undone(count, SEED, narrow_units)


def array_of(items, object_of, size):
    """Returns an array of about `size` bytes of these objects, each of them twice, since one that
    occurs once may be written without a comparison."""
    count = size // (2 * (len(object_of(items(1)[0])) + 7))
    objects = [object_of(item) for item in items(count)]
    return joined([head(0xA0, 2 * count) + numbers(range(1, 2 * count + 1), 3), *objects * 2], 3)


def text_of(items, text_of_item, size):
    """Returns a text of about `size` bytes of an array of these items, each of them twice."""
    count = size // (2 * (len(text_of_item(items(1)[0])) + 2))
    return f"({', '.join([text_of_item(item) for item in items(count)] * 2)})".encode("ascii")


def string_object(units):
    return head(0x60, len(units)) + numbers(units, 2)


def string_text(units):
    return '"' + "".join(f"\\U{unit:04x}" for unit in units) + '"'


def keys(count):
    """Returns shuffled keys that differ only in their last characters."""
    made = [f"{'k' * 60}{n:06d}".encode("ascii") for n in range(count)]
    random.Random(4).shuffle(made)
    return made


def colliding_data(size):
    return array_of(data, lambda octets: head(0x40, 32) + octets, size)


def colliding_data_text(size):
    return text_of(data, lambda octets: f"<{octets.hex()}>", size)


def colliding_strings(size):
    return array_of(strings, string_object, size)


def colliding_strings_text(size):
    return text_of(strings, string_text, size)


def colliding_narrow_strings(size):
    return array_of(narrow_strings, string_object, size)


def common_prefix(size):
    count = size // 80
    made = [head(0x50, len(key)) + key for key in keys(count)]
    return joined([dictionary(range(1, count + 1), count + 1, 3), *made, b"Qx"], 3)


def common_prefix_text(size):
    return b"{" + b"".join(key + b" = x;\n" for key in keys(size // 72)) + b"}"


FILES = (colliding_data, colliding_strings, colliding_narrow_strings, common_prefix)
TEXTS = (colliding_data_text, colliding_strings_text, common_prefix_text)
