"""Files made to be slow or large, for the scripts of this folder: what hostile.py measures, at any
size, and the parts of binary files that they are made of.
"""
import random


def number(value, width):
    return value.to_bytes(width, "big")


def numbers(values, width):
    return b"".join(number(value, width) for value in values)


def least(value):
    """Returns the least width of a number."""
    return next(width for width in (1, 2, 4, 8) if value < 256**width)


def head(kind, count):
    """Returns a marker with its count."""
    if count < 15:
        return bytes([kind | count])
    width = least(count)
    return bytes([kind | 15, 0x0F + width.bit_length()]) + number(count, width)


def trailer(offset, width, count, table):
    """Returns the trailer of `count` objects, with offsets of `offset` bytes in a table at the
    offset `table`, and references of `width` bytes."""
    return bytes([0] * 6 + [offset, width]) + numbers((count, 0, table), 8)


def file(objects, places, width, offset=4):
    """Returns the file of objects that begin at these offsets, with references of `width` bytes."""
    body = b"bplist00" + objects
    return body + numbers(places, offset) + trailer(offset, width, len(places), len(body))


def joined(objects, width, offset=4):
    """Returns the file of objects that follow each other."""
    places, place = [], 8
    for one in objects:
        places.append(place)
        place += len(one)
    return file(b"".join(objects), places, width, offset)


def array(items, width):
    """Returns an array of these objects, given by their numbers."""
    return head(0xA0, len(items)) + numbers(items, width)


def dictionary(names, value, width):
    """Returns a dictionary with these keys, given by their numbers, which all
    have the same value."""
    return head(0xD0, len(names)) + numbers(names, width) + number(value, width) * len(names)


def ascii_string(length, end=b""):
    """Returns a string of `length` bytes with this end."""
    return head(0x50, length) + b"a" * (length - len(end)) + end


def wide_string(length, place):
    """Returns a UTF-16 string of `length` units. Strings of other places differ
    in the last unit."""
    return head(0x60, length) + b"\x00a" * (length - 1) + number(0x100 + place, 2)


def overlapping_strings(count, length):
    """Returns strings that all reach into the bytes of the last one. Each has
    about `length` bytes."""
    start = b"\x5f\x12" + bytes(byte & 0x7F for byte in number(length, 4))
    return [start] * (count - 1) + [start + b"a" * length]


def shared_keys(size):
    """Returns an array of dictionaries that all have the same two long keys, which differ only
    in the last byte."""
    count, length = size // 40, size // 4
    first, one = array([1, *range(5, count + 4)], 2), b"\xd2" + numbers((2, 3, 4, 4), 2)
    keys = [ascii_string(length, end) for end in (b"x", b"y")]
    return joined([first, one, *keys, b"\x10\x00", *[one] * (count - 1)], 2)


def overlapping_keys(size):
    """Returns a dictionary whose keys all overlap."""
    count = size // 40
    one = dictionary(range(1, count + 1), count + 1, 2)
    return joined([one, *overlapping_strings(count, size // 2), b"\x10\x00"], 2)


def unordered_keys(size):
    """Returns a dictionary whose first two keys do not ascend, and whose other keys overlap."""
    count = size // 40
    keys = [b"Qb", b"Qa", *overlapping_strings(count, size // 2)]
    return joined([dictionary(range(1, count + 3), count + 3, 2), *keys, b"\x10\x00"], 2)


def one_dictionary_often(size):
    """Returns objects that are all the same dictionary, whose keys and values are
    all the same string."""
    count = size // 10
    one = dictionary([count] * count, count, 3)
    return file(one + b"Qa", [8] * count + [8 + len(one)], 3)


def one_string_often(size):
    """Returns an array with many references to one long string."""
    return joined([array([1] * (size // 2), 1), ascii_string(size // 2)], 1)


def at_one_place(count, text):
    """Returns an array of strings that all begin at one offset, so that they are the same bytes."""
    first = array(range(1, count + 1), 3)
    return file(first + text, [8] + [8 + len(first)] * count, 3)


def one_key(size):
    """Returns an array of dictionaries that all have the same long key."""
    count = size // 14
    one = dictionary([1], 2, 3)
    return joined([array(range(3, count + 3), 3), ascii_string(5000), b"Qx", *[one] * count], 3)


def dictionaries_of(lists, keys, size, value=b"Qx", unreached=()):
    """Returns an array of dictionaries of `size` bytes in total, whose keys are these lists of
    objects, in turn."""
    width, at = 3, len(keys) + 1
    each = [dictionary(one, at, width) for one in lists]
    made, total = [], 0
    while total < size:
        made.append(each[len(made) % len(each)])
        total += len(made[-1])
    first = array(range(at + 1, at + 1 + len(made)), width)
    return joined([first, *keys, value, *made, *unreached], width)


def reordered(count, names, size, unreached=()):
    """Returns dictionaries that all have the same `count` keys, of `names` bytes in total, each
    in another order."""
    chance = random.Random(count)
    keys = [wide_string(names // count // 2, place) for place in range(count)]
    # (each dictionary also takes an offset and a reference, of 7 bytes)
    size = (size - names) * count // (count + 1)
    lists = [chance.sample(range(1, count + 1), count) for _ in range(size // (6 * count) + 1)]
    return dictionaries_of(lists, keys, size, unreached=unreached)


def overlapping_unreached(size):
    """Returns `reordered` dictionaries, and 40 strings that overlap and that nothing refers to."""
    part = size * 3 // 4
    return reordered(16, part * 2 // 17, part, overlapping_strings(40, size // 4))


def lists_in_turn(size):
    """Returns dictionaries with two long lists of keys, in turn."""
    return lists_of(size // 240, size * 3 // 5)


def lists_of(count, size, value=b"Qx"):
    """Returns dictionaries of `size` bytes in total with two lists of `count` keys, in turn."""
    keys = [head(0x50, 40) + b"%040d" % place for place in range(2 * count)]
    chance = random.Random(0)
    lists = [chance.sample(range(1 + part, 1 + part + count), count) for part in (0, count)]
    return dictionaries_of(lists, keys, size, value)


def three_in_turn(size):
    """Returns dictionaries with three lists of long keys, in turn."""
    keys = [wide_string(size // 4 // 48, place) for place in range(48)]
    lists = [range(part + 16, part, -1) for part in (0, 16, 32)]
    return dictionaries_of(lists, keys, size * 15 // 32)


def overlapping_later(size):
    """Returns dictionaries with the same long keys in other orders, and then one whose
    keys all overlap."""
    count, width, often = 16, 3, 40
    first = often + 2
    value, keys = first + count, [wide_string(size // 8 // count, place) for place in range(count)]
    turned = lambda turn: [first + (place + turn) % count for place in range(count)]
    over = range(value + 1, value + 1 + size // 40)
    made = [dictionary(one, value, width) for one in [*map(turned, range(1, often + 1)), over]]
    last = overlapping_strings(len(over), size // 2)
    return joined([array(range(1, often + 2), width), *made, *keys, b"\x09", *last], width)


ASCII, WIDE = 0x50, 0x60


def alike_keys(size, forms, overlapping, count=16, length=1000, orders=None):
    """Returns an array of dictionaries with the same long keys, each in an order of its own, or in
    so many orders in turn. The keys are stored in these forms in turn, and leave what they begin
    with each a little later than the one before. A dictionary of so many keys that overlap comes
    first, if there are any."""
    width, chance = 3, random.Random(16)
    keys = []
    for place in range(count):
        form, units = forms[place % len(forms)], b"a" * (length - 20 * (count - place)) + b"b"
        keys.append(head(form, length) + numbers(units.ljust(length, b"a"), 1 + (form == WIDE)))
    over = overlapping_strings(overlapping, size // 50) if overlapping else []
    made = (size - len(b"".join([*keys, *over]))) // (2 * width * count + 10)
    at = made + 2 + bool(over)
    lists = [range(at + count, at + count + overlapping)] * bool(over)
    turns = [chance.sample(range(at, at + count), count) for _ in range(orders or made)]
    lists += [turns[place % len(turns)] for place in range(made)]
    tables = [dictionary(one, at - 1, width) for one in lists]
    return joined([array(range(1, at - 1), width), *tables, b"Qx", *keys, *over], width)


def nested_arrays(fans, item):
    """Returns arrays in one another, each with so many references to the next, and the last with
    references to the item."""
    return joined([*(array([place] * fan, 1) for place, fan in enumerate(fans, 1)), item], 1)


def agreeing_keys(size):
    """Returns an array of dictionaries of the same 256 long UTF-16 keys, each in another order. The keys overlap: their
    heads stand every 64 bytes in what all of them repeat, so that two agree up to the last head."""
    count, length, step, width = 256, 8192, 64, 2
    chance, made = random.Random(count), size // 12_500
    one = head(0x60, length)
    region = (one + b"\x4e\x00" * ((step - len(one)) // 2)) * count + b"\x4e\x00" * length
    lists = (chance.sample(range(1, count + 1), count) for _ in range(made))
    tables = [dictionary(one, count + 1, width) for one in lists]
    objects = [array(range(count + 2, count + 2 + made), width), region, b"Qx", *tables]
    starts = [8]
    for written in objects:
        starts.append(starts[-1] + len(written))
    places = [starts[0], *range(starts[1], starts[1] + step * count, step), *starts[2:-1]]
    # (the rest is no object)
    return file(b"".join(objects).ljust(size), places, width)


def late_dictionary(count, size, key, names):
    """Returns an array of an array and a dictionary. In the inner array are dictionaries of the
    same `count` keys, which `key` makes from a length and a place, in two orders in turn. The other
    dictionary has the keys `names`: 2 is a boolean, those from 3 on are the `count` keys, and the
    largest number is no object."""
    width, at, length = 3, 5, size * 2 // 17 // count
    lists = [range(count), range(count - 1, -1, -1)]
    made, total = [], count * length
    while total < size:
        made.append(dictionary([at + place for place in lists[len(made) % 2]], 3, width))
        total += len(made[-1]) + 7
    last = dictionary([4 if name == 2 else at + name - 3 for name in names], 3, width)
    inner = array(range(at + count, at + count + len(made)), width)
    keys = [key(length, place) for place in range(count)]
    return joined([array((1, 2), width), inner, last, b"Qx", b"\x09", *keys, *made], width)


def wide_key(length, place):
    return wide_string(length // 2, place)


def ascii_key(length, place):
    # (a value may have at most 2^30 bytes of strings, two for each unit)
    return ascii_string(length // 2, b"%03d" % place)


def one_dictionary(size, units_of):
    """Returns a dictionary whose keys are UTF-16 strings of these units, in no order, all
    of the same length."""
    length = len(units_of(0))
    count = size // (2 * length + 13)
    places = random.Random(length).sample(range(count), count)
    keys = [head(0x60, length) + numbers(units_of(place), 2) for place in places]
    return joined([dictionary(range(1, count + 1), count + 1, 3), *keys, b"Qx"], 3)


def tied(place, blocks):
    """Returns blocks of units, each with the same first unit or another by a bit of `place`, and
    the place itself."""
    units = []
    for at, block in enumerate(blocks):
        units += [block[0] + (place >> at & 1), *block[1:]]
    return units + [0x4E00 + place // 256, 0x4E00 + place % 256]


def one_narrow_key(size):
    """Returns ideographs as keys, and one key of ASCII."""
    last = lambda place: [0x4E00 + place // 256, 0x4E00 + place % 256]
    units = lambda place: [0x4E00 + place % 97] * 6 + last(place) if place else [0x61] * 8
    return one_dictionary(size, units)


def surrogate_keys(size):
    """Returns keys of characters above U+FFFF."""
    last = lambda place: [0xD840 + place // 1024, 0xDC00 + place % 1024]
    return one_dictionary(size, lambda place: [0xD83D, 0xDE00 + place % 64] * 3 + last(place))


def quotes(size):
    """Returns a string of quotes."""
    return joined([head(0x50, size) + b'"' * size], 1)


def unseen_units(size):
    """Returns a UTF-16 string whose units are printed as escapes."""
    return joined([head(0x60, size // 2) + b"\x20\x0e" * (size // 2)], 1)
