"""Property lists in their canonical form, by the C library libplistconv.

The functions take bytes, bytearrays and memoryviews. If the input is refused they raise
`Refused`, a `ValueError`, with the refusal and the place in the input; if there is no memory left
they raise `MemoryError`.

    >>> import plistconv
    >>> plistconv.same(b"{ a = (x, y); }", b'"a" = (x, "y",);')
    True
    >>> print(plistconv.printed(b"{ a = (x, y); }"), end="")
    {
      "a" => [
        "x"
        "y"
      ]
    }
    >>> try:
    ...     plistconv.canonical(b"{ a = b; a = c; }")
    ... except plistconv.Refused as refused:
    ...     print(refused.refusal.name, refused.place, refused)
    DUPLICATE_KEY 9 14 DuplicateKey at octet 9

Scalars are hashed under a random key, one for the process, so nobody can pick input that is slow
because its scalars collide. `key` is another key of 16 bytes; 16 zeros are a fixed seed, which is
faster. No answer depends on the key.

The functions may be called from any thread. The library needs up to 1 MiB of stack; in a thread
with less, a call runs in a thread of its own. A stack that is nearly used up, as by deep recursion
in C, is not noticed.

The library is the file that the environment variable PLISTCONV_LIBRARY names, else
libplistconv.so.1 of the system. If there is none, or it is older than the module, importing it
raises `ImportError`.
"""
from __future__ import annotations

import ctypes
import dataclasses
import enum
import os
import threading
from typing import Any, Callable, List, Optional, Tuple, Union

__all__ = [
    "Refusal",
    "Refused",
    "Finding",
    "canonical",
    "same",
    "lint",
    "check",
    "text",
    "printed",
    "library_version",
]
__version__ = "0.3.0"

Octets = Union[bytes, bytearray, memoryview]

_UNITS = (None, "object", "octet", "sent")
_LEAST_STACK = 1 << 20


class Refusal(enum.IntEnum):
    """The refusals by number. docs/FORMATS.md says when each is answered, and which place
    it names. Of the last ones, 50 and 51 are answered by the program only, and 60 is raised
    as `MemoryError`."""

    TOO_SHORT = 1
    BAD_HEADER = 2
    BAD_TRAILER = 3
    BAD_OFFSET = 4
    BAD_REFERENCE = 5
    CUT_OBJECT = 6
    BAD_MARKER = 7
    NULL_OBJECT = 8
    UID_OBJECT = 9
    SET_OBJECT = 10
    NOT_ASCII = 11
    WIDE_INTEGER = 12
    KEY_NOT_TEXT = 13
    DUPLICATE_KEY = 14
    CYCLE = 15
    TOO_DEEP = 16
    TOO_MANY_NODES = 17
    TOO_MUCH_PAYLOAD = 18
    BAD_UTF8 = 20
    XML_FORM = 21
    UNEXPECTED_CHARACTER = 23
    UNCLOSED_STRING = 24
    UNCLOSED_COMMENT = 25
    BAD_ESCAPE = 26
    OCTAL_RANGE = 27
    ODD_DATA = 28
    BAD_DATA = 29
    EXPECTED = 30
    JUNK = 31
    BAD_UTF16 = 32
    NOT_IN_OPEN_STEP = 40
    READ_FAILED = 50
    WRITE_FAILED = 51
    INPUT_TOO_LARGE = 52
    OUT_OF_MEMORY = 60


class _Refusal(ctypes.Structure):
    _fields_ = [
        ("place", ctypes.c_uint64),
        ("number", ctypes.c_uint8),
        ("unit", ctypes.c_uint8),
        ("input", ctypes.c_uint8),
    ]


class _Finding(ctypes.Structure):
    _fields_ = [
        ("object", ctypes.c_uint64),
        ("canonical", ctypes.c_uint8),
        ("rule", ctypes.c_uint8),
    ]


class Refused(ValueError):
    """The input is refused: `refusal` says why, and `number` is its number. `place` is where, or
    None if the refusal has no place; `unit` says what it counts: 'octet' (a byte offset in a text)
    or 'object' (the number of an object of a binary file). `input` is 1, or 2 if the second
    argument of `same` is refused."""

    number: int
    unit: Optional[str]
    place: Optional[int]
    input: int

    def __init__(
        self, number: int, unit: Optional[str] = None, place: Optional[int] = None, input: int = 1
    ) -> None:
        self.number, self.unit, self.place, self.input = number, unit, place, input
        super().__init__(number, unit, place, input)

    @property
    def refusal(self) -> Refusal:
        """Why. Raises `ValueError` if no refusal has the number, which the functions of this
        module never raise."""
        return Refusal(self.number)

    def __str__(self) -> str:
        try:
            return self.line(b"")[len(": refused ") :].decode("ascii")
        except ValueError:  # (no call answers such a refusal)
            return f"refused {self.number}"

    def line(self, path: Union[str, bytes, "os.PathLike[str]"]) -> bytes:
        """Returns the line that the program prints if the file `path` is refused so,
        without a newline."""
        path = os.fsencode(path)
        refusal = _Refusal(self.place or 0, self.number, _UNITS.index(self.unit), self.input)
        return _filled(_library.plistconv_line, 64, path, len(path), ctypes.byref(refusal))


@dataclasses.dataclass(frozen=True)
class Finding:
    """What `check` finds, which is true if and only if the file is canonical. If it is not,
    `rule` is the number of a rule that is broken (0 to 7), and `object` the number of the
    object at which it is."""

    canonical: bool
    rule: Optional[int] = None
    object: Optional[int] = None

    def __bool__(self) -> bool:
        return self.canonical


def _version_of(library: Any) -> str:
    """Returns the version of a library, such as 0.3.0."""
    library.plistconv_version.argtypes = []
    library.plistconv_version.restype = ctypes.c_uint32
    number = library.plistconv_version()
    return f"{number // 10_000}.{number // 100 % 100}.{number % 100}"


def _numbers(version: str) -> List[int]:
    """Returns the numbers of a version, which are in its order."""
    return [int(number) for number in version.split(".")]


def _load() -> Any:
    """Returns the library. Raises `ImportError` if there is none, or one without the
    functions of this version."""
    name = os.environ.get("PLISTCONV_LIBRARY", "libplistconv.so.1")
    way_out = "Install it, or set the environment variable PLISTCONV_LIBRARY to the path of libplistconv.so"
    try:
        library = ctypes.CDLL(name)
    except OSError as fault:
        raise ImportError(
            f"plistconv needs the C library libplistconv: {fault}. {way_out}"
        ) from fault
    try:
        version = _version_of(library)
    except AttributeError as fault:
        raise ImportError(f"{name} is no library libplistconv: {fault}. {way_out}") from fault
    wanted = f"plistconv {__version__} needs libplistconv {__version__} or later. {way_out}"
    if _numbers(version) < _numbers(__version__):
        raise ImportError(f"{name} has version {version}, which is too old: {wanted}")
    try:
        return _with_types(library)
    except AttributeError as fault:
        raise ImportError(f"{name}, version {version}, is incomplete: {fault}. {wanted}") from fault


def _with_types(library: Any) -> Any:
    """Returns the library with the types of its functions. Raises `AttributeError` if it does not
    have one of them."""
    octets, size, key, refusal = (
        ctypes.c_char_p,
        ctypes.c_size_t,
        ctypes.c_char_p,
        ctypes.POINTER(_Refusal),
    )
    into = [ctypes.c_void_p, size, ctypes.POINTER(size)]
    for name, arguments in {
        "plistconv_canonical": [octets, size, key, *into, refusal],
        "plistconv_text": [octets, size, *into, refusal],
        "plistconv_print": [octets, size, *into, refusal],
        "plistconv_same": [
            octets,
            size,
            octets,
            size,
            key,
            ctypes.POINTER(ctypes.c_uint8),
            refusal,
        ],
        "plistconv_lint": [octets, size, refusal],
        "plistconv_check": [octets, size, key, ctypes.POINTER(_Finding), refusal],
        "plistconv_line": [octets, size, refusal, *into],
    }.items():
        function = getattr(library, name)
        function.argtypes = arguments
        function.restype = ctypes.c_uint8
    return library


_library = _load()
_key = os.urandom(16)
_here = threading.local()  # (whether this thread has enough stack)


def _size_of_stack() -> Optional[int]:
    """Returns the size of the stack of the current thread, or None if the system does not say."""
    system = ctypes.CDLL(None)
    try:
        attributes, start, size = (ctypes.c_uint64 * 32)(), ctypes.c_void_p(), ctypes.c_size_t()
        system.pthread_self.restype = ctypes.c_void_p
        if hasattr(system, "pthread_get_stacksize_np"):  # (macOS)
            system.pthread_get_stacksize_np.restype = ctypes.c_size_t
            return int(system.pthread_get_stacksize_np(ctypes.c_void_p(system.pthread_self())))
        if system.pthread_getattr_np(ctypes.c_void_p(system.pthread_self()), attributes) != 0:
            return None
        failed = system.pthread_attr_getstack(attributes, ctypes.byref(start), ctypes.byref(size))
        system.pthread_attr_destroy(attributes)
        return None if failed else size.value
    except AttributeError:
        return None


def _call_with_stack(call: Callable[[], None]) -> None:
    """Runs `call` in a new thread with a large stack. It is not one of `threading`, whose size of
    stacks is a setting of the whole process."""
    system, attributes, thread = ctypes.CDLL(None), (ctypes.c_uint64 * 32)(), ctypes.c_void_p()
    begin = ctypes.CFUNCTYPE(ctypes.c_void_p, ctypes.c_void_p)(lambda _: call())
    failed = system.pthread_attr_init(attributes)
    if not failed:
        failed = system.pthread_attr_setstacksize(
            attributes, ctypes.c_size_t(2 * _LEAST_STACK)
        ) or system.pthread_create(ctypes.byref(thread), attributes, begin, None)
        system.pthread_attr_destroy(attributes)
    if failed:
        raise MemoryError("no thread for a call that needs more stack")
    system.pthread_join(thread, None)


def _call(function: Any, *given: Any) -> int:
    """Calls the library, in a thread of its own if the stack of the current one is too small."""
    if not hasattr(_here, "has_stack"):
        size = _size_of_stack()
        _here.has_stack = size is None or size >= _LEAST_STACK
    if _here.has_stack:
        return int(function(*given))
    answers: List[int] = []
    _call_with_stack(lambda: answers.append(function(*given)))
    return answers[0]


def _octets(given: Octets) -> bytes:
    """Returns the bytes of a buffer. Anything else is a TypeError, also an integer, which
    bytes() would accept."""
    return given if isinstance(given, bytes) else bytes(memoryview(given))


def _key_of(given: Optional[Octets]) -> bytes:
    """Returns the key as bytes, or that of the process if none is given."""
    key = _key if given is None else _octets(given)
    if len(key) != 16:
        raise ValueError(f"a key is 16 bytes, not {len(key)}")
    return key


def _refused(refusal: _Refusal) -> Refused:
    """Returns a refusal of the library. A lack of memory is raised."""
    if refusal.number == Refusal.OUT_OF_MEMORY:
        raise MemoryError("60 OutOfMemory")
    unit = _UNITS[refusal.unit]
    return Refused(refusal.number, unit, None if unit is None else refusal.place, refusal.input)


def _filled(function: Any, room: int, *given: Any, refusal: Optional[_Refusal] = None) -> bytes:
    """Returns what a function writes to a buffer, which is made anew if it asks for more room."""
    length = ctypes.c_size_t(0)
    last = () if refusal is None else (ctypes.byref(refusal),)
    while True:
        into = (ctypes.c_uint8 * room)()
        number = _call(function, *given, into, room, ctypes.byref(length), *last)
        if number == Refusal.OUT_OF_MEMORY:
            raise MemoryError("60 OutOfMemory")
        if number != 0:
            if refusal is None:
                raise ValueError("no call answers such a refusal")
            raise _refused(refusal)
        if length.value <= room:
            return bytes(memoryview(into)[: length.value])
        room = length.value


def _converted(function: Any, octets: Octets, *key: bytes) -> bytes:
    octets = _octets(octets)
    return _filled(function, len(octets) + 64, octets, len(octets), *key, refusal=_Refusal())


def _answered(function: Any, given: Tuple[Any, ...], answer: Any) -> Any:
    """Returns `answer`, to which a function writes."""
    refusal = _Refusal()
    if _call(function, *given, ctypes.byref(answer), ctypes.byref(refusal)) != 0:
        raise _refused(refusal)
    return answer


def canonical(octets: Octets, key: Optional[Octets] = None) -> bytes:
    """Returns the canonical file: the binary property list that is the same for all inputs
    with the same value."""
    return _converted(_library.plistconv_canonical, octets, _key_of(key))


def text(octets: Octets) -> bytes:
    """Returns the OpenStep text of a property list. That has no numbers, booleans or dates, so a
    property list with one is refused (`Refusal.NOT_IN_OPEN_STEP`)."""
    return _converted(_library.plistconv_text, octets)


def printed(octets: Octets) -> str:
    """Returns a property list as text for people. Two print the same if and only
    if they are equal."""
    return _converted(_library.plistconv_print, octets).decode("utf-8")


def same(first: Octets, second: Octets, key: Optional[Octets] = None) -> bool:
    """Returns whether two property lists are equal."""
    first, second = _octets(first), _octets(second)
    given = first, len(first), second, len(second), _key_of(key)
    return bool(_answered(_library.plistconv_same, given, ctypes.c_uint8(0)).value)


def lint(octets: Octets) -> None:
    """Returns if a property list is accepted, and raises `Refused` if it is not."""
    octets, refusal = _octets(octets), _Refusal()
    if _call(_library.plistconv_lint, octets, len(octets), ctypes.byref(refusal)) != 0:
        raise _refused(refusal)


def check(octets: Octets, key: Optional[Octets] = None) -> Finding:
    """Checks whether a binary property list is already canonical. Other input is
    refused (1 to 3)."""
    octets = _octets(octets)
    found = _answered(_library.plistconv_check, (octets, len(octets), _key_of(key)), _Finding())
    return Finding(True) if found.canonical else Finding(False, found.rule, found.object)


def library_version() -> str:
    """Returns the version of the library that is loaded; that of this module is `__version__`."""
    return _version_of(_library)
