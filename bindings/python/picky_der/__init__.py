"""Checks, lists and writes DER by a library that is proved.

``check("certificate", data)`` returns if the bytes are exactly one message of a type, in DER throughout, and raises `DecodeError` if they
aren't. ``elements(data)`` goes over elements, and ``encode(tag, content)`` writes one. ``to_json("certificate", data)`` is a message in JSON,
and ``from_json("certificate", text)`` the message with this JSON. ``from_ber("cms", data)`` is the DER of a message in BER.

Data is any object with the buffer protocol. What can change is copied first, so that other threads can run during a call.
"""
import ctypes
import os
import threading
from ctypes import POINTER, byref, c_bool, c_char_p, c_size_t, c_uint8, c_uint32
from typing import Any, Callable, Iterable, Iterator, NamedTuple, Optional, Tuple, Type, Union

from . import _tables
from ._tables import RULES, TEXTS, TYPES

__all__ = ["DecodeError", "Element", "TYPES", "Writer", "check", "elements", "encode", "encode_set", "from_ber", "from_json", "front", "is_der", "to_json"]

Data = Union[bytes, bytearray, memoryview]

_SHORTEST_ENDS = 32
_SET = 0x31


class _Element(ctypes.Structure):
    _fields_ = [
        ("offset", c_size_t),
        ("header_len", c_size_t),
        ("content_len", c_size_t),
        ("depth", c_size_t),
        ("tag", c_uint8),
        ("tag_class", c_uint8),
        ("tag_number", c_uint8),
        ("is_constructed", c_bool),
    ]


class _Place(ctypes.Structure):
    _fields_ = [("offset", c_size_t), ("depth", c_size_t)]


def _load() -> ctypes.CDLL:
    """The library: the file that PICKY_DER_LIBRARY names, or the one beside this module, or the system's."""
    beside = os.path.join(os.path.dirname(os.path.abspath(__file__)), "libpicky_der.so")
    path = os.environ.get("PICKY_DER_LIBRARY") or (beside if os.path.exists(beside) else "libpicky_der.so.1")
    library = ctypes.CDLL(path)
    sizes = POINTER(c_size_t)
    library.picky_der_check.argtypes = [c_uint32, c_char_p, c_size_t, sizes]
    library.picky_der_path.argtypes = [c_uint32, c_char_p, c_size_t, POINTER(c_uint8), c_size_t, sizes]
    library.picky_der_to_json.argtypes = [c_uint32, c_char_p, c_size_t, sizes, POINTER(c_uint8), c_size_t, sizes]
    library.picky_der_from_json.argtypes = [c_uint32, c_char_p, c_size_t, POINTER(c_uint8), c_size_t, sizes]
    library.picky_der_from_ber.argtypes = [c_uint32, c_char_p, c_size_t, POINTER(c_uint8), c_size_t, sizes]
    library.picky_der_front.argtypes = [c_char_p, c_size_t, POINTER(_Element)]
    library.picky_der_elements.argtypes = [c_char_p, c_size_t, POINTER(_Element), c_size_t, sizes, sizes]
    library.picky_der_next.argtypes = [c_char_p, c_size_t, POINTER(_Place), sizes, c_size_t, POINTER(_Element)]
    library.picky_der_put.argtypes = [POINTER(c_uint8), c_size_t, sizes, c_uint8, c_char_p, c_size_t]
    library.picky_der_wrap.argtypes = [POINTER(c_uint8), c_size_t, sizes, c_size_t, c_uint8]
    library.picky_der_sort.argtypes = [POINTER(c_uint8), c_size_t, c_size_t, c_size_t]
    for name in ("check", "path", "to_json", "from_json", "from_ber", "front", "elements", "next", "put", "wrap", "sort"):
        getattr(library, f"picky_der_{name}").restype = c_uint32
    return library


_library = _load()


class DecodeError(ValueError):
    """The bytes aren't what they were checked for."""

    #: The index of the byte, or of the element, where this was found.
    position: int
    #: The code of the library.
    code: int
    #: The rule of X.690 that is broken, as ``long_length``, or None if the bytes are in DER.
    rule: Optional[str]
    #: Its clause, as ``10.1``.
    clause: Optional[str]
    #: The path of the element, as ``tbsCertificate.extensions[3].extnID``, or by numbers, as ``0.2.1``. It is empty for the outermost one.
    path: str

    def __init__(self, code: int, position: int, rule: int = 0, path: str = "") -> None:
        self.code, self.position, self.path = code, position, path
        broken = RULES.get(code) or RULES.get(rule)
        self.rule, words, self.clause = broken or (None, TEXTS.get(code, f"code {code}"), None)
        place = f"at {position}, {path}" if path else f"at {position}"
        super().__init__(f"{place}: {words}" + (f" (X.690, {self.clause})" if broken else ""))
        self._given = code, position, rule, path

    def __reduce__(self) -> Tuple[Type["DecodeError"], Tuple[int, int, int, str]]:
        return type(self), self._given


class Element(NamedTuple):
    """An element, by its place in the bytes."""

    #: The index of its first byte.
    offset: int
    #: How many bytes its tag and its length take.
    header_len: int
    #: How many elements are around it.
    depth: int
    #: Its first byte.
    tag: int
    #: The class of its tag: 0 universal, 1 application, 2 context-specific, 3 private.
    tag_class: int
    #: The number of its tag.
    tag_number: int
    #: Whether its content is made of elements.
    is_constructed: bool
    #: Its content, a part of the bytes.
    content: memoryview


def _bytes(data: Data) -> bytes:
    # bytes(5) would be five zeros, and a class derived from bytes may have another length than its bytes
    return data if type(data) is bytes else bytes(memoryview(data))


def _element(view: memoryview, found: _Element) -> Element:
    start = found.offset + found.header_len
    content = view[start : start + found.content_len]
    return Element(
        found.offset, found.header_len, found.depth, found.tag, found.tag_class, found.tag_number, found.is_constructed, content
    )


def _rule_of(der: bytes) -> int:
    """The code of the first rule that the elements of the bytes break, or 0."""
    count, position = c_size_t(), c_size_t()
    code: int = _library.picky_der_elements(der, len(der), byref(_Element()), 0, byref(count), byref(position))
    return code


def _written(call: Callable[..., Any], room: int) -> Tuple[int, bytes]:
    """What a call returns and appends to nothing, with this room, and if that is too small, with what the first call counted."""
    while True:
        out, used = (c_uint8 * room)(), c_size_t()
        code: int = call(out, byref(used))
        if code != _tables.NO_ROOM:
            return code, bytes(memoryview(out)[: used.value])
        room = used.value


def _path_of(number: int, der: bytes) -> str:
    """The path of the element for which a check refuses the bytes, or an empty text if memory runs out."""
    code, path = _written(lambda out, used: _library.picky_der_path(number, der, len(der), out, len(out), used), 128)
    return path.decode() if code == _tables.OK else ""


def check(name: str, data: Data) -> None:
    """Returns if the bytes are exactly one message of the type, and each element in them is in DER.

    The type is a word of `der read`, as ``certificate``, or the name of the type, as ``Certificate``; TYPES has all words. It raises
    DecodeError if the bytes aren't such a message, MemoryError if memory ran out, and KeyError if no type has the name.
    """
    number = TYPES.get(name) or _tables.NAMES[name]
    der, position = _bytes(data), c_size_t()
    code = _library.picky_der_check(number, der, len(der), byref(position))
    if code == _tables.NO_MEMORY:
        raise MemoryError
    if code != _tables.OK:
        raise DecodeError(code, position.value, _rule_of(der), _path_of(number, der))


def to_json(name: str, data: Data) -> str:
    """Returns the JSON of a message (X.697) on one line.

    It raises what `check` raises, and KeyError also for ``krb``, which has no table. It raises DecodeError with the code UNSUPPORTED if a number in
    the message has too many digits.
    """
    number = TYPES.get(name) or _tables.NAMES[name]
    der, position = _bytes(data), c_size_t()
    code, text = _written(
        lambda out, used: _library.picky_der_to_json(number, der, len(der), byref(position), out, len(out), used), 4 * len(der) + 256
    )
    if code == _tables.NO_MEMORY:
        raise MemoryError
    if code == _tables.NO_TABLE:
        raise KeyError(name)
    if code != _tables.OK:
        raise DecodeError(code, position.value, _rule_of(der), _path_of(number, der))
    return text.decode()


def from_json(name: str, json: Union[str, Data]) -> bytes:
    """Returns the DER of the message with this JSON, as `to_json` returns it. `check` accepts it.

    It raises ValueError, with what is wrong and where, if the text isn't JSON of a message of the type, MemoryError if memory ran out, and
    KeyError if no type has the name, or the type has no table.
    """
    return _message_of(_library.picky_der_from_json, name, json.encode() if isinstance(json, str) else _bytes(json))


def from_ber(name: str, data: Data) -> bytes:
    """Returns the DER of the message that these bytes are in BER (X.690, 8). `check` accepts it.

    It is made by a table of the type, as `to_json` has one, and the content of ``cms`` by its own type, if that has a table. It raises
    ValueError, with what is wrong and where, if the bytes aren't BER of a message of the type, MemoryError if memory ran out, and KeyError if
    no type has the name, or the type has no table.
    """
    return _message_of(_library.picky_der_from_ber, name, _bytes(data))


def _message_of(function: Callable[..., int], name: str, given: bytes) -> bytes:
    """The message that a function of the library makes of what is given."""
    number = TYPES.get(name) or _tables.NAMES[name]
    code, der = _written(lambda out, used: function(number, given, len(given), out, len(out), used), len(given) + 256)
    if code == _tables.NO_MEMORY:
        raise MemoryError
    if code == _tables.NO_TABLE:
        raise KeyError(name)
    if code != _tables.OK:
        raise ValueError(der.decode() or TEXTS.get(code, f"code {code}"))
    return der


def is_der(data: Data) -> bool:
    """Returns whether the bytes are elements in DER and nothing else. It raises MemoryError if memory ran out."""
    code = _rule_of(_bytes(data))
    if code == _tables.NO_MEMORY:
        raise MemoryError
    return code == _tables.OK


def front(data: Data) -> Element:
    """Returns the element at the front of the bytes. Others may follow it, and the elements in it aren't looked at.

    It raises DecodeError with the rule that this element breaks.
    """
    der, found = _bytes(data), _Element()
    code = _library.picky_der_front(der, len(der), byref(found))
    if code != _tables.OK:
        raise DecodeError(code, 0)
    return _element(memoryview(der), found)


def elements(data: Data) -> Iterator[Element]:
    """Goes over the elements of the bytes, at any depth and each before those in it.

    It raises DecodeError at the first element that breaks a rule. If it comes to its end, the bytes are in DER.
    """
    der = _bytes(data)
    view, place, found, room = memoryview(der), _Place(), _Element(), _SHORTEST_ENDS
    ends = (c_size_t * room)()
    while True:
        code = _library.picky_der_next(der, len(der), byref(place), ends, room, byref(found))
        if code == _tables.OK:
            yield _element(view, found)
        elif code == _tables.NO_ROOM:
            room *= 2
            ends = (c_size_t * room)(*ends)
        elif code == _tables.END:
            return
        else:
            raise DecodeError(code, place.offset)


class Writer:
    """Writes elements one after another. Elements that are written within ``with writer.within(tag):`` are the content of one with this tag."""

    def __init__(self) -> None:
        self._out = (c_uint8 * 256)()
        self._used = 0
        # threads run during a call, and two calls may not write to one buffer
        self._lock = threading.Lock()

    def put(self, tag: int, content: Data = b"") -> "Writer":
        """Appends an element with this tag, a byte, and this content."""
        der = _bytes(content)
        self._call(lambda out, used: _library.picky_der_put(out, len(out), used, _byte(tag), der, len(der)))
        return self

    def within(self, tag: int) -> "_Within":
        """What is written in this block is the content of an element with this tag."""
        return _Within(self, _byte(tag))

    def set_of(self) -> "_Within":
        """What is written in this block are the members of a SET OF, which are put in the order of X.690, 11.6."""
        return _Within(self, _SET, sorts=True)

    def bytes(self) -> bytes:
        """What was written."""
        with self._lock:
            return bytes(memoryview(self._out)[: self._used])

    def _wrap(self, start: int, tag: int) -> None:
        self._call(lambda out, used: _library.picky_der_wrap(out, len(out), used, start, tag))

    def _sort(self, start: int) -> None:
        self._call(lambda out, used: _library.picky_der_sort(out, len(out), self._used, start))

    def _call(self, call: Callable[..., Any]) -> None:
        """Calls with the room that there is, and if that is too small, with what the first call counted at least."""
        with self._lock:
            used = c_size_t(self._used)
            code: int = call(self._out, byref(used))
            if code == _tables.NO_ROOM:
                larger = (c_uint8 * max(used.value, 2 * len(self._out)))()
                ctypes.memmove(larger, self._out, self._used)
                self._out, used.value = larger, self._used
                code = call(self._out, byref(used))
            if code == _tables.NO_MEMORY:
                raise MemoryError
            if code != _tables.OK:
                raise DecodeError(code, self._used)
            self._used = used.value


class _Within:
    def __init__(self, writer: Writer, tag: int, sorts: bool = False) -> None:
        self._writer, self._tag, self._sorts, self._start = writer, tag, sorts, 0

    def __enter__(self) -> Writer:
        self._start = self._writer._used
        return self._writer

    def __exit__(self, kind: object, value: object, trace: object) -> None:
        if kind is None and self._sorts:
            self._writer._sort(self._start)
        if kind is None:
            self._writer._wrap(self._start, self._tag)


def _byte(tag: int) -> int:
    if not 0 <= tag <= 255:
        raise ValueError("a tag is one byte")
    return tag


def encode(tag: int, *contents: Data) -> bytes:
    """Returns an element with this tag, whose content is these bytes one after another.

    It raises DecodeError for the tag of a SET, 0x31, if the members are in neither of the orders of a SET; `encode_set` sorts them.
    """
    content = b"".join(map(_bytes, contents))
    writer = Writer()
    if tag != _SET:
        return writer.put(tag, content).bytes()
    with writer.within(tag):
        _put_all(writer, content)
    return writer.bytes()


def encode_set(members: Iterable[Data]) -> bytes:
    """Returns a SET OF with these members, encodings that are put in the order of X.690, 11.6."""
    writer = Writer()
    with writer.set_of():
        _put_all(writer, b"".join(map(_bytes, members)))
    return writer.bytes()


def _put_all(writer: Writer, content: bytes) -> None:
    """Writes the outermost elements of the content."""
    for it in elements(content):
        if it.depth == 0:
            writer.put(it.tag, it.content)
