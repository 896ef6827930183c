"""The shared library, called as include/dwarnizza.h declares it."""

import ctypes
import operator
from mmap import mmap
from pathlib import Path
from typing import Any, Callable, List, Tuple, Union

from ._header import EXPORTS, RESULTS
from .refusal import Link, Refusal

# Objects whose bytes are in one piece of memory. Others of this kind are taken too.
Data = Union[bytes, bytearray, memoryview, mmap]

Key = ctypes.c_uint8 * 16
_Answer = ctypes.c_uint64 * 8

_NUMBERS = {
    "uint8_t": ctypes.c_uint8,
    "uint32_t": ctypes.c_uint32,
    "uint64_t": ctypes.c_uint64,
    "size_t": ctypes.c_size_t,
}


class _Buffer(ctypes.Structure):
    """Python's Py_buffer. ctypes itself lends no memory that is read-only, as that of an mmap."""

    _fields_ = [
        ("start", ctypes.c_void_p),
        ("object", ctypes.c_void_p),
        ("length", ctypes.c_ssize_t),
        ("item_size", ctypes.c_ssize_t),
        ("read_only", ctypes.c_int),
        ("dimensions", ctypes.c_int),
        ("format", ctypes.c_char_p),
        ("shape", ctypes.c_void_p),
        ("strides", ctypes.c_void_p),
        ("suboffsets", ctypes.c_void_p),
        ("internal", ctypes.c_void_p),
    ]

    def overlaps(self, other: "_Buffer") -> bool:
        """Whether a byte is in both."""
        start, other_start = self.start or 0, other.start or 0
        return start < other_start + other.length and other_start < start + self.length


# Prototypes of their own: the functions of ctypes.pythonapi are shared with other packages.
_get_buffer = ctypes.PYFUNCTYPE(
    ctypes.c_int, ctypes.py_object, ctypes.POINTER(_Buffer), ctypes.c_int
)(("PyObject_GetBuffer", ctypes.pythonapi))
_release_buffer = ctypes.PYFUNCTYPE(None, ctypes.POINTER(_Buffer))(
    ("PyBuffer_Release", ctypes.pythonapi)
)
_SIMPLE, _WRITABLE = 0, 1  # Python's PyBUF_SIMPLE and PyBUF_WRITABLE

# What turns an argument into those that C takes, and notes the memory that is lent to C.
_Converter = Callable[[Any, List[_Buffer]], Tuple[Any, ...]]


def frozen(data: Data) -> Data:
    """The same bytes, in one piece, where nothing writes to them: data that can be written to, and
    data in pieces, is copied."""
    if isinstance(data, bytes):
        return data
    view = memoryview(data)
    return data if view.readonly and view.c_contiguous else view.tobytes()


class File:
    """The bytes of a file, which stay as they are: data that can be written to is copied."""

    def __init__(self, data: Data) -> None:
        self._data = frozen(data)

    @property
    def data(self) -> Data:
        """The bytes of the file."""
        return self._data

    def _part(self, at: int, length: int) -> bytes:
        return memoryview(self._data).cast("B")[at : at + length].tobytes()


def _lend(data: Data, flags: int, lent: List[_Buffer]) -> _Buffer:
    buffer = _Buffer()
    _get_buffer(data, buffer, flags)
    lent.append(buffer)
    return buffer


def _release(lent: List[_Buffer]) -> None:
    for buffer in lent:
        _release_buffer(buffer)


def _input(data: Data, lent: List[_Buffer]) -> Tuple[Any, ...]:
    if isinstance(data, bytes):
        return data, len(data)
    buffer = _lend(data, _SIMPLE, lent)
    return buffer.start, buffer.length


def _output(output: Data, lent: List[_Buffer]) -> Tuple[Any, ...]:
    inputs = list(lent)
    try:
        buffer = _lend(output, _WRITABLE, lent)
    except BufferError:
        kind = type(output).__name__
        raise TypeError(f"a writable bytes-like object is required, not {kind!r}") from None
    if any(map(buffer.overlaps, inputs)):
        raise ValueError("the output overlaps an input")
    return buffer.start, buffer.length


def _as_it_is(value: Any, _lent: List[_Buffer]) -> Tuple[Any, ...]:
    return (value,)


def checked(name: str, bits: int, value: int) -> int:
    """The number, which has at most `bits` bits. What ctypes would cut to its bits is an error here."""
    number = operator.index(value)
    if not 0 <= number < 1 << bits:
        raise ValueError(f"{name} is {number}, which is not 0 to {(1 << bits) - 1}")
    return number


def _number(name: str, bits: int) -> _Converter:
    def number(value: int, _lent: List[_Buffer]) -> Tuple[Any, ...]:
        return (checked(name, bits, value),)

    return number


def _converter(name: str, c_type: str) -> _Converter:
    if c_type in _NUMBERS:
        return _number(name, 8 * ctypes.sizeof(_NUMBERS[c_type]))
    return {"const uint8_t *": _input, "uint8_t *": _output}.get(c_type, _as_it_is)


def _ctypes_type(c_type: str) -> Any:
    words = c_type.replace("const ", "").split(" ")
    of = _NUMBERS[words[0]]
    if words[1:] == []:
        return of
    if words[1:] == ["*"]:
        return ctypes.c_void_p if of is ctypes.c_uint8 else ctypes.POINTER(of)
    return of * int(words[1].strip("[]"))


class _Export:
    """A function of the library, and what turns arguments into those that it takes."""

    def __init__(self, library: ctypes.CDLL, name: str) -> None:
        parameters = EXPORTS[name]
        self.function = getattr(library, name)
        self.function.restype = ctypes.c_uint32
        self.function.argtypes = [_ctypes_type(c_type) for _, c_type in parameters]
        # A length goes with its pointer, and the answer, which is last, is none of the arguments.
        given = [one for one in parameters[:-1] if not one[0].endswith("_len")]
        self.converters = [_converter(*one) for one in given]

    def __call__(self, arguments: Tuple[Any, ...], answer: Any) -> int:
        lent: List[_Buffer] = []
        try:
            passed: List[Any] = []
            for convert, argument in zip(self.converters, arguments):
                passed.extend(convert(argument, lent))
            return self.function(*passed, answer)
        finally:
            _release(lent)


def _load() -> ctypes.CDLL:
    path = Path(__file__).with_name("dwarnizza.so")
    if not path.is_file():
        raise ImportError(f"there is no {path}: host/python/build.py makes the package")
    return ctypes.CDLL(str(path))


_library = _load()
_exports = {name: _Export(_library, name) for name in EXPORTS}


def call(name: str, *arguments: Any) -> Tuple[bool, List[int]]:
    """Calls an export with its arguments but for lengths and the answer.

    The result is whether it answered, rather than absent, and the words of the answer.
    """
    answer = _Answer()
    result = _exports["dwarnizza_" + name](arguments, answer)
    words = list(answer)
    if result == RESULTS["REFUSED"]:
        number, place, link = words[:3]
        raise Refusal(number, place, Link(link) if link else None)
    return result == RESULTS["ANSWERED"], words
