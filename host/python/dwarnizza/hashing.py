"""MD5 (RFC 1321), of at most 2^48 bytes."""

import ctypes
from threading import Lock

from ._library import Data, Key, call


def md5(data: Data) -> bytes:
    """The MD5 of data.

    >>> md5(b"abc").hex()
    '900150983cd24fb0d6963f7d28e17f72'
    """
    digest = Key()
    call("md5", data, digest)
    return bytes(digest)


class Md5:
    """The MD5 of data that comes in parts. Any cutting gives the digest of the whole.

    >>> state = Md5()
    >>> state.update(b"a")
    >>> state.update(b"bc")
    >>> state.digest() == md5(b"abc")
    True
    """

    def __init__(self) -> None:
        self._words = (ctypes.c_uint32 * 4)()
        self._pending = (ctypes.c_uint8 * 64)()
        self._count = ctypes.c_uint64()
        self._lock = Lock()
        call("md5_start", self._words, self._pending, self._count)

    def update(self, part: Data) -> None:
        """Takes one more part. Refused with 50 above 2^48 bytes in all; the state is then as it
        was."""
        with self._lock:
            call("md5_update", part, self._words, self._pending, self._count)

    def digest(self) -> bytes:
        """The digest of the parts so far. Further parts may follow."""
        digest = Key()
        with self._lock:
            call("md5_finish", self._words, self._pending, self._count.value, digest)
        return bytes(digest)

    def copy(self) -> "Md5":
        """A state of its own with the same parts so far.

        >>> state = Md5()
        >>> state.update(b"a")
        >>> other = state.copy()
        >>> other.update(b"bc")
        >>> (state.digest() == md5(b"a"), other.digest() == md5(b"abc"))
        (True, True)
        """
        other = Md5()
        with self._lock:
            other._words[:] = self._words[:]
            other._pending[:] = self._pending[:]
            other._count.value = self._count.value
        return other
