"""Encoding files: for each content key its encoding keys, and for each encoding key how it was
encoded. A file is given as it is taken out of its envelope."""

from typing import NamedTuple, Optional, Tuple

from ._library import Data, File, call, frozen


class ContentEntry(NamedTuple):
    """What a file says of a content key.

    >>> ContentEntry(size=7, encoding_keys=(b"\\xa1",)).size
    7
    """

    size: int  # the decoded size
    encoding_keys: Tuple[bytes, ...]  # one at least


class EncodingEntry(NamedTuple):
    """What a file says of an encoding key.

    >>> EncodingEntry(spec_number=1, size=9, spec=b"z").spec
    b'z'
    """

    spec_number: int
    size: int  # the encoded size
    spec: bytes  # how it was encoded


class _Encoding(File):
    """What can be asked of any encoding file."""

    def find_content(self, key: Data) -> Optional[ContentEntry]:
        """The entry of a content key; none where it is absent. Refused with 39 where the key has
        another length than the file's content keys."""
        found, words = call("encoding_find_content", self._data, frozen(key))
        if not found:
            return None
        size, count, at, length = words[:4]
        step = length // count
        keys = (self._part(start, step) for start in range(at, at + length, step))
        return ContentEntry(size, tuple(keys))

    def find_encoding(self, key: Data) -> Optional[EncodingEntry]:
        """The entry of an encoding key; none where it is absent. Refused with 39 where the key has
        another length than the file's encoding keys."""
        found, words = call("encoding_find_encoding", self._data, frozen(key))
        spec_number, size, at, length = words[:4]
        return EncodingEntry(spec_number, size, self._part(at, length)) if found else None

    def spec(self, number: int) -> bytes:
        """The spec with this number. Refused with 38 where the file has no such spec."""
        _, words = call("encoding_spec", self._data, number)
        return self._part(*words[:2])


class CheckedEncoding(_Encoding):
    """An encoding file that passed the full check, which is made where this is made.

    In it a lookup finds exactly the keys that stand there.

    >>> CheckedEncoding(b"no encoding file")
    Traceback (most recent call last):
    dwarnizza.refusal.Refusal: refused 30: encoding file under 22 bytes, or not EN
    """

    def __init__(self, data: Data) -> None:
        super().__init__(data)
        call("encoding_check", self._data)


class UncheckedEncoding(_Encoding):
    """Bytes of an encoding file that nobody checked. Each call is refused with 30 to 33 by itself,
    the search of a content key with 35 and of an encoding key with 38 too.

    A lookup may miss a key that stands in a damaged file: `Encoding.check` is for all but first
    looks.

    >>> UncheckedEncoding(b"no encoding file").spec(0)
    Traceback (most recent call last):
    dwarnizza.refusal.Refusal: refused 30: encoding file under 22 bytes, or not EN
    """


class Encoding:
    """The ways to an encoding file from its bytes.

    >>> from dwarnizza import md5
    >>> data = b"EN\\1\\1\\1\\0\\1\\0\\1\\0\\0\\0\\1\\0\\0\\0\\1\\0\\0\\0\\0\\4" + b"n\\0z\\0"
    >>> content_page = bytes([1, 0, 0, 0, 0, 7, 0x05, 0xa1]).ljust(1024, b"\\0")
    >>> data += b"\\x05" + md5(content_page) + content_page
    >>> encoding_page = bytes([0xa1, 0, 0, 0, 1, 0, 0, 0, 0, 9]).ljust(1024, b"\\0")
    >>> data += b"\\xa1" + md5(encoding_page) + encoding_page
    >>> encoding = Encoding.check(data)
    >>> encoding.find_content(b"\\x05")
    ContentEntry(size=7, encoding_keys=(b'\\xa1',))
    >>> encoding.find_encoding(b"\\xa1")
    EncodingEntry(spec_number=1, size=9, spec=b'z')
    >>> encoding.spec(0)
    b'n'
    """

    @staticmethod
    def check(data: Data) -> CheckedEncoding:
        """Makes the full check. Refused with 30 to 33, then page by page with 34 to 38."""
        return CheckedEncoding(data)

    @staticmethod
    def unchecked(data: Data) -> UncheckedEncoding:
        """Takes bytes that nobody checked."""
        return UncheckedEncoding(data)
