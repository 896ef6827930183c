"""Root files: for each file number (FileDataID) its content keys, and for paths both. A file is
given as it is taken out of its envelope."""

import struct
from typing import Iterable, List, NamedTuple, Optional, Union

from ._library import Data, File, Key, call, checked
from .name_hash import path_bytes

ALL_LOCALES = 0xFFFFFFFF

# What the library writes for each of many ids: whether it is found, and its content key.
_FOUND = struct.Struct(">?3x16s")


class Record(NamedTuple):
    """What a file says of a file number.

    >>> Record(key=bytes(16), place=16).place
    16
    """

    key: bytes  # the content key
    place: int  # where it stands in the file


class PathRecord(NamedTuple):
    """What a file says of a path.

    >>> PathRecord(file_number=417, key=bytes(16), place=16).file_number
    417
    """

    file_number: int
    key: bytes  # the content key
    place: int  # where it stands in the file


class CheckedRoot(File):
    """A root file that passed the full check, which is made where this is made.

    >>> CheckedRoot(b"TSFM")
    Traceback (most recent call last):
    dwarnizza.refusal.Refusal: refused 43: root header cut
    """

    def __init__(self, data: Data) -> None:
        super().__init__(data)
        call("root_check", self._data)

    def find(
        self, file_number: int, locale: int = ALL_LOCALES, unwanted: int = 0
    ) -> Optional[Record]:
        """The first record of a file number, in the order of the file, in the blocks whose locale
        flags share a bit with `locale` and whose content flags share none with `unwanted`."""
        key = Key()
        found, words = call("root_find", self._data, file_number, locale, unwanted, key)
        return Record(bytes(key), words[0]) if found else None

    def find_many(
        self, file_numbers: Iterable[int], locale: int = ALL_LOCALES, unwanted: int = 0
    ) -> List[Optional[bytes]]:
        """The content keys of many file numbers, each as `find` finds it, in one pass over the
        file; none for one that is absent. The numbers rise, and neighbours may be equal.

        Refused with 161 where a number is below the one before; the place is its number in the
        list."""
        ids = [checked("id", 32, number) for number in file_numbers]
        output = bytearray(_FOUND.size * len(ids))
        listed = struct.pack(f">{len(ids)}I", *ids)
        call("root_find_many", self._data, listed, locale, unwanted, output)
        return [key if found else None for found, key in _FOUND.iter_unpack(output)]

    def find_path(
        self, path: Union[str, Data], locale: int = ALL_LOCALES, unwanted: int = 0
    ) -> Optional[PathRecord]:
        """The first record, in the order of the file, whose name hash is that of the path
        (`name_hash`), in the blocks that have name hashes and that `find` looks into with these
        masks. A str is taken as its bytes in UTF-8. Refused with 110 above 1,024 bytes."""
        key = Key()
        found, words = call("root_find_path", self._data, path_bytes(path), locale, unwanted, key)
        return PathRecord(words[0], bytes(key), words[1]) if found else None


class Root:
    """The way to a root file from its bytes.

    >>> import struct
    >>> data = struct.pack("<4I", 1, 0, 2, 5) + b"\\x07" * 16 + bytes(8)  # the id 5 for enUS (2)
    >>> root = Root.check(data)
    >>> record = root.find(5)
    >>> record.key == b"\\x07" * 16, record.place
    (True, 16)
    >>> root.find(5, locale=0x20) is None
    True
    >>> root.find_many([4, 5]) == [None, record.key]
    True
    >>> root.find_path("Sound/Horn.ogg") is None  # the record has a name hash of zeros
    True
    """

    @staticmethod
    def check(data: Data) -> CheckedRoot:
        """Makes the full check. Refused with 42 to 44, then block by block with 40 and 41."""
        return CheckedRoot(data)
