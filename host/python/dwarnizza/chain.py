"""The chain: from a file number (FileDataID) to the encoded size and the location of the file.

The root file tells the content key of the file number, the encoding file the encoding keys of that,
and an archive index the size and the location of the first of them.
"""

from typing import Any, NamedTuple, Optional

from ._library import Data, call, frozen
from .encoding import CheckedEncoding
from .index import CheckedIndex, Entry, entry_of
from .refusal import Link
from .root import ALL_LOCALES, CheckedRoot


class Resolved(NamedTuple):
    """What the chain gives: the entry in the index, or the link that has none.

    >>> Resolved(entry=None, absent=Link.ENCODING, compared=0).absent.words
    'encoding file'
    """

    entry: Optional[Entry]
    absent: Optional[Link]
    compared: int  # how many stored keys of the index were compared


def _resolve(files: Any, file_number: int, locale: int, unwanted: int) -> Resolved:
    found, words = call("resolve", *files, file_number, locale, unwanted)
    if found:
        return Resolved(entry_of(words), None, words[4])
    return Resolved(None, Link(words[2]), words[4])


def _data_of(file: Any, kind: type) -> Data:
    if not isinstance(file, kind):
        raise TypeError(f"a {kind.__name__} is required, not {type(file).__name__!r}")
    return file.data


class Build:
    """The checked files that the chain goes through. A build has an index for each archive: what is
    absent at `Link.INDEX` may be in another.

    >>> from dwarnizza import Root
    >>> Build(Root.check(b""), b"unchecked", b"unchecked")
    Traceback (most recent call last):
    TypeError: a CheckedEncoding is required, not 'bytes'
    """

    def __init__(self, root: CheckedRoot, encoding: CheckedEncoding, index: CheckedIndex) -> None:
        kinds = (CheckedRoot, CheckedEncoding, CheckedIndex)
        self._files = tuple(map(_data_of, (root, encoding, index), kinds))

    def resolve(
        self, file_number: int, locale: int = ALL_LOCALES, unwanted: int = 0
    ) -> Resolved:
        """Follows a file number, with the masks of `CheckedRoot.find`. Refused with 39 at
        `Link.ENCODING` where the content keys of the encoding file have not 16 bytes, and with 10
        at `Link.INDEX` where its encoding keys have another length than the index's."""
        return _resolve(self._files, file_number, locale, unwanted)


class UncheckedBuild:
    """The bytes of a root file, an encoding file and an index that nobody checked.

    >>> build = UncheckedBuild(b"", b"not read", b"not read")
    >>> build.resolve(5)
    Resolved(entry=None, absent=<Link.ROOT: 1>, compared=0)
    """

    def __init__(self, root: Data, encoding: Data, index: Data) -> None:
        self._files = tuple(map(frozen, (root, encoding, index)))

    def resolve(
        self, file_number: int, locale: int = ALL_LOCALES, unwanted: int = 0
    ) -> Resolved:
        """Follows a file number, as `Build.resolve` does. The first link that is absent or refuses
        ends the chain, and the files of later links are not read. Refused as the calls of an
        unchecked file are, with the link; a file may be missed in damaged files."""
        return _resolve(self._files, file_number, locale, unwanted)
