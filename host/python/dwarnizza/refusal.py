"""Refusals: what was wrong, and where."""

from enum import IntEnum
from typing import Optional

from ._header import REFUSALS

_WORDS = {number: words for _, number, words, _ in REFUSALS}
_PLACES = {number: place for _, number, _, place in REFUSALS}


class _Reason(IntEnum):
    """What was wrong, by its number.

    >>> Reason.INDEX_ORDER
    <Reason.INDEX_ORDER: 8>
    >>> Reason(8).words
    'key not above the one before'
    """

    @property
    def words(self) -> str:
        """What the number says."""
        return _WORDS[self]

    @property
    def place_words(self) -> str:
        """What the place counts; empty where the number names no place.

        >>> Reason.INDEX_ORDER.place_words, Reason.INDEX_SHORT.place_words
        ('entry', '')
        """
        return _PLACES[self]


Reason = _Reason("Reason", {name: number for name, number, _, _ in REFUSALS}, module=__name__)
Reason.__doc__ = _Reason.__doc__


class Link(IntEnum):
    """A link of the chain from a file number to a location.

    >>> Link(3).words
    'index'
    """

    ROOT = 1
    ENCODING = 2
    INDEX = 3

    @property
    def words(self) -> str:
        """The file that the link reads."""
        return ("root file", "encoding file", "index")[self - 1]


class Refusal(Exception):
    """What the library refused: a number, a place, and in a chain the link.

    >>> from dwarnizza import Index
    >>> try:
    ...     Index.check(b"no index")
    ... except Refusal as refusal:
    ...     print(refusal.number, refusal.words)
    1 index under 28 bytes
    >>> print(Refusal(8, 3))
    refused 8 at 3: key not above the one before (entry 3)
    >>> print(Refusal(10, link=Link.INDEX))
    refused 10 by the index: key not of the index's key length
    """

    def __init__(self, number: int, place: int = 0, link: Optional[Link] = None) -> None:
        super().__init__(number, place, link)
        self.reason = Reason(number)
        self.place = place
        self.link = link

    @property
    def number(self) -> int:
        """The number of the refusal, which says what was wrong."""
        return int(self.reason)

    @property
    def words(self) -> str:
        """What the number says."""
        return self.reason.words

    def __str__(self) -> str:
        counted = self.reason.place_words
        at = f" at {self.place}" if counted else ""
        by = f" by the {self.link.words}" if self.link else ""
        where = f" ({counted} {self.place})" if counted else ""
        return f"refused {self.number}{at}{by}: {self.words}{where}"
