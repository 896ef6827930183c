"""File numbers (FileDataIDs) as text."""

from enum import IntEnum
from typing import Union

from ._library import Data, call, frozen


class NumberFault(IntEnum):
    """What is wrong with a text that is no file number. Where several hold, the first is told.

    >>> NumberFault.LEADING_ZERO.words
    'leading zero'
    """

    EMPTY = 1
    LEADING_ZERO = 2
    NO_DIGIT = 3
    TOO_GREAT = 4

    @property
    def words(self) -> str:
        """What the fault is."""
        return ("empty", "leading zero", "not a digit", "above 4,294,967,295")[self - 1]


class NotFileNumber(ValueError):
    """A text is no file number: what is wrong, and at which byte.

    >>> print(NotFileNumber(NumberFault.NO_DIGIT, 3))
    not a digit (byte 3)
    """

    def __init__(self, fault: NumberFault, place: int) -> None:
        super().__init__(fault, place)
        self.fault = fault
        self.place = place

    def __str__(self) -> str:
        return f"{self.fault.words} (byte {self.place})"


def file_number(text: Union[str, Data]) -> int:
    """The file number that this is the decimal text of.

    The text has digits and nothing else, no zero in front of others, and is at most 4,294,967,295.
    So no two texts have the same number. Any other text raises NotFileNumber.

    >>> file_number("417")
    417
    >>> file_number("00417")
    Traceback (most recent call last):
    dwarnizza.file_number.NotFileNumber: leading zero (byte 0)
    """
    # Any character that is not ASCII is no digit, also one that UTF-8 does not have.
    digits = text.encode("utf-8", "surrogatepass") if isinstance(text, str) else frozen(text)
    found, words = call("file_number", digits)
    if not found:
        raise NotFileNumber(NumberFault(words[0]), words[1])
    return words[0]
