"""Worklists: rows and fields of separated text, as spreadsheets and scripts export them (RFC 4180).

Every byte is of exactly one row: the rows with their line ends, one after the other, are the text.
"""

from typing import Iterator, NamedTuple, Optional, Union

from ._library import Data, File, call


class Field(NamedTuple):
    """A field of a row.

    >>> Field(place=4, data=b'"x""y"', quoted=True).content()
    b'x"y'
    """

    place: int  # where it begins in the text
    data: bytes  # its bytes, with its quotes
    quoted: bool

    def content(self) -> bytes:
        """What it stands for: of a quoted field what is between its quotes, with each doubled quote
        as one; of any other its bytes."""
        output = bytearray(len(self.data))
        _, words = call("worklist_unquoted", self.data, output)
        return bytes(output[: words[0]])


class Row(NamedTuple):
    """A row of a worklist.

    >>> rows = Worklist(b'417,"x"\\n"418"y,z').rows()
    >>> row = next(rows)
    >>> row.start, row.end, row.next, row.fields, row.malformed
    (0, 7, 8, 2, None)
    >>> row.field(1).content(), row.field(2)
    (b'x', None)
    >>> next(rows).malformed
    13
    """

    worklist: "Worklist"
    start: int  # where it begins in the text
    end: int  # where it ends, before its line end
    next: int  # where the next row begins: behind the line end, or at the text's end
    fields: int  # how many it has; 0 where it is malformed
    malformed: Optional[int]  # the place of the byte where it is

    def data(self) -> bytes:
        """Its bytes, without the line end."""
        return self.worklist._part(self.start, self.end - self.start)

    def field(self, column: int) -> Optional[Field]:
        """The field of a column, from 0; none where it has no such field or is malformed."""
        return self.worklist._field(self.start, column)


class Worklist(File):
    """A text and the separator of its fields: a character, which stands for the byte of its number.

    Refused with 11 where that is no byte, or is a quote, CR or LF.

    >>> list = Worklist(b'417;"sword; long"\\r\\n418;shield', separator=";")
    >>> [[row.field(column).content() for column in range(row.fields)] for row in list.rows()]
    [[b'417', b'sword; long'], [b'418', b'shield']]
    """

    def __init__(self, data: Data, separator: Union[str, bytes] = ",") -> None:
        super().__init__(data)
        self._separator = ord(separator)
        call("worklist_row", b"", 0, self._separator)

    def rows(self) -> Iterator[Row]:
        """The rows, from the first byte on: each once, those that are malformed too."""
        row = self._row(0)
        while row is not None:
            yield row
            row = self._row(row.next)

    def _row(self, at: int) -> Optional[Row]:
        found, words = call("worklist_row", self._data, at, self._separator)
        end, after, fields, malformed, place = words[:5]
        return Row(self, at, end, after, fields, place if malformed else None) if found else None

    def _field(self, at: int, column: int) -> Optional[Field]:
        found, words = call("worklist_field", self._data, at, self._separator, column)
        place, length, quoted = words[:3]
        return Field(place, self._part(place, length), quoted == 1) if found else None
