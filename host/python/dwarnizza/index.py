"""Archive indexes: for each encoding key its encoded size and location.

>>> settings = Settings(version=1, offset_width=4, key_length=1)
>>> data = write_index(settings, entry_bytes(settings, b"\\x05", size=7, archive=0, offset=9))
>>> index = Index.check(data)
>>> index.find(b"\\x05")
Entry(page=0, slot=0, size=7, location=9, compared=3)
>>> index.find(b"\\x06") is None
True
>>> list(index.entries())
[IndexEntry(key=b'\\x05', size=7, archive=0, offset=9, page=0, slot=0, place=0)]
"""

from typing import Iterator, List, NamedTuple, Optional

from ._library import Data, File, call, frozen
from .hashing import md5


class Settings(NamedTuple):
    """The settings of an index.

    >>> Settings(version=1, offset_width=4, key_length=16).key_length
    16
    """

    version: int  # 0 or 1
    offset_width: int  # how many bytes a location has: 4, 5 or 6
    key_length: int  # how many bytes a key has: 1 to 16


class Summary(NamedTuple):
    """What an index says of itself.

    >>> Index.check(write_index(Settings(1, 4, 16), b"")).summary
    Summary(settings=Settings(version=1, offset_width=4, key_length=16), entries=0, pages=0)
    """

    settings: Settings
    entries: int
    pages: int


class Footer(NamedTuple):
    """What the footer of an index says.

    >>> Index.unchecked(write_index(Settings(1, 4, 16), b"")).footer().file_length
    28
    """

    summary: Summary
    file_length: int  # the length of the whole file that has this footer
    footer_length: int


class Entry(NamedTuple):
    """Where a key was found, and what its entry says.

    >>> Entry(page=0, slot=1, size=7, location=9, compared=3).size
    7
    """

    page: int
    slot: int  # the place on that page
    size: int  # the encoded size
    location: int  # one number of as many bytes as the offset width; `entry_at` tells its parts
    compared: int  # how many stored keys were compared with the sought one


class Lookup(NamedTuple):
    """What a lookup gives: the entry, none where the key is absent, and the keys compared.

    >>> Index.check(write_index(Settings(1, 4, 1), b"")).lookup(b"\\x05")
    Lookup(entry=None, compared=0)
    """

    entry: Optional[Entry]
    compared: int


class IndexEntry(NamedTuple):
    """An entry as it stands in an index.

    >>> data = write_index(Settings(1, 6, 1), bytes([5, 0, 0, 0, 7, 0, 2, 0, 0, 0, 9]))
    >>> Index.check(data).entry_at(0, 0)
    IndexEntry(key=b'\\x05', size=7, archive=2, offset=9, page=0, slot=0, place=0)
    """

    key: bytes
    size: int  # the encoded size
    archive: int  # the number of the archive; 0 where the offset width is not 6
    offset: int  # the offset in the archive
    page: int
    slot: int  # the place on that page
    place: int  # where it stands in the bytes of the index


class PageParts(NamedTuple):
    """Where a page and its parts stand in the bytes of an index, and which entries it has.

    >>> data = write_index(Settings(1, 4, 1), bytes([5, 0, 0, 0, 7, 0, 0, 0, 9]))
    >>> parts = Index.check(data).page(0)
    >>> data[parts.last_key], parts.entries
    (b'\\x05', range(0, 1))
    """

    page: slice
    last_key: slice
    hash: slice
    entries: range  # their numbers


def summary_of(words: List[int]) -> Summary:
    """The summary that an answer names."""
    return Summary(Settings(*words[:3]), *words[3:5])


def entry_of(words: List[int]) -> Entry:
    """The entry that an answer names."""
    return Entry(*words[:5])


class _Index(File):
    """What can be asked of any index."""

    @property
    def summary(self) -> Summary:
        """Settings, entry count and page count."""
        return summary_of(call("index_settings", self._data)[1])

    @property
    def bound(self) -> int:
        """The most stored keys that a lookup compares."""
        return call("index_bound", self._data)[1][0]

    def lookup(self, key: Data) -> Lookup:
        """Looks a key up. Refused with 10 where it has not as many bytes as the index's keys."""
        found, words = call("index_lookup", self._data, frozen(key))
        return Lookup(entry_of(words) if found else None, words[4])

    def find(self, key: Data) -> Optional[Entry]:
        """The entry of a key; none where it is absent. Refused as `lookup` refuses."""
        return self.lookup(key).entry

    def page(self, page: int) -> Optional[PageParts]:
        """Where a page and its parts stand; none past the last."""
        found, words = call("index_page", self._data, page)
        page_at, page_length, key_at, key_length, hash_at, hash_length, first, count = words
        parts = PageParts(
            slice(page_at, page_at + page_length),
            slice(key_at, key_at + key_length),
            slice(hash_at, hash_at + hash_length),
            range(first, first + count),
        )
        return parts if found else None

    def entry_at(self, page: int, slot: int) -> Optional[IndexEntry]:
        """The entry in a slot of a page; none past the last page, and past the page's entries.

        >>> data = write_index(Settings(1, 6, 1), bytes([5, 0, 0, 0, 7, 0, 2, 0, 0, 0, 9]))
        >>> index = Index.check(data)
        >>> found = index.find(b"\\x05")
        >>> entry = index.entry_at(found.page, found.slot)
        >>> entry.archive, entry.offset
        (2, 9)
        """
        found, words = call("index_entry", self._data, page, slot)
        place, length, *values = words[:7]
        return IndexEntry(self._part(place, length), *values, place) if found else None

    def footer(self) -> Footer:
        """What the footer says: the last bytes of a file are enough. Refused as the opening
        checks but that of the length refuse."""
        _, words = call("index_footer", self._data)
        return Footer(summary_of(words), *words[5:7])

    @property
    def name(self) -> str:
        """The name that an index has on a mirror: the MD5 of its footer, in hex.

        >>> Index.check(write_index(Settings(1, 4, 1), b"")).name
        '5d1f6b84b9cf535558767d52d28f8150'
        """
        length = self.footer().footer_length
        return md5(self._part(memoryview(self._data).nbytes - length, length)).hex()


class CheckedIndex(_Index):
    """An index that passed the full check, which is made where this is made.

    In it a lookup finds exactly the keys that stand there, and compares no more than `bound`.

    >>> CheckedIndex(b"no index")
    Traceback (most recent call last):
    dwarnizza.refusal.Refusal: refused 1: index under 28 bytes
    """

    def __init__(self, data: Data) -> None:
        super().__init__(data)
        call("index_check", self._data)

    @property
    def settings(self) -> Settings:
        """Version, offset width and key length."""
        return self.summary.settings

    def entries(self) -> Iterator[IndexEntry]:
        """The entries, in order."""
        for page in range(self.summary.pages):
            yield from self.entries_on(page)

    def entries_on(self, page: int) -> Iterator[IndexEntry]:
        """The entries of a page, in order; none past the last page.

        >>> data = write_index(Settings(1, 4, 1), bytes([5, 0, 0, 0, 7, 0, 0, 0, 9]))
        >>> [entry.key for entry in Index.check(data).entries_on(0)]
        [b'\\x05']
        """
        slot = 0
        entry = self.entry_at(page, slot)
        while entry is not None:
            yield entry
            slot += 1
            entry = self.entry_at(page, slot)

    def list(self) -> bytes:
        """The entries' bytes, in order with nothing between, as `write_index` takes them."""
        output = bytearray(memoryview(self._data).nbytes)
        return bytes(memoryview(output)[: self.list_into(output)])

    def list_into(self, output: Data) -> int:
        """Writes the list to the start of an output, and tells its length. Refused with 13 where
        the output is shorter; it is then as it was."""
        return call("index_list", self._data, output)[1][0]


class UncheckedIndex(_Index):
    """Bytes of an index that nobody checked. Each call makes the opening checks by itself.

    A lookup may miss a key that stands in a damaged index: `Index.check` is for all but first
    looks.

    >>> index = UncheckedIndex(b"no index")
    >>> index.is_loose()
    False
    >>> index.find(b"\\x05")
    Traceback (most recent call last):
    dwarnizza.refusal.Refusal: refused 1: index under 28 bytes
    """

    def is_loose(self) -> bool:
        """Whether this ends as an index of loose files or of patches, which is no archive index."""
        return call("index_loose", self._data)[0]


class Index:
    """The ways to an index from its bytes.

    >>> index = Index.check(write_index(Settings(1, 4, 16), b""))
    >>> index.settings
    Settings(version=1, offset_width=4, key_length=16)
    """

    @staticmethod
    def check(data: Data) -> CheckedIndex:
        """Makes the full check: the opening checks, then page by page 6 to 9."""
        return CheckedIndex(data)

    @staticmethod
    def unchecked(data: Data) -> UncheckedIndex:
        """Takes bytes that nobody checked."""
        return UncheckedIndex(data)


def entry_bytes(settings: Settings, key: Data, size: int, archive: int, offset: int) -> bytes:
    """The bytes of one entry of a list.

    Refused with 11 where a setting is wrong or archive and offset do not fit, and with 10 where the
    key has another length.

    >>> entry_bytes(Settings(1, 6, 1), b"\\x05", size=7, archive=2, offset=9).hex()
    '0500000007000200000009'
    """
    output = bytearray(16 + 4 + 6)  # the longest entry
    _, words = call("list_put", *settings, frozen(key), size, archive, offset, output)
    return bytes(output[: words[0]])


def written_length(settings: Settings, entries: Data) -> int:
    """The length of the file that `write_index` gives. Refused as it refuses.

    >>> written_length(Settings(1, 4, 16), b"")
    28
    """
    return call("index_written_length", *settings, frozen(entries))[1][0]


def write_index_into(settings: Settings, entries: Data, output: Data) -> int:
    """Writes the index to the start of an output, and tells its length. Refused as `write_index`
    refuses, and then with 13 where the output is shorter; it is then as it was.

    >>> write_index_into(Settings(1, 4, 16), b"", bytearray(30))
    28
    """
    return call("index_write", *settings, frozen(entries), output)[1][0]


def write_index(settings: Settings, entries: Data) -> bytes:
    """The index of a list: the bytes of its entries, in order with nothing between.

    Refused with 11 where a setting is wrong, 12 where the list is not whole entries, 4 where there
    are too many, and 8 where a key is not above the one before. What is written passes the full
    check and has this list and these settings.

    >>> data = write_index(Settings(1, 4, 1), bytes([5, 0, 0, 0, 7, 0, 0, 0, 9]))
    >>> Index.check(data).list().hex()
    '050000000700000009'
    """
    entries = frozen(entries)
    output = bytearray(written_length(settings, entries))
    write_index_into(settings, entries, output)
    return bytes(output)


def listing(data: Data) -> str:
    """The index as text: a line for the whole, then one for each entry.

    Refused with 70 above 65,536 bytes, then as `Index.check` refuses.

    >>> print(listing(write_index(Settings(1, 4, 1), bytes([5, 0, 0, 0, 7, 0, 0, 0, 9]))), end="")
    index key=1 offset=4 entries=1 pages=1
    05 7 - 9
    """
    data = frozen(data)
    output = bytearray(call("index_listing", data, bytearray())[1][0])
    call("index_listing", data, output)
    return output.decode("ascii")
