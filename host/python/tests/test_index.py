"""Indexes, against files that are made by hashlib alone."""

import random
import struct
import unittest
from typing import List, Tuple

import forge
import sample
from dwarnizza import (
    Index,
    IndexEntry,
    Lookup,
    Settings,
    entry_bytes,
    listing,
    write_index,
    write_index_into,
    written_length,
)

WIDTHS = [(width, length) for width in (4, 5, 6) for length in (1, 2, 9, 16)]


def made(settings: Settings, count: int) -> Tuple[List[IndexEntry], List[bytes]]:
    """Entries with these settings, and their bytes."""
    source = random.Random(repr((settings, count)))
    width, length = settings.offset_width, settings.key_length
    numbers = sorted(source.sample(range(256 ** min(length, 2)), count))
    keys = [number.to_bytes(length, "big") for number in numbers]
    room = forge.PAGE // (length + 4 + width)
    entries, listed = [], []
    for number, key in enumerate(keys):
        size, location = source.getrandbits(32), source.getrandbits(8 * width)
        archive, offset = divmod(location, 2**32) if width == 6 else (0, location)
        page, slot = divmod(number, room)
        place = forge.PAGE * page + (length + 4 + width) * slot
        entries.append(IndexEntry(key, size, archive, offset, page, slot, place))
        listed.append(key + struct.pack(">I", size) + location.to_bytes(width, "big"))
    return entries, listed


class Indexes(unittest.TestCase):
    def test_the_writer_gives_the_bytes_that_hashlib_gives(self) -> None:
        for width, length in WIDTHS:
            for count in (0, 1, 200):
                settings = Settings(count % 2, width, length)
                _, listed = made(settings, count)
                data = write_index(settings, b"".join(listed))
                self.assertEqual(data, forge.index(listed, *settings))
                self.assertEqual(written_length(settings, b"".join(listed)), len(data))

    def test_what_is_written_is_read(self) -> None:
        for width, length in WIDTHS:
            settings = Settings(1, width, length)
            entries, listed = made(settings, 250)
            index = Index.check(forge.index(listed, *settings))
            self.assertEqual(index.settings, settings)
            self.assertEqual(index.summary.entries, 250)
            self.assertEqual(list(index.entries()), entries)
            self.assertEqual(index.list(), b"".join(listed))
            for entry in entries:
                self.assertEqual(index.entry_at(entry.page, entry.slot), entry)

    def test_a_lookup_finds_what_stands_there_and_nothing_else(self) -> None:
        settings = Settings(1, 6, 2)
        entries, listed = made(settings, 700)
        index = Index.check(forge.index(listed, *settings))
        by_key = {entry.key: entry for entry in entries}
        for number in range(2**16):
            key = number.to_bytes(2, "big")
            lookup, expected = index.lookup(key), by_key.get(key)
            self.assertLessEqual(lookup.compared, index.bound)
            entry = lookup.entry and index.entry_at(lookup.entry.page, lookup.entry.slot)
            self.assertEqual(entry, expected)

    def test_an_entry_is_made_byte_by_byte(self) -> None:
        for width, length in WIDTHS:
            settings = Settings(0, width, length)
            for entry, expected in zip(*made(settings, 20)):
                given = (entry.key, entry.size, entry.archive, entry.offset)
                self.assertEqual(entry_bytes(settings, *given), expected)

    def test_pages_stand_where_the_entries_are(self) -> None:
        settings = Settings(1, 4, 16)
        entries, listed = made(settings, 171)
        data = forge.index(listed, *settings)
        index = Index.check(data)
        first, last = index.page(0), index.page(1)
        self.assertEqual((first.entries, last.entries), (range(170), range(170, 171)))
        self.assertEqual(data[first.page], b"".join(listed[:170]).ljust(4096, b"\0"))
        self.assertEqual(data[last.last_key], entries[170].key)
        self.assertEqual(data[first.hash], forge.md5(data[first.page]).digest()[:8])
        self.assertIsNone(index.page(2))
        self.assertEqual(list(index.entries_on(0)), entries[:170])
        self.assertEqual(list(index.entries_on(1)), entries[170:])
        self.assertEqual(list(index.entries_on(2)), [])
        past = [(1, 1), (0, 170), (2, 0), (2**32, 0), (0, 2**32), (2**64 - 1, 0), (0, 2**64 - 1)]
        for page, slot in past:
            self.assertIsNone(index.entry_at(page, slot))

    def test_an_output_longer_than_the_answer_keeps_the_rest(self) -> None:
        settings = Settings(1, 4, 1)
        _, listed = made(settings, 3)
        data = forge.index(listed, *settings)
        output = bytearray(b"\xee" * (len(data) + 2))
        self.assertEqual(write_index_into(settings, b"".join(listed), output), len(data))
        self.assertEqual(output, data + b"\xee\xee")
        output = bytearray(b"\xee" * 30)
        self.assertEqual(Index.check(data).list_into(output), 27)
        self.assertEqual(output, b"".join(listed) + b"\xee" * 3)

    def test_the_listing_is_as_stored(self) -> None:
        texts = sorted((sample.REPOSITORY / "testdata/listing").glob("*.txt"))
        listed = [path for path in texts if path.read_text().startswith("index ")]
        self.assertGreater(len(listed), 5)
        for path in listed:
            self.assertEqual(listing(path.with_suffix(".index").read_bytes()), path.read_text())


class Unchecked(unittest.TestCase):
    def test_a_damaged_index_is_looked_into_only_where_that_is_said(self) -> None:
        falling = [bytes([key]) + bytes(8) for key in (6, 5)]
        index = Index.unchecked(forge.index(falling))
        self.assertEqual(index.summary.entries, 2)
        self.assertEqual(index.entry_at(0, 1).key, b"\x05")
        self.assertEqual(index.lookup(b"\x06"), Lookup(None, 1))

    def test_the_last_bytes_tell_the_footer(self) -> None:
        _, listed = made(Settings(1, 4, 16), 171)
        data = forge.index(listed, key_length=16)
        footer = Index.unchecked(data[-28:]).footer()
        self.assertEqual(footer, (Index.check(data).summary, len(data), 28))
        self.assertEqual(Index.unchecked(data[-28:]).name, forge.md5(data[-28:]).hexdigest())

    def test_an_index_of_loose_files_is_told(self) -> None:
        loose = forge.footer(0, b"", offset_width=0, key_length=16)
        self.assertIs(Index.unchecked(loose).is_loose(), True)
        self.assertIs(Index.unchecked(forge.footer(0, b"", key_length=16)).is_loose(), False)


if __name__ == "__main__":
    unittest.main()
