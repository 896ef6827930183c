"""What is taken as data, as a number and as text, and what is not."""

import hashlib
import mmap
import unittest

import forge
import sample
from dwarnizza import (
    Build,
    CheckedEnvelope,
    CheckedIndex,
    Encoding,
    Envelope,
    Index,
    Refusal,
    Root,
    Settings,
    UncheckedBuild,
    entry_bytes,
    key_from_text,
    md5,
    write_index,
    written_length,
)

NAME = "archives/066a04990bc3bbc7c21bab87f0144807.index"
SETTINGS = Settings(1, 4, 1)


def opened(name: str, access: int) -> mmap.mmap:
    with open(sample.SAMPLE / name, "rb") as file:
        return mmap.mmap(file.fileno(), 0, access=access)


class Kinds(unittest.TestCase):
    def setUp(self) -> None:
        self.data = sample.read(NAME)
        self.key = next(Index.check(self.data).entries()).key

    def test_every_kind_of_bytes_is_taken(self) -> None:
        expected = Index.check(self.data).find(self.key)
        pieces = bytearray(2 * len(self.data))
        pieces[::2] = self.data
        with opened(NAME, mmap.ACCESS_READ) as mapped, opened(NAME, mmap.ACCESS_COPY) as copied:
            for data in [
                bytearray(self.data),
                memoryview(self.data),
                memoryview(bytearray(self.data)),
                memoryview(bytes(1) + self.data)[1:],
                memoryview(pieces)[::2],
                memoryview(bytes(pieces))[::2],
                mapped,
                copied,
            ]:
                self.assertEqual(Index.check(data).find(bytearray(self.key)), expected)

    def test_only_data_that_can_be_written_to_is_copied(self) -> None:
        view = memoryview(self.data)
        with opened(NAME, mmap.ACCESS_READ) as mapped:
            for data in (self.data, view, mapped):
                self.assertIs(Index.check(data).data, data)
        data = bytearray(self.data)
        self.assertIsInstance(Index.check(data).data, bytes)

    def test_nothing_changes_under_a_checked_file(self) -> None:
        data = bytearray(self.data)
        index = Index.check(data)
        data[:] = bytes(len(data))
        self.assertIsNotNone(index.find(self.key))
        with self.assertRaises(AttributeError):
            index.data = bytes(28)

    def test_a_map_can_be_closed_and_then_answers_nothing(self) -> None:
        mapped = opened(NAME, mmap.ACCESS_READ)
        index = Index.check(mapped)
        self.assertIsNotNone(next(index.entries()))
        mapped.close()
        with self.assertRaises(ValueError):
            index.find(self.key)

    def test_data_without_bytes_is_data(self) -> None:
        for data in (b"", bytearray(), memoryview(b"")):
            self.assertEqual(md5(data), hashlib.md5().digest())
            self.assertEqual(write_index(SETTINGS, data), forge.index([]))
            self.assertIsNone(Root.check(data).find(5))

    def test_hashing_takes_every_kind(self) -> None:
        expected = hashlib.md5(self.data).digest()
        with opened(NAME, mmap.ACCESS_READ) as mapped:
            for data in (bytearray(self.data), memoryview(self.data), mapped):
                self.assertEqual(md5(data), expected)


class WrongKinds(unittest.TestCase):
    def test_what_is_no_bytes_is_a_type_error(self) -> None:
        index = Index.check(forge.index([]))
        for wrong in ("text", 16, None, [1, 2], 1.5):
            for call in (
                md5, Index.check, Index.unchecked, Encoding.check, Root.check, Envelope.key_of,
                index.find, index.list_into, CheckedIndex,
                lambda data: CheckedEnvelope(b"", data),
                lambda data: write_index(SETTINGS, data),
                lambda data: UncheckedBuild(b"", b"", data),
                lambda data: Build(Root.check(b""), data, index),
            ):
                with self.assertRaises(TypeError):
                    call(wrong)

    def test_an_unchecked_file_is_no_checked_one(self) -> None:
        root, encoding = Root.check(b""), Encoding.check(sample.read("encoding"))
        for index in (Index.unchecked(forge.index([])), forge.index([])):
            with self.assertRaises(TypeError):
                Build(root, encoding, index)

    def test_an_output_is_writable(self) -> None:
        index = Index.check(forge.index([]))
        for wrong in (b"bytes", memoryview(b"bytes"), memoryview(bytearray(9))[::2]):
            with self.assertRaises(TypeError):
                index.list_into(wrong)

    def test_an_output_overlaps_no_input(self) -> None:
        data = bytearray(b"BLTE\0\0\0\0NA..")
        lent = memoryview(data).toreadonly()
        envelope = Envelope.check(lent[:10], hashlib.md5(data[:10]).digest())
        for start in (0, 9):
            with self.assertRaises(ValueError):
                envelope.content_into(memoryview(data)[start:])
        self.assertEqual(envelope.content_into(memoryview(data)[10:]), 1)
        self.assertEqual(data, b"BLTE\0\0\0\0NAA.")


class Numbers(unittest.TestCase):
    def test_a_number_is_never_cut(self) -> None:
        root, index = Root.check(sample.read("root-v1")), Index.check(forge.index([]))
        self.assertIsNotNone(root.find(417))
        for call in (
            lambda: root.find(417 + 2**32),
            lambda: root.find(-1),
            lambda: root.find(417, locale=2**32),
            lambda: root.find(417, unwanted=2**64),
            lambda: root.find_many([417, 417 + 2**32]),
            lambda: root.find_many([-1]),
            lambda: index.entry_at(-1, 0),
            lambda: index.entry_at(0, -1),
            lambda: index.entry_at(2**64, 0),
            lambda: index.entry_at(0, 2**64),
            lambda: key_from_text("00", 1 + 2**32),
            lambda: write_index(Settings(1 + 2**32, 4, 1), b""),
        ):
            with self.assertRaises(ValueError):
                call()

    def test_settings_that_are_right_in_their_lowest_bits_are_refused(self) -> None:
        for call in (
            lambda: key_from_text("00", 257),
            lambda: write_index(Settings(257, 4, 1), b""),
            lambda: written_length(Settings(1, 260, 1), b""),
            lambda: entry_bytes(Settings(1, 4, 272), b"", size=0, archive=0, offset=0),
        ):
            with self.assertRaises(Refusal) as refused:
                call()
            self.assertEqual(refused.exception.number, 11)

    def test_the_words_name_the_number(self) -> None:
        words = "id is 4294967296, which is not 0 to 4294967295"
        with self.assertRaisesRegex(ValueError, words):
            Root.check(b"").find(2**32)

    def test_what_is_no_whole_number_is_a_type_error(self) -> None:
        root = Root.check(sample.read("root-v1"))
        for wrong in ("417", 417.0, None, b"417"):
            with self.assertRaises(TypeError):
                root.find(wrong)
            with self.assertRaises(TypeError):
                root.find_many([wrong])


class Keys(unittest.TestCase):
    def test_text_is_str_or_bytes(self) -> None:
        for text in ("00fF", b"00fF", bytearray(b"00fF"), memoryview(b"00fF")):
            self.assertEqual(key_from_text(text, 2), b"\x00\xff")
        for wrong in (16, None, ["0", "0"]):
            with self.assertRaises(TypeError):
                key_from_text(wrong, 1)

    def test_every_byte_has_its_text(self) -> None:
        for number in range(256):
            for text in (f"{number:02x}", f"{number:02X}"):
                self.assertEqual(key_from_text(text, 1), bytes([number]))


if __name__ == "__main__":
    unittest.main()
