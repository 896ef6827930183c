"""Name hashes, and records of a root file by path."""

import unittest

import forge
from dwarnizza import PathRecord, Refusal, Root, name_hash

QUESTION_MARK = 0x9EB59E3C76124837
EMPTY = 0xDEADBEEFDEADBEEF

# A path and the name hashes of its starts of 0, 1, 4, 5, 8, 12, 13, 24, 25 and 40 bytes, by a script
# that follows lookup3.c.
PATH = b"World/Maps\\Azeroth/Azeroth_32_48_obj0.ad"
STARTS = {
    0: EMPTY,
    1: 0xB8DE7EFF966FE81E,
    4: 0x2FDF878E0881A5B4,
    5: 0xCF3B8A9E401BCB39,
    8: 0xB49BC9CFF056BB7B,
    12: 0xC32A132B88E28748,
    13: 0xAB2706A98CBEBB82,
    24: 0x59EB1A1FAEE79BD2,
    25: 0x4AB4DBB4E955750C,
    40: 0xF2C03D1278974304,
}

FIRST = forge.block(
    [5, 4], [b"\x07" * 16, b"\x08" * 16], content=1, name_hashes=[QUESTION_MARK, EMPTY]
)
SECOND = forge.block([9], [b"\x09" * 16], locale=4, name_hashes=[QUESTION_MARK])
ROOT = FIRST + SECOND


class NameHashes(unittest.TestCase):
    def test_the_value_of_the_source(self) -> None:
        for path in (
            "Interface\\Icons\\INV_Misc_QuestionMark.blp",
            "interface/icons/inv_misc_questionmark.BLP",
            b"INTERFACE/ICONS\\INV_MISC_QUESTIONMARK.BLP",
        ):
            self.assertEqual(name_hash(path), QUESTION_MARK)

    def test_starts_of_a_path(self) -> None:
        for length, expected in STARTS.items():
            start = PATH[:length]
            for path in (start, start.upper(), start.decode(), start.replace(b"/", b"\\")):
                self.assertEqual(name_hash(path), expected, length)

    def test_only_ascii_letters_and_slashes_change(self) -> None:
        hashes = [name_hash(bytes([byte])) for byte in range(256)]
        for byte in range(256):
            folded = byte - 32 if 97 <= byte <= 122 else 92 if byte == 47 else byte
            self.assertEqual(hashes[byte], hashes[folded])
        self.assertEqual(len(set(hashes)), 256 - 27)

    def test_a_str_is_its_bytes_in_utf_8(self) -> None:
        self.assertEqual(name_hash("\u00e9t\u00e9.ogg"), 0xAEDD418DF0D28F73)
        self.assertEqual(name_hash(b"\xc3\xa9T\xc3\xa9.OGG"), 0xAEDD418DF0D28F73)
        self.assertEqual(name_hash("\u00c9T\u00c9.OGG"), 0x8EAD287808EBB929)
        with self.assertRaises(UnicodeEncodeError):
            name_hash("\udc80")

    def test_every_kind_of_bytes_is_taken(self) -> None:
        for path in (bytearray(PATH), memoryview(PATH), memoryview(bytearray(PATH))):
            self.assertEqual(name_hash(path), STARTS[40])
        for wrong in (16, None, ["a"]):
            with self.assertRaises(TypeError):
                name_hash(wrong)
            with self.assertRaises(TypeError):
                Root.check(ROOT).find_path(wrong)

    def test_the_longest_path(self) -> None:
        self.assertEqual(name_hash("a" * 1024), 0x72609DF7934FABB8)
        self.assertEqual(name_hash("\u00e9" * 512), name_hash(b"\xc3\xa9" * 512))
        # The bytes count, and not the characters.
        with self.assertRaises(Refusal):
            name_hash("\u00e9" * 513)


class Paths(unittest.TestCase):
    def test_the_first_record_that_counts(self) -> None:
        root, path = Root.check(ROOT), "interface/icons/inv_misc_questionmark.blp"
        first = PathRecord(5, b"\x07" * 16, 12 + 8)
        later = PathRecord(9, b"\x09" * 16, len(FIRST) + 12 + 4)
        self.assertEqual(root.find_path(path), first)
        self.assertEqual(root.find_path(path, locale=2), first)
        self.assertEqual(root.find_path(path, locale=4), later)
        self.assertEqual(root.find_path(path, unwanted=1), later)
        self.assertEqual(root.find_path(path.encode(), unwanted=2**32), first)
        self.assertEqual(root.find_path("").file_number, 4)
        for record in (first, later):
            self.assertEqual(ROOT[record.place :][:16], record.key)

    def test_absent(self) -> None:
        root = Root.check(ROOT)
        self.assertIsNone(root.find_path("interface"))
        self.assertIsNone(root.find_path("", locale=4))
        self.assertIsNone(root.find_path("", unwanted=1))
        self.assertIsNone(Root.check(b"").find_path(""))

    def test_masks_are_never_cut(self) -> None:
        root = Root.check(ROOT)
        for masks in ({"locale": 2**32}, {"locale": -1}, {"unwanted": 2**64}):
            with self.assertRaises(ValueError):
                root.find_path("a", **masks)


if __name__ == "__main__":
    unittest.main()
