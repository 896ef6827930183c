"""The sample build, from file numbers to contents."""

import hashlib
import unittest
from typing import Dict

import sample
from dwarnizza import Build, CheckedIndex, Encoding, Envelope, Index, Link, Root


def index_of(archive: str) -> CheckedIndex:
    return Index.check(sample.read(f"archives/{archive}.index"))


class Sample(unittest.TestCase):
    def setUp(self) -> None:
        self.roots = [Root.check(sample.read(name)) for name in sample.ROOTS]
        self.encoding = Encoding.check(sample.read("encoding"))
        self.indexes = {name: index_of(name) for name in sample.archive_names()}
        (self.group_path,) = (sample.SAMPLE / "group").iterdir()
        self.group = Index.check(self.group_path.read_bytes())
        self.files = sample.files_in_archives()
        self.assertGreater(len(self.files), 50)

    def content(self, file: Dict[str, str]) -> bytes:
        """The content of a file: its envelope, taken from the archive."""
        archive = sample.read("archives/" + file["archive"])
        offset, size = int(file["offset"]), int(file["size"])
        key = bytes.fromhex(file["encoding key"])
        return Envelope.check(archive[offset : offset + size], key).content()

    def test_root_files_give_content_keys(self) -> None:
        for file in sample.files():
            for root in self.roots:
                record = root.find(int(file["number"]), sample.LOCALES[file["locale"]])
                self.assertEqual(record.key.hex(), file["content key"])
                self.assertEqual(root.data[record.place :][:16], record.key)

    def test_the_encoding_file_gives_encoding_keys(self) -> None:
        for file in self.files:
            entry = self.encoding.find_content(bytes.fromhex(file["content key"]))
            key = entry.encoding_keys[0]
            self.assertEqual(key.hex(), file["encoding key"])
            self.assertEqual(entry.size, len(self.content(file)))
            encoded = self.encoding.find_encoding(key)
            self.assertEqual(encoded.size, int(file["size"]))
            self.assertEqual(encoded.spec, self.encoding.spec(encoded.spec_number))

    def test_a_content_key_may_have_two_encoding_keys(self) -> None:
        entry = self.encoding.find_content(self.roots[0].find(418).key)
        self.assertEqual([len(key) for key in entry.encoding_keys], [16, 16])

    def test_indexes_give_places(self) -> None:
        for file in self.files:
            key, index = bytes.fromhex(file["encoding key"]), self.indexes[file["archive"]]
            entry = index.find(key)
            place = (entry.size, entry.location)
            self.assertEqual(place, (int(file["size"]), int(file["offset"])))
            self.assertLessEqual(entry.compared, index.bound)

    def test_the_index_of_all_archives_tells_the_archive(self) -> None:
        for file in self.files:
            found = self.group.find(bytes.fromhex(file["encoding key"]))
            entry = self.group.entry_at(found.page, found.slot)
            self.assertEqual(entry.key.hex(), file["encoding key"])
            self.assertEqual(sample.archive_names()[entry.archive], file["archive"])
            self.assertEqual((entry.size, entry.offset), (int(file["size"]), int(file["offset"])))

    def test_the_chain_gives_what_its_links_give(self) -> None:
        for file in self.files:
            index = self.indexes[file["archive"]]
            number, locale = int(file["number"]), sample.LOCALES[file["locale"]]
            for root in self.roots:
                resolved = Build(root, self.encoding, index).resolve(number, locale)
                entry = index.find(bytes.fromhex(file["encoding key"]))
                self.assertEqual(resolved, (entry, None, entry.compared))

    def test_the_chain_tells_which_link_is_absent(self) -> None:
        build = Build(self.roots[0], self.encoding, self.group)
        for number, link in [(1, Link.ROOT), (9001, Link.ENCODING), (9002, Link.INDEX)]:
            resolved = build.resolve(number)
            self.assertEqual((resolved.entry, resolved.absent), (None, link))

    def test_the_masks_choose_blocks(self) -> None:
        root = self.roots[0]
        self.assertIsNotNone(root.find(4294967295))
        self.assertIsNone(root.find(4294967295, unwanted=0x80))
        self.assertIsNone(root.find(4294967295, locale=0x20))

    def test_envelopes_hold_the_contents(self) -> None:
        for file in self.files:
            digest = hashlib.md5(self.content(file)).hexdigest()
            self.assertEqual(digest, file["content key"])

    def test_the_files_of_the_build_are_in_envelopes(self) -> None:
        for name in (*sample.ROOTS, "encoding"):
            data = sample.read(name + ".blte")
            envelope = Envelope.check(data, Envelope.key_of(data))
            self.assertEqual(len(envelope), len(sample.read(name)))
            self.assertEqual(envelope.content(), sample.read(name))

    def test_indexes_have_their_names(self) -> None:
        for name, index in self.indexes.items():
            self.assertEqual(index.name, name)
        self.assertEqual(self.group.name, self.group_path.stem)


if __name__ == "__main__":
    unittest.main()
