"""Every number of the header is refused by a call that can refuse with it, at its place."""

import pickle
import struct
import unittest
from typing import Callable, List, Optional, Tuple

import forge
from dwarnizza import (
    Build,
    Encoding,
    Envelope,
    Index,
    Link,
    Md5,
    Reason,
    Refusal,
    Root,
    Settings,
    UncheckedBuild,
    Worklist,
    entry_bytes,
    key_from_text,
    listing,
    name_hash,
    write_index,
    write_index_into,
    written_length,
)

# A number, its place, and the call that refuses so.
Case = Tuple[int, int, Callable[[], object]]

SETTINGS = Settings(version=1, offset_width=4, key_length=1)
ENTRIES = [bytes([key, 0, 0, 0, 7, 0, 0, 0, key]) for key in (5, 6)]
PAGE = b"".join(ENTRIES).ljust(forge.PAGE, b"\0")
INDEX = forge.index(ENTRIES)

CONTENT = forge.content_entry(b"\x05", [b"\xa1"])
ENCODED = forge.encoding_entry(b"\xa1")
ENCODING = forge.encoding([CONTENT], [ENCODED])

ENVELOPE = forge.envelope([b"None", b"Ntwo"])
BLOCK = forge.block([5], [b"\x07" * 16])


def changed(data: bytes, at: int) -> bytes:
    """The data with another byte at a place, which counts from the end where it is negative."""
    at %= len(data)
    return data[:at] + bytes([data[at] ^ 0xFF]) + data[at + 1 :]


def index_checks() -> List[Case]:
    many = PAGE + forge.footer(8_388_609, b"")
    padding = changed(PAGE, 100)
    falling = forge.index(ENTRIES[::-1])
    return [
        (1, 0, lambda: Index.check(b"")),
        (102, 8, lambda: Index.check(forge.footer(0, b"", version=2))),
        (103, 9, lambda: Index.check(changed(changed(INDEX, -19), -18))),
        (103, 10, lambda: Index.check(changed(INDEX, -18))),
        (104, 11, lambda: Index.check(changed(INDEX, -17))),
        (105, 12, lambda: Index.check(forge.footer(0, b"", offset_width=7))),
        (106, 13, lambda: Index.check(changed(INDEX, -15))),
        (107, 14, lambda: Index.check(forge.footer(0, b"", key_length=17))),
        (108, 15, lambda: Index.check(changed(INDEX, -13))),
        (3, 0, lambda: Index.check(changed(INDEX, len(INDEX) - 1))),
        (4, 0, lambda: Index.check(many)),
        (5, 0, lambda: Index.check(INDEX[1:])),
        (6, 0, lambda: Index.check(changed(INDEX, 0))),
        (7, 0, lambda: Index.check(forge.sealed([padding], [b"\x06"], 2))),
        (8, 1, lambda: Index.check(falling)),
        (9, 0, lambda: Index.check(forge.sealed([PAGE], [b"\x07"], 2))),
        (8, 1, lambda: listing(falling)),
        (70, 0, lambda: listing(bytes(65_537))),
    ]


def index_calls() -> List[Case]:
    index, unchecked = Index.check(INDEX), Index.unchecked(INDEX[1:])
    return [
        (10, 0, lambda: index.find(b"\x05\x00")),
        (10, 0, lambda: index.lookup(b"")),
        (13, 0, lambda: index.list_into(bytearray(17))),
        (5, 0, lambda: unchecked.find(b"\x05")),
        (5, 0, lambda: unchecked.entry_at(0, 0)),
        (5, 0, lambda: unchecked.page(0)),
        (5, 0, lambda: unchecked.bound),
        (5, 0, lambda: unchecked.summary),
        (4, 0, lambda: Index.unchecked(forge.footer(8_388_609, b"")).footer()),
    ]


def writer() -> List[Case]:
    listed = b"".join(ENTRIES)
    wrong = SETTINGS._replace(version=2)
    return [
        (11, 0, lambda: write_index(wrong, listed)),
        (11, 0, lambda: written_length(wrong, listed)),
        (12, 0, lambda: write_index(SETTINGS, listed[1:])),
        (4, 0, lambda: write_index(SETTINGS, bytes(9 * 8_388_609))),
        (8, 1, lambda: write_index(SETTINGS, b"".join(ENTRIES[::-1]))),
        (13, 0, lambda: write_index_into(SETTINGS, listed, bytearray(len(INDEX) - 1))),
        (11, 0, lambda: entry_bytes(SETTINGS, b"\x05", 7, archive=1, offset=0)),
        (10, 0, lambda: entry_bytes(SETTINGS, b"", 7, archive=0, offset=0)),
    ]


def envelopes() -> List[Case]:
    key = forge.envelope_key(ENVELOPE)
    header = len(ENVELOPE) - 8
    mode = forge.envelope([b"None", b"Ztwo"])
    size = forge.envelope([b"None", b"Ntwo"], decoded=[3, 4])
    flags = forge.envelope([b"None"], flags=0x10)
    envelope = Envelope.check(ENVELOPE, key)
    return [
        (20, 0, lambda: Envelope.check(b"BLT", key)),
        (20, 0, lambda: Envelope.key_of(b"BLT")),
        (21, 0, lambda: Envelope.check(flags, key)),
        (22, 0, lambda: Envelope.check(ENVELOPE[:-1], key)),
        (23, 1, lambda: Envelope.check(changed(ENVELOPE, header + 4), key)),
        (24, 1, lambda: Envelope.check(mode, forge.envelope_key(mode))),
        (25, 1, lambda: Envelope.check(size, forge.envelope_key(size))),
        (26, 0, lambda: envelope.content_into(bytearray(5))),
        (27, 0, lambda: Envelope.check(ENVELOPE, bytes(16))),
        (27, 0, lambda: Envelope.check(ENVELOPE, key[:15])),
    ]


def encoding_checks() -> List[Case]:
    over = CONTENT + b"\xff" * (1024 - len(CONTENT))
    falling = [forge.content_entry(b"\x05", [b"\xa1"]), forge.content_entry(b"\x04", [b"\xa1"])]
    first_key = forge.encoding([CONTENT], [ENCODED], first_keys=[b"\x04"])
    spec_number = forge.encoding([CONTENT], [forge.encoding_entry(b"\xa1", 2)])
    page_at = 22 + 4 + 17
    return [
        (30, 0, lambda: Encoding.check(b"EN")),
        (31, 0, lambda: Encoding.check(changed(ENCODING, 2))),
        (32, 0, lambda: Encoding.check(ENCODING[:-1])),
        (33, 0, lambda: Encoding.check(forge.encoding([CONTENT], [ENCODED], specs=b"n\0z"))),
        (34, 0, lambda: Encoding.check(changed(ENCODING, page_at))),
        (35, 0, lambda: Encoding.check(forge.encoding([over], [ENCODED]))),
        (36, 1, lambda: Encoding.check(forge.encoding(falling, [ENCODED]))),
        (37, 0, lambda: Encoding.check(first_key)),
        (38, 0, lambda: Encoding.check(spec_number)),
    ]


def encoding_calls() -> List[Case]:
    encoding = Encoding.check(ENCODING)
    over = CONTENT + b"\xff" * (1024 - len(CONTENT))
    damaged = Encoding.unchecked(forge.encoding([over], [forge.encoding_entry(b"\xa1", 2)]))
    return [
        (39, 0, lambda: encoding.find_content(b"\x05\x00")),
        (39, 0, lambda: encoding.find_encoding(b"")),
        (38, 0, lambda: encoding.spec(2)),
        (35, 0, lambda: damaged.find_content(b"\x06")),
        (38, 0, lambda: damaged.find_encoding(b"\xa1")),
        (30, 0, lambda: Encoding.unchecked(b"").spec(0)),
    ]


def roots() -> List[Case]:
    below = struct.pack("<3Ii", 1, 0, 2, -1) + bytes(24)
    return [
        (40, len(BLOCK), lambda: Root.check(BLOCK + BLOCK[:-1])),
        (41, len(BLOCK), lambda: Root.check(BLOCK + below)),
        (42, 0, lambda: Root.check(b"TSFM" + struct.pack("<3I", 19, 1, 0))),
        (43, 0, lambda: Root.check(b"TSFM" + struct.pack("<3I", 20, 1, 0))),
        (44, 0, lambda: Root.check(b"TSFM" + struct.pack("<3I", 24, 4, 0))),
        (110, 0, lambda: name_hash(bytes(1025))),
        (110, 0, lambda: Root.check(BLOCK).find_path("a" * 1025)),
        (161, 2, lambda: Root.check(BLOCK).find_many([5, 5, 4])),
    ]


def hash_limit() -> None:
    state = Md5()
    state._count.value = 2**48
    state.update(b"")
    state.update(b"x")


def keys() -> List[Case]:
    return [
        (11, 0, lambda: key_from_text("", 0)),
        (60, 0, lambda: key_from_text("00417", 16)),
        (61, 3, lambda: key_from_text("000g", 2)),
        (50, 0, hash_limit),
    ]


def worklists() -> List[Case]:
    return [(11, 0, lambda of=of: Worklist(b"417", of)) for of in ('"', "\r", "\n", "\u0100")]


def refusal_of(call: Callable[[], object]) -> Optional[Refusal]:
    """What a call refuses with."""
    try:
        call()
    except Refusal as refusal:
        return refusal
    return None


class Refusals(unittest.TestCase):
    def cases(self) -> List[Case]:
        indexes = index_checks() + index_calls() + writer()
        encodings = encoding_checks() + encoding_calls()
        return indexes + envelopes() + encodings + roots() + keys() + worklists()

    def test_each_call_refuses_with_its_number_and_place(self) -> None:
        for case, (number, place, call) in enumerate(self.cases()):
            with self.subTest(case=case, number=number):
                refusal = refusal_of(call)
                self.assertIsNotNone(refusal)
                told = (refusal.number, refusal.place, refusal.link)
                self.assertEqual(told, (number, place, None))

    def test_every_number_is_tried(self) -> None:
        self.assertEqual({number for number, _, _ in self.cases()}, set(Reason))

    def test_the_chain_tells_the_link(self) -> None:
        root = forge.block([5], [b"\x05" * 16])
        content = forge.content_entry(b"\x05" * 16, [b"\xa1"])
        encoding = forge.encoding([content], [ENCODED], key_length=16)
        index = forge.index([bytes([0xA1, 0]) + bytes(8)], key_length=2)
        for files, number, place, link in [
            ((root + root[:-1], encoding, index), 40, len(root), Link.ROOT),
            ((root, ENCODING, index), 39, 0, Link.ENCODING),
            ((root, encoding, index), 10, 0, Link.INDEX),
        ]:
            refusal = refusal_of(lambda: UncheckedBuild(*files).resolve(5))
            self.assertEqual((refusal.number, refusal.place, refusal.link), (number, place, link))
        build = Build(Root.check(root), Encoding.check(encoding), Index.check(index))
        self.assertEqual(refusal_of(lambda: build.resolve(5)).link, Link.INDEX)

    def test_the_output_of_a_refused_call_keeps_its_bytes(self) -> None:
        envelope = Envelope.check(ENVELOPE, forge.envelope_key(ENVELOPE))
        for call, room in [
            (Index.check(INDEX).list_into, 17),
            (envelope.content_into, 5),
            (lambda output: write_index_into(SETTINGS, b"".join(ENTRIES), output), 100),
        ]:
            output = bytearray(b"\xee" * room)
            self.assertIsNotNone(refusal_of(lambda: call(output)))
            self.assertEqual(output, b"\xee" * room)

    def test_a_refusal_has_words(self) -> None:
        refusal = Refusal(40, 12, Link.ROOT)
        self.assertEqual(refusal.reason, Reason.BLOCK_CUT)
        words = "refused 40 at 12 by the root file: block cut (block at byte 12)"
        self.assertEqual(str(refusal), words)
        self.assertEqual(refusal.words, "block cut")

    def test_a_refusal_goes_to_another_process(self) -> None:
        refusal = pickle.loads(pickle.dumps(Refusal(8, 3, Link.INDEX)))
        self.assertEqual((refusal.number, refusal.place, refusal.link), (8, 3, Link.INDEX))


if __name__ == "__main__":
    unittest.main()
