"""Files made by hashlib and not by the library, so that each may be wrong in one way."""

import struct
from hashlib import md5
from typing import List, Optional, Sequence

PAGE = 4096


def footer(
    count: int, contents: bytes, version: int = 1, offset_width: int = 4, key_length: int = 1
) -> bytes:
    """The footer of an index whose last keys and page hashes are these contents."""
    fields = bytes([version, 0, 0, 4, offset_width, 4, key_length, 8]) + struct.pack("<I", count)
    return md5(contents).digest()[:8] + fields + md5(fields + bytes(8)).digest()[:8]


def sealed(pages: Sequence[bytes], last_keys: Sequence[bytes], count: int, **fields: int) -> bytes:
    """An index of these pages, with right hashes."""
    hashes = [md5(page).digest()[:8] for page in pages]
    contents = b"".join([*last_keys, *hashes])
    return b"".join(pages) + contents + footer(count, contents, **fields)


def index(
    entries: Sequence[bytes], version: int = 1, offset_width: int = 4, key_length: int = 1
) -> bytes:
    """The index of entries, in whatever order they are."""
    room = PAGE // (key_length + 4 + offset_width)
    parts = [entries[at : at + room] for at in range(0, len(entries), room)]
    pages = [b"".join(part).ljust(PAGE, b"\0") for part in parts]
    last_keys = [part[-1][:key_length] for part in parts]
    fields = {"version": version, "offset_width": offset_width, "key_length": key_length}
    return sealed(pages, last_keys, len(entries), **fields)


def envelope(
    chunks: Sequence[bytes], decoded: Optional[Sequence[int]] = None, flags: int = 0x0F
) -> bytes:
    """An envelope with a table of these chunks; a decoded size is that of the content."""
    sizes = decoded or [len(chunk) - 1 for chunk in chunks]
    rows = [
        struct.pack(">II", len(chunk), size) + md5(chunk).digest()
        for chunk, size in zip(chunks, sizes)
    ]
    front = b"BLTE" + struct.pack(">I", 12 + 24 * len(chunks))
    return front + bytes([flags]) + len(chunks).to_bytes(3, "big") + b"".join(rows + list(chunks))


def envelope_key(data: bytes) -> bytes:
    """The key of an envelope with a table."""
    return md5(data[: int.from_bytes(data[4:8], "big")]).digest()


def content_entry(key: bytes, encoding_keys: Sequence[bytes], size: int = 7) -> bytes:
    """An entry of a content page."""
    return bytes([len(encoding_keys)]) + size.to_bytes(5, "big") + key + b"".join(encoding_keys)


def encoding_entry(key: bytes, spec: int = 0, size: int = 9) -> bytes:
    """An entry of an encoding page."""
    return key + struct.pack(">I", spec) + size.to_bytes(5, "big")


def _table(pages: Sequence[bytes], first_keys: Sequence[bytes]) -> bytes:
    whole = [page.ljust(1024, b"\0") for page in pages]
    rows = [key + md5(page).digest() for key, page in zip(first_keys, whole)]
    return b"".join(rows + whole)


def encoding(
    content: Sequence[bytes],
    encoded: Sequence[bytes],
    key_length: int = 1,
    specs: bytes = b"n\0z\0",
    first_keys: Optional[List[bytes]] = None,
) -> bytes:
    """An encoding file of pages of 1 KB, with right hashes; the encoding keys have one byte."""
    firsts = first_keys or [page[6 : 6 + key_length] for page in content]
    counts = struct.pack(">HHII", 1, 1, len(content), len(encoded))
    header = b"EN" + bytes([1, key_length, 1]) + counts + b"\0" + struct.pack(">I", len(specs))
    tables = _table(content, firsts) + _table(encoded, [page[:1] for page in encoded])
    return header + specs + tables


def block(
    ids: Sequence[int],
    keys: Sequence[bytes],
    content: int = 0,
    locale: int = 2,
    name_hashes: Optional[Sequence[int]] = None,
) -> bytes:
    """A block of a root file without a magic; the name hashes are zeros where none are given."""
    before = [-1, *ids]
    deltas = [number - last - 1 for last, number in zip(before, ids)]
    front = struct.pack("<3I", len(ids), content, locale)
    hashes = name_hashes or [0] * len(ids)
    records = (key + struct.pack("<Q", name_hash) for key, name_hash in zip(keys, hashes))
    return front + struct.pack(f"<{len(ids)}i", *deltas) + b"".join(records)
