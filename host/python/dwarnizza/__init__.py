"""Dwarnizza reads and writes CASC/TACT files: archive indexes, encoding files, root files and BLTE
envelopes.

A file is checked first, and what it holds is asked of the checked file:

>>> from dwarnizza import Index, Settings, write_index
>>> data = write_index(Settings(version=1, offset_width=4, key_length=16), b"")
>>> index = Index.check(data)
>>> index.find(bytes(16)) is None
True

What the library refuses is the exception `Refusal`, with a number, a place and in a chain the link.

Files are bytes-like objects: bytes, bytearray, memoryview, mmap. Those that cannot be written to
are lent to the library as they are; others are copied once, so that nothing changes under a checked
file. The file below a read-only mmap must not change either. Calls may run side by side in threads.
"""

try:
    from ._header import VERSION as __version__
except ImportError:
    raise ImportError("this folder has the sources: host/python/build.py makes the package") from None

from .chain import Build, Resolved, UncheckedBuild
from .encoding import CheckedEncoding, ContentEntry, Encoding, EncodingEntry, UncheckedEncoding
from .envelope import CheckedEnvelope, Envelope
from .file_number import NotFileNumber, NumberFault, file_number
from .hashing import Md5, md5
from .index import (
    CheckedIndex,
    Entry,
    Footer,
    Index,
    IndexEntry,
    Lookup,
    PageParts,
    Settings,
    Summary,
    UncheckedIndex,
    entry_bytes,
    listing,
    write_index,
    write_index_into,
    written_length,
)
from .key import key_from_text
from .name_hash import name_hash
from .refusal import Link, Reason, Refusal
from .root import ALL_LOCALES, CheckedRoot, PathRecord, Record, Root
from .worklist import Field, Row, Worklist

__all__ = [
    "ALL_LOCALES",
    "Build",
    "CheckedEncoding",
    "CheckedEnvelope",
    "CheckedIndex",
    "CheckedRoot",
    "ContentEntry",
    "Encoding",
    "EncodingEntry",
    "Entry",
    "Envelope",
    "Field",
    "Footer",
    "Index",
    "IndexEntry",
    "Link",
    "Lookup",
    "Md5",
    "NotFileNumber",
    "NumberFault",
    "PageParts",
    "PathRecord",
    "Reason",
    "Record",
    "Refusal",
    "Resolved",
    "Root",
    "Row",
    "Settings",
    "Summary",
    "UncheckedBuild",
    "UncheckedEncoding",
    "UncheckedIndex",
    "Worklist",
    "entry_bytes",
    "file_number",
    "key_from_text",
    "listing",
    "md5",
    "name_hash",
    "write_index",
    "write_index_into",
    "written_length",
]
