"""Name hashes: what stands for a path in a root file."""

from typing import Union

from ._library import Data, call, frozen


def path_bytes(path: Union[str, Data]) -> Data:
    """The bytes of a path: a str is encoded as UTF-8, and one that UTF-8 does not have is a
    UnicodeEncodeError."""
    return path.encode("utf-8") if isinstance(path, str) else frozen(path)


def name_hash(path: Union[str, Data]) -> int:
    """The name hash of a path. A str is taken as its bytes in UTF-8.

    Capitals and small letters from a to z count alike, and so do slashes and backslashes. All other
    bytes count as they are, those above 127 too. Refused with 110 above 1,024 bytes.

    >>> hex(name_hash("Interface\\\\Icons\\\\INV_Misc_QuestionMark.blp"))
    '0x9eb59e3c76124837'
    >>> hex(name_hash(b"interface/icons/inv_misc_questionmark.blp"))
    '0x9eb59e3c76124837'
    >>> name_hash("a" * 1025)
    Traceback (most recent call last):
    dwarnizza.refusal.Refusal: refused 110: path above 1,024 bytes
    """
    _, words = call("name_hash", path_bytes(path))
    return words[0]
