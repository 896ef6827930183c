"""Keys, and the text of a key."""

from typing import Union

from ._library import Data, Key, call, frozen


def key_from_text(text: Union[str, Data], key_length: int) -> bytes:
    """The key that this is the text of, with as many bytes as the key length says.

    The text has two hex digits for each byte, in either case, and nothing else. A key is never cut
    or filled up. Refused with 11 where the key length is not 1 to 16, with 60 where the text has
    another length, and with 61 at the first character that is no hex digit.

    >>> key_from_text("00Ff", 2)
    b'\\x00\\xff'
    >>> key_from_text("417", 2)
    Traceback (most recent call last):
    dwarnizza.refusal.Refusal: refused 60: key text not two characters for each byte of the key
    """
    # Any character that is not ASCII is no hex digit, also one that UTF-8 does not have.
    digits = text.encode("utf-8", "surrogatepass") if isinstance(text, str) else frozen(text)
    key = Key()
    _, words = call("key_text", digits, key_length, key)
    return bytes(key[: words[0]])
