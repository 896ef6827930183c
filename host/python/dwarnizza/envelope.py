"""BLTE envelopes of plain chunks."""

from ._library import Data, File, Key, call, frozen


class CheckedEnvelope(File):
    """An envelope that passed every check, which are made where this is made: it has this key, and
    the hashes, modes and sizes of its chunks are right.

    >>> from dwarnizza import md5
    >>> data = b"BLTE\\0\\0\\0\\0NA"
    >>> envelope = CheckedEnvelope(data, md5(data))
    >>> len(envelope), envelope.content()
    (1, b'A')
    """

    def __init__(self, data: Data, key: Data) -> None:
        super().__init__(data)
        self._key = memoryview(key).tobytes()
        self._length = call("envelope_length", self._data, self._key)[1][0]

    @property
    def key(self) -> bytes:
        """The key of the envelope."""
        return self._key

    def __len__(self) -> int:
        return self._length

    def content(self) -> bytes:
        """The content of the chunks, in order."""
        output = bytearray(self._length)
        self.content_into(output)
        return bytes(output)

    def content_into(self, output: Data) -> int:
        """Writes the content to the start of an output, and tells its length. Refused with 26 where
        the output is shorter; it is then as it was."""
        return call("envelope_open", self._data, self._key, output)[1][0]


class Envelope:
    """The ways to an envelope from its bytes.

    >>> data = b"BLTE\\0\\0\\0\\0NA"
    >>> Envelope.check(data, Envelope.key_of(data)).content()
    b'A'
    """

    @staticmethod
    def check(data: Data, key: Data) -> CheckedEnvelope:
        """Makes every check, with the key that the envelope must have. Refused with 20, 21, 22, 27
        (50 where there is no chunk table and the file is above 2^48 bytes), then chunk by chunk
        with 23, 24, 25."""
        return CheckedEnvelope(data, key)

    @staticmethod
    def key_of(data: Data) -> bytes:
        """The key of an envelope; its chunks are not judged. Refused with 20, 21, 22 and 50."""
        key = Key()
        call("envelope_key", frozen(data), key)
        return bytes(key)
