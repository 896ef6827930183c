"""MD5 against hashlib."""

import hashlib
import random
import unittest

import dwarnizza


class Hashing(unittest.TestCase):
    def setUp(self) -> None:
        self.source = random.Random(1321)
        self.data = bytes(self.source.getrandbits(8) for _ in range(5000))

    def test_every_length_has_the_digest_of_hashlib(self) -> None:
        for length in range(300):
            data = self.data[:length]
            self.assertEqual(dwarnizza.md5(data), hashlib.md5(data).digest())
        self.assertEqual(dwarnizza.md5(self.data), hashlib.md5(self.data).digest())

    def test_any_cutting_gives_the_digest_of_the_whole(self) -> None:
        for _ in range(200):
            state, expected, at = dwarnizza.Md5(), hashlib.md5(), 0
            while at < len(self.data):
                end = at + self.source.choice([0, 1, 55, 63, 64, 65, 1000])
                state.update(self.data[at:end])
                expected.update(self.data[at:end])
                at = end
            self.assertEqual(state.digest(), expected.digest())

    def test_a_digest_leaves_the_state(self) -> None:
        state = dwarnizza.Md5()
        state.update(b"one")
        self.assertEqual(state.digest(), state.digest())
        state.update(b"two")
        self.assertEqual(state.digest(), hashlib.md5(b"onetwo").digest())

    def test_a_copy_goes_its_own_way(self) -> None:
        state = dwarnizza.Md5()
        state.update(self.data[:100])
        other = state.copy()
        other.update(self.data[100:])
        self.assertEqual(state.digest(), hashlib.md5(self.data[:100]).digest())
        self.assertEqual(other.digest(), hashlib.md5(self.data).digest())


if __name__ == "__main__":
    unittest.main()
