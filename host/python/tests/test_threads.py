"""Calls run side by side."""

import hashlib
import unittest
from concurrent.futures import ThreadPoolExecutor

import sample
from dwarnizza import Build, Encoding, Index, Md5, Root, md5

THREADS = 8


class Threads(unittest.TestCase):
    def test_threads_share_checked_files(self) -> None:
        root, encoding = Root.check(sample.read("root-v1")), Encoding.check(sample.read("encoding"))
        (path,) = (sample.SAMPLE / "group").iterdir()
        build = Build(root, encoding, Index.check(path.read_bytes()))
        numbers = [int(file["number"]) for file in sample.files()] * 20
        alone = [build.resolve(number) for number in numbers]
        with ThreadPoolExecutor(THREADS) as threads:
            self.assertEqual(list(threads.map(build.resolve, numbers)), alone)

    def test_threads_hash_side_by_side(self) -> None:
        messages = [bytes([number]) * 100_000 for number in range(100)]
        with ThreadPoolExecutor(THREADS) as threads:
            digests = list(threads.map(md5, messages))
        self.assertEqual(digests, [hashlib.md5(message).digest() for message in messages])

    def test_a_state_takes_parts_from_many_threads(self) -> None:
        state, part = Md5(), b"part" * 1000
        with ThreadPoolExecutor(THREADS) as threads:
            list(threads.map(state.update, [part] * 500))
        self.assertEqual(state.digest(), hashlib.md5(part * 500).digest())


if __name__ == "__main__":
    unittest.main()
