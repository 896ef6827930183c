"""Worklists and file numbers."""

import csv
import io
import itertools
import pickle
import random
import struct
import unittest
from typing import List, Optional, Tuple

import sample
from dwarnizza import Field, NotFileNumber, NumberFault, Root, Worklist, file_number

# Start, end, next, fields and place where it is malformed, of each row.
Told = List[Tuple[int, int, int, int, Optional[int]]]


def told(text: bytes, separator: str = ",") -> Told:
    return [tuple(row)[1:] for row in Worklist(text, separator).rows()]


def contents(text: bytes, separator: str = ",") -> List[List[bytes]]:
    rows = Worklist(text, separator).rows()
    return [[row.field(column).content() for column in range(row.fields)] for row in rows]


class Rows(unittest.TestCase):
    def test_rows_have_their_places(self) -> None:
        self.assertEqual(told(b'a,"b,c"\nd'), [(0, 7, 8, 2, None), (8, 9, 9, 1, None)])
        self.assertEqual(told(b'"a"x,b\r\nc'), [(0, 6, 8, 0, 3), (8, 9, 9, 1, None)])
        self.assertEqual(told(b'x,"y\nz'), [(0, 4, 5, 0, 2), (5, 6, 6, 1, None)])
        self.assertEqual(told(b""), [])

    def test_every_line_end(self) -> None:
        for end in (b"\n", b"\r\n", b"\r"):
            for last in (b"", end):
                text = b"1,2" + end + end + b"3" + last
                self.assertEqual(contents(text), [[b"1", b"2"], [b""], [b"3"]])

    def test_the_rows_with_their_line_ends_are_the_text(self) -> None:
        signs, choose = b'a1,"""\r\n', random.Random(417)
        for _ in range(2000):
            text = bytes(choose.choices(signs, k=choose.randrange(30)))
            rows = list(Worklist(text).rows())
            joined = b"".join(row.data() + text[row.end : row.next] for row in rows)
            self.assertEqual(joined, text)
            for row in rows:
                fields = [row.field(column) for column in range(row.fields)]
                whole = b",".join(field.data for field in fields)
                self.assertEqual(whole, b"" if row.malformed is not None else row.data())

    def test_a_field_has_its_place(self) -> None:
        row = next(Worklist(b'417;"x"";y"\n', ";").rows())
        self.assertEqual(row.field(0), Field(0, b"417", False))
        self.assertEqual(row.field(1), Field(4, b'"x"";y"', True))
        self.assertEqual(row.field(1).content(), b'x";y')
        self.assertIsNone(row.field(2))
        self.assertIsNone(next(Worklist(b'417,"').rows()).field(0))

    def test_a_separator_is_one_character(self) -> None:
        for separator in (";", b";", "\t", "\0", "\xff"):
            text = b"4" + bytes([ord(separator)]) + b"2"
            self.assertEqual(contents(text, separator), [[b"4", b"2"]])
        for wrong in ("", ";;", 59, None):
            with self.assertRaises(TypeError):
                Worklist(b"", wrong)

    def test_every_dialect_of_python_is_read(self) -> None:
        choose, ends = random.Random(418), ("\n", "\r\n", "\r")
        quotings = csv.QUOTE_ALL, csv.QUOTE_NONNUMERIC
        for delimiter, end, quoting in itertools.product(",;\t|", ends, quotings):
            rows = [self.random_row(choose) for _ in range(40)]
            text = io.StringIO(newline="")
            dialect = {"delimiter": delimiter, "lineterminator": end, "quoting": quoting}
            csv.writer(text, **dialect).writerows(rows)
            expected = [[str(field).encode() for field in row] for row in rows]
            self.assertEqual(contents(text.getvalue().encode(), delimiter), expected)

    def random_row(self, choose: random.Random) -> List[object]:
        signs = 'a1 ,;\t|"\r\n\u00e9'
        texts = ["".join(choose.choices(signs, k=choose.randrange(5))) for _ in range(3)]
        return [*texts, choose.randrange(2**32)]


class FileNumbers(unittest.TestCase):
    def test_a_number_has_one_text(self) -> None:
        for number in (0, 1, 9, 10, 417, 2**31, 2**32 - 1):
            for text in (str(number), str(number).encode(), bytearray(str(number).encode())):
                self.assertEqual(file_number(text), number)

    def test_other_texts_are_told(self) -> None:
        for text, fault, place in [
            ("", NumberFault.EMPTY, 0),
            ("00417", NumberFault.LEADING_ZERO, 0),
            ("4.17E+2", NumberFault.NO_DIGIT, 1),
            ("417 ", NumberFault.NO_DIGIT, 3),
            ("41\uff17", NumberFault.NO_DIGIT, 2),
            ("4\udcff", NumberFault.NO_DIGIT, 1),
            ("4294967296", NumberFault.TOO_GREAT, 9),
        ]:
            with self.assertRaises(NotFileNumber) as raised:
                file_number(text)
            self.assertEqual((raised.exception.fault, raised.exception.place), (fault, place))
            self.assertIsInstance(raised.exception, ValueError)

    def test_what_is_no_text_is_a_type_error(self) -> None:
        for wrong in (417, None, ["4"]):
            with self.assertRaises(TypeError):
                file_number(wrong)

    def test_a_fault_goes_to_another_process(self) -> None:
        wrong = pickle.loads(pickle.dumps(NotFileNumber(NumberFault.NO_DIGIT, 3)))
        self.assertEqual((wrong.fault, wrong.place), (NumberFault.NO_DIGIT, 3))


class ManyNumbers(unittest.TestCase):
    def test_each_is_as_a_single_search_finds_it(self) -> None:
        numbers = {int(file["number"]) for file in sample.files()}
        beside = {min(number + 1, 2**32 - 1) for number in numbers}
        sought = sorted([0, *numbers, *numbers, *beside])
        for name, locale in itertools.product(sample.ROOTS, (0x2, 0x20, 0xFFFFFFFF)):
            root = Root.check(sample.read(name))
            found = [root.find(number, locale) for number in sought]
            keys = [record.key if record else None for record in found]
            self.assertEqual(root.find_many(sought, locale), keys)
            self.assertIn(None, keys)
        self.assertEqual(root.find_many([]), [])
        self.assertEqual(root.find_many(iter([417])), [root.find(417).key])

    def test_unwanted_content_is_left_out(self) -> None:
        # A file without a magic: the id 5 with content flag 8 for the locale 2.
        root = Root.check(struct.pack("<4I", 1, 8, 2, 5) + b"\x07" * 24)
        for locale, unwanted, key in [(2, 0, b"\x07" * 16), (4, 0, None), (2, 8, None)]:
            self.assertEqual(root.find_many([4, 5], locale, unwanted), [None, key])


if __name__ == "__main__":
    unittest.main()
