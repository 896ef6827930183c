"""Random lists as Python's csv module writes them, with what was meant.

lists.py KIND COUNT ROWS SEED prints COUNT lists of up to ROWS rows, of keys or of paths. For each: the
separator, the column, the text, and of each row how many fields it has and what stands in the column.
"""

import csv
import io
import random
import sys

KEYS = [f"{number << 64 | 0xABC:032x}" for number in range(6)]
PLAIN = ["", "417", "0", "00417", "4294967296", " 417", "417 ", "O417", "id", "FileDataID", "key", "x", "é", "４１７", "=1", "a b"]
PLAIN += KEYS + [key.upper() for key in KEYS] + [key[1:] for key in KEYS]
# Lone surrogates stand for bytes that are no UTF-8.
PATHS = ["", "path", "Name", "names.txt", "417", "=1", "x" * 1024, "X" * 1024, "x" * 1025, "a\u202eb/c", "C:\\x.blp", "a/b/c", "a\\b/c"]
PATHS += ["Interface\\Icons\\A.blp", "interface/icons/a.blp", "INTERFACE\\ICONS/A.BLP", "/Interface/Icons/A.blp", "Interface/Icons/A.blp "]
PATHS += ["World\\B C\\B.adt", "world/b c/b.ADT", "É\\é.m2", "é/É.M2", "É/é.M2", "\udcff\\x.m2", "\udcff/X.m2", "\udcfe/X.m2", "\x00/\x7f"]
# A quote makes every dialect quote the field, whatever the line end of the list.
QUOTED = [",", ";", "\t", "|", "1,349,477", "a;b", "1|2", "\t417", '"', '""', '"417"', 'a"\nb', '"\r', '"\r\n', '\n"\n', '",\n', '"\r417']


def quotings(plain):
    """How fields are quoted: the way, the quote, and the fields that such lists may have."""
    special = plain + QUOTED
    return [
        (csv.QUOTE_MINIMAL, '"', special),
        (csv.QUOTE_ALL, '"', special),
        (csv.QUOTE_NONNUMERIC, '"', special + [0, 417, 53183, 1.5]),
        (csv.QUOTE_NONE, None, plain + ['a"b', 'a""', 'x"']),
    ]


QUOTINGS = {"keys": quotings(PLAIN), "paths": quotings(PATHS)}


def rows_of(chance, most, pool):
    """Rows of mostly the same number of fields, some of them empty."""
    fields = chance.randint(1, 4)
    rows = []
    for _ in range(chance.randint(1, most)):
        kind = chance.random()
        count = 0 if kind < 0.05 else chance.randint(1, 5) if kind < 0.15 else fields
        rows.append(chance.choices(pool, k=count))
    return rows


def one(kind, chance, most):
    quoting, quote, pool = chance.choice(QUOTINGS[kind])
    rows = rows_of(chance, most, pool)
    if quoting == csv.QUOTE_NONE:
        # This dialect has no text for a row of one empty field.
        rows = [["x"] if row == [""] else row for row in rows]
    text = io.StringIO()
    separator, end = chance.choice(",;\t|"), chance.choice(["\n", "\r\n", "\r"])
    writer = csv.writer(text, delimiter=separator, lineterminator=end, quoting=quoting, quotechar=quote, doublequote=True)
    if quoting == csv.QUOTE_NONE:
        rows = [[field.replace(separator, "") for field in row] for row in rows]
    writer.writerows(rows)
    text = text.getvalue()
    if chance.random() < 0.3 and text.endswith(end) and rows[-1]:
        text = text[: -len(end)]
    return separator, rows, text


def number(value):
    return value.to_bytes(4, "big")


def part(text):
    data = text.encode("utf-8", "surrogateescape")
    return number(len(data)) + data


def printed(kind, chance, most):
    separator, rows, text = one(kind, chance, most)
    first = next((row for row in rows if row), [""])
    column = chance.randrange(len(first))
    out = [separator.encode(), number(column), part(text), number(len(rows))]
    for row in rows:
        out += [number(len(row)), part(str(row[column])) if column < len(row) else number(0)]
    return b"".join(out)


def main():
    kind, (count, most, seed) = sys.argv[1], map(int, sys.argv[2:])
    chance = random.Random(seed)
    for _ in range(count):
        sys.stdout.buffer.write(printed(kind, chance, most))


main()
