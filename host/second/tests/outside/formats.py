"""The formats with Python's struct and hashlib, from the texts of 002, 003, 004 and the TACT page.

    formats.py md5 < bytes             the MD5 of the first 0, 1, 2, .. 300 bytes, then of all
    formats.py index V W K < list      the archive index of a list
    formats.py envelope S .. < chunks  the envelope of chunks of these sizes, after its key
    formats.py encoding < file         a line for each page and each entry
    formats.py root < file             a line for each record
    formats.py csv < seed              texts by csv.writer, each with a line for each row's fields
"""

import csv
import hashlib
import io
import itertools
import random
import struct
import sys


def md5(data):
    return hashlib.md5(data).digest()


def parts(data, size):
    return [data[at : at + size] for at in range(0, len(data), size)]


def index(data, version, offset_bytes, ekey_length):
    chunks = []
    entry = ekey_length + 4 + offset_bytes
    for entries in parts(data, 4096 // entry * entry):
        last = entries[-entry:][:ekey_length]
        chunks.append((entries.ljust(4096, b"\0"), last))
    pages = [page for page, _ in chunks]
    toc = b"".join(last for _, last in chunks) + b"".join(md5(page)[:8] for page in pages)
    count = len(data) // entry
    fields = struct.pack("<B2xBBBBBI", version, 4, offset_bytes, 4, ekey_length, 8, count)
    return b"".join(pages) + toc + md5(toc)[:8] + fields + md5(fields + bytes(8))[:8]


def envelope(data, sizes):
    rows, at = b"", 0
    for size in sizes:
        rows += struct.pack(">II", size, size - 1) + md5(data[at : at + size])
        at += size
    count = struct.pack(">I", len(sizes))[1:]
    header = b"BLTE" + struct.pack(">I", 12 + len(rows)) + b"\x0f" + count + rows
    return md5(header) + header + data


def encoding(data):
    header = struct.Struct(">2sBBBHHIIBI")
    _, _, ckey, ekey, ckb, ekb, cpages, epages, _, espec = header.unpack_from(data)
    at = header.size + espec
    specs = data[header.size : at].split(b"\0")
    lines = []
    for kind, size, kb, count in ("content", ckey, ckb, cpages), ("encoding", ekey, ekb, epages):
        rows = parts(data[at : at + (size + 16) * count], size + 16)
        at += (size + 16) * count
        for row in rows:
            page = data[at : at + kb * 1024]
            at += kb * 1024
            said = "as said" if md5(page) == row[size:] else "another"
            lines.append(f"{kind} page {row[:size].hex()} {said}")
            lines += content(page, ckey, ekey) if kind == "content" else coded(page, ekey, specs)
    return lines + ["own spec " + data[at:].decode()]


def content(page, ckey, ekey):
    at = 0
    while at < len(page) and page[at]:
        count, high, low = struct.unpack_from(">BBI", page, at)
        keys = page[at + 6 : at + 6 + ckey + count * ekey]
        yield f"content {keys[:ckey].hex()} {high << 32 | low} {keys[ckey:].hex()}"
        at += 6 + len(keys)


def coded(page, ekey, specs):
    entry = struct.Struct(f">{ekey}sIBI")
    for at in range(0, len(page) - entry.size + 1, entry.size):
        key, spec, high, low = entry.unpack_from(page, at)
        if spec != 0xFFFFFFFF and (spec or any(key)):
            yield f"encoding {key.hex()} {high << 32 | low} {specs[spec].decode()}"


def root(data):
    magic = data[:4] in (b"MFST", b"TSFM")
    at, version = (12, 1) if magic else (0, 0)
    if magic:
        a, b = struct.unpack_from("<II", data, 4)
        if 16 <= a < 100 and b in (1, 2, 3, 4):
            at, version = a, b
    while at < len(data):
        fields = struct.Struct("<IIIIB" if version > 1 else "<III")
        count, *flags = fields.unpack_from(data, at)
        locale, content_flags = flags[:2] if version > 1 else reversed(flags)
        deltas = struct.unpack_from(f"<{count}i", data, at + fields.size)
        at += fields.size + 4 * count
        named = not (magic and content_flags & 0x10000000)
        step = 16 if magic else 24
        keys = [data[at + step * i :][:16] for i in range(count)]
        at += (24 if named else 16) * count
        file_id = -1
        for delta, key in zip(deltas, keys):
            file_id += 1 + delta
            yield f"{file_id} {locale} {content_flags} {key.hex()}"


def csv_texts(data):
    choose = random.Random(int(data))
    quotings = csv.QUOTE_MINIMAL, csv.QUOTE_ALL, csv.QUOTE_NONNUMERIC
    for delimiter, end, quoting in itertools.product(",;\t|", ("\n", "\r\n", "\r"), quotings):
        # Before Python 3.13 a field is not quoted for a line end that the dialect has not.
        line_ends = end if quoting == csv.QUOTE_MINIMAL else "\r\n"
        for _ in range(50):
            rows = [csv_row(choose, line_ends) for _ in range(choose.randrange(6))]
            text = io.StringIO(newline="")
            csv.writer(text, delimiter=delimiter, lineterminator=end, quoting=quoting).writerows(rows)
            yield f"text {ord(delimiter)} {text.getvalue().encode().hex()}"
            for row in rows:
                yield "row " + ",".join(str(field).encode().hex() for field in row)


def csv_row(choose, line_ends):
    signs = 'ab1 ,;\t|"""\u00e9' + line_ends
    texts = ["".join(choose.choices(signs, k=choose.randrange(6))) for _ in range(choose.randrange(1, 5))]
    return [choose.choice([text, text, choose.randrange(2**32)]) for text in texts]


def main(command, *numbers):
    data = sys.stdin.buffer.read()
    numbers = [int(number) for number in numbers]
    if command == "index":
        sys.stdout.buffer.write(index(data, *numbers))
    elif command == "envelope":
        sys.stdout.buffer.write(envelope(data, numbers))
    elif command == "md5":
        for length in [*range(301), len(data)]:
            print(md5(data[:length]).hex())
    else:
        lines = {"csv": csv_texts, "encoding": encoding, "root": root}[command]
        print("\n".join(lines(data)))


main(*sys.argv[1:])
