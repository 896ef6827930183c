#!/usr/bin/env python3
"""Spells the repository's own definitions and lemmas in snake case, once, after the toolchain's own port script.

usage: tools/respell.py [FOLDER]

It reads which names the antt files of crates/ declare or bind, and writes a new spelling wherever such a name stands whole: in antt files, in clauses
and `ghost use` lines of .rt files, in must-fail edits and in the pages. A camel-case name gets underscores; a definition of specs/ also gets
one for each dash. Types and modules keep their capitals. CLASHES names those that would fall together with another name.
"""
import glob
import os
import re
import sys

CLASHES = {
    "chunkHash": "chunk_hash_at", "decodedSize": "decoded_size_at", "entryCount": "entry_count_of", "envelopeKey": "envelope_key_of",
    "footerHash": "footer_hash_of", "hexDigit": "hex_digit_of", "indexLength": "index_length_of", "keyLength": "key_length_of",
    "offsetWidth": "offset_width_of", "specNumber": "spec_number_at", "lastKey": "last_key_before", "hashAt": "hash_offset",
    "keySize": "size_of_key", "lastKeyAt": "last_key_offset", "pageAt": "page_offset", "pageKb": "page_kb_value", "pageKbAt": "page_kb_offset",
    "specsKnown": "all_specs_known", "firstAbove": "first_key_above", "keyBelow": "is_key_below", "keyIn": "key_in_list",
    "listBack": "list_read_back", "listLeft": "left_by_list", "hasHashes": "block_has_hashes", "noSpec": "no_spec_number",
    "rowStep": "step_of_row", "rowTold": "outcome_of_row", "tooLong": "is_too_long", "leadingZero": "has_leading_zero",
    "foundIn": "found_among", "firstKey": "first_key_at", "firstEntry": "first_entry_of", "inOrder": "check_in_order",
    "listRoom": "room_for_list", "fileRoom": "room_for_file", "countAt": "count_offset", "contentKeys": "content_keys_of", "encodingKeys": "encoding_keys_of",
}
TOKEN = re.compile(r"[^\s(){}.,;:@\"`|«»\[\]]+(?=:)|[^\s(){}.,;@\"`|«»\[\]]+")
DECLARED = re.compile(r"(?m)^ *(?:abbrev |unfoldable |pub |mutual )*([^\s:(){}.,;=]+) :(?=\s)")
HUMP = re.compile(r"(?<=[a-z0-9])([A-Z])")
CLAUSE = re.compile(r"(?m)^ *(?:(?:requires|ensures|ghost)\b.*|\{ .*)$")


def snake(name):
    parts = [CLASHES.get(part) or HUMP.sub(lambda m: "_" + m.group(1).lower(), part) if part[:1].islower() else part for part in name.split("-")]
    return "-".join(parts)


def read(path):
    with open(path, encoding="utf-8") as file:
        return file.read()


def files(root, *patterns):
    return sorted(f for p in patterns for f in glob.glob(os.path.join(root, p), recursive=True) if "/out/" not in f)


def table(root):
    names = {}
    for path in files(root, "crates/*/proofs/**/*.antt", "crates/*/specs/**/*.antt"):
        for name in DECLARED.findall(re.sub(r"--[^\n]*", "", read(path))):
            if name[:1].islower():
                new = snake(name)
                names[name] = new.replace("-", "_") if "/specs/" in path and name.isascii() else names.get(name, new)
        for name in TOKEN.findall(re.sub(r"--[^\n]*", "", read(path))):
            if HUMP.search(name) and re.fullmatch(r"[a-z]\w+", name):
                names.setdefault(name, snake(name))
    return {a: b for a, b in names.items() if a != b}


def main(root):
    names = table(root)
    humps = {a: b for a, b in names.items() if "-" not in a}
    turn = lambda text, by: TOKEN.sub(lambda m: by.get(m.group(0), m.group(0)), text)
    for path in files(root, "crates/*/**/*.antt", "crates/*/src/**/*.rt", "crates/*/must-fail/*.edit", "docs/*.md", "*.md"):
        old = read(path)
        if path.endswith(".antt"):
            new = "\n".join(turn(line[: cut(line)], names) + turn(line[cut(line) :], humps) for line in old.split("\n"))
        elif path.endswith(".rt"):
            new = turn(CLAUSE.sub(lambda m: turn(m.group(0), names), old), humps)
        else:
            new = turn(old, names if path.endswith(".edit") else humps)
        if new != old:
            with open(path, "w", encoding="utf-8") as file:
                file.write(new)


def cut(line):
    """Where a line's comment begins."""
    at = re.search(r"(?:^|\s)--(?=\s|$)", line)
    return at.start() if at else len(line)


if __name__ == "__main__":
    main(sys.argv[1] if len(sys.argv) > 1 else ".")
