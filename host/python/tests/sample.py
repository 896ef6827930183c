"""The sample build."""

import csv
from pathlib import Path
from typing import Dict, List

REPOSITORY = Path(__file__).resolve().parents[3]
SAMPLE = REPOSITORY / "sample"
LOCALES = {"enUS": 0x2, "deDE": 0x20}
# The root files: without a magic, with a short header, with a long one.
ROOTS = ("root-v1", "root-short", "root-v2")


def read(name: str) -> bytes:
    """A file of the sample build."""
    return (SAMPLE / name).read_bytes()


def archive_names() -> List[str]:
    """The names of the archives, in the order of their numbers."""
    line = read("cdn-config").decode().splitlines()[0]
    return line.split(" = ")[1].split()


def files() -> List[Dict[str, str]]:
    """Every file number with its keys and its place."""
    with open(SAMPLE / "files.tsv", newline="", encoding="utf-8") as table:
        return list(csv.DictReader(table, delimiter="\t"))


def files_in_archives() -> List[Dict[str, str]]:
    """Those that are in an archive."""
    return [file for file in files() if file["archive"] != "-"]
