#!/usr/bin/env python3
"""Makes the Python package: target/python/dwarnizza, or FOLDER/dwarnizza where a folder is given.

    host/python/build.py [FOLDER]

It needs a C compiler (`cc`, or what CC names) on x86-64 Linux, and the static library
target/staticlib/libdwarnizza.a, which `tools/archives dwarnizza` makes. The package is a folder with
the modules of host/python/dwarnizza, the shared library dwarnizza.so, and what the modules know of
include/dwarnizza.h. It may be copied to any place where Python looks for packages.
"""

import os
import pprint
import re
import shlex
import shutil
import subprocess
import sys
import tempfile
from pathlib import Path
from typing import Dict, List, Tuple

REPOSITORY = Path(__file__).resolve().parents[2]
MODULES = REPOSITORY / "host/python/dwarnizza"
HEADER = REPOSITORY / "include/dwarnizza.h"
LIBRARY = REPOSITORY / "target/staticlib/libdwarnizza.a"


def version(header: str) -> str:
    """The version that the header has."""
    return re.findall(r'^#define DWARNIZZA_VERSION "(.*)"$', header, re.MULTILINE)[0]


def results(header: str) -> Dict[str, int]:
    """The results that a call may have."""
    rows = re.findall(r"^ +DWARNIZZA_(\w+) = (\d+)", header, re.MULTILINE)
    return {name: int(number) for name, number in rows}


def refusals(header: str) -> List[Tuple[str, int, str, str]]:
    """The header's table of refusals: name, number, words, what the place counts."""
    rows = re.findall(r'^ +X\(DWARNIZZA_(\w+), (\d+), "(.*)", "(.*)"\)', header, re.MULTILINE)
    return [(name, int(number), words, place) for name, number, words, place in rows]


def parameter(text: str) -> Tuple[str, str]:
    """The name and the C type of a parameter; an array has its length after its name."""
    of, name, length = re.findall(r"^(.*?)(\w+)(?:\[(\d+)\])?$", " ".join(text.split()))[0]
    return name, of.strip() + (f" [{length}]" if length else "")


def exports(header: str) -> Dict[str, Tuple[Tuple[str, str], ...]]:
    """The parameters of each function that the header declares."""
    code = re.sub(r"/\*.*?\*/", "", header, flags=re.DOTALL)
    functions = re.findall(r"^uint32_t (dwarnizza_\w+)\(([^)]*)\);", code, re.MULTILINE)
    return {name: tuple(map(parameter, parameters.split(","))) for name, parameters in functions}


def known(header: str) -> str:
    """A Python module of what the package knows of the header."""
    values = {
        "VERSION": version(header),
        "RESULTS": results(header),
        "REFUSALS": refusals(header),
        "EXPORTS": exports(header),
    }
    lines = [f"{name} = {pprint.pformat(value, width=100, sort_dicts=False)}\n" for name, value in values.items()]
    return '"""Made from include/dwarnizza.h by host/python/build.py."""\n\n' + "\n".join(lines)


def link(library: Path, shared: Path) -> None:
    """Links the static library, whole, to a shared one."""
    compiler = shlex.split(os.environ.get("CC", "cc"))
    whole = ["-Wl,--whole-archive", str(library), "-Wl,--no-whole-archive"]
    flags = ["-shared", "-Wl,--no-undefined", "-Wl,-soname,dwarnizza.so"]
    subprocess.run([*compiler, *flags, "-o", str(shared), *whole], check=True)


def build(folder: Path) -> None:
    """Makes the package in a folder, in place of the one that is there."""
    package = folder / "dwarnizza"
    if package.exists() and not (package / "_header.py").exists():
        raise FileExistsError(f"{package} is there, and is no package that was made here")
    folder.mkdir(parents=True, exist_ok=True)
    with tempfile.TemporaryDirectory(dir=folder) as unfinished:
        made = Path(unfinished) / "dwarnizza"
        shutil.copytree(MODULES, made, ignore=shutil.ignore_patterns("__pycache__"))
        header = HEADER.read_text(encoding="utf-8")
        (made / "_header.py").write_text(known(header), encoding="utf-8")
        link(LIBRARY, made / "dwarnizza.so")
        if package.exists():
            shutil.rmtree(package)
        made.rename(package)


def main(arguments: List[str]) -> int:
    if arguments in (["-h"], ["--help"]):
        print(__doc__, end="")
        return 0
    if len(arguments) > 1 or "".join(arguments).startswith("-"):
        print(__doc__, end="", file=sys.stderr)
        return 64
    if not LIBRARY.is_file():
        print(f"build.py: there is no {LIBRARY}: run `tools/archives dwarnizza`", file=sys.stderr)
        return 69
    try:
        build(Path(arguments[0]) if arguments else REPOSITORY / "target/python")
    except (OSError, subprocess.CalledProcessError) as failure:
        print(f"build.py: {failure}", file=sys.stderr)
        return 69
    return 0


if __name__ == "__main__":
    sys.exit(main(sys.argv[1:]))
