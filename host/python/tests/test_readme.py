"""The examples of README.md in Python, and its commands other than those of the tool, which the
tool's own tests run."""

import doctest
import os
import subprocess
import unittest
from typing import List, Tuple

import sample

README = sample.REPOSITORY / "README.md"
COMMAND, TOOL, INDENT = "    $ ", "    $ ./dwarnizza ", "    "


def commands(text: str) -> List[Tuple[str, str]]:
    """The commands, each with what stands below it."""
    found: List[Tuple[str, str]] = []
    inside = False
    for line in text.splitlines(keepends=True):
        if line.startswith(COMMAND):
            inside = not line.startswith(TOOL)
            found += [(line[len(COMMAND) :].strip(), "")] if inside else []
        elif inside and line.startswith(INDENT):
            command, output = found[-1]
            found[-1] = command, output + line[len(INDENT) :]
        else:
            inside = False
    return found


class Readme(unittest.TestCase):
    def setUp(self) -> None:
        self.addCleanup(os.chdir, os.getcwd())
        os.chdir(sample.REPOSITORY)

    def test_the_commands_say_what_stands_below_them(self) -> None:
        found = commands(README.read_text(encoding="utf-8"))
        self.assertTrue(any(command.startswith("cc ") for command, _ in found))
        for command, output in found:
            pipes = {"stdout": subprocess.PIPE, "stderr": subprocess.STDOUT}
            said = subprocess.run(command, shell=True, encoding="utf-8", **pipes)
            self.assertEqual(said.stdout, output, command)

    def test_the_examples_are_right(self) -> None:
        result = doctest.testfile(str(README), module_relative=False)
        self.assertGreater(result.attempted, 0)
        self.assertEqual(result.failed, 0)


if __name__ == "__main__":
    unittest.main()
