"""The command that makes the package."""

import os
import subprocess
import sys
import tempfile
import unittest
from pathlib import Path
from typing import Dict

import sample

BUILD = sample.REPOSITORY / "host/python/build.py"


def run(*arguments: str, **variables: str) -> "subprocess.CompletedProcess[str]":
    environment: Dict[str, str] = {**os.environ, **variables}
    command = [sys.executable, str(BUILD), *arguments]
    return subprocess.run(command, env=environment, capture_output=True, encoding="utf-8")


def run_python(code: str, path: Path) -> "subprocess.CompletedProcess[str]":
    """Runs Python with the packages of a folder, outside the repository."""
    environment = {**os.environ, "PYTHONPATH": str(path)}
    command = [sys.executable, "-c", code]
    return subprocess.run(command, env=environment, cwd="/", capture_output=True, encoding="utf-8")


class Build(unittest.TestCase):
    def setUp(self) -> None:
        folder = tempfile.TemporaryDirectory()
        self.addCleanup(folder.cleanup)
        self.folder = Path(folder.name)

    def test_a_package_is_a_folder_by_itself(self) -> None:
        for _ in range(2):
            self.assertEqual(run(str(self.folder)).returncode, 0)
            self.assertEqual(os.listdir(self.folder), ["dwarnizza"])
        code = "import dwarnizza; print(dwarnizza.__file__, dwarnizza.md5(b'abc').hex())"
        said = run_python(code, self.folder)
        path = self.folder / "dwarnizza/__init__.py"
        self.assertEqual(said.stdout, f"{path} 900150983cd24fb0d6963f7d28e17f72\n")

    def test_the_sources_say_how_the_package_is_made(self) -> None:
        said = run_python("import dwarnizza", BUILD.parent)
        self.assertIn("ImportError", said.stderr)
        self.assertIn("host/python/build.py makes the package", said.stderr)

    def test_what_is_there_stays(self) -> None:
        (self.folder / "dwarnizza").mkdir()
        (self.folder / "dwarnizza/other.py").touch()
        said = run(str(self.folder))
        self.assertEqual(said.returncode, 69)
        self.assertIn("is there", said.stderr)
        self.assertEqual(os.listdir(self.folder / "dwarnizza"), ["other.py"])

    def test_nothing_is_left_where_the_compiler_fails(self) -> None:
        for compiler in ("false", "no-such-compiler"):
            said = run(str(self.folder), CC=compiler)
            self.assertEqual(said.returncode, 69)
            self.assertIn(compiler, said.stderr)
            self.assertEqual(os.listdir(self.folder), [])

    def test_help_and_usage(self) -> None:
        self.assertEqual(run("--help").returncode, 0)
        self.assertIn("host/python/build.py [FOLDER]", run("--help").stdout)
        for arguments in (["-x"], ["one", "two"]):
            self.assertEqual(run(*arguments).returncode, 64)


if __name__ == "__main__":
    unittest.main()
