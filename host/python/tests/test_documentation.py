"""Every public name has an example, and the examples are right."""

import doctest
import importlib
import inspect
import unittest
from pathlib import Path
from types import ModuleType
from typing import Iterator, List, Tuple

import dwarnizza


def modules() -> List[ModuleType]:
    """The package and its modules."""
    paths = sorted(Path(dwarnizza.__file__).parent.glob("*.py"))
    names = ["." + path.stem for path in paths if path.stem != "__init__"]
    return [dwarnizza, *(importlib.import_module(name, "dwarnizza") for name in names)]


def methods() -> Iterator[Tuple[str, object]]:
    """The public methods and properties of the public classes."""
    classes = filter(inspect.isclass, (getattr(dwarnizza, name) for name in dwarnizza.__all__))
    members = ((of, name, member) for of in classes for name, member in inspect.getmembers(of))
    for of, name, member in members:
        is_method = inspect.isfunction(member) and member.__module__.startswith("dwarnizza")
        if not name.startswith("_") and (is_method or isinstance(member, property)):
            yield f"{of.__name__}.{name}", member


class Documentation(unittest.TestCase):
    def test_the_examples_are_right(self) -> None:
        for module in modules():
            with self.subTest(module=module.__name__):
                self.assertEqual(doctest.testmod(module).failed, 0)

    def test_every_public_name_has_an_example(self) -> None:
        for name in dwarnizza.__all__:
            value = getattr(dwarnizza, name)
            if callable(value):
                self.assertIn(">>>", inspect.getdoc(value) or "", name)

    def test_every_public_method_has_words(self) -> None:
        documented = dict(methods())
        self.assertIn("CheckedIndex.find", documented)
        for name, method in documented.items():
            self.assertTrue(inspect.getdoc(method), name)


if __name__ == "__main__":
    unittest.main()
