"""What the package knows of include/dwarnizza.h."""

import ctypes
import importlib.util
import unittest
from pathlib import Path

import dwarnizza
import sample
from dwarnizza import _header, _library

HEADER = (sample.REPOSITORY / "include/dwarnizza.h").read_text(encoding="utf-8")


def load_build() -> object:
    path = sample.REPOSITORY / "host/python/build.py"
    specification = importlib.util.spec_from_file_location("build", path)
    module = importlib.util.module_from_spec(specification)
    specification.loader.exec_module(module)
    return module


build = load_build()

TEXT = """
/* uint32_t dwarnizza_comment(uint8_t x); */
#define DWARNIZZA_VERSION "1.2.3"
#define DWARNIZZA_REFUSALS(X) \\
    X(DWARNIZZA_ONE, 1, "one, two", "") \\
    X(DWARNIZZA_TWO, 20, "it's", "block at byte")
enum {
    DWARNIZZA_DONE = 0, /* one */
    DWARNIZZA_OTHER = 7
};
static inline const char *dwarnizza_words(uint64_t number) { return ""; }
uint32_t dwarnizza_call(const uint8_t *data, size_t data_len, uint32_t id,
                        const uint32_t words[4], uint64_t *count,
                        uint64_t answer[8]);
"""


class Header(unittest.TestCase):
    def test_the_package_is_in_step_with_the_header(self) -> None:
        known = {}
        exec(build.known(HEADER), known)
        for name in ("VERSION", "RESULTS", "REFUSALS", "EXPORTS"):
            self.assertEqual(getattr(_header, name), known[name], "run host/python/build.py")

    def test_a_header_is_read_whole(self) -> None:
        self.assertEqual(build.version(TEXT), "1.2.3")
        self.assertEqual(build.results(TEXT), {"DONE": 0, "OTHER": 7})
        rows = [("ONE", 1, "one, two", ""), ("TWO", 20, "it's", "block at byte")]
        self.assertEqual(build.refusals(TEXT), rows)
        parameters = (
            ("data", "const uint8_t *"),
            ("data_len", "size_t"),
            ("id", "uint32_t"),
            ("words", "const uint32_t [4]"),
            ("count", "uint64_t *"),
            ("answer", "uint64_t [8]"),
        )
        self.assertEqual(build.exports(TEXT), {"dwarnizza_call": parameters})

    def test_every_row_and_declaration_of_the_header_is_read(self) -> None:
        self.assertEqual(len(_header.REFUSALS), HEADER.count("X(DWARNIZZA_"))
        self.assertEqual(len(_header.EXPORTS), HEADER.count("\nuint32_t dwarnizza_"))

    def test_every_export_is_called(self) -> None:
        modules = Path(dwarnizza.__file__).parent.glob("*.py")
        code = "".join(module.read_text(encoding="utf-8") for module in modules)
        for name in _header.EXPORTS:
            self.assertIn(f'call("{name[len("dwarnizza_"):]}", ', code)

    def test_the_results_are_three(self) -> None:
        self.assertEqual(_header.RESULTS, {"ANSWERED": 0, "ABSENT": 1, "REFUSED": 2})

    def test_each_export_ends_in_the_answer(self) -> None:
        for name, parameters in _header.EXPORTS.items():
            self.assertEqual(parameters[-1], ("answer", "uint64_t [8]"), name)

    def test_types_are_those_of_c(self) -> None:
        for c_type, expected in [
            ("uint8_t", ctypes.c_uint8),
            ("size_t", ctypes.c_size_t),
            ("const uint8_t *", ctypes.c_void_p),
            ("uint64_t *", ctypes.POINTER(ctypes.c_uint64)),
            ("const uint32_t [4]", ctypes.c_uint32 * 4),
        ]:
            self.assertIs(_library._ctypes_type(c_type), expected)

    def test_the_version_is_that_of_the_header(self) -> None:
        self.assertIn(f'#define DWARNIZZA_VERSION "{dwarnizza.__version__}"\n', HEADER)


if __name__ == "__main__":
    unittest.main()
