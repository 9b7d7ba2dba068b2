"""Whether each test that tests/worked_examples.txt and tests/quinn_proto_cases.txt name exists."""
import ast
import os
import re
import unittest

from test_programs import ROOT
from test_replies import all_sessions

# How many rows the files have, at least.
LEAST = {"worked_examples.txt": 80, "quinn_proto_cases.txt": 63}


def rows(name):
    """The rows of a file: what is shown, and the names of the tests that show it."""
    found = []
    for line in read("tests", name).splitlines():
        if line and not line.startswith(("#", "[")):
            what, _, tests = line.rpartition(": ")
            found.append((what, tests.split(", ")))
    return found


def read(*path):
    with open(os.path.join(ROOT, *path)) as it:
        return it.read()


def is_in_rattle(name):
    crate, module, test = name.split("::")
    file = ["tests.rt"] if module == "tests" else ["tests", f"{module}.rt"]
    return re.search(rf"#\[test\]\nfn {test}\(", read("crates", crate, "src", *file)) and re.search(
        rf"^{crate}:", read("crates.txt"), re.MULTILINE
    )


def is_in_rust(name):
    file, test = name.removeprefix("rust/").split("::")
    return re.search(rf"#\[test\]\nfn {test}\(", read("bindings", "rust", "tests", f"{file}.rs"))


def is_in_python(name):
    module, group, test = name.split(".")
    classes = [it for it in ast.parse(read("tests", f"{module}.py")).body if isinstance(it, ast.ClassDef)]
    return any(it.name == group and any(getattr(each, "name", "") == test for each in it.body) for it in classes)


def exists(name):
    if name.startswith("rust/"):
        return is_in_rust(name)
    if "::" in name:
        return is_in_rattle(name)
    if name.startswith("sessions/"):
        return name[len("sessions/") :] in all_sessions()
    if name.startswith("crates/"):
        return os.path.isfile(os.path.join(ROOT, name))
    return is_in_python(name)


class Table(unittest.TestCase):
    def test_each_test_that_is_named_exists(self):
        for name, least in LEAST.items():
            found = rows(name)
            self.assertGreaterEqual(len(found), least)
            self.assertEqual(len({what for what, _ in found}), len(found), name)
            for what, tests in found:
                with self.subTest(what):
                    self.assertTrue(tests)
                    for test in tests:
                        self.assertTrue(exists(test), test)


if __name__ == "__main__":
    unittest.main()
