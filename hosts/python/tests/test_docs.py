"""The examples in the package's documentation, run as they stand, with numpy and without."""

import doctest
import importlib
import os
import sys
import unittest

PACKAGE = os.path.join(os.path.dirname(os.path.abspath(__file__)), "..")
sys.path.insert(0, PACKAGE)

WITH_EXAMPLES = {"__init__", "dense", "ivp", "library", "refused", "result", "run"}
NEED_SCIPY = {"scipy_solver"}
NO_MODULE = {"LSODA"}  # raises, by its purpose


class Examples(unittest.TestCase):
    def test_modules(self):
        names = {file[:-3] for file in os.listdir(os.path.join(PACKAGE, "raimsklo")) if file.endswith(".py")}
        self.assertLessEqual(WITH_EXAMPLES, names)
        for name in sorted(names - NO_MODULE):
            try:
                module = importlib.import_module("raimsklo" if name == "__init__" else f"raimsklo.{name}")
            except ImportError:
                self.assertIn(name, NEED_SCIPY)
                continue
            failed, tried = doctest.testmod(module)
            self.assertEqual(failed, 0, name)
            if name in WITH_EXAMPLES:
                self.assertGreater(tried, 0, name)


if __name__ == "__main__":
    unittest.main()
