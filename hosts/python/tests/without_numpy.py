"""The tests again as if numpy and scipy were not installed: `python3 hosts/python/tests/without_numpy.py`."""

import os
import sys
import unittest

HERE = os.path.dirname(os.path.abspath(__file__))
for missing in ("numpy", "scipy"):
    sys.modules[missing] = None  # an import of it raises ImportError

if __name__ == "__main__":
    tests = unittest.defaultTestLoader.discover(HERE)
    sys.exit(not unittest.TextTestRunner(verbosity=0).run(tests).wasSuccessful())
