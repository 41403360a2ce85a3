"""Type hints, where mypy is there: the package's own, and those that a caller meets."""

import os
import subprocess
import sys
import tempfile
import unittest

try:
    import mypy
    import numpy  # noqa: F401
    import scipy  # noqa: F401
except ImportError:
    mypy = None

PACKAGE = os.path.join(os.path.dirname(os.path.abspath(__file__)), "..")

CALLER = '''
import numpy as np
import raimsklo
from raimsklo import LSODA, Refused, Run, root, solve_ivp


def fun(t: float, y: np.ndarray) -> np.ndarray:
    return -y


def first(t: float, y: np.ndarray) -> np.ndarray:
    return y[:1]


solve_ivp(fun, (0, 10), [1.0], t_eval=np.linspace(0, 10, 11), events=first)
solve_ivp(fun, [0, 10], np.ones(2), first_step=np.float32(0.1), max_steps=1e5)
solve_ivp(fun, np.array([0.0, 10.0]), [1.0], method=raimsklo.LSODA, events=[first])
step: str = LSODA(fun, 0.0, [1.0], 1.0).status
accepted: int = Run(0.0, 1.0, [1.0], 1e-3, 1e-6).counts.accepted
cube: float = root(8.0, 3)
number: int = Refused(9).number
wrong: str = solve_ivp(fun, (0, 10), [1.0]).nfev
'''


def checked(*arguments):
    """What mypy says of them, the package being found."""
    with tempfile.TemporaryDirectory() as cache:
        command = [sys.executable, "-m", "mypy", "--cache-dir", cache, *arguments]
        given = dict(os.environ, MYPYPATH=os.path.realpath(PACKAGE))
        return subprocess.run(command, env=given, stdout=subprocess.PIPE, stderr=subprocess.STDOUT, text=True).stdout


@unittest.skipIf(mypy is None, "no mypy, numpy or scipy")
class Types(unittest.TestCase):
    def test_the_package(self):
        self.assertIn("Success: no issues found", checked("-p", "raimsklo"))

    def test_a_caller(self):
        with tempfile.TemporaryDirectory() as folder:
            path = os.path.join(folder, "caller.py")
            with open(path, "w") as file:
                file.write(CALLER)
            said = checked(path)
        line = CALLER.count("\n")
        self.assertIn(f"caller.py:{line}: error: Incompatible types in assignment", said)  # so that hints say something
        self.assertIn("Found 1 error in 1 file", said)


if __name__ == "__main__":
    unittest.main()
