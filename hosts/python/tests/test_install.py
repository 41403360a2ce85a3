"""The wheel, an editable wheel, pip's install: what is installed carries the library and runs away from the source."""

import email
import importlib.util
import os
import subprocess
import sys
import tempfile
import unittest
import zipfile

HERE = os.path.dirname(os.path.abspath(__file__))
PACKAGE = os.path.dirname(HERE)
SCRIPT = (
    "import os, raimsklo as r; import raimsklo.library as library;"
    "print(os.path.dirname(r.__file__), r.__version__, r.solve_ivp(lambda t, y: [-y[0]], (0, 1), [1]).end)"
)
OURS = "import sys; sys.modules['setuptools'] = None;"  # as if setuptools were not there


def has(module):
    return importlib.util.find_spec(module) is not None


def said(command, folder, **more):
    done = subprocess.run(command, cwd=folder, stdout=subprocess.PIPE, stderr=subprocess.STDOUT, text=True, **more)
    if done.returncode != 0:
        raise AssertionError(f"{command} ended with {done.returncode}:\n{done.stdout}")
    return done.stdout


def built(call, folder, before=""):
    """The wheel that the backend's function writes, in a process of its own as pip does it."""
    script = f"{before}import backend; print(backend.{call}({folder!r}))"
    return os.path.join(folder, said([sys.executable, "-c", script], PACKAGE).split()[-1])


def version():
    with open(os.path.join(PACKAGE, "raimsklo", "__init__.py")) as file:
        return next(line.split('"')[1] for line in file if line.startswith("__version__"))


def metadata(wheel):
    """What a wheel says of itself; the form of a requirement does not count, nor the version of these fields."""
    with zipfile.ZipFile(wheel) as opened:
        told = email.message_from_string(opened.read(f"raimsklo-{version()}.dist-info/METADATA").decode())
    plain = str.maketrans("", "", " '\"")
    found = {(name, text.translate(plain) if name == "Requires-Dist" else text) for name, text in told.items()}
    return {(name, text) for name, text in found if name != "Metadata-Version"} | {told.get_payload().strip()}


class Installed(unittest.TestCase):
    def setUp(self):
        folder = tempfile.TemporaryDirectory()
        self.addCleanup(folder.cleanup)
        self.folder = os.path.realpath(folder.name)

    def runs(self, path):
        """The package at `path` is the one that runs."""
        environment = {key: value for key, value in os.environ.items() if not key.startswith(("PYTHON", "RAIMSKLO"))}
        environment["PYTHONPATH"] = self.folder
        told = said([sys.executable, "-c", SCRIPT], self.folder, env=environment)
        self.assertEqual(told, f"{path} {version()} success\n")

    def unpacked(self, wheel):
        with zipfile.ZipFile(wheel) as opened:
            opened.extractall(self.folder)
            recorded = opened.read(f"raimsklo-{version()}.dist-info/RECORD").decode().split()
            self.assertEqual(sorted(line.split(",")[0] for line in recorded), sorted(opened.namelist()))
            return sorted(opened.namelist())

    def test_wheel(self):
        wheel = built("build_wheel", self.folder, OURS)
        names = self.unpacked(wheel)
        for name in ("libraimsklo.so", "py.typed", "LICENSE", "NOTICE", "ivp.py"):
            self.assertIn("raimsklo/" + name, names)
        self.runs(os.path.join(self.folder, "raimsklo"))
        told = metadata(wheel)
        self.assertIn(("Provides-Extra", "scipy"), told)
        self.assertIn(("Requires-Dist", "numpy;extra==fast"), told)
        self.assertIn(("Classifier", "Typing :: Typed"), told)
        if has("setuptools") and has("wheel"):
            other = os.path.join(self.folder, "setuptools")
            os.mkdir(other)
            theirs = built("build_wheel", other)
            with zipfile.ZipFile(theirs) as opened:
                self.assertEqual(sorted(opened.namelist()), names)
            self.assertEqual(metadata(theirs), told)

    def test_editable_wheel(self):
        self.unpacked(built("build_editable", self.folder, OURS))
        pth = os.path.join(self.folder, "__editable__.raimsklo.pth")
        with open(pth) as file:
            self.assertEqual(file.read().strip(), os.path.realpath(PACKAGE))

    def test_nothing_is_left_beside_the_package(self):
        before = sorted(os.listdir(PACKAGE))
        built("build_wheel", self.folder)
        built("build_editable", self.folder)
        self.assertEqual(sorted(set(os.listdir(PACKAGE)) - {"__pycache__"}), sorted(set(before) - {"__pycache__"}))

    def test_without_the_library_no_wheel(self):
        moved = os.path.join(self.folder, "python")
        os.mkdir(moved)
        for name in ("backend.py", "setup.py", "pyproject.toml", "README.md"):
            os.symlink(os.path.join(PACKAGE, name), os.path.join(moved, name))
        os.mkdir(os.path.join(moved, "raimsklo"))
        os.symlink(os.path.join(PACKAGE, "raimsklo/__init__.py"), os.path.join(moved, "raimsklo/__init__.py"))
        script = OURS + "import backend; backend.HERE = '.'; backend.build_wheel('.')"
        with self.assertRaisesRegex(AssertionError, "`bash hosts/python/build` makes it"):
            said([sys.executable, "-c", script], moved)

    def test_no_source_distribution(self):
        with self.assertRaisesRegex(AssertionError, "UnsupportedOperation: .* make a wheel"):
            said([sys.executable, "-c", OURS + "import backend; backend.build_sdist('.')"], PACKAGE)

    @unittest.skipUnless(has("pip"), "no pip")
    def test_pip(self):
        command = [sys.executable, "-m", "pip", "install", "-q", "--no-index", "--no-deps", "--target", self.folder]
        said(command + [PACKAGE], self.folder)
        self.runs(os.path.join(self.folder, "raimsklo"))


if __name__ == "__main__":
    unittest.main()
