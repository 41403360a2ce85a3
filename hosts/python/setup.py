"""What pyproject.toml cannot say: the wheel carries a shared library, so it is one platform's, for every Python 3.

What setuptools writes on the way goes to a folder of its own, so that nothing is left beside the package.
"""

import atexit
import os
import shutil
import tempfile

from setuptools import setup
from setuptools.dist import Distribution

try:
    from setuptools.command.bdist_wheel import bdist_wheel
except ImportError:  # before setuptools 70
    from wheel.bdist_wheel import bdist_wheel

HERE = os.path.dirname(os.path.abspath(__file__))
if not os.path.exists(os.path.join(HERE, "raimsklo", "libraimsklo.so")):
    raise SystemExit("libraimsklo.so is not there: `bash hosts/python/build` makes it")


class Platform(Distribution):
    def has_ext_modules(self):
        return True


class Wheel(bdist_wheel):
    def get_tag(self):
        return ("py3", "none", super().get_tag()[2])


scratch = tempfile.mkdtemp()
atexit.register(shutil.rmtree, scratch, ignore_errors=True)
build, info, wheel = (os.path.join(scratch, name) for name in ("build", "info", "wheel"))
os.mkdir(info)
setup(
    distclass=Platform,
    cmdclass={"bdist_wheel": Wheel},
    options={"build": {"build_base": build}, "egg_info": {"egg_base": info}, "bdist_wheel": {"bdist_dir": wheel}},
)
