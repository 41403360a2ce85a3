"""The build backend that pip calls: setuptools' where it can make wheels, otherwise a wheel as good by Python alone.

So that an install fetches nothing, wherever it is made: the wheel is the package's files, the shared library among
them, and four files about them. An editable wheel has, in place of the package, one line with the path to this folder.
"""

import base64
import hashlib
import os
import re
import sysconfig
import zipfile

NAME = "raimsklo"
HERE = os.path.dirname(os.path.abspath(__file__))


def _text(*path):
    with open(os.path.join(HERE, *path), encoding="utf-8") as file:
        return file.read()


def _project():
    """What pyproject.toml says of the project: its texts, its lists of texts, and the extras with what they ask for."""
    tables = dict(re.findall(r"(?ms)^\[([\w.-]+)\]\n(.*?)(?=^\[|\Z)", _text("pyproject.toml")))

    def lists(table):
        found = re.findall(r"(?ms)^([\w-]+) = \[(.*?)\]$", tables[table])
        return {name: re.findall(r'"(.*?)"', inside) for name, inside in found}

    texts = dict(re.findall(r'(?m)^([\w-]+) = "(.*)"$', tables["project"]))
    return texts, lists("project"), lists("project.optional-dependencies")


def _metadata():
    texts, lists, extras = _project()
    version = re.search(r'(?m)^__version__ = "(.*)"$', _text(NAME, "__init__.py")).group(1)
    lines = [
        "Metadata-Version: 2.1",
        f"Name: {NAME}",
        f"Version: {version}",
        f"Summary: {texts['description']}",
        "License: Apache-2.0",
        f"Keywords: {','.join(lists['keywords'])}",
        *(f"Classifier: {classifier}" for classifier in lists["classifiers"]),
        f"Requires-Python: {texts['requires-python']}",
        "Description-Content-Type: text/markdown",
    ]
    for extra, wanted in extras.items():
        lines += [f"Provides-Extra: {extra}", *(f"Requires-Dist: {name} ; extra == '{extra}'" for name in wanted)]
    return version, "\n".join([*lines, "", _text(texts["readme"])]).encode()


def _package():
    """Path within the wheel → contents."""
    folder = os.path.join(HERE, NAME)
    found = {}
    for name in sorted(os.listdir(folder)):
        if name.endswith((".py", ".so", ".typed")) or name in ("LICENSE", "NOTICE"):
            with open(os.path.join(folder, name), "rb") as file:
                found[f"{NAME}/{name}"] = file.read()
    return found


def _write(wheel_directory, files):
    if not os.path.exists(os.path.join(HERE, NAME, f"lib{NAME}.so")):
        raise FileNotFoundError(f"lib{NAME}.so is not there: `bash hosts/python/build` makes it")
    version, metadata = _metadata()
    tag = "py3-none-" + sysconfig.get_platform().replace("-", "_").replace(".", "_")
    about = f"{NAME}-{version}.dist-info"
    files[f"{about}/METADATA"] = metadata
    files[f"{about}/WHEEL"] = f"Wheel-Version: 1.0\nGenerator: {NAME}\nRoot-Is-Purelib: false\nTag: {tag}\n".encode()
    files[f"{about}/top_level.txt"] = f"{NAME}\n".encode()
    record = ""
    for path, contents in files.items():
        digest = base64.urlsafe_b64encode(hashlib.sha256(contents).digest()).rstrip(b"=").decode()
        record += f"{path},sha256={digest},{len(contents)}\n"
    files[f"{about}/RECORD"] = f"{record}{about}/RECORD,,\n".encode()
    wheel = f"{NAME}-{version}-{tag}.whl"
    with zipfile.ZipFile(os.path.join(wheel_directory, wheel), "w", zipfile.ZIP_DEFLATED) as out:
        for path, contents in files.items():
            out.writestr(path, contents)
    return wheel


def build_wheel(wheel_directory, config_settings=None, metadata_directory=None):
    return _write(wheel_directory, _package())


def build_editable(wheel_directory, config_settings=None, metadata_directory=None):
    return _write(wheel_directory, {f"__editable__.{NAME}.pth": f"{HERE}\n".encode()})


class UnsupportedOperation(Exception):
    """What a backend raises that makes no source distribution."""


def build_sdist(sdist_directory, config_settings=None):
    raise UnsupportedOperation("the package carries a built library: make a wheel")


def _setuptools():
    """setuptools' backend, or None where setuptools, or the command that makes wheels, is not there."""
    try:
        import setuptools.build_meta as found
    except ImportError:
        return None
    try:
        import setuptools.command.bdist_wheel  # noqa: F401  from setuptools 70 on
    except ImportError:
        try:
            import wheel.bdist_wheel  # noqa: F401
        except ImportError:
            return None
    return found if hasattr(found, "build_editable") else None


if _setuptools() is not None:
    from setuptools.build_meta import *  # noqa: F401, F403
