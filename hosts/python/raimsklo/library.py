"""The shared library behind the package, and the C declarations of include/raimsklo.h.

The library is found beside this file, or where RAIMSKLO_LIBRARY names it; hosts/python/build makes it from the archive.
"""

from __future__ import annotations

import ctypes
import os
from ctypes import Structure, c_double, c_size_t

# made by tools/record.py: the length of a session
SESSION_LENGTH = 1448
# end of the length of a session

# made by tools/record.py: the counts' places
COUNT_WORDS = dict(accepted=20, nfe=21, nje=22, nlu=23, rejected=24, total=25)
# end of the counts' places
MOST_STATES = 64


class Options(Structure):
    """raimsklo_options: the settings of a run, the fields of include/raimsklo.h. Begin with `defaults()`."""

    _fields_ = [
        ("max_steps", c_size_t),
        ("mxordn", c_size_t),
        ("mxords", c_size_t),
        ("maxcor", c_size_t),
        ("msbp", c_size_t),
        ("mxncf", c_size_t),
        ("banded", c_size_t),
        ("supplied", c_size_t),
        ("has_max_step", c_size_t),
        ("has_min_step", c_size_t),
        ("has_first_step", c_size_t),
        ("max_step", c_double),
        ("min_step", c_double),
        ("first_step", c_double),
    ]


class Answer(Structure):
    """raimsklo_answer: what a call answers, the fields of include/raimsklo.h. Those of no use to a number are 0."""

    _fields_ = [
        ("number", c_size_t),
        ("index", c_size_t),
        ("value", c_double),
        ("time", c_double),
        ("previous", c_double),
        ("count", c_size_t),
        ("order", c_size_t),
        ("h", c_double),
        ("nfe", c_size_t),
        ("nje", c_size_t),
        ("nlu", c_size_t),
        ("total", c_size_t),
        ("accepted", c_size_t),
        ("rejected", c_size_t),
    ]


def _declare(library: ctypes.CDLL) -> None:
    """Results and arguments; those of start, reply and interpolate are C's already (run.py), and go on unlooked at."""
    for name, result, taken in (
        ("defaults", Options, []),
        ("work_length", c_size_t, [c_size_t]),
        ("question_length", c_size_t, [c_size_t]),
        ("session_length", c_size_t, []),
        ("start", Answer, None),
        ("reply", Answer, None),
        ("interpolate", c_size_t, None),
        ("root", c_double, [c_double, c_size_t]),
    ):
        function = getattr(library, "raimsklo_" + name)
        function.restype, function.argtypes = result, taken


def _load() -> ctypes.CDLL:
    here = os.path.join(os.path.dirname(os.path.abspath(__file__)), "libraimsklo.so")
    path = os.environ.get("RAIMSKLO_LIBRARY", here)
    if not os.path.exists(path):
        raise ImportError(f"{path} is not there: `bash hosts/python/build` makes it from the static library", path=path)
    try:
        library = ctypes.CDLL(path)
        _declare(library)
    except (OSError, AttributeError) as error:  # no shared library of this machine; a function is not in it
        raise ImportError(f"{path} is not the library that this package goes with: {error}", path=path) from error
    n = MOST_STATES
    lengths = library.raimsklo_session_length(), library.raimsklo_work_length(n), library.raimsklo_question_length(n)
    if lengths != (SESSION_LENGTH, work_length(n), question_length(n)):
        raise ImportError(f"{path} is of another version than this package: its buffers have other lengths", path=path)
    return library


def work_length(n: int) -> int:
    return n * n + 19 * n


def question_length(n: int) -> int:
    return 14 * n + 6


LIBRARY = _load()


def defaults() -> Options:
    """The settings that a run has where nothing else is asked: what `Run` takes, to be changed field by field.

    Examples
    --------
    >>> from raimsklo import defaults
    >>> options = defaults()
    >>> options.max_steps, options.maxcor
    (100000, 3)
    >>> options.has_first_step, options.first_step = 1, 0.25
    """
    return LIBRARY.raimsklo_defaults()
