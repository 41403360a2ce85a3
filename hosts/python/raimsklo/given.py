"""What a caller gives, as doubles: numbers, lists and arrays of them, matrices, sparse ones too.

Nothing is lost on the way: a complex number is refused, and so is what is not a number. Where numpy is there, results
are its arrays; all of it works without.
"""

from __future__ import annotations

import operator
from array import array
from collections.abc import Iterator, Mapping, Set
from numbers import Complex, Real
from typing import Any, Tuple

from .refused import Refused

try:
    import numpy
except ImportError:
    numpy = None  # type: ignore[assignment]

# entries that a double takes as they are; what else is in a list is looked at one by one
PLAIN = {float, int, bool}
if numpy is not None:
    PLAIN |= {numpy.float64, numpy.float32, numpy.int64, numpy.int32}


def _unmasked(values: Any, what: str) -> Any:
    """What is given, where none of it is masked."""
    if numpy is not None and isinstance(values, numpy.ma.MaskedArray) and numpy.ma.is_masked(values):
        raise ValueError(f"{what} has masked entries")
    return values


def _plain(value: Any) -> Any:
    """Python's own number for one of numpy's, or for an array of one number."""
    return value.item() if getattr(value, "size", 0) == 1 and hasattr(value, "item") else value


def number(value: Any, what: str) -> float:
    """One real number."""
    value = _plain(_unmasked(value, what))
    if isinstance(value, Complex) and not isinstance(value, Real):
        raise _complex(what)
    if isinstance(value, (str, bytes, bytearray)):
        raise TypeError(f"{what} holds {value!r}, which is not a number")
    try:
        return float(value)
    except TypeError:
        raise TypeError(f"{what} holds {value!r}, which is not a number") from None


def whole(value: Any, name: str) -> int:
    """A setting that counts something; a float that is whole will do."""
    try:
        return operator.index(_plain(value))
    except TypeError:
        given = number(value, f"`{name}`")
        if not given.is_integer():
            raise TypeError(f"`{name}` must be a whole number, not {value!r}") from None
        return int(given)


def _complex(what: str) -> ValueError:
    return ValueError(f"{what} is complex, but the chosen solver does not support integration in a complex domain.")


def scalar(values: Any) -> bool:
    """Whether this is one thing: a number, a 0-d array, a text (which is refused as a number)."""
    if isinstance(values, (str, bytes, bytearray)):
        return True
    dimensions = getattr(values, "ndim", None)
    return not hasattr(values, "__iter__") if dimensions is None else dimensions == 0


def real_array(values: Any, what: str) -> Any:
    """A numpy array of doubles, of the shape that was given."""
    if hasattr(values, "toarray"):  # scipy's sparse matrices and arrays
        values = values.toarray()
    values = _unmasked(values, what)
    try:
        values = numpy.asarray(values)
    except ValueError:
        raise ValueError(f"{what} is no array: its rows differ in length or shape") from None
    if values.dtype.kind in "fiub":
        return values.astype(float, copy=False)
    if values.dtype.kind == "c":
        raise _complex(what)
    return numpy.array([number(value, what) for value in values.ravel()], dtype=float).reshape(values.shape)


def _listed(values: Any, what: str) -> list:
    """A list of what is given in an order, as often as it is asked: no dict or set, and no generator."""
    if isinstance(values, (Mapping, Set, Iterator)):
        raise TypeError(f"{what} is {values!r}, and a list of numbers is wanted")
    return list(values)


def _entries(values: Any, what: str, nested: ValueError) -> array:
    """The same without numpy, of one dimension; what is raised for more is given."""
    values = [values] if scalar(values) else _listed(values, what)
    if not all(map(scalar, values)):
        raise nested
    return array("d", [number(value, what) for value in values])


def vector(values: Any, what: str, told: str = "{} must be 1-dimensional.") -> array:
    """A list of numbers, or one number, as doubles; what is told where there are more dimensions."""
    nested = ValueError(told.format(what))
    if numpy is None:
        return _entries(values, what, nested)
    values = real_array(values, what)
    if values.ndim > 1:
        raise nested
    return array("d", values.tobytes())


def derivative(f: Any, n: int) -> array:
    """What `fun` gave, n numbers."""
    what = "what `fun` gave"
    if numpy is None:
        numbers = _entries(f, what, Refused(14, told=f"fun gave lists within a list, and {n} numbers are wanted"))
    else:
        f = real_array(f, what)
        if f.ndim > 1:
            raise Refused(14, told=f"fun gave an array of shape {f.shape}, and ({n},) is wanted")
        numbers = array("d", f.tobytes())
    if len(numbers) != n:
        raise Refused(14, told=f"fun gave {len(numbers)} numbers, and {n} are wanted")
    return numbers


def by_columns(jacobian: Any, n: int) -> array:
    """What `jac` gave as rows, column by column, as the library takes it."""
    what, wrong = "what `jac` gave", Refused(14, told=f"jac gave other than {n} rows of {n} numbers")
    if numpy is None:
        if hasattr(jacobian, "toarray"):
            jacobian = jacobian.toarray()
        rows = [jacobian] if scalar(jacobian) else _listed(jacobian, what)
        rows = [[row] if scalar(row) else _listed(row, what) for row in rows]
        if len(rows) != n or any(len(row) != n for row in rows):
            raise wrong
        return array("d", [number(rows[i][j], what) for j in range(n) for i in range(n)])
    matrix = real_array(jacobian, what)
    if n == 1 and matrix.size == 1:
        matrix = matrix.reshape(1, 1)
    if matrix.shape != (n, n):
        raise wrong
    return array("d", matrix.T.tobytes())


def arguments(args: Any) -> Tuple[Any, ...]:
    """`args` as scipy's unpacks them; what cannot be unpacked is one argument, and so is a text."""
    if args is None:
        return ()
    return (args,) if scalar(args) else tuple(args)


def handed_out(numbers: array) -> Any:
    """Doubles as a caller gets them: a numpy array that shares their memory, or a list."""
    if numpy is None:
        return numbers.tolist()
    return numpy.frombuffer(numbers, dtype=float) if len(numbers) else numpy.empty(0)


def copied(octets: memoryview) -> Any:
    """Bytes of a buffer as a caller gets them: a fresh array or list."""
    return octets.cast("d").tolist() if numpy is None else numpy.array(octets.cast("d"))


def rows_of_states(poses: array, n: int, times: int) -> Any:
    """Poses one after the other as y[i][k], state i at time k."""
    if numpy is None:
        return [poses[i::n].tolist() for i in range(n)]
    return handed_out(poses).reshape(times, n).T
