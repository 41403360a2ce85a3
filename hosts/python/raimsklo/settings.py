"""What a problem is given, as the library takes it: options, tolerances, right side, Jacobian; and the caps.

What scipy refuses is refused in scipy's words, what the library refuses by its number when the run begins.
"""

from __future__ import annotations

import math
from array import array
from typing import Any, Callable, Optional, Tuple

from . import given
from .library import Options, defaults


def interval(start: Any, end: Any, names: Tuple[str, str]) -> Tuple[float, float]:
    """The ends of the interval; the last may be infinite, for a run that an event or its host stops."""
    t0, tend = (given.number(t, f"`{name}`") for t, name in zip((start, end), names))
    if not math.isfinite(t0) or math.isnan(tend):
        raise ValueError(f"no interval: it begins at {t0!r} and ends at {tend!r}")
    return t0, tend


def options(settings: dict, sizes: dict, t0: float, tend: float, supplied: bool, banded: bool) -> Options:
    """The settings by name, the sizes of steps (None: not given), whether the host gives the Jacobian, and by bands."""
    options = defaults()
    options.supplied, options.banded = int(supplied), int(banded)
    for name, value in settings.items():
        value = given.whole(value, name)
        if value < 0:
            raise ValueError(f"{name} is below 0")
        setattr(options, name, min(value, 2**64 - 1))  # what is too large the library refuses by number
    sizes = {name: given.number(value, f"`{name}`") for name, value in sizes.items() if value is not None}
    if not sizes.get("max_step", 1.0) > 0.0:
        raise ValueError("`max_step` must be positive.")
    if not sizes.get("min_step", 0.0) >= 0.0:
        raise ValueError("`min_step` must be nonnegative.")
    for name in ("min_step", "first_step"):
        if sizes.get(name, 0.0) > abs(tend - t0) and t0 != tend:
            raise ValueError(f"`{name}` exceeds bounds.")
    if sizes.get("max_step") == math.inf:
        del sizes["max_step"]
    if t0 == tend:
        sizes.setdefault("first_step", 1.0)  # the library computes none where there is nowhere to go
    if "first_step" in sizes:
        sizes["first_step"] *= math.copysign(1.0, tend - t0)
    for name, value in sizes.items():
        setattr(options, "has_" + name, 1)
        setattr(options, name, value)
    return options


def tolerances(values: Any, name: str) -> array:
    """One of the two lists of tolerances."""
    numbers = given.vector(values, f"`{name}`")
    for index, number in enumerate(numbers):
        if math.isnan(number):
            raise ValueError(f"{name}[{index}] is NaN")
    return numbers


def right_side(fun: Callable[..., Any], args: tuple, vectorized: bool) -> Callable[[float, Any], Any]:
    """`fun` of time and pose alone."""
    if not callable(fun):
        raise TypeError(f"`fun` must be callable, not {fun!r}")
    with_args: Callable[[float, Any], Any] = fun
    if args:
        with_args = lambda t, y: fun(t, y, *args)  # noqa: E731
    if not vectorized:
        return with_args

    def column(t: float, y: Any) -> Any:
        if given.numpy is None:
            f = with_args(t, [[state] for state in y])
            return [row if given.scalar(row) or len(row) != 1 else row[0] for row in f]
        f = given.real_array(with_args(t, y[:, None]), "what `fun` gave")
        return f[:, 0] if f.ndim == 2 and f.shape[1] == 1 else f

    return column


def jacobian(jac: Any, args: tuple, n: int) -> Optional[Callable[[float, Any], array]]:
    """The Jacobian column by column, as the library takes it."""
    if jac is None:
        return None
    if callable(jac):
        return lambda t, y: given.by_columns(jac(t, y, *args), n)
    constant = given.by_columns(jac, n)
    return lambda t, y: constant


def cap(options: Options, n: int) -> int:
    """Derivatives that no step of n states asks for more than, those of its difference Jacobians included."""
    columns = 0 if options.supplied else jacobian_cap(options) * n
    return (max(options.mxncf, 1) + 12) * options.maxcor + 7 + columns


def jacobian_cap(options: Options) -> int:
    """Jacobians that no step asks for more than."""
    return max(options.mxncf, 1) + 9
