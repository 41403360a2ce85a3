"""The library's numbers in words: refusals, ends, and what may be done after an end."""

from __future__ import annotations

from typing import Any, Optional

DERIVATIVE_WANTED, JACOBIAN_WANTED, FIRST_REPORT, REPORT = 100, 101, 102, 103
SUCCESS = 110

ENDS = {
    110: "success",
    111: "interrupted",
    112: "needs more steps",
    113: "step too small",
    114: "poor convergence",
    115: "coefficient gap",
}

ADVICE = {
    112: "raise max_steps, give a first_step, loosen the tolerances, shorten the interval, or look for a pole of the "
    "right side near this time",
    113: "loosen the tolerances, lower min_step, or look for a jump or a pole of the right side near this time",
    114: "give a Jacobian, raise maxcor or mxncf, lower min_step, or look for a jump or a pole of the right side near "
    "this time",
    115: "set mxordn to 5 or less",
}

REFUSALS = {
    1: "more than 64 states",
    2: "a tolerance list is neither 1 long nor as long as y0",
    3: "the length of a buffer is wrong",
    4: "a setting is above 1,000,000",
    5: "max_steps is 0",
    6: "maxcor is 0",
    7: "mxordn or mxords is 0",
    8: "banded storage is not supported",
    9: "rtol[{index}] is below 0",
    10: "atol[{index}] is below 0",
    11: "the first step {value!r} is zero, NaN or leads away from the end",
    12: "the weight rtol*|y|+atol of state {index} is at most 0",
    13: "the session holds a value out of its range",
    14: "a reply of another kind or length was asked for, or the run has ended",
    15: "the snapshot's header is damaged",
    16: "the pose has another length than the snapshot's states",
    17: "the snapshot's history is too short or its step is zero",
}


def message(number: int) -> str:
    """The name of an end, with what may be done about it: ``"END"`` or ``"END: ADVICE"``.

    >>> message(110)
    'success'
    >>> message(115)
    'coefficient gap: set mxordn to 5 or less'
    """
    return f"{ENDS[number]}: {ADVICE[number]}" if number in ADVICE else ENDS[number]


class Refused(ValueError):
    """A refusal by the library.

    Parameters
    ----------
    number : int
        Which one, 1 to 17, as include/raimsklo.h lists them.
    index : int
        The entry that refusals 9, 10 and 12 are about.
    value : float
        The first step that refusal 11 is about.
    told : str, optional
        The text, where it is another than the library's.

    Examples
    --------
    >>> from raimsklo import Refused, solve_ivp
    >>> try:
    ...     solve_ivp(lambda t, y: [-y[0]], (0, 1), [1.0], rtol=-1.0)
    ... except Refused as refused:
    ...     print(refused.number, refused.index, refused)
    9 0 refused (9): rtol[0] is below 0
    """

    number: int
    index: int
    value: float
    told: Optional[str]

    def __init__(self, number: int, index: int = 0, value: float = 0.0, told: Optional[str] = None) -> None:
        super().__init__(f"refused ({number}): " + (told or REFUSALS[number].format(index=index, value=value)))
        self.number, self.index, self.value, self.told = number, index, value, told

    def __reduce__(self) -> Any:
        # an exception is otherwise made anew from its text alone
        return type(self), (self.number, self.index, self.value, self.told), self.__dict__
