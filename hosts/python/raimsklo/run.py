"""One run, a question at a time: the calls of the library with their buffers, for callers that keep control."""

from __future__ import annotations

import math
from array import array
from ctypes import byref, c_double, c_size_t, c_uint8
from struct import Struct, error
from typing import Any, Callable, List, NamedTuple, Optional

from . import given
from .library import COUNT_WORDS, LIBRARY, MOST_STATES, SESSION_LENGTH, Answer, Options
from .library import defaults, question_length, work_length
from .refused import DERIVATIVE_WANTED, ENDS, FIRST_REPORT, JACOBIAN_WANTED, REPORT, Refused, SUCCESS

__all__ = [
    "CONTINUE",
    "Counts",
    "DERIVATIVE",
    "DERIVATIVE_WANTED",
    "ENDS",
    "FIRST_REPORT",
    "INTERRUPT",
    "JACOBIAN",
    "JACOBIAN_WANTED",
    "MODIFIED",
    "REPORT",
    "Refused",
    "Run",
    "interpolate",
    "root",
]

DERIVATIVE, JACOBIAN, CONTINUE, INTERRUPT, MODIFIED = 1, 2, 3, 4, 5

DOUBLE = 8  # bytes
ORDERS = 13  # of a snapshot, 0 to 12
HEADER = 6  # numbers of a snapshot before its columns

start, reply, interpolate_into = LIBRARY.raimsklo_start, LIBRARY.raimsklo_reply, LIBRARY.raimsklo_interpolate
size, time_of = c_size_t.from_param, c_double.from_param


class Counts(NamedTuple):
    """The library's counts of a run: steps accepted, derivatives, Jacobians, factorings, attempts rejected, steps."""

    accepted: int
    nfe: int
    nje: int
    nlu: int
    rejected: int
    total: int


class Run:
    """A run from x0 to xend, a question at a time.

    The library answers what it wants next, the caller replies with it, until the run has ended. Several runs may go on
    at once, in several threads too; one run belongs to one thread at a time.

    Parameters
    ----------
    x0, xend : float
        The interval. Where they are equal and `options` has no first step, 11 is refused.
    y0 : sequence of float
        The start's pose, at most 64 states.
    rtol, atol : float or sequence of float
        Tolerances of a step, one or as many as there are states.
    options : Options, optional
        The settings: what `defaults()` gives, changed where another is wanted.

    Attributes
    ----------
    answer : Answer
        What the library answered last; its `number` says what is wanted, its `time` when.
    ended : bool
        Whether the run has ended; `answer` then has the counts.
    n : int
        The number of states.
    y : numpy.ndarray or list
        The pose that the answer is about, anew at each reading.
    counts : Counts
        accepted, nfe, nje, nlu, rejected and total so far.
    snapshot : numpy.ndarray, list or None
        After a REPORT, what `interpolate` takes, anew at each reading.

    Examples
    --------
    >>> import raimsklo
    >>> run = raimsklo.Run(0.0, 1.0, [1.0], rtol=1e-6, atol=1e-9)
    >>> steps = 0
    >>> while not run.ended:
    ...     asked = run.answer
    ...     if asked.number == raimsklo.DERIVATIVE_WANTED:
    ...         run.reply(raimsklo.DERIVATIVE, [-run.y[0]])
    ...     else:  # FIRST_REPORT or REPORT; JACOBIAN_WANTED comes only with options.supplied
    ...         steps += asked.number == raimsklo.REPORT
    ...         run.reply(raimsklo.CONTINUE, run.y, asked.time)
    >>> raimsklo.ENDS[run.answer.number], steps == run.answer.accepted, round(float(run.y[0]), 3)
    ('success', True, 0.368)
    """

    answer: Answer
    n: int
    _refused = False  # by 11 or 12, in a reply

    def __init__(
        self, x0: float, xend: float, y0: Any, rtol: Any, atol: Any, options: Optional[Options] = None
    ) -> None:
        options = defaults() if options is None else options
        if not isinstance(options, Options):
            raise TypeError(f"`options` must be what defaults() gives, not {options!r}")
        x0, xend = given.number(x0, "`x0`"), given.number(xend, "`xend`")
        y0, rtol, atol = (given.vector(v, name) for v, name in ((y0, "`y0`"), (rtol, "`rtol`"), (atol, "`atol`")))
        self.n = n = len(y0)
        if n > MOST_STATES:  # before anything of this size is made
            raise Refused(1)
        self._work = (c_double * work_length(n))()
        self._pivots = (c_size_t * n)()
        self._session = (c_uint8 * SESSION_LENGTH)()
        self._question = (c_double * question_length(n))()
        buffers: List[Any] = [self._work, self._pivots, self._session, self._question]
        self._lent: Any = sum(((byref(b), size(len(b))) for b in buffers), ())
        self._octets = memoryview(self._question).cast("B")
        numbers = [(pointer(v), size(len(v))) for v in (y0, rtol, atol)]
        self._take(start(time_of(x0), time_of(xend), *sum(numbers, ()), options, *self._lent))

    def _take(self, answer: Answer) -> None:
        if answer.number < DERIVATIVE_WANTED:
            # 11 and 12 have ended the run; the others, 14 after that among them, have changed nothing
            self._refused = self._refused or answer.number in (11, 12)
            raise Refused(answer.number, answer.index, answer.value)
        self.answer = answer

    def reply(self, kind: int, numbers: Any, time: float = 0.0) -> None:
        """Replies to the library's question.

        Parameters
        ----------
        kind : int
            DERIVATIVE with n numbers; JACOBIAN with n*n, column by column; after a report CONTINUE, INTERRUPT or
            MODIFIED, with the pose and the time. MODIFIED takes another pose, and the run restarts from it at order 1.
        numbers : sequence of float
            What the kind goes with.
        time : float
            Of use after a report alone.
        """
        if self.n == 0:  # it has ended, and has no session that would say so
            raise Refused(14)
        numbers, time = given.vector(numbers, "what a reply gave"), given.number(time, "`time`")
        self._take(reply(size(kind), pointer(numbers), size(len(numbers)), time_of(time), *self._lent))

    @property
    def counts(self) -> Counts:
        """The library's counts so far, at a question, a report or an end: they stand in the session."""
        octets = bytes(self._session)
        words = {name: octets[DOUBLE * word : DOUBLE * (word + 1)] for name, word in COUNT_WORDS.items()}
        return Counts(**{name: int.from_bytes(word, "little") for name, word in words.items()})

    @property
    def ended(self) -> bool:
        """Whether the run has ended, by its name or by refusal 11 or 12 of a reply."""
        return self.answer.number >= SUCCESS or self._refused

    @property
    def y(self) -> Any:
        """The pose that the answer is about, a fresh array or list.

        After an early end or a refusal it may be one that was not accepted: the last report had the last that was.
        """
        return given.copied(self._octets[: DOUBLE * self.n])

    @property
    def snapshot(self) -> Any:
        """The snapshot of the report that stands, a fresh array or list: what `interpolate` takes."""
        if self.answer.order == 0:
            return None
        return given.copied(snapshot_of(self._octets, self.n, self.answer.order))


def snapshot_length(n: int, order: int) -> int:
    return HEADER + (order + 1) * n


def snapshot_of(question: memoryview, n: int, order: int) -> memoryview:
    """The bytes of the snapshot in those of a question."""
    return question[DOUBLE * n : DOUBLE * (n + snapshot_length(n, order))]


def pointer(numbers: array, place: int = 0) -> Any:
    """To an entry of doubles, for a call of the library."""
    return byref(c_double.from_buffer(numbers, DOUBLE * place)) if numbers else byref(c_double())


def interpolate(t: float, snapshot: Any, n: int) -> Any:
    """The pose at time t from a report's snapshot.

    Parameters
    ----------
    t : float
        A time within the step that the snapshot was taken after; beyond it the numbers mean nothing.
    snapshot : sequence of float
        What `Run.snapshot` gave.
    n : int
        The number of states.

    Returns
    -------
    numpy.ndarray or list
        The pose, n numbers.

    Examples
    --------
    One state at order 1: 2 at the time 1, and 0.5 more for each step of 0.5.

    >>> from raimsklo import interpolate
    >>> [float(y) for y in interpolate(0.75, [1, 1, 1.0, 0.5, 0.5, 2.0**-52, 2.0, 0.5], 1)]
    [1.75]
    """
    numbers, pose = given.vector(snapshot, "`snapshot`"), array("d", bytes(DOUBLE * n))
    time = time_of(given.number(t, "`t`"))
    number = interpolate_into(time, pointer(pose), size(n), pointer(numbers), size(len(numbers)))
    if number:
        raise Refused(number)
    return given.handed_out(pose)


def root(x: float, k: int) -> float:
    """The root of order k of x as the solver takes it, k from 2 to 13; NaN for another order.

    Examples
    --------
    >>> from raimsklo import root
    >>> root(8.0, 3), root(2.0, 1)
    (2.0, nan)
    """
    order = given.whole(k, "k")
    return LIBRARY.raimsklo_root(given.number(x, "`x`"), order if 0 <= order < 2**64 else 0)


class Buffers:
    """A run's buffers as a driver reads and writes them: nothing is made anew for a call that can be kept.

    state()             the pose that the answer is about, fresh
    put(f)              takes what `fun` gave for the next reply
    finite()            whether each number of that pose is finite
    finite_between()    the same of the pose that was interpolated last
    """

    def __init__(self, run: Run) -> None:
        n = run.n
        self.run, self.n = run, n
        self._numbers, self._pose = (c_double * (n * n))(), (c_double * n)()
        self.numbers, self.between = memoryview(self._numbers).cast("B"), memoryview(self._pose).cast("B")
        self.y = run._octets[: DOUBLE * n]
        self.kept_y = self.numbers[: DOUBLE * n]
        self._n = size(n)
        numbers, zero = byref(self._numbers), time_of(0.0)
        self.derivative = (size(DERIVATIVE), numbers, self._n, zero, *run._lent)
        self.jacobian = (size(JACOBIAN), numbers, size(n * n), zero, *run._lent)
        self._reported = {kind: (size(kind), numbers, self._n) for kind in (CONTINUE, INTERRUPT)}
        self._snapshot = byref(run._question, DOUBLE * n)
        self._lengths = [size(snapshot_length(n, order)) for order in range(ORDERS)]
        self._closures()

    state: Callable[[], Any]
    put: Callable[[Any], None]
    finite: Callable[[], bool]
    finite_between: Callable[[], bool]

    def _closures(self) -> None:
        n, octets, numbers = self.n, self.kept_y, self._numbers
        pack, plain, slow = Struct(f"{n}d").pack_into, given.PLAIN.issuperset, given.derivative
        numpy = given.numpy

        def put_list(f: Any) -> None:
            if (type(f) is list or type(f) is tuple) and len(f) == n and plain(map(type, f)):
                try:
                    pack(numbers, 0, *f)
                    return
                except error:  # a whole number beyond the doubles
                    pass
            octets[:] = memoryview(slow(f, n)).cast("B")

        if numpy is None:
            y, between = self.y.cast("d"), self.between.cast("d")
            self.state, self.put = y.tolist, put_list
            self.finite = lambda: all(map(math.isfinite, y))
            self.finite_between = lambda: all(map(math.isfinite, between))
            return
        lent: List[Any] = [self.run._question, self._pose]
        y, between = (numpy.frombuffer(b, dtype=float, count=n) for b in lent)
        doubles, zeros = octets.cast("d"), numpy.zeros(n)
        ndarray: Any = numpy.ndarray

        def put(f: Any) -> None:
            if type(f) is ndarray:
                try:
                    doubles[:] = f  # n doubles in a row are copied, and all else raises
                    return
                except ValueError:
                    pass
            put_list(f)

        self.state, self.put = y.copy, put
        # 0 times a number is 0 where the number is finite, and NaN otherwise; one call instead of two
        self.finite = lambda: y.dot(zeros) == 0.0
        self.finite_between = lambda: between.dot(zeros) == 0.0

    def put_jacobian(self, columns: array) -> None:
        self.numbers[:] = memoryview(columns).cast("B")

    def reported(self, kind: int, time: float) -> Answer:
        """The reply to a report: the pose and the time as they are."""
        self.kept_y[:] = self.y
        return reply(*self._reported[kind], time_of(time), *self.run._lent)

    def snapshot(self, order: int) -> memoryview:
        """The bytes of the snapshot of the report that stands."""
        return snapshot_of(self.run._octets, self.n, order)

    def interpolate(self, t: float, order: int) -> memoryview:
        """The bytes of the pose at t, within the step that was reported last; they stand until the next call."""
        number = interpolate_into(time_of(t), byref(self._pose), self._n, self._snapshot, self._lengths[order])
        if number:
            raise Refused(number)
        return self.between
