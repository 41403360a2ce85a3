"""Events: on runs of the library and on given polynomials, beside scipy's where scipy is there."""

import math
import os
import subprocess
import sys
import unittest

PACKAGE = os.path.join(os.path.dirname(os.path.abspath(__file__)), "..")
sys.path.insert(0, PACKAGE)

from raimsklo import run as calls  # noqa: E402
from raimsklo.events import Events, brent  # noqa: E402
from raimsklo.library import LIBRARY  # noqa: E402

try:
    import numpy
except ImportError:
    numpy = None
try:
    from scipy.integrate import solve_ivp
    from scipy.optimize import brentq
except ImportError:
    solve_ivp = None
if solve_ivp is not None:
    from raimsklo.scipy_solver import LSODA

TOLERANCE = 4 * 2.0**-52


def swing(t, y):
    return [y[1], -y[0]]


def event(function, terminal=None, direction=None):
    """A new function with these attributes."""

    def made(*given):
        return function(*given)

    if terminal is not None:
        made.terminal = terminal
    if direction is not None:
        made.direction = direction
    return made


def place(t, y):
    return y[0]


def speed(t, y):
    return y[1]


def drive(fun, span, y0, events, args=(), rtol=1e-6, atol=1e-9):
    """A run of the library with these events: the events, and where a terminal one stopped it."""
    run = calls.Run(*span, y0, [rtol], [atol], LIBRARY.raimsklo_defaults())
    watched = Events(events, args, span[0], y0)
    while not run.ended:
        asked, y = run.answer, run.y
        if asked.number == calls.DERIVATIVE_WANTED:
            run.reply(calls.DERIVATIVE, fun(asked.time, y))
            continue
        if asked.number == calls.REPORT:
            snapshot = run.snapshot
            pose_at = lambda time: calls.interpolate(time, snapshot, run.n)  # noqa: B023, E731
            stopped = watched.after_step(asked.previous, asked.time, y, pose_at)
            if stopped is not None:
                return watched, stopped
        run.reply(calls.CONTINUE, y, asked.time)
    return watched, None


def told(events, ends, pose_at, args=()):
    """Steps between these times on poses that are given by a function: the events, and where they stopped."""
    watched = Events(events, args, ends[0], pose_at(ends[0]))
    for previous, t in zip(ends, ends[1:]):
        stopped = watched.after_step(previous, t, pose_at(t), pose_at)
        if stopped is not None:
            return watched, stopped
    return watched, None


class Roots(unittest.TestCase):
    """Brent's method."""

    # function, bracket, the zero
    SMOOTH = [
        (lambda x: x * x * x - 2.0, (0.0, 4.0), 2.0 ** (1.0 / 3.0)),
        (lambda x: math.cos(x) - x, (-1.0, 3.0), 0.7390851332151607),
        (lambda x: math.exp(x) - 1.5, (-8.0, 9.0), math.log(1.5)),
        (lambda x: math.atan(1e8 * (x - 0.3)), (-5.0, 2.0), 0.3),
        (lambda x: 1e-300 * (x - 0.9), (0.0, 2.0), 0.9),
        (lambda x: 1e300 * (x - 0.9), (0.0, 2.0), 0.9),
        (lambda x: x - 1e9, (0.0, 3e9), 1e9),
        (lambda x: math.tan(x), (-1.0, 1.25), 0.0),
    ]
    JUMPS = [
        (lambda x: 5e-324 if x > 0.9 else -5e-324, (0.0, 2.0), 0.9),
        (lambda x: math.inf if x > 0.25 else -math.inf, (0.0, 1.0), 0.25),
        (lambda x: 1.0 if x > 1e6 else -1e-9, (0.0, 2e6), 1e6),
        (lambda x: 1.0 / (x - 0.4), (0.0, 1.0), 0.4),
    ]
    KNOWN = SMOOTH + JUMPS

    def test_known_zeros_from_both_sides(self):
        for f, (a, b), zero in self.KNOWN:
            for a, b in ((a, b), (b, a)):
                found = brent(f, a, b, f(a), f(b))
                self.assertLessEqual(abs(found - zero), TOLERANCE * (1.0 + abs(zero)), (a, b, zero))

    def test_ends(self):
        unasked = lambda x: self.fail("an end is known")  # noqa: E731
        self.assertEqual(brent(unasked, 1.0, 2.0, 0.0, 5.0), 1.0)
        self.assertEqual(brent(unasked, 1.0, 2.0, -5.0, -0.0), 2.0)
        self.assertEqual(brent(unasked, 2.0, 1.0, 0.0, 0.0), 2.0)
        self.assertEqual(brent(unasked, 3.0, 3.0 + 2.0**-51, -1.0, 2.0), 3.0)

    def test_only_asks_within_the_bracket(self):
        for f, (a, b), _ in self.KNOWN:
            asked = []
            brent(lambda x: asked.append(x) or f(x), a, b, f(a), f(b))
            self.assertTrue(all(a <= x <= b for x in asked))
            self.assertLessEqual(len(asked), 100)

    def test_no_change_of_sign(self):
        for fa, fb in ((1.0, 2.0), (-1.0, -2.0), (math.nan, 1.0), (-1.0, math.nan)):
            with self.assertRaisesRegex(ValueError, "no change of sign"):
                brent(lambda x: 0.0, 0.0, 1.0, fa, fb)

    def test_bounded(self):
        asked = []
        flat = lambda x: asked.append(x) or math.copysign(1.0, x)  # noqa: E731
        self.assertLessEqual(abs(brent(flat, -1e300, 2e300, -1.0, 1.0)), TOLERANCE)
        self.assertLessEqual(len(asked), 100 + 1100)  # and a bisection of all doubles
        for power in (3, 9, 21):
            for f in (lambda x: (x - 0.7) ** power, lambda x: 1e300 * (0.7 - x) ** power):  # noqa: B023
                for a, b in ((-2.0, 2.5), (2.5, -2.0)):
                    zero = brent(f, a, b, f(a), f(b))
                    below, above = f(zero - 2 * TOLERANCE), f(zero + 2 * TOLERANCE)
                    self.assertTrue(f(zero) == 0.0 or below * above <= 0.0, (power, zero))

    @unittest.skipIf(solve_ivp is None, "no scipy")
    def test_beside_scipy(self):
        for f, (a, b), _ in self.SMOOTH:
            for a, b in ((a, b), (b, a)):
                theirs = brentq(f, a, b, xtol=TOLERANCE, rtol=TOLERANCE)
                ours = brent(f, a, b, f(a), f(b))
                self.assertLessEqual(abs(ours - theirs), TOLERANCE * (1.0 + abs(theirs)), (a, b))


class Polynomials(unittest.TestCase):
    """Steps on given poses, whose zeros are known."""

    def equal(self, found, wanted):
        found = [[float(t) for t in times] for times in found]
        self.assertEqual([len(times) for times in found], [len(times) for times in wanted], found)
        for times, known in zip(found, wanted):
            for t, s in zip(times, known):
                self.assertLessEqual(abs(t - s), TOLERANCE * (1.0 + abs(s)))

    def test_both_directions(self):
        poses = lambda t: [(t - 0.5) * (t - 1.7), t]  # noqa: E731
        forward, backward = [0.0, 1.0, 2.0, 3.0], [3.0, 2.0, 1.0, 0.0]
        for ends, both, up, down in (
            (forward, [0.5, 1.7], [1.7], [0.5]),
            (backward, [1.7, 0.5], [0.5], [1.7]),
        ):
            events = [event(place, direction=d) for d in (None, 0, 1, 0.5, -1, -3)]
            watched, stopped = told(events, ends, poses)
            self.assertIsNone(stopped)
            self.equal(watched.t_events, [both, both, up, up, down, down])
            for t, y in zip(watched.t_events[0], watched.y_events[0]):
                self.assertEqual(list(y), poses(t))

    def test_one_function_and_none(self):
        watched, _ = told(place, [0.0, 1.0], lambda t: [t - 0.25])
        self.equal(watched.t_events, [[0.25]])
        watched, stopped = told([], [0.0, 1.0], lambda t: [t - 0.25])
        self.assertEqual((watched.t_events, watched.y_events, stopped), ([], [], None))

    def test_arguments(self):
        watched, _ = told(lambda t, y, k, m: y[0] - k * m, [0.0, 1.0], lambda t: [t], args=(0.25, 2))
        self.equal(watched.t_events, [[0.5]])

    def test_several_in_one_step_and_a_terminal_one(self):
        at = lambda s, **given: event(lambda t, y: y[0] - s, **given)  # noqa: E731
        for ends, order in (([0.0, 1.0], 1), ([1.0, 0.0], -1)):
            events = [at(0.75), at(0.5, terminal=True), at(0.25), at(0.6, terminal=True), at(0.4, terminal=True)]
            watched, stopped = told(events, ends, lambda t: [t])
            first, kept = (0.4, [[], [], [0.25], [], [0.4]]) if order > 0 else (0.6, [[0.75], [], [], [0.6], []])
            self.assertAlmostEqual(stopped[0], first, delta=1e-15)
            self.assertEqual(list(stopped[1]), [stopped[0]])
            self.equal(watched.t_events, kept)
            watched, stopped = told([at(0.75), at(0.25)], ends, lambda t: [t])
            self.assertIsNone(stopped)
            self.equal(watched.t_events, [[0.75], [0.25]])

    def test_terminal_counts(self):
        ends = [0.5 + 0.9 * k for k in range(12)]
        wave = lambda t: [math.sin(math.pi * t)]  # noqa: E731
        for terminal, stop in ((1, 1.0), (True, 1.0), (2, 2.0), (3.0, 3.0), (5, 5.0)):
            watched, stopped = told(event(place, terminal=terminal), ends, wave)
            self.assertAlmostEqual(stopped[0], stop, delta=1e-14)
            self.assertEqual(len(watched.t_events[0]), int(terminal))
        # only passages of the direction asked for count
        watched, stopped = told(event(place, terminal=2, direction=1), ends, wave)
        self.assertAlmostEqual(stopped[0], 4.0, delta=1e-14)
        for terminal in (0, False, None, 50):
            watched, stopped = told(event(place, terminal=terminal), ends, wave)
            self.assertIsNone(stopped)
            self.assertEqual(len(watched.t_events[0]), 10)

    def test_zero_at_the_ends_of_steps(self):
        # at the start; at a step's end, in that step and in the next one, as scipy's rules have it
        watched, _ = told([place, event(place, direction=-1)], [0.0, 1.0], lambda t: [t])
        self.equal(watched.t_events, [[0.0], []])
        watched, _ = told(place, [0.0, 1.0, 2.0], lambda t: [t - 1.0])
        self.equal(watched.t_events, [[1.0, 1.0]])
        watched, stopped = told(event(place, terminal=True), [0.0, 1.0, 2.0], lambda t: [t - 1.0])
        self.assertEqual((stopped[0], list(stopped[1])), (1.0, [0.0]))

    def test_signs_at_the_ends_are_those_of_the_accepted_poses(self):
        # the interpolation comes to another pose at the step's beginning, with the sign of the end's
        poses = {0.0: [-1e-9], 1.0: [1.0]}
        watched = Events(place, (), 0.0, poses[0.0])
        self.assertIsNone(watched.after_step(0.0, 1.0, poses[1.0], lambda t: [1e-9 + t]))
        self.assertLessEqual(watched.t_events[0][0], 1e-15)

    def test_nan_is_no_change_of_sign(self):
        values = iter([-1.0, math.nan, 1.0, -1.0])
        watched = Events(lambda t, y: next(values), (), 0.0, [0.0])
        unasked = lambda t: self.fail("no pose is needed")  # noqa: E731
        self.assertIsNone(watched.after_step(0.0, 1.0, [0.0], unasked))
        self.assertIsNone(watched.after_step(1.0, 2.0, [0.0], unasked))
        with self.assertRaisesRegex(ValueError, r"events\[0\] gave NaN at"):
            told(lambda t, y: t - 0.5 if t in (0.0, 1.0) else math.nan, [0.0, 1.0], lambda t: [t])

    def test_each_call_has_a_pose_of_its_own(self):
        kept = []

        def spoils(t, y):
            kept.append(y)
            value, y[0] = y[0] - 0.5, 7.0
            return value

        y0, y1 = [0.0], [1.0]
        watched = Events([spoils, place], (), 0.0, y0)
        watched.after_step(0.0, 1.0, y1, lambda t: [t])
        self.assertEqual((y0, y1), ([0.0], [1.0]))
        self.assertEqual([list(pose) for pose in watched.y_events[0]], [[0.5]])
        self.assertEqual(len({id(pose) for pose in kept}), len(kept))
        watched, (time, pose) = told(event(place, terminal=True), [-1.0, 1.0], lambda t: [t])
        pose[0] = 7.0
        self.assertEqual(list(watched.y_events[0][0]), [time])


class Values(unittest.TestCase):
    def test_one_number(self):
        for made in (lambda x: [x], lambda x: (x,), lambda x: 2 * (x > 0) - 1, lambda x: int(1000 * x)):
            watched, _ = told(lambda t, y: made(y[0] - 0.5), [0.0, 1.0], lambda t: [t])  # noqa: B023
            self.assertAlmostEqual(watched.t_events[0][0], 0.5, delta=1e-2)
            self.assertIs(type(float(watched.t_events[0][0])), float)

    @unittest.skipIf(numpy is None, "no numpy")
    def test_arrays_of_one(self):
        shapes = (lambda x: numpy.array(x), lambda x: numpy.array([x]), lambda x: numpy.array([[x]]), numpy.float64)
        for made in shapes:
            watched, _ = told(lambda t, y: made(y[0] - 0.5), [0.0, 1.0], lambda t: [t])  # noqa: B023
            self.assertAlmostEqual(watched.t_events[0][0], 0.5, delta=1e-15)
        one = 1 + 5j
        kinds = (numpy.complex64, numpy.complex128, numpy.clongdouble)
        wrongs = [numpy.zeros(2), numpy.zeros((0,)), numpy.array(["a"]), numpy.ma.masked, [numpy.ma.masked]]
        for kind in kinds:
            wrongs += [kind(one), [kind(one)], numpy.array(one, kind), numpy.array([kind(1)])]
        for wrong in wrongs:
            with self.assertRaisesRegex(ValueError, r"events\[0\] gave"):
                Events(lambda t, y: wrong, (), 0.0, [0.0])  # noqa: B023

    def test_no_number(self):
        for wrong in (None, "1", [1.0, 2.0], [], {}, 1j, complex(1.0, 0.0), [1j], object()):
            with self.assertRaisesRegex(ValueError, r"events\[1\] gave"):
                Events([place, lambda t, y: wrong], (), 0.0, [0.0])  # noqa: B023

    def test_attributes(self):
        for terminal in (-1, 2.5, math.nan, math.inf, "yes", [1, 2], 1j):
            with self.assertRaisesRegex(ValueError, r"`terminal` of events\[0\] must be a boolean or a positive int"):
                Events(event(place, terminal=terminal), (), 0.0, [0.0])
        for direction in (math.nan, "up", "1", [1, 2], 1j):
            with self.assertRaisesRegex(ValueError, r"`direction` of events\[0\] must be a number"):
                Events(event(place, direction=direction), (), 0.0, [0.0])
        with self.assertRaisesRegex(TypeError, r"events\[1\] is not callable"):
            Events([place, 3], (), 0.0, [0.0])

    def test_shapes(self):
        watched, _ = told([place, lambda t, y: 1.0], [-1.0, 1.0], lambda t: [t, 2.0])
        if numpy is None:
            self.assertEqual(watched.y_events, [[[watched.t_events[0][0], 2.0]], []])
            self.assertEqual(watched.t_events[1], [])
        else:
            self.assertEqual([t.shape for t in watched.t_events], [(1,), (0,)])
            self.assertEqual([y.shape for y in watched.y_events], [(1, 2), (0,)])
            self.assertEqual({array.dtype for array in watched.t_events + watched.y_events}, {numpy.dtype(float)})


class Runs(unittest.TestCase):
    """Runs of the library."""

    def test_known_times(self):
        events = [place, event(speed, direction=1), event(speed, direction=-1)]
        for span, y0 in (((1.0, 9.0), [math.cos(1.0), -math.sin(1.0)]), ((9.0, 1.0), [math.cos(9.0), -math.sin(9.0)])):
            watched, stopped = drive(swing, span, y0, events, rtol=1e-8, atol=1e-10)
            self.assertIsNone(stopped)
            quarter = [math.pi / 2, 3 * math.pi / 2, 5 * math.pi / 2]
            up, down = ([math.pi], [2 * math.pi]) if span[0] < span[1] else ([2 * math.pi], [math.pi])
            for found, wanted in zip(watched.t_events, (quarter if span[0] < span[1] else quarter[::-1], up, down)):
                self.assertEqual(len(found), len(wanted))
                for t, s in zip(found, wanted):
                    self.assertAlmostEqual(t, s, delta=1e-4)
            for y in watched.y_events[0]:
                self.assertAlmostEqual(y[0], 0.0, delta=1e-14)

    def test_terminal(self):
        watched, (time, pose) = drive(swing, (0.0, 10.0), [1.0, 0.0], event(place, terminal=2), rtol=1e-8, atol=1e-10)
        self.assertAlmostEqual(time, 3 * math.pi / 2, delta=1e-4)
        self.assertEqual(list(pose), list(watched.y_events[0][1]))
        self.assertEqual(time, watched.t_events[0][1])

    def test_without_numpy(self):
        # what numpy's absence changes, where numpy is there
        script = (
            "import sys; sys.modules['numpy'] = None\n"
            "from raimsklo.events import Events\n"
            "watched = Events(lambda t, y: y[0], (), 0.0, [-0.5])\n"
            "watched.after_step(0.0, 1.0, [0.5], lambda t: [t - 0.5])\n"
            "print(watched.t_events, watched.y_events)\n"
        )
        given = dict(os.environ, PYTHONPATH=PACKAGE)
        printed = subprocess.run([sys.executable, "-c", script], env=given, check=True, capture_output=True).stdout
        self.assertEqual(printed.decode(), "[[0.5]] [[[0.0]]]\n")


@unittest.skipIf(solve_ivp is None, "no scipy")
class BesideScipy(unittest.TestCase):
    """The same events as scipy's solve_ivp finds on the same steps."""

    def same(self, fun, span, y0, events, args=(), rtol=1e-6, atol=1e-9):
        watched, stopped = drive(lambda t, y: fun(t, y, *args), span, y0, events, args, rtol, atol)
        given = dict(method=LSODA, events=events, args=args or None, rtol=rtol, atol=atol)
        theirs = solve_ivp(fun, span, y0, **given)
        self.assertEqual(theirs.status, 0 if stopped is None else 1, theirs.message)
        self.assertEqual(len(watched.t_events), len(theirs.t_events))
        for ours, other in zip(watched.t_events, theirs.t_events):
            self.assertEqual(ours.shape, other.shape)
            numpy.testing.assert_allclose(ours, other, rtol=0, atol=1e-12)
        for ours, other in zip(watched.y_events, theirs.y_events):
            self.assertEqual(ours.shape, other.shape)
            numpy.testing.assert_allclose(ours, other, rtol=1e-9, atol=1e-9)
        if stopped is not None:
            self.assertAlmostEqual(stopped[0], theirs.t[-1], delta=1e-12)
            numpy.testing.assert_allclose(stopped[1], theirs.y[:, -1], rtol=1e-9, atol=1e-9)
        return watched

    def test_oscillator(self):
        events = [event(f, direction=d) for f in (place, speed) for d in (0, 1, -1)]
        events.append(lambda t, y: y[0] - 0.3)
        events.append(lambda t, y: math.sin(3 * t) - y[1])
        for span in ((0.0, 10.0), (0.0, -10.0), (2.0, 2.7)):
            watched = self.same(swing, span, [1.0, 0.0], events)
            self.assertEqual(len(watched.t_events[3 if span[1] < 0 else 1]) > 0, abs(span[1]) == 10.0)
        self.same(swing, (0.0, 10.0), [1.0, 0.0], events, rtol=1e-3, atol=1e-6)

    def test_terminal(self):
        for direction in (0, 1, -1):
            for span in ((0.0, 10.0), (0.0, -10.0)):
                events = [speed, event(place, terminal=True, direction=direction), lambda t, y: y[0] + y[1]]
                self.same(swing, span, [1.0, 0.0], events)

    def test_at_the_start(self):
        for y0 in ([0.0, 1.0], [0.0, -1.0]):
            for direction in (0, 1, -1):
                watched = self.same(swing, (0.0, 4.0), y0, event(place, direction=direction))
                expected = 2 if direction == 0 else 1
                self.assertEqual(len(watched.t_events[0]), expected)

    def test_arguments(self):
        decay = lambda t, y, k, level: [-k * y[0]]  # noqa: E731
        watched = self.same(decay, (0.0, 3.0), [1.0], lambda t, y, k, level: y[0] - level, (2.0, 0.1))
        self.assertAlmostEqual(watched.t_events[0][0], math.log(10.0) / 2.0, delta=1e-4)

    def test_stiff_with_changes_of_order(self):
        van_der_pol = lambda t, y: [y[1], 1000.0 * (1.0 - y[0] * y[0]) * y[1] - y[0]]  # noqa: E731
        events = [place, lambda t, y: y[0] - 1.5, event(speed, direction=1), lambda t, y: math.sin(t / 7)]
        watched = self.same(van_der_pol, (0.0, 2000.0), [2.0, 0.0], events, rtol=1e-4, atol=1e-7)
        self.assertGreater(min(len(t) for t in watched.t_events), 0)

    def test_many_levels_close_to_accepted_poses(self):
        # levels at, just above and just below accepted poses: where interpolation and pose differ, signs must not
        accepted = solve_ivp(swing, (0.0, 3.0), [1.0, 0.0], method=LSODA, rtol=1e-6, atol=1e-9).y[0][::7]
        levels = [level * (1.0 + shift) for level in accepted for shift in (0.0, 1e-16, -1e-16, 1e-15, -1e-15)]
        events = [lambda t, y, level=level: y[0] - level for level in levels]
        self.same(swing, (0.0, 3.0), [1.0, 0.0], events)


if __name__ == "__main__":
    unittest.main()
