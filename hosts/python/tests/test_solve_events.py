"""Events in `solve_ivp`: what they do to times, poses, dense output and the result's words."""

import math
import os
import sys
import unittest

sys.path.insert(0, os.path.join(os.path.dirname(os.path.abspath(__file__)), ".."))

from raimsklo import solve_ivp  # noqa: E402
from test_solve import swing  # noqa: E402

try:
    import numpy
except ImportError:
    numpy = None

TIGHT = dict(rtol=1e-8, atol=1e-10)


def made(function, terminal=False, direction=0.0):
    event = lambda t, y, *args: function(t, y, *args)  # noqa: E731
    event.terminal, event.direction = terminal, direction
    return event


def poses(result):
    return [list(row) for row in result.y]


class Events(unittest.TestCase):
    def test_none(self):
        result = solve_ivp(swing, (0, 10), [1, 0])
        self.assertEqual((result.t_events, result.y_events), (None, None))

    def test_poses_at_the_ends_of_a_step(self):
        """They are the accepted ones, at the beginning too, where the interpolation may be of another order."""
        result = solve_ivp(swing, (0, 10), [1, 0], events=made(lambda t, y: float(t > 4)), dense_output=True)
        accepted = {float(t): [float(row[k]) for row in result.y] for k, t in enumerate(result.t)}
        self.assertGreater(len(result.t_events[0]), 0)
        for t, pose in zip(result.t_events[0], result.y_events[0]):
            if float(t) in accepted:
                self.assertEqual(list(pose), accepted[float(t)])
        self.assertTrue(any(float(t) in accepted for t in result.t_events[0]))
        stopped = solve_ivp(swing, (20, 0), [1, 0], events=made(lambda t, y: y[1], terminal=True))
        self.assertEqual((list(stopped.t), poses(stopped)), ([20.0, 20.0], [[1.0, 1.0], [0.0, 0.0]]))

    def test_a_flat_zero(self):
        for power in (3, 11, 21):
            result = solve_ivp(swing, (0, 2), [1, 0], events=made(lambda t, y: y[0] ** power), **TIGHT)  # noqa: B023
            self.assertEqual(len(result.t_events[0]), 1)
            self.assertAlmostEqual(float(result.t_events[0][0]), 0.5 * math.pi, delta=1e-4)

    def test_found(self):
        plain = solve_ivp(swing, (0, 10), [1, 0], **TIGHT)
        for more in ({}, dict(t_eval=[1, 2]), dict(dense_output=True)):
            result = solve_ivp(
                swing, (0, 10), [1, 0], events=[made(lambda t, y: y[0]), made(lambda t, y: y[0] - 7.0)], **TIGHT, **more
            )
            self.assertEqual((result.success, result.status, result.message), (True, 0, "success"))
            self.assertEqual([len(times) for times in result.t_events], [3, 0])
            for k, t in enumerate(result.t_events[0]):
                self.assertAlmostEqual(t, (k + 0.5) * math.pi, delta=1e-4)
                self.assertAlmostEqual(result.y_events[0][k][0], 0.0, delta=1e-12)
            self.assertEqual((result.nfev, result.accepted), (plain.nfev, plain.accepted))
            if "t_eval" not in more:
                self.assertEqual((list(result.t), poses(result)), (list(plain.t), poses(plain)))
            if numpy is not None:
                self.assertEqual(result.y_events[0].shape, (3, 2))

    def test_terminal(self):
        for end in (10, -10):
            stop, sign = made(lambda t, y: y[0], terminal=True), math.copysign(1.0, end)
            plain = solve_ivp(swing, (0, end), [1, 0], **TIGHT)
            result = solve_ivp(swing, (0, end), [1, 0], events=stop, dense_output=True, **TIGHT)
            self.assertEqual((result.status, result.success, result.number), (1, True, 111))
            self.assertEqual((result.end, result.message), ("interrupted", "A termination event occurred."))
            last = float(result.t[-1])
            self.assertAlmostEqual(last, sign * 0.5 * math.pi, delta=1e-4)
            self.assertEqual(last, result.t_events[0][0])
            self.assertEqual([row[-1] for row in result.y], list(result.y_events[0][0]))
            self.assertEqual(list(result.t[:-1]), list(plain.t[: len(result.t) - 1]))
            self.assertGreater(abs(plain.t[len(result.t) - 1]), abs(last))
            self.assertEqual((len(result.counts), result.accepted), (len(result.t) - 1, len(result.t) - 1))
            self.assertEqual((result.sol.t_min, result.sol.t_max), (min(0.0, last), max(0.0, last)))
            self.assertEqual(list(result.sol(last)), [row[-1] for row in result.y])
            with self.assertRaisesRegex(ValueError, "no pose at"):
                result.sol(1.0001 * last)

    def test_terminal_with_times_asked_for(self):
        stop = made(lambda t, y: y[0], terminal=True)
        for sign in (1.0, -1.0):
            times = [sign * 0.1 * k for k in range(101)]
            result = solve_ivp(swing, (0, 10 * sign), [1, 0], events=stop, t_eval=times, **TIGHT)
            self.assertEqual(list(result.t), times[:16])
            self.assertEqual(poses(result), poses(solve_ivp(swing, (0, 10 * sign), [1, 0], t_eval=times[:16], **TIGHT)))
            self.assertEqual((result.status, result.counts), (1, []))

    def test_no_time_after_the_event_within_its_step(self):
        times = [0.1, 0.52, 0.57, 0.59, 0.9]
        stop = made(lambda t, y: t - 0.55, terminal=True)
        result = solve_ivp(lambda t, y: [1.0], (0, 1), [0.0], events=stop, t_eval=times, first_step=0.1, max_step=0.1)
        self.assertEqual((list(result.t), result.accepted), ([0.1, 0.52], 6))

    def test_first_time_that_is_not_finite(self):
        """Of the poses at events, at the times asked for and at the ends of steps the first, in either direction."""
        for sign in (1.0, -1.0):
            fun = lambda t, y: [1.0 if sign * t < 0.52 else math.nan]  # noqa: B023, E731
            seen = [made(lambda t, y: sign * t - 0.57), made(lambda t, y: sign * t - 0.55)]  # noqa: B023
            given = dict(events=seen, first_step=0.1, max_step=0.1)
            result = solve_ivp(fun, (0, sign), [0.0], **given)
            self.assertEqual((result.status, len(result.t_events[1])), (-2, 1))
            self.assertTrue(math.isnan(result.y_events[1][0][0]))
            self.assertEqual(result.nonfinite_at, result.t_events[1][0])
            result = solve_ivp(fun, (0, sign), [0.0], t_eval=[sign * 0.54, sign * 0.56], **given)
            self.assertEqual(result.nonfinite_at, sign * 0.54)
            result = solve_ivp(fun, (0, sign), [0.0], t_eval=[sign * 0.1, sign * 0.56], **given)
            self.assertEqual(result.nonfinite_at, result.t_events[1][0])

    def test_arguments(self):
        event = made(lambda t, y, level, other: y[0] - level, terminal=True, direction=-1.0)
        fun = lambda t, y, level, other: swing(t, y)  # noqa: E731
        result = solve_ivp(fun, (0, 10), [1, 0], events=event, args=(0.5, None), **TIGHT)
        self.assertAlmostEqual(result.t[-1], math.acos(0.5), delta=1e-4)

    def test_position(self):
        """events, vectorized and args stand where scipy has them."""
        event = made(lambda t, y, k: y[0], terminal=True)
        result = solve_ivp(lambda t, y, k: swing(t, y), (0, 10), [1, 0], "LSODA", None, False, event, False, (1,))
        self.assertEqual(result.status, 1)

    def test_raises(self):
        for when in (0.0, 1.0):

            def event(t, y):
                if t >= when:
                    raise RuntimeError("the rig is gone")
                return 1.0

            with self.assertRaisesRegex(RuntimeError, "the rig is gone"):
                solve_ivp(swing, (0, 10), [1, 0], events=event)

    def test_report_of_the_step_that_is_cut(self):
        told = []
        stop = made(lambda t, y: y[0], terminal=True)
        result = solve_ivp(swing, (0, 10), [1, 0], events=stop, report=lambda *given: told.append(given[1]))
        self.assertEqual(told[:-1], list(result.t[1:-1]))
        self.assertGreater(told[-1], result.t[-1])

    def test_not_finite(self):
        fun = lambda t, y: [math.nan if t > 0.5 else 1.0, 1.0]  # noqa: E731
        more = dict(rtol=0.5, atol=0.1, first_step=0.1, max_step=0.1)
        stop = made(lambda t, y: t - 0.75, terminal=True)
        result = solve_ivp(fun, (0, 1), [2.0, 0.0], events=stop, **more)
        self.assertEqual((result.status, result.success), (-2, False))
        self.assertEqual(result.nonfinite_at, [float(t) for t, y in zip(result.t, result.y[0]) if math.isnan(y)][0])
        early = made(lambda t, y: t - 0.55, terminal=True)
        within = solve_ivp(fun, (0, 1), [2.0, 0.0], events=early, **more)
        self.assertEqual((within.status, within.nonfinite_at), (-2, float(within.t[-1])))
        asked = solve_ivp(fun, (0, 1), [2.0, 0.0], events=early, t_eval=[0.53], **more)
        self.assertEqual((asked.status, asked.nonfinite_at), (-2, 0.53))

    def test_no_states(self):
        stop = made(lambda t, y: t - 0.5, terminal=True)
        result = solve_ivp(swing, (0, 1), [], events=stop, dense_output=True)
        self.assertEqual((list(result.t), result.status, result.sol.t_max), ([0.0, 0.5], 1, 0.5))
        asked = solve_ivp(swing, (0, 1), [], events=stop, t_eval=[0.25, 0.75])
        self.assertEqual((list(asked.t), asked.status), ([0.25], 1))

    def test_equal_ends(self):
        result = solve_ivp(swing, (1, 1), [1, 0], events=made(lambda t, y: y[0] - 1.0, terminal=True))
        self.assertEqual((result.status, list(result.t), [len(t) for t in result.t_events]), (0, [1.0], [0]))

    def test_not_with_tolerances_of_the_answer(self):
        with self.assertRaisesRegex(ValueError, "events"):
            solve_ivp(swing, (0, 10), [1, 0], events=made(lambda t, y: y[0]), tolerances="answer")


if __name__ == "__main__":
    unittest.main()
