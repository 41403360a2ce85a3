"""The Python package over the proved library: `python3 -m unittest discover -s hosts/python/tests`."""

import math
import os
import sys
import unittest

sys.path.insert(0, os.path.join(os.path.dirname(os.path.abspath(__file__)), ".."))

from raimsklo import Refused, Run, interpolate, solve_ivp  # noqa: E402
from raimsklo.library import LIBRARY  # noqa: E402


def swing(t, y):
    return [y[1], -y[0]]


def van_der_pol(t, y):
    return [y[1], 1000.0 * (1.0 - y[0] * y[0]) * y[1] - y[0]]


def robertson(t, y):
    a, b, c = y
    return [-0.04 * a + 1e4 * b * c, 0.04 * a - 1e4 * b * c - 3e7 * b * b, 3e7 * b * b]


def robertson_jac(t, y):
    a, b, c = y
    return [
        [-0.04, 1e4 * c, 1e4 * b],
        [0.04, -1e4 * c - 6e7 * b, -1e4 * b],
        [0.0, 6e7 * b, 0.0],
    ]


class Solves(unittest.TestCase):
    def test_swing(self):
        result = solve_ivp(swing, (0, 10), [1, 0], rtol=1e-8, atol=1e-10)
        self.assertTrue(result.success)
        self.assertEqual(result.end, "success")
        self.assertEqual(result.t[-1], 10.0)
        self.assertAlmostEqual(result.y[0][-1], math.cos(10), delta=1e-4)
        self.assertEqual(len(result.y), 2)
        self.assertEqual(len(result.y[0]), len(result.t))
        self.assertEqual(result.accepted, len(result.t) - 1)
        self.assertLessEqual(max(result.counts), result.cap)

    def test_backward(self):
        result = solve_ivp(swing, (5, 0), [math.cos(5), -math.sin(5)], rtol=1e-8, atol=1e-10)
        self.assertAlmostEqual(result.y[0][-1], 1.0, delta=1e-4)

    def test_times_asked_for(self):
        times = [0, 0.5, 1.5, 3, 10]
        result = solve_ivp(swing, (0, 10), [1, 0], t_eval=times, rtol=1e-8, atol=1e-10)
        self.assertEqual(list(result.t), times)
        for t, y in zip(times, result.y[0]):
            self.assertAlmostEqual(y, math.cos(t), delta=1e-4)
        backward = solve_ivp(swing, (10, 0), [math.cos(10), -math.sin(10)], t_eval=[9, 2], rtol=1e-8, atol=1e-10)
        self.assertAlmostEqual(backward.y[0][1], math.cos(2), delta=1e-4)
        with self.assertRaises(ValueError):
            solve_ivp(swing, (0, 10), [1, 0], t_eval=[11])

    def test_the_start_is_its_pose_itself(self):
        """The first step's interpolation comes to another pose there, by a rounding."""
        start, span = [0.13436424411240122, 0.8474337369372327], (0.3, 5.0)
        steps = solve_ivp(swing, span, start, dense_output=True)
        sol = steps.sol
        self.assertNotEqual(list(interpolate(0.3, sol._snapshots[: sol._places[1]], 2)), start)
        self.assertEqual(list(sol(0.3)), start)
        self.assertEqual([row[0] for row in sol([0.3, 1.0])], start)
        framed = solve_ivp(swing, span, start, t_eval=[0.3, 1.0])
        self.assertEqual([row[0] for row in framed.y], start)
        self.assertEqual([row[1] for row in framed.y], list(sol(1.0)))

    def test_dense_output(self):
        sol = solve_ivp(swing, (0, 10), [1, 0], dense_output=True, rtol=1e-8, atol=1e-10).sol
        self.assertAlmostEqual(sol(7.3)[0], math.cos(7.3), delta=1e-4)
        self.assertEqual(len(sol([1, 2, 3])[0]), 3)
        self.assertEqual(list(sol(0)), [1.0, 0.0])

    def test_no_pose_beyond_the_accepted_steps(self):
        forward = solve_ivp(swing, (0, 10), [1, 0], dense_output=True, max_steps=3)
        backward = solve_ivp(swing, (0, -10), [1, 0], dense_output=True, max_steps=3)
        for result in (forward, backward):
            sol, last = result.sol, result.t[-1]
            self.assertEqual((sol.t_min, sol.t_max), (min(0.0, last), max(0.0, last)))
            self.assertEqual(list(sol(last)), [row[-1] for row in result.y])
            for beyond in (1.001 * last, -0.001 * last, math.nan, [0.0, 2 * last]):
                with self.assertRaisesRegex(ValueError, "no pose at"):
                    sol(beyond)
        nothing = solve_ivp(swing, (1, 1), [1, 0], dense_output=True)
        self.assertEqual(list(nothing.sol(1)), [1.0, 0.0])
        with self.assertRaises(ValueError):
            nothing.sol(2)

    def test_stiff(self):
        result = solve_ivp(van_der_pol, (0, 2000), [2, 0], rtol=1e-5, atol=1e-8)
        self.assertTrue(result.success, result.end)
        self.assertGreater(result.njev, 0)

    def test_robertson_with_and_without_jacobian(self):
        for jac in (None, robertson_jac):
            result = solve_ivp(robertson, (0, 40), [1, 0, 0], rtol=1e-6, atol=[1e-8, 1e-12, 1e-8], jac=jac)
            self.assertTrue(result.success, result.end)
            self.assertAlmostEqual(result.y[0][-1], 0.7158271, delta=1e-4)
            self.assertAlmostEqual(result.y[2][-1], 0.2841637, delta=1e-4)

    def test_arguments(self):
        result = solve_ivp(lambda t, y, k: [-k * y[0]], (0, 1), [1], args=(2.0,), rtol=1e-8, atol=1e-10)
        self.assertAlmostEqual(result.y[0][-1], math.exp(-2), delta=1e-5)

    def test_constant_jacobian(self):
        # drawn to 1 and to cos t, the second state stiffly
        fun, matrix = (lambda t, y: [1.0 - y[0], 1e5 * (math.cos(t) - y[1])]), [[-1.0, 0.0], [0.0, -1e5]]
        given = [solve_ivp(fun, (0, 3), [0, 0], jac=jac, rtol=1e-6, atol=1e-9) for jac in (matrix, lambda t, y: matrix)]
        self.assertGreater(given[0].njev, 0)
        self.assertEqual([list(row) for row in given[0].y], [list(row) for row in given[1].y])
        self.assertAlmostEqual(given[0].y[0][-1], 1.0 - math.exp(-3), delta=1e-4)
        with self.assertRaisesRegex(Refused, r"\(14\): jac gave other than 2 rows of 2 numbers"):
            solve_ivp(fun, (0, 3), [0, 0], jac=[[1.0, 2.0]], rtol=1e-6, atol=1e-9)

    def test_step_sizes_in_either_direction(self):
        for end in (1.0, -1.0):
            result = solve_ivp(swing, (0, end), [1, 0], first_step=1e-3, max_step=0.01)
            self.assertEqual(result.t[1], math.copysign(1e-3, end))
            self.assertLessEqual(max(abs(b - a) for a, b in zip(result.t, result.t[1:])), 0.01 * (1 + 1e-12))
            with self.assertRaises(Refused) as caught:
                solve_ivp(swing, (0, end), [1, 0], first_step=-1e-3)
            self.assertEqual(caught.exception.number, 11)


class Answers(unittest.TestCase):
    """Tolerances asked of the answer."""

    def test_within(self):
        for asked in (1e-3, 1e-4, 1e-5):
            one = solve_ivp(swing, (0, 10), [1, 0], rtol=0.0, atol=asked)
            result = solve_ivp(swing, (0, 10), [1, 0], rtol=0.0, atol=asked, tolerances="answer")
            self.assertTrue(result.success)
            self.assertLessEqual(result.error, 1.0)
            self.assertGreater(max(abs(y - math.cos(t)) for t, y in zip(one.t, one.y[0])), asked)
            self.assertLessEqual(max(abs(y - math.cos(t)) for t, y in zip(result.t, result.y[0])), asked)
            self.assertGreater(result.nfev, one.nfev)
            # the run handed out is the one with the tolerances that the result names
            again = solve_ivp(swing, (0, 10), [1, 0], rtol=0.0, atol=asked / result.cut)
            self.assertEqual([list(row) for row in result.y], [list(row) for row in again.y])

    def test_times_asked_for(self):
        result = solve_ivp(
            swing, (0, 10), [1, 0], t_eval=[2, 7], dense_output=True, rtol=0.0, atol=1e-4, tolerances="answer"
        )
        self.assertEqual(list(result.t), [2.0, 7.0])
        for t, y in zip(result.t, result.y[0]):
            self.assertAlmostEqual(y, math.cos(t), delta=1e-4)
        self.assertAlmostEqual(result.sol(5.0)[0], math.cos(5.0), delta=1e-3)

    def test_no_pose_where_they_are_not_met(self):
        asked = dict(rtol=0.0, atol=1e-6, tolerances="answer")
        result = solve_ivp(swing, (0, 10), [1, 0], max_steps=2000, dense_output=True, **asked)
        self.assertEqual((result.success, result.status, result.end), (False, -1, "needs more steps"))
        self.assertEqual((len(result.t), [len(row) for row in result.y], result.sol), (0, [0, 0], None))
        self.assertGreater(result.error, 1.0)
        wild = solve_ivp(lambda t, y: [float("nan")], (0, 1), [0.0], tolerances="answer", first_step=0.5)
        self.assertEqual((wild.success, len(wild.t), wild.runs), (False, 0, 16))

    def test_not_finite_after_the_last_time_asked_for(self):
        fun = lambda t, y: [math.nan if t > 0.5 else 1.0]  # noqa: E731
        given = dict(rtol=1e-3, atol=1e-3, first_step=0.1, max_step=0.1)
        result = solve_ivp(fun, (0, 1), [0.0], t_eval=[0.25], tolerances="answer", **given)
        self.assertEqual((result.success, len(result.t), result.end), (False, 0, "tolerances not met"))

    def test_a_run_that_is_not_finite_repeats_none(self):
        """The second state is the same in every run, the first a NaN in the first run alone."""
        runs = [0]

        def fun(t, y):
            runs[0] += t == 0.0
            return [math.nan if runs[0] == 1 and t > 0.0 else 1e3 * math.cos(40.0 * t), 1.0]

        asked = dict(rtol=0.0, atol=1.0, t_eval=[0.5, 1.0], tolerances="answer", first_step=0.01)
        result = solve_ivp(fun, (0, 1), [0.0, 0.0], **asked)
        self.assertTrue(result.success)
        self.assertGreater(result.runs, 2)
        for t, y in zip(result.t, result.y[0]):
            self.assertAlmostEqual(y, 25.0 * math.sin(40.0 * t), delta=1.0)

    def test_arguments(self):
        with self.assertRaises(ValueError):
            solve_ivp(swing, (0, 1), [1, 0], tolerances="both")
        with self.assertRaises(ValueError):
            solve_ivp(swing, (0, 1), [1, 0], tolerances="answer", report=lambda *given: False)
        with self.assertRaises(Refused):
            solve_ivp(swing, (0, 1), [1, 0], rtol=-1.0, tolerances="answer")


class Ends(unittest.TestCase):
    def test_needs_more_steps(self):
        result = solve_ivp(swing, (0, 10), [1, 0], max_steps=3)
        self.assertFalse(result.success)
        self.assertEqual((result.end, result.number, result.accepted), ("needs more steps", 112, 3))
        early = solve_ivp(swing, (0, 10), [1, 0], max_steps=3, t_eval=[0, 10])
        self.assertEqual(list(early.t), [0.0])

    def test_interrupted(self):
        result = solve_ivp(swing, (0, 10), [1, 0], report=lambda previous, t, y, count: t > 1)
        self.assertEqual(result.end, "interrupted")
        self.assertGreater(result.t[-1], 1)

    def test_poor(self):
        wild = lambda t, y: [float(len(bin(hash((t, y[0]))))) * 1e12 * math.sin(1e6 * t)]  # noqa: E731
        result = solve_ivp(wild, (0, 1), [0.0], min_step=0.5)
        self.assertIn(result.end, ("poor convergence", "step too small"))

    def test_callback_raises(self):
        def bad(t, y):
            raise RuntimeError("the rig is gone")

        with self.assertRaisesRegex(RuntimeError, "the rig is gone"):
            solve_ivp(bad, (0, 1), [1])

    def test_nothing_to_do(self):
        self.assertTrue(solve_ivp(swing, (0, 1), []).success)
        self.assertTrue(solve_ivp(swing, (1, 1), [1, 0]).success)


class Refusals(unittest.TestCase):
    def refused(self, number, **changed):
        given = dict(fun=swing, t_span=(0, 10), y0=[1, 0])
        given.update(changed)
        with self.assertRaises(Refused) as caught:
            solve_ivp(**given)
        self.assertEqual(caught.exception.number, number)
        self.assertIn(f"({number})", str(caught.exception))
        return caught.exception

    def test_bad_input(self):
        self.refused(1, fun=lambda t, y: y, y0=[1.0] * 65)
        self.refused(2, rtol=[1e-3] * 3)
        self.refused(4, max_steps=1000001)
        self.refused(5, max_steps=0)
        self.refused(6, maxcor=0)
        self.refused(7, mxordn=0)
        self.assertEqual(self.refused(9, rtol=[1e-3, -1.0]).index, 1)
        self.assertEqual(self.refused(10, atol=-1.0).index, 0)
        self.refused(11, first_step=-1.0)
        self.refused(11, first_step=float("nan"))
        self.assertEqual(self.refused(12, rtol=0.0, atol=[1.0, 0.0]).index, 1)
        self.assertIn("fun gave 1 numbers, and 2 are wanted", str(self.refused(14, fun=lambda t, y: [0.0])))
        self.refused(4, maxcor=2**70)
        with self.assertRaisesRegex(ValueError, "mxncf is below 0"):
            solve_ivp(swing, (0, 10), [1, 0], mxncf=-1)

    def test_refused_reply_changes_nothing(self):
        run = Run(0, 1, [1, 0], [1e-3], [1e-6], LIBRARY.raimsklo_defaults())
        before = [bytes(buffer) for buffer in (run._work, run._pivots, run._session, run._question)]
        with self.assertRaises(Refused):
            run.reply(3, run.y)
        self.assertEqual(before, [bytes(buffer) for buffer in (run._work, run._pivots, run._session, run._question)])


if __name__ == "__main__":
    unittest.main()
