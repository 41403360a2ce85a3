"""Beside scipy's LSODA, where scipy is there: the oscillator, van der Pol's equation, Robertson's problem.

Tolerances asked of the answer hold: the poses agree with scipy's within them, scipy's being solved so tightly that its
own error does not count (at the same tolerances scipy's poses are wrong by up to 13 of them on the oscillator and by up
to 400 on van der Pol's).
Tolerances of the method bound the error of one step, and there too poses are held to scipy's: scipy starts at a step's
beginning, from our pose there, and both ends differ by a few of the tolerances asked (each solver may spend its own,
and both only estimate it).
What both take, refuse and hand out is compared too: shapes, kinds of arrays, and the words of refusals.
"""

import inspect
import math
import os
import sys
import unittest
import warnings

sys.path.insert(0, os.path.join(os.path.dirname(os.path.abspath(__file__)), ".."))

import raimsklo  # noqa: E402
from raimsklo import solve_ivp  # noqa: E402
from test_solve import robertson, swing, van_der_pol  # noqa: E402

try:
    import numpy
    from scipy.integrate import solve_ivp as scipy_ivp
except ImportError:
    scipy_ivp = None

PROBLEMS = {
    "oscillator": (swing, (0.0, 10.0), [1.0, 0.0], [1e-3, 1e-3]),
    "van der Pol": (van_der_pol, (0.0, 2000.0), [2.0, 0.0], [1e-3, 1e-3]),
    "Robertson": (robertson, (0.0, 40.0), [1.0, 0.0, 0.0], [1e-2, 1e-6, 1e-2]),
}
STEPS = 100  # of each run, spread over it


@unittest.skipIf(scipy_ivp is None, "no scipy")
class BesideScipy(unittest.TestCase):
    def test_each_step_within_four_tolerances(self):
        for name, (fun, span, y0, scale) in PROBLEMS.items():
            for rtol in (1e-3, 1e-4, 1e-5, 1e-6):
                atol = rtol * numpy.array(scale)
                ours = solve_ivp(fun, span, y0, rtol=rtol, atol=list(atol))
                self.assertTrue(ours.success, ours.end)
                poses = numpy.array(ours.y).T
                last = len(ours.t) - 1
                for i in range(0, last, max(1, last // STEPS)):
                    step = (ours.t[i], ours.t[i + 1])
                    theirs = scipy_ivp(fun, step, poses[i], method="LSODA", rtol=rtol, atol=atol).y[:, -1]
                    allowed = atol + rtol * numpy.maximum(abs(poses[i]), abs(poses[i + 1]))
                    worst = numpy.max(abs(poses[i + 1] - theirs) / allowed)
                    self.assertLessEqual(worst, 4.0, f"{name}, rtol {rtol}, step {i} of {last}")

    def test_answers_within_the_tolerances_asked(self):
        for name, (fun, span, y0, scale) in PROBLEMS.items():
            times = numpy.linspace(*span, 11)
            tightly = dict(rtol=1e-12, atol=1e-12 * numpy.array(scale), t_eval=times)
            tight = scipy_ivp(fun, span, y0, method="LSODA", **tightly).y
            for rtol in (1e-3, 1e-4, 1e-5):
                atol = rtol * numpy.array(scale)
                ours = solve_ivp(fun, span, y0, rtol=rtol, atol=atol, t_eval=times, tolerances="answer")
                self.assertTrue(ours.success, f"{name}, rtol {rtol}: {ours.end}")
                worst = numpy.max(abs(ours.y - tight) / (atol[:, None] + rtol * abs(tight)))
                self.assertLessEqual(worst, 1.0, f"{name}, rtol {rtol}")


@unittest.skipIf(scipy_ivp is None, "no scipy")
class Manners(unittest.TestCase):
    """A script written for scipy's solve_ivp finds the same arguments, shapes and words here."""

    def both(self, *given, **more):
        return solve_ivp(*given, **more), scipy_ivp(*given, method="LSODA", **more)

    def test_positions(self):
        names = [list(inspect.signature(function).parameters) for function in (solve_ivp, scipy_ivp)]
        self.assertEqual(names[0][:9], names[1][:9])

    def test_shapes(self):
        fun = lambda t, y: -y  # noqa: E731
        for span in ((0, 1), (1, 0)):
            times = numpy.linspace(*span, 7)
            for y0 in (numpy.array([1.0, 2.0]), [1], []):
                for t_eval in (None, times, list(times[1:3])):
                    ours, theirs = self.both(fun, span, y0, t_eval=t_eval, dense_output=True)
                    for one, other in ((ours.sol(0.5), theirs.sol(0.5)), (ours.sol(times), theirs.sol(times))):
                        self.assertEqual(one.shape, other.shape)
                    if t_eval is None:
                        self.assertEqual(ours.y.shape, (len(y0), len(ours.t)))
                        self.assertEqual(ours.t[0], theirs.t[0])
                        self.assertAlmostEqual(ours.t[-1], theirs.t[-1], delta=1e-15)
                    else:
                        self.assertEqual((list(ours.t), ours.y.shape), (list(theirs.t), theirs.y.shape))
                    self.assertEqual((ours.t.dtype, ours.y.dtype), (theirs.t.dtype, theirs.y.dtype))
                    self.assertLessEqual(set(theirs), set(ours))
                    self.assertEqual((ours.status, ours.success), (theirs.status, theirs.success))

    def test_arguments(self):
        fun = lambda t, y, a, b: a * y + b  # noqa: E731
        for more in (dict(args=(2.0, 3.0)), dict(args=numpy.array([2.0, 3.0])), dict(args=[2.0, 3.0], vectorized=True)):
            ours, theirs = self.both(fun, (0, 1), [1.0, 0.0], rtol=1e-6, atol=1e-8, **more)
            self.assertLess(numpy.max(abs(ours.y[:, -1] - theirs.y[:, -1])), 1e-2)

    def test_words_of_refusals(self):
        for more in (
            dict(max_step=0),
            dict(max_step=-1.0),
            dict(min_step=-1.0),
            dict(first_step=11.0),
            dict(y0=[[1.0, 0.0]]),
            dict(y0=numpy.array([1j, 0.0])),
            dict(t_eval=5.0),
            dict(t_eval=[[1.0]]),
            dict(t_eval=[11.0]),
            dict(t_eval=[2.0, 1.0]),
            dict(t_eval=[1.0, 1.0]),
        ):
            given = dict(dict(fun=swing, t_span=(0, 10), y0=[1.0, 0.0]), **more)
            words = []
            for function in (solve_ivp, scipy_ivp):
                with self.assertRaises(ValueError) as caught:
                    function(method="LSODA", **given)
                words.append(str(caught.exception))
            self.assertEqual(*words, more)

    def test_no_warning(self):
        with warnings.catch_warnings():
            warnings.simplefilter("error")
            result = solve_ivp(lambda t, y: [math.nan if t > 0.5 else 1.0], (0, 1), [2.0], max_step=0.1, max_steps=50)
        self.assertFalse(result.success)

    def test_the_class_names_the_method(self):
        ours = solve_ivp(swing, (0, 10), [1.0, 0.0], method=raimsklo.LSODA)
        self.assertEqual(list(ours.t), list(solve_ivp(swing, (0, 10), [1.0, 0.0]).t))
        from scipy.integrate import LSODA

        with self.assertRaisesRegex(ValueError, "this library has one method"):
            solve_ivp(swing, (0, 10), [1.0, 0.0], method=LSODA)

    def test_events(self):
        stop = lambda t, y: y[0] + 0.9  # noqa: E731
        stop.terminal = True
        seen = [lambda t, y: y[0], lambda t, y: y[1] - 7.0, stop]
        for more in ({}, dict(t_eval=numpy.linspace(0, 10, 41)), dict(dense_output=True)):
            ours, theirs = self.both(swing, (0, 10), [1.0, 0.0], events=seen, rtol=1e-8, atol=1e-10, **more)
            self.assertEqual((ours.status, ours.message), (theirs.status, theirs.message))
            for one, other in zip(ours.t_events + ours.y_events, theirs.t_events + theirs.y_events):
                self.assertEqual((one.shape, one.dtype), (other.shape, other.dtype))
                if one.size:
                    self.assertLess(numpy.max(abs(one - other)), 1e-4)
            if more.get("t_eval") is not None:
                self.assertEqual(list(ours.t), list(theirs.t))


if __name__ == "__main__":
    unittest.main()
