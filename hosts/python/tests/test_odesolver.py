"""The library as a method of scipy's solve_ivp and as a solver that is stepped."""

import doctest
import math
import os
import subprocess
import sys
import unittest
import warnings

PACKAGE = os.path.join(os.path.dirname(os.path.abspath(__file__)), "..")
sys.path.insert(0, PACKAGE)

from raimsklo import run as calls  # noqa: E402
from raimsklo.library import LIBRARY  # noqa: E402
from test_solve import robertson, robertson_jac, swing, van_der_pol  # noqa: E402

try:
    import numpy
    import scipy.sparse
    from scipy.integrate import OdeSolver
    from scipy.integrate import solve_ivp as scipy_ivp
except ImportError:
    scipy_ivp, OdeSolver = None, object
if scipy_ivp is not None:  # where scipy is there, a module of ours that cannot be imported is a failure
    from raimsklo import scipy_solver
    from raimsklo.scipy_solver import LSODA

TIGHT = dict(rtol=1e-6, atol=[1e-8, 1e-12, 1e-8], max_steps=5000)  # for Robertson's problem


def solve(fun, span, y0, **given):
    return scipy_ivp(fun, span, y0, method=LSODA, **given)


def by_hand(fun, span, y0, rtol=1e-3, atol=1e-6, jac=None, **settings):
    """The accepted times and poses, and the end, of a run of the library that is driven here."""
    options = LIBRARY.raimsklo_defaults()
    options.supplied = 0 if jac is None else 1
    for name, value in settings.items():
        setattr(options, name, value)
    tolerances = [x if isinstance(x, list) else [x] for x in (rtol, atol)]
    run = calls.Run(*span, y0, *tolerances, options)
    times, poses = [span[0]], [list(y0)]
    while not run.ended:
        asked, y = run.answer, list(run.y)
        if asked.number == calls.DERIVATIVE_WANTED:
            run.reply(calls.DERIVATIVE, fun(asked.time, y))
        elif asked.number == calls.JACOBIAN_WANTED:
            rows = jac(asked.time, y)
            run.reply(calls.JACOBIAN, [row[j] for j in range(run.n) for row in rows])
        else:
            if asked.number == calls.REPORT:
                times.append(asked.time)
                poses.append(y)
            run.reply(calls.CONTINUE, y, asked.time)
    return times, poses, run.answer


class WithoutScipy(unittest.TestCase):
    def test_import_names_scipy(self):
        for missing in ("scipy", "numpy"):
            script = (
                f"import sys; sys.modules[{missing!r}] = None\n"
                "try: import raimsklo.scipy_solver\n"
                "except ImportError as error: print(error)\n"
            )
            given = dict(os.environ, PYTHONPATH=PACKAGE)
            printed = subprocess.run([sys.executable, "-c", script], env=given, check=True, capture_output=True)
            self.assertIn("needs scipy", printed.stdout.decode())


@unittest.skipIf(scipy_ivp is None, "no scipy")
class Solves(unittest.TestCase):
    RUNS = [
        (swing, (0.0, 10.0), [1.0, 0.0], dict(rtol=1e-6, atol=1e-9)),
        (swing, (10.0, 0.0), [1.0, 0.0], dict()),
        (swing, (0.0, 0.3), [1.0, 0.0], dict(rtol=[1e-6, 1e-4], atol=[1e-9, 1e-8])),
        (van_der_pol, (0.0, 2000.0), [2.0, 0.0], dict(rtol=1e-4, atol=1e-7)),
        (robertson, (0.0, 40.0), [1.0, 0.0, 0.0], TIGHT),
        (robertson, (0.0, 40.0), [1.0, 0.0, 0.0], dict(TIGHT, jac=robertson_jac)),
        (swing, (0.0, 10.0), [1.0, 0.0], dict(max_steps=3)),
        (swing, (0.0, 10.0), [1.0, 0.0], dict(mxordn=1, mxords=1, maxcor=5, msbp=3, mxncf=2)),
    ]

    def test_its_steps_are_the_librarys(self):
        for fun, span, y0, given in self.RUNS:
            times, poses, ended = by_hand(fun, span, y0, **given)
            result = solve(fun, span, y0, **given)
            self.assertEqual(result.t.tolist(), times)
            self.assertEqual(result.y.T.tolist(), poses)
            self.assertEqual(result.status, 0 if ended.number == 110 else -1)
            self.assertEqual((result.nfev, result.njev, result.nlu), (ended.nfe, ended.nje, ended.nlu))

    def test_oscillator(self):
        result = solve(swing, (0, 10), [1, 0], rtol=1e-8, atol=1e-10)
        self.assertTrue(result.success, result.message)
        self.assertEqual(result.t[-1], 10.0)
        numpy.testing.assert_allclose(result.y, [numpy.cos(result.t), -numpy.sin(result.t)], atol=1e-4)
        back = solve(swing, (10, 0), result.y[:, -1], rtol=1e-8, atol=1e-10)
        numpy.testing.assert_allclose(back.y[:, -1], [1.0, 0.0], atol=2e-4)

    def test_robertson(self):
        warnings.simplefilter("ignore", PendingDeprecationWarning)  # of numpy.matrix
        jacobians = [
            None,
            robertson_jac,
            lambda t, y: numpy.array(robertson_jac(t, y)),
            lambda t, y: numpy.matrix(robertson_jac(t, y)),
            lambda t, y: numpy.asfortranarray(robertson_jac(t, y)),
            lambda t, y: scipy.sparse.csc_matrix(robertson_jac(t, y)),
            lambda t, y: scipy.sparse.coo_matrix(robertson_jac(t, y)),
        ]
        results = [solve(robertson, (0, 40), [1, 0, 0], jac=jac, **TIGHT) for jac in jacobians]
        for jac, result in zip(jacobians, results):
            self.assertTrue(result.success, result.message)
            numpy.testing.assert_allclose(result.y[:, -1], [0.7158271, 9.1855e-6, 0.2841637], atol=1e-4)
            self.assertEqual(result.y.tolist(), results[0 if jac is None else 1].y.tolist())
            self.assertGreater(result.njev, 0)

    def test_constant_jacobian(self):
        warnings.simplefilter("ignore", PendingDeprecationWarning)  # of numpy.matrix
        stiff = lambda t, y: [1.0 - y[0] + y[1], 1e5 * (math.cos(t) - y[1])]  # noqa: E731
        matrix = [[-1.0, 1.0], [0.0, -1e5]]
        given = [matrix, numpy.array(matrix), numpy.matrix(matrix), scipy.sparse.csr_matrix(matrix)]
        given.append(lambda t, y: matrix)
        results = [solve(stiff, (0, 3), [0, 0], jac=jac, rtol=1e-6, atol=1e-9, max_steps=5000) for jac in given]
        for result in results:
            self.assertTrue(result.success, result.message)
            self.assertGreater(result.njev, 0)
            self.assertEqual(result.y.tolist(), results[-1].y.tolist())
        one = [solve(lambda t, y: -1e4 * (y - t), (0, 1), [0.5], jac=jac) for jac in (-1e4, [-1e4], [[-1e4]])]
        self.assertGreater(one[0].njev, 0)
        self.assertEqual(len({result.y.tobytes() for result in one}), 1)

    def test_arguments_and_vectorized(self):
        plain = solve(lambda t, y, k: [y[1], -k * y[0]], (0, 5), [1, 0], args=(4.0,))
        numpy.testing.assert_allclose(plain.y[0, -1], math.cos(10.0), atol=0.1)
        jac = lambda t, y, k: [[0.0, 1.0], [-k, 0.0]]  # noqa: E731
        given = solve(lambda t, y, k: [y[1], -k * y[0]], (0, 5), [1, 0], args=(4.0,), jac=jac)
        self.assertTrue(given.success)
        shapes = set()

        def columns(t, y, k):
            shapes.add(y.shape)
            return numpy.array([y[1], -k * y[0]])

        result = solve(columns, (0, 5), [1, 0], args=(4.0,), vectorized=True)
        self.assertEqual(shapes, {(2, 1)})
        self.assertEqual(result.y.tolist(), plain.y.tolist())

    def test_shapes_of_a_derivative(self):
        one = [solve(fun, (0, 1), [1.0]) for fun in (lambda t, y: -y, lambda t, y: -y[0], lambda t, y: [-y[0]])]
        self.assertEqual(len({result.y.tobytes() for result in one}), 1)
        strided = solve(lambda t, y: numpy.array([y[1], 7.0, -y[0], 7.0])[::2], (0, 1), [1, 0])
        self.assertEqual(strided.y.tolist(), solve(swing, (0, 1), [1, 0]).y.tolist())
        integers = solve(lambda t, y: numpy.array([1, 2]), (0, 1), [1, 0])
        numpy.testing.assert_allclose(integers.y[:, -1], [2.0, 2.0])

    def test_times_asked_for(self):
        for span in ((0.0, 10.0), (10.0, 0.0)):
            plain = solve(swing, span, [1, 0], dense_output=True)
            inner = plain.t[3:-1:5]
            times = numpy.union1d(inner, numpy.linspace(0.0, 10.0, 41))
            times = times if span[1] > 0 else times[::-1]
            result = solve(swing, span, [1, 0], t_eval=times)
            self.assertEqual(result.t.tolist(), times.tolist())
            self.assertEqual(result.y.tolist(), plain.sol(times).tolist())
            for t, y in zip(plain.t, plain.y.T):
                self.assertEqual(plain.sol(t).tolist(), y.tolist())
            again = solve(swing, span, [1, 0], t_eval=times, dense_output=True)
            self.assertEqual(again.sol(times).tolist(), result.y.tolist())

    def test_events(self):
        fall = lambda t, y: [y[1], -9.81]  # noqa: E731
        ground = lambda t, y: y[0]  # noqa: E731
        top = lambda t, y: y[1]  # noqa: E731
        ground.terminal, ground.direction, top.direction = True, -1, -1
        for dense in (False, True):
            given = dict(events=[top, ground], rtol=1e-8, atol=1e-10, dense_output=dense)
            result = solve(fall, (0, 10), [0.0, 20.0], **given)
            self.assertEqual((result.status, result.success), (1, True))
            self.assertAlmostEqual(result.t_events[0][0], 20.0 / 9.81, delta=1e-6)
            self.assertAlmostEqual(result.t_events[1][0], 40.0 / 9.81, delta=1e-5)
            self.assertEqual(result.t[-1], result.t_events[1][0])
            self.assertAlmostEqual(result.y_events[1][0][0], 0.0, delta=1e-10)
            if dense:
                numpy.testing.assert_allclose(result.sol(1.0), [20.0 - 9.81 / 2, 20.0 - 9.81], rtol=1e-5)
        sampled = solve(fall, (0, 10), [0.0, 20.0], events=ground, t_eval=[0, 1, 4, 9])
        self.assertEqual(sampled.t.tolist(), [0.0, 1.0, 4.0])

    def test_counts_after_a_terminal_event(self):
        down = lambda t, y: y[0]  # noqa: E731
        down.terminal = True
        asked = []
        for jac in (None, lambda t, y: asked.append(t) or [[0.0, 1.0], [-1.0, 0.0]]):
            result = solve(swing, (0, 10), [1, 0], events=down, jac=jac)
            self.assertEqual(result.status, 1)
            self.assertGreater(result.njev, 0)
            self.assertEqual(result.nlu, result.njev)
            self.assertGreater(result.nfev, len(result.t))
            if jac:
                self.assertEqual(result.njev, len(asked))

    def test_equal_ends_and_no_states(self):
        for given in (dict(), dict(first_step=0.5), dict(jac=lambda t, y: numpy.zeros((2, 2)))):
            result = solve(swing, (1, 1), [1, 0], dense_output=True, **given)
            self.assertEqual((result.status, result.t.tolist()), (0, [1.0, 1.0]))
            self.assertEqual(result.sol(1.0).tolist(), [1.0, 0.0])
        self.assertTrue(solve(swing, (0, 1), []).success)
        for solver in (LSODA(swing, 1.0, [1, 0], 1.0), LSODA(swing, 0.0, [], 1.0)):
            solver.step()
            self.assertEqual((solver.status, solver.number, solver.end), ("finished", 110, "success"))
        with self.assertRaises(calls.Refused):
            LSODA(swing, 1.0, [1, 0], 1.0, rtol=-1.0)


@unittest.skipIf(scipy_ivp is None, "no scipy")
class Fails(unittest.TestCase):
    def test_named_ends(self):
        result = solve(swing, (0, 10), [1, 0], max_steps=3)
        self.assertEqual((result.status, result.success, len(result.t)), (-1, False, 4))
        self.assertRegex(result.message, "^needs more steps: raise max_steps, give a first_step, loosen the tolerances")
        self.assertGreater(result.nfev, 0)
        jumps = lambda t, y: [1e12 * math.sin(1e6 * t) * (1.0 + math.sin(1e9 * y[0]))]  # noqa: E731
        result = solve(jumps, (0, 1), [0.0], min_step=0.5)
        self.assertEqual(result.status, -1)
        self.assertRegex(result.message, "^(step too small: loosen|poor convergence: give)")

    def test_a_pose_that_is_not_finite(self):
        for bad in (math.nan, math.inf, -math.inf):
            late = lambda t, y: [y[1], -y[0] if t < 2.0 else bad]  # noqa: B023, E731
            result = solve(late, (0, 10), [1, 0], dense_output=True)
            self.assertEqual((result.status, result.success), (-1, False))
            self.assertRegex(result.message, r"^the pose at 2\.[0-9]+ has a NaN or an infinity$")
            self.assertTrue(numpy.isfinite(result.y).all())
            self.assertLessEqual(result.t[-1], 2.0)
            solver = LSODA(late, 0.0, [1, 0], 10.0)
            while solver.status == "running":
                message = solver.step()
            self.assertEqual((solver.status, solver.number, message), ("failed", None, result.message))
            self.assertIn(repr(solver.nonfinite_at), message)
            self.assertEqual((solver.t, solver.y.tolist()), (result.t[-1], result.y[:, -1].tolist()))
            self.assertEqual(solver.dense_output()(solver.t).tolist(), solver.y.tolist())
        self.assertEqual(solve(lambda t, y: [math.nan], (0, 1), [1]).status, -1)
        one = solve(lambda t, y: [1.0, math.nan], (0, 1), [1, 0])
        self.assertIn("NaN", one.message)
        over = solve(lambda t, y: [1.0, 1e308], (0, 10), [1, 0], first_step=1.0, rtol=1.0, atol=1.0)
        self.assertIn("infinity", over.message)
        self.assertTrue(numpy.isfinite(over.y).all())
        with self.assertRaises(calls.Refused) as caught:  # the step size that is computed from it is 0
            solve(lambda t, y: [math.inf], (0, 1), [1])
        self.assertEqual(caught.exception.number, 11)
        self.assertEqual(solve(lambda t, y: [math.inf], (0, 1), [1], first_step=0.1).status, -1)

    def test_a_masked_start(self):
        with self.assertRaisesRegex(ValueError, "`y0` has masked entries"):
            LSODA(swing, 0.0, numpy.ma.array([1.0, 0.0], mask=[False, True]), 1.0)

    def test_a_start_that_is_not_finite(self):
        for end in (0.0, 1.0):
            with self.assertRaisesRegex(ValueError, "finite"):
                solve(swing, (0, end), [1, math.nan])
        for span in ((math.nan, 1.0), (0.0, math.nan), (-math.inf, 0.0)):
            with self.assertRaisesRegex(ValueError, "no interval"):
                solve(swing, span, [1, 0])

    def refused(self, number, fun=swing, y0=(1, 0), **given):
        with self.assertRaises(calls.Refused) as caught:
            solve(fun, (0, 10), y0, **given)
        self.assertEqual(caught.exception.number, number)
        return str(caught.exception)

    def test_refusals(self):
        self.refused(1, fun=lambda t, y: y, y0=[1.0] * 65)
        self.refused(2, rtol=[1e-3] * 3)
        self.refused(4, max_steps=2**70)
        self.refused(5, max_steps=0)
        self.refused(6, maxcor=0)
        self.refused(7, mxords=0)
        for band in (dict(lband=1), dict(uband=0), dict(lband=1, uband=1)):
            self.assertIn("banded storage is not supported", self.refused(8, **band))
        self.assertIn("rtol[1]", self.refused(9, rtol=numpy.array([1e-3, -1.0])))
        self.refused(10, atol=-1.0)
        for first in (0.0, -0.1, math.nan):
            self.refused(11, first_step=first)
        self.assertIn("of state 1", self.refused(12, rtol=0.0, atol=[1.0, 0.0]))
        for wrong in ([0.0], [0.0] * 3, 0.0, []):
            told = self.refused(14, fun=lambda t, y: wrong)  # noqa: B023
            self.assertIn(f"fun gave {numpy.size(wrong)} numbers, and 2 are wanted", told)
        for shape in ((2, 2), (2, 1)):
            told = self.refused(14, fun=lambda t, y: numpy.zeros(shape))  # noqa: B023
            self.assertIn(f"fun gave an array of shape {shape}, and (2,) is wanted", told)
        self.refused(14, fun=lambda t, y: numpy.zeros((2, 2)), y0=[1.0] * 4)
        for wrong in ([[1.0, 2.0]], [1.0, 2.0, 3.0, 4.0], numpy.zeros((3, 3)), scipy.sparse.eye(3)):
            self.assertIn("jac gave other than 2 rows of 2 numbers", self.refused(14, jac=wrong))

    def test_other_arguments(self):
        for given, told in (
            (dict(max_step=0.0), "max_step"),
            (dict(max_step=math.nan), "max_step"),
            (dict(min_step=-1.0), "min_step"),
            (dict(min_step=math.nan), "min_step"),
            (dict(first_step=10.5), "first_step"),
            (dict(mxncf=-1), "mxncf"),
            (dict(min_step=10.5), "min_step"),
            (dict(rtol=[[1e-3]]), "rtol"),
            (dict(rtol=math.nan), "rtol"),
            (dict(atol=[1e-6, math.nan]), "atol"),
            (dict(atol=[1e-6, 1j]), "atol"),
        ):
            with self.assertRaisesRegex(ValueError, told):
                solve(swing, (0, 10), [1, 0], **given)
        for given in (dict(max_steps=3.5), dict(fun=lambda t, y: None), dict(fun=lambda t, y: [None, 0.0])):
            with self.assertRaises(TypeError):
                solve(given.pop("fun", swing), (0, 10), [1, 0], **given)
        with self.assertWarnsRegex(UserWarning, "no effect for a chosen solver: `jac_sparsity`, `tune`"):
            solve(swing, (0, 1), [1, 0], jac_sparsity=None, tune=3)
        with warnings.catch_warnings():
            warnings.simplefilter("error")
            solve(swing, (0, 1), [1, 0], max_steps=numpy.int64(1000), first_step=numpy.float32(0.01))

    def test_complex(self):
        with self.assertRaisesRegex(ValueError, "complex"):
            solve(swing, (0, 1), [1j, 0])
        for wrong in (numpy.array([1j, 0.0]), numpy.array([1.0, 0.0], dtype=complex), [1j, 0.0]):
            with self.assertRaisesRegex(ValueError, "what `fun` gave is complex"):
                solve(lambda t, y: wrong, (0, 1), [1, 0])  # noqa: B023
            with self.assertRaisesRegex(ValueError, "what `fun` gave is complex"):
                solve(lambda t, y: numpy.array(wrong)[:, None], (0, 1), [1, 0], vectorized=True)  # noqa: B023
        with self.assertRaisesRegex(ValueError, "what `jac` gave is complex"):
            solve(swing, (0, 1), [1, 0], jac=[[0.0, 1j], [0.0, 0.0]])


@unittest.skipIf(scipy_ivp is None, "no scipy")
class Steps(unittest.TestCase):
    """A solver that is stepped."""

    def test_attributes(self):
        for jac in (None, robertson_jac):
            given = dict(TIGHT, jac=jac)
            times, poses, ended = by_hand(robertson, (0.0, 40.0), [1.0, 0.0, 0.0], **given)
            asked = []
            fun = lambda t, y: asked.append(t) or robertson(t, y)  # noqa: B023, E731
            solver = LSODA(fun, 0.0, [1.0, 0.0, 0.0], 40.0, **given)
            self.assertEqual((solver.n, solver.t, solver.t_old, solver.step_size), (3, 0.0, None, None))
            self.assertEqual((solver.status, solver.number, solver.end, solver.count), ("running", None, None, 0))
            self.assertEqual((asked, solver.nfev, solver.accepted), ([], 0, 0))
            self.assertEqual(solver.cap, 22 * 3 + 7 + (57 if jac is None else 0))
            self.assertEqual(solver.jacobian_cap, 19)
            counted, held = 1, []
            for place in range(1, len(times)):
                self.assertEqual(solver.status, "running")
                self.assertIsNone(solver.step())
                self.assertEqual((solver.t_old, solver.t), (times[place - 1], times[place]))
                self.assertEqual(solver.step_size, abs(solver.t - solver.t_old))
                self.assertEqual((solver.y.tolist(), solver.accepted), (poses[place], place))
                self.assertLessEqual(solver.count, solver.cap)
                counted += solver.count
                self.assertEqual((solver.nfev, len(asked)), (counted, counted))
                counts = solver._run.counts
                self.assertEqual((counts.nfe, counts.nje, counts.nlu), (solver.nfev, solver.njev, solver.nlu))
                held.append(solver.y)
            self.assertEqual((solver.status, solver.number, solver.end), ("finished", 110, "success"))
            self.assertEqual((solver.nfev, solver.njev, solver.nlu), (ended.nfe, ended.nje, ended.nlu))
            self.assertEqual((solver.accepted, solver.rejected), (ended.accepted, ended.rejected))
            self.assertEqual([y.tolist() for y in held], poses[1:])
            with self.assertRaises(RuntimeError):
                solver.step()

    def test_what_is_handed_out_may_be_written_to(self):
        times, poses, _ = by_hand(swing, (0.0, 3.0), [1.0, 0.0])
        kept, y0 = [], numpy.array([1.0, 0.0])

        def spoils(t, y):
            f = swing(t, y.copy())
            kept.append(y)
            y[:] = math.nan
            return f

        solver = LSODA(spoils, 0.0, y0, 3.0)
        y0[:] = math.nan
        reached = []
        while solver.status == "running":
            solver.step()
            reached.append(solver.y.tolist())
            output = solver.dense_output()
            output(solver.t)[:] = math.nan
            output(solver.t_old)[:] = math.nan
            solver.y[:] = math.nan
            self.assertEqual(output([solver.t_old, solver.t]).T.tolist(), poses[len(reached) - 1 : len(reached) + 1])
        self.assertEqual(reached, poses[1:])
        self.assertEqual(len({id(y) for y in kept}), len(kept))

    def test_dense_output(self):
        for end in (3.0, -3.0):
            solver = LSODA(swing, 0.0, [1.0, 0.0], end, rtol=1e-6, atol=1e-9)
            with self.assertRaises(RuntimeError):
                solver.dense_output()
            while solver.status == "running":
                y_old = solver.y
                solver.step()
                output = solver.dense_output()
                middle = 0.5 * (solver.t_old + solver.t)
                one, several = output(middle), output([solver.t_old, middle, solver.t])
                self.assertEqual((one.shape, several.shape, output([]).shape), ((2,), (2, 3), (2, 0)))
                self.assertEqual(several.T.tolist(), [y_old.tolist(), one.tolist(), solver.y.tolist()])
                numpy.testing.assert_allclose(one, [math.cos(middle), -math.sin(middle)], atol=1e-3)
                beyond = (math.nextafter(solver.t, math.copysign(9.0, end)), -end, math.nan, math.inf, [0.0, 2 * end])
                for time in beyond:
                    with self.assertRaisesRegex(ValueError, "no pose at"):
                        output(time)
            # scipy's collection of steps: within its span always, outside it no pose
            sol = solve(swing, (0.0, end), [1, 0], dense_output=True).sol
            self.assertEqual(sol(numpy.linspace(0.0, end, 101)).shape, (2, 101))
            for time in (1.001 * end, -0.001 * end):
                with self.assertRaisesRegex(ValueError, "no pose at"):
                    sol(time)

    def test_sizes_of_steps(self):
        for end in (1.0, -1.0):
            result = solve(swing, (0, end), [1, 0], first_step=1e-3, max_step=0.01)
            self.assertEqual(result.t[1], math.copysign(1e-3, end))
            self.assertLessEqual(abs(numpy.diff(result.t)).max(), 0.01 * (1 + 1e-12))
            result = solve(swing, (0, end), [1, 0], first_step=abs(end))
            self.assertTrue(result.success)

    def test_without_an_end(self):
        solver = LSODA(swing, 0.0, [1, 0], math.inf, rtol=1e-8, atol=1e-10)
        while solver.t < 2.0:
            self.assertIsNone(solver.step())
        self.assertEqual(solver.status, "running")
        self.assertAlmostEqual(solver.y[0], math.cos(solver.t), delta=1e-5)

    def test_a_callback_that_raises(self):
        times, poses, _ = by_hand(swing, (0.0, 3.0), [1.0, 0.0])
        calls_left = [5]

        def fails(t, y):
            calls_left[0] -= 1
            if calls_left[0] == 0:
                raise RuntimeError("the rig is gone")
            return swing(t, y)

        solver = LSODA(fails, 0.0, [1, 0], 3.0)
        raised = 0
        while solver.status == "running":
            try:
                solver.step()
            except RuntimeError:
                raised += 1
        self.assertEqual((raised, solver.t, solver.y.tolist()), (1, times[-1], poses[-1]))
        # what `fun` gave is refused, and the step can be asked for again; a refusal of the library's ends the run
        wrong = [[0.0], [0.0, 1j], [10**400, 0.0]]
        solver = LSODA(lambda t, y: wrong.pop() if wrong else swing(t, y), 0.0, [1, 0], 3.0)
        for kind in (OverflowError, ValueError, calls.Refused):
            with self.assertRaises(kind):
                solver.step()
        while solver.status == "running":
            solver.step()
        self.assertEqual((solver.status, solver.y.tolist()), ("finished", poses[-1]))
        solver = LSODA(swing, 0.0, [1, 0], 3.0, rtol=0.0, atol=[1.0, 0.0])
        with self.assertRaises(calls.Refused):
            solver.step()
        self.assertEqual((solver.status, solver.number), ("failed", None))

    def test_defaults_are_the_librarys(self):
        options = LIBRARY.raimsklo_defaults()
        names = LSODA.__init__.__code__.co_varnames[: LSODA.__init__.__code__.co_argcount]
        given = dict(zip(names[-len(LSODA.__init__.__defaults__) :], LSODA.__init__.__defaults__))
        for name in ("max_steps", "mxordn", "mxords", "maxcor", "msbp", "mxncf"):
            self.assertEqual(given[name], getattr(options, name), name)

    def test_example(self):
        tried = doctest.testmod(scipy_solver)
        self.assertEqual(tried.failed, 0)
        self.assertGreater(tried.attempted, 0)


if __name__ == "__main__":
    unittest.main()
