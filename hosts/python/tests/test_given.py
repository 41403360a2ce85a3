"""What callers give: complex numbers, sizes of steps, shapes, settings, times; numpy's arrays where it is there."""

import math
import os
import sys
import unittest
import warnings
from fractions import Fraction

sys.path.insert(0, os.path.join(os.path.dirname(os.path.abspath(__file__)), ".."))

from raimsklo import Refused, Run, solve_ivp  # noqa: E402
from test_solve import robertson, robertson_jac, swing  # noqa: E402

try:
    import numpy
except ImportError:
    numpy = None
try:
    import scipy.sparse as sparse
except ImportError:
    sparse = None

COMPLEX = "is complex, but the chosen solver does not support integration in a complex domain."


def decay(t, y):
    return [-state for state in y]


def drawn(t, y):
    """To cos t, stiffly; to 0."""
    return [1e5 * (math.cos(t) - y[0]), -y[1]]


DRAWN = [[-1e5, 0.0], [0.0, -1.0]]


def poses(result):
    return [list(row) for row in result.y]


class Unordered(unittest.TestCase):
    """A dict or a set is no list of numbers, and a whole number may be beyond the doubles."""

    def test_refused(self):
        for unordered in ({3.0: 1.0}, {3.0}, frozenset([3.0])):
            for given in (
                dict(fun=lambda t, y: unordered),  # noqa: B023
                dict(y0=unordered),
                dict(t_eval=unordered),
                dict(rtol=unordered),
                dict(jac=unordered),
                dict(jac=[unordered]),
            ):
                with self.assertRaises(TypeError):
                    solve_ivp(**dict(dict(fun=decay, t_span=(0, 4), y0=[1.0]), **given))
        for given in (dict(fun=lambda t, y: [10**400]), dict(y0=[10**400]), dict(rtol=10**400)):
            with self.assertRaises(OverflowError):
                solve_ivp(**dict(dict(fun=decay, t_span=(0, 4), y0=[1.0]), **given))


class Complex(unittest.TestCase):
    """A complex number is refused wherever it comes, and never cut to its real part."""

    def refused(self, what, *given, **more):
        with warnings.catch_warnings():
            warnings.simplefilter("error")
            with self.assertRaises(ValueError) as caught:
                solve_ivp(*given, **more)
        self.assertEqual(str(caught.exception), f"{what} {COMPLEX}")

    def test_arguments(self):
        self.refused("`y0`", decay, (0, 1), [1.0, 1j])
        self.refused("`y0`", decay, (0, 1), [1.0, 1.0 + 0j])
        self.refused("`y0`", decay, (0, 1), 1j)
        self.refused("`t_span`", decay, (0, 1 + 1j), [1.0])
        self.refused("`t_eval`", decay, (0, 1), [1.0], t_eval=[0.0, 0.5 + 1j])
        self.refused("`rtol`", decay, (0, 1), [1.0], rtol=1e-3 + 0j)
        self.refused("`atol`", decay, (0, 1), [1.0], atol=[1e-3j])
        for size in ("max_step", "min_step", "first_step"):
            self.refused(f"`{size}`", decay, (0, 1), [1.0], **{size: 0.1 + 1j})

    def test_callbacks(self):
        self.refused("what `fun` gave", lambda t, y: [-y[0] + 1j], (0, 1), [1.0])
        self.refused("what `fun` gave", lambda t, y: 1j, (0, 1), [1.0])
        self.refused("what `fun` gave", lambda t, y: [-y[0] + (1j if t > 0.5 else 0.0)], (0, 1), [1.0])
        self.refused("what `jac` gave", drawn, (0, 1), [0.0, 1.0], jac=[[1j, 0.0], [0.0, 1.0]])
        self.refused("what `jac` gave", drawn, (0, 1), [0.0, 1.0], jac=lambda t, y: [[1j, 0.0], [0.0, 1.0]])

    def test_a_question_at_a_time(self):
        with self.assertRaisesRegex(ValueError, "complex"):
            Run(0, 1, [1j], 1e-3, 1e-6)
        run = Run(0, 1, [1.0], 1e-3, 1e-6)
        with self.assertRaisesRegex(ValueError, "complex"):
            run.reply(1, [1j])

    @unittest.skipIf(numpy is None, "no numpy")
    def test_numpy(self):
        self.refused("`y0`", decay, (0, 1), numpy.array([1j]))
        self.refused("`y0`", decay, (0, 1), [1.0, numpy.complex64(1j)])
        self.refused("`t_span`", decay, numpy.array([0, 1 + 1j]), [1.0])
        self.refused("`t_eval`", decay, (0, 1), [1.0], t_eval=numpy.array([0.5 + 1j]))
        self.refused("`rtol`", decay, (0, 1), [1.0], rtol=numpy.array(1e-3 + 1j))
        for wide in (numpy.complex64, numpy.complex128):
            self.refused("what `fun` gave", lambda t, y: numpy.array([1j], wide), (0, 1), [1.0])
            self.refused("what `fun` gave", lambda t, y: [wide(1j)], (0, 1), [1.0])
            self.refused("what `fun` gave", lambda t, y: wide(1j), (0, 1), [1.0])
            self.refused("what `fun` gave", lambda t, y: -y if t < 0.5 else -y.astype(wide), (0, 1), [1.0])
            matrix = numpy.array(DRAWN, dtype=wide)
            self.refused("what `jac` gave", drawn, (0, 1), [0.0, 1.0], jac=lambda t, y: matrix)


class Sizes(unittest.TestCase):
    """Sizes of steps and tolerances that mean nothing are refused, by the argument's name."""

    def refused(self, told, **more):
        for end in (1.0, -1.0):
            with self.assertRaises(ValueError) as caught:
                solve_ivp(decay, (0, end), [1.0], **more)
            self.assertEqual(str(caught.exception), told)

    def test_max_step(self):
        for size in (0, 0.0, -0.0, -0.1, -math.inf, math.nan):
            self.refused("`max_step` must be positive.", max_step=size)
        # here the steps grow as far as the interval, the largest step that there is if none is given
        slow = lambda t, y: [-0.02 * y[0]]  # noqa: E731
        free = solve_ivp(slow, (0, 2), [1.0], rtol=1e-2, atol=1e-4)
        for size in (None, math.inf):
            result = solve_ivp(slow, (0, 2), [1.0], rtol=1e-2, atol=1e-4, max_step=size)
            self.assertEqual(list(result.t), list(free.t))

    def test_min_step(self):
        for size in (-1e-9, -math.inf, math.nan):
            self.refused("`min_step` must be nonnegative.", min_step=size)
        for size in (1.5, math.inf):
            self.refused("`min_step` exceeds bounds.", min_step=size)
        self.assertTrue(solve_ivp(decay, (0, 1), [1.0], min_step=0.0).success)

    def test_first_step(self):
        for size in (1.5, math.inf):
            self.refused("`first_step` exceeds bounds.", first_step=size)
        for size in (0.0, -0.1, math.nan):
            with self.assertRaises(Refused) as caught:
                solve_ivp(decay, (0, 1), [1.0], first_step=size)
            self.assertEqual(caught.exception.number, 11)
        self.assertTrue(solve_ivp(decay, (0, 1), [1.0], first_step=1.0).success)

    def test_tolerances(self):
        self.refused("rtol[0] is NaN", rtol=math.nan)
        self.refused("atol[0] is NaN", atol=[math.nan])
        self.refused("`rtol` must be 1-dimensional.", rtol=[[1e-3]])

    def test_not_numbers(self):
        for more in (dict(max_step="1"), dict(rtol="1e-3"), dict(atol=[None]), dict(first_step=[])):
            with self.assertRaisesRegex(TypeError, f"`{list(more)[0]}` holds .*, which is not a number"):
                solve_ivp(decay, (0, 1), [1.0], **more)


class Settings(unittest.TestCase):
    def test_whole(self):
        wanted = solve_ivp(swing, (0, 10), [1, 0], max_steps=5)
        given = [5.0, Fraction(5), True + 4]
        if numpy is not None:
            given += [numpy.int32(5), numpy.array(5), numpy.float32(5)]
        for steps in given:
            self.assertEqual(list(solve_ivp(swing, (0, 10), [1, 0], max_steps=steps).t), list(wanted.t))
        for wrong in (5.5, math.nan, math.inf, "5", None, [5, 6]):
            with self.assertRaisesRegex(TypeError, "`max_steps`"):
                solve_ivp(swing, (0, 10), [1, 0], max_steps=wrong)

    @unittest.skipIf(numpy is None, "no numpy")
    def test_numpy_bools(self):
        with warnings.catch_warnings():
            warnings.simplefilter("error")
            yes, no = numpy.bool_(True), numpy.bool_(False)
            result = solve_ivp(decay, (0, 1), [1.0], dense_output=yes, vectorized=no, maxcor=yes)
        self.assertIsNotNone(result.sol)
        self.assertEqual(result.cap, 22 + 7 + 19)

    def test_unknown(self):
        with self.assertRaisesRegex(TypeError, "lbands"):
            solve_ivp(decay, (0, 1), [1.0], lbands=1)

    def test_bands(self):
        self.assertTrue(solve_ivp(decay, (0, 1), [1.0], lband=None, uband=None).success)
        for bands in (dict(lband=0), dict(uband=1), dict(lband=1, uband=1)):
            with self.assertRaisesRegex(Refused, r"\(8\): banded storage is not supported"):
                solve_ivp(decay, (0, 1), [1.0], **bands)

    def test_method(self):
        for wrong in ("RK45", "lsoda", None, int):
            with self.assertRaisesRegex(ValueError, "`method` must be 'LSODA' or raimsklo.LSODA"):
                solve_ivp(decay, (0, 1), [1.0], wrong)


class Intervals(unittest.TestCase):
    def test_none(self):
        nan, inf = math.nan, math.inf
        for span in ((nan, 1), (0, nan), (nan, nan), (inf, 0), (-inf, 0), (inf, inf), (-inf, inf)):
            with self.assertRaisesRegex(ValueError, "^no interval: it begins at .* and ends at"):
                solve_ivp(swing, span, [1, 0])
        for span in ((0,), (0, 1, 2), 3):
            with self.assertRaises((TypeError, ValueError)):
                solve_ivp(swing, span, [1, 0])

    def test_without_an_end(self):
        for end in (math.inf, -math.inf):
            result = solve_ivp(swing, (0, end), [1, 0], report=lambda previous, t, y, count: abs(t) > 5.0)
            self.assertEqual((result.end, abs(result.t[-1]) > 5.0), ("interrupted", True))


class Shapes(unittest.TestCase):
    def test_no_generator(self):
        """What can be read once is no list of numbers, with numpy and without."""
        with self.assertRaises(TypeError):
            solve_ivp(decay, (0, 1), (y for y in [1.0]))
        with self.assertRaises(TypeError):
            solve_ivp(lambda t, y: (f for f in [1.0]), (0, 1), [1.0])

    def test_pose(self):
        wanted = poses(solve_ivp(decay, (0, 1), [1.0, 2.0]))
        given = [(1, 2), [True, 2], range(1, 3), [Fraction(1), 2.0]]
        if numpy is not None:
            given += [numpy.array([1, 2]), numpy.float32([1, 2]), [numpy.array(1.0), 2], numpy.array([1, 9, 2, 9])[::2]]
        for y0 in given:
            self.assertEqual(poses(solve_ivp(decay, (0, 1), y0)), wanted)
        for y0 in ([[1.0, 2.0]], [[1.0], [2.0]]) + (() if numpy is None else (numpy.ones((2, 1)), numpy.ones((1, 1)))):
            with self.assertRaisesRegex(ValueError, "^`y0` must be 1-dimensional.$"):
                solve_ivp(decay, (0, 1), y0)
        with self.assertRaises(TypeError):
            solve_ivp(decay, (0, 1), "12")
        with self.assertRaises(Refused) as caught:  # and not only once hundreds of gigabytes are asked for
            solve_ivp(decay, (0, 1), [0.0] * 200000)
        self.assertEqual(caught.exception.number, 1)

    def test_one_state(self):
        wanted = poses(solve_ivp(decay, (0, 1), [1.0]))
        for fun in (lambda t, y: -y[0], lambda t, y: (-y[0],)):
            self.assertEqual(poses(solve_ivp(fun, (0, 1), 1.0)), wanted)
            self.assertEqual(poses(solve_ivp(fun, (0, 1), [1])), wanted)

    def test_derivative(self):
        for given, told in (
            ([1.0], "fun gave 1 numbers, and 2 are wanted"),
            (1.0, "fun gave 1 numbers, and 2 are wanted"),
            ([1.0, 2.0, 3.0], "fun gave 3 numbers, and 2 are wanted"),
            ([[1.0], [2.0]], "fun gave lists within a list" if numpy is None else r"shape \(2, 1\), and \(2,\) is"),
        ):
            with self.assertRaisesRegex(Refused, told):
                solve_ivp(lambda t, y: given, (0, 1), [1, 0])
        for given in (None, [None, 1.0], "ab", ["a", 1.0]):
            with self.assertRaisesRegex(TypeError, "what `fun` gave holds .*, which is not a number"):
                solve_ivp(lambda t, y: given, (0, 1), [1, 0])
        with self.assertRaisesRegex(TypeError, "`fun` must be callable"):
            solve_ivp([1.0], (0, 1), [1, 0])

    def test_vectorized(self):
        seen = []

        def columns(t, y):
            seen.append((len(y), len(y[0])))
            return [[y[1][0]], [-y[0][0]]]

        wanted = poses(solve_ivp(swing, (0, 1), [1, 0]))
        self.assertEqual(poses(solve_ivp(columns, (0, 1), [1, 0], vectorized=True)), wanted)
        self.assertEqual(set(seen), {(2, 1)})
        flat = solve_ivp(lambda t, y: [y[1][0], -y[0][0]], (0, 1), [1, 0], vectorized=True)
        self.assertEqual(poses(flat), wanted)
        with self.assertRaisesRegex(Refused, r"\(14\): fun gave"):
            solve_ivp(lambda t, y: [[0.0, 1.0], [0.0, 1.0]], (0, 1), [1, 0], vectorized=True)

    @unittest.skipIf(numpy is None, "no numpy")
    def test_numpy_derivatives(self):
        wanted = poses(solve_ivp(swing, (0, 10), [1, 0]))
        for made in (
            lambda f: numpy.array(f),
            lambda f: tuple(f),
            lambda f: [numpy.array(f[0]), numpy.array(f[1])],
            lambda f: [numpy.float64(f[0]), f[1]],
            lambda f: numpy.array(f, dtype=">f8"),
            lambda f: numpy.array(f, dtype=object),
            lambda f: numpy.array([f[0], 7.0, f[1], 7.0])[::2],
            lambda f: numpy.ma.array(f),
        ):
            self.assertEqual(poses(solve_ivp(lambda t, y: made(swing(t, y)), (0, 10), [1, 0])), wanted)
        one = poses(solve_ivp(decay, (0, 1), [1.0]))
        self.assertEqual(poses(solve_ivp(lambda t, y: numpy.array(-y[0]), (0, 1), numpy.array(1.0))), one)
        rounded = solve_ivp(lambda t, y: numpy.float32(swing(t, y)), (0, 1), [1, 0])
        self.assertTrue(rounded.success)
        with self.assertRaisesRegex(Refused, r"fun gave an array of shape \(2, 1\), and \(2,\) is wanted"):
            solve_ivp(lambda t, y: y[:, None], (0, 1), [1, 0])
        with self.assertRaisesRegex(ValueError, "what `fun` gave is no array"):
            solve_ivp(lambda t, y: [y[0], y], (0, 1), [1, 0])
        with self.assertRaisesRegex(ValueError, "what `fun` gave has masked entries"):
            solve_ivp(lambda t, y: numpy.ma.array(y, mask=[True, False]), (0, 1), [1, 0])
        with self.assertRaisesRegex(ValueError, "what `fun` gave has masked entries"):
            masked = lambda t, y: numpy.ma.array(y, mask=[[True], [False]])  # noqa: E731
            solve_ivp(masked, (0, 1), [1, 0], vectorized=True)
        with self.assertRaisesRegex(ValueError, "what `fun` gave is no array"):
            solve_ivp(lambda t, y: [[0.0], [0.0, 1.0]], (0, 1), [1, 0], vectorized=True)
        with self.assertRaisesRegex(ValueError, "`t_span` has masked entries"):
            solve_ivp(swing, (0, numpy.ma.masked), [1, 0])
        matrix = numpy.array([[0.0, 1.0], [-1.0, 0.0]])
        columns = solve_ivp(lambda t, y: matrix @ y, (0, 10), [1, 0], vectorized=True)
        self.assertEqual(poses(columns), poses(solve_ivp(lambda t, y: matrix @ y, (0, 10), [1, 0])))

    @unittest.skipIf(numpy is None, "no numpy")
    def test_scalars_of_numpy(self):
        wanted = poses(solve_ivp(decay, (0, 1), [1.0], rtol=1e-6, atol=1e-7, first_step=0.01, max_step=0.1))
        given = dict(rtol=numpy.array(1e-6), atol=numpy.array([1e-7]), first_step=numpy.array(0.01))
        result = solve_ivp(decay, numpy.array([0, 1]), [1.0], max_step=numpy.float64(0.1), dense_output=True, **given)
        self.assertEqual(poses(result), wanted)
        self.assertEqual(result.sol(numpy.array(0.5)).shape, (1,))
        self.assertEqual(list(result.sol(numpy.array(0.5))), list(result.sol(0.5)))
        self.assertEqual(result.sol(numpy.array([0.5, 0.7])).shape, (1, 2))
        with self.assertRaisesRegex(ValueError, "`t` must be a float or a 1-D array."):
            result.sol(numpy.array([[0.5]]))

    def test_arguments(self):
        def fun(t, y, *args):
            seen.append(args)
            return [0.0]

        for args, unpacked in ((0.0, (0.0,)), (0, (0,)), ((), ()), ([2, 3], (2, 3)), ("ab", ("ab",)), ((0.0,), (0.0,))):
            seen = []
            solve_ivp(fun, (0, 1), [1.0], args=args)
            self.assertEqual(set(seen), {unpacked})

    @unittest.skipIf(numpy is None, "no numpy")
    def test_array_arguments(self):
        jac = lambda t, y, a, b: [[a]]  # noqa: E731
        fun = lambda t, y, a, b: [a * y[0] + b]  # noqa: E731
        wanted = poses(solve_ivp(fun, (0, 1), [1.0], args=(2.0, 3.0), jac=jac))
        self.assertEqual(poses(solve_ivp(fun, (0, 1), [1.0], args=numpy.array([2.0, 3.0]), jac=jac)), wanted)
        one = solve_ivp(lambda t, y, k: [k * y[0]], (0, 1), [1.0], args=numpy.array(2.0))
        self.assertEqual(poses(one), poses(solve_ivp(lambda t, y: [2.0 * y[0]], (0, 1), [1.0])))


class Jacobians(unittest.TestCase):
    def solved(self, jac, fun=drawn, y0=(0.0, 1.0)):
        return solve_ivp(fun, (0, 3), y0, jac=jac, rtol=1e-6, atol=1e-9)

    @unittest.skipIf(numpy is None, "no numpy")
    def test_arrays(self):
        wanted, matrix = self.solved(DRAWN), numpy.array(DRAWN)
        self.assertGreater(wanted.njev, 0)
        with warnings.catch_warnings():
            warnings.simplefilter("ignore", PendingDeprecationWarning)
            given = [matrix, numpy.matrix(matrix), numpy.asfortranarray(matrix), matrix.astype(int), list(matrix)]
        if sparse is not None:
            kinds = (sparse.csr_matrix, sparse.csc_matrix, sparse.coo_array, sparse.dia_array)
            given += [kind(matrix) for kind in kinds]
        for jac in given:
            for result in (self.solved(jac), self.solved(lambda t, y: jac)):
                self.assertEqual(poses(result), poses(wanted))
        if sparse is not None:
            with self.assertRaisesRegex(ValueError, "what `jac` gave is complex"):
                self.solved(sparse.csr_matrix(matrix * 1j))

    def test_to_array(self):
        """What has a method `toarray`, as scipy's sparse matrices have, whether numpy is there or not."""

        class Sparse:
            def toarray(self):
                return [[0.0, 1.0], [-1.0, 0.0]]

        given = dict(rtol=1e-6, atol=1e-9, mxordn=1)
        wanted = poses(solve_ivp(swing, (0, 1), [1, 0], jac=Sparse().toarray(), **given))
        self.assertEqual(poses(solve_ivp(swing, (0, 1), [1, 0], jac=Sparse(), **given)), wanted)
        self.assertEqual(poses(solve_ivp(swing, (0, 1), [1, 0], jac=lambda t, y: Sparse(), **given)), wanted)

    @unittest.skipIf(sparse is None, "no scipy")
    def test_sparse_and_not_symmetric(self):
        more = dict(rtol=1e-6, atol=[1e-8, 1e-12, 1e-8])
        wanted = solve_ivp(robertson, (0, 40), [1, 0, 0], jac=robertson_jac, **more)
        jac = lambda t, y: sparse.csc_matrix(robertson_jac(t, y))  # noqa: E731
        given = solve_ivp(robertson, (0, 40), [1, 0, 0], jac=jac, **more)
        self.assertEqual(poses(given), poses(wanted))

    def test_one_state(self):
        fun = lambda t, y: [1e5 * (math.cos(t) - y[0])]  # noqa: E731
        wanted = self.solved([[-1e5]], fun, [0.0])
        for jac in (-1e5, [-1e5], lambda t, y: -1e5, lambda t, y: [[-1e5]]):
            self.assertEqual(poses(self.solved(jac, fun, [0.0])), poses(wanted))

    def test_wrong(self):
        for jac in ([[1.0, 2.0]], [[1.0], [2.0]], [1.0, 2.0, 3.0, 4.0], 1.0, [[1.0] * 3] * 3):
            for given in (jac, lambda t, y: jac):
                with self.assertRaisesRegex(Refused, r"\(14\): jac gave other than 2 rows of 2 numbers"):
                    self.solved(given)
        with self.assertRaisesRegex(TypeError, "what `jac` gave holds None, which is not a number"):
            self.solved([[None, 0.0], [0.0, 0.0]])


class Times(unittest.TestCase):
    def refused(self, told, t_eval, span=(0, 10)):
        with self.assertRaises(ValueError) as caught:
            solve_ivp(swing, span, [1, 0], t_eval=t_eval)
        self.assertEqual(str(caught.exception), told)

    def test_as_scipy_has_them(self):
        self.refused("`t_eval` must be 1-dimensional.", 5.0)
        self.refused("`t_eval` must be 1-dimensional.", [[1.0, 2.0]])
        for times in ([1.0, 11.0], [-1.0], [math.nan], [1.0, math.nan, 2.0]):
            self.refused("Values in `t_eval` are not within `t_span`.", times)
        for times in ([2.0, 1.0], [1.0, 1.0]):
            self.refused("Values in `t_eval` are not properly sorted.", times)
        for times in ([1.0, 2.0], [1.0, 1.0]):
            self.refused("Values in `t_eval` are not properly sorted.", times, (10, 0))
        if numpy is not None:
            self.refused("`t_eval` must be 1-dimensional.", numpy.array(5.0))

    def test_none(self):
        result = solve_ivp(swing, (0, 10), [1, 0], t_eval=[])
        self.assertEqual((list(result.t), poses(result)), ([], [[], []]))
        if numpy is not None:
            self.assertEqual(result.y.shape, (2, 0))

    def test_steps_do_not_depend_on_them(self):
        steps = solve_ivp(swing, (0, 10), [1, 0], dense_output=True)
        times = [0.0] + [0.037 * k for k in range(1, 270)] + [10.0]
        result = solve_ivp(swing, (0, 10), [1, 0], t_eval=times)
        self.assertEqual(list(result.t), times)
        self.assertEqual(poses(result), [list(row) for row in steps.sol(times)])
        self.assertEqual((result.nfev, result.accepted), (steps.nfev, steps.accepted))
        self.assertEqual((result.counts, result.largest_count), ([], max(steps.counts)))
        self.assertEqual(steps.largest_count, max(steps.counts))


class NoStates(unittest.TestCase):
    def shape(self, y):
        return y.shape if numpy is not None else (len(y), None)

    def test_shapes(self):
        for span in ((0, 3), (3, 0)):
            result = solve_ivp(decay, span, [], dense_output=True)
            self.assertEqual((result.success, list(result.t), result.nfev), (True, [float(t) for t in span], 0))
            self.assertEqual(self.shape(result.y), (0, 2) if numpy is not None else (0, None))
            self.assertEqual((result.sol.t_min, result.sol.t_max), (0.0, 3.0))
            self.assertEqual(len(result.sol(1.0)), 0)
            self.assertEqual(self.shape(result.sol([1.0, 2.0])), (0, 2) if numpy is not None else (0, None))
            with self.assertRaises(ValueError):
                result.sol(4.0)
            times = [1.0, 2.0] if span[0] == 0 else [2.0, 1.0]
            asked = solve_ivp(decay, span, [], t_eval=times)
            self.assertEqual(list(asked.t), times)
            self.assertEqual(self.shape(asked.y), (0, 2) if numpy is not None else (0, None))
        self.assertEqual(list(solve_ivp(decay, (1, 1), []).t), [1.0])


class EqualEnds(unittest.TestCase):
    """A success without a step; all that is wrong otherwise is refused as ever."""

    def test_success(self):
        for span in ((1, 1), (0.0, -0.0), (-0.0, 0.0)):
            for more in ({}, dict(first_step=0.1), dict(min_step=0.1), dict(max_step=0.1)):
                result = solve_ivp(swing, span, [1, 0], dense_output=True, **more)
                self.assertEqual((result.success, result.number, result.status), (True, 110, 0))
                self.assertEqual((list(result.t), poses(result)), ([float(span[0])], [[1.0], [0.0]]))
                self.assertEqual((result.nfev, result.accepted, result.counts), (1, 0, []))
                self.assertEqual(list(result.sol(span[0])), [1.0, 0.0])
                with self.assertRaises(ValueError):
                    result.sol(2.0)

    def test_times_asked_for(self):
        result = solve_ivp(swing, (1, 1), [1, 0], t_eval=[1.0, 1.0])
        self.assertEqual((list(result.t), poses(result)), ([1.0, 1.0], [[1.0, 1.0], [0.0, 0.0]]))
        with self.assertRaises(ValueError):
            solve_ivp(swing, (1, 1), [1, 0], t_eval=[1.5])

    def test_refusals(self):
        for number, more in (
            (2, dict(rtol=[1e-3] * 3)),
            (4, dict(max_steps=2000000)),
            (5, dict(max_steps=0)),
            (6, dict(maxcor=0)),
            (7, dict(mxords=0)),
            (9, dict(rtol=-1.0)),
            (10, dict(atol=-1.0)),
            (11, dict(first_step=-0.1)),
            (12, dict(rtol=0.0, atol=0.0)),
        ):
            with self.assertRaises(Refused) as caught:
                solve_ivp(swing, (1, 1), [1, 0], **more)
            self.assertEqual(caught.exception.number, number)

    def test_the_machine_hands_on_what_it_is_given(self):
        run = Run(1, 1, [1, 0], 1e-3, 1e-6)
        with self.assertRaises(Refused) as caught:
            run.reply(1, [0.0, -1.0])
        self.assertEqual(caught.exception.number, 11)


class Callbacks(unittest.TestCase):
    """What callbacks do with what they are given does not disturb the run."""

    def test_poses_may_be_kept(self):
        kept, told = [], []

        def fun(t, y):
            kept.append(y)
            told.append(list(y))
            return swing(t, y)

        solve_ivp(fun, (0, 10), [1, 0])
        self.assertEqual([list(y) for y in kept], told)
        self.assertGreater(len(set(map(tuple, told))), 10)

    def test_poses_may_be_written_to(self):
        wanted = solve_ivp(drawn, (0, 3), [0, 1], jac=DRAWN)
        self.assertGreater(wanted.njev, 0)

        def spoilt(function):
            def spoils(t, y, *more):
                given = function(t, y, *more)
                for i in range(2):
                    y[i] = math.nan
                return given

            return spoils

        def report(previous, t, y, count):
            return spoilt(lambda t, y: False)(t, y)

        result = solve_ivp(spoilt(drawn), (0, 3), [0, 1], jac=spoilt(lambda t, y: DRAWN), report=report)
        self.assertEqual(poses(result), poses(wanted))

    def test_a_derivative_may_be_reused(self):
        f = [0.0, 0.0] if numpy is None else numpy.zeros(2)

        def fun(t, y):
            f[0], f[1] = y[1], -y[0]
            return f

        self.assertEqual(poses(solve_ivp(fun, (0, 10), [1, 0])), poses(solve_ivp(swing, (0, 10), [1, 0])))

    def test_what_was_given_is_left_as_it_was(self):
        y0, times = ([1.0, 0.0], [1.0, 2.0]) if numpy is None else (numpy.array([1.0, 0.0]), numpy.array([1.0, 2.0]))
        result = solve_ivp(swing, (0, 10), y0, t_eval=times)
        result.t[0] = result.y[0][0] = 7.0
        self.assertEqual((list(y0), list(times)), ([1.0, 0.0], [1.0, 2.0]))

    def test_a_run_within_a_run(self):
        def fun(t, y):
            return [-solve_ivp(decay, (0, 0.1), [y[0]]).y[0][0]]

        self.assertEqual(poses(solve_ivp(fun, (0, 1), [1.0])), poses(solve_ivp(decay, (0, 1), [1.0])))


if __name__ == "__main__":
    unittest.main()
