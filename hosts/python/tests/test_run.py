"""The library a question at a time, several runs at once, the package's surface, and how it is loaded."""

import math
import os
import pickle
import shutil
import subprocess
import sys
import tempfile
import threading
import tracemalloc
import unittest

PACKAGE = os.path.abspath(os.path.join(os.path.dirname(os.path.abspath(__file__)), ".."))
sys.path.insert(0, PACKAGE)

import raimsklo  # noqa: E402
from raimsklo import Refused, Run, defaults, given, interpolate, root, solve_ivp  # noqa: E402
from test_solve import robertson, robertson_jac, swing, van_der_pol  # noqa: E402

try:
    import numpy
except ImportError:
    numpy = None


def told(script, **environment):
    """What a fresh interpreter prints, and what it says where it fails."""
    environment = dict(os.environ, PYTHONPATH=PACKAGE, **environment)
    ran = subprocess.run([sys.executable, "-c", script], env=environment, capture_output=True, text=True)
    return ran.stdout, ran.stderr


class Questions(unittest.TestCase):
    def test_the_loop(self):
        """A run by hand has the bits of solve_ivp, its Jacobian and its poses between steps too."""
        options = defaults()
        options.supplied, options.has_max_step, options.max_step = 1, 1, 2.0
        run = Run(0, 40, [1, 0, 0], 1e-6, [1e-8, 1e-12, 1e-8], options)
        self.assertIsNone(run.snapshot)
        times, states, middles = [0.0], [[1.0, 0.0, 0.0]], []
        while not run.ended:
            asked = run.answer
            if asked.number == raimsklo.DERIVATIVE_WANTED:
                run.reply(raimsklo.DERIVATIVE, robertson(asked.time, run.y))
            elif asked.number == raimsklo.JACOBIAN_WANTED:
                rows = robertson_jac(asked.time, run.y)
                run.reply(raimsklo.JACOBIAN, [rows[i][j] for j in range(3) for i in range(3)])
            else:
                if asked.number == raimsklo.REPORT:
                    times.append(asked.time)
                    states.append(list(run.y))
                    self.assertEqual(len(run.snapshot), 6 + (asked.order + 1) * run.n)
                    middles.append(list(interpolate(0.5 * (asked.previous + asked.time), run.snapshot, run.n)))
                else:
                    self.assertEqual(asked.number, raimsklo.FIRST_REPORT)
                    self.assertIsNone(run.snapshot)
                run.reply(raimsklo.CONTINUE, run.y, asked.time)
        self.assertEqual(raimsklo.ENDS[run.answer.number], "success")
        more = dict(rtol=1e-6, atol=[1e-8, 1e-12, 1e-8], jac=robertson_jac, max_step=2.0, dense_output=True)
        result = solve_ivp(robertson, (0, 40), [1, 0, 0], **more)
        self.assertEqual(times, list(result.t))
        self.assertEqual(states, [list(pose) for pose in zip(*result.y)])
        between = result.sol([0.5 * (a + b) for a, b in zip(times, times[1:])])
        self.assertEqual(middles, [list(pose) for pose in zip(*between)])
        self.assertEqual((run.answer.nfe, run.answer.nje), (result.nfev, result.njev))

    def test_ended_by_a_refusal(self):
        """11 and 12 in a reply end the run; another refusal changes nothing."""
        for problem, number in ((([1, 0], 0.0, [1.0, 0.0]), 12), (([1, 0], 1e-3, 1e-6), 11)):
            run = Run(1, 2 if number == 12 else 1, *problem)
            for kind, given, refused in (
                (raimsklo.CONTINUE, run.y, 14),
                (raimsklo.DERIVATIVE, [0.0, -1.0], number),
                (raimsklo.DERIVATIVE, [0.0, -1.0], 14),
            ):
                self.assertFalse(run.ended and refused != 14)
                with self.assertRaises(Refused) as caught:
                    run.reply(kind, given)
                self.assertEqual(caught.exception.number, refused)
            self.assertTrue(run.ended)
        nothing = Run(0, 1, [], 1e-3, 1e-6)
        with self.assertRaises(Refused) as caught:
            nothing.reply(raimsklo.CONTINUE, [])
        self.assertEqual((nothing.ended, caught.exception.number), (True, 14))

    def test_counts(self):
        """At each report they are what an interrupt would answer, on a copy of all that is lent."""
        problem = (0, 40, [1, 0, 0], 1e-6, [1e-8, 1e-12, 1e-8])
        run, twin, reports = Run(*problem), Run(*problem), 0
        self.assertEqual(tuple(run.counts), (0, 1, 0, 0, 0, 0))
        while not run.ended:
            asked = run.answer
            if asked.number == raimsklo.DERIVATIVE_WANTED:
                self.assertGreater(run.counts.nfe, 0)
                run.reply(raimsklo.DERIVATIVE, robertson(asked.time, run.y))
                continue
            for name in ("_work", "_pivots", "_session", "_question"):
                getattr(twin, name)[:] = getattr(run, name)
            twin.reply(raimsklo.INTERRUPT, run.y, asked.time)
            self.assertEqual(run.counts, tuple(getattr(twin.answer, name) for name in run.counts._fields))
            reports += 1
            run.reply(raimsklo.CONTINUE, run.y, asked.time)
        self.assertEqual(run.counts, tuple(getattr(run.answer, name) for name in run.counts._fields))
        self.assertEqual(run.counts.accepted, reports - 1)
        self.assertGreater(min(run.counts), 0)

    def test_what_is_read_is_fresh(self):
        run = Run(0, 1, [1, 0], 1e-3, 1e-6)
        first = run.y
        first[0] = 7.0
        self.assertEqual(list(run.y), [1.0, 0.0])
        while run.answer.number != raimsklo.REPORT:
            wanted = run.answer.number == raimsklo.DERIVATIVE_WANTED
            run.reply(*((raimsklo.DERIVATIVE, swing(0, run.y)) if wanted else (raimsklo.CONTINUE, run.y, 0.0)))
        kept, before = run.snapshot, list(run.snapshot)
        kept[0] = 7.0
        self.assertEqual(list(run.snapshot), before)
        self.assertIs(type(run.y), list if numpy is None else numpy.ndarray)

    def test_refused(self):
        run = Run(0, 1, [1, 0], 1e-3, 1e-6)
        for kind, numbers in ((raimsklo.DERIVATIVE, [1.0]), (raimsklo.DERIVATIVE, []), (raimsklo.CONTINUE, [1.0, 0.0])):
            with self.assertRaises(Refused) as caught:
                run.reply(kind, numbers)
            self.assertEqual(caught.exception.number, 14)
        for number, given in ((1, [0.0] * 65), (1, [0.0] * 100000)):
            with self.assertRaises(Refused) as caught:
                Run(0, 1, given, 1e-3, 1e-6)
            self.assertEqual(caught.exception.number, number)
        for snapshot, number in (([], 15), ([1.0] * 3, 15), ([2.0, 1.0, 1.0, 0.5, 0.5, 0.0, 1.0, 1.0], 16)):
            with self.assertRaises(Refused) as caught:
                interpolate(0.5, snapshot, 1)
            self.assertEqual(caught.exception.number, number)
        with self.assertRaises(Refused) as caught:
            interpolate(0.5, [1.0, 1.0, 1.0, 0.0, 0.5, 0.0, 1.0, 1.0], 1)
        self.assertEqual(caught.exception.number, 17)
        with self.assertRaises(TypeError):
            Run(0, 1, [1.0], 1e-3, 1e-6, 7)

    def test_no_states(self):
        run = Run(0, 1, [], 1e-3, 1e-6)
        self.assertEqual((run.ended, run.answer.number, len(run.y)), (True, raimsklo.SUCCESS, 0))


class Threads(unittest.TestCase):
    def test_plain_numbers_are_lent_as_they_are(self):
        """Lists, tuples and arrays of doubles go into the buffers without the slow way, which takes all else."""
        made = [lambda y: [y[1], -y[0]], lambda y: (y[1], -1 * y[0])]
        if numpy is not None:
            made += [lambda y: numpy.array([y[1], -y[0]]), lambda y: [numpy.float64(y[1]), -y[0]]]
        slow = []
        kept, given.derivative = given.derivative, lambda f, n: slow.append(f) or kept(f, n)
        try:
            for fun in made:
                solve_ivp(lambda t, y: fun(y), (0, 1), [1.0, 0.0])  # noqa: B023
            self.assertEqual(slow, [])
            solve_ivp(lambda t, y: range(2), (0, 1), [1.0, 0.0])
            self.assertGreater(len(slow), 1)
        finally:
            given.derivative = kept

    def test_root(self):
        self.assertEqual((root(8.0, 3), root(1.0, 13), root(0.0, 2)), (2.0, 1.0, 0.0))
        self.assertEqual((root(math.inf, 2), root(2.0**1000, 2)), (math.inf, 2.0**500))
        for x, k in ((-1.0, 2), (math.nan, 3), (2.0, 1), (2.0, 14), (2.0, -3), (2.0, 2**64 + 2)):
            self.assertTrue(math.isnan(root(x, k)), (x, k))
        for x, k in ((1j, 2), ("4", 2), (4.0, 2.5)):
            with self.assertRaises((TypeError, ValueError)):
                root(x, k)

    def test_several_runs(self):
        problems = [(swing, (0, 30), [1, 0]), (van_der_pol, (0, 500), [2, 0]), (robertson, (0, 40), [1, 0, 0])] * 2
        alone = [solve_ivp(*problem, rtol=1e-5, atol=1e-8) for problem in problems]
        found = [None] * len(problems)

        def solve(place):
            found[place] = solve_ivp(*problems[place], rtol=1e-5, atol=1e-8)

        threads = [threading.Thread(target=solve, args=(place,)) for place in range(len(problems))]
        for thread in threads:
            thread.start()
        for thread in threads:
            thread.join()
        for one, other in zip(alone, found):
            self.assertEqual(list(one.t), list(other.t))
            self.assertEqual([list(row) for row in one.y], [list(row) for row in other.y])


class Memory(unittest.TestCase):
    """What a run keeps grows by the poses handed out, and by snapshots only where they are asked for."""

    def grown(self, n, **more):
        """Bytes of the peak that a step more brings."""
        peaks = []
        for steps in (500, 2500):
            tracemalloc.start()
            given = dict(first_step=1, max_step=1, atol=1.0, **more)
            result = solve_ivp(lambda t, y: [1.0] * n, (0, steps), [0.0] * n, **given)
            peaks.append(tracemalloc.get_traced_memory()[1])
            tracemalloc.stop()
            self.assertTrue(result.success and result.accepted >= steps)
        return (peaks[1] - peaks[0]) / 2000

    def test_times_asked_for(self):
        self.assertLess(self.grown(16, t_eval=[0.0, 100.0, 500.0]), 2.0)

    @unittest.skipIf(numpy is None, "no numpy: the poses handed out are lists")
    def test_steps(self):
        self.assertLess(self.grown(16), 1.3 * 8 * (16 + 2))
        # a snapshot has 6 numbers and three columns at the most, orders being 1 and 2 here
        self.assertLess(self.grown(16, dense_output=True), 1.3 * 8 * (16 + 2 + 6 + 3 * 16 + 2))


class Surface(unittest.TestCase):
    def test_names(self):
        self.assertEqual(raimsklo.__version__, "0.2.0")
        for name in raimsklo.__all__:
            self.assertTrue(hasattr(raimsklo, name), name)
        self.assertFalse(hasattr(raimsklo, "nothing"))
        self.assertIn("Know before use: in whole runs the order never exceeds 2", raimsklo.__doc__)
        self.assertTrue(os.path.exists(os.path.join(PACKAGE, "raimsklo", "py.typed")))

    def test_hints(self):
        for name in raimsklo.__all__:
            public = getattr(raimsklo, name)
            if callable(public) and name not in ("Answer", "Options"):
                self.assertTrue(public.__doc__, name)
                function = public.__init__ if isinstance(public, type) and name != "Result" else public
                self.assertTrue(function.__annotations__, name)

    def test_without_scipy(self):
        """Where scipy is missing, there is no LSODA, and who asks for it is told why."""
        script = (
            "import sys; sys.modules['scipy'] = sys.modules['scipy.integrate'] = None\n"
            "import raimsklo; print(hasattr(raimsklo, 'LSODA'))\n"
            "try: raimsklo.LSODA\n"
            "except AttributeError as error: print('scipy' in str(error))\n"
            "try: from raimsklo import LSODA\n"
            "except ImportError as error: print(error)\n"
        )
        out, error = told(script)
        self.assertEqual(error, "")
        self.assertEqual(out.split("\n")[:2], ["False", "True"])
        self.assertIn("needs scipy", out.split("\n")[2])

    def test_numpy_only_where_it_is_there(self):
        script = (
            "import sys; sys.modules['numpy'] = None\n"
            "import raimsklo\n"
            "result = raimsklo.solve_ivp(lambda t, y: [-y[0]], (0, 1), [1.0], dense_output=True)\n"
            "print(type(result.t), type(result.y[0]), type(result.sol(0.5)), 'scipy' in sys.modules)\n"
        )
        self.assertEqual(told(script), (f"{list} {list} {list} False\n", ""))


class Loading(unittest.TestCase):
    def refused(self, path):
        out, error = told("import raimsklo", RAIMSKLO_LIBRARY=path)
        self.assertEqual(out, "")
        self.assertRegex(error, "\nImportError: ")
        return error

    def test_missing(self):
        self.assertIn("/nowhere/libraimsklo.so is not there", self.refused("/nowhere/libraimsklo.so"))

    def test_no_library(self):
        self.assertIn("is not the library that this package goes with", self.refused(__file__))

    @unittest.skipIf(shutil.which("cc") is None, "no cc")
    def test_another_version(self):
        with tempfile.TemporaryDirectory() as folder:
            source, library = os.path.join(folder, "other.c"), os.path.join(folder, "other.so")
            names = "defaults work_length question_length session_length start reply interpolate root".split()
            for present, why in ((names[:5], "raimsklo_reply"), (names, "is of another version than this package")):
                with open(source, "w") as file:
                    file.write("".join(f"unsigned long raimsklo_{name}(void) {{ return 8; }}\n" for name in present))
                subprocess.run(["cc", "-shared", "-fPIC", "-o", library, source], check=True)
                self.assertIn(why, self.refused(library))


class Dense(unittest.TestCase):
    def test_kept(self):
        result = solve_ivp(van_der_pol, (0, 100), [2, 0], dense_output=True)
        times = [100 * k / 333 for k in range(334)]
        many = [list(pose) for pose in zip(*result.sol(times))]
        self.assertEqual(many, [list(result.sol(t)) for t in times])
        self.assertEqual(many, [list(pose) for pose in zip(*pickle.loads(pickle.dumps(result.sol))(times))])
        self.assertEqual(list(result.sol.ts), list(result.t))
        self.assertRegex(repr(result.sol), "2 states from 0.0 to 100.0 in [0-9]+ steps")
        for k in range(1, len(result.t)):
            self.assertEqual(list(result.sol(result.t[k])), [row[k] for row in result.y])

    def test_several_times(self):
        sol = solve_ivp(swing, (0, 1), [1, 0], dense_output=True).sol
        self.assertEqual([list(row) for row in sol([])], [[], []])
        self.assertEqual([list(row) for row in sol((0.5, 0.25))], [list(row) for row in zip(sol(0.5), sol(0.25))])
        for wrong in ([[0.5]], [0.5, math.nan], 2.0, 0.5j, "0.5"):
            with self.assertRaises((ValueError, TypeError)):
                sol(wrong)


if __name__ == "__main__":
    unittest.main()
