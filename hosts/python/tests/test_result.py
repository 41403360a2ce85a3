"""What a run hands out: results and refusals as values, and no false success."""

import copy
import json
import math
import os
import pickle
import sys
import unittest
from concurrent.futures import ProcessPoolExecutor

sys.path.insert(0, os.path.join(os.path.dirname(os.path.abspath(__file__)), ".."))

from raimsklo import ADVICE, ENDS, Refused, Result, message, solve_ivp  # noqa: E402
from test_solve import swing  # noqa: E402

try:
    import numpy
except ImportError:
    numpy = None

ADVISED = (
    "needs more steps: raise max_steps, give a first_step, loosen the tolerances, shorten the interval, or look for a "
    "pole of the right side near this time"
)


def poses(result):
    return [list(row) for row in result.y]


def refuses(number):
    raise Refused(number, 3, 0.5, "told by a worker")


class Refusals(unittest.TestCase):
    def test_copies(self):
        told = Refused(14, told="fun gave 1 numbers")
        for refused in (Refused(9, index=2), Refused(11, value=-0.5), told, Refused(5)):
            copies = [pickle.loads(pickle.dumps(refused, protocol)) for protocol in range(pickle.HIGHEST_PROTOCOL + 1)]
            for other in copies + [copy.copy(refused), copy.deepcopy(refused)]:
                self.assertIs(type(other), Refused)
                self.assertEqual(
                    (other.number, other.index, other.value, other.told, str(other)),
                    (refused.number, refused.index, refused.value, refused.told, str(refused)),
                )

    def test_what_a_caller_added_is_kept(self):
        refused = Refused(9, index=2)
        refused.shot = "12b"
        for other in (pickle.loads(pickle.dumps(refused)), copy.copy(refused), copy.deepcopy(refused)):
            self.assertEqual(other.shot, "12b")

    def test_from_a_worker(self):
        with ProcessPoolExecutor(1) as workers:
            with self.assertRaises(Refused) as caught:
                workers.submit(refuses, 14).result(timeout=60)
        refused = caught.exception
        self.assertEqual((refused.number, refused.index, refused.value), (14, 3, 0.5))
        self.assertEqual(str(refused), "refused (14): told by a worker")

    def test_texts(self):
        self.assertEqual(str(Refused(9, index=2)), "refused (9): rtol[2] is below 0")
        self.assertEqual(str(Refused(10, index=1)), "refused (10): atol[1] is below 0")
        text = "refused (11): the first step -0.5 is zero, NaN or leads away from the end"
        self.assertEqual(str(Refused(11, value=-0.5)), text)
        self.assertEqual(str(Refused(12, index=1)), "refused (12): the weight rtol*|y|+atol of state 1 is at most 0")
        self.assertEqual(message(112), ADVISED)
        self.assertEqual([message(number) for number in ENDS if number not in ADVICE], ["success", "interrupted"])


class Fields(unittest.TestCase):
    def setUp(self):
        self.result = solve_ivp(swing, (0, 10), [1, 0], dense_output=True)

    def test_attributes(self):
        result = self.result
        self.assertIs(result.t, result["t"])
        self.assertFalse(hasattr(result, "nothing"))
        self.assertEqual(getattr(result, "nothing", 7), 7)
        with self.assertRaisesRegex(AttributeError, "nothing"):
            result.nothing
        with self.assertRaisesRegex(AttributeError, "nothing"):
            del result.nothing
        result.note = "of take 3"
        self.assertEqual(result["note"], "of take 3")
        del result.note
        self.assertNotIn("note", result)
        self.assertLessEqual({*result, "update", "keys"}, set(dir(result)))

    def test_copies(self):
        copies = [copy.copy(self.result), copy.deepcopy(self.result), pickle.loads(pickle.dumps(self.result))]
        for other in copies:
            self.assertIs(type(other), Result)
            self.assertEqual(list(other), list(self.result))
            self.assertEqual((list(other.t), poses(other)), (list(self.result.t), poses(self.result)))
            self.assertEqual(list(other.sol(5.0)), list(self.result.sol(5.0)))
        self.assertIs(copies[0].t, self.result.t)
        copies[1].t[0] = 7.0
        self.assertEqual(self.result.t[0], 0.0)

    def test_repr(self):
        lines = repr(self.result).split("\n")
        self.assertIn("      success: True", lines)
        self.assertIn("      message: success", lines)
        self.assertLess(len(lines), 40)
        self.assertLess(max(map(len, lines)), 121)
        self.assertEqual(repr(Result()), "Result()")

    @unittest.skipIf(numpy is None, "no numpy")
    def test_arrays(self):
        for result in (self.result, solve_ivp(swing, (0, 10), [1, 0], t_eval=[1, 2])):
            self.assertEqual((result.t.dtype, result.y.dtype), (float, float))
            self.assertEqual(result.y.shape, (2, len(result.t)))
            self.assertTrue(result.t.flags.writeable and result.y.flags.writeable)

    @unittest.skipIf(numpy is not None, "numpy is there")
    def test_lists(self):
        self.assertEqual(json.loads(json.dumps([self.result.t, self.result.y])), [self.result.t, self.result.y])

    def test_messages(self):
        self.assertEqual(self.result.message, "success")
        early = solve_ivp(swing, (0, 10), [1, 0], max_steps=3)
        self.assertEqual((early.end, early.message, early.status), ("needs more steps", ADVISED, -1))
        stopped = solve_ivp(swing, (0, 10), [1, 0], report=lambda *given: True)
        self.assertEqual((stopped.end, stopped.message, stopped.status), ("interrupted", "interrupted", -1))


class NotFinite(unittest.TestCase):
    """A pose with a NaN or an infinity is no success, and the first such time is told."""

    def solved(self, **more):
        """A run whose right side is NaN from 0.5 on: a norm skips a NaN, so that the steps go on to the end."""
        fun = lambda t, y: [math.nan if t > 0.5 else 1.0, 0.0]  # noqa: E731
        return solve_ivp(fun, (0, 1), [2.0, 2.0], rtol=0.5, atol=0.1, first_step=0.1, max_step=0.1, **more)

    def test_accepted_steps(self):
        every = self.solved()
        first = [float(t) for t, y in zip(every.t, every.y[0]) if math.isnan(y)][0]
        for result in (every, self.solved(t_eval=[0.1, 0.2]), self.solved(dense_output=True)):
            self.assertEqual((result.success, result.status, result.end, result.number), (False, -2, "success", 110))
            self.assertEqual(result.nonfinite_at, first)
            self.assertIs(type(result.nonfinite_at), float)
            self.assertEqual(result.message, f"the pose at {first!r} has a NaN or an infinity")
        self.assertEqual(list(self.solved(t_eval=[0.1, 0.2]).t), [0.1, 0.2])

    def test_times_asked_for(self):
        """A time within the step that ends in a NaN comes before that end."""
        result = self.solved(t_eval=[0.1, 0.55, 0.56])
        self.assertTrue(math.isnan(result.y[0][1]))
        self.assertEqual((result.nonfinite_at, result.status), (0.55, -2))

    def test_infinities_between(self):
        """A pose between two finite ones may overflow; here the whole step does, and the time asked for comes first."""
        rises = lambda t, y: [1e308, 0.0]  # noqa: E731
        given = dict(rtol=1.0, atol=1.0, first_step=1.0, max_step=1.0)
        every = solve_ivp(rises, (0, 10), [1.7e308, 0.0], **given)
        self.assertEqual((every.status, math.isinf(every.y[0][-1]), every.nonfinite_at), (-2, True, 1.0))
        result = solve_ivp(rises, (0, 10), [1.7e308, 0.0], t_eval=[0.5], **given)
        self.assertEqual((result.status, math.isinf(result.y[0][0]), result.nonfinite_at), (-2, True, 0.5))

    def test_the_start(self):
        for bad in (math.nan, math.inf):
            for span in ((0, 1), (2, 2), (1, 0)):
                result = solve_ivp(lambda t, y: [0.0, 0.0], span, [0.0, bad])
                self.assertEqual((result.success, result.status, result.nonfinite_at), (False, -2, float(span[0])))

    def test_an_early_end_is_told_first(self):
        result = solve_ivp(lambda t, y: [0.0], (0, 1), [math.nan], max_steps=2)
        self.assertEqual((result.success, result.status, result.nonfinite_at), (False, -1, 0.0))
        self.assertEqual(result.message, ADVISED + "; the pose at 0.0 has a NaN or an infinity")

    def test_large_numbers_are_finite(self):
        large = sys.float_info.max
        result = solve_ivp(lambda t, y: [0.0] * 3, (0, 1), [large, large, -large])
        self.assertEqual((result.success, result.nonfinite_at), (True, None))
        self.assertIsNone(solve_ivp(swing, (0, 1), [1, 0]).nonfinite_at)

    def test_no_answer(self):
        result = self.solved(tolerances="answer")
        self.assertEqual((result.success, result.status, result.end), (False, -1, "tolerances not met"))
        self.assertEqual((result.message, result.number, len(result.t)), ("tolerances not met", None, 0))


if __name__ == "__main__":
    unittest.main()
