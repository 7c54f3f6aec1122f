"""What growth.py says of costs that are given."""
import unittest

from gate.growing import Bound, Cost, Measured, Work, exponent, faults_of, is_near, table
from gate.works import WORKS

WORK = Work("lines", ("scionet", "run"), str, (100, 200), "ok", Bound(1.1, 0.5, 10))


def only_fault(told: Measured) -> str:
    """The one fault of a work."""
    [fault] = faults_of(told)
    return fault


def row(first: Cost, last: Cost) -> Measured:
    return Measured(WORK, (first, last), "ok")


class Growing(unittest.TestCase):
    def test_exponents(self) -> None:
        for last, grows in ((0.1, 0.0), (0.2, 1.0), (0.4, 2.0)):
            found = exponent(WORK.sizes, [Cost(0.1, 1), Cost(last, 1)])
            assert found is not None
            self.assertAlmostEqual(found, grows)

    def test_too_short(self) -> None:
        self.assertIsNone(exponent(WORK.sizes, [Cost(0.005, 1), Cost(0.2, 1)]))
        self.assertRegex(only_fault(row(Cost(0.005, 1), Cost(0.2, 1))), "too few")

    def test_within(self) -> None:
        self.assertEqual([*faults_of(row(Cost(0.1, 9), Cost(0.2, 9)))], [])

    def test_what_falls_short(self) -> None:
        for first, last, fault in (
            (Cost(0.1, 9), Cost(0.4, 9), "grows with the power 2.00"),
            (Cost(0.3, 9), Cost(0.6, 9), "0.60 s, and not 0.5"),
            (Cost(0.1, 9), Cost(0.2, 11), "11 MB, and not 10"),
            (Cost(0.1, 9), Cost(0.2, 9, -11), "ended by signal 11"),
        ):
            self.assertRegex(only_fault(row(first, last)), fault)

    def test_another_answer(self) -> None:
        told = Measured(WORK, (Cost(0.1, 9), Cost(0.2, 9)), "no 140 BadLine")
        self.assertRegex(only_fault(told), "its last line is 'no 140 BadLine', without 'ok'")

    def test_near(self) -> None:
        for last, is_so in ((0.15, False), (0.21, True), (0.45, True)):
            self.assertEqual(is_near(WORK, [Cost(0.1, 1), Cost(last, 1)]), is_so)

    def test_the_best_of_two(self) -> None:
        best = Cost(0.1, 9, -11).best_of(Cost(0.2, 8))
        self.assertEqual(best, Cost(0.1, 9, -11))

    def test_names(self) -> None:
        self.assertEqual(len({it.name for it in WORKS}), len(WORKS))

    def test_table(self) -> None:
        last = table([row(Cost(0.1, 9), Cost(0.2, 9))]).splitlines()[-1]
        self.assertEqual(last, "| lines | 200 | 0.20 | 1.00 | 9 |  |")

