"""What cases.py makes of a case, and what it says of a program that answers otherwise."""
import unittest
from subprocess import CompletedProcess

from gate.cases import Case, difference, first_of_each, runs

CASE: Case = {"name": "a packet", "stdin": "0a0b", "status": 0, "stdout": "link 2 0a0c\n"}
FAULT: Case = {"name": "a fault", "stdin": "", "status": 1, "stdout": "no\n"}


def answered(case: Case, status: int, stdout: bytes, stderr: bytes = b"") -> str | None:
    """What is said of a run of a case."""
    return difference(case, CompletedProcess([], status, stdout, stderr))


class Cases(unittest.TestCase):
    def test_one_run(self) -> None:
        self.assertEqual([*runs(CASE)], [CASE])

    def test_proper_beginnings(self) -> None:
        for step, given in ((1, ["", "0", "0a", "0a0"]), (2, ["", "0a"])):
            found = [*runs({**CASE, "prefixes": step})]
            self.assertEqual([it["stdin"] for it in found], given)
            self.assertEqual({it["stdout"] for it in found}, {CASE["stdout"]})

    def test_changed_bytes(self) -> None:
        found = [*runs({**CASE, "changed_bytes": [0, 1]})]
        self.assertEqual(len({it["stdin"] for it in found} - {CASE["stdin"]}), 510)
        first, last = found[0], found[-1]
        self.assertEqual((first["stdin"], first["stdout"]), ("0b0b", "link 2 0b0c\n"))
        self.assertEqual((last["stdin"], last["stdout"]), ("0af4", "link 2 0af3\n"))

    def test_changed_bytes_of_a_refused_packet(self) -> None:
        case = {**CASE, "stdout": "refused 94 BadMac\n", "changed_bytes": [1, 1]}
        self.assertEqual({it["stdout"] for it in runs(case)}, {"refused 94 BadMac\n"})

    def test_right_answers(self) -> None:
        self.assertIsNone(answered(CASE, 0, b"link 2 0a0c\n"))
        self.assertIsNone(answered(FAULT, 1, b"no\n", b"why"))
        either = {**CASE, "or": ["deliver 0a0b\n"]}
        self.assertIsNone(answered(either, 0, b"deliver 0a0b\n"))

    def test_wrong_answers(self) -> None:
        told = {**FAULT, "stderr": "why"}
        for said, word in (
            (answered(CASE, 1, b"link 2 0a0c\n"), "status 1, not 0"),
            (answered(CASE, 0, b"link 2 0a0c"), "output"),
            (answered(CASE, 0, b"link 2 0a0c\n", b"why"), "message"),
            (answered(FAULT, 1, b"no\n"), "message"),
            (answered(told, 1, b"no\n", b"other"), "not 'why'"),
        ):
            self.assertRegex(said or "nothing", word)

    def test_a_line_for_each_case(self) -> None:
        wrong = [("words", "a", "a: 1"), ("words", "a", "a: 2"), ("turns", "a", "a: 3")]
        self.assertEqual(first_of_each(wrong), ["cases: words: a: 1", "cases: turns: a: 3"])

