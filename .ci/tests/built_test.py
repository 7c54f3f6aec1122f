"""What the gate says of executables that `rt ci` has not built."""
import os
import tempfile
import unittest
from pathlib import Path
from unittest import mock

from gate import built, run
from gate.built import Built
from gate.minutes import Minutes
from gate.run import BUILDS, Step, run_all

PROGRAM, TESTS = Path("crates/a/out/a"), Path("crates/a/out/a_tests")


def put(path: Path, text: str, second: int) -> None:
    """An executable that was written at this second."""
    path.parent.mkdir(parents=True, exist_ok=True)
    path.write_text(text, encoding="utf-8")
    path.chmod(0o755)
    os.utime(path, (second, second))


class Executables(unittest.TestCase):
    def setUp(self) -> None:
        room = tempfile.TemporaryDirectory()
        self.addCleanup(room.cleanup)
        self.addCleanup(os.chdir, os.getcwd())
        os.chdir(room.name)
        Path(".ci").mkdir()
        Path("crates.txt").write_text("a: b  # comment\n", encoding="utf-8")
        self.commit = mock.patch.object(built, "commit", return_value="c").start()
        self.addCleanup(mock.patch.stopall)

    def test_what_was_built(self) -> None:
        now = Built()
        put(PROGRAM, "a", 1)
        put(TESTS, "t", 1)
        self.assertEqual((now.note(), now.faults()), ([], []))

    def test_what_was_there_before(self) -> None:
        put(PROGRAM, "of another commit", 1)
        now = Built()
        put(TESTS, "t", 1)
        self.assertEqual(now.note(), [f"{PROGRAM} was there before rt ci, which has not built it"])

    def test_what_was_built_over_it(self) -> None:
        put(PROGRAM, "of another commit", 1)
        now = Built()
        put(PROGRAM, "a", 2)
        self.assertEqual(now.note(), [])

    def test_what_an_earlier_run_built(self) -> None:
        """It stays if the commit is the same, and no longer than that."""
        first = Built()
        put(PROGRAM, "a", 1)
        self.assertEqual(first.note(), [])
        self.assertEqual(Built().note(), [])
        self.commit.return_value = "d"
        self.assertEqual(len(Built().note()), 1)

    def test_what_has_come_since(self) -> None:
        now = Built()
        put(PROGRAM, "a", 1)
        now.note()
        put(PROGRAM, "b", 1)
        self.assertEqual(now.faults(), [f"{PROGRAM} is not what rt ci has built"])
        PROGRAM.unlink()
        self.assertEqual(len(now.faults()), 1)

    def test_nothing(self) -> None:
        self.assertEqual(Built().note(), ["rt ci has built no program"])

    def test_steps(self) -> None:
        """A step behind `rt ci` is not run over another program."""
        def followed(step: Step) -> tuple[str, str]:
            put(PROGRAM, step.name, 1)
            return "", ""

        def ended(*steps: Step) -> tuple[str, int]:
            return run_all([[steps]], Minutes(os.getpid()), is_strict=False)

        with mock.patch.object(run, "followed", followed):
            line, status = ended(Step("book"), Step(BUILDS, ("ci",)))
            self.assertEqual((line, status), ("gate: 2 steps, 0 failed", 0))
            line, status = ended(Step(BUILDS, ("ci",)), Step("a"), Step("b"))
        self.assertEqual(status, 1)
        self.assertIn(f"step 3 of 3, b: {PROGRAM} is not what rt ci has built", line)
