"""What the gate as a whole says of steps that fail, skip something or take too long; and how
programs are started."""
import contextlib
import io
import os
import sys
import tempfile
import unittest
from collections.abc import Sequence
from pathlib import Path
from unittest import mock

from gate import children, run
from gate.__main__ import checks
from gate.machine import Machine, skipped
from gate.minutes import Minutes
from gate.run import STAGES, Step, run_all

STEPS = [step for stage in STAGES for lane in stage for step in lane]


class Python(Step):
    """A step that runs a line of Python."""

    @property
    def command(self) -> list[str]:
        return [sys.executable, "-c", self.check]


def ended(steps: Sequence[Step], is_strict: bool = False) -> tuple[str, int]:
    """How these steps end; what they print is not shown."""
    with contextlib.redirect_stdout(io.StringIO()):
        return run_all([[steps]], Minutes(os.getpid()), is_strict)


def waiting(path: str, first: str, then: str) -> Python:
    """A step that runs the first line, waits for a file, and runs the other."""
    return Python(f"import os, time\n{first}\n"
                  f"while not os.path.exists('{path}'): time.sleep(0.01)\n{then}")


WELL, NODE = Python("print('a: 3 wrong of 3')"), Python("print('b: 1; skipped: node, zsh')")


class Runs(unittest.TestCase):
    def test_all_well(self) -> None:
        self.assertEqual(ended([WELL, WELL]), ("gate: 2 steps, 0 failed", 0))

    def test_what_is_printed(self) -> None:
        with contextlib.redirect_stdout(io.StringIO()) as out:
            run_all([[[Python("print('a: 1')"), Python("import time; time.sleep(1)")]]],
                    Minutes(os.getpid()), is_strict=False)
        first, second, third = out.getvalue().splitlines()
        self.assertEqual(first, "a: 1")
        self.assertRegex(second, r"^gate: print\('a: 1'\): \d+ s$")
        self.assertRegex(third, r"^gate: import time.*: [1-9]\d* s$")

    def test_what_is_skipped(self) -> None:
        line = "gate: 3 steps, 0 failed; skipped: node, zsh"
        self.assertEqual(ended([WELL, NODE, WELL]), (line, 0))

    def test_strict(self) -> None:
        line, status = ended([WELL, NODE, WELL], is_strict=True)
        self.assertEqual(status, 1)
        self.assertIn("step 2 of 3", line)
        self.assertTrue(line.endswith("node, zsh skipped"), line)

    def test_the_first_fault(self) -> None:
        steps = [WELL, Python("import sys; sys.exit(3)"), Python("print('not run')")]
        line, status = ended(steps)
        self.assertEqual(status, 1)
        self.assertRegex(line, "^gate: step 2 of 3, .*: status 3$")

    def test_side_by_side(self) -> None:
        """Lanes run at the same time, and what follows them begins behind both: each of the two
        ends only once the other has begun."""
        with tempfile.TemporaryDirectory() as folder:
            meets = [waiting(f"{folder}/{met}", f"open('{folder}/{it}', 'w')", f"print('{it}: 1')")
                     for it, met in (("a", "b"), ("b", "a"))]
            with mock.patch.object(run, "MINUTE", 2), \
                    contextlib.redirect_stdout(io.StringIO()) as out:
                ended = run_all([[[meets[0]], [meets[1]]], [[Python("print('c: 1')")]]],
                                Minutes(os.getpid()), is_strict=False)
        self.assertEqual(ended, ("gate: 3 steps, 0 failed", 0))
        self.assertEqual(out.getvalue().splitlines()[-2], "c: 1")

    def test_a_fault_in_a_lane(self) -> None:
        """The fault is told by its number; no lane goes on, and no later stage begins."""
        with tempfile.TemporaryDirectory() as folder:
            fails = Python(f"import sys; open('{folder}/fails', 'w'); sys.exit(3)")
            late = [waiting(f"{folder}/fails", "pass", "time.sleep(2)"), Python("print('not run')")]
            with contextlib.redirect_stdout(io.StringIO()) as out:
                line, status = run_all([[[NODE, fails], late], [[WELL]]], Minutes(os.getpid()),
                                       is_strict=False)
        self.assertEqual(status, 1)
        self.assertRegex(line, "^gate: step 2 of 5, .*: status 3$")
        self.assertNotIn("not run", out.getvalue())
        self.assertNotIn("a: 3 wrong of 3", out.getvalue())

    def test_no_end(self) -> None:
        with mock.patch.object(run, "MINUTE", 0.1):
            line, status = ended([Python("import time; time.sleep(60)", minutes=1)])
        self.assertEqual(status, 1)
        self.assertIn("no end within 0.1 seconds, and killed", line)

    def test_steps(self) -> None:
        """Each step is a check, or `rt`; and no check is left out but those that others start."""
        named = {it.check for it in STEPS}
        self.assertEqual(named - {"rt"} - {*checks()}, set())
        others = {"answers", "by_hand", "calls_growth", "host_numbers", "packets", "run", "udp",
                  "unproved"}
        self.assertEqual({*checks()} - named, others)

    def test_words_of_steps(self) -> None:
        """Steps of pages compare; the gate writes nothing."""
        for it in STEPS:
            self.assertIn(it.words, ((), ("--check",), ("ci",)), it.name)

    def test_the_script(self) -> None:
        done = children.run([".ci/run", "--strickt"])
        self.assertEqual(done.returncode, 2)
        self.assertIn(b"unknown word --strickt", done.stderr)

    def test_an_unknown_check(self) -> None:
        done = children.run([sys.executable, ".ci/gate", "boook", "--check"])
        self.assertEqual(done.returncode, 2)
        self.assertIn(b"boook", done.stderr)


class Children(unittest.TestCase):
    def test_output(self) -> None:
        self.assertEqual(children.output(["cat"], b"a\n"), b"a\n")

    def test_a_status(self) -> None:
        with self.assertRaisesRegex(children.ChildFault, "status 3 of sh -c .*: why"):
            children.output(["sh", "-c", "echo why >&2; exit 3"])

    def test_no_end(self) -> None:
        """Also what the program has started is killed."""
        with self.assertRaisesRegex(children.ChildFault, "no end within 0.2 seconds.*: sh -c"):
            children.run(["sh", "-c", "sleep 60 & sleep 60"], seconds=0.2)


class Machines(unittest.TestCase):
    def test_what_is_missing(self) -> None:
        machine = Machine()
        self.assertTrue(machine.has("sh") and machine.has_modules("json"))
        self.assertEqual(machine.told("a: 1"), "a: 1")
        self.assertFalse(machine.has("sh", "no-such-tool"))
        self.assertFalse(machine.has_modules("no_such_module"))
        line = machine.told("a: 1")
        self.assertEqual(line, "a: 1; skipped: no-such-tool, no_such_module")
        self.assertEqual(skipped(line), ["no-such-tool", "no_such_module"])
        self.assertEqual(skipped("a: 1 skipped"), [])


# Imports each of these modules of the gate as the first of them.
ALONE = """
import importlib, sys
sys.path.insert(0, ".ci")
for name in sys.argv[2:]:
    for it in [it for it in sys.modules if it.startswith("gate")]:
        del sys.modules[it]
    importlib.import_module(f"gate.{name}")
"""


class Modules(unittest.TestCase):
    def test_no_work_at_import(self) -> None:
        """A module of the gate prints nothing and reads no words when it is imported, alone."""
        names = [path.stem for path in sorted(Path(".ci/gate").glob("[a-z]*.py"))]
        done = children.run([sys.executable, "-B", "-c", ALONE, "--no-such-word", *names])
        self.assertEqual((done.returncode, done.stdout, done.stderr), (0, b"", b""))
