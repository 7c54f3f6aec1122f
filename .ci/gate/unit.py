"""The tests of the gate's own scripts, in `.ci/tests`: each damages a copy of a page, of a case or
of what a program prints, and sees that it is told. Where mypy is there, it checks their types."""
import os
import sys
import unittest
from collections.abc import Sequence

from gate import TOP, children
from gate.machine import Machine
from gate.words import reader

FOLDER = TOP / ".ci"

# The seconds after which mypy is killed: it takes a tenth of them on a machine that is not busy.
SECONDS = 300


def typed() -> int:
    """The number of faults that mypy finds, each of which is told."""
    words = ["mypy", "--disallow-untyped-defs", "--follow-imports", "silent"]
    words += ["--no-error-summary", "--cache-dir", "/dev/null"]
    paths = [str(TOP / it) for it in ("bindings", "bindings/python", "examples/udp")]
    env = {**os.environ, "MYPYPATH": os.pathsep.join(paths)}
    done = children.run(
        [*words, "gate", "tests"], seconds=SECONDS, is_merged=True, cwd=FOLDER, env=env
    )
    lines = done.stdout.decode().splitlines()
    for line in lines:
        print(f"unit: {line}")
    return sum(": error: " in line for line in lines) or done.returncode


def main(words: Sequence[str]) -> int:
    words_of, machine = reader(__name__, __doc__), Machine()
    words_of.add_argument("names", nargs="*", metavar="NAME", help="tests alone, as cases_test")
    names = words_of.parse_args(words).names
    loader = unittest.TestLoader()
    if names:
        found = loader.loadTestsFromNames([f"tests.{it}" for it in names])
    else:
        found = loader.discover(str(FOLDER / "tests"), "*_test.py", str(FOLDER))
    told = unittest.TextTestRunner(sys.stdout, verbosity=0, buffer=True).run(found)
    wrong = len(told.failures) + len(told.errors)
    machine.has_all(reason for _, reason in told.skipped)
    faults = typed() if machine.has("mypy") else 0
    print(machine.told(f"unit: {told.testsRun} tests, {wrong} wrong, {faults} faults of types"))
    return 1 if wrong or faults or not told.testsRun else 0
