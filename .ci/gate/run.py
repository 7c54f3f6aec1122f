"""The whole merge gate, as `.ci/run` calls it. What documents say and the tests of these scripts
come first, in seconds; then every proof, wrong body and test (`rt ci`); then what is tried over the
programs that this has built, and over no others, some of it side by side.

It begins no step behind one that failed. Behind each step it prints the seconds that it took, and
before its last line the processor minutes that the prover took for each crate. The last line has
the number of steps that were run, and what was skipped in them since a tool is missing; with
`--strict` a step that skips something fails."""
import os
import subprocess
import sys
import time
from collections.abc import Sequence
from concurrent.futures import ThreadPoolExecutor
from dataclasses import dataclass

from gate import TOP, machine
from gate.built import Built
from gate.children import Limit
from gate.minutes import Minutes, table, wrong_bodies
from gate.words import reader

MINUTE = 60

# The step that builds what those behind it try.
BUILDS = "rt"


@dataclass(frozen=True)
class Step:
    """A check with its words, and the minutes after which it is killed."""

    check: str
    words: tuple[str, ...] = ()
    minutes: int = 15

    @property
    def name(self) -> str:
        return " ".join([self.check, *self.words])

    @property
    def command(self) -> list[str]:
        if self.check == BUILDS:
            return [BUILDS, *self.words]
        return [sys.executable, ".ci/gate", self.check, *self.words]


# What came of a step: what it has skipped, and why it failed.
Ended = tuple[list[str], str]

# Steps that run one after another, and such lists that run side by side.
Lane = Sequence[Step]
Stage = Sequence[Lane]

CHECK = ("--check",)
FIRST = (
    Step("book", CHECK),
    Step("sentence"),
    Step("refusals", CHECK),
    Step("wrong_bodies"),
    Step("pages", CHECK),
    Step("crates", CHECK),
    Step("examples", CHECK),
    Step("lines", CHECK),
    Step("line_words"),
    Step("router"),
    Step("figures"),
    Step("links"),
    Step("names"),
    Step("rows"),
    Step("row_lines"),
    Step("kit"),
    Step("formatted"),
    Step("typed"),
    Step("unit"),
    Step(BUILDS, ("ci",), minutes=600),
)
PROGRAMS = (
    Step("cases"),
    Step("theorem"),
    Step("beaconing"),
    Step("topo"),
    Step("report"),
    Step("explain"),
    Step("captures"),
    Step("run_packets"),
    Step("view_words"),
    Step("playground"),
    Step("pictures"),
    Step("refuse"),
)
# What the documents do with the libraries, and what is held to seconds, has the machine alone.
LAST = (
    Step("documents"),
    Step("growth"),
    Step("requests"),
)
STAGES: Sequence[Stage] = ([FIRST], [[Step("bindings", minutes=60)], PROGRAMS], [LAST])


def ran(step: Step, minutes: Minutes) -> tuple[str, str]:
    """Runs a step, whose lines are printed as they come: its last line, and why it failed. What the
    prover takes is read beside the step that builds."""
    if step.check != BUILDS:
        return followed(step)
    with minutes:
        return followed(step)


def followed(step: Step) -> tuple[str, str]:
    """The same, with the seconds that the step took, which are printed behind its lines."""
    begun = time.monotonic()
    child = subprocess.Popen(step.command, stdout=subprocess.PIPE, text=True, errors="replace")
    last = ""
    with Limit(child, step.minutes * MINUTE) as limit:
        for line in child.stdout or ():
            print(line, end="", flush=True)
            last = line.rstrip("\n") or last
        status = child.wait()
    print(f"gate: {step.name}: {time.monotonic() - begun:.0f} s", flush=True)
    return last, limit.fault or (f"status {status}" if status else "")


def judged(step: Step, built: Built | None, minutes: Minutes, is_strict: bool) -> Ended:
    """What a step has skipped, and why it failed. Behind `rt ci` it has to find what that built."""
    if built and step.check != BUILDS and (wrong := built.faults()):
        return [], "; ".join(wrong)
    last, fault = ran(step, minutes)
    missed = machine.skipped(last)
    if built and step.check == BUILDS and not fault:
        fault = "; ".join(built.note())
    if not fault and missed and is_strict:
        fault = f"{', '.join(missed)} skipped"
    return missed, fault


class Run:
    """A run of the gate, as far as it has come."""

    def __init__(self, minutes: Minutes, is_strict: bool) -> None:
        self.minutes, self.is_strict = minutes, is_strict
        self.built: Built | None = None
        self.ended: dict[int, tuple[Step, Ended]] = {}

    def has_failed(self) -> bool:
        return any(fault for _, (_, fault) in [*self.ended.values()])

    def lane(self, steps: Sequence[tuple[int, Step]]) -> None:
        """Runs numbered steps one after another, up to the first that fails in any lane."""
        for number, step in steps:
            if self.has_failed():
                return
            if step.check == BUILDS:
                self.built = Built()
            self.ended[number] = step, judged(step, self.built, self.minutes, self.is_strict)

    def skipped(self) -> list[str]:
        """What was skipped so far, each once and in the order of the steps."""
        told = (missed for _, (_, (missed, _)) in sorted(self.ended.items()))
        return [*dict.fromkeys(it for missed in told for it in missed)]


def run_all(stages: Sequence[Stage], minutes: Minutes, is_strict: bool) -> tuple[str, int]:
    """The last line and the status of these steps."""
    run, total = Run(minutes, is_strict), sum(len(lane) for stage in stages for lane in stage)
    numbers = iter(range(1, total + 1))
    for stage in stages:
        # (in this order a lane's end takes no number)
        lanes = [[(number, step) for step, number in zip(lane, numbers)] for lane in stage]
        with ThreadPoolExecutor(len(lanes)) as pool:
            for _ in pool.map(run.lane, lanes):
                pass
        for number, (step, (_, fault)) in sorted(run.ended.items()):
            if fault:
                return f"gate: step {number} of {total}, {step.name}: {fault}", 1
    missed = run.skipped()
    told = machine.SKIPPED + ", ".join(missed) if missed else ""
    return f"gate: {total} steps, 0 failed{told}", 0


def main(words: Sequence[str]) -> int:
    reader_of = reader(__name__, __doc__)
    reader_of.add_argument("--strict", action="store_true", help="fail where a tool is missing")
    given = reader_of.parse_args(words)
    minutes = Minutes(os.getpid())
    line, status = run_all(STAGES, minutes, given.strict)
    if spent := minutes.spent():
        print(table(spent, wrong_bodies(TOP)))
    print(line)
    return status
