"""How the cost of each kind of input grows, over the programs that `rt ci` has proved and built.

Each work is a family of inputs by size (`families.py`). A program runs over each input, and its
seconds of processor and its largest memory are read. A work falls short where its seconds grow
faster from the first size to the last than its exponent allows, or where the last input takes more
seconds or megabytes than its bound. Seconds are held to those of a loop over SHA-256 that runs
before all works, so that a slow machine makes little difference; what is near its bound is measured
three times, and the best counts; and what falls short beside other works is measured again by
itself.

The seconds of a bound are twice what the work takes on a machine that others leave alone, or more,
so that only a change of the code exceeds them; the exponent is what tells a new power of the size.
What some works are to take stands beside their bounds as a goal.

The last line counts works and exponents, and what falls short; the status is 1 where something
does. `--table` prints the table of docs/speed.md instead, beside another program that answers the
same lines where `--plain PROGRAM` names one."""
import argparse
import concurrent.futures
import os
import resource
import subprocess
import sys
import tempfile
import time
from collections.abc import Sequence
from pathlib import Path

from gate import TOP, children
from gate.growing import (
    LOOP_SECONDS, Cost, Measured, Work, exponent_of, faults_of, is_near, loop, table,
)
from gate.words import reader
from gate.works import ALONE, WORKS

# How often a work is measured at most, and how often again by itself; the seconds after which a run
# is ended; those between two looks at its memory; and the bytes of a line that are looked at.
TIMES, AGAIN, LONGEST, LOOK, SHOWN = 3, 6, 60, 0.002, 200


class Programs:
    """The programs that are measured, and a folder for inputs."""

    def __init__(self, built: Path, folder: Path, plain: str | None) -> None:
        self.built, self.folder, self.plain = built, folder, plain
        self.speed = LOOP_SECONDS / min(loop() for _ in range(TIMES))

    def path(self, name: str) -> str:
        path = self.built / name / "out" / name
        path = path if path.is_file() else self.built / name
        if not os.access(path, os.X_OK):
            sys.exit(f"growth: {path} is not there: rt ci builds it")
        return str(path)

    def given(self, work: Work, size: int) -> Path:
        """The file of an input."""
        text = work.family(size).encode()
        if work.is_beaconed:
            words = [self.path("scionet_view"), "beacons"]
            text = children.output(words, text)
        path = self.folder / f"{work.family.__name__}-{size}-{os.getpid()}"
        path.write_bytes(text)
        return path


def answer_to(given: Path) -> Path:
    return given.with_suffix(".answer")


def last_line(path: Path) -> str:
    """The beginning of the last line of an answer."""
    line = path.read_bytes().removesuffix(b"\n").rpartition(b"\n")[2]
    return line[:SHOWN].decode(errors="replace")


def high_water(pid: int) -> int:
    """The largest memory of a process so far, in bytes. What the system says of it when it has
    ended begins with the memory of this one."""
    try:
        status = Path(f"/proc/{pid}/status").read_text(encoding="ascii")
    except OSError:
        return 0
    for line in status.splitlines():
        if line.startswith("VmHWM:"):
            return int(line.split()[1]) * 1024
    return 0


def run(words: list[str], given: Path) -> tuple[float, int, int]:
    """Seconds of processor, bytes of memory and status of a program. Its answer is in a file beside
    the input."""
    with given.open("rb") as source, answer_to(given).open("wb") as sink:
        child = subprocess.Popen(words, stdin=source, stdout=sink, stderr=subprocess.DEVNULL)
    resource.prlimit(child.pid, resource.RLIMIT_CPU, (LONGEST, LONGEST))
    most = high_water(child.pid)
    while True:
        time.sleep(LOOK)
        most = max(most, high_water(child.pid))
        ended, status, used = os.wait4(child.pid, os.WNOHANG)
        if ended:
            break
    child.returncode = os.waitstatus_to_exitcode(status)
    return used.ru_utime + used.ru_stime, most, child.returncode


def costs(words: list[str], given: list[Path], times: int, speed: float) -> list[Cost]:
    """What a program takes over each input, so many runs each, on a machine of this speed."""
    found = []
    for path in given:
        runs = [run(words, path) for _ in range(times)]
        seconds = sum(it[0] for it in runs) * speed
        found.append(Cost(seconds, max(it[1] for it in runs) / 1e6, min(it[2] for it in runs)))
    return found


def measured(work: Work, programs: Programs) -> Measured:
    """What a work takes at its sizes: the best of some measurements, if one is near its bound."""
    given = [programs.given(work, size) for size in work.sizes]
    words = [programs.path(work.words[0]), *work.words[1:]]
    found = costs(words, given, work.times, programs.speed)
    for _ in range(TIMES - 1):
        if not is_near(work, found):
            break
        again = costs(words, given, work.times, programs.speed)
        found = [old.best_of(it) for old, it in zip(found, again)]
    last, plain = last_line(answer_to(given[-1])), None
    if programs.plain and work.words[0] == "scionet":
        words = [programs.plain, *work.words[1:]]
        plain = costs(words, given[-1:], work.times, programs.speed)[0]
    for it in given:
        it.unlink()
        answer_to(it).unlink()
    return Measured(work, tuple(found), last, plain)


def all_measured(works: list[Work], programs: Programs) -> list[Measured]:
    """What works take: as many side by side as there are processors, and then one by one those
    whose threads wait for each other."""
    apart = [it for it in works if it not in ALONE]
    with concurrent.futures.ProcessPoolExecutor(os.cpu_count()) as pool:
        rows = list(pool.map(measured, apart, [programs] * len(apart)))
    rows += [measured(it, programs) for it in works if it in ALONE]
    return [settled(it, programs) for it in rows]


def settled(row: Measured, programs: Programs) -> Measured:
    """What a work takes, which is measured again if it falls short beside others: by itself, until
    one measurement or the best of all falls short nowhere. A machine whose speed changes makes the
    best of the first size and the best of the last those of different moments."""
    for _ in range(AGAIN):
        if not any(faults_of(row)):
            break
        again = measured(row.work, programs)
        if not any(faults_of(again)):
            return again
        best = tuple(old.best_of(it) for old, it in zip(row.costs, again.costs))
        row = Measured(row.work, best, again.last, row.plain)
    return row


def read_words(words: Sequence[str]) -> argparse.Namespace:
    words_of = reader(__name__, __doc__)
    words_of.add_argument("--programs", type=Path, default=TOP / "crates", metavar="FOLDER",
                          help="where the programs are; crates/ if it is not given")
    words_of.add_argument("--only", default="", metavar="WORDS", help="works whose name has these")
    words_of.add_argument("--table", action="store_true", help="print the table of docs/speed.md")
    words_of.add_argument("--plain", metavar="PROGRAM", help="another program for the lines")
    return words_of.parse_args(words)


def main(words: Sequence[str]) -> int:
    given = read_words(words)
    works = [it for it in WORKS if given.only in it.name]
    with tempfile.TemporaryDirectory() as folder:
        programs = Programs(given.programs, Path(folder), given.plain)
        for name in sorted({it.words[0] for it in works}):
            programs.path(name)
        rows = all_measured(works, programs)
    if given.table:
        print(table(rows))
        return 0
    wrong = [f"{row.work.name}: {fault}" for row in rows for fault in faults_of(row)]
    for it in wrong:
        print(f"growth: {it}")
    exponents = sum(exponent_of(row) is not None for row in rows)
    print(f"growth: {len(rows)} works, {exponents} exponents, {len(wrong)} fall short")
    return 1 if wrong or not rows else 0

