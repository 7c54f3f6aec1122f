"""Refuses each allocation in turn, in the executables that `rt ci` has proved and built.

In each run one allocation of the process is refused: the first, the second, and so on, until a run
asks for no more. `scionet` must write its whole answer and end with status 0, or write the first
lines of it, say that it is out of memory and end with status 1. Then `scionet run` must have
written the replies to all lines before the one that asked for this allocation, and `scionet_view
explain` what there is to say of them; which line did is known from how many allocations the first
lines alone ask for. A test that may be short of memory once must pass. Where no allocation is
refused, no test may be short of memory at all. In some run of the daemon's test an answer must not
have been kept.

The last line says how many runs there were and how many were wrong; the status is 1 where one was.
"""
import bisect
import collections
import concurrent.futures
import json
import os
import resource
import shutil
import sys
import tempfile
from collections.abc import Iterator, Sequence
from pathlib import Path
from typing import NamedTuple, NoReturn

from gate import TOP, children, kit
from gate.words import reader

SOURCE = Path(__file__).with_suffix(".c")

# The tests in which memory may be short once: by crate, the beginnings of their names.
TESTS = {
    "conformance_run": ("event_runs::",),
    "conformance_threads": ("board::", "daemon::"),
    "conformance_workers": ("runs::",),
}

# What such a test tells where a call wanted memory, and where an answer was not kept.
WANTED, UNKEPT = b"a call wanted memory", b"an answer was not kept"

# A daemon's answer, and the same without one: the first wants memory in no more runs than the
# second, so in none for keeping the answer.
ASKED, MADE = "daemon::an_answer_is_asked_for", "daemon::an_answer_is_made"

# An answer that the daemon's cache gives later, unless it could not be kept.
SERVED = "daemon::an_answer_is_served_while_its_segments_stay"

# The case in which a packet is delivered, and the one whose lines have policies.
ROW, POLICIES = "three ASes in a row", "access lists, sequences and options"

# Lines after a topology of which each is refused, or warned of.
FAULTY = b'''{"do":"turn"}

{"do":"tick","now":1000,"second":2}
{"do":"ask","src":"1-9","dst":"1-8","limit":4,"acls":["+"]}
{"do":"ask","src":"1-9","dst":"1-8","limit":4,"sequence":"(1-9 0*"}
{"do":"cut","ia":"1-ff00:0:111","if":9}
{"do":"tick"
'''

# More allocations than any of these runs makes; how many runs are begun together; the seconds of
# each.
MANY, TOGETHER, SECONDS = 20_000, 32, 60

Pool = concurrent.futures.ThreadPoolExecutor


class Run(NamedTuple):
    """A run in which the allocation of this number was refused, if there was one; the status is
    None where it was killed."""

    number: int
    status: int | None
    output: bytes
    errors: bytes
    was_refused: bool


def stop(why: str) -> NoReturn:
    sys.exit(f"refuse: {why}")


def executable(crate: str, name: str) -> str:
    path = str(TOP / "crates" / crate / "out" / name)
    if not os.access(path, os.X_OK):
        stop(f"{path} is not there: rt ci builds it")
    return path


def built(room: str) -> str:
    """The library that refuses an allocation, built by the clang of the kit that `rt` is of."""
    clang = os.environ.get("CC") or str(kit.folder() / "toolchain/bin/clang")
    if shutil.which(clang) is None:
        stop(f"no compiler {clang}")
    library = os.path.join(room, "refuse.so")
    flags = ["-O2", "-shared", "-fPIC", "-nostdlib", "-fuse-ld=lld"]
    children.output([clang, *flags, "-o", library, str(SOURCE)])
    return library


def case(name: str) -> tuple[bytes, bytes]:
    """What a case of networks gives the program, and its answer."""
    with open(TOP / "cases" / "networks.jsonl", encoding="utf-8") as lines:
        named = {it["name"]: it for it in map(json.loads, lines)}
    if name not in named:
        stop(f"there is no case of networks {name!r}")
    return named[name]["stdin"].encode(), named[name]["stdout"].encode()


def ran(library: str, words: list[str], given: bytes, number: int) -> Run:
    """A run in which the allocation of this number is refused; none is where it is 0."""
    seen, tells = os.pipe()
    env = {"LD_PRELOAD": library, "REFUSE_AT": str(number), "REFUSE_TELL": str(tells)}
    ended: tuple[int | None, bytes, bytes]
    try:
        done = children.run(words, given, SECONDS, env=env, pass_fds=(tells,))
        ended = done.returncode, done.stdout, done.stderr
    except children.ChildFault as fault:
        ended = None, b"", str(fault).encode()
    finally:
        os.close(tells)
    with os.fdopen(seen, "rb") as it:
        return Run(number, *ended, it.read() != b"")


def asked(library: str, words: list[str], given: bytes) -> int:
    """How many allocations a run asks for."""
    last, none = 0, MANY
    while none - last > 1:
        middle = (last + none) // 2
        if ran(library, words, given, middle).was_refused:
            last = middle
        else:
            none = middle
    return last


class Subject:
    """What is run: its name, its words and what it is given."""

    name: str
    words: list[str]
    given: bytes

    def is_right(self, run: Run) -> bool:
        """Whether a run has written what it has to."""
        raise NotImplementedError

    def losses(self, library: str, pool: Pool, runs: list[Run]) -> Iterator[str]:
        """What the runs lack together. Of several threads the same allocation has another number in
        each run, so that nothing can be said."""
        return iter(())


class Program(Subject):
    """A program with some words: what it is given, what it has to write, its status then, and what
    it remarks on standard error."""

    def __init__(self, words: list[str], given: bytes, answer: bytes, name: str = "scionet",
                 end: tuple[int, bytes] = (0, b"")) -> None:
        self.name, self.given, self.answer = " ".join([name, *words]), given, answer
        self.words, self.end = [executable(name, name), *words], end
        self.told = f"{name}: out of memory\n".encode()

    def is_right(self, run: Run) -> bool:
        if run.output == self.answer and (run.status, run.errors) == self.end:
            return True
        is_told = run.status == 1 and run.errors in (self.told, self.told + self.end[1])
        is_whole = run.output[-1:] in (b"", b"\n")
        return run.was_refused and is_told and is_whole and self.answer.startswith(run.output)


class Lines(Program):
    """`scionet run`, which has one reply for each line."""

    def losses(self, library: str, pool: Pool, runs: list[Run]) -> Iterator[str]:
        """The runs that lack a reply to a line before the one at which memory ran out."""
        lines, replies = self.given.splitlines(True), self.replies()
        fronts = [b"".join(lines[:count]) for count in range(1, len(lines) + 1)]
        counts = [*pool.map(lambda front: asked(library, self.words, front), fronts)]
        for run in runs:
            before = replies[: bisect.bisect_left(counts, run.number)]
            if run.status == 1 and run.output != b"".join(before):
                yield f"allocation {run.number}: not all replies before its line: {run.output!r}"

    def replies(self) -> list[bytes]:
        """What it writes of each line."""
        return self.answer.splitlines(True)


class Explanations(Lines):
    """`scionet_view explain`, which writes what it finds in each line, and ends with 3."""

    def __init__(self, given: bytes) -> None:
        words = [executable("scionet_view", "scionet_view"), "explain"]
        answer = children.run(words, given).stdout
        super().__init__(["explain"], given, answer, "scionet_view", (3, b""))
        if not all(self.replies()[1:]):
            stop("a line has no explanation, so that none is looked for before it")

    def replies(self) -> list[bytes]:
        told = [b""] * len(self.given.splitlines())
        for line in self.answer.splitlines(True):
            told[int(line.split()[1].strip(b":")) - 1] += line
        return told


class Test(Subject):
    """A test in which memory may be short once."""

    def __init__(self, crate: str, name: str) -> None:
        self.name, self.given = f"{crate} {name}", b""
        self.words = [executable(crate, f"{crate}_tests"), name]

    def is_right(self, run: Run) -> bool:
        is_short = WANTED in run.output or UNKEPT in run.output
        has_passed = run.status == 0 and b"test result: ok" in run.output
        return has_passed and (run.was_refused or not is_short)

    def losses(self, library: str, pool: Pool, runs: list[Run]) -> Iterator[str]:
        """A daemon's answer has to be lost once, or the sweep has missed where it is kept."""
        if self.words[-1] == SERVED and not any(UNKEPT in run.output for run in runs):
            yield "an answer was kept in each run"


def remark(replies: bytes) -> bytes:
    """What the report of a network remarks, of whose lines one was refused."""
    refused = [place for place, it in enumerate(replies.splitlines(), 1) if it.startswith(b"no ")]
    if len(refused) != 1:
        stop(f"of the lines of a network {len(refused)} are refused, and not one")
    told = f"line {refused[0]} was refused: 'scionet_view explain' says why"
    return f"scionet_view: {told}\n".encode()


def programs() -> Iterator[Subject]:
    """A run over a row of ASes, a run with policies, the report of the row, and packets that are
    sent twice by the path of the first and carried by workers."""
    given, answer = case(ROW)
    yield Lines(["run"], given, answer)
    yield Lines(["run"], *case(POLICIES))
    yield Explanations(given.splitlines(True)[0] + FAULTY)
    reports = children.output([executable("scionet_view", "scionet_view"), "report"], given)
    yield Program(["report"], given, reports, "scionet_view", (0, remark(answer)))
    lines, replies = given.splitlines(True), answer.splitlines(True)
    at = next(place for place, line in enumerate(lines) if b'"send"' in line)
    twice = b"".join([*lines[:at], lines[at], lines[at]])
    for slots, second in (("2", b"flight 1 delivered 3\n"), ("1", b"flight 1 dropped\n")):
        ends = [b"packet 0\n", b"packet 1\n", b"flight 0 delivered 3\n", second]
        for workers in ("1", "2", "3", "8"):
            words = ["work", "--workers", workers, "--slots", slots]
            yield Program(words, twice, b"".join([*replies[:at], *ends]))


def tests() -> Iterator[Subject]:
    for crate, fronts in TESTS.items():
        words = [executable(crate, f"{crate}_tests"), "--list"]
        listed = children.output(words).decode()
        names = [line.split(": ")[0] for line in listed.splitlines() if line.endswith(": test")]
        for front in fronts:
            if not any(name.startswith(front) for name in names):
                stop(f"{crate} has no test {front}..")
        yield from (Test(crate, name) for name in names if name.startswith(fronts))


def swept(library: str, subject: Subject, pool: Pool) -> tuple[list[Run], list[str]]:
    """The runs of a subject, the first with no refusal, and what each wrong one of them did."""
    runs: list[Run] = []
    for first in range(0, MANY, TOGETHER):
        numbers = range(first, first + TOGETHER)
        runs += pool.map(lambda it: ran(library, subject.words, subject.given, it), numbers)
        if not runs[-1].was_refused:
            break
    wrong = [
        f"allocation {run.number}: status {run.status}: {run.output[-300:]!r} {run.errors[-300:]!r}"
        for run in runs
        if not subject.is_right(run)
    ]
    wrong += subject.losses(library, pool, runs)
    if runs[-1].was_refused:
        wrong.append("it asks without an end")
    if not any(run.was_refused for run in runs):
        wrong.append("it asks for nothing")
    return runs, wrong


def main(words: Sequence[str]) -> int:
    reader(__name__, __doc__).parse_args(words)
    resource.setrlimit(resource.RLIMIT_CORE, (0, 0))
    count, bad = 0, 0
    wanting: collections.Counter[str] = collections.Counter()
    pool = concurrent.futures.ThreadPoolExecutor(os.cpu_count())
    with tempfile.TemporaryDirectory() as room, pool:
        library = built(room)
        for subject in [*programs(), *tests()]:
            runs, wrong = swept(library, subject, pool)
            count, bad = count + sum(run.was_refused for run in runs), bad + len(wrong)
            wanting[subject.words[-1]] = sum(WANTED in run.output for run in runs)
            for line in wrong[:3]:
                print(f"refuse: {subject.name}: {line}")
    if wanting[ASKED] > wanting[MADE] or not wanting[MADE]:
        print(f"refuse: {ASKED} wants memory in {wanting[ASKED]} runs, {MADE} in {wanting[MADE]}")
        bad += 1
    print(f"refuse: {count} runs, each with another allocation refused, {bad} wrong")
    return 1 if bad else 0

