"""What works cost, how that grows, and where it falls short: for growth.py."""
import dataclasses
import hashlib
import math
import time
from collections.abc import Callable, Iterable, Sequence
from typing import Any

# Seconds from which an exponent is read; and from which part of a bound on a work is near it.
LEAST, NEAR, NEAR_EXPONENT = 0.01, 0.8, 0.1

# The rounds of the loop that seconds are held to, and its seconds on the machine of the bounds.
ROUNDS, LOOP_SECONDS = 100_000, 0.065


def loop() -> float:
    """The seconds of processor of a loop over SHA-256."""
    begun, digest = time.process_time(), bytes(32)
    for _ in range(ROUNDS):
        digest = hashlib.sha256(digest + digest).digest()
    return time.process_time() - begun


@dataclasses.dataclass(frozen=True)
class Bound:
    """The greatest exponent, and the most seconds and megabytes at the last size."""

    exponent: float
    seconds: float
    megabytes: float


@dataclasses.dataclass(frozen=True)
class Work:
    """A program with its words, a family of inputs and two sizes; a text that its last line has for
    the last of them, so that what is measured is what was meant; and what it may cost. `goal` is
    the bound that a later change is to reach. Each input is given so many times, a run each; a
    topology is beaconed first where the work is about the lines of its beaconing."""

    name: str
    words: tuple[str, ...]
    family: Callable[..., Any]
    sizes: tuple[int, int]
    says: str
    bound: Bound
    goal: Bound | None = None
    times: int = 1
    is_beaconed: bool = False


@dataclasses.dataclass(frozen=True)
class Cost:
    """Seconds of processor, megabytes, and the status of a run, below 0 for a signal."""

    seconds: float
    megabytes: float
    status: int = 0

    def best_of(self, other: "Cost") -> "Cost":
        """The fewest seconds of two measurements, but the most memory and any signal."""
        return Cost(min(self.seconds, other.seconds), max(self.megabytes, other.megabytes),
                    min(self.status, other.status))


@dataclasses.dataclass(frozen=True)
class Measured:
    """What a work takes at its sizes; its last line for the last of them, and what another program
    takes."""

    work: Work
    costs: tuple[Cost, ...]
    last: str
    plain: Cost | None = None


def exponent(sizes: Sequence[int], costs: Sequence[Cost]) -> float | None:
    """How the seconds grow by size; nothing if they are too few to say."""
    first, last = (it.seconds for it in costs)
    if min(first, last) < LEAST:
        return None
    return math.log(last / first) / math.log(sizes[1] / sizes[0])


def exponent_of(row: Measured) -> float | None:
    return exponent(row.work.sizes, row.costs)


def is_near(work: Work, costs: Sequence[Cost]) -> bool:
    """Whether what was measured is near a bound, or above."""
    grows = exponent(work.sizes, costs)
    if costs[-1].seconds > NEAR * work.bound.seconds:
        return True
    return grows is None or grows > work.bound.exponent - NEAR_EXPONENT


def faults_of(row: Measured) -> Iterable[str]:
    """Where a work falls short."""
    bound, grows, last = row.work.bound, exponent_of(row), row.costs[-1]
    for it in row.costs:
        if it.status < 0:
            yield f"ended by signal {-it.status}"
    if grows is None:
        seconds = min(it.seconds for it in row.costs)
        yield f"{seconds:.3f} s are too few to say how they grow"
    elif grows > bound.exponent:
        yield f"grows with the power {grows:.2f} of its size, and not {bound.exponent}"
    if last.seconds > bound.seconds:
        yield f"{last.seconds:.2f} s, and not {bound.seconds}"
    if row.work.says not in row.last:
        yield f"its last line is {row.last!r}, without {row.work.says!r}"
    if last.megabytes > bound.megabytes:
        yield f"{last.megabytes:.0f} MB, and not {bound.megabytes:g}"


def shown(seconds: float) -> str:
    return f"{seconds:.2f}" if seconds >= 0.01 else "under 0.01"


def table(rows: Iterable[Measured]) -> str:
    """The table of docs/speed.md."""
    lines = ["| input | size | seconds | grows with | megabytes | seconds of plain Rust |",
             "|---|---|---|---|---|---|"]
    for row in rows:
        grows, last = exponent_of(row), row.costs[-1]
        plain = shown(row.plain.seconds) if row.plain else ""
        power = f"{grows:.2f}" if grows is not None else "not measured"
        lines.append(f"| {row.work.name} | {row.work.sizes[-1]:,} | {last.seconds:.2f} | {power}"
                     f" | {last.megabytes:.0f} | {plain} |")
    return "\n".join(lines)
