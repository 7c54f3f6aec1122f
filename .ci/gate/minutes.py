"""What `rt ci` takes of the processors, crate by crate, as the gate reads it beside the step: the
table of docs/gate.md, which the gate prints at its end. Only the prover's processes that the gate
has started are read, a crate's library, its tests and its wrong bodies apart."""
import collections
import contextlib
import dataclasses
import os
import threading
from collections.abc import Iterator, Mapping
from pathlib import Path
from types import TracebackType

# The seconds between two looks, and the ticks of a second of the system's clock of processes.
LOOK, TICKS = 0.5, os.sysconf("SC_CLK_TCK")

# The word before a crate's name, that of a check of tests, and the folder of a wrong body's check.
NAMED, TESTS, EDITED = "--crate-name", "--test", "rt-edit-"
KINDS = ("library", "tests", "wrong bodies")
LIBRARY, OF_TESTS, OF_EDITS = KINDS

Spent = Mapping[tuple[str, str], float]


@dataclasses.dataclass(frozen=True)
class Process:
    """A process: its parent, when it began, and its ticks with those of the children that ended."""

    parent: int
    begun: int
    ticks: int


def process(folder: Path) -> Process | None:
    """What the system says of a process, if it has not ended meanwhile."""
    with contextlib.suppress(OSError, ValueError, IndexError):
        # The name of a program stands in parentheses, and may have any sign.
        fields = (folder / "stat").read_text(errors="replace").rpartition(")")[2].split()
        return Process(int(fields[1]), int(fields[19]), sum(map(int, fields[11:15])))
    return None


def work(folder: Path) -> tuple[str, str] | None:
    """The crate and the kind of a process of the prover; nothing for any other process."""
    try:
        words = (folder / "cmdline").read_bytes().decode(errors="replace").split("\0")
        place = Path(os.readlink(folder / "cwd")).name
    except OSError:
        return None
    if NAMED not in words[:-1]:
        return None
    kind = OF_TESTS if TESTS in words else LIBRARY
    return words[words.index(NAMED) + 1], OF_EDITS if place.startswith(EDITED) else kind


class Minutes:
    """Reads what the prover takes, as long as the block lasts in which it stands."""

    def __init__(self, root: int, system: Path = Path("/proc")) -> None:
        self.root, self.system = root, system
        self.works: dict[tuple[int, int], tuple[str, str] | None] = {}
        self.most: dict[tuple[int, int], int] = {}
        self.is_over = threading.Event()
        self.thread = threading.Thread(target=self.look_on, daemon=True)

    def __enter__(self) -> "Minutes":
        self.thread.start()
        return self

    def __exit__(
        self, kind: type[BaseException] | None, it: BaseException | None, at: TracebackType | None
    ) -> None:
        self.is_over.set()
        self.thread.join()

    def look_on(self) -> None:
        while not self.is_over.wait(LOOK):
            self.look()

    def look(self) -> None:
        """Adds what each process of the prover has taken so far, with all that it has started."""
        names = (it for it in self.system.iterdir() if it.name.isdigit())
        found = {int(it.name): one for it in names if (one := process(it))}
        taken: collections.Counter[int] = collections.Counter()
        for pid, one in found.items():
            above = [pid, *self.parents(found, pid)]
            if self.root in above and (top := self.topmost(found, above)) is not None:
                taken[top] += one.ticks
        for pid, ticks in taken.items():
            key = (pid, found[pid].begun)
            self.most[key] = max(ticks, self.most.get(key, 0))

    def parents(self, found: Mapping[int, Process], pid: int) -> Iterator[int]:
        """The processes above one, from below."""
        while pid in found and found[pid].parent != pid:
            pid = found[pid].parent
            yield pid

    def topmost(self, found: Mapping[int, Process], pids: list[int]) -> int | None:
        """The last process of the prover in a row from below."""
        tops = [it for it in pids if it in found and self.work_of(it, found[it].begun)]
        return tops[-1] if tops else None

    def work_of(self, pid: int, begun: int) -> tuple[str, str] | None:
        """The work of a process, which is looked up until it is the prover's: one that was just
        started has the words of its parent."""
        key = (pid, begun)
        if not self.works.get(key):
            self.works[key] = work(self.system / str(pid))
        return self.works[key]

    def spent(self) -> Spent:
        """The minutes of each crate and kind."""
        sums: collections.Counter[tuple[str, str]] = collections.Counter()
        for key, ticks in self.most.items():
            if found := self.works[key]:
                sums[found] += ticks
        return {key: ticks / TICKS / 60 for key, ticks in sums.items()}


def shown(minutes: float) -> str:
    return f"{minutes:.1f}" if minutes else "none"


def table(spent: Spent, crates: Mapping[str, int]) -> str:
    """The table of these crates, each with the number of its wrong bodies."""
    lines = ["| crate | library | tests | wrong bodies |", "|---|---|---|---|"]
    for crate, count in crates.items():
        library, tests, edits = (spent.get((crate, kind), 0.0) for kind in KINDS)
        bodies = f"{count}: {edits:.1f}" if count else "none"
        lines.append(f"| `{crate}` | {library:.1f} | {shown(tests)} | {bodies} |")
    library, tests, edits = (sum(it for key, it in spent.items() if key[1] == kind)
                             for kind in KINDS)
    count = sum(crates.values())
    return "\n".join([*lines, f"| all | {library:.0f} | {tests:.0f} | {count}: {edits:.0f} |"])


def wrong_bodies(top: Path) -> dict[str, int]:
    """The crates of the repository in their order, with how many wrong bodies each has."""
    lines = [it.partition("#")[0] for it in (top / "crates.txt").read_text().splitlines()]
    names = [it.split(":")[0].split()[0] for it in lines if it.strip()]
    return {it: len([*(top / "crates" / it / "must-fail").glob("*.edit")]) for it in names}
