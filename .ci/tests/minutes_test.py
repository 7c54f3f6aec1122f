"""What minutes.py reads of processes, which are a folder here as the system shows them."""
import tempfile
import unittest
from collections.abc import Mapping
from pathlib import Path

from gate.minutes import TICKS, Minutes, table

# A gate, an rt below it, and what that has started; each with its parent, words, folder and minutes.
GATE, OTHER = 10, 99
Rows = Mapping[int, tuple[int, str, str, float]]
BEGUN: Rows = {
    1: (0, "init", "/", 50),
    GATE: (1, "python3 .ci/gate run", "/top", 1),
    11: (GATE, "rt ci", "/top", 2),
    12: (11, "rattle build --crate-name streams src/lib.rt", "/top/crates/streams", 3),
    13: (12, "rattle build --crate-name streams src/lib.rt", "/top/crates/streams", 4),
    14: (11, "rattle build --crate-name inbox src/lib.rt --test", "/top/crates/inbox", 5),
    15: (11, "rattle check --crate-name streams src/lib.rt", "/tmp/rt-edit-11-x", 6),
    OTHER: (1, "rattle build --crate-name streams src/lib.rt", "/top/crates/streams", 70),
}


def put(system: Path, rows: Rows) -> None:
    for pid, (parent, words, place, minutes) in rows.items():
        folder = system / str(pid)
        folder.mkdir()
        ticks = round(minutes * 60 * TICKS)
        fields = ["S", str(parent), *"0" * 9, str(ticks), *"0" * 7, "7"]
        (folder / "stat").write_text(f"{pid} (a ) b) {' '.join(fields)} 0 0")
        (folder / "cmdline").write_text("\0".join([*words.split(), ""]))
        (folder / "cwd").symlink_to(place)


def read(*moments: Rows) -> Minutes:
    """What is read of a system that is looked at in each of these moments."""
    with tempfile.TemporaryDirectory() as room:
        found = Minutes(GATE)
        for number, rows in enumerate(moments):
            found.system = Path(room) / str(number)
            found.system.mkdir()
            put(found.system, rows)
            found.look()
    return found


class Read(unittest.TestCase):
    def test_what_the_gate_has_started(self) -> None:
        wanted = {("streams", "library"): 7, ("inbox", "tests"): 5, ("streams", "wrong bodies"): 6}
        self.assertEqual(read(BEGUN).spent(), wanted)

    def test_what_has_ended_counts(self) -> None:
        later = {pid: row for pid, row in BEGUN.items() if pid not in (13, 14)}
        spent = read(BEGUN, {**later, 12: (11, *BEGUN[12][1:3], 8)}).spent()
        self.assertEqual(spent["streams", "library"], 8)
        self.assertEqual(spent["inbox", "tests"], 5)

    def test_what_was_just_started(self) -> None:
        first: Rows = {**BEGUN, 12: (11, "rt ci", "/top", 0), 13: (12, "rt ci", "/top", 0)}
        self.assertEqual(read(first, BEGUN).spent(), read(BEGUN).spent())

    def test_table(self) -> None:
        spent = {("streams", "library"): 7.04, ("inbox", "tests"): 1.25, ("inbox", "library"): 1.0,
                 ("streams", "wrong bodies"): 2.5}
        lines = table(spent, {"streams": 4, "inbox": 0}).splitlines()
        self.assertEqual(lines[2:], [
            "| `streams` | 7.0 | none | 4: 2.5 |",
            "| `inbox` | 1.0 | 1.2 | none |",
            "| all | 8 | 1 | 4: 2 |",
        ])
