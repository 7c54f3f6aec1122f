"""Two reports in JSON are compared: what each pair lost, won or needs, and files that are none."""
import json
import subprocess
import sys
import tempfile
import unittest
from pathlib import Path
from typing import Any

from gate import TOP

TOOL = TOP / "tools/compare_reports.py"
LINK = {"a": {"ia": "1-1", "if": 1}, "b": {"ia": "1-2", "if": 2}}


def pair(source: str, destination: str, paths: int, **members: Any) -> dict[str, Any]:
    """What a report says of a pair."""
    none: list[Any] | None = None if not paths or members.get("more") else []
    one: dict[str, Any] = {"from": source, "to": destination, "paths": paths, "more": False}
    one |= {"hops": None, "until": None, "survives": None, "needs": none, "through": none}
    return one | members


class Compare(unittest.TestCase):
    def compare(self, before: list[Any], after: list[Any]) -> tuple[int, list[str]]:
        """The status of the tool over these reports, and its lines."""
        with tempfile.TemporaryDirectory() as folder:
            names = [Path(folder, it) for it in ("before", "after")]
            for name, report in zip(names, (before, after)):
                name.write_text("".join(json.dumps(it) + "\n" for it in report))
            done = subprocess.run([sys.executable, TOOL, *names], capture_output=True, text=True)
        return done.returncode, done.stdout.splitlines()

    def test_the_same(self) -> None:
        report = [pair("1-1", "1-2", 1, survives=0, needs=[LINK]), {"link": LINK, "pairs": 1}]
        last = "1 pairs, 0 differ, 0 lost all paths, 0 won some"
        self.assertEqual(self.compare(report, report), (0, [last]))

    def test_less_and_more(self) -> None:
        before = [
            pair("1-1", "1-2", 2, survives=1), pair("1-1", "1-3", 1, survives=0, through=["1-2"]),
            pair("1-2", "1-3", 0), pair("1-3", "1-2", 9, more=True),
        ]
        after = [
            pair("1-1", "1-2", 1, survives=0, needs=[LINK], through=["1-4"]), pair("1-1", "1-3", 0),
            pair("1-2", "1-3", 4, survives=3), pair("1-3", "1-2", 8, survives=3),
        ]
        lines = [
            "1-1 1-3: lost; paths 1 to 0",
            "1-2 1-3: won; paths 0 to 4; survives unknown to 3+",
            "1-1 1-2: paths 2 to 1; survives 1 to 0; needs 1-1#1~1-2#2; passes 1-4",
            "1-3 1-2: paths 9+ to 8; survives unknown to 3+",
            "4 pairs, 4 differ, 1 lost all paths, 1 won some",
        ]
        self.assertEqual(self.compare(before, after), (1, lines))

    def test_no_report(self) -> None:
        rows: list[list[Any]] = [[7], [{"from": "1-1"}], [pair("1-1", "1-2", 1, needs=[7])]]
        for wrong in rows:
            with self.subTest(wrong):
                self.assertEqual(self.compare(wrong, []), (2, []))

    def test_empty(self) -> None:
        """A report without a pair is none, as one that was cut off before its first line."""
        report = [pair("1-1", "1-2", 1, survives=0)]
        link: list[Any] = [{"link": LINK, "pairs": 1}]
        rows: list[tuple[list[Any], list[Any]]] = [(report, []), ([], report), (link, report)]
        for before, after in rows:
            self.assertEqual(self.compare(before, after), (2, []))

    def test_other_pairs(self) -> None:
        """A pair that one report lacks has neither lost nor won its paths."""
        before = [pair("1-1", "1-2", 1, survives=0), pair("1-1", "1-3", 1, survives=0)]
        lines = ["1-1 1-3: only before", "2 pairs, 1 differ, 0 lost all paths, 0 won some"]
        self.assertEqual(self.compare(before, before[:1]), (1, lines))
