"""What formatted.py says of a crate in which a line is not formatted."""
import shutil
import tempfile
import unittest
from pathlib import Path

from gate import TOP
from gate.formatted import faults

CRATE, FILE = "separators", "src/lib.rt"


def said(*changes: tuple[str, str]) -> tuple[list[str], int]:
    """The faults of a repository of one crate, in a file of which these texts were exchanged."""
    with tempfile.TemporaryDirectory() as room:
        top, place = Path(room), Path(room) / "crates" / CRATE
        shutil.copy(TOP / "crates.txt", top)
        shutil.copytree(TOP / "crates" / CRATE, place, ignore=shutil.ignore_patterns("out"))
        text = (place / FILE).read_text(encoding="utf-8")
        for old, new in changes:
            if old not in text:
                raise LookupError(f"{FILE} has no {old!r}")
            text = text.replace(old, new)
        (place / FILE).write_text(text, encoding="utf-8")
        return faults(top)


class Formatted(unittest.TestCase):
    def test_all_is_formatted(self) -> None:
        self.assertEqual(said(), ([], 1))

    def test_what_is_not(self) -> None:
        wrong, _ = said((") -> ", ")  ->  "))
        self.assertEqual(wrong, [f"{CRATE}/{FILE} is not as rt fmt has it"])

    def test_what_cannot_be_read(self) -> None:
        wrong, _ = said(("}\n", "\n"))
        self.assertEqual(len(wrong), 1)
        self.assertIn(CRATE, wrong[0])
