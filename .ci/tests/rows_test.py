"""What rows.py says of a page, cases and tests that were damaged."""
import json
import tempfile
import unittest
from pathlib import Path
from typing import Any

from gate.rows import faults

PAGE = """# Worked examples
| example | where |
|---|---|
| an address | `conformance_values::addresses::it_is_read`, `words: an address` |
| flights | `workers: {1..2} workers`, `.ci/gate/rows.py` |
"""
TEST = "/// It is.\n#[test]\nfn it_is_read(rt: HostRuntime) {\n}\n"
CASES = {"words": ["an address"], "workers": ["1 workers", "2 workers"]}


def said(page: str = PAGE, test: str = TEST,
         cases: dict[str, list[str]] | None = None) -> tuple[list[str], int]:
    """The faults and the number of examples of a repository that has these."""
    with tempfile.TemporaryDirectory() as room:
        top = Path(room)
        source = top / "crates/conformance_values/src"
        for folder in (source, top / "cases", top / ".ci/gate"):
            folder.mkdir(parents=True)
        (top / ".ci/gate/rows.py").touch()
        (top / "cases/ROWS.md").write_text(page, encoding="utf-8")
        (source / "addresses.rt").write_text(test, encoding="utf-8")
        for file, names in (cases or CASES).items():
            text = "".join(json.dumps({"name": name}) + "\n" for name in names)
            (top / f"cases/{file}.jsonl").write_text(text, encoding="utf-8")
        return faults(top)


class Rows(unittest.TestCase):
    def test_all_is_there(self) -> None:
        self.assertEqual(said(), ([], 2))

    def test_what_is_gone(self) -> None:
        test = "conformance_values::addresses::it_is_read"
        rows: tuple[tuple[dict[str, Any], str], ...] = (
            ({"page": PAGE.replace("words: an", "words: no")}, "words: no address"),
            ({"page": PAGE.replace("rows.py", "row.py")}, ".ci/gate/row.py"),
            ({"cases": {**CASES, "workers": ["1 workers"]}}, "workers: 2 workers"),
            ({"test": TEST.replace("it_is_read", "it_was_read")}, test),
            ({"test": TEST.replace("#[test]\n", "")}, test),
        )
        for given, place in rows:
            wrong, _ = said(**given)
            self.assertEqual(len(wrong), 1, wrong)
            self.assertTrue(wrong[0].endswith(f": {place} is not there"), wrong)

    def test_no_place(self) -> None:
        page = PAGE + "| a header | by its look |\n"
        self.assertEqual(said(page), (["a header: no place"], 3))

    def test_one_name_twice(self) -> None:
        wrong, _ = said(cases={**CASES, "words": ["an address", "an address"]})
        self.assertEqual(wrong, ["two cases are named words: an address"])

