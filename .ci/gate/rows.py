"""Holds `cases/ROWS.md` to what is there: each case and each test that it names for a worked
example.

A place is a piece of code in the second column of a table: a case as `networks: its name`, a test
as `conformance_values::segments::its_name`, or a script of the gate by its path. `{1..8}` is each
of these numbers. The last line has the numbers of examples and of faults; the status is 1 where
there is a fault, or where there is no example.
"""
import json
import re
from collections.abc import Iterator, Sequence
from pathlib import Path

from gate.words import reader

PLACE = re.compile(r"`([^`]+)`")
RANGE = re.compile(r"\{(\d+)\.\.(\d+)\}")
TEST = re.compile(r"#\[test\]\s+fn (\w+)\(")


def table(page: str) -> Iterator[tuple[str, list[str]]]:
    """The examples of the page: what each is, and its places as they are written."""
    for line in page.splitlines():
        cells = [cell.strip() for cell in line.strip("|").split("|")]
        is_row = line.startswith("| ") and len(cells) == 2
        if is_row and cells[1] != "where" and set(cells[0]) != {"-"}:
            yield cells[0], PLACE.findall(cells[1])


def spread(place: str) -> list[str]:
    """The places that one with a range of numbers stands for."""
    found = RANGE.search(place)
    if not found:
        return [place]
    numbers = range(int(found[1]), int(found[2]) + 1)
    return [place[: found.start()] + str(it) + place[found.end() :] for it in numbers]


def names(top: Path) -> Iterator[str]:
    """The names of the cases in their order, each behind the name of its file."""
    for file in sorted((top / "cases").glob("*.jsonl")):
        for line in file.read_text(encoding="utf-8").splitlines():
            yield f"{file.stem}: {json.loads(line)['name']}"


def tests(top: Path) -> Iterator[str]:
    """The tests, each behind its crate and its module."""
    for file in (top / "crates").glob("*/src/*.rt"):
        for name in TEST.findall(file.read_text(encoding="utf-8")):
            yield f"{file.parts[-3]}::{file.stem}::{name}"


def faults(top: Path) -> tuple[list[str], int]:
    """What is wrong with the page and with the names of cases, and how many examples it has."""
    cases = [*names(top)]
    known = {*cases, *tests(top)}
    scripts = {str(it.relative_to(top)) for it in (top / ".ci/gate").glob("*.py")}
    wrong = [f"two cases are named {it}" for it in sorted({*cases}) if cases.count(it) > 1]
    examples = [*table((top / "cases/ROWS.md").read_text(encoding="utf-8"))]
    for example, places in examples:
        if not places:
            wrong.append(f"{example}: no place")
        for place in (it for written in places for it in spread(written)):
            if place not in known | scripts:
                wrong.append(f"{example}: {place} is not there")
    return wrong, len(examples)


def main(words: Sequence[str]) -> int:
    reader(__name__, __doc__).parse_args(words)
    wrong, count = faults(Path("."))
    for it in wrong:
        print(f"rows: {it}")
    print(f"rows: {count} examples, {len(wrong)} faults")
    return 1 if wrong or not count else 0

