"""Holds the lines that the proof of `row_lines` copies to those of examples/row.txt: the texts of
`topology_line`, put together, are the first line, and those of `later_lines` are the others. Each
line of the file has its end, LF, and nothing stands behind the last one.

It prints how many lines are the same; the status is 1 where one differs, or where there is none."""
import json
import re
from collections.abc import Sequence
from pathlib import Path

from gate.words import reader

COPIED = Path("crates/row_lines/specs/Lines.antt")
EXAMPLE = Path("examples/row.txt")
TEXT = re.compile(r'codes ("(?:[^"\\]|\\.)*")')


def texts(name: str, source: str) -> list[str]:
    """The texts in the definition of this name, in their order."""
    definition = re.search(rf"^{name} =\n((?:    .*\n)+)", source, re.M)
    return [json.loads(it) for it in TEXT.findall(definition[1])] if definition else []


def faults(top: Path) -> tuple[list[str], int]:
    """Where the copied lines differ from those of the file, and how many are the same."""
    source = (top / COPIED).read_text(encoding="utf-8")
    copied = ["".join(texts("topology_line", source)), *texts("later_lines", source)]
    *lines, rest = (top / EXAMPLE).read_bytes().decode().split("\n")
    wrong = []
    if len(copied) != len(lines):
        wrong.append(f"{COPIED} has {len(copied)} lines, {EXAMPLE} has {len(lines)}")
    for number, (one, other) in enumerate(zip(copied, lines), 1):
        if one != other:
            wrong.append(f"line {number} is copied as {one!r} and is {other!r}")
    if rest:
        wrong.append(f"the last line of {EXAMPLE} has no end")
    return wrong, sum(one == other for one, other in zip(copied, lines))


def main(words: Sequence[str]) -> int:
    reader(__name__, __doc__).parse_args(words)
    wrong, same = faults(Path("."))
    for it in wrong:
        print(f"row_lines: {it}")
    print(f"row_lines: {same} lines are the same, {len(wrong)} faults")
    return 1 if wrong or not same else 0
