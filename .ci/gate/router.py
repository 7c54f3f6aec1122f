"""Holds the table of docs/router.md to the definitions of a router's step: its rows are the steps
that the comments of these number, and each row has the refusals of its step, and behind them
those of the steps that it makes again. The last line has the numbers of rows and of faults; the
status is 1 where there is a fault."""
import re
from collections.abc import Iterator, Sequence
from pathlib import Path

from gate.fault_tables import numbers_of
from gate.words import reader

PAGE, STEPS = Path("docs/router.md"), Path("crates/router_step/specs/Step.antt")

# The first step, which the definition of a packet's step has.
FIRST = "BadHeader"

ROW = re.compile(r"^\| (\d+) \|([^|]*)\|([^|]*)\|[^|]*\|$", re.M)
AGAIN = re.compile(r"checks? ((?:\d+(?:, | and )?)+) (?:are|is) made again")


def comments(text: str) -> Iterator[tuple[int, str]]:
    """The steps that the comments number, in their order, each with the refusal beside it, which
    is empty if there is none."""
    for part in re.split(r"\n\n+", text)[1:]:
        head, *lines = re.split(r"\n(?!--)", part)
        own = re.match(r"-- step (\d+):", head)
        if own:
            refusals = re.findall(r"\brefusal\.(\w+)", part)
            yield int(own[1]), refusals[0] if refusals else ""
            continue
        refusal = ""
        for line in lines:
            refusal = (re.findall(r"\brefusal\.(\w+)", line) or [refusal])[-1]
            if number := re.search(r"  -- (\d+)$", line):
                yield int(number[1]), refusal
                refusal = ""


def steps() -> dict[int, str]:
    """The refusal of each step, by its number."""
    found = {1: FIRST}
    for number, refusal in comments(STEPS.read_text(encoding="utf-8")):
        found[number] = found.get(number) or refusal
    return dict(sorted(found.items()))


def faults(page: str) -> tuple[list[str], int]:
    """What is wrong with the rows of a page, and how many it has."""
    wanted, numbers, wrong = steps(), numbers_of("router_step", "Refusal"), []
    rows = [(int(number), text, given) for number, text, given in ROW.findall(page)]
    if [number for number, *_ in rows] != [*wanted]:
        wrong.append(f"steps {[number for number, *_ in rows]}, not {[*wanted]}")
    for number, text, given in rows:
        again = AGAIN.search(text)
        made = [number, *map(int, re.findall(r"\d+", again[1] if again else ""))]
        codes = [numbers[it][0] for it in (wanted.get(step) for step in made) if it]
        if [int(it) for it in re.findall(r"\d+", given)] != codes:
            wrong.append(f"step {number} has the refusals {given.strip()!r}, not {codes}")
    return wrong, len(rows)


def main(words: Sequence[str]) -> int:
    reader(__name__, __doc__).parse_args(words)
    wrong, count = faults(PAGE.read_text(encoding="utf-8"))
    for it in wrong:
        print(f"router: {PAGE}: {it}")
    print(f"router: {count} rows, {len(wrong)} wrong")
    return 1 if wrong or not count else 0
