"""Holds figures of the pages to what they count: numbers of cases, works, networks and limits; the
ratios and the bounds of docs/speed.md; the rows and the sums of docs/gate.md; and how long README
and the pages of docs may be. What was measured is not measured again. The last line has the numbers
of figures and of wrong ones; the status is 1 where one is wrong."""
import re
from collections.abc import Callable, Iterator, Sequence
from functools import partial
from pathlib import Path

from gate import beaconing, cases, theorem
from gate.words import reader
from gate.works import WORKS

NUMBER_WORDS = {
    "five": 5, "eight": 8, "nine": 9, "ten": 10, "thirteen": 13, "sixty": 60, "seventy": 70,
    "eighty": 80,
}

# How far a rounded figure, as 'some 120', may be from what is there.
NEARLY = 0.1

# The most words of README.md, and the most bytes of all pages of docs/.
MOST_WORDS, MOST_BYTES = 1_200, 250 * 1024

# A figure, as 1,308 million or 0.0085.
FIGURE = re.compile(r"^(\d[\d,]*(?:\.\d+)?)( million)?\*?$")


def text_of(path: str) -> str:
    return Path(path).read_text(encoding="utf-8")


def limit(crate: str, name: str) -> int:
    """The value of a constant of a crate."""
    pattern = re.compile(rf"^pub const {name}: \w+ = ([\d_]+);", re.M)
    texts = (it.read_text(encoding="utf-8") for it in Path("crates", crate, "src").glob("*.rt"))
    [value] = [found for text in texts for found in pattern.findall(text)]
    return int(value)


def first_line(path: str, name: str) -> int:
    """The line of a file in which a function begins, with its attributes."""
    lines = text_of(path).splitlines()
    head = re.compile(rf"(?:pub(?:\(crate\))? )?fn {name}\b")
    at = next(at for at, line in enumerate(lines) if head.match(line))
    while lines[at - 1].startswith("#["):
        at -= 1
    return at + 1


def rows_of(path: str) -> int:
    return len(text_of(path).splitlines())


def runs() -> int:
    return sum(1 for _, case in cases.cases() for _ in cases.runs(case))


def lines_of(crate: str) -> int:
    """The lines of a crate's code."""
    return sum(map(rows_of, map(str, Path("crates", crate, "src").glob("*.rt"))))


# The crates of which docs/DECISIONS.md says how large they are.
LARGE = ("combinator", "policy_expr", "line_faults", "scion_topology", "network_core")

# Rounded figures: the page, a pattern with the figure, and what it counts.
ROUNDED: tuple[tuple[str, str, Callable[[], int]], ...] = (
    ("docs/gate.md", r"some ([\d,]+) packets in random networks",
     lambda: theorem.NETWORKS * theorem.PACKETS),
    ("docs/gate.md", r"some (\d+) faulty inputs", lambda: rows_of("cases/explain/faults.jsonl")),
    ("docs/gate.md", r"some (\w+) kinds of input", lambda: len(WORKS)),
    ("crates/line_faults/README.md", r"some (\d+) faulty\s",
     lambda: rows_of("cases/explain/faults.jsonl")),
    ("docs/gate.md", r"Some ([\d,]+) cases", lambda: len([*cases.cases()])),
    *(("docs/DECISIONS.md", rf"`{it}`(?: has about)? (\d,\d\d\d),\s", partial(lines_of, it))
      for it in LARGE),
    ("docs/gate.md", r"cases stand for ([\d,]+) runs", runs),
)

# Exact figures.
EXACT: tuple[tuple[str, str, Callable[[], int]], ...] = (
    ("README.md", r"\[(\w+) steps\]\(docs/router\.md\)",
     lambda: len(re.findall(r"^\| \d+ \|", text_of("docs/router.md").partition("\n## ")[0], re.M))),
    ("docs/gate.md", r"the (\d+) topologies of", lambda: beaconing.TOPOLOGIES),
    ("crates/path_report/README.md", r"the first (\w+) of the\s+links",
     lambda: limit("path_report", "MAX_RANKED_LINKS")),
    ("docs/check-it.md", r"tries the (\w+) edits that",
     lambda: len([*Path("crates/hop_mac/must-fail").glob("*.edit")])),
    ("docs/check-it.md", r"src/hop\.rt:(\d+):1",
     lambda: first_line("crates/hop_mac/src/hop.rt", "hop_mac")),
    ("docs/lines.md", r"more than ([\d,]+); or there", lambda: limit("scion_topology", "MAX_ASES")),
    ("docs/lines.md", r"more than ([\d,]+) links", lambda: limit("scion_topology", "MAX_LINKS")),
    ("docs/lines.md", r"at most ([\d,]+) bytes", lambda: limit("streams", "MAX_INPUT_LEN")),
    ("docs/lines.md", r"at most ([\d,]+) entries", lambda: limit("policy_expr", "MAX_ACL_ENTRIES")),
    ("docs/lines.md", r"a list of 1 to ([\d,]+)\s", lambda: limit("policy_expr", "MAX_OPTIONS")),
    ("docs/lines.md", r"at most ([\d,]+) open", lambda: limit("policy_expr", "MAX_NESTING")),
    ("docs/lines.md", r"workers, 1 to ([\d,]+),", lambda: limit("router_workers", "MAX_WORKERS")),
    ("docs/lines.md", r"has ([\d,]+) segments of this kind",
     lambda: limit("path_server", "MAX_ALIKE")),
)


def number(text: str) -> int:
    return NUMBER_WORDS[text] if text in NUMBER_WORDS else int(text.replace(",", ""))


def counted() -> Iterator[tuple[str, str]]:
    """The figures that count something: each with what is wrong, or an empty text."""
    for rows, is_rounded in ((ROUNDED, True), (EXACT, False)):
        for page, pattern, count in rows:
            found = re.findall(pattern, text_of(page))
            wanted, what = count(), f"{page}: {pattern!r}"
            if len(found) != 1:
                yield what, f"stands {len(found)} times"
            elif abs(number(found[0]) - wanted) > (wanted * NEARLY if is_rounded else 0):
                yield what, f"is {found[0]}, and there are {wanted:,}"
            else:
                yield what, ""


def bounds(text: str) -> tuple[float, float] | None:
    """The least and the greatest number that a figure may stand for, as it was rounded."""
    found = FIGURE.match(text.strip())
    if found is None:
        return None
    digits, scale = found[1].replace(",", ""), 1e6 if found[2] else 1.0
    decimals = digits.partition(".")[2]
    half = 0.5 * 10.0 ** -len(decimals)
    return (float(digits) - half) * scale, (float(digits) + half) * scale


def is_ratio(one: str, other: str, ratio: str) -> bool:
    """Whether the third figure may be the ratio of the others, as they were rounded."""
    a, b, c = bounds(one), bounds(other), bounds(ratio)
    return not (a and b and c) or (a[0] / b[1] <= c[1] and c[0] <= a[1] / b[0])


def ratios(text: str) -> Iterator[tuple[str, str]]:
    """The ratios of tables that have a column or a row of them."""
    for table in re.findall(r"(?:^\|.*\n)+", text, re.M):
        rows = [line.strip("|\n").split("|") for line in table.split("\n") if line]
        cells = [[it.strip() for it in row] for row in rows]
        for before, row in zip(cells, cells[1:]):
            what, fault = f"docs/speed.md: {' | '.join(row)}", "is no ratio of what is beside it"
            if cells[0][-1] == "ratio":
                yield what, "" if is_ratio(*row[-3:]) else fault
            if row[0] == "ratio":
                pairs = zip(before[2:], row[2:])
                yield what, "" if all(is_ratio(before[1], *it) for it in pairs) else fault


def works() -> Iterator[tuple[str, str]]:
    """The rows of how cost grows: each work with its size and within its bounds."""
    table = text_of("docs/speed.md").partition("| input | size |")[2].split("\n\n")[0]
    rows = [line.strip("| ").split(" | ") for line in table.splitlines()[2:]]
    found = {row[0]: row[1:5] for row in rows}
    for gone in found.keys() - {it.name for it in WORKS}:
        yield f"docs/speed.md: {gone}", "is no work"
    for it in WORKS:
        what = f"docs/speed.md: {it.name}"
        if it.name not in found:
            yield what, "is missing"
            continue
        size, seconds, grows, megabytes = found[it.name]
        is_within = (number(size) == it.sizes[-1] and float(seconds) <= it.bound.seconds
                     and (grows == "not measured" or float(grows) <= it.bound.exponent)
                     and float(megabytes) <= it.bound.megabytes)
        yield what, "" if is_within else f"has {found[it.name]}, and {it.sizes[-1]:,} {it.bound}"


def costs() -> Iterator[tuple[str, str]]:
    """The rows of what the gate costs: one for each crate, and the sums of their columns."""
    table = text_of("docs/gate.md").partition("| crate | library |")[2].split("\n\n")[0]
    rows = [line.strip("| ").split(" | ") for line in table.splitlines()[2:]]
    names = re.findall(r"^(\w+)[^:#\n]*:", text_of("crates.txt"), re.M)
    listed = [row[0].strip("`") for row in rows[:-1]]
    same = sorted(listed) == sorted(names)
    yield "docs/gate.md: crates", "" if same else f"differ by {({*listed} ^ {*names})}"
    for column, cells in enumerate(zip(*(row[1:] for row in rows)), 1):
        *parts, totals = (cell.split(": ") for cell in cells)
        for place, total in enumerate(map(float, totals)):
            found = [it[place] for it in parts if len(it) > place and bounds(it[place])]
            terms = [float(it.strip("*")) for it in found]
            slack = sum(0.05 for it in found if "." in it)
            is_sum = abs(sum(terms) - total) <= slack + 0.5
            what = f"docs/gate.md: column {column}"
            yield what, "" if is_sum else f"is {totals[place]}, not {sum(terms):.1f}"


def sizes() -> Iterator[tuple[str, str]]:
    """What a reader has before them: the words of README, and the bytes of the pages of docs."""
    count = len(text_of("README.md").split())
    yield "README.md: words", "" if count <= MOST_WORDS else f"are {count:,}, above {MOST_WORDS:,}"
    size = sum(it.stat().st_size for it in Path("docs").glob("*.md"))
    fault = "" if size <= MOST_BYTES else f"are {size:,}, above {MOST_BYTES:,}"
    yield "docs: bytes of pages", fault


def main(words: Sequence[str]) -> int:
    reader(__name__, __doc__).parse_args(words)
    told = [*counted(), *ratios(text_of("docs/speed.md")), *works(), *costs(), *sizes()]
    wrong = [f"{what}: {fault}" for what, fault in told if fault]
    for it in wrong:
        print(f"figures: {it}")
    print(f"figures: {len(told)} figures, {len(wrong)} wrong")
    return 1 if wrong or not told else 0
