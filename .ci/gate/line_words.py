"""Holds the words of docs/lines.md to the definitions: the members of each event, of a topology and
of a policy, and the words of replies. The last line has the numbers of words and of wrong ones;
the status is 1 where one is wrong."""
import re
from collections.abc import Iterator, Sequence
from pathlib import Path

from gate.lines import PAGE, readings
from gate.specs import Specs
from gate.words import reader

SPAN = re.compile(r"`([^`]+)`")
CODES = re.compile(r'codes "((?:[^"\\]|\\.)*)"')

# The heads of tables whose first column has forms of replies, and the crates that define these.
REPLIES = "reply to `turn`", "place", "line"
OF_REPLIES = "event_lines", "work_lines", "router_step"

# The crates that define members of lines, and heads of tables whose first column has some.
OF_MEMBERS = "event_lines", "scion_topology", "json_fields"
MEMBERS = "member of an AS", "member of a link"


def texts_in(*crates: str) -> set[str]:
    """The texts that definitions of these crates spell out, without blanks at their ends."""
    files = (it for crate in crates for it in Path("crates", crate, "specs").rglob("*.antt"))
    found = {text for it in files for text in CODES.findall(it.read_text(encoding="utf-8"))}
    return {text.strip() for text in found}


def tables(page: str) -> Iterator[tuple[str, list[list[str]]]]:
    """The tables of a page: the head of the first column, and the rows."""
    for head, body in re.findall(r"^\| ([^|]+) \|.*\n\|[-|]+\n((?:\|.*\n)+)", page, re.M):
        # A sign of a sequence stands within a cell.
        rows = (line.replace("\\|", "").strip("|").split("|") for line in body.splitlines())
        yield head, [[cell.strip() for cell in row] for row in rows]


def literals(form: str) -> Iterator[str]:
    """The words of a form of replies: those between its placeholders and numbers."""
    runs = re.split(r"[^ ;]*[A-Z0-9][^ ;]*", form)
    yield from (word for run in runs for word in [run.replace(";", "").strip()] if word)


def judged(page: str) -> Iterator[tuple[str, bool]]:
    """The words of a page, and whether each is one of the definitions."""
    replies, members = texts_in(*OF_REPLIES), texts_in(*OF_MEMBERS)
    read = {word: {*CODES.findall(body)} for word, body in readings(Specs(Path()))}
    for head, rows in tables(page):
        for row in rows:
            if head == "`do`" and len(row) == 4:
                for word in SPAN.findall(row[0]):
                    named = {*SPAN.findall(row[1])}
                    yield f"the members of {word}: {sorted(named)}", read.get(word) == named
            if head in REPLIES or (head == "`do`" and len(row) == 4):
                forms = SPAN.findall(row[0] if head in REPLIES else row[-1])
                for word in (it for form in forms for it in literals(form)):
                    yield f"the reply {word!r}", word in replies
            if head in MEMBERS:
                for word in SPAN.findall(row[0]):
                    yield f"the member {word!r}", word in members
    for span in SPAN.findall(page):
        for word in re.findall(r'"(\w+)"', span):
            yield f"the member {word!r} in `{span}`", word in members


def main(words: Sequence[str]) -> int:
    reader(__name__, __doc__).parse_args(words)
    told = [*judged(PAGE.read_text(encoding="utf-8"))]
    wrong = [what for what, is_right in told if not is_right]
    for it in wrong:
        print(f"line_words: {PAGE}: {it} is not of the definitions")
    print(f"line_words: {len(told)} words, {len(wrong)} wrong")
    return 1 if wrong or not told else 0
