"""Writes four tables of docs/lines.md: the words of lines with their members, what happens and how
it is answered, by the table of lines in `event_lines` and its comments; the values of these
members; the members of an AS, by their comments there; and the refusals of each event in their
order, by the definition of a step of `network_core` and those that it cites. It also writes the
words of lines with their members into the help of `scionet run`."""
import itertools
import re
import sys
from collections.abc import Iterator, Sequence
from pathlib import Path
from typing import Any

from gate.fault_tables import TYPES, numbers_of
from gate.printing import settle
from gate.specs import Definition, Specs

PAGE = Path("docs/lines.md")
MEMBERS = Path("crates/event_lines/src/members.rt")
LINES = Path("crates/event_lines/src/line.rt")
HELP = Path("crates/commands/src/words.rt")
FAULTS = Path("crates/network_core/src/fault.rt")
EVENT_FAULT = "EventFault"

# What the table of lines does not say of a word's members.
BESIDE = {"ask": ", and a policy (below)"}

# The values of members by their forms.
VALUES = {
    "Address": "addresses",
    "Bytes": "bytes",
    "Limit": "1 to 64; any other up to 4,294,967,295 is refused (137 BadLimit)",
}

# The columns of words in the help, and the blanks between them.
COLUMNS, BETWEEN = 3, 2

# A definition that tells two cases, and the refusal of the second, which comes before the first.
FIRST_OF_CASES = {"Sends": "faults.Path"}

# A type of refusals, and the variant if it is known.
Refused = tuple[str, str | None]

CRATES = {one[0]: crate for crate, types in TYPES.items() for one in types}


def comment_of(lines: str) -> str:
    """The text of a comment's lines."""
    return " ".join(re.findall(r"// (.*)", lines))


def members() -> Iterator[str]:
    """The rows of an AS's members: each name with the comment above it."""
    table = re.search(r"static AS: \[Member; (\d+)\] = \[\n(.*?)\n\];", MEMBERS.read_text(), re.S)
    if table is None:
        sys.exit(f"{MEMBERS} has no table of an AS's members")
    found = re.findall(r'((?:    // .*\n)+)    Member\("(\w+)"', table[2])
    if len(found) != int(table[1]):
        sys.exit(f"{MEMBERS} has a member of an AS without a comment")
    for comment, name in found:
        yield f"| `{name}` | {comment_of(comment)} |"


# A line of the table: its word, its members each with its form, and what is said of it.
Row = tuple[str, list[tuple[str, str]], str]


def table_of_lines() -> Iterator[Row]:
    """The table of lines, in its order."""
    text = LINES.read_text(encoding="utf-8")
    statics = re.findall(r"^static (\w+): \[Member; \d+\] = (.*?);$", text, re.M | re.S)
    lists = {name: re.findall(r'Member\("(\w+)", (?:MemberForm::)?(\w+)', body)
             for name, body in statics}
    arms = re.findall(r'((?: +// .*\n)*) +"(\w+)" => Some\(&(\w+)\)', text)
    for comment, word, name in arms:
        said = comment_of(comment)
        if said.count("|") != 1:
            sys.exit(f"{LINES} says above {word!r} not what happens | how it is answered")
        yield word, lists[name], said
    if len(arms) != len(re.findall(r'^ +"\w+",$', text, re.M)):
        sys.exit(f"{LINES} has other words than arms of `members_of`")


def words_of_lines() -> Iterator[str]:
    """The rows of words: the other members, what happens, and how it is answered."""
    for word, listed, said in table_of_lines():
        named = ", ".join(f"`{name}`" for name, _ in listed) + BESIDE.get(word, "")
        yield f"| `{word}` | {named} | {said} |".replace("|  |", "| |")


def values() -> Iterator[str]:
    """The rows of members by their values: first numbers, then texts."""
    text = MEMBERS.read_text(encoding="utf-8")
    found = re.findall(r"const (\w+): MemberForm = MemberForm::Whole\((\d+), ([\d_]+)\);", text)
    ranges = {name: f"{low} to {most.replace('_', ',')}" for name, low, most in found[::-1]}
    named: dict[str, list[str]] = {told: [] for told in [*ranges.values(), *VALUES.values()]}
    for _, listed, _ in table_of_lines():
        for name, form in listed:
            names = named[{**ranges, **VALUES}[form]]
            if f"`{name}`" not in names:
                names.append(f"`{name}`")
    for told, names in named.items():
        yield f"| {', '.join(names)} | {told} |"


def help_of_words() -> str:
    """The words of lines with their other members, in columns."""
    table = table_of_lines()
    cells = [" ".join([word, *(name for name, _ in listed)]) for word, listed, _ in table]
    rows = [cells[at : at + COLUMNS] for at in range(0, len(cells), COLUMNS)]
    columns = itertools.zip_longest(*rows, fillvalue="")
    widths = [max(map(len, column)) + BETWEEN for column in columns]
    lines = ("".join(f"{cell:{width}}" for cell, width in zip(row, widths)) for row in rows)
    return "".join(f"  {line.rstrip()}\n" for line in lines)


def equations_of(one: Definition, *patterns: str | None) -> Definition:
    """The definition without those equations that are for another case than these."""
    kept, is_own = [one.lines[0]], True
    for line in one.lines[1:]:
        if line.startswith(f"{one.key[2]} "):
            is_own = any(re.search(rf"[ (]{it}\b", line.partition("=")[0]) for it in patterns)
        if is_own:
            kept.append(line)
    own = Definition(one.key, one.names)
    own.lines = kept
    return own


class Refusals:
    """What the definition of a step, and those that it cites, refuse."""

    def __init__(self) -> None:
        self.specs = Specs(Path())
        self.passed = dict(re.findall(r"^    (\w+)\((\w+)\),$", FAULTS.read_text(), re.M))
        types = [EVENT_FAULT, *self.passed.values()]
        self.numbers = {it: numbers_of(CRATES[it], it) for it in types}

    def words_of(self, one: Definition) -> list[str]:
        """The words of a definition in the order in which they refuse: what stands in an argument
        of `Step` does so before that to which it is given."""
        words, first = self.specs.words(one), FIRST_OF_CASES.get(one.key[2])
        if one.key[2] == "Step":
            return words[::-1]
        return sorted(words, key=lambda it: it != first)

    def below(self, one: Definition, fault: str) -> str | None:
        """The type of the refusals of a definition that another with this type passes on."""
        if one.key[:2] == ("network_core", "Step"):
            return EVENT_FAULT
        found = re.search(r"Result .* (\w+)$", one.lines[0])
        wanted = self.passed.values() if fault == EVENT_FAULT else [fault]
        return found[1] if found and found[1] in wanted else None

    def of(self, one: Definition, fault: str, route: str | None) -> Iterator[Refused]:
        """The refusals of a definition in their order: the type, and the variant if it is known."""
        for word in self.words_of(equations_of(one, route) if one.key[2] == "way_by" else one):
            if made := self.specs.constructor(one, word):
                if made[0] == fault:
                    is_passed = fault == EVENT_FAULT and made[1] in self.passed
                    yield (self.passed[made[1]], None) if is_passed else made
                continue
            it = self.specs.meaning(one.names, word)
            if it is not None and it.key != one.key:
                if below := self.below(it, fault):
                    yield from self.of(it, below, route)

    def passed_by(self, event: str, route: str | None) -> list[Refused]:
        """The refusals of an event in their order."""
        step = equations_of(self.specs.definition("network_core/Step.Step"), event)
        return [*self.of(step, EVENT_FAULT, route)]

    def of_event(self, event: str, route: str | None) -> str:
        """The same as text, with a refusal's number and name, or a type of which all may come."""
        found = self.passed_by(event, route)
        told: list[str] = []
        for kind, variant in found:
            if variant:
                told.append("{} {}".format(*self.numbers[kind][variant]))
            elif not any(it[0] == kind and it[1] for it in found):
                told.append(f"those of [`{kind}`](refusals.md#{CRATES[kind]}-{kind.lower()})")
        return ", ".join(it for it, _ in itertools.groupby(told))


def readings(specs: Specs, name: str = "lines") -> Iterator[tuple[str, str]]:
    """The words of lines, each with what the table of lines says of its members and its value."""
    text = specs.definition(f"event_lines/Line.{name}").said.partition(f"\n{name} =")[2]
    for part in re.split(r"\b(?:line|word =)(?= \(?codes)|(?=\b\w+_lines?\b)", text)[1:]:
        if cited := re.match(r"\w+_lines?\b", part):
            yield from readings(specs, cited[0])
        elif word := re.match(r' \(?codes "(\w+)"', part):
            yield word[1], part[word.end():]


def events(specs: Specs) -> list[tuple[tuple[str, str | None], str]]:
    """The words of lines by the event and the route that they mean, in the order of events."""
    words: dict[tuple[str, str | None], str] = {}
    for word, body in readings(specs):
        if made := re.search(r"Happens \(?(\w+)(?: \((\w+))?", body):
            words[made[1], made[2]] = word
    order = specs.definition("network_core/Event.EventValue").variants
    return sorted(words.items(), key=lambda it: order.index(it[0][0]))


def words_by_type() -> dict[str, list[str]]:
    """The words of the events that are refused with faults of each type."""
    found = Refusals()
    words: dict[str, list[str]] = {}
    for (event, route), word in events(found.specs):
        for kind in {it for it, _ in found.passed_by(event, route)}:
            words.setdefault(kind, []).append(word)
    return words


def refusals() -> Iterator[str]:
    """The rows of events' refusals; events that have the same share a row."""
    found = Refusals()
    rows: dict[str, list[str]] = {}
    for (event, route), word in events(found.specs):
        if told := found.of_event(event, route):
            rows.setdefault(told, []).append(f"`{word}`")
    for told, words in rows.items():
        yield f"| {', '.join(words)} | {told} |"


def written(text: str) -> str:
    """The page with its tables."""
    tables = {
        "| member of an AS | value |": members(),
        "| `do` | other members | what happens | reply |": words_of_lines(),
        "| members | value |": values(),
        "| `do` | refusals |": refusals(),
    }
    for head, rows in tables.items():
        table = re.compile(rf"(?<={re.escape(head)}\n)(\|[-|]+\n)(?:\|.*\n)+")
        if not table.search(text):
            sys.exit(f"{PAGE} has no table with the head {head}")
        text = with_rows(text, table, "".join(f"{it}\n" for it in rows))
    return text


def with_rows(text: str, table: re.Pattern[str], rows: str) -> str:
    """The page with these rows below the head and the rule of a table."""
    return table.sub(lambda found: found[1] + rows, text)


def helped(text: str) -> str:
    """The help with the words of lines."""
    block = re.compile(r"(?<=these are the words with the other members:\n)(?:  .*\n)+")
    if not block.search(text):
        sys.exit(f"{HELP} has no words of lines")
    return block.sub(lambda _: help_of_words(), text)


def main(words: Sequence[str]) -> int:
    made = lambda: {
        str(PAGE): written(PAGE.read_text(encoding="utf-8")),
        str(HELP): helped(HELP.read_text(encoding="utf-8")),
    }
    return settle(__name__, __doc__, words, made)
