"""Prints the table of all refusals: their numbers and names as the definitions have them, and what
each means as the code says it. This is docs/refusals.md.

The status is 1 too where a number and a name of a refusal that stand beside one another, in a page
or in code of any language, are not one refusal's."""
import re
import sys
from collections.abc import Iterator, Sequence
from pathlib import Path

from gate.fault_tables import TYPES, all_names, alone, numbers_of
from gate.lines import words_by_type
from gate.printing import files, filled, settle
from gate.surface import Surface

FRONT = """# All refusals

A call that refuses returns a value with a number, a name and a sentence. Lines of text have the
number and the name: `no 41 NoInterface` if an event is refused, `topology no 12 DuplicateAs` if a
topology is, and `refused 93 Expired` if a router refuses a packet; after `90 BadHeader` come the
number and the name of the header's own refusal. A number has one name, and means the same
everywhere. Each of these is a clause: the call refuses if and only if its cause holds, and if
several causes hold it names the first in the order that its documentation gives. Two things are in
no clause: when 110, 111 and 121 come, and that memory lasts until a topology or a segment is read.
Where it does not, it may be told in the place of any of 10 to 18 and 30 to 34.

`.ci/gate/refusals.py` prints this document from the crates' definitions and the comments of their
types; the gate checks that it is up to date.
"""

BEHIND = """
## `event_lines`
A line that asks for nothing changes nothing.

Lines: each line after the first.

| number | name | meaning |
|---|---|---|
| {bad_line} | BadLine | The line has none of the forms that [lines.md](lines.md) lists, or a value in it is \
out of its range. |

## `scion_ffi`
A call from another language whose numbers say nothing changes nothing. Its other answers are the
refusals of `scion_topology`, `path_header`, `router_step` and `scion_packet` by their numbers.

Calls: `scion_step`, `scion_step_all`, `scion_whole_packet_step`.

| number | name | meaning |
|---|---|---|
| {bad_call} | BadCall | There is no such kind of link, state of a link or way in, or there are more than \
256 interfaces. |
"""

# Files of pages and of code. Tests of the gate have wrong pairs.
READ = "*.md", "*.rt", "*.h", "*.html", "*.js", "*.mjs", "*.py", "*.rs", ":!.ci/tests/*"

# A number and a name beside one another, as in `94 BadMac`; a name in words of capitals is one too.
PAIR = re.compile(r"(?<![\w.,:#-])(\d+) ([A-Z][a-z]\w*)")
NAMED = re.compile(r"[A-Z][a-z]+[A-Z]\w*[a-z]\w*")

ALIAS = re.compile(r"^pub type (\w+) = OrMemory<(\w+)>;", re.M)
ENUM = r"((?:^///.*\n)+)(?:^#\[.*\n)*^pub enum NAME \{\n((?:.*\n)*?)^\}"
VARIANT = re.compile(r"((?:    ///.*\n)*)((?:    #\[(?:.*\n)*?.*\]\n)*)    (\w+)(?:\(.*\))?,\n")


def comment(lines: str) -> str:
    """The first paragraph of a comment, in one line and without links."""
    text = " ".join(line.strip().removeprefix("///").strip() for line in lines.splitlines())
    text = text.split("  ")[0].replace("`Self::", "`")
    return re.sub(r"\[(`[^`]*`)\](?:\([^)]*\))?", r"\1", text).strip()


def misnamed(text: str, names: dict[int, str]) -> Iterator[str]:
    """Pairs of a number and a name in a text of which one is of a refusal, and not the other's."""
    pairs = ((int(number), name) for number, name in PAIR.findall(text))
    known = {*names.values()}
    for number, name in pairs:
        is_meant = name in known or (number in names and NAMED.fullmatch(name))
        if is_meant and names.get(number) != name:
            yield f"{number} {name}"


def meanings_of(crate: str, type_name: str) -> tuple[str, dict[str, str]]:
    """What the comments of the code say of a type of refusals, and of each of its variants."""
    pattern = re.compile(ENUM.replace("NAME", type_name), re.M)
    texts = [path.read_text() for path in Path("crates", crate, "src").glob("*.rt")]
    found = [it for text in texts for it in pattern.findall(text)]
    if len(found) != 1:
        sys.exit(f"{crate} has {len(found)} types {type_name}")
    meaning, body = found[0]
    return meaning, {name: comment(text) for text, _, name in VARIANT.findall(body)}


def libraries() -> list[Surface]:
    """The surfaces of the crates that are libraries, lowest first."""
    names = re.findall(r"^(\w+)[^:#\n]*:", Path("crates.txt").read_text(), re.M)
    found = [it for it in names if Path("crates", it, "src", "lib.rt").exists()]
    return [Surface(Path(), it) for it in found]


def calls_by_type(surfaces: list[Surface]) -> dict[str, list[str]]:
    """The public calls whose signatures name each type of refusals, also by another name."""
    own = {one[0]: crate for crate, types in TYPES.items() for one in types}
    texts = [it.read_text() for it in Path("crates").glob("*/src/*.rt")]
    aliases = {it[1]: it[2] for text in texts for it in ALIAS.finditer(text)}
    calls: dict[str, list[str]] = {name: [] for name in own}
    for surface in surfaces:
        for call in surface.calls:
            words = re.findall(r"\w+", call.declared.partition("->")[2])
            named = {aliases.get(it, it) for it in words} - {call.owner}
            # Another crate has a type of this name, whose refusals have no numbers.
            if surface.crate != own["RunFault"]:
                named.discard("RunFault")
            for name in own.keys() & named:
                calls[name].append(call.place)
    places = {call.place for surface in surfaces for call in surface.calls}
    for name, passed, _ in (one for types in TYPES.values() for one in types):
        if gone := {*passed.split()} - places:
            sys.exit(f"no library has these calls: {gone}")
        calls[name] += passed.split()
    return calls


def section(crate: str, type_name: str, calls: list[str], lines: str) -> Iterator[str]:
    """The part on one type of refusals, with the calls and the lines that give them."""
    told = ", ".join(f"`{it}`" for it in dict.fromkeys(calls))
    numbers = numbers_of(crate, type_name)
    meaning, variants = meanings_of(crate, type_name)
    yield f"\n## `{crate}`: `{type_name}`\n{filled(comment(meaning))}\n"
    yield filled(f"Calls: {told}." + (f" Lines: {lines}." if lines else "")) + "\n"
    yield "| number | name | meaning |\n|---|---|---|"
    for variant, (number, name) in numbers.items():
        if variant not in variants:
            sys.exit(f"{crate}: {type_name} has no {variant}")
        yield f"| {number} | {name} | {variants[variant]} |"


def document() -> str:
    """The whole text."""
    specs = list(Path("crates").glob("*/specs/*.antt"))
    table = re.compile(r"^abbrev pub code_and_name : ", re.M)
    tables = {it.parts[1] for it in specs if table.search(it.read_text())}
    if tables != {*TYPES}:
        sys.exit(f"crates whose tables of refusals are not listed here: {tables ^ {*TYPES}}")
    all_names()
    calls, words = calls_by_type(libraries()), words_by_type()
    parts: list[str] = []
    for crate, types in TYPES.items():
        for name, _, lines in types:
            own = [] if name == "EventFault" else words.get(name, [])
            parts += section(crate, name, calls[name], lines + ", ".join(f"`{it}`" for it in own))
    others = alone()
    behind = BEHIND.format(bad_line=others["BadLine"], bad_call=others["BadCall"])
    return FRONT + "\n".join(parts) + "\n" + behind


def all_misnamed() -> Iterator[str]:
    """What is told of each wrong pair in a file."""
    names = all_names()
    for file in files(*READ):
        for pair in misnamed(file.read_text(encoding="utf-8"), names):
            yield f"{file}: {pair} is no number and name of a refusal"


def main(words: Sequence[str]) -> int:
    status = settle(__name__, __doc__, words, lambda: {"docs/refusals.md": document()})
    wrong = [*all_misnamed()]
    for it in wrong:
        print(f"refusals: {it}")
    return 1 if wrong else status
