"""Compares the numbers that hosts in other languages use with the tables of the crates.

The tables are the definitions of `specs/`: refusals, outcomes, kinds of links, ways in, and what
happened to an answer. `include/scion.h` and the files of `bindings/` have to name each of these
numbers, and no others; the status is 1 where one differs.

`--write` adds the codes of answers that a file lacks, each behind the one before it,
and puts wrong numbers right. It also prints the refusals of a router as Rust has them, with what
`router_step` says of each, and their row in the table of `bindings/README.md`. What the other codes
mean is written by hand."""
import re
import sys
import textwrap
from collections.abc import Mapping, Sequence
from pathlib import Path

from gate import fault_tables, refusals
from gate.texts import found
from gate.words import reader

# The refusals of the parts of a router; a topology has more, which no call of a host can meet.
OF_PARTS = ("BadField", "DuplicateIf")

# The refusal of what was to be written to a short room. A host's bytes hold a header already, so
# that it is one of packets, whose name in C says so: ROOM_TOO_SMALL is what happened to an answer.
OF_WRITING = "RoomTooSmall"
OF_PACKETS = "PACKET_ROOM_TOO_SMALL"

# A way in that carries a number is called by what it means.
RENAMED = {"LINK": "OVER_LINK"}


def constant(name: str) -> str:
    """The name of a constant: `SOURCE_AS` for `SourceAs`."""
    return re.sub(r"(?<!^)(?=[A-Z])", "_", name).upper()


def definition(crate: str, file: str, word: str) -> str:
    """The equations of a definition."""
    text = Path("crates", crate, "specs", f"{file}.antt").read_text()
    equations = re.search(rf"^(?:abbrev|unfoldable) pub {word} : .*\n((?:.+\n)*)", text, re.M)
    if equations is None:
        sys.exit(f"numbers: {crate} has no definition {word} in {file}")
    return equations[1]


def told(word: str) -> dict[str, int]:
    """The values of numbers that a host gives, by their names."""
    rows = re.findall(r"number == (\d+) then Some \(?(\w+)", definition("scion_ffi", "Parts", word))
    names = {constant(name): int(number) for number, name in rows}
    return {RENAMED.get(name, name): number for name, number in names.items()}


def codes() -> dict[str, int]:
    """All codes of answers."""
    outcomes = definition("scion_ffi", "Answer", "outcome_answer")
    rows = re.findall(r"outcome_answer \(?(\w+).* = answer (\d+) ", outcomes)
    numbers = {constant(name): int(number) for name, number in rows}
    bad_call = definition("scion_ffi", "Answer", "bad_call")
    numbers["BAD_CALL"] = int(found(r"answer (\d+) 0", bad_call)[1])
    parts = fault_tables.numbers_of("scion_topology", "TopologyFault")
    headers = fault_tables.numbers_of("path_header", "HeaderFault")
    router = fault_tables.numbers_of("router_step", "Refusal")
    packets = fault_tables.numbers_of("scion_packet", "PacketFault")
    numbers[OF_PACKETS], _ = packets[OF_WRITING]
    rows = [parts[name] for name in OF_PARTS]
    rows += [*headers.values(), *router.values(), *packets.values()]
    return numbers | {constant(name): number for number, name in rows if name != OF_WRITING}


def statuses() -> dict[str, int]:
    """What happened to an answer in a host's room."""
    equations = definition("scion_ffi_paths", "Room", "IsPut")
    memory = found(r"text_answer (\d+) 0", equations)[1]
    written, small = found(r"then (\d+) else (\d+)\)", equations).groups()
    names = {"WRITTEN": written, "ROOM_TOO_SMALL": small, "OUT_OF_MEMORY": memory}
    return {name: int(number) for name, number in names.items()}


def in_c() -> dict[str, int]:
    """The constants of the header."""
    text = Path("include/scion.h").read_text()
    enums = re.findall(r"^enum \{(.*?)\};", text, re.M | re.S)
    rows = [row for it in enums for row in re.findall(r"\bSCION_(\w+) = (\d+)", it)]
    return {name: int(number) for name, number in rows}


def in_rust() -> dict[str, int]:
    """The constants of the Rust crate."""
    text = Path("bindings/rust/src/raw.rs").read_text()
    rows = re.findall(r"^pub const SCION_(\w+): u\d+ = (\d+);$", text, re.M)
    return {name: int(number) for name, number in rows}


def variants_in_rust() -> set[tuple[str, str]]:
    """The constants of the Rust crate and the variants beside which they stand, each pair once."""
    files = sorted(Path("bindings/rust/src").glob("*.rs"))
    text = "".join(it.read_text() for it in files)
    pairs = re.findall(r"raw::SCION_(\w+) => (?:Ok\()?Self::(\w+)", text)
    behind = r"Self::(\w+)(?:\(\w+\))? => \(?raw::SCION_(\w+)|^    (\w+) = raw::SCION_(\w+),$"
    for variant, name, other, its_name in re.findall(behind, text, re.M):
        pairs.append((name or its_name, variant or other))
    return {*pairs}


def in_python(name: str) -> dict[str, int]:
    """The members of a class of the Python module."""
    text = Path("bindings/python/scion/__init__.py").read_text()
    body = found(rf"^class {name}\(.*\n((?:    .*\n|\n)+)", text, re.M)[1]
    return {it: int(number) for it, number in re.findall(r"^    (\w+) = (\d+)$", body, re.M)}


def in_javascript(name: str, file: str = "scion.mjs") -> dict[str, int]:
    """The members of an object of the JavaScript module, or of its types."""
    text = Path("bindings/js", file).read_text()
    head = rf"^export const {name}(?: = Object.freeze\(|: Readonly<)\{{\n(.*?)^\}}"
    body = found(head, text, re.M | re.S)[1]
    return {it: int(number) for it, number in re.findall(r"^  (\w+): (\d+)[,;]$", body, re.M)}


# The row of a code in each file that lists them.
ROWS = {
    "include/scion.h": "    SCION_{name} = {number},",
    "bindings/rust/src/raw.rs": "pub const SCION_{name}: u16 = {number};",
    "bindings/python/scion/__init__.py": "    {name} = {number}",
    "bindings/js/scion.mjs": "  {name}: {number},",
    "bindings/js/scion.d.mts": "  {name}: {number};",
}


def with_codes(text: str, form: str) -> str:
    """A file with a row for each code: those that it lacks stand behind the code before them."""
    lines = text.split("\n")
    place: int | None = None
    for name, number in sorted(codes().items(), key=lambda row: row[1]):
        row = form.format(name=name, number=number)
        stem = row[: row.rindex(str(number))]
        places = [at for at, line in enumerate(lines) if line.startswith(stem)]
        if places:
            place = places[0]
            lines[place] = re.sub(r"\d+", str(number), lines[place][len(stem) :], count=1)
            lines[place] = stem + lines[place]
        elif place is None:
            sys.exit(f"numbers: no row for {name} to stand behind")
        else:
            place += 1
            lines.insert(place, row)
    return "\n".join(lines)


# The variants of Rust for the refusals of a router.
VARIANTS = "bindings/rust/src/refusal.rs"

# A variant that holds a value: as it is declared, as a pattern, and as it is made of an answer.
HOLDING = {"BadHeader": ("(HeaderFault)", "(_)", "(HeaderFault::from_code(answer.number))")}

# The codes in a table, and their row there.
PAGE = "bindings/README.md"
PAGE_ROW = re.compile(r"^\| \d+ to \d+ \| IndexMismatch,.*\|$", re.M)


def with_rows(text: str, head: str, rows: list[str]) -> str:
    """A file whose block behind this line ends with these rows, from the first of them on. A last
    row for all other numbers stays."""
    start = text.index(f"{head}\n") + len(head) + 1
    last = head[head.rindex("\n") + 1 :]
    indent = " " * (len(last) - len(last.lstrip()))
    end = text.index(f"\n{indent}}}\n", start) + 1
    body = text[start:end]
    others = re.search(r"^ *\w+ => unreachable!.*\n\Z", body, re.M)
    own = body[: body.index(rows[0].partition("\n")[0])]
    return text[:start] + own + "".join(rows) + (others[0] if others else "") + text[end:]


def with_variants(text: str) -> str:
    """The file of Rust with the refusals of a router, and their comments."""
    _, meanings = refusals.meanings_of("router_step", "Refusal")
    declared: list[str] = []
    numbered: list[str] = []
    made: list[str] = []
    for name, meaning in meanings.items():
        held, pattern, value = HOLDING.get(name, ("", "", ""))
        sign = "    /// "
        told = textwrap.fill(meaning, 100, initial_indent=sign, subsequent_indent=sign)
        declared.append(f"{told}\n    {name}{held},\n")
        one = f"raw::SCION_{constant(name)}"
        numbered.append(f"            Self::{name}{pattern} => {one},\n")
        made.append(f"            {one} => Self::{name}{value},\n")
    text = with_rows(text, "\npub enum Refusal {", declared)
    text = with_rows(text, "impl Refusal {\n    /// Its number.\n    pub fn code(self) -> u16 {"
                     "\n        match self {", numbered)
    return with_rows(text, "-> Self {\n        match answer.code {", made)


def with_names(page: str) -> str:
    """The page with the row of the refusals of a router, but for the first of them."""
    _, *rows = refusals.numbers_of("router_step", "Refusal").values()
    names = ", ".join(name for _, name in rows)
    told = f"| {rows[0][0]} to {rows[-1][0]} | {names} | the router refuses the packet |"
    return PAGE_ROW.sub(told, page)


# What is printed into files whose other parts are written by hand.
PRINTED = {VARIANTS: with_variants, PAGE: with_names}


# Where the version of the calls stands.
VERSIONS = {
    "include/scion.h": r'^#define SCION_VERSION "(.*)"$',
    "bindings/c/scion.pc": r"^Version: (.*)$",
    "bindings/c/scion-paths.pc": r"^Version: (.*)$",
    "bindings/python/pyproject.toml": r'^version = "(.*)"$',
    "bindings/python/scion/__init__.py": r'^__version__ = "(.*)"$',
    "bindings/rust/Cargo.toml": r'^version = "(.*)"$',
    "bindings/js/package.json": r'^  "version": "(.*)",$',
    "bindings/js/scion.mjs": r'^export const VERSION = "(.*)";$',
}


# Where the largest number of bytes in a request stands, beside the definition that clauses cite.
MOST = {
    "crates/path_requests/specs/Asked.antt": r"^most_request = (\d+)$",
    "include/scion.h": r"^#define SCION_MAX_REQUEST (\d+)$",
    "bindings/python/scion/__init__.py": r"^MAX_REQUEST = (\d+)$",
    "bindings/rust/src/paths.rs": r"^pub const MAX_REQUEST_LEN: usize = ([\d_]+);$",
}


def is_one(what: str, places: dict[str, str]) -> bool:
    """Whether these patterns find the same text once in each of these files."""
    matches = {path: re.findall(it, Path(path).read_text(), re.M) for path, it in places.items()}
    if len({tuple(text.replace("_", "") for text in it) for it in matches.values()}) == 1:
        if all(len(it) == 1 for it in matches.values()):
            return True
    print(f"numbers: {what} differ: {matches}")
    return False


def check() -> bool:
    """Whether all numbers are those of the tables; the differences are told."""
    kinds, arrivals, answers = told("kind_told"), told("arrival_told"), codes()
    constants = {"DONE": 0, **kinds, **arrivals, **answers, **statuses()}
    pairs: list[tuple[str, Mapping[str, int | str], Mapping[str, int | str]]] = [
        ("include/scion.h", in_c(), constants), ("raw.rs", in_rust(), constants),
    ]
    for name, numbers in (("Kind", kinds), ("Arrival", arrivals), ("Code", answers)):
        pairs.append((f"{name} in Python", in_python(name), numbers))
        pairs.append((f"{name} in JavaScript", in_javascript(name), numbers))
        pairs.append((f"{name} in TypeScript", in_javascript(name, "scion.d.mts"), numbers))
    variants = {name: name for name in [*kinds, *arrivals, *answers]}
    variants[OF_PACKETS] = constant(OF_WRITING)
    in_file = {name: constant(variant) for name, variant in variants_in_rust()}
    pairs.append(("the variants of Rust", in_file, variants))
    wrong = 0
    for what, given, wanted in pairs:
        for name in sorted(given.keys() | wanted.keys()):
            if given.get(name) != wanted.get(name):
                wrong += 1
                print(f"numbers: {what}: {name} is {given.get(name)}, not {wanted.get(name)}")
    print(f"numbers: {sum(len(given) for _, given, _ in pairs)} compared, {wrong} wrong")
    for file, printed in PRINTED.items():
        text = Path(file).read_text()
        if printed(text) != text:
            wrong += 1
            print(f"numbers: {file} has not what `python3 .ci/gate host_numbers --write` prints")
    is_same = is_one("versions", VERSIONS)
    return is_one("lengths of requests", MOST) and is_same and not wrong


def main(words: Sequence[str]) -> int:
    words_of = reader(__name__, __doc__)
    words_of.add_argument("--write", action="store_true", help="write what the tables have")
    if words_of.parse_args(words).write:
        for file in ROWS:
            Path(file).write_text(with_codes(Path(file).read_text(), ROWS[file]))
        for file, printed in PRINTED.items():
            Path(file).write_text(printed(Path(file).read_text()))
    return 0 if check() else 1
