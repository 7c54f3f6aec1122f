"""Prints what each crate offers to those above it: its types, its calls with the names of their
clauses and the definitions that these cite, and its limits, each with the first sentence of its
comment. `python3 .ci/gate pages` makes this page."""
import math
import re
import sys
from collections.abc import Iterator
from pathlib import Path

from gate.printing import filled
from gate.specs import Specs
from gate.surface import LAWS, Clause, Item, Surface

FRONT = """# What a crate offers to the crates above it

For each library: its types, its calls and its laws, each with the first sentence of its comment.
The rest of the comment, with the meaning of each refusal and what a call costs, stands above the
item in `crates/NAME/src`. A crate above uses the public clauses of a crate, the definitions that
they cite ([definitions.md](definitions.md)) and its laws. A law is the contract of a function that
does nothing; a proof uses it by citing the lemma that stands behind it here. Proofs may also cite
`refusal::proofs::Steps`, `json_fields::proofs`, `separators::proofs`, `isd_as`'s lemmas on texts
(`Spelled`, `Canonical`, `Digits`) and `event_lines`'s on lines that were read (`Lines`, `Heard`,
`Ran`, `Running`, `Telling`, `Writing`), as those of a library.

Behind 'Clauses' stand the names of what the call promises, and behind 'Cites' the definitions that
say it. A clause without a name counts as 'one', and is left out where it is the only one and cites
something. 'Asks for' names what a caller has to show. A call with none of these promises only that
it is safe and ends. Clauses and the sentences of refusals have the numbers of the limits
themselves.

## Limits

| constant | value | what it is |
|---|---|---|
"""
TESTS = re.compile(r"conformance_")
CONSTANT = re.compile(r"pub const \w+: (?:usize|u\d+) = (.*);")


def value(term: str, terms: dict[str, str]) -> int:
    """The value of a number, or of a sum of products of numbers and other constants."""
    if " + " in term or " * " in term:
        products = [it.split(" * ") for it in term.split(" + ")]
        return sum(math.prod(value(it, terms) for it in one) for one in products)
    return value(terms[term], terms) if term in terms else int(term.replace("_", ""))


def limits(surfaces: list[Surface]) -> Iterator[str]:
    """The rows of the constants that are numbers."""
    every = [it for surface in surfaces for it in surface.constants]
    found = {it: CONSTANT.match(it.declared) for it in every}
    terms: dict[str, str] = {}
    numbers = [(it, match[1]) for it, match in found.items() if match]
    for it, term in numbers:
        if terms.setdefault(it.name, term) != term:
            sys.exit(f"two constants have the name {it.name}, and not one value")
    for it, term in numbers:
        number = value(term, terms)
        yield f"| `{it.file.crate}::{it.place}` | {number:,} | {it.sentence} |"


def types(surface: Surface) -> Iterator[str]:
    """The table of a crate's types."""
    if surface.types:
        yield "| type | what it is |\n|---|---|"
    for it in surface.types:
        yield f"| `{it.place}` | {it.sentence} |"
    if surface.types:
        yield ""
    for of, names in surface.lent.items():
        yield filled(f"{', '.join(f'`{it}`' for it in names)}: those of `{of}`.") + "\n"


def named(clauses: list[Clause]) -> Iterator[str]:
    """The names of some clauses, with their comments; those without a name count as one."""
    for it in clauses:
        name = f"`{it.name}`" if it.name else "one"
        yield f"{name} ({it.comment.rstrip('.')})" if it.comment else name


def promises(item: Item, specs: Specs) -> Iterator[str]:
    """The clauses of a call and what they cite, in a sentence each."""
    public = [it for it in item.cited(specs) if not it.key[1].startswith("inner")]
    cited = [f"[`{it.key[2].replace('◌', '')}`](definitions.md#{it.anchor})" for it in public]
    asked = [it for it in item.clauses if it.word == "requires"]
    said = [it for it in item.clauses if it.word == "ensures"]
    if said and not (cited and [*named(said)] == ["one"]):
        yield f"Clauses: {', '.join(named(said))}."
    if asked:
        yield f"Asks for: {', '.join(named(asked))}."
    if cited:
        yield f"Cites {', '.join(cited)}."


def lemmas(crate: str, law: str) -> Iterator[str]:
    """The lemmas that the proof of a law cites, as they are named within `proofs/`."""
    for path in sorted(Path("crates", crate, "proofs", "laws", law).glob("*.antt")):
        for line in path.read_text().split("\n"):
            found = re.match(rf"use Rattle\.{crate}\.proofs\.(?!laws\.)([\w.]+)\.\{{(.*)\}}", line)
            if found is None:
                continue
            for name in found[2].split(","):
                yield f"`{found[1]}.{name.split(' as ')[0].strip()}`"


def call(item: Item, specs: Specs) -> str:
    """The entry of a call or of a law."""
    is_law = item.file.path == LAWS
    declared = item.declared.partition("fn ")[2].removeprefix(item.name)
    sign = f"`{item.name if is_law else item.place + declared}`:"
    parts = [sign, item.sentence, *promises(item, specs)]
    if is_law and (found := list(lemmas(item.file.crate, item.name))):
        parts.append(f"To cite: {', '.join(found)}.")
    return filled(" ".join(filter(None, parts)), "- ")


def chapter(surface: Surface, specs: Specs) -> Iterator[str]:
    """What one crate offers."""
    yield f"\n## `{surface.crate}`\n"
    yield filled(surface.sentence) + "\n"
    yield from types(surface)
    calls = [it for it in surface.calls if it.file.path != LAWS]
    laws = [it for it in surface.calls if it.file.path == LAWS]
    yield from (call(it, specs) for it in calls)
    if laws:
        yield "\nLaws:\n" if calls else "Laws:\n"
        yield from (call(it, specs) for it in laws)


def document() -> Iterator[str]:
    """The whole text."""
    specs = Specs(Path("."))
    libraries = [it for it in specs.needs if Path("crates", it, "src/lib.rt").exists()]
    crates = specs.crates({it for it in libraries if not TESTS.match(it)})
    surfaces = [Surface(Path("."), it) for it in crates]
    yield FRONT.rstrip("\n")
    yield from limits(surfaces)
    for surface in surfaces:
        yield from chapter(surface, specs)


def page() -> str:
    return "\n".join(document()) + "\n"
