"""Prints the definitions of `specs/`, by crate and file, each with its comment; a reader has to
believe these and the contracts that cite them. `python3 .ci/gate pages` makes this page."""
from collections.abc import Iterator
from pathlib import Path

from gate.book import Book
from gate.printing import filled
from gate.specs import Definition, Module

FRONT = """# Definitions

What a reader has to believe besides the contracts: the definitions of `crates/NAME/specs`, by crate
and file, lowest crate first, each with the comment that stands above it. A name that is a link is
also in [the whole book](book.md), with its text: to believe the headline, read that, since it has
exactly what the headline cites. Here are also the definitions of the other promises;
[calls.md](calls.md) has the calls that cite them.

A definition whose result is of `Type 0` is a statement; any other is a value that is computed. In
comments, a chain of refusals as 'NotHere, then Loop' is in the order in which they are looked for.
Nobody has to believe what is in `proofs/`, which the prover checks, nor, for public calls, what is
in `specs/inner/`: only contracts of private functions, and what types keep, cite that.
"""


def comment(one: Definition) -> str:
    """The comment of a definition as one line."""
    text = " ".join(it.strip().removeprefix("--").strip() for it in one.comment
                    if it.startswith("--"))
    return text.replace("|", "\\|")


def name(one: Definition, printed: set[tuple[str, str, str]]) -> str:
    """The name of a definition, with its anchor, and a link to where the book prints it."""
    shown = f"`{one.applied}`"
    if one.key in printed:
        shown = f"[{shown}](book.md#{one.anchor})"
    return f'<a id="{one.anchor}"></a>{shown}'


def rows(module: Module, printed: set[tuple[str, str, str]]) -> Iterator[str]:
    """The rows of a file: definitions without a comment stand with the one before."""
    groups: list[list[Definition]] = []
    for one in module.all:
        if groups and not comment(one):
            groups[-1].append(one)
        else:
            groups.append([one])
    for group in groups:
        yield f"| {', '.join(name(it, printed) for it in group)} | {comment(group[0])} |"


def head(module: Module) -> str:
    """The comment of a file."""
    return filled(" ".join(it.removeprefix("--").strip() for it in module.head))


def document() -> Iterator[str]:
    """The whole text."""
    book = Book(Path("."))
    specs, printed = book.specs, {it.key for it in book.printed}
    modules = [it for (_, file), it in specs.modules.items() if not file.startswith("inner")]
    for crate in specs.crates({it.crate for it in modules}):
        yield f"## `{crate}`\n"
        for module in (it for it in modules if it.crate == crate and it.all):
            yield f"### `{crate}/specs/{module.name.replace('.', '/')}.antt`\n"
            if module.head:
                yield head(module) + "\n"
            yield "| definition | what it says |\n|---|---|"
            yield from rows(module, printed)
            yield ""


def page() -> str:
    return f"{FRONT}\n" + "\n".join(document()).rstrip("\n") + "\n"
