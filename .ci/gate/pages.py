"""Makes the pages that are printed from the source and kept nowhere, with an index, in out/pages:
the whole book of the theorem, the calls of all crates, all definitions, and all wrong bodies.

With `--check` it writes nothing. In both ways it finds dead links among these pages and from them;
the last line has their number, and the status is 1 where there is one."""
import os
import re
from collections.abc import Iterator, Sequence
from pathlib import Path

from gate import book, calls, definitions, links, wrong_bodies
from gate.words import reader

FOLDER, DOCS = Path("out/pages"), Path("docs")
INDEX = """# Printed pages

`python3 .ci/gate pages` has made these pages from the source. They are up to date if it was run
since.

- [The whole book](book.md): each definition that the theorem cites, and the contracts of the calls
  that have it as a clause. [Its first part](../docs/book.md) is kept in the repository.
- [Calls](calls.md): what each crate offers to those above it, with the clauses of each call
- [Definitions](definitions.md): all definitions, by crate and file
- [All wrong bodies](wrong-bodies.md): what each edit breaks, and which clause refuses it
"""

# A link to another file, with the anchor there.
LINK = re.compile(r"(?<=\]\()(?!#|[a-z]+:)([^)#\s]+)")


def moved(text: str, names: Sequence[str]) -> str:
    """A page that was written as one of docs/, as it stands in out/pages: a link to one of these
    pages stays, and any other leads to what it meant."""

    def place(found: re.Match[str]) -> str:
        target = found[1]
        if target in names:
            return target
        return f"../../docs/{target}" if target[:3] != "../" else f"../../{target[3:]}"

    return LINK.sub(place, text)


def made() -> dict[str, str]:
    """The pages by their names."""
    texts = {
        "README.md": INDEX,
        "book.md": book.whole(),
        "calls.md": calls.page(),
        "definitions.md": definitions.page(),
        "wrong-bodies.md": wrong_bodies.page(),
    }
    return {name: moved(text, [*texts]) for name, text in texts.items()}


def dead(texts: dict[str, str]) -> Iterator[tuple[str, str, bool]]:
    """The links of these pages: the page, the target, and whether it is dead."""
    places = {name: Path(os.path.abspath(FOLDER / name)) for name in texts}
    known = {places[name]: links.anchors(text) for name, text in texts.items()}
    for name, text in texts.items():
        for target in links.links(text):
            if not links.ELSEWHERE.match(target):
                yield name, target, links.is_dead(FOLDER / name, target, known)


def main(words: Sequence[str]) -> int:
    words_of = reader(__name__, __doc__)
    words_of.add_argument("--check", action="store_true", help="write nothing")
    given, texts = words_of.parse_args(words), made()
    if not given.check:
        FOLDER.mkdir(parents=True, exist_ok=True)
        for name, text in texts.items():
            (FOLDER / name).write_text(text, encoding="utf-8")
        print(f"pages: {FOLDER / 'README.md'} is the index")
    found = [*dead(texts)]
    gone = [it for it in found if it[2]]
    for name, target, _ in gone:
        print(f"pages: {FOLDER / name}: {target}")
    print(f"pages: {len(texts)} pages, {len(found)} links, {len(gone)} dead")
    return 1 if gone or not found else 0
