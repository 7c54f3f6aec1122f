"""Holds docs/wrong-bodies.md and the code to the edits: each that the page names has to be there,
and each line that an edit changes has to stand once in its file. It prints how many edits there
are, how many of them are tried by hand alone, and how many the page names; the status is 1 where
one is gone or can't be applied.

The page of all edits (`python3 .ci/gate pages`) is printed from their heads, and stops at one that
has no such head: each begins with `# breaks:`, what it breaks, and `# refused:`, by which clause;
an edit that turns a statement and no code begins with `# states:`. What stands beside the tables is
in crates/NAME/must-fail/NOTES.md."""
import re
import sys
from collections.abc import Iterable, Iterator, Sequence
from pathlib import Path

from gate.specs import Specs
from gate.words import reader

HEAD = re.compile(r"# (breaks|states): (.*(?:\n#   .*)*)\n# refused: (.*(?:\n#   .*)*)\n(?=file: )")
NAMED = re.compile(r"(`\w+`(?:(?:, | and )`\w+`)*) of `(\w+)`")
PAGE = Path("docs/wrong-bodies.md")

# The folders in a crate of the edits that `rt ci` tries, and of those that `by_hand` tries.
IN_GATE, BY_HAND = "must-fail", "must-fail-by-hand"
FRONT = """# All wrong bodies

What each edit breaks, and which clause refuses it, crate by crate. The text of each edit is
`crates/NAME/must-fail/EDIT.edit`, or, if it has a star here and is tried by hand alone,
`crates/NAME/must-fail-by-hand/EDIT.edit`. [Wrong bodies](../docs/wrong-bodies.md) has those that a
network of routers must not have.
"""
STATEMENTS = """## False statements

These edits turn a statement and no code, so they are no wrong bodies. They show that the proofs
beside them don't prove whatever stands there.
"""


class Edit:
    """An edit of a crate, and what its head says."""

    def __init__(self, path: Path) -> None:
        self.path, self.crate, self.name = path, path.parts[1], path.stem
        self.is_by_hand = path.parts[2] == BY_HAND
        found = HEAD.match(path.read_text(encoding="utf-8"))
        if found is None:
            sys.exit(f"{path} does not begin with '# breaks:' or '# states:', and '# refused:'")
        self.word = found[1]
        self.meaning, self.refused = (it.replace("\n#  ", "") for it in (found[2], found[3]))

    def faults(self) -> Iterator[str]:
        """What stands in the way of the edit: a text that it changes, pair by pair, stands in its
        file not at all or more than once."""
        texts: dict[Path, str] = {}
        file, old = Path(), ""
        for line in self.path.read_text(encoding="utf-8").splitlines():
            if line.startswith("file: "):
                file = Path("crates", self.crate, line.removeprefix("file: ").strip())
                if file not in texts:
                    texts[file] = file.read_text(encoding="utf-8") if file.is_file() else ""
            elif line.startswith("old: "):
                old = line.removeprefix("old: ")
                times = texts[file].count(old)
                if times != 1:
                    yield f"{self.path} changes what is in {file} {times} times: {old.strip()}"
            elif line.startswith("new:"):
                new = line.removeprefix("new:").removeprefix(" ")
                texts[file] = texts[file].replace(old, new)


def table(edits: Iterable[Edit], what: str) -> Iterator[str]:
    """The rows of some edits; those of several crates name the crate."""
    yield f"| edit | {what} | refused by |\n|---|---|---|"
    for it in edits:
        of = f" of `{it.crate}`" if it.word == "states" else ""
        star = "*" if it.is_by_hand else ""
        yield f"| `{it.name}`{star}{of} | {it.meaning} | {it.refused} |"
    yield ""


def all_edits() -> list[Edit]:
    """The edits of all crates, by crate and name."""
    folders = (IN_GATE, BY_HAND)
    paths = [it for name in folders for it in Path("crates").glob(f"*/{name}/*.edit")]
    return [Edit(it) for it in sorted(paths, key=lambda path: (path.parts[1], path.stem))]


def named(text: str) -> Iterator[tuple[str, str]]:
    """The crates and names of the edits that the rows of a table name."""
    rows = [line for line in text.split("\n") if line.startswith("| ")]
    for names, crate in NAMED.findall("\n".join(rows)):
        for name in re.findall(r"\w+", names.replace(" and ", " ")):
            yield crate, name


def document() -> Iterator[str]:
    """The page of all edits."""
    edits = all_edits()
    yield FRONT
    yield f"There are {len(edits)} edits.\n"
    for crate in Specs(Path(".")).crates({it.crate for it in edits}):
        yield f"## `{crate}`\n"
        own = [it for it in edits if it.crate == crate and it.word == "breaks"]
        yield from table(own, "what it breaks")
        notes = Path("crates", crate, "must-fail", "NOTES.md")
        if notes.exists():
            yield notes.read_text()
    yield STATEMENTS
    yield from table([it for it in edits if it.word == "states"], "the false statement")


def page() -> str:
    return "\n".join(document()).rstrip("\n") + "\n"


def main(words: Sequence[str]) -> int:
    reader(__name__, __doc__).parse_args(words)
    edits = all_edits()
    known = {(it.crate, it.name) for it in edits}
    found = [*named(PAGE.read_text(encoding="utf-8"))]
    wrong = [f"{PAGE} names {name} of {crate}, which is no edit"
             for crate, name in found if (crate, name) not in known]
    wrong += [fault for it in edits for fault in it.faults()]
    for it in wrong:
        print(f"wrong_bodies: {it}")
    by_hand = sum(it.is_by_hand for it in edits)
    print(f"wrong_bodies: {len(edits)} edits, {by_hand} of them by hand, {len(found)} named, "
          f"{len(wrong)} wrong")
    return 1 if wrong or not found else 0
