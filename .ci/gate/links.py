"""Finds dead links among the Markdown files of the repository: a link to a file that is not there,
or to a heading or an anchor that its file lacks. Links to other hosts are not followed.

It prints how many links there are and how many are dead, and ends with 1 where one is."""
import os
import re
from collections.abc import Iterator, Sequence
from pathlib import Path
from urllib.parse import unquote

from gate.printing import files
from gate.words import reader

BLOCK = re.compile(r"^( *)(```+|~~~+).*?^ *\2`*~*$", re.M | re.S)
SPAN = re.compile(r"(`+)(?!`).*?(?<!`)\1(?!`)")
LINK = re.compile(r"!?\[[^\]]*\]\(\s*<?([^)\s>]+)>?[^)]*\)|^\[[^\]]+\]:\s*(\S+)", re.M)
HEADING = re.compile(r"^#{1,6} +(.*?)(?: +#+)?$", re.M)
ANCHOR = re.compile(r"<a (?:id|name)=\"([^\"]+)\"")
ELSEWHERE = re.compile(r"[a-z][a-z+.-]*:", re.I)


def prose(text: str) -> str:
    """The text without blocks of code."""
    return BLOCK.sub("", text)


def links(text: str) -> Iterator[str]:
    """The targets of the links of a text. Code spans may hold a link's text, and no link."""
    blank = SPAN.sub(lambda it: "`" + re.sub(r"[\[\]()]", " ", it[0]) + "`", prose(text))
    for one in LINK.finditer(blank):
        yield one[1] or one[2]


def slug(heading: str) -> str:
    """The anchor that a heading gets: its words in small letters, joined by hyphens."""
    words = re.sub(r"\[([^\]]*)\]\([^)]*\)", r"\1", heading).lower()
    return re.sub(r"[^\w\- ]", "", words).replace(" ", "-")


def anchors(text: str) -> set[str]:
    """The anchors of a file; a heading that occurs again has a number behind it."""
    found = {*ANCHOR.findall(prose(text))}
    counts: dict[str, int] = {}
    for heading in HEADING.findall(prose(text)):
        name = slug(heading)
        count = counts[name] = counts.get(name, -1) + 1
        found.add(f"{name}-{count}" if count else name)
    return found


def is_dead(source: Path, target: str, known: dict[Path, set[str]]) -> bool:
    """Whether the target of a link of this file is missing. The files whose anchors are known need
    not be there."""
    path, _, anchor = unquote(target).partition("#")
    place = Path(os.path.abspath(source.parent / path if path else source))
    if place not in known and not place.exists():
        return True
    if not anchor or place.suffix != ".md":
        return False
    if place not in known:
        known[place] = anchors(place.read_text())
    return anchor not in known[place]


def main(words: Sequence[str]) -> int:
    reader(__name__, __doc__).parse_args(words)
    count, dead = 0, 0
    known: dict[Path, set[str]] = {}
    for source in files("*.md"):
        for target in links(source.read_text()):
            if ELSEWHERE.match(target):
                continue
            count += 1
            if is_dead(source, target, known):
                dead += 1
                print(f"links: {source}: {target}")
    print(f"links: {count}, {dead} dead")
    return 1 if dead else 0

