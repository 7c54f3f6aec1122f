"""Holds the headline to one wording: README.md, docs/headline.md and docs/book.md quote the same
sentence, and each once. It prints how many quote it; the status is 1 where one differs."""
from collections.abc import Sequence
from pathlib import Path

from gate.book_texts import SENTENCE
from gate.words import reader

PAGES = ("README.md", "docs/headline.md", "docs/book.md")
BEGINNING = SENTENCE.split(",")[0]


def fault_of(page: str) -> str | None:
    """What is wrong with the quotation of a page, if something is."""
    text = Path(page).read_text(encoding="utf-8")
    if text.count(BEGINNING) != 1:
        return f"{page}: the headline stands {text.count(BEGINNING)} times"
    if SENTENCE not in text:
        return f"{page}: the headline has other words"
    return None


def main(words: Sequence[str]) -> int:
    reader(__name__, __doc__).parse_args(words)
    faults = [it for it in map(fault_of, PAGES) if it]
    for it in faults:
        print(f"sentence: {it}")
    print(f"sentence: {len(PAGES) - len(faults)} of {len(PAGES)} pages have it")
    return 1 if faults else 0

