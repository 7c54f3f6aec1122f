"""Finds names in the Markdown files which the code, the definitions, the proofs, the cases and the
bindings have no more: words in `code` that have an underscore or two capitals, as calls,
definitions, types and clauses have. Pages that are printed from the source alone are left out.

It prints these names, and how many were looked up, and ends with 1 where one is gone."""
import re
from collections.abc import Iterable, Sequence
from pathlib import Path

from gate.printing import files
from gate.words import reader

PRINTED = {"docs/book.md"}
BLOCK = re.compile(r"^ *(```+).*?^ *\1$", re.M | re.S)
SPAN = re.compile(r"`([^`]+)`")
NAME = re.compile(r"\b(?=\w*_|[A-Z][a-z]+\w*[A-Z])[A-Za-z]\w+(?<!_)\b")

# Names of the toolchain, its libraries and Rust's, of which the pages speak.
ELSEWHERE = """FromStr OnceLock RestsIfErr atomic_blocks binary_search_by rattle_alloc rattle_arg
rattle_dealloc rattle_env rattle_env_at rattle_errno rattle_realloc rattle_set_errno std_alloc
std_collections std_heap std_io"""


def known(names: Iterable[Path]) -> set[str]:
    """The words of all paths, and of all files but pages, pictures, edits and the gate's own."""
    words = {*ELSEWHERE.split()}
    for name in names:
        words.update(re.findall(r"\w+", str(name)))
        if name.suffix not in (".md", ".png", ".svg", ".edit") and name.parts[0] != ".ci":
            words.update(re.findall(r"\w+", name.read_text(errors="replace")))
    return words


def main(words: Sequence[str]) -> int:
    reader(__name__, __doc__).parse_args(words)
    names = files()
    own, count, gone = known(names), 0, 0
    for page in (it for it in names if it.suffix == ".md" and str(it) not in PRINTED):
        spans = SPAN.findall(BLOCK.sub("", page.read_text()))
        for name in NAME.findall("\n".join(spans)):
            count += 1
            if name not in own:
                gone += 1
                print(f"names: {page}: {name}")
    print(f"names: {count}, {gone} gone")
    return 1 if gone else 0

