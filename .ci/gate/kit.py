"""Holds README.md and the version of the programs to the kit on this machine: README.md has what
`rt version` prints, the text of `--version` has the kit's logic, and so has each certificate that a
page shows. The status is 1 where one has not."""
import re
import shutil
import sys
from collections.abc import Sequence
from pathlib import Path

from gate import children
from gate.printing import files
from gate.words import reader

SUM = re.compile(r"\b(?:sum=|logic )([0-9a-f]{16})\b")
README, VERSION = "README.md", "crates/commands/src/words.rt"


def folder() -> Path:
    """The folder of the kit that `rt` is of."""
    rt = shutil.which("rt")
    if rt is None:
        sys.exit("no rt on the path")
    return Path(rt).resolve().parents[1]


def faults(kit: str) -> list[str]:
    """What does not name this kit, which is its name and its logic as `rt version` prints them."""
    wanted = {README: kit, VERSION: kit.partition(" ")[2]}
    texts = {path: Path(path).read_text(encoding="utf-8") for path in wanted}
    wrong = [f"{path} does not have {it!r}" for path, it in wanted.items() if it not in texts[path]]
    logic = kit.rpartition(" ")[2]
    for page in files("*.md"):
        sums = set(SUM.findall(page.read_text(encoding="utf-8"))) - {logic}
        wrong += [f"{page} has {it}, and not {logic!r}" for it in sorted(sums)]
    return wrong


def main(words: Sequence[str]) -> int:
    reader(__name__, __doc__).parse_args(words)
    kit = children.output(["rt", "version"]).decode().strip()
    wrong = faults(kit)
    for it in wrong:
        print(f"kit: {it}, which is of this machine")
    print(f"kit: {kit}, {len(wrong)} wrong")
    return 1 if wrong or not kit else 0
