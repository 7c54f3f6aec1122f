"""Holds each crate to the form that `rt fmt` gives it, which is tried on a copy. `rt ci` asks for the
same, but a file that is not formatted fails it only where all else was proved.

The status is 1 where a file is not formatted; each is named."""
import concurrent.futures
import re
import shutil
import tempfile
from collections.abc import Sequence
from pathlib import Path

from gate import TOP, children
from gate.words import reader

FORMATTED = re.compile(r"^rt: formatted (\S+)$", re.M)
CRATES = "crates.txt"


def faults_of(crate: Path) -> list[str]:
    """The files of a crate that `rt fmt` changes, as it changes them."""
    done = children.run(["rt", "fmt"], is_merged=True, cwd=crate)
    told = done.stdout.decode(errors="replace")
    changed = FORMATTED.findall(told)
    if done.returncode and not changed:
        return [f"{crate.name}: status {done.returncode}: {told.strip()[-500:]}"]
    return [f"{crate.name}/{it} is not as rt fmt has it" for it in changed]


def faults(top: Path) -> tuple[list[str], int]:
    """The files that are not formatted, and the number of crates."""
    with tempfile.TemporaryDirectory() as folder:
        copy = Path(folder)
        shutil.copy(top / CRATES, copy)
        shutil.copytree(top / "crates", copy / "crates", ignore=shutil.ignore_patterns("out"))
        crates = sorted(it for it in (copy / "crates").iterdir() if it.is_dir())
        with concurrent.futures.ThreadPoolExecutor() as pool:
            wrong = [it for found in pool.map(faults_of, crates) for it in found]
    return wrong, len(crates)


def main(words: Sequence[str]) -> int:
    reader(__name__, __doc__).parse_args(words)
    wrong, count = faults(TOP)
    for it in wrong:
        print(f"formatted: {it}")
    print(f"formatted: {count} crates, {len(wrong)} wrong")
    return 1 if wrong or not count else 0
