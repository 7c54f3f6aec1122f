"""Tries the wrong bodies that the gate leaves out, those of crates/NAME/must-fail-by-hand: of the
crates that are named, or of all. The prover has to refuse each, and by more than a name that a
proof cites.

It tries them in a copy of this folder, with what `rt check` has left here: run `rt check` of the
crate first, or the libraries below it are proved once more. One edit takes 10 to 60 seconds, all of
them some hours. The status is 1 where one is not refused."""
import re
import shutil
import subprocess
import sys
import tempfile
from collections.abc import Sequence
from pathlib import Path

from gate.words import reader
from gate.wrong_bodies import BY_HAND, IN_GATE, all_edits

# What `rt must-fail` says of an edit that is refused, and what follows where this says little.
REFUSED = re.compile(r"^rt: must-fail (\w+)/(\w+)\.edit: refused, as it must be(?! \(only)", re.M)


def copy_into(room: Path, crates: Sequence[str]) -> None:
    """Copies this folder, with the edits of these crates that are tried by hand among those that
    `rt must-fail` tries, and no others."""
    leave = shutil.ignore_patterns(".git", IN_GATE, BY_HAND)
    shutil.copytree(".", room, symlinks=True, ignore=leave, dirs_exist_ok=True)
    for crate in crates:
        shutil.copytree(Path("crates", crate, BY_HAND), room / "crates" / crate / IN_GATE)


def tried(room: Path, crates: Sequence[str]) -> str:
    """What `rt must-fail` says of these crates, which it also prints as it goes on."""
    said = []
    with subprocess.Popen(["rt", "must-fail", *crates], cwd=room, stdin=subprocess.DEVNULL,
                          stdout=subprocess.PIPE, stderr=subprocess.STDOUT, text=True) as child:
        for line in child.stdout or ():
            print(line, end="", flush=True)
            said.append(line)
    return "".join(said)


def main(words: Sequence[str]) -> int:
    reader_of = reader(__name__, __doc__)
    reader_of.add_argument("crates", nargs="*", metavar="CRATE", help="or else all that have such")
    edits = [it for it in all_edits() if it.is_by_hand]
    there = sorted({it.crate for it in edits})
    crates = reader_of.parse_args(words).crates or there
    for crate in crates:
        if crate not in there:
            reader_of.error(f"no edits of {crate} are tried by hand; there are some of "
                            + ", ".join(there))
    with tempfile.TemporaryDirectory() as folder:
        copy_into(Path(folder), crates)
        refused = set(REFUSED.findall(tried(Path(folder), crates)))
    wanted = [(it.crate, it.name) for it in edits if it.crate in crates]
    wrong = [it for it in wanted if it not in refused]
    for crate, name in wrong:
        print(f"by_hand: {name} of {crate} is not refused", file=sys.stderr)
    print(f"by_hand: {len(wanted)} edits, {len(wrong)} not refused")
    return 1 if wrong or not wanted else 0
