"""Holds the types that the packages for Python and JavaScript give their users to what these have.

mypy reads the package of `bindings/python` with all its rules, and tsc what `bindings/js` declares
beside what it infers from the module itself: names, numbers of codes and numbers of arguments have
to be the same. Both read the uses in `.ci/typed`, of which some are wrong and have to be refused.
The last line has the number of files and of faults; the status is 1 where there is one."""
import re
import shutil
import tempfile
from collections.abc import Sequence
from pathlib import Path

from gate import children
from gate.machine import Machine
from gate.words import reader

USES = Path(".ci/typed")
PYTHON, JAVASCRIPT = Path("bindings/python/scion/__init__.py"), Path("bindings/js")
FAULT = re.compile(r"\berror\b.*: ")

MYPY = ["mypy", "--strict", "--no-error-summary", "--cache-dir", "/dev/null"]
TSC = ["tsc", "--strict", "--noEmit", "--allowJs", "--pretty", "false", "--target", "es2022"]
TSC += ["--module", "node16", "--moduleResolution", "node16", "--lib", "es2022,dom"]


def faults_of(words: Sequence[str | Path], folder: Path) -> int:
    """The number of faults that a checker of types finds in a folder, each of which is told."""
    done = children.run(words, is_merged=True, cwd=folder)
    lines = done.stdout.decode(errors="replace").splitlines()
    for line in lines:
        print(f"typed: {line}")
    return sum(bool(FAULT.search(line)) for line in lines) or int(done.returncode != 0)


def in_python() -> int:
    files = [it.resolve() for it in (PYTHON, USES / "uses.py")]
    return faults_of([*MYPY, *files], PYTHON.parents[1])


def in_javascript() -> int:
    """The faults in a folder that has the module twice: as users find it, with its types beside it,
    and by another name without them."""
    with tempfile.TemporaryDirectory() as room:
        for path in (JAVASCRIPT / "scion.d.mts", JAVASCRIPT / "scion.mjs", USES / "uses.mts"):
            shutil.copy(path, room)
        shutil.copy(JAVASCRIPT / "scion.mjs", Path(room, "made.mjs"))
        return faults_of([*TSC, "uses.mts"], Path(room))


def main(words: Sequence[str]) -> int:
    reader(__name__, __doc__).parse_args(words)
    machine, files, faults = Machine(), 0, 0
    for tool, count, check in (("mypy", 2, in_python), ("tsc", 3, in_javascript)):
        if machine.has(tool):
            files, faults = files + count, faults + check()
    print(machine.told(f"typed: {files} files, {faults} faults"))
    return 1 if faults else 0
