"""The executables that `rt ci` has built in this run of the gate: for run.py. Steps behind it are
made over these alone, and not over one that was there before or has come since."""
import hashlib
import json
import os
import re
from pathlib import Path

from gate import children

# Where the digests of the last run stand, beside its commit.
RECORD = Path(".ci/out/built.json")

# The content of an executable by its digest, and when it was written.
State = dict[Path, tuple[str, int]]


def executables() -> State:
    """What is there now: the program and the tests of each crate that has some."""
    names = re.findall(r"^(\w+)[^:#\n]*:", Path("crates.txt").read_text(encoding="utf-8"), re.M)
    paths = (Path("crates", it, "out", file) for it in names for file in (it, f"{it}_tests"))
    found = (it for it in paths if it.is_file() and os.access(it, os.X_OK))
    return {
        it: (hashlib.sha256(it.read_bytes()).hexdigest(), it.stat().st_mtime_ns) for it in found
    }


def commit() -> str:
    """The commit of this clone, and whether something in it differs."""
    words = ["git", "describe", "--always", "--abbrev=40", "--dirty", "--exclude=*"]
    return children.output(words).decode().strip()


class Built:
    """What was there before `rt ci`, and what it has built."""

    def __init__(self) -> None:
        self.before = executables()
        self.digests: dict[str, str] = {}

    def kept(self) -> dict[str, str]:
        """The digests of an earlier run over the same commit."""
        if not RECORD.exists():
            return {}
        record = json.loads(RECORD.read_text(encoding="utf-8"))
        return dict(record["digests"]) if record["commit"] == commit() else {}

    def note(self) -> list[str]:
        """Notes what is there behind `rt ci`, and tells what it has not built: what stayed as it
        was before, unless an earlier run over the same commit has built it."""
        kept, wrong = self.kept(), []
        for path, state in executables().items():
            if self.before.get(path) == state and kept.get(str(path)) != state[0]:
                wrong.append(f"{path} was there before rt ci, which has not built it")
            self.digests[str(path)] = state[0]
        if not self.digests:
            wrong.append("rt ci has built no program")
        if not wrong:
            RECORD.parent.mkdir(exist_ok=True)
            record = {"commit": commit(), "digests": self.digests}
            RECORD.write_text(json.dumps(record, indent=1) + "\n", encoding="utf-8")
        return wrong

    def faults(self) -> list[str]:
        """What is no longer as `rt ci` has built it."""
        now = {str(path): digest for path, (digest, _) in executables().items()}
        names = sorted(self.digests.keys() | now.keys())
        changed = (it for it in names if self.digests.get(it) != now.get(it))
        return [f"{it} is not what rt ci has built" for it in changed]
