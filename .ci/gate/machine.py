"""What the machine has of the tools that a check can do without."""
import importlib.util
import shutil
from collections.abc import Iterable

SKIPPED = "; skipped: "


class Machine:
    """The tools that were missed so far. What needs one of them is left out, and the last line of
    the check names it."""

    def __init__(self) -> None:
        self.missed: dict[str, None] = {}

    def has(self, *commands: str) -> bool:
        """Whether all of these commands are on the machine."""
        return self.has_all(it for it in commands if shutil.which(it) is None)

    def has_modules(self, *modules: str) -> bool:
        """Whether Python has all of these modules."""
        return self.has_all(it for it in modules if importlib.util.find_spec(it) is None)

    def has_all(self, missing: Iterable[str]) -> bool:
        """Whether nothing is missing; what is will be told."""
        found = dict.fromkeys(missing)
        self.missed.update(found)
        return not found

    def told(self, line: str) -> str:
        """The last line of a check, with what was missed."""
        return line + (SKIPPED + ", ".join(self.missed) if self.missed else "")


def skipped(line: str) -> list[str]:
    """What the last line of a check says that it missed."""
    _, mark, names = line.rpartition(SKIPPED)
    return names.split(", ") if mark else []
