"""The words of a check's command line."""
import argparse
from collections.abc import Sequence
from typing import Any


class Reader(argparse.ArgumentParser):
    """What reads the words of a check. A word that is unknown or cut short ends the script with
    status 2 and is named, before anything that is missing."""

    def parse_args(self, args: Sequence[str] | None = None, namespace: Any = None) -> Any:
        for word in args or ():
            name = word.partition("=")[0]
            if name.startswith("--") and name not in self._option_string_actions:
                self.error(f"unknown word {word}")
        return super().parse_args(args, namespace)


def reader(module: str, doc: str | None) -> Reader:
    """What reads the words of the check in this module, whose comment is the help."""
    return Reader(
        prog=f"python3 .ci/gate {module.rpartition('.')[2]}",
        description=doc,
        formatter_class=argparse.RawDescriptionHelpFormatter,
        allow_abbrev=False,
    )
