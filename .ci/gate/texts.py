"""Finding what has to stand in a text."""
import re
import sys


def found(pattern: str, text: str, flags: int = 0) -> re.Match[str]:
    """The first match of a pattern, without which the check ends."""
    match = re.search(pattern, text, flags)
    if match is None:
        sys.exit(f"a text has nothing of the form {pattern}")
    return match
