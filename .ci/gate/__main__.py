"""Runs one check of the gate at the top of the repository: `python3 .ci/gate book --check`. The
word -h behind the name of a check prints what it does and which words it takes."""
import argparse
import importlib
import sys
from pathlib import Path

HERE = Path(__file__).resolve().parent

# Files of this folder are found as parts of the package, and by no name of their own.
sys.path[0] = str(HERE.parent)
sys.dont_write_bytecode = True


def checks() -> list[str]:
    """The names of all checks: the modules that have a `main`."""
    paths = (it for it in HERE.glob("*.py") if it != HERE / "__main__.py")
    return sorted(it.stem for it in paths if "\ndef main(" in it.read_text(encoding="utf-8"))


def main() -> int:
    reader = argparse.ArgumentParser(prog="python3 .ci/gate", description=__doc__)
    reader.add_argument("check", choices=checks(), metavar="CHECK", help=", ".join(checks()))
    reader.add_argument("words", nargs=argparse.REMAINDER, metavar="WORD", help="its own words")
    given = reader.parse_args()
    if Path.cwd() != HERE.parents[1]:
        sys.exit(f"gate: this is not the top of the repository, which is {HERE.parents[1]}")
    from gate.children import ChildFault  # Found by the path that is set above.

    check = importlib.import_module(f"gate.{given.check}")
    try:
        return int(check.main(given.words))
    except ChildFault as fault:
        sys.exit(f"{given.check}: {fault}")


if __name__ == "__main__":
    sys.exit(main())
