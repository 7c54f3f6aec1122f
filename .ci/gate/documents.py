"""Runs the commands of the documents, and compares what they print.

A block of a document that begins with ```sh is commands, and a block ```text right behind it is
what they print; without one they print nothing. A block ```sh skip is not run. The blocks of a
document run one after the other in one shell, at the top of the repository and with the programs on
its path that `rt ci` has proved and built: in sh, and in zsh where it is. No block may leave the
shell in another folder. A block that needs a package of Python which is not on the machine is told,
and left out.

With `--unproved FILE` it runs the blocks of one document over the programs in out/unproved, which
it builds if they are not there (`python3 .ci/gate unproved`), and prints them with what they print.
Blocks that call the library for other languages are left out, since that library is proved.
"""
import os
import re
import sys
from collections.abc import Iterable, Sequence
from pathlib import Path

from gate import children, unproved
from gate.machine import Machine
from gate.words import reader

DOCUMENTS = ("README.md", "docs/tutorial.md", "docs/programs.md", "docs/check-it.md")
SHELLS = ("sh", "zsh")
BLOCK = re.compile(r"^```sh\n(.*?)^```$(?:\n+^```text\n(.*?)^```$)?", re.M | re.S)
MARK = "-- end of block"

# The folders of the programs that `rt ci` has proved and built.
PROVED = tuple(Path("crates", it, "out") for it in unproved.PROGRAMS)

# The seconds that the blocks of one document may take.
SECONDS = 600

# The programs that need a package of Python, and which.
PACKAGES = {"tools/topo.py": "yaml"}


def blocks(name: str, machine: Machine) -> list[tuple[str, str]]:
    """The blocks of commands of a document that the machine can run, and what each prints."""
    found = BLOCK.findall(Path(name).read_text(encoding="utf-8"))
    if not found:
        sys.exit(f"documents: {name} has no commands")
    return [pair for pair in found if can_run(pair[0], machine)]


def can_run(commands: str, machine: Machine) -> bool:
    """Whether the packages that commands need are on the machine."""
    needed = [package for program, package in PACKAGES.items() if program in commands]
    return machine.has_modules(*needed)


def printed(shell: str, asked: Iterable[str], programs: Iterable[Path]) -> list[str]:
    """What the shell prints at each of these blocks, one after the other, with the programs of
    these folders; behind a block that leaves it in another folder it says so."""
    stays = f"[ \"$PWD\" = '{Path.cwd()}' ] || echo 'the shell is in another folder'"
    script = "".join(f"{{ {it}}} 2>&1 < /dev/null\n{stays}\necho '{MARK}'\n" for it in asked)
    path = os.pathsep.join([*(str(it.resolve()) for it in programs), os.environ["PATH"]])
    env = {**os.environ, "PATH": path, "PWD": str(Path.cwd())}
    done = children.run([shell], script.encode(), SECONDS, env=env)
    return done.stdout.decode(errors="replace").split(f"{MARK}\n")


def compare(shell: str, name: str, machine: Machine) -> tuple[int, int]:
    """How many blocks a document has, and how many print something else in this shell."""
    wrong, pairs = 0, blocks(name, machine)
    found = printed(shell, [commands for commands, _ in pairs], PROVED)
    for (commands, wanted), is_so in zip(pairs, [*found, *[""] * len(pairs)]):
        if is_so != wanted:
            wrong += 1
            print(f"documents: {name}, in {shell}: {commands}")
            print(f"documents: it printed {is_so!r}, not {wanted!r}")
    return len(pairs), wrong


def rehearse(name: str, machine: Machine) -> int:
    """Prints the blocks of a document with what they print over unproved programs."""
    pairs = [pair for pair in blocks(name, machine) if "bindings/" not in pair[0]]
    found = printed("sh", [commands for commands, _ in pairs], [unproved.built()])
    wrong = 0
    for (commands, wanted), text in zip(pairs, found):
        wrong += text != wanted
        print("".join(f"$ {line}\n" for line in commands.splitlines()) + text)
        print("" if text == wanted else f"The page has another text:\n{wanted}")
    line = f"documents: {len(pairs)} blocks, {wrong} wrong, over programs that are not proved"
    print(machine.told(line))
    return 1 if wrong else 0


def main(words: Sequence[str]) -> int:
    words_of, machine = reader(__name__, __doc__), Machine()
    words_of.add_argument("--unproved", metavar="FILE", help="a document, over unproved programs")
    given = words_of.parse_args(words)
    if given.unproved:
        return rehearse(given.unproved, machine)
    shells = [shell for shell in SHELLS if machine.has(shell)]
    counts = [compare(shell, name, machine) for shell in shells for name in DOCUMENTS]
    count, wrong = (sum(it) for it in zip(*counts))
    print(machine.told(f"documents: {count} blocks, {wrong} wrong"))
    return 1 if wrong or not count else 0
