"""What scripts that print pages share: how a page is filled, compared and written."""
import textwrap
from collections.abc import Callable, Sequence
from pathlib import Path

from gate import children
from gate.words import reader


def filled(text: str, sign: str = "") -> str:
    """A paragraph or, behind a sign, an item of a list, in lines of at most 100 columns."""
    return textwrap.fill(
        text,
        100,
        initial_indent=sign,
        subsequent_indent=" " * len(sign),
        break_long_words=False,
        break_on_hyphens=False,
    )


def files(*patterns: str) -> list[Path]:
    """The files that git tracks or would track, of these patterns if there are some."""
    words = ["git", "ls-files", "-co", "--exclude-standard", *patterns]
    listed = children.output(words).decode().splitlines()
    return [it for it in map(Path, listed) if it.is_file()]


def first_difference(found: str, wanted: str) -> str:
    """The first line in which two texts differ."""
    pairs = zip([*found.split("\n"), "(the end)"], [*wanted.split("\n"), "(the end)"])
    number, (one, other) = next((at, it) for at, it in enumerate(pairs, 1) if it[0] != it[1])
    return f"line {number} is {one[:120]!r}, and not {other[:120]!r}"


def settle(
    module: str, doc: str | None, words: Sequence[str], made: Callable[[], dict[str, str]]
) -> int:
    """The status of a check of files whose texts are made from others: compares them where the word
    is `--check`, and writes them where it is `--write`. One of the two has to be there."""
    words_of = reader(module, doc)
    way = words_of.add_mutually_exclusive_group(required=True)
    way.add_argument("--check", action="store_true", help="compare; the status is 1 if one differs")
    way.add_argument("--write", action="store_true", help="write what differs")
    given, name = words_of.parse_args(words), module.rpartition(".")[2]
    texts = made()
    old = {path: Path(path).read_text(encoding="utf-8") for path in texts}
    others = [path for path in texts if old[path] != texts[path]]
    for path in others:
        if given.write:
            Path(path).write_text(texts[path], encoding="utf-8")
            print(f"{name}: {path} is written")
        else:
            print(f"{name}: {path}: {first_difference(old[path], texts[path])}")
            print(f"{name}: if the source is right, `python3 .ci/gate {name} --write` writes it")
    told = "written" if given.write else "different"
    print(f"{name}: {len(texts)} compared, {len(others)} {told}")
    return 1 if others and given.check else 0
