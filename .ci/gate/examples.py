"""Writes the topologies of `examples/` wherever else they stand: the texts of `worked`, and those
of the programs' help, which have the first ASes of `row`. So a change of what a topology has is
made by hand in `examples/` alone, and in what makes networks (`Drawing` of `worked`). The stored
run of `scionet` is a case, so that `rt ci` runs it; that of `scionet_view` is the example of the
help. That example is a case too, with the answers that the help gives."""
import json
import re
from collections.abc import Sequence
from pathlib import Path

from gate.printing import settle

NAMES = "row", "pair", "fork"
WORKED = "crates/worked/src/networks.rt"

# The lines of the help's example, and the help that gives their answers.
EXAMPLE, HELP_OF_RUN = "crates/commands/src/example.rt", "crates/commands/src/words.rt"

# The cases of networks, and the names of two: the stored run, by the member that each of its files
# has, and the help's example with the turns behind it.
CASES, ROW, EXAMPLE_CASE = "cases/networks.jsonl", "three ASes in a row", "the example of the help"
STORED_RUN = {"crates/scionet/stdin": "stdin", "crates/scionet/stdout": "stdout"}
EXAMPLE_INPUT = "crates/scionet_view/stdin"
TURN = '{"do":"turn","packet":0}'

# The texts of help, and how many of the first ASes of `row` each topology in them has.
HELP = {
    EXAMPLE: [2],
    HELP_OF_RUN: [1],
    "crates/view_words/src/words.rt": [1, 1, 1],
}

FUNCTION = re.compile(r"(?<=pub fn )(\w+)(\(\) -> &'static str \{\n).*?(?=\}\n)", re.S)
HELPED = re.compile(r"(?:(?<=')|(?<='\\\n))\{\\\"ases\\\":.*?\}(?=')", re.S)
BREAK = re.compile(r'(?<=\},)(?=\{)|(?<=\},)(?="b")|(?<=\],)(?="links")')


def topology(name: str) -> str:
    """The first line of an example."""
    return Path(f"examples/{name}.txt").read_text(encoding="utf-8").partition("\n")[0]


def first_of_row(count: int) -> str:
    """The network of the first ASes of `row`, and of the links between them."""
    row = json.loads(topology("row"))
    first = {"ases": row["ases"][:count], "links": row["links"][: count - 1]}
    return json.dumps(first, separators=(",", ":"))


def as_function(name: str) -> str:
    """A function's body in Rust that is this topology, broken between ASes and ends of links."""
    parts = "".join(f'        r#"{part}"#,\n' for part in BREAK.split(topology(name)))
    return f"    concat!(\n{parts}    )\n"


def as_help(count: int) -> str:
    """The first ASes of `row` within a text of help, broken at the same places."""
    return "\\\n".join(BREAK.split(first_of_row(count))).replace('"', '\\"')


def example() -> list[str]:
    """The lines of the help's example: words of `printf` in a text of Rust."""
    text = Path(EXAMPLE).read_text(encoding="utf-8").replace("\\\n", "")
    return [it.replace('\\"', '"') for it in re.findall(r"'(\{[^']*\})'", text)]


def answers() -> list[str]:
    """The answers that the help of `run` gives, each with an indent there."""
    text = Path(HELP_OF_RUN).read_text(encoding="utf-8")
    [found] = re.findall(r'which is answered by\n(.*?)"', text, re.S)
    return str(found).split("\n  ")


def cases() -> dict[str, str]:
    """The cases of networks by their names, in their order, each as its line."""
    lines = Path(CASES).read_text(encoding="utf-8").splitlines()
    return {json.loads(line)["name"]: line for line in lines}


def with_turns(count: int) -> str:
    """The lines of the help's example and so many turns of its packet."""
    return "\n".join([*example(), *[TURN] * count]) + "\n"


def example_case() -> str:
    """The case of the help's example, as a line."""
    said = "\n".join(answers()).strip() + "\n"
    given = {"name": EXAMPLE_CASE, "args": ["run"], "stdin": with_turns(2)}
    return json.dumps({**given, "status": 0, "stdout": said}, separators=(",", ":"))


def written(path: str) -> str:
    """The text of a file with the topologies, the example or a case in it."""
    if path == CASES:
        return "\n".join({**cases(), EXAMPLE_CASE: example_case()}.values()) + "\n"
    if path in STORED_RUN:
        return json.loads(cases()[ROW])[STORED_RUN[path]]
    if path == EXAMPLE_INPUT:
        return with_turns(1)
    text = Path(path).read_text(encoding="utf-8")
    if path == WORKED:
        return FUNCTION.sub(lambda found: found[1] + found[2] + as_function(found[1]), text)
    counts = iter(HELP[path])
    return HELPED.sub(lambda _: as_help(next(counts)), text)


def texts() -> dict[str, str]:
    """The texts of all files with networks of `examples/`."""
    for name in NAMES:
        json.loads(topology(name))
    return {it: written(it) for it in (WORKED, *HELP, CASES, *STORED_RUN, EXAMPLE_INPUT)}


def main(words: Sequence[str]) -> int:
    return settle(__name__, __doc__, words, texts)
