"""Prints docs/crates.md: the list of the crates' pages by layer, with the titles of these, and a
picture of the crates, drawn from crates.txt. In the picture an arrow that follows from two others
is left out, and so are the crates of tests.

The status is 1 too where a crate has no page or is in no layer, or where a piece of code that a
page shows as taken from a file is not in that file."""
import re
import sys
import textwrap
from collections.abc import Iterator, Sequence
from pathlib import Path

from gate.printing import filled, settle

TITLE = re.compile(r"# `(\w+)`: (.*)\n")
TAKEN = re.compile(r"^From \[`(.*?)`\].*:\n\n```\w+\n(.*?)```$", re.M | re.S)
CODE = re.compile(r"^```(?!sh|text)\w", re.M)
TESTS = re.compile(r"conformance_|worked$|refusing$")

PAGE = "docs/crates.md"
FRONT = """# The crates

Each crate has a page: what it is, a call, what a contract sees, what is proved and what only a test
shows. `.ci/gate/crates.py` prints this page from `crates.txt` and from those pages.
"""
PICTURE = """## Which uses which

An arrow leads to a crate that is used; arrows that follow from two others are left out, and so are
the crates of tests.
"""

LAYERS = {
    "Texts, streams and lists": "refusal json_fields streams separators doubles inbox",
    "Values of SCION": "isd_as hop_mac path_header scion_topology path_segment policy_expr",
    "Segments and paths": "beaconing path_server segment_board path_verifier combinator"
    " daemon_cache",
    "Packets and networks": "router_step scion_packet forwarding network_core whole_packets"
    " router_workers",
    "Examples of the theorem": "arrivals row_history row_lines",
    "Texts in and out": "event_lines work_lines beacon_lines step_line packet_view network_view"
    " path_report line_faults wire_packets run_capture path_requests commands view_words views",
    "Programs, and libraries for other languages": "scionet scionet_view tour bench scion_ffi"
    " scion_ffi_paths",
    "For tests": "refusing worked conformance_values conformance_network conformance_paths"
    " conformance_refused conformance_run conformance_step conformance_threads"
    " conformance_workers",
}


def graph() -> dict[str, list[str]]:
    """The libraries of the repository on which each of its crates stands, by the crate's name."""
    lines = [line.partition("#")[0] for line in Path("crates.txt").read_text().splitlines()]
    pairs = [line.partition(":") for line in lines if line.strip()]
    named = {name.split()[0]: below.split() for name, _, below in pairs}
    return {name: [it for it in below if it in named] for name, below in named.items()}


def reached(crates: dict[str, list[str]], name: str) -> set[str]:
    """All crates on which this one stands, by way of others too."""
    return {it for below in crates[name] for it in {below} | reached(crates, below)}


def picture(crates: dict[str, list[str]]) -> Iterator[str]:
    """The picture as Mermaid draws it, without the crates of tests."""
    yield "```mermaid\ngraph TD"
    for name in (it for it in crates if not TESTS.match(it)):
        near = [it for it in crates[name] if not TESTS.match(it)]
        for it in near:
            if not any(it in reached(crates, other) for other in near):
                yield f"  {name} --> {it}"
    yield "```"


def page(name: str) -> str:
    """The text of a crate's page."""
    path = Path("crates", name, "README.md")
    if not path.exists() or not (found := TITLE.match(path.read_text())) or found[1] != name:
        sys.exit(f"{path} does not begin with '# `{name}`: ' and a title")
    return path.read_text()


def title(name: str) -> str:
    """The title of a crate's page, behind its name."""
    return page(name).partition("\n")[0].partition(": ")[2]


def pages() -> Iterator[str]:
    """The list of the crates' pages, by layer."""
    for layer, names in LAYERS.items():
        titles = {name: title(name) for name in names.split()}
        links = {name: f"[`{name}`](../crates/{name}/README.md)" for name in titles}
        if layer.endswith("tests"):
            yield filled(f"{layer}: {', '.join(links.values())}.") + "\n"
            continue
        yield f"{layer}:\n"
        yield from (f"- {links[name]}: {title}" for name, title in titles.items())
        yield ""


def is_taken(path: str, code: str) -> bool:
    """Whether these lines stand in a file, one after the other, however far they are indented."""
    lines = Path(path).read_text().split("\n") if Path(path).exists() else []
    wanted = code.rstrip("\n").split("\n")
    windows = (lines[at : at + len(wanted)] for at in range(len(lines)))
    return any(textwrap.dedent("\n".join(it)).split("\n") == wanted for it in windows)


def judge(crates: dict[str, list[str]]) -> None:
    """Stops where a crate has no page or is in no layer, or a page shows code that is nowhere."""
    listed = " ".join(LAYERS.values()).split()
    if sorted(listed) != sorted(crates):
        differ = {*listed} ^ {*crates}
        sys.exit(f"crates.txt and the layers of .ci/gate/crates.py differ: {differ}")
    for name in crates:
        taken = TAKEN.findall(page(name))
        if len(taken) != len(CODE.findall(page(name))):
            sys.exit(f"crates/{name}/README.md shows code, and not from which file")
        for path, code in taken:
            if not is_taken(path, code):
                sys.exit(f"crates/{name}/README.md shows code that {path} does not have")


def document() -> str:
    """The whole page."""
    crates = graph()
    judge(crates)
    return "\n".join([FRONT, *pages(), PICTURE, *picture(crates)]) + "\n"


def main(words: Sequence[str]) -> int:
    return settle(__name__, __doc__, words, lambda: {PAGE: document()})
