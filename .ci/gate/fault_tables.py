"""The numbers and names of all refusals, as the definitions of the crates have them."""
import re
import sys
from collections.abc import Iterable
from pathlib import Path

# The types of refusals by crate; the calls that pass them on by their numbers, and the lines that
# are answered by them, which no signature says: those that no definition of an event names.
TYPES = {
    "isd_as": [("AddrFault", "", "")],
    "path_header": [
        (
            "HeaderFault",
            "scion_verify scion_header_check scion_header_reverse",
            "`turn`, and `scionet step`, behind 90",
        )
    ],
    "scion_topology": [("TopologyFault", "", "the first, behind `topology`; ")],
    "router_step": [
        (
            "Refusal",
            "turn scion_step scion_whole_packet_step",
            "`turn`, `show`, `scionet step`, `work`",
        )
    ],
    "scion_packet": [
        (
            "PacketFault",
            "turn scion_whole_packet_step scion_whole_packet_read scion_whole_packet_write"
            " scion_whole_packet_reply",
            "",
        )
    ],
    "path_segment": [("SegmentFault", "scion_paths scion_verify", "")],
    "path_server": [("StoreFault", "", "")],
    "segment_board": [("BoardFault", "", "")],
    "policy_expr": [
        (
            "PolicyFault",
            "PolicyOption::parse_all LawfulOptions::check Daemon::ask"
            " scion_paths scion_verify",
            "`ask`",
        ),
        ("OptionFault", "Daemon::ask scion_paths", ""),
    ],
    "path_verifier": [("VerifyFault", "scion_verify", "")],
    "combinator": [("CombineFault", "scion_paths", "")],
    "daemon_cache": [("AskFault", "", "")],
    "beaconing": [("BeaconFault", "", "")],
    "network_core": [("EventFault", "Net::step", "each of the events")],
    "router_workers": [("RunFault", "", "")],
    "path_requests": [("RequestFault", "scion_paths scion_verify", "")],
}

# Refusals that no table has: the definition of each, and its number in it.
ALONE = {
    "BadLine": ("event_lines/specs/Text.antt", r'^bad_line = codes "no (\d+) BadLine"$'),
    "BadCall": ("scion_ffi/specs/Answer.antt", r"^bad_call = answer (\d+) 0$"),
}


def found(pattern: str, text: str) -> re.Match[str]:
    """Where a text has a pattern, without which there is no table."""
    place = re.search(pattern, text, re.M)
    if place is None:
        sys.exit(f"no definition has {pattern!r}")
    return place


def number_at(text: str, term: str) -> tuple[int, str] | None:
    """The number and the name that a row of a table has: its own, or those of a refusal of a crate
    below. Nothing if the row passes on all refusals of a type."""
    if own := re.fullmatch(r'\((\d+), codes "(\w+)"\)', term):
        return int(own[1]), own[2]
    if one := re.fullmatch(r"(\w+)\.(\w+)", term):
        crate, file = found(rf"^use Rattle\.(\w+)\.specs\.(\w+) as {one[1]}$", text).groups()
        below = Path("crates", crate, "specs", f"{file}.antt").read_text()
        return number_at(below, found(rf"^{one[2]} = (.*)$", below)[1])
    if one := re.fullmatch(r"(\w+)\.code_and_name \w+\.(\w+)", term):
        below = found(rf"^use Rattle\.(\w+)\.specs\.\w+ as {one[1]}$", text)[1]
        (type_name, *_), *_ = TYPES[below]
        return numbers_of(below, type_name)[one[2]]
    return None


def numbers_of(crate: str, type_name: str) -> dict[str, tuple[int, str]]:
    """The numbers and names of a type's refusals, by variant, as the definitions have them."""
    for path in sorted(Path("crates", crate, "specs").glob("*.antt")):
        text = path.read_text()
        if re.search(rf"^abbrev pub code_and_name : {type_name} ", text, re.M):
            rows = re.findall(r"^code_and_name \(?(\w+)[^=]*= (.*)$", text, re.M)
            numbers = {variant: number_at(text, term) for variant, term in rows}
            return {variant: row for variant, row in numbers.items() if row}
    sys.exit(f"{crate} has no table of {type_name}")


def alone() -> dict[str, int]:
    """The numbers of refusals that no table has, by their names."""
    texts = {name: Path("crates", file).read_text() for name, (file, _) in ALONE.items()}
    return {name: int(found(ALONE[name][1], text)[1]) for name, text in texts.items()}


def by_number(rows: Iterable[tuple[int, str]]) -> dict[int, str]:
    """The name of each number; a number with two names ends the script."""
    names: dict[int, str] = {}
    for number, name in rows:
        if names.setdefault(number, name) != name:
            sys.exit(f"{number} is {name} and {names[number]}")
    return names


def all_names() -> dict[int, str]:
    """The name of each number that a refusal has, of all crates."""
    tables = [numbers_of(crate, one[0]) for crate, types in TYPES.items() for one in types]
    rows = [it for table in tables for it in table.values()]
    return by_number(rows + [(number, name) for name, number in alone().items()])
