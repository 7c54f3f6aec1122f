"""Runs `scionet_view explain` over faulty inputs, and over the networks of the examples and cases.

`cases/explain/faults.jsonl` has the faulty inputs, and the beginnings of the lines that have to be
printed of each, behind `..` also their ends; and of some the columns. Of the examples nothing may
be said. Of each network of `cases/*.jsonl` exactly the lines are explained that `scionet run`
refuses, and the turns at which a router refuses a packet, each with its reply. With `--json` the
same is said of each as an object on a line. The status has to be 3 where something is said, and 0
where nothing is. The last line has the numbers of faults and of lines that were compared, and of
those that were wrong; the status is 1 where one was, or where nothing was compared.
"""
import concurrent.futures
import copy
import json
import os
import re
import sys
from collections.abc import Iterator, Sequence
from pathlib import Path
from typing import Any

from gate import TOP, children
from gate.cases import Case
from gate.words import reader

SAID = re.compile(r"line (\d+): ((?:topology )?no \d+ \w+|refused \d+ [\w ]+|warning): ")

# The status where something was found.
FOUND = 3

MEMBERS = ["column", "found", "line", "member", "name", "refusal", "reply", "text", "wanted"]


# The programs, which `rt ci` has built if no others are named.
PROGRAMS = {name: TOP / "crates" / name / "out" / name for name in ("scionet", "scionet_view")}


def program(name: str) -> str:
    path = PROGRAMS[name]
    if not os.access(path, os.X_OK):
        sys.exit(f"explain: {path} is not there: rt ci builds it")
    return str(path)


def printed(text: bytes, *words: str) -> list[str] | None:
    """The lines that `explain` prints of this input; `None` if it ends with a fault, or with
    another status than what it prints wants."""
    run = children.run([program("scionet_view"), "explain", *words], text)
    lines = run.stdout.decode().split("\n")[:-1]
    return lines if run.returncode == (FOUND if lines else 0) else None


def line_of(text: str) -> str:
    """The line of text of a JSON object, which has to be one of a finding."""
    it = json.loads(text)
    if list(it) != MEMBERS or json.dumps(it, separators=(",", ":"), ensure_ascii=False) != text:
        return f"no object of a finding: {text}"
    refusal = [] if it["refusal"] is it["name"] is None else [str(it["refusal"]), it["name"]]
    if refusal != (it["reply"] or "").removeprefix("topology ").split()[1:3]:
        return f"another refusal than in the reply: {text}"
    for name in ("found", "member", "wanted"):
        if it[name] is not None and it[name] not in it["text"]:
            return f"{name} is not in the text: {text}"
    return f"line {it['line']}: {it['reply'] or 'warning'}: {it['text']}"


def explained(text: bytes) -> list[str] | None:
    """The lines that `explain` prints of this input, which its objects have to say too; `None` if
    it ends with a fault."""
    lines, objects = printed(text), printed(text, "--json")
    if lines is None or objects is None:
        return None
    return lines if lines == [*map(line_of, objects)] else [*map(line_of, objects), "in JSON"]


def changed(topology: Any, case: Case) -> Any:
    """The topology of a case: another one, or this one with one value changed or taken out."""
    if "topology" in case:
        return case["topology"]
    topology = copy.deepcopy(topology)
    *path, last = case["at"]
    part = topology
    for step in path:
        part = part[step]
    if "is" in case:
        part[last] = case["is"]
    else:
        del part[last]
    return topology


def lines_of(case: Case, row: list[str]) -> list[Any]:
    """The lines of a case, over those of the first example."""
    if "lines" not in case:
        return [changed(json.loads(row[0]), case)]
    return row[: case.get("after", 0)] + case["lines"]


def input_of(case: Case, row: list[str]) -> bytes:
    """The bytes of a case: each line is a text, or a value that is written as one."""
    lines = (it if isinstance(it, str) else json.dumps(it) for it in lines_of(case, row))
    return "".join(f"{line}\n" for line in lines).encode()


def is_said(line: str, wanted: str) -> bool:
    """Whether a line begins as wanted, and ends so too where `..` stands between both."""
    begin, _, end = wanted.partition("..")
    return line.startswith(begin) and line.endswith(end)


def columns(text: bytes) -> list[int | None]:
    """The columns of the findings of this input."""
    return [json.loads(it)["column"] for it in printed(text, "--json") or []]


def fault_difference(case: Case, row: list[str]) -> str | None:
    """What is wrong with the explanation of a faulty input, or nothing."""
    said = explained(input_of(case, row)) or []
    if len(said) != len(case["said"]) or not all(map(is_said, said, case["said"])):
        return f"{case['name']}: {said}, not {case['said']}"
    if "columns" in case and (found := columns(input_of(case, row))) != case["columns"]:
        return f"{case['name']}: columns {found}, not {case['columns']}"
    return None


def is_refused(reply: str) -> bool:
    """Whether a line has to be explained that has this reply; that to `show` names an AS."""
    return reply.startswith(("no ", "topology no ")) or bool(re.match(r"refused \d+ ", reply))


def network_difference(name: str, text: bytes) -> tuple[str | None, int]:
    """What is wrong with the explanations of a network's lines, or nothing, and how many replies
    were compared."""
    run = children.run([program("scionet"), "run"], text)
    replies = run.stdout.decode().split("\n")[:-1]
    said = explained(text)
    if said is None:
        is_right = run.stderr not in (b"", b"scionet: topology refused\n")
        return None if is_right else f"{name}: a fault", 0
    begun = [SAID.match(line) for line in said]
    if None in begun:
        return f"{name}: {said[begun.index(None)]!r}", len(replies)
    found = [(int(it[1]), it[2]) for it in begun if it and it[2] != "warning"]
    wanted = [(number, reply) for number, reply in enumerate(replies, 1) if is_refused(reply)]
    return None if found == wanted else f"{name}: {found}, not {wanted}", len(replies)


def examples() -> Iterator[tuple[str, bytes]]:
    for name in ["fork", "pair", "row"]:
        yield name, (TOP / f"examples/{name}.txt").read_bytes()


def networks() -> Iterator[tuple[str, bytes]]:
    for file in sorted((TOP / "cases").glob("*.jsonl")):
        for line in file.read_text(encoding="utf-8").splitlines():
            case = json.loads(line)
            if case["args"][:1] == ["run"] and len(case["args"]) == 1:
                given = case.get("stdin", "").encode() or bytes.fromhex(case.get("stdin_hex", ""))
                yield f"{file.stem}: {case['name']}", given


def main(words: Sequence[str]) -> int:
    words_of = reader(__name__, __doc__)
    words_of.add_argument("programs", nargs="?", type=Path, metavar="FOLDER",
                          help="where scionet and scionet_view are, as out/unproved")
    if folder := words_of.parse_args(words).programs:
        PROGRAMS.update({name: folder.resolve() / name for name in PROGRAMS})
    row = (TOP / "examples/row.txt").read_text(encoding="utf-8").splitlines()
    table = (TOP / "cases/explain/faults.jsonl").read_text(encoding="utf-8").splitlines()
    faults = [json.loads(line) for line in table]
    wrong = [f"{name}: {said}" for name, text in examples() if (said := explained(text)) != []]
    with concurrent.futures.ThreadPoolExecutor(os.cpu_count()) as pool:
        wrong += filter(None, pool.map(lambda it: fault_difference(it, row), faults))
        told = [*pool.map(lambda it: network_difference(*it), [*examples(), *networks()])]
    wrong += [difference for difference, _ in told if difference]
    lines = sum(count for _, count in told)
    for it in wrong[:20]:
        print(f"explain: {it}")
    print(f"explain: {len(faults)} faults, {lines} lines, {len(wrong)} wrong")
    return 1 if wrong or not faults or not lines else 0

