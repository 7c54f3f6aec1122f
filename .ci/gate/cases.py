"""Runs the cases of `cases/*.jsonl` over the `scionet` that `rt ci` has proved and built.

A word, if there is one, is another program to run them over. `cases/README.md` says what a case is.
The last line has the numbers of cases, of the runs that they stand for, and of the runs that were
answered otherwise; the status is 1 where one was, or where there is no case.
"""
import concurrent.futures
import json
import os
import sys
from collections.abc import Iterable, Iterator, Sequence
from subprocess import CompletedProcess
from typing import Any

from gate import TOP, children
from gate.words import reader

SECONDS = 60  # of one run

Case = dict[str, Any]


def cases() -> Iterator[tuple[str, Case]]:
    """The cases, each with its file's name."""
    for file in sorted((TOP / "cases").glob("*.jsonl")):
        for line in file.read_text(encoding="utf-8").splitlines():
            yield file.stem, json.loads(line)


def changed(text: str, at: int, xor: int) -> str:
    """A packet in hexadecimal, behind an outcome or alone, with a byte changed by exclusive or."""
    outcome, blank, digits = text.rpartition(" ")
    packet = bytearray.fromhex(digits)
    packet[at] ^= xor
    return f"{outcome}{blank}{packet.hex()}"


def with_changed_byte(case: Case, at: int, xor: int) -> Case:
    """The case with a byte of its packet changed, also in the answer if it has the packet."""
    answer = case["stdout"]
    if not answer.startswith("refused"):
        answer = changed(answer, at, xor) + "\n"
    name = f"{case['name']}: byte {at} by {xor:02x}"
    return {**case, "name": name, "stdin": changed(case["stdin"], at, xor), "stdout": answer}


def runs(case: Case) -> Iterator[Case]:
    """The runs that a case stands for: one, or one for each change that it names."""
    if "prefixes" in case:
        given = case["stdin"]
        for end in range(0, len(given), case["prefixes"]):
            yield {**case, "name": f"{case['name']}: the first {end}", "stdin": given[:end]}
    elif "changed_bytes" in case:
        first, last = case["changed_bytes"]
        for at in range(first, last + 1):
            for xor in range(1, 256):
                yield with_changed_byte(case, at, xor)
    else:
        yield case


def given(case: Case) -> bytes:
    """The bytes of standard input."""
    if "stdin_hex" in case:
        return bytes.fromhex(case["stdin_hex"])
    return case["stdin"].encode()


def difference(case: Case, done: CompletedProcess[bytes]) -> str | None:
    """What the run should have done and did not, or nothing."""
    if done.returncode != case["status"]:
        return f"status {done.returncode}, not {case['status']}"
    outputs = [text.encode() for text in (case["stdout"], *case.get("or", []))]
    if done.stdout not in outputs:
        return f"output {done.stdout[-300:]!r}, not {outputs[0][-300:]!r}"
    if "stderr" in case and done.stderr != case["stderr"].encode():
        return f"message {done.stderr[-300:]!r}, not {case['stderr']!r}"
    if bool(done.stderr) != bool(case["status"]):
        return f"message {done.stderr[-300:]!r} with status {case['status']}"
    return None


def tried(program: str, case: Case) -> str | None:
    """What was wrong with this run, or nothing."""
    words = [program, *case["args"]]
    try:
        wrong = difference(case, children.run(words, given(case), SECONDS))
    except children.ChildFault as fault:
        wrong = str(fault)
    return wrong and f"{case['name']}: {wrong}"


def first_of_each(wrong: Iterable[tuple[str, str, str]]) -> list[str]:
    """A line for each case of which a run was wrong: what is wrong with the first."""
    lines: dict[tuple[str, str], str] = {}
    for file, name, said in wrong:
        lines.setdefault((file, name), f"cases: {file}: {said}")
    return [*lines.values()]


def main(words: Sequence[str]) -> int:
    words_of, built = reader(__name__, __doc__), str(TOP / "crates/scionet/out/scionet")
    words_of.add_argument("program", nargs="?", default=built, help="in place of the proved one")
    program = words_of.parse_args(words).program
    if not os.access(program, os.X_OK):
        sys.exit(f"cases: {program} is not there: rt ci builds it")
    named = [*cases()]
    each = [(file, case["name"], run) for file, case in named for run in runs(case)]
    with concurrent.futures.ThreadPoolExecutor(os.cpu_count()) as pool:
        found = [*pool.map(lambda it: tried(program, it[2]), each)]
    wrong = [(file, name, said) for (file, name, _), said in zip(each, found) if said]
    for line in first_of_each(wrong)[:20]:
        print(line)
    print(f"cases: {len(named)} in {len(each)} runs, {len(wrong)} wrong")
    return 1 if wrong or not named else 0

