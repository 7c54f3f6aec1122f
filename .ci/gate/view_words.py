"""Runs `scionet_view` with words and inputs that it has to refuse, or of which there is something to
tell on standard error (`cases/views/words.jsonl`).

Each row has the words, the input, the status, and standard error: its beginning, if that begins
with `error:`, as `clap` refuses words, or has no end of a line, and else all of it. Standard output
has to be that of the row (`stdout`, or `stdout_hex` in hexadecimal), and empty if the row has none.
A report whose reader goes after one line has to end without a word. The last line has the numbers
of runs and of those that came otherwise; the status is 1 where one did."""
import json
import os
import subprocess
import sys
from collections.abc import Sequence
from pathlib import Path
from typing import Any

from gate import TOP, children
from gate.words import reader

ROWS = "cases/views/words.jsonl"
PROGRAM = TOP / "crates/scionet_view/out/scionet_view"

# The ASes of the network whose report is not read to its end: it has some 60 KB.
ASES = 40


def difference(row: dict[str, Any], status: int, printed: bytes, told: str) -> str | None:
    """How a run differs from its row."""
    if status != row["status"]:
        return f"status {status}"
    if printed != bytes.fromhex(row.get("stdout_hex", "")) + row.get("stdout", "").encode():
        return f"prints {printed!r}"
    wanted = row["stderr"]
    is_whole = not wanted or wanted.endswith("\n") and not wanted.startswith("error:")
    is_right = told == wanted if is_whole else told.startswith(wanted)
    return None if is_right else f"says {told!r}"


def left(program: Path) -> str | None:
    """What is wrong with the end of a report whose reader goes after its first line, long before
    its last one: it has status 0, and nothing to tell."""
    ases = [
        {"ia": f"1-ff00:0:{place:x}", "core": place < 2, "exp": 63, "key": "6b", "routers": 1}
        for place in range(1, ASES + 1)
    ]
    links = [
        {"kind": "child", "a": {"ia": ases[0]["ia"], "if": place, "router": 0},
         "b": {"ia": one["ia"], "if": 1, "router": 0}} for place, one in enumerate(ases[1:], 1)
    ]
    topology = json.dumps({"ases": ases, "links": links})
    lines = children.output([program, "beacons"], topology.encode())
    with subprocess.Popen([program, "report"], stdin=subprocess.PIPE, stdout=subprocess.PIPE,
                          stderr=subprocess.PIPE) as run:
        assert run.stdin and run.stdout and run.stderr
        run.stdin.write(lines)
        run.stdin.close()
        run.stdout.readline()
        run.stdout.close()
        told = run.stderr.read().decode()
    return f"status {run.returncode}, says {told!r}" if run.returncode or told else None


def main(words: Sequence[str]) -> int:
    reader(__name__, __doc__).parse_args(words)
    if not os.access(PROGRAM, os.X_OK):
        sys.exit(f"view_words: {PROGRAM} is not there: rt ci builds it")
    rows = [json.loads(it) for it in (TOP / ROWS).read_text(encoding="utf-8").splitlines()]
    wrong = 0
    for row in rows:
        run = children.run([str(PROGRAM), *row["args"]], row["stdin"].encode())
        found = difference(row, run.returncode, run.stdout, run.stderr.decode())
        if found:
            wrong += 1
            print(f"view_words: {row['args']}: {found}")
    if found := left(PROGRAM):
        wrong += 1
        print(f"view_words: a report that is not read to its end: {found}")
    print(f"view_words: {len(rows) + 1} runs, {wrong} wrong")
    return 1 if wrong or not rows else 0
