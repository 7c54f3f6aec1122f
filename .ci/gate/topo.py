"""Damages the topology file of `examples/`, and gives what `tools/topo.py` makes of the copies to
`scionet run`: a topology that it prints has to be one that the program takes. The last line has the
number of topologies and of those that were refused; the status is 1 where one was."""
import contextlib
import importlib.util
import io
import random
import re
import sys
import tempfile
from collections.abc import Sequence
from pathlib import Path
from types import ModuleType
from unittest import mock

from gate import TOP, children
from gate.machine import Machine
from gate.words import reader

READER, EXAMPLE = TOP / "tools" / "topo.py", (TOP / "examples" / "ten.topo").read_bytes()
SCIONET = TOP / "crates/scionet/out/scionet"

# The damaged copies, and the least number of them that still are topologies.
SEED, MUTATED, LEAST = 91, 2000, 100

# What is put into a file: signs of YAML, and numbers and addresses at their ends and behind them.
PARTS = [it.encode() for it in (
    *"[]{}&*!|>%@,:?-#'\"\t\0\n", "- ", "? ", ": ", "---\n", "...\n", "<<: *a", "&a ", "*a",
    "!!int ", "!!python/name:os.system ", "null", "~", "true", "1e9", "1" * 5000,
    "#0", "#1", "#65535", "#65536",
    "1-ff00:0:110", "1-FF00:0:110", "0-1", "65536-1", "1-4294967296", "1-::", "PEER", "PARENT",
    "\"\\ud800\"", "\"\\Uffffffff\"", "\ufeff", "\u2028", "\u0661", "%YAML 9.9\n",
)] + [b"\xff", b"\xed\xa0\x80", b"[" * 100, b"{a: " * 100]

NUMBER, CAPITALS = re.compile(rb"#\d+"), re.compile(rb"[A-Z]+")
WORDS = [b"A", b"B", b"core", b"CHILD", b"Parent", b"PEER"]


class Made:
    """A file with this content, and what `tools/topo.py` makes of it: its line, or its fault."""

    def __init__(self, reader: ModuleType, path: Path, content: bytes, *words: str) -> None:
        path.write_bytes(content)
        out, self.fault = io.StringIO(), ""
        with (
            mock.patch.object(sys, "argv", ["topo.py", *words, str(path)]),
            contextlib.redirect_stdout(out),
            contextlib.redirect_stderr(io.StringIO()),
        ):
            try:
                reader.main()
            except SystemExit as ended:
                self.fault = str(ended)
        self.printed = out.getvalue()


def loaded() -> ModuleType:
    """The program as a module."""
    spec = importlib.util.spec_from_file_location("topo", READER)
    assert spec is not None and spec.loader is not None
    module = importlib.util.module_from_spec(spec)
    spec.loader.exec_module(module)
    return module


def mutated(rng: random.Random, content: bytes) -> bytes:
    """The file with some bytes or lines changed, left out, repeated or put in."""
    for _ in range(rng.choice((1, 1, 1, 2, 5))):
        at, to = sorted(rng.choices(range(len(content) + 1), k=2))
        lines = content.splitlines(keepends=True) or [b""]
        line, other = rng.randrange(len(lines)), rng.choice(lines)
        content = rng.choice((
            lambda: content[:at] + rng.choice(PARTS) + content[at:],
            lambda: content[:at] + bytes([rng.randrange(256)]) + content[at + 1:],
            lambda: content[:at] + content[min(to, at + rng.randrange(1, 20)):],
            lambda: content[:at],
            lambda: b"".join([*lines[:line], other, *lines[line:]]),
            lambda: b"".join([*lines[:line], *lines[line + 1:]]),
            lambda: content[:at] + NUMBER.sub(b"#%d" % rng.randrange(70_000), content[at:], 1),
            lambda: content[:at] + CAPITALS.sub(rng.choice(WORDS), content[at:], 1),
        ))()
    return content


def main(words: Sequence[str]) -> int:
    reader(__name__, __doc__).parse_args(words)
    machine, rng, lines, refused = Machine(), random.Random(SEED), set[str](), 0
    if machine.has_modules("yaml"):
        topo = loaded()
        with tempfile.TemporaryDirectory() as room:
            for _ in range(MUTATED):
                lines.add(Made(topo, Path(room) / "file.topo", mutated(rng, EXAMPLE)).printed)
        for line in sorted(lines - {""}):
            reply = children.run([SCIONET, "run"], line.encode()).stdout
            if reply != b"topology ok\n":
                refused += 1
                print(f"topo: {line!r} is answered by {reply!r}")
    print(machine.told(f"topo: {len(lines - {''})} topologies, {refused} refused"))
    return 1 if refused or (not machine.missed and len(lines) < LEAST) else 0
