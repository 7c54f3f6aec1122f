"""What the checks over built programs say of answers that are damaged."""
import importlib
import shutil
import subprocess
import sys
import tempfile
import unittest
from pathlib import Path
from types import ModuleType
from unittest import mock

from gate import TOP, explain, theorem
from gate.networks import Hop
from gate.pictures import fault_of, overlaid, topology
from gate.playground_server import Checks

FAULT = {"name": "a key", "at": ["ases", 0, "key"], "is": "6x", "said": ["line 1: topology no 11"]}
ROW = (TOP / "examples/row.txt").read_text(encoding="utf-8").splitlines()
REFUSED = b"topology ok\nno 140 BadLine\n"


FINDING = (
    '{"column":null,"found":"7","line":2,"member":"do","name":"BadLine","refusal":140,'
    '"reply":"no 140 BadLine","text":"do: found 7, wanted a text","wanted":"a text"}'
)


class Explain(unittest.TestCase):
    def test_faults(self) -> None:
        for said, is_right in (
            (["line 1: topology no 11 BadField: ases[0].key: found"], True),
            (["line 1: topology no 12 DuplicateAs"], False),
            ([], False),
            (["line 1: topology no 11 BadField", "line 2: warning: "], False),
            (None, False),
        ):
            with mock.patch.object(explain, "explained", lambda _, said=said: said):
                self.assertEqual(explain.fault_difference(FAULT, ROW) is None, is_right, said)

    def test_ends(self) -> None:
        self.assertTrue(explain.is_said("line 1: a b c", "line 1: a.. c"))
        self.assertFalse(explain.is_said("line 1: a b c", "line 1: a.. d"))
        self.assertFalse(explain.is_said("line 1: a b c", "line 2: a.. c"))

    def compared(self, said: list[str]) -> bool:
        """Whether it is right to say this of a network whose second line is refused."""
        done = subprocess.CompletedProcess([], 0, REFUSED, b"")
        with (
            mock.patch.object(explain.children, "run", lambda *_: done),
            mock.patch.object(explain, "program", str),
            mock.patch.object(explain, "explained", lambda _: said),
        ):
            fault, count = explain.network_difference("a network", b"")
        self.assertEqual(count, 2)
        return fault is None

    def test_networks(self) -> None:
        self.assertTrue(self.compared(["line 2: no 140 BadLine: the line: found no text"]))
        self.assertTrue(self.compared(["line 1: warning: mtu", "line 2: no 140 BadLine: x"]))
        self.assertFalse(self.compared([]))
        for line in ("line 1: no 140 BadLine: x", "line 2: no 41 NoInterface: x", "x"):
            self.assertFalse(self.compared([line]), line)

    def test_turns(self) -> None:
        self.assertTrue(explain.is_refused("refused 100 LinkDown"))
        self.assertTrue(explain.is_refused("refused 90 BadHeader 20 Short"))
        self.assertFalse(explain.is_refused("refused 90-ff00:0:110 0 94 BadMac"))

    def test_status(self) -> None:
        for status, text, is_right in ((3, b"a\n", True), (0, b"", True), (0, b"a\n", False),
                                       (3, b"", False), (1, b"a\n", False)):
            done = subprocess.CompletedProcess([], status, text, b"")
            with (
                mock.patch.object(explain.children, "run", lambda *_, done=done: done),
                mock.patch.object(explain, "program", str),
            ):
                self.assertEqual(explain.printed(b"") is not None, is_right)

    def test_objects(self) -> None:
        self.assertEqual(explain.line_of(FINDING),
                         "line 2: no 140 BadLine: do: found 7, wanted a text")
        for old, new in (('"refusal":140', '"refusal":141'), ('"found":"7"', '"found":"8"'),
                         ('"column":null,', ""), (",", ", ")):
            self.assertNotIn("line 2:", explain.line_of(FINDING.replace(old, new, 1)))


class Theorem(unittest.TestCase):
    def setUp(self) -> None:
        self.network = theorem.Network("1 None 0", None)
        (one, number), (other, entered) = next(iter(self.network.topology.far.items()))
        self.between = [one, other]
        self.reply = f"ask 0 1; {one}#0,{number} {other}#{entered},0"

    def is_right(self, reply: str, least: int) -> bool:
        return bool(self.network.has_answer(0, self.between, [], least, reply))

    def test_answers(self) -> None:
        self.assertTrue(self.is_right(self.reply, 1))
        self.assertTrue(self.is_right("ask 0 0", 0))
        self.assertFalse(self.is_right("ask 0 0", 1))
        for first in ("ask 1 1", "ask 0 2"):
            self.assertFalse(self.is_right(self.reply.replace("ask 0 1", first), 0), first)
        self.assertFalse(self.is_right(self.reply.replace(self.between[0], self.between[1]), 0))

    def test_known_paths(self) -> None:
        """A request without a policy has a path where one is known or a segment joins the ends."""
        walk = [Hop(self.between[0], 0, 1), Hop(self.between[1], 2, 0)]
        self.assertFalse(self.network.has_path(self.between, [], []))
        self.assertTrue(self.network.has_path(self.between, [walk], []))
        self.network.joined.add(frozenset(self.between))
        self.assertTrue(self.network.has_path(self.between, [], []))


class Pictures(unittest.TestCase):
    def setUp(self) -> None:
        self.picture = Path("docs/forty.svg").read_text(encoding="utf-8")
        self.description = Path("docs/forty.dot").read_text(encoding="utf-8")

    def test_a_whole_one(self) -> None:
        self.assertEqual(fault_of(self.picture, self.description), "")

    def test_what_is_lost(self) -> None:
        lines = self.description.splitlines(True)
        link = next(line for line in lines if " -- " in line)
        node = next(line for line in lines if "3-ff00:0:3a4" in line)
        for it in (link, node):
            self.assertIn("too much", fault_of(self.picture, self.description.replace(it, "", 1)))
        changed = self.picture.replace("<title>1&#45;ff00:0:181</title>", "<title>1</title>")
        self.assertNotEqual(fault_of(changed, self.description), "")

    def test_a_topology(self) -> None:
        self.assertEqual(topology(self.description).count('"ia"'), 40 + 2 * 65)

    @unittest.skipUnless(shutil.which("dot"), "dot")
    def test_lines_upon_others(self) -> None:
        """Lines between two ASes side by side, which begin at either end, lie upon one another."""
        self.assertEqual(overlaid(self.description), [])
        ases = "".join(f"subgraph cluster_{it[0]} {{ {it}; }}\n" for it in ("i1", "i2", "j1", "k1"))
        lines = "j1 -- i2 [constraint=false]; i2 -- j1 [constraint=false];"
        found = overlaid(f"graph network {{ newrank=true;\n{ases}{lines} }}")
        self.assertEqual(sorted(found), ["i2 -- j1", "j1 -- i2"])


def playground() -> ModuleType:
    """The server of the page, as a module."""
    tools = str(TOP / "tools")
    with mock.patch.object(sys, "path", [tools, *sys.path]):
        return importlib.import_module("playground")


class Playground(unittest.TestCase):
    def page(self, version: str) -> str:
        """The page over programs that say this of themselves."""
        module = playground()
        with tempfile.TemporaryDirectory() as room:
            for name in ("scionet", "scionet_view"):
                program = Path(room, name)
                program.write_text(f"#!/bin/sh\necho {version} >&2\nexit 2\n", encoding="utf-8")
                program.chmod(0o755)
            programs = module.Programs(Path(room))
            return str(module.Document(module.PAGE, programs.is_proved()).bytes.decode())

    def test_what_is_proved(self) -> None:
        self.assertIn("of the proved program", self.page("scionet 0.1.0, proved in the logic a"))

    def test_what_is_not_proved(self) -> None:
        """The page does not call a program proved that calls itself unproved."""
        page = self.page("scionet 0.1.0, unproved, for the logic a")
        self.assertNotIn("of the proved program", page)
        self.assertIn("built here <b>without a proof</b>", page)

    def test_checks(self) -> None:
        checks = Checks()
        with mock.patch("builtins.print") as told:
            checks.same("a", 1, 1)
            checks.same("b", 1, 2)
        self.assertEqual((checks.count, checks.wrong, told.call_count), (2, 1, 1))
