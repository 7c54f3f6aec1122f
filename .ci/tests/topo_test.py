"""What tools/topo.py makes of files that are right, wrong and damaged, and that no file ends in a
traceback."""
import importlib.util
import json
import random
import re
import sys
import tempfile
import time
import unittest
from pathlib import Path
from types import ModuleType

from gate import TOP, children
from gate.topo import EXAMPLE, LEAST, MUTATED, READER, SEED, Made, loaded, mutated

SECONDS = 10

AS = "ASes: {1-1: {core: true}, 1-2: {core: true}, 1-3: , 2-4: }\n"

# A file that is wrong, the line of its fault, and what is said of it.
FAULTS = (
    ("", 1, "ASes has 0 members; wanted 1 to 1024"),
    ("[]", 1, "the file is no map; wanted a map"),
    ("ASes: {}\n", 1, "ASes has 0 members; wanted"),
    ("ASes:\n  1-1: 3\n", 2, r"ASes\[1-1\] is no map; wanted a map"),
    ("ASes:\n  1-1:\n  1-0:0:1:\n", 3, "1-0:0:1 is given twice, first as 1-1; wanted it once"),
    ("ASes:\n  1-1:\n  1-1:\n", 3, "1-1 is given twice; wanted it once"),
    ("ASes: {1-1: {core: true,\n core: true}}", 2, "core is given twice"),
    ("ASes: {1-1: {core: \"true\"}}", 1, "core of 1-1 is no plain word; wanted true or false"),
    ("ASes: {1-1: {core: 1}}", 1, "core of 1-1 is 1; wanted true or false"),
    *((f"ASes:\n  {it}:\n", 2, f"{it} is no address of an AS; wanted")
      for it in ("0-1", "1-0", "65536-1", "1-4294967296", "1-1:2", "1-0:0:10000", "x")),
    (AS + "links: 3\n", 2, "links is no list; wanted a list"),
    (AS + "links:\n  - 3\n", 3, r"links\[0\] is no map; wanted a map"),
    (AS + "links:\n  - {a: 1-1#1, b: 1-2#1}\n", 3, "linkAtoB is missing; wanted CORE"),
    (AS + "links:\n  - {a: 1-1#1, b: 1-2#1, linkAtoB: UP}\n", 3, "linkAtoB is UP; wanted CORE"),
    (AS + "links:\n  - {a: 1-1#1, linkAtoB: CORE}\n", 3, r"links\[0\].b is missing; wanted an end"),
    *((AS + f"links:\n  - a: {it}\n    b: 1-2#1\n    linkAtoB: CORE\n", 3, "a is .*; wanted an end")
      for it in ("1-1", "1-1#0", "1-1#65536", "1-1#" + "1" * 5000, "1-1#\u0661", "1-1-#1",
                 "[1-1#1]")),
    (AS + "links:\n  - {a: 1-9#1, b: 1-2#1, linkAtoB: CORE}\n", 3, "wanted an AS that stands in"),
    (AS + "links:\n  - {a: 1-1#1, b: 1-2#1, linkAtoB: CORE}\n"
     "  - {a: 1-1#2, b: 1-2#1, linkAtoB: CORE}\n", 4, "wanted an interface without another link"),
    (AS + "links:\n  - {a: 1-1#1, b: 1-1#2, linkAtoB: CORE}\n", 3, "wanted ends in two ASes"),
    (AS + "links:\n  - {a: 1-1#1, b: 1-3#2, linkAtoB: CORE}\n", 3, "wanted two core ASes"),
    (AS + "links:\n  - {a: 1-1#1, b: 2-4#2, linkAtoB: CHILD}\n", 3, "wanted one ISD"),
    (AS + "links:\n  - {a: 1-2#1, b: 1-1#2, linkAtoB: PARENT}\n", 3, "wanted a child that is no"),
    (AS + "links:\n" + "".join(f"  - {{a: 1-1#{it}, b: 1-2#{it}, linkAtoB: CORE}}\n"
                               for it in range(1, 66)), 67, "wanted at most 64 routers"),
    ("ASes: {%s}" % ", ".join(f"1-{it}: " for it in range(1, 1026)), 1, "ASes has 1025 members"),
    (AS + "links: [%s]" % ",".join(["{}"] * 4097), 2, "links has 4097 members; wanted at most"),
    ("a:\n\tb", 2, "wanted YAML"),
    ("ASes: {1-1: }\n---\n", 2, "a second document begins; wanted one"),
    ("ASes: !!python/object/apply:os.abort []", 1, "there is the tag .*; wanted none"),
    ("ASes: &a {1-1: *a}", 1, "no value before it has the anchor a"),
    ("ASes: {<<: 3}", 1, "the member << is no map; wanted a map"),
    ("ASes: {[1]: }", 1, "the name of a member is a list or a map; wanted a text"),
    ("ASes: \n\0", 2, r"there is the sign \\x00; wanted printable signs"),
)

# Files that would take much, were they read to their end.
LARGE = (
    ("a0: &a0 [x]\n" + "".join(f"a{it}: &a{it} [*a{it - 1}, *a{it - 1}]\n" for it in range(1, 64)),
     "too many values; wanted at most"),
    ("a: &a {<<: [%s]}" % ",".join(["{x: 1}"] * 400_000), "too many values; wanted at most"),
    *((it * 200_000, "too deep; wanted at most 16 levels") for it in ("[", "{a: ", "? ")),
    ("#" * (5 << 20), "too large; wanted at most"),
)


@unittest.skipUnless(importlib.util.find_spec("yaml"), "yaml")
class Topo(unittest.TestCase):
    topo: ModuleType
    path: Path

    @classmethod
    def setUpClass(cls) -> None:
        cls.topo, room = loaded(), tempfile.TemporaryDirectory()
        cls.addClassCleanup(room.cleanup)
        cls.path = Path(room.name) / "file.topo"

    def read(self, content: bytes, *words: str) -> tuple[str, str]:
        """What is printed over a file, and the fault, which is empty if there is none."""
        made = Made(self.topo, self.path, content, *words)
        return made.printed, made.fault

    def fault(self, content: bytes) -> str:
        """The fault of a file, behind the name of the file."""
        printed, fault = self.read(content)
        self.assertEqual(printed, "")
        begin = f"topo: {self.path}:"
        self.assertTrue(fault.startswith(begin), fault)
        return fault.removeprefix(begin)

    def test_what_is_made(self) -> None:
        content = AS + (
            "links:\n  - &it {a: 1-1-A#1, b: 1-2#1, linkAtoB: CORE}\n"
            "  - {<<: *it, a: 1-1-A#2, b: 1-2#2}\n"
            "  - {a: 1-3#65535, b: 1-0:0:1-B#3, linkAtoB: parent}\n"
            "  - {a: 1-3#9, b: 2-4#9, linkAtoB: PEER}\n")
        made = json.loads(self.read(content.encode(), "--exp", "255")[0])
        ases = [(it["ia"], it["core"], it["exp"], it["routers"]) for it in made["ases"]]
        self.assertEqual(ases, [
            ("1-1", True, 255, 2), ("1-2", True, 255, 2), ("1-3", False, 255, 1),
            ("2-4", False, 255, 1)])
        self.assertEqual(len({it["key"] for it in made["ases"]}), 4)
        links = [(it["kind"], *(tuple(it[end].values()) for end in "ab")) for it in made["links"]]
        self.assertEqual(links, [
            ("core", ("1-1", 1, 0), ("1-2", 1, 0)), ("core", ("1-1", 2, 0), ("1-2", 2, 1)),
            ("child", ("1-1", 3, 1), ("1-3", 65535, 0))])

    def test_faults(self) -> None:
        for content, line, wanted in FAULTS:
            with self.subTest(content[-80:]):
                self.assertRegex(self.fault(content.encode()), f"^{line}: .*{wanted}")

    def test_expiry(self) -> None:
        for text, status in (("0", ""), ("255", ""), ("256", "2"), ("-1", "2"), ("1" * 5000, "2")):
            self.assertEqual(self.read(EXAMPLE, "--exp", text)[1], status)

    def test_large(self) -> None:
        for content, wanted in LARGE:
            with self.subTest(content[:20]):
                begun = time.process_time()
                self.assertRegex(self.fault(content.encode()), wanted)
                self.assertLess(time.process_time() - begun, SECONDS)

    def test_streams(self) -> None:
        """A line that can't be written, and a file that can't be read."""
        for path, wanted in (("/dev/full", "was not written"), ("/dev/null", "Is a directory")):
            given = TOP / "examples" / "ten.topo" if path == "/dev/full" else TOP
            shell = f'exec "$@" > {path}'
            done = children.run(["sh", "-c", shell, "sh", sys.executable, READER, given])
            told = done.stderr.decode()
            self.assertRegex(told.splitlines()[-1], wanted)
            self.assertEqual((done.returncode, "Traceback" in told), (1, False))

    def test_mutated(self) -> None:
        rng, count = random.Random(SEED), 0
        for _ in range(MUTATED):
            content = mutated(rng, EXAMPLE)
            with self.subTest(content):
                printed, fault = self.read(content)
                if fault:
                    place = re.escape(str(self.path))
                    self.assertRegex(fault, rf"^topo: {place}:\d+: .*; wanted ")
                else:
                    count += bool(printed)
        self.assertGreater(count, LEAST)

