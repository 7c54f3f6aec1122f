"""What documents.py says of commands that print something else, and of what a machine lacks."""
import contextlib
import io
import os
import tempfile
import unittest
from pathlib import Path
from unittest import mock

from gate import documents
from gate.documents import compare
from gate.machine import Machine

PAGE = """# A page
```sh
echo a
it=b
```
```text
a
```
```sh skip
echo not run
```
```sh
echo "$it" >&2
```
```text
b
```
```sh
tools/topo.py
```
"""


class Documents(unittest.TestCase):
    def compared(self, page: str) -> tuple[int, int, str, Machine]:
        """The blocks of a page, how many are wrong, what is told, and what was missed."""
        before, machine, out = os.getcwd(), Machine(), io.StringIO()
        with tempfile.TemporaryDirectory() as room, contextlib.redirect_stdout(out):
            os.chdir(room)
            try:
                for folder in documents.PROVED:
                    folder.mkdir(parents=True)
                program = documents.PROVED[0] / "scionet"
                program.write_text("#!/bin/sh\necho proved\n", encoding="utf-8")
                program.chmod(0o755)
                Path("page.md").write_text(page, encoding="utf-8")
                with mock.patch.object(documents, "PACKAGES", {"tools/topo.py": "no_such_module"}):
                    count, wrong = compare("sh", "page.md", machine)
            finally:
                os.chdir(before)
        return count, wrong, out.getvalue(), machine

    def test_a_right_page(self) -> None:
        count, wrong, said, machine = self.compared(PAGE)
        self.assertEqual((count, wrong, said), (2, 0, ""))
        self.assertEqual(machine.told("a: 1"), "a: 1; skipped: no_such_module")

    def test_another_output(self) -> None:
        for old, new in (("echo a", "echo c"), ("a\n```\n```sh skip", "d\n```\n```sh skip")):
            count, wrong, said, _ = self.compared(PAGE.replace(old, new))
            self.assertEqual((count, wrong), (2, 1))
            self.assertIn("documents: it printed", said)

    def test_the_programs(self) -> None:
        """Those that `rt ci` has built stand on the path, before all others."""
        page = PAGE.replace("echo a", "scionet run").replace("```text\na\n", "```text\nproved\n")
        self.assertEqual(self.compared(page)[:2], (2, 0))

    def test_another_folder(self) -> None:
        """A block that leaves the shell in another folder is wrong, and so is each one behind."""
        count, wrong, said, _ = self.compared(PAGE.replace("it=b", "it=b; cd crates"))
        self.assertEqual((count, wrong), (2, 2))
        self.assertIn("the shell is in another folder", said)
        self.assertEqual(self.compared(PAGE.replace("it=b", "it=b; (cd crates)"))[:2], (2, 0))

    def test_no_commands(self) -> None:
        with self.assertRaisesRegex(SystemExit, "has no commands"):
            self.compared("# A page\n")

    def test_no_end(self) -> None:
        with mock.patch.object(documents, "SECONDS", 0.2):
            with self.assertRaisesRegex(Exception, "no end within 0.2 seconds, and killed: sh"):
                self.compared(PAGE.replace("echo a", "sleep 60"))
