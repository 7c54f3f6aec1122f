"""What the check of types says of packages whose types are damaged."""
import contextlib
import io
import shutil
import unittest
from collections.abc import Callable

from gate import typed
from tests.copies import changed, damaged

PYTHON, JAVASCRIPT = "bindings/python/scion/__init__.py", "bindings/js/scion.d.mts"
MODULE = "bindings/js/scion.mjs"


class Typed(unittest.TestCase):
    def is_told(
        self, check: Callable[[], int], path: str, old: str, new: str, fault: str
    ) -> None:
        with damaged(changed(path, old, new)), contextlib.redirect_stdout(io.StringIO()) as out:
            count = check()
        self.assertGreater(count, 0)
        self.assertIn(fault, out.getvalue())

    @unittest.skipUnless(shutil.which("mypy"), "mypy")
    def test_python(self) -> None:
        """An argument that takes anything, and a call without a type."""
        step = "def step(self, router: Router, now: "
        rows = (
            (f"{step}int", f"{step}Any", 'Unused "type: ignore'),
            ("data: Bytes) -> int", "data: Bytes)", "[no-untyped-def]"),
        )
        for row in rows:
            self.is_told(typed.in_python, PYTHON, *row)

    @unittest.skipUnless(shutil.which("tsc"), "tsc")
    def test_javascript(self) -> None:
        """A key that may be anything, and another number; and a call that the module has lost."""
        rows = (
            (JAVASCRIPT, "key: Uint8Array", "key: unknown", "Unused '@ts-expect-error'"),
            (JAVASCRIPT, "EXPIRED: 93", "EXPIRED: 94", "Type 'false' is not assignable"),
            (MODULE, "headerReverse(bytes) {", "headerBack(bytes) {", "Type 'false' is not"),
        )
        for row in rows:
            self.is_told(typed.in_javascript, *row)
