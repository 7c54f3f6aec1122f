"""Which compilers count as having checks of memory."""
import shutil
import tempfile
import unittest

from gate import sanitized


class Sanitized(unittest.TestCase):
    def has_checks(self, front: list[str], *behind: str) -> bool:
        with tempfile.TemporaryDirectory() as room:
            return sanitized.are_there((front, [*behind]), room)

    def test_none(self) -> None:
        """No compiler, or one whose checks see one of the two faults alone."""
        self.assertFalse(self.has_checks(["false"]))
        self.assertFalse(self.has_checks(["true"]))

    @unittest.skipUnless(shutil.which("gcc"), "gcc")
    def test_gcc(self) -> None:
        for check in ("address", "undefined"):
            self.assertFalse(self.has_checks(["gcc"], f"-fno-sanitize={check}"), check)
