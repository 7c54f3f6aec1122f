"""What the check of refused words of the views tells of another answer."""
import unittest
from typing import Any

from gate.view_words import difference

ROW: dict[str, Any] = {
    "args": ["report", "--from", ""], "stdin": "", "status": 2, "stderr": "scionet_view: no 1",
}


class ViewWords(unittest.TestCase):
    def test_right(self) -> None:
        self.assertIsNone(difference(ROW, 2, b"", "scionet_view: no 1 NoDash: a dash\n"))

    def test_each_part(self) -> None:
        """Another status, a line that is printed, and another message are told."""
        for status, printed, told in (
            (0, b"", "scionet_view: no 1\n"), (2, b"x", "scionet_view: no 1\n"),
            (2, b"", "scionet: no 1\n"), (2, b"", ""),
        ):
            self.assertIsNotNone(difference(ROW, status, printed, told))

    def test_printed(self) -> None:
        """A whole message has nothing behind it, and what is printed is the row's."""
        row = {**ROW, "stdout": "x\n", "stderr": "scionet_view: no 1\n"}
        self.assertIsNone(difference(row, 2, b"x\n", "scionet_view: no 1\n"))
        self.assertIsNotNone(difference(row, 2, b"", "scionet_view: no 1\n"))
        self.assertIsNotNone(difference(row, 2, b"x\n", "scionet_view: no 1\nmore\n"))
        self.assertIsNotNone(difference({**row, "stderr": ""}, 2, b"x\n", "more\n"))
        whole = {**ROW, "stdout_hex": "ff", "stderr": ""}
        self.assertIsNone(difference(whole, 2, b"\xff", ""))


if __name__ == "__main__":
    unittest.main()
