"""What is tried by hand, and what of it counts as refused."""
import tempfile
import unittest
from pathlib import Path

from gate import TOP
from gate.by_hand import REFUSED, copy_into
from tests.copies import told

# What `rt must-fail` says of edits; the first two are refused.
SAID = """\
rt: must-fail isd_as/one.edit: refused, as it must be: src/writing.rt:1:2: error: `exact`: no
rt: must-fail isd_as/two.edit: refused, as it must be
rt: must-fail isd_as/three.edit: refused, as it must be (only because a proof file names what ..
rt: must-fail isd_as/four.edit: refused, as it must be (only by a limit of the prover, which ..
rt: must-fail isd_as/five.edit: NOT REFUSED: the crate is still proved with this edit (one that ..
rt: must-fail isd_as/six.edit: BAD EDIT: an 'old:' text is in src/writing.rt 0 times, and not once
"""


class ByHand(unittest.TestCase):
    def test_what_counts(self) -> None:
        self.assertEqual(REFUSED.findall(SAID), [("isd_as", "one"), ("isd_as", "two")])

    def test_the_copy(self) -> None:
        """It has the edits of the crates that are named, and no others, where they are tried."""
        with tempfile.TemporaryDirectory() as folder:
            copy_into(Path(folder), ["isd_as"])
            edits = {it.parts[-3:] for it in Path(folder).glob("crates/*/must-fail*/*.edit")}
            wanted = (TOP / "crates/isd_as/must-fail-by-hand").glob("*.edit")
            self.assertEqual(edits, {("isd_as", "must-fail", it.name) for it in wanted})
            self.assertTrue(Path(folder, "crates.txt").is_file())

    def test_an_unknown_crate(self) -> None:
        status, said = told("by_hand", "isd_ass")
        self.assertEqual(status, 2)
        self.assertIn("no edits of isd_ass", said)


if __name__ == "__main__":
    unittest.main()
