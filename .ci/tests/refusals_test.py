"""What refusals.py says of numbers and names that differ."""
import unittest

from gate.fault_tables import by_number
from gate.refusals import misnamed

NAMES = {31: "TooLong", 51: "Expired", 79: "Expired", 94: "BadMac"}


class Numbers(unittest.TestCase):
    def test_one_name_of_several_numbers(self) -> None:
        self.assertEqual(by_number([*NAMES.items(), (31, "TooLong")]), NAMES)

    def test_two_names_of_one_number(self) -> None:
        with self.assertRaisesRegex(SystemExit, "94 is BadKey and BadMac"):
            by_number([*NAMES.items(), (94, "BadKey")])

    def test_right_pairs(self) -> None:
        for text in ("`94 BadMac`", "| 51 Expired, 79 Expired |", "94 of them", "31 ASes"):
            self.assertEqual([*misnamed(text, NAMES)], [], text)
        for text in ("64 Linux machines", "1,094 BadMac", "94 KB", "94\nBadMac", "94 Expiries"):
            self.assertEqual([*misnamed(text, NAMES)], [], text)

    def test_wrong_pairs(self) -> None:
        for pair in ("93 BadMac", "94 BadMak", "94 Expired", "50 Expired"):
            self.assertEqual([*misnamed(f"it is `{pair}`", NAMES)], [pair])
