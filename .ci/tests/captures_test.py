"""What the check of captures says of one that is damaged."""
import shutil
import unittest

from gate.captures import (
    Broken, Datagram, difference, read, tshark_difference, unwrapped, whole, written,
)

SAYS = "10.0.0.100", "2001:db8::1", 17
FRAME = bytes.fromhex(
    "0001ff00000001100001ff0000000111000020000000b39600000064"
    "003f00020000110e4c1d3dad003f00000001a1a2a3a4a5a6"
)
SENT = [
    Datagram(1000, "10.0.1.100", "10.0.1.1", whole(FRAME + b"hi", SAYS)),
    Datagram(1007, "10.0.1.1", "10.0.0.1", whole(FRAME, SAYS)),
]
FILE = written(SENT)


def changed(place: int, change: int = 1) -> bytes:
    data = bytearray(FILE)
    data[place] ^= change
    return bytes(data)


class Captures(unittest.TestCase):
    def test_whole(self) -> None:
        """The fields of a whole packet stand where the layout has them."""
        packet = SENT[0].packet
        self.assertEqual(packet[:12].hex(), "00000001" "11" "15" "0002" "01" "30" "0000")
        self.assertEqual((packet[12:28], packet[-2:]), (FRAME[:16], b"hi"))
        self.assertEqual(packet[28:48].hex(), "20010db8" + "0" * 23 + "1" "0a000064")

    def test_right(self) -> None:
        self.assertEqual(read(FILE), SENT)
        self.assertIsNone(difference(FILE, SENT))

    def test_each_byte(self) -> None:
        """Another byte anywhere is told, and so is a file that is cut or has one more."""
        for place in range(len(FILE)):
            self.assertIsNotNone(difference(changed(place), SENT), place)
            self.assertIsNotNone(difference(FILE[:place], SENT), place)
        self.assertIsNotNone(difference(FILE + b"\0", SENT))

    def test_datagrams(self) -> None:
        others: list[list[Datagram]] = [SENT[:1], SENT[::-1], [*SENT, SENT[1]], []]
        for other in others:
            self.assertIsNotNone(difference(FILE, other))

    def test_checksum(self) -> None:
        frame = FILE[40:40 + int.from_bytes(FILE[32:36], "big")]
        for place in range(14, 34):
            with self.assertRaises(Broken):
                unwrapped(1000, frame[:place] + bytes([frame[place] ^ 4]) + frame[place + 1:])

    @unittest.skipUnless(shutil.which("tshark"), "tshark")
    def test_tshark(self) -> None:
        """Another address, another checksum and another payload are told."""
        self.assertIsNone(tshark_difference(FILE, SENT))
        for place in (64, 66, 70, len(FILE) - 1):
            self.assertIsNotNone(tshark_difference(changed(place), SENT), place)
        self.assertIsNotNone(tshark_difference(FILE, SENT[:1]))
