"""What the check of packets of a run wants of the views, and what it tells."""
import unittest
from unittest import mock

from gate import run_packets
from gate.run_packets import Routers, differences, first_lines, is_reply

TOPOLOGY = {
    "ases": [{"ia": "1-1", "core": True, "exp": 63, "key": "61", "routers": 2},
             {"ia": "1-2", "core": False, "exp": 63, "key": "62", "routers": 1}],
    "links": [{"kind": "child", "a": {"ia": "1-1", "if": 3, "router": 1},
               "b": {"ia": "1-2", "if": 4, "router": 0}}],
}
EVENTS = [TOPOLOGY, {"do": "send", "ask": 0, "path": 0, "payload": ""}, {"do": "turn", "packet": 0}]
REPLIES = ["topology ok", "packet 0", "link 4"]
PLACES = {2: "at 1-2 0", 3: "at 1-1 1; 1-2#0,4"}


class RunPackets(unittest.TestCase):
    def test_first_lines(self) -> None:
        self.assertEqual(first_lines("at 1-1 1; 1-2#0,4"), ["at router 1 of 1-1", "passed 1-2#0,4"])
        self.assertEqual(first_lines("delivered"), ["delivered", "passed no hop"])
        wanted = ["refused by router 0 of 1-1: 100 LinkDown", "passed no hop"]
        self.assertEqual(first_lines("refused 1-1 0 100 LinkDown"), wanted)

    def test_replies(self) -> None:
        for line, reply in (("link 3 00ff", "link 3"), ("deliver 00", "delivered"),
                            ("refused 94 BadMac", "refused 94 BadMac")):
            self.assertTrue(is_reply(line, reply))
            for other in ("link 30", "router 3", "refused 93 Expired"):
                self.assertFalse(is_reply(line, other))

    def test_words(self) -> None:
        """The words of a turn: where the packet comes from, and what is at each interface."""
        routers = Routers(TOPOLOGY)
        routers.follow({"do": "tick", "now": 7}, "ok")
        routers.follow(EVENTS[1], "packet 0")
        words = " ".join(routers.words(0, "1-2", "0"))
        self.assertEqual(words, "--ia 1-2 --router 0 --key 62 --now 7 --from host 4,parent,0,up")
        routers.move(0, "1-2", "link 4")
        words = " ".join(routers.words(0, "1-1", "1"))
        self.assertEqual(words, "--ia 1-1 --router 1 --key 61 --now 7 --from 3 3,child,1,up")
        routers.move(0, "1-1", "router 0")
        self.assertIn("--from inside", " ".join(routers.words(0, "1-1", "0")))

    def test_differences(self) -> None:
        """Each line of a packet that is another is told."""
        turn = ["a field", "a check", "link 4 00"]

        def told(damaged: int | None) -> list[str | None]:
            def view(words: list[str], given: bytes) -> list[str]:
                if words[:2] != ["packet", "--packet"]:
                    return turn
                lines = [*first_lines(PLACES[len(given)]), *turn]
                return [it if at != damaged else "another" for at, it in enumerate(lines)]

            with mock.patch.multiple(
                run_packets, view=view, replies=lambda events: REPLIES,
                shown=lambda events, number: PLACES[len(events)],
                text_of=lambda events: b"." * len(events), frame_after=lambda events, number: b"",
            ):
                return [*differences(EVENTS)]

        self.assertEqual(told(None), [None, None])
        for line in range(5):
            self.assertNotEqual(told(line), [None, None], line)


if __name__ == "__main__":
    unittest.main()
