"""What requests.py counts, and that it tells a request that takes too long."""
import random
import unittest
from collections import Counter
from pathlib import Path
from unittest import mock

from gate import requests
from gate.families import Network
from gate.requests import Drawn, drawn, ends, from_a, groups, lists, tried


def two_below(network: Network) -> list[requests.Chain]:
    """Chains over two links in parallel from a core AS, and one link below."""
    last = from_a(network.link("child", 1, 2))
    return [(from_a(network.link("child", 0, 1)), last) for _ in range(2)]


class Requests(unittest.TestCase):
    def test_groups(self) -> None:
        """Both chains are cut at the AS between in the same way: three groups of six pieces."""
        chains = two_below(Network(1, 2))
        made = Counter({ends(chains[0]): 2, ends(chains[1]): 1})
        self.assertEqual(groups(chains, made), (6, Counter({"1-1": 2, "1-2": 1})))

    def test_lists(self) -> None:
        """Two ways up, three across and five down, and one up to the AS from which one goes down."""
        up, down = Counter({"a": 2, "c": 1}), Counter({"b": 5, "c": 1})
        self.assertEqual(lists(up, Counter({("a", "b"): 3}), down, "s", "d"), 2 * 3 * 5 + 1)

    def test_ends_at_core_ases(self) -> None:
        core = Counter({("s", "d"): 4})
        self.assertEqual(lists(Counter(), core, Counter(), "s", "d"), 4)

    def test_a_network_stays(self) -> None:
        self.assertEqual(drawn(7), drawn(7))
        self.assertNotEqual(drawn(7).lines, drawn(8).lines)

    def test_each_segment_is_made(self) -> None:
        it = Drawn(random.Random(3))
        self.assertEqual(sum(it.made.values()), it.network.text().count('"terminate"'))

    def test_what_takes_too_long(self) -> None:
        request = drawn(5)
        for cost, is_short in (
            ((request.seconds * 0.9, 0), False),
            ((request.seconds * 1.1, 0), True),
            ((0.0, request.bytes + 1), True),
        ):
            with mock.patch.object(requests, "cost", return_value=cost) as measured:
                self.assertEqual(tried(5, Path(), 1.0)[1] > 1, is_short)
            self.assertEqual(measured.call_count, requests.TIMES if is_short else 1)
