"""Sends 200 packets through the routers of `examples/udp`, one of which is killed halfway and
started again. Standard input has the lines that `network.py` takes.

Each packet has to arrive with its own payload, and none while the router is gone. A packet from
another address than 127.0.0.1 must not be taken, even by the port of a router or a host, and none
may end a router, which must not begin with a key that is none. The last line has the number of
checks and of what was wrong; the status is 1 where something was."""
import json
import socket
import sys
from collections.abc import Iterable, Sequence
from typing import Any

from gate import children
from gate.hosts import network
from gate.words import reader

PACKETS, NUMBER_BYTES, QUIET_SECONDS, ELSEWHERE = 200, 2, 0.3, "127.0.0.2"
BAD_KEYS = "", "6", "613", "6g", "g6", " 61", "0x61", "61 ", "+1", "61" * 65


class Sent:
    """A packet whose payload is replaced, the first router on its way, and the routers; and what
    was wrong so far."""

    def __init__(self, made: Any, event: dict[str, Any], program: str) -> None:
        self.library = made.library
        self.packet = self.library.whole_packet_read(made.packet(event))
        *_, walk = made.path(event)
        self.first = made.first_routers(walk)[0]
        ways = (hop.partition("#") for hop in walk.split(" "))
        ends = [(ia, int(numbers.partition(",")[0])) for ia, _, numbers in ways]
        self.entered = [(ia, made.ends[ia, number][0]) for ia, number in ends if number]
        self.routers = network.Routers(made, program, 2 * PACKETS, is_quiet=True)
        self.count = self.wrong = 0

    def check(self, what: str, is_so: bool) -> None:
        self.count += 1
        if not is_so:
            self.wrong += 1
            print(f"udp: {what}")

    def arrives(self, number: int, sender: socket.socket | None = None) -> bool:
        """Whether the next packet that arrives is the one with this number as its payload."""
        payload, hosts = number.to_bytes(NUMBER_BYTES, "big"), self.routers.hosts
        to = network.LOOPBACK, self.routers.ports[self.first]
        packet = self.library.whole_packet_write(self.packet._replace(payload=payload))
        (sender or hosts).sendto(packet, to)
        try:
            return bool(self.library.whole_packet_read(hosts.recv(1 << 16)).payload == payload)
        except TimeoutError:
            return False

    def cross(self, numbers: Iterable[int]) -> None:
        self.routers.hosts.settimeout(network.SECONDS)
        for number in numbers:
            self.check(f"packet {number} did not arrive", self.arrives(number))

    def stop_one(self) -> None:
        """The last router that a link leads to is gone for a while."""
        owner = self.entered[-1]
        self.routers.kill(owner)
        self.routers.hosts.settimeout(QUIET_SECONDS)
        self.check("a packet passed a router that is gone", not self.arrives(PACKETS))
        self.routers.begin(owner)

    def strangers(self) -> None:
        """Sockets of another address with the ports of the hosts and of each router."""
        self.routers.hosts.settimeout(QUIET_SECONDS)
        ports = [self.routers.hosts.getsockname()[1], *self.routers.ports.values()]
        for port in ports:
            with socket.socket(socket.AF_INET, socket.SOCK_DGRAM) as stranger:
                stranger.bind((ELSEWHERE, port))
                taken = self.arrives(PACKETS + 1, stranger)
                self.check(f"a packet of {ELSEWHERE}:{port} was taken", not taken)

    def still_run(self) -> None:
        """No packet and no stranger has ended a router."""
        for owner, child in self.routers.children.items():
            self.check(f"the router {owner} has ended", child.poll() is None)

    def bad_keys(self) -> None:
        """Keys that are none. A router that takes one would end after a second."""
        words = [self.routers.program, *map(str, self.routers.words(*self.first))]
        for key in BAD_KEYS:
            [words[1]], words[5], words[8] = map(str, network.free_ports(1)), key, "1"
            done = children.run(words, seconds=network.SECONDS)
            is_refused = done.returncode == 1 and done.stderr.startswith(b"router: a key has ")
            self.check(f"a router began with the key {key!r}", is_refused and not done.stdout)


def main(words: Sequence[str]) -> int:
    words_of = reader(__name__, __doc__)
    words_of.add_argument("router", help="router.c, built")
    program = words_of.parse_args(words).router
    made, event = network.prepared(map(json.loads, sys.stdin))
    sent = Sent(made, event, program)
    try:
        sent.cross(range(PACKETS // 2))
        sent.stop_one()
        sent.cross(range(PACKETS // 2, PACKETS))
        sent.strangers()
        sent.still_run()
        sent.bad_keys()
    finally:
        sent.routers.end()
    print(f"udp: {PACKETS} packets, {sent.count} checks, {sent.wrong} wrong")
    return 1 if sent.wrong else 0

