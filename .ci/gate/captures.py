"""Holds `scionet_view capture` and `wrap` to the runs of `scionet`.

Each network of examples/ is run, and one whose packets are altered, lost, refused and sent back.
Which datagrams have to be in the capture is told by `scionet run`: behind each line about a packet
a `show` is put, so that its place is known before and after. The packet's bytes are those that
`scionet_view path` prints. What is on the wire is made of these by the writer below, written from
the layouts alone: docs/router.md for whole packets, RFC 791, 768 and 1071, and the format pcap. A
reader takes each capture apart, and says where it differs.

The last line has the numbers of runs, datagrams and differences; the status is 1 where there is
one. `tshark`, where it is installed, reads each capture too."""
import ipaddress
import itertools
import json
import os
import struct
import sys
import tempfile
from collections.abc import Iterator, Sequence
from dataclasses import dataclass
from pathlib import Path
from typing import Any

from gate import TOP, children
from gate.machine import Machine
from gate.packets import path_length
from gate.words import reader

EXAMPLES = "row", "pair", "fork"
HOSTS = "--source-host", "--destination-host"

# What tshark tells of a datagram: its ends, whether the checksum of IPv4 is right (1), its payload.
TSHARK_FIELDS = "ip.src", "ip.dst", "ip.checksum.status", "udp.payload"

# The words of a run's capture, and what its packets say then.
PLAIN: tuple[tuple[str, ...], tuple[str, str, int]] = ((), ("10.0.0.100", "10.0.0.100", 253))
OTHER = (
    (HOSTS[0], "192.0.2.7", HOSTS[1], "2001:db8::1", "--next-header", "17"),
    ("192.0.2.7", "2001:db8::1", 17),
)

# Behind the lines of a row that send packet 0: a byte of it is altered, so that it is refused; one
# is lost; one arrives, and is answered.
MORE = (
    {"do": "alter", "packet": 0, "at": 50, "xor": 1},
    {"do": "turn", "packet": 0},
    {"do": "turn", "packet": 0},
    {"do": "send", "ask": 0, "path": 0, "payload": ""},
    {"do": "turn", "packet": 1},
    {"do": "lose", "packet": 1},
    {"do": "turn", "packet": 1},
    {"do": "tick", "now": 1007},
    {"do": "send", "ask": 0, "path": 0, "payload": "00ff" * 512},
    *[{"do": "turn", "packet": 2}] * 4,
    {"do": "back", "packet": 2, "payload": "6f6b"},
    *[{"do": "turn", "packet": 3}] * 3,
    {"do": "turn", "packet": 9},
)


@dataclass(frozen=True)
class Datagram:
    """A datagram: its second, both addresses, and the whole packet in it."""

    moment: int
    source: str
    destination: str
    packet: bytes


class Broken(Exception):
    """What is wrong with the bytes of a capture."""


# ---- the writer


def packed(address: str) -> bytes:
    return ipaddress.ip_address(address).packed


def whole(frame: bytes, says: tuple[str, str, int]) -> bytes:
    """The whole packet of a frame, between these hosts and with this next header; flow 1."""
    source, destination, follows = packed(says[0]), packed(says[1]), says[2]
    path = path_length(frame[16:])
    headers = 28 + len(source) + len(destination) + path
    types = (len(destination) // 4 - 1) << 4 | (len(source) // 4 - 1)
    payload = len(frame) - 16 - path
    front = struct.pack(">IBBHBBH", 1, follows, headers // 4, payload, 1, types, 0)
    return front + frame[:16] + destination + source + frame[16:]


def ones_sum(data: bytes) -> int:
    total = sum(struct.unpack(f">{len(data) // 2}H", data))
    while total >> 16:
        total = (total & 0xFFFF) + (total >> 16)
    return total


def on_wire(datagram: Datagram) -> bytes:
    """The frame of Ethernet of a datagram."""
    source, destination = packed(datagram.source), packed(datagram.destination)
    length = 8 + len(datagram.packet)
    front = struct.pack(">BBHHHBB", 0x45, 0, 20 + length, 0, 0x4000, 64, 17)
    checksum = 0xFFFF - ones_sum(front + source + destination)
    ip = front + checksum.to_bytes(2, "big") + source + destination
    udp = struct.pack(">HHHH", 50_000, 50_000, length, 0)
    ends = b"".join(b"\x02\x00" + it for it in (destination, source))
    return ends + b"\x08\x00" + ip + udp + datagram.packet


def written(datagrams: Sequence[Datagram]) -> bytes:
    """The file of these datagrams."""
    parts = [struct.pack(">IHHiIII", 0xA1B2C3D4, 2, 4, 0, 0, 65_535, 1)]
    for it in datagrams:
        frame = on_wire(it)
        parts += [struct.pack(">IIII", it.moment, 0, len(frame), len(frame)), frame]
    return b"".join(parts)


# ---- the reader


def cut(data: bytes, length: int, what: str) -> tuple[bytes, bytes]:
    if len(data) < length:
        raise Broken(f"{what} is cut off")
    return data[:length], data[length:]


def hold(is_so: bool, what: str) -> None:
    if not is_so:
        raise Broken(what)


def unwrapped(moment: int, frame: bytes) -> Datagram:
    """The datagram in a frame of Ethernet."""
    ethernet, rest = cut(frame, 14, "a frame")
    ip, rest = cut(rest, 20, "a header of IPv4")
    udp, packet = cut(rest, 8, "a header of UDP")
    hold(ethernet[12:] == b"\x08\x00" and ip[0] == 0x45, "a frame without IPv4")
    hold(int.from_bytes(ip[2:4], "big") == len(frame) - 14, "a length of IPv4 is wrong")
    hold(ip[6:8] == b"\x40\x00" and ip[8] > 0 and ip[9] == 17, "no datagram of UDP in one piece")
    hold(ones_sum(ip) == 0xFFFF, "a checksum of IPv4 is wrong")
    hold(int.from_bytes(udp[4:6], "big") == 8 + len(packet), "a length of UDP is wrong")
    hold(ethernet[:12] == b"\x02\x00" + ip[16:] + b"\x02\x00" + ip[12:16], "an address is wrong")
    source, destination = (str(ipaddress.ip_address(it)) for it in (ip[12:16], ip[16:]))
    return Datagram(moment, source, destination, packet)


def read(data: bytes) -> list[Datagram]:
    """The datagrams of a file."""
    head, data = cut(data, 24, "the head")
    magic, *version, zone, _, most, link = struct.unpack(">IHHiIII", head)
    hold((magic, version, zone, link) == (0xA1B2C3D4, [2, 4], 0, 1), "a head of another file")
    found = []
    while data:
        head, data = cut(data, 16, "the head of a frame")
        second, micros, length, whole_length = struct.unpack(">IIII", head)
        hold(micros == 0 and length == whole_length <= most, "a frame is not whole")
        frame, data = cut(data, length, "a frame")
        found.append(unwrapped(second, frame))
    return found


# ---- what a run puts on the wire


def program(name: str) -> str:
    path = TOP / "crates" / name / "out" / name
    if not os.access(path, os.X_OK):
        sys.exit(f"captures: {path} is not there: rt ci builds it")
    return str(path)


def text_of(events: Sequence[Any]) -> bytes:
    return "".join(json.dumps(it) + "\n" for it in events).encode()


def replies(events: Sequence[Any]) -> list[str]:
    """The replies of `scionet run`, one for each line."""
    return children.output([program("scionet"), "run"], text_of(events)).decode().splitlines()


def frame_after(events: Sequence[Any], number: int) -> bytes:
    """The bytes of a packet after these lines: the fields that `path` prints, put together."""
    words = [program("scionet_view"), "path", "--packet", str(number)]
    lines = children.output(words, text_of(events)).decode().splitlines()
    start = next(at for at, it in enumerate(lines) if it.startswith("live up to second")) + 1
    return b"".join(bytes.fromhex(it.split(" ")[0]) for it in lines[start:])


class Addresses:
    """The addresses of the routers and the hosts of a topology."""

    def __init__(self, topology: Any) -> None:
        self.places = {it["ia"]: place for place, it in enumerate(topology["ases"])}

    def of(self, ia: str, number: int) -> str:
        return f"10.{self.places[ia] // 256}.{self.places[ia] % 256}.{number}"

    def router(self, place: str) -> str:
        """That of the router in a place, as `show` tells it."""
        _, ia, number = place.partition(";")[0].split(" ")
        return self.of(ia, int(number) + 1)

    def hosts(self, place: str) -> str:
        """That of the hosts of the AS of such a router."""
        return self.of(place.split(" ")[1], 100)


def shown(events: Sequence[Any], number: int) -> str:
    """The place of a packet after these lines."""
    return replies([*events, {"do": "show", "packet": number}])[-1]


def datagrams(events: Sequence[Any], says: tuple[str, str, int]) -> Iterator[Datagram]:
    """The datagrams of a run."""
    addresses, moment = Addresses(events[0]), 0
    for at, (event, reply) in enumerate(zip(events, replies(events))):
        moment = event["now"] if event.get("do") == "tick" and reply == "ok" else moment
        before, after = events[:at], events[: at + 1]
        if reply.startswith("packet "):
            number = int(reply.split(" ")[1])
            place = shown(after, number)
            ends = addresses.hosts(place), addresses.router(place)
        elif event.get("do") == "turn" and reply.split(" ")[0] in ("link", "router", "delivered"):
            number = event["packet"]
            old, place = shown(before, number), shown(after, number)
            to = addresses.router(place) if place.startswith("at ") else addresses.hosts(old)
            ends = addresses.router(old), to
        else:
            continue
        yield Datagram(moment, *ends, whole(frame_after(after, number), says))


def difference(given: bytes, wanted: Sequence[Datagram]) -> str | None:
    """How a capture differs from what it has to be."""
    try:
        found = read(given)
    except Broken as it:
        return str(it)
    if len(found) != len(wanted):
        return f"{len(found)} datagrams, and not {len(wanted)}"
    for number, (one, other) in enumerate(zip(found, wanted), 1):
        if one != other:
            return f"datagram {number} is {one}, and not {other}"
    return None if given == written(wanted) else "the same datagrams in other bytes"


def tshark_difference(given: bytes, wanted: Sequence[Datagram]) -> str | None:
    """The same by tshark: the ends of each datagram, its payload, and that the checksum of IPv4 is
    right."""
    with tempfile.TemporaryDirectory() as room:
        path = Path(room, "run.pcap")
        path.write_bytes(given)
        words = ["tshark", "-r", str(path), "-o", "ip.check_checksum:TRUE", "-T", "fields"]
        fields = (("-e", it) for it in TSHARK_FIELDS)
        lines = children.output([*words, *itertools.chain(*fields)]).decode().splitlines()
    told = [line.replace(":", "").split("\t") for line in lines]
    right = [[it.source, it.destination, "1", it.packet.hex()] for it in wanted]
    return None if told == right else "tshark reads other datagrams"


def wrap_difference(events: Sequence[Any], words: Sequence[str], wanted: bytes) -> str | None:
    """How `wrap` differs for the first packet, as it is after all lines."""
    view = [program("scionet_view"), "wrap", "--packet", "0", *words]
    given = children.output(view, text_of(events)).decode()
    return None if given == wanted.hex() + "\n" else f"wrap prints {given!r}"


def runs() -> Iterator[tuple[str, list[Any]]]:
    """The name and the lines of each run."""
    for name in EXAMPLES:
        text = (TOP / "examples" / f"{name}.txt").read_text(encoding="utf-8")
        yield name, [json.loads(it) for it in text.splitlines()]
    row = [json.loads(it) for it in (TOP / "examples/row.txt").read_text().splitlines()]
    sent = next(at for at, it in enumerate(row) if it.get("do") == "send") + 1
    yield "a row with faults", [*row[:sent], *MORE]


def main(words: Sequence[str]) -> int:
    reader(__name__, __doc__).parse_args(words)
    machine, count, total, wrong = Machine(), 0, 0, 0
    reads = [difference, *([tshark_difference] if machine.has("tshark") else [])]
    for name, events in runs():
        for given_words, says in (PLAIN, OTHER):
            wanted = list(datagrams(events, says))
            given = children.output(
                [program("scionet_view"), "capture", *given_words], text_of(events)
            )
            last = whole(frame_after(events, 0), says)
            faults = [it(given, wanted) for it in reads]
            for fault in filter(None, [*faults, wrap_difference(events, given_words, last)]):
                wrong += 1
                print(f"captures: {name}: {fault}")
            count, total = count + 1, total + len(wanted)
    print(machine.told(f"captures: {count} captures, {total} datagrams, {wrong} differences"))
    return 1 if wrong or not total else 0
