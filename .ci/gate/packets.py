"""Holds the calls for whole packets to a second reader of them.

First the turns of `cases/packets/turns.tsv` are made by a shared object. Then packets are changed
at random and given to `scion_whole_packet_read`, and to the reader below, which was written from
the layout of docs/router.md alone: both have to say the same, or refuse the packet for the same
reason.
What was read has to be written as the same bytes; the reply has to be the one that the layout says;
and a turn has to be that of the packet's frame, with all other bytes as before. The last line has
the numbers; the status is 1 where something differs."""
import random
from collections.abc import Callable, Iterator, Sequence
from typing import Any

from gate import TOP
from gate.hosts import Library, scion
from gate.words import reader

CASES = TOP / "cases/packets/turns.tsv"
SEED, COUNT = 1, 100_000

# Places in front of the path header, which are changed more often than others.
PLACES = [*range(12), 12, 13, 19, 20, 27, 28]


class Bad(Exception):
    """The number of a refusal, and that of the path header's refusal or 0."""


def unhex(text: str) -> bytes:
    return b"" if text == "-" else bytes.fromhex(text)


def cases() -> Iterator[tuple[str, Any, int, Any, tuple[int, int, bytes]]]:
    """The router, the second, the packet and the answer of each case, with the case's name."""
    with open(CASES, encoding="utf-8") as it:
        rows = [line.rstrip("\n").split("\t") for line in it]
    for name, ia, number, now, arrival, interface, key, previous, table, data, *given in rows:
        parts = [map(int, row.split(",")) for row in table.split() if row != "-"]
        router = scion.Router(int(ia, 16), unhex(key), [scion.Interface(*it) for it in parts],
                        unhex(previous), int(number))
        packet = scion.Packet(unhex(data), int(arrival), int(interface))
        code, answered, changes = given
        after = bytearray(packet.bytes)
        for change in changes.split() if changes != "-" else []:
            place, _, byte = change.partition("=")
            after[int(place)] = int(byte, 16)
        yield name, router, int(now), packet, (int(code), int(answered), bytes(after))


# ---- the second reader


def number(data: bytes) -> int:
    return int.from_bytes(data, "big")


def path_length(data: bytes) -> int:
    """The length of the path header with which these bytes begin."""
    if len(data) < 4:
        raise Bad(90, 20)
    meta = number(data[:4])
    lengths = [meta >> 12 & 63, meta >> 6 & 63, meta & 63]
    if meta >> 18 & 63:
        raise Bad(90, 21)
    if lengths[0] == 0 or (lengths[1] == 0 and lengths[2] > 0):
        raise Bad(90, 24)
    if sum(lengths) > 64:
        raise Bad(90, 25)
    infos, hops = sum(it > 0 for it in lengths), sum(lengths)
    if len(data) < 4 + 8 * infos + 12 * hops:
        raise Bad(90, 20)
    for at in range(4, 4 + 8 * infos, 8):
        if data[at] & 2:
            raise Bad(90, 22)
        if data[at] & 252 or data[at + 1]:
            raise Bad(90, 21)
    for at in range(4 + 8 * infos, 4 + 8 * infos + 12 * hops, 12):
        if data[at] & 3:
            raise Bad(90, 23)
        if data[at]:
            raise Bad(90, 21)
    if meta >> 30 >= infos or meta >> 24 & 63 >= hops:
        raise Bad(90, 26)
    return 4 + 8 * infos + 12 * hops


def fields(data: bytes) -> tuple[tuple[Any, ...], bytes, bytes]:
    """What a packet says: the fields in front of its path header, that header, and the payload."""
    if len(data) < 12:
        raise Bad(160, 0)
    if data[0] >> 4:
        raise Bad(161, 0)
    if data[8] != 1:
        raise Bad(162, 0)
    lengths = 4 * (data[9] >> 4 & 3) + 4, 4 * (data[9] & 3) + 4
    path = 28 + sum(lengths)
    if len(data) < path:
        raise Bad(160, 0)
    payload = path + path_length(data[path:])
    if 4 * data[5] != payload:
        raise Bad(163, 0)
    if number(data[6:8]) != len(data) - payload:
        raise Bad(164, 0)
    hosts = (data[9] >> 6, data[28:28 + lengths[0]]), (data[9] >> 2 & 3, data[28 + lengths[0]:path])
    info = (number(data[12:20]), number(data[20:28]), *hosts, data[4], number(data[:2]) >> 4 & 255,
            number(data[1:4]) & 0xFFFFF, number(data[10:12]))
    return info, data[path:payload], data[payload:]


def way_back(path: bytes) -> bytes:
    """The path header of the way back: fields in reverse order, in the other direction."""
    meta = number(path[:4])
    lengths = [it for it in (meta >> 12 & 63, meta >> 6 & 63, meta & 63) if it]
    infos, hops = len(lengths), sum(lengths)
    packed = 0
    for it in (lengths[::-1] + [0, 0])[:3]:
        packed = packed << 6 | it
    first = (infos - 1 - (meta >> 30)) << 30 | (hops - 1 - (meta >> 24 & 63)) << 24 | packed
    own = [path[at:at + 8] for at in range(4, 4 + 8 * infos, 8)]
    rest = [path[at:at + 12] for at in range(4 + 8 * infos, len(path), 12)]
    turned = [bytes([it[0] ^ 1]) + it[1:] for it in reversed(own)]
    return b"".join([first.to_bytes(4, "big"), *turned, *reversed(rest)])


def reply(data: bytes) -> bytes:
    """The reply to a packet, byte for byte."""
    _, path, payload = fields(data)
    first = 28 + 4 * (data[9] >> 4 & 3) + 4
    start = len(data) - len(payload) - len(path)
    types = bytes([(data[9] << 4 | data[9] >> 4) & 255])
    ases, hosts = data[20:28] + data[12:20], data[first:start] + data[28:first]
    return data[:9] + types + data[10:12] + ases + hosts + way_back(path) + payload


# ---- both beside one another


def changed(rng: random.Random, packet: bytes) -> bytes:
    """A packet with some of its bytes changed, half of them in front of its path header, or cut,
    or longer."""
    data = bytearray(packet)
    for _ in range(rng.choice((0, 1, 1, 1, 2, 3))):
        if not data:
            break
        place = rng.choice(PLACES) if rng.random() < 0.5 else rng.randrange(len(data))
        if place < len(data):
            data[place] ^= rng.choice((1 << rng.randrange(8), rng.randrange(256)))
    if rng.random() < 0.15:
        del data[rng.randrange(len(data) + 1):]
    if rng.random() < 0.1:
        data += rng.randbytes(rng.randrange(1, 20))
    if rng.random() < 0.5 and len(data) > 12:
        fit_lengths(data)
    return bytes(data)


def fit_lengths(data: bytearray) -> None:
    """Sets both lengths as they are, if a path header is there: a change behind these is then not
    refused for them."""
    path = 36 + 4 * (data[9] >> 4 & 3) + 4 * (data[9] & 3)
    try:
        end = path + path_length(bytes(data[path:]))
    except Bad:
        return
    if end <= 1020 and end <= len(data):
        data[5], data[6:8] = end // 4, (len(data) - end).to_bytes(2, "big")


def plain(read: Any) -> Any:
    """What was read, in the shape that the reader gives; a refusal as it is."""
    if not isinstance(read, scion.WholePacket):
        return read
    destination, source, *hosts = read.info[:4]
    return (destination, source, *(tuple(it) for it in hosts), *read.info[4:]), read.path, read.payload


class Comparison:
    """What differed so far between the library and the reader."""

    def __init__(self, library: Any) -> None:
        self.library, self.seen, self.taken, self.wrong = library, 0, 0, 0

    def same(self, what: str, data: bytes, given: object, wanted: object) -> None:
        if given != wanted:
            self.wrong += 1
            print(f"packets: {what} of {data.hex()}: {given}, and not {wanted}")

    def answer(self, call: Callable[..., Any], *args: Any) -> Any:
        """What a call returns, or why it refused."""
        try:
            return call(*args)
        except scion.Refused as it:
            return it.code.value, it.header.value if it.header else 0

    def case(self, name: str, router: Any, now: int, packet: Any,
             wanted: tuple[int, int, bytes]) -> None:
        given = self.library.whole_packet_step(router, now, packet)
        self.same(f"the turn '{name}'", packet.bytes, (int(given.code), *given[1:]), wanted)

    def one(self, router: Any, now: int, packet: Any) -> None:
        """All calls on one packet."""
        data, library = packet.bytes, self.library
        self.seen += 1
        read = self.answer(library.whole_packet_read, data)
        turned = library.whole_packet_step(router, now, packet)
        try:
            wanted = fields(data)
        except Bad as it:
            self.same("the refusal", data, read, it.args)
            self.same("the reply", data, self.answer(library.whole_packet_reply, data), it.args)
            self.same("the turn", data, (int(turned.code), *turned[1:]), (*it.args, data))
            return
        self.taken += 1
        self.same("what is read", data, plain(read), wanted)
        if isinstance(read, scion.WholePacket):
            self.same("what is written", data, self.answer(library.whole_packet_write, read), data)
        self.same("the reply", data, self.answer(library.whole_packet_reply, data), reply(data))
        start = len(data) - len(wanted[1]) - len(wanted[2])
        frame = packet._replace(bytes=data[12:28] + data[start:])
        step = library.step(router, now, frame)
        after = (step.code, step.number, data[:start] + step.bytes[16:])
        self.same("the turn", data, tuple(turned), after)


def main(words: Sequence[str]) -> int:
    words_of = reader(__name__, __doc__)
    words_of.add_argument("shared", help="the shared object of both libraries")
    words_of.add_argument("--seed", type=int, default=SEED, help="of the changes")
    words_of.add_argument("--packets", type=int, default=COUNT, help="how many are changed")
    asked = words_of.parse_args(words)
    comparison, rng = Comparison(Library(asked.shared)), random.Random(asked.seed)
    given = list(cases())
    for case in given:
        comparison.case(*case)
        comparison.one(*case[1:4])
    for _ in range(asked.packets):
        _, router, now, packet, _ = rng.choice(given)
        comparison.one(router, now, packet._replace(bytes=changed(rng, packet.bytes)))
    seen, taken = comparison.seen, comparison.taken
    print(f"packets: {len(given)} cases, {seen} packets, {taken} of them read,"
          f" {comparison.wrong} differences")
    return 1 if comparison.wrong or not given else 0
