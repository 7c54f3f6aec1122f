"""Holds `scionet_view packet --packet` to what `scionet run` says of the same packet.

In the runs of captures.py, each packet is looked at before and after each of its turns. Where it is
and which hops it has passed has to be what `show` tells. If it is at a router, the lines below have
to be those of `scionet_view packet` with the words of this router, which are read off the topology
here, and the last one has to be the reply of the turn. If not, they are the fields that
`scionet_view path` prints.

The last line has the numbers of runs, of packets looked at and of differences; the status is 1 where
there is one."""
from collections.abc import Iterator, Sequence
from dataclasses import dataclass, field
from typing import Any

from gate import children
from gate.captures import frame_after, program, replies, runs, shown, text_of
from gate.words import reader

# What the far end of a link is, for its first end and for the second.
FAR = {"child": ("child", "parent"), "core": ("core", "core")}


@dataclass
class Routers:
    """What the routers of a run know: the topology, the second, and how each packet came."""

    topology: Any
    moment: int = 0
    came: dict[int, str] = field(default_factory=dict)

    def ends(self) -> Iterator[tuple[Any, Any, str]]:
        """Each end of each link, with the end at the other side, and what the other AS is."""
        for link in self.topology["links"]:
            first, second = FAR[link["kind"]]
            yield link["a"], link["b"], first
            yield link["b"], link["a"], second

    def follow(self, event: Any, reply: str) -> None:
        """Notes what an event has changed. The place of a packet before it is `at IA ROUTER`."""
        if event.get("do") == "tick" and reply == "ok":
            self.moment = event["now"]
        if reply.startswith("packet "):
            self.came[int(reply.split(" ")[1])] = "host"

    def move(self, number: int, ia: str, reply: str) -> None:
        """Notes how a packet comes to the next router, by the reply of its turn in this AS."""
        word, _, which = reply.partition(" ")
        if word == "router":
            self.came[number] = "inside"
        if word == "link":
            end = next(far for near, far, _ in self.ends()
                       if (near["ia"], near["if"]) == (ia, int(which)))
            self.came[number] = str(end["if"])

    def words(self, number: int, ia: str, router: str) -> list[str]:
        """The words of a turn of this packet at this router."""
        key = next(it["key"] for it in self.topology["ases"] if it["ia"] == ia)
        given = {"ia": ia, "router": router, "key": key, "now": self.moment,
                 "from": self.came[number]}
        table = [f"{near['if']},{kind},{near['router']},up"
                 for near, _, kind in self.ends() if near["ia"] == ia]
        return [*(it for name, value in given.items() for it in (f"--{name}", str(value))), *table]


def view(words: Sequence[str], given: bytes) -> list[str]:
    """The lines that a view prints."""
    return children.output([program("scionet_view"), *words], given).decode().splitlines()


def first_lines(place: str) -> list[str]:
    """The first two lines about a packet, from what `show` says of it."""
    where, _, hops = place.partition("; ")
    word, *rest = where.split(" ")
    if word in ("at", "refused"):
        end = f": {' '.join(rest[2:])}" if word == "refused" else ""
        where = f"{'at' if word == 'at' else 'refused by'} router {rest[1]} of {rest[0]}{end}"
    return [where, f"passed {hops}" if hops else "passed no hop"]


def is_reply(line: str, reply: str) -> bool:
    """Whether the last line about a packet is the reply of its turn, with its bytes behind."""
    if reply == "delivered":
        return line.startswith("deliver ")
    if reply.startswith(("link ", "router ")):
        return line.rpartition(" ")[0] == reply
    return line == reply


def differences(events: Sequence[Any]) -> Iterator[str | None]:
    """For each packet before each of its turns, and behind the last: how the view differs."""
    routers = Routers(events[0])
    for at, (event, reply) in enumerate(zip(events, replies(events))):
        routers.follow(event, reply)
        number = event.get("packet")
        if event.get("do") != "turn" or number not in routers.came:
            continue
        for seen, answer in ((events[:at], reply), (events[: at + 1], None)):
            place = shown(seen, number)
            given = view(["packet", "--packet", str(number)], text_of(seen))
            frame = frame_after(seen, number)
            if place.startswith("at "):
                _, ia, router = place.partition(";")[0].split(" ")
                lines = view(["packet", *routers.words(number, ia, router)], frame.hex().encode())
                if answer is not None:
                    routers.move(number, ia, answer)
                is_right = answer is None or is_reply(given[-1], answer)
            else:
                fields = view(["path", "--packet", str(number)], text_of(seen))
                start = next(it for it, line in enumerate(fields) if line.startswith("live up")) + 1
                lines, is_right = fields[start:], True
            wanted = [*first_lines(place), *lines]
            yield None if is_right and given == wanted else f"line {at + 1}: {given}, not {wanted}"


def main(words: Sequence[str]) -> int:
    reader(__name__, __doc__).parse_args(words)
    count, looked, wrong = 0, 0, 0
    for name, events in runs():
        for found in differences(events):
            looked += 1
            if found is not None:
                wrong += 1
                print(f"run_packets: {name}: {found}")
        count += 1
    print(f"run_packets: {count} runs, {looked} packets, {wrong} differences")
    return 1 if wrong or not looked else 0
