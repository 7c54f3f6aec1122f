"""Complete beaconings of the examples and of random topologies, over the programs that `rt ci` has
proved and built.

`scionet_view beacons` prints the lines of a beaconing; `scionet run` has to do each of them. The
segments have to be those of a plain search here, in which each AS passes on the first beacons of an
origin that reach it. Then paths are asked for between ASes that segments of the search join. The
last topology has 1,024 ASes.

The last line has the number of topologies, of lines and of requests, and of what was wrong; the
status is 1 where something was."""
from __future__ import annotations

import collections
import concurrent.futures
import json
import os
import random
import resource
from collections.abc import Iterator, Sequence
from pathlib import Path
from typing import Any

from gate import TOP, children
from gate.words import reader

CRATES = TOP / "crates"
VIEW, RUN = (str(CRATES / name / "out" / name) for name in ("scionet_view", "scionet"))
EXAMPLES = [TOP / "examples" / f"{name}.txt" for name in ("row", "pair", "fork")]
SEED, TOPOLOGIES, REQUESTS, PER_PAIR = 1, 200, 12, 4

# Shapes of topologies: ISDs, core ASes and other ASes in each, and links.
SHAPES = ((1, 1, 3, 4), (1, 3, 8, 20), (2, 2, 6, 24), (3, 3, 10, 60), (1, 8, 0, 14))

# The most entries of a segment, the most hop fields of a path, and what the largest topology may
# take: seconds and bytes of memory.
ENTRIES, FIELDS, SECONDS, MEMORY = 63, 64, 10, 500_000_000


# An AS as its ISD and its number; an end of a link; the ways out by which a beacon has left ASes; a
# segment: its kind, its ways and its last AS; the numbers of ISDs, of core ASes and others in each,
# and of links; and how many lines and requests were compared, with what was wrong.
Address = tuple[Any, Any]
End = tuple[Address, int]
Ways = tuple[tuple[Address, int], ...]
Segment = tuple[str, Ways, Address]
Shape = tuple[int, int, int, int]
Compared = tuple[int, int, list[str]]


class Topology:
    """ASes and links, each with free interfaces of its ends, and the text of them."""

    def __init__(self) -> None:
        self.ases: list[tuple[Address, bool]] = []
        self.links: list[tuple[str, End, End]] = []
        self.ways: dict[tuple[str, Address], list[tuple[int, Address]]]
        self.ways = collections.defaultdict(list)
        self.free: collections.Counter[Address] = collections.Counter()

    @classmethod
    def of(cls, text: str) -> Topology:
        """The ASes of a text, and the ways between them."""
        topology, given = cls(), json.loads(text)
        topology.ases = [(address(it["ia"]), it["core"]) for it in given["ases"]]
        for kind, a, b in ((it["kind"], it["a"], it["b"]) for it in given["links"]):
            topology.ways[kind, address(a["ia"])].append((a["if"], address(b["ia"])))
            if kind == "core":
                topology.ways[kind, address(b["ia"])].append((b["if"], address(a["ia"])))
        return topology

    @classmethod
    def drawn(cls, chance: random.Random, shape: Shape) -> Topology:
        """Random ones, of which each can be reached."""
        topology = cls()
        topology.draw(chance, shape)
        return topology

    def draw(self, chance: random.Random, shape: Shape) -> None:
        isds, cores, others, links = shape
        for isd in range(1, isds + 1):
            own = [self.add(isd, True) for _ in range(cores)]
            for _ in range(others):
                parents = chance.sample(own, min(len(own), chance.choice((1, 1, 2))))
                own.append(self.add(isd, False))
                for parent in parents:
                    self.join("child", parent, own[-1])
        tops = [ia for ia, core in self.ases if core]
        for place, ia in enumerate(tops[1:], 1):
            self.join("core", tops[chance.randrange(place)], ia)
        while len(self.links) < links:
            one, other = chance.sample(self.ases, 2)
            if one[1] and other[1]:
                self.join("core", one[0], other[0])
            elif one[0] < other[0] and one[0][0] == other[0][0] and not other[1]:
                self.join("child", one[0], other[0])

    def add(self, isd: int, core: bool) -> Address:
        ia = (isd, len(self.ases) + 1)
        self.ases.append((ia, core))
        return ia

    def join(self, kind: str, one: Address, other: Address) -> None:
        """A link by free interfaces, whose numbers do not ascend with the links."""
        self.free[one] += 1
        self.free[other] += 1
        ends = (one, 5000 - self.free[one]), (other, 5000 - self.free[other])
        self.links.append((kind, *ends))
        self.ways[kind, one].append((ends[0][1], other))
        if kind == "core":
            self.ways[kind, other].append((ends[1][1], one))

    def text(self, pretty: bool) -> str:
        ases = [
            {"ia": name(ia), "core": core, "exp": 63, "key": "6b", "routers": 1}
            for ia, core in self.ases
        ]
        ends: list[dict[str, Any]] = [
            {"kind": kind, **{it: end(*at) for it, at in zip("ab", ends)}}
            for kind, *ends in self.links
        ]
        return json.dumps({"ases": ases, "links": ends}, indent=2 if pretty else None)


def name(ia: Address) -> str:
    return f"{ia[0]}-{ia[1]}"


def address(text: str) -> Address:
    isd, _, number = text.partition("-")
    return isd, number


def end(ia: Address, number: int) -> dict[str, Any]:
    return {"ia": name(ia), "if": number, "router": 0}


def spread(topology: Topology, origin: Address, kind: str, per_pair: int,
           entries: int) -> list[tuple[Ways, Address]]:
    """The beacons that ASes end, as pairs of an AS and the way out by which it was left, and the AS
    in which each was ended: level by level, each level in the order of its interfaces."""
    ended: list[tuple[Ways, Address]] = []
    counts: collections.Counter[Address] = collections.Counter()
    level: list[tuple[Ways, Address]] = [((), origin)]
    for _ in range(entries - 1):
        nexts: list[tuple[Ways, Address]] = []
        for way, ia in level:
            passed = {it for it, _ in way} | {ia}
            for egress, far in sorted(topology.ways[kind, ia]):
                if far not in passed and counts[far] < per_pair:
                    counts[far] += 1
                    nexts.append((way + ((ia, egress),), far))
        ended += nexts
        level = nexts
    return ended


def wanted(topology: Topology, per_pair: int, core_length: int) -> Iterator[Segment]:
    """The segments of a beaconing: their kind, their ways, and the AS in which each ends."""
    for ia, core in topology.ases:
        if core:
            for kind, entries in (("child", ENTRIES), ("core", core_length)):
                for way, last in spread(topology, ia, kind, per_pair, entries):
                    yield kind, way, last


def segments_of(events: list[dict[str, Any]]) -> Iterator[tuple[Any, str]]:
    """The segments that these events end, as `wanted` has them but for the kind."""
    beacons: list[Any] = []
    for event in events:
        if event["do"] == "originate":
            beacons.append(((event["ia"], event["egress"]),))
        elif event["do"] == "extend":
            beacons.append(beacons[event["beacon"]] + ((event["ia"], event["egress"]),))
        elif event["do"] == "terminate":
            yield beacons[event["beacon"]], event["ia"]


def requests(chance: random.Random, segments: list[Segment],
             count: int) -> Iterator[dict[str, Any]]:
    """Pairs of ASes that a segment up, one of the core and one down join within the hop fields."""
    up = [(last, way[0][0], len(way) + 1) for kind, way, last in segments if kind == "child"]
    cores = [(way[0][0], last, len(way) + 1) for kind, way, last in segments if kind == "core"]
    core = {(one, other): length for one, other, length in reversed(cores)}
    for _ in range(count * bool(up)):
        one, other = chance.choice(up), chance.choice(up)
        length = core.get((other[1], one[1]), 0) if one[1] != other[1] else 0
        is_joined = one[1] == other[1] or (other[1], one[1]) in core
        if one[0] != other[0] and is_joined and one[2] + other[2] + length <= FIELDS:
            yield {"do": "ask", "src": name(one[0]), "dst": name(other[0]), "limit": 1}


def compared(chance: random.Random, topology: Topology, text: str, per_pair: int,
             core_length: int) -> Compared:
    """The lines and the requests of a topology with this text, and what was wrong with it."""
    words = [VIEW, "beacons", "--per-pair", str(per_pair), "--core-length", str(core_length)]
    lines = children.output([*words, "--now", "1000"], text.encode())
    segments = list(wanted(topology, per_pair, core_length))
    asks = list(requests(chance, segments, REQUESTS))
    requested = "".join(json.dumps(it) + "\n" for it in asks).encode()
    replies = children.output([RUN], lines + requested).split(b"\n")
    events = [json.loads(line) for line in lines.splitlines()[1:]]
    wrong: list[str] = []
    found = [(tuple(way), last) for way, last in segments_of(events)]
    own = [(tuple((name(ia), out) for ia, out in way), name(last)) for _, way, last in segments]
    if found != own:
        wrong.append(f"{len(found)} segments, not {len(own)}, or others: {words[2:]}")
    refused = [reply for reply in replies if reply.startswith((b"no ", b"topology no"))]
    if refused:
        wrong.append(f"refused: {refused[:3]}")
    answers = [reply for reply in replies if reply.startswith(b"ask ")]
    if len(answers) != len(asks) or any(b";" not in it for it in answers):
        wrong.append(f"no path: {answers}")
    return len(events), len(asks), wrong


def tried(seed: int, number: int) -> Compared:
    """What was compared of a random topology."""
    chance = random.Random(f"{seed} {number}")
    topology = Topology.drawn(chance, chance.choice(SHAPES))
    options = chance.choice((1, 2, 4, 32)), chance.choice((2, 3, 63))
    lines, asks, wrong = compared(chance, topology, topology.text(number % 2 == 1), *options)
    return lines, asks, [f"topology {number} of seed {seed}: {it}" for it in wrong]


def example(seed: int, file: Path) -> Compared:
    """What was compared of the topology of an example."""
    text = file.read_text().partition("\n")[0]
    topology = Topology.of(text)
    lines, asks, wrong = compared(random.Random(seed), topology, text, PER_PAIR, ENTRIES)
    return lines, asks, [f"{file.name}: {it}" for it in wrong]


def largest(seed: int) -> Compared:
    """1,024 ASes with 4,096 links: all lines are done, within the seconds of processor and the
    memory."""
    topology = Topology.drawn(random.Random(seed), (4, 4, 252, 4096))
    before = resource.getrusage(resource.RUSAGE_CHILDREN)
    lines = children.output([VIEW, "beacons", "--core-length", "5"], topology.text(True).encode())
    used = resource.getrusage(resource.RUSAGE_CHILDREN)
    seconds = used.ru_utime + used.ru_stime - before.ru_utime - before.ru_stime
    memory = used.ru_maxrss * 1024
    replies = children.output([RUN], lines).splitlines()
    wrong = []
    if any(reply.startswith((b"no ", b"topology no")) for reply in replies):
        wrong.append("an event of the largest topology is refused")
    if seconds > SECONDS or memory > MEMORY:
        took = f"{seconds:.1f} seconds of processor and {memory} bytes"
        wrong.append(f"the largest topology took {took}")
    return len(replies) - 1, 0, wrong


def main(words: Sequence[str]) -> int:
    words_of = reader(__name__, __doc__)
    words_of.add_argument("--seed", type=int, default=SEED, help="of the topologies")
    words_of.add_argument("--topologies", type=int, default=TOPOLOGIES, help="how many")
    given = words_of.parse_args(words)
    seed, count = given.seed, given.topologies
    rows = [largest(seed), *(example(seed, it) for it in EXAMPLES)]
    with concurrent.futures.ThreadPoolExecutor(os.cpu_count()) as pool:
        rows += pool.map(lambda number: tried(seed, number), range(count))
    wrong = [it for row in rows for it in row[2]]
    for it in wrong[:20]:
        print(f"beaconing: {it}")
    lines, asks = sum(row[0] for row in rows), sum(row[1] for row in rows)
    print(f"beaconing: {len(rows)} topologies, {lines} lines, {asks} requests, {len(wrong)} wrong")
    return 0 if lines and asks and not wrong else 1

