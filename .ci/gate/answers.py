"""Compares answers to requests for paths with those of a search that tries every list of pieces.

It asks `scion_paths` of a shared object about random sets of segments: such as a network issues,
and others; with many segments over the same links, whose expiries and info fields are often equal
and whose hop fields often differ in the last byte alone; and over a row of core ASes, with one walk
that is joined in many ways, of which the best is found early or late. The search below is written
from the rules of paths. The status is 1 where an answer differs."""
import itertools
import random
from collections.abc import Callable, Iterable, Sequence
from typing import Any

from gate.hosts import Library
from gate.words import reader

# A segment as `scion_paths` reads it; segments, with the places of the ASes between which is asked;
# and an AS with the interfaces of a hop.
Segment = dict[str, Any]
Asked = tuple[list[Segment], int, int]
Hop = tuple[str, int, int]

NOW = 1000
SEED, REQUESTS = 1, 3000
FOLLOWS = {("up", "core"), ("up", "down"), ("core", "down")}
KINDS = [("up",), ("core",), ("down",), *FOLLOWS, ("up", "core", "down")]


def name(ia: int) -> str:
    return f"1-ff00:0:{0x110 + ia:x}"


def expiry(segment: Segment, entry: dict[str, Any]) -> int:
    """In half seconds: 337.5 seconds for each unit of `exp` and one more."""
    return 2 * segment["timestamp"] + 675 * (1 + entry["exp"])


def is_live(segment: Segment) -> bool:
    return all(2 * NOW <= expiry(segment, entry) for entry in segment["entries"])


class Piece:
    """The entries of a segment from one place to another, travelled along its direction or not."""

    def __init__(self, segment: Segment, kind: str, first: int, last: int,
                 along: bool) -> None:
        self.kind, self.along, self.first = kind, along, first
        self.is_whole = last == len(segment["entries"]) - 1
        self.segment = segment
        entries = segment["entries"][first:last + 1]
        self.entries = entries if along else entries[::-1]
        self.begins, self.ends = self.entries[0]["ia"], self.entries[-1]["ia"]
        beta = segment["beta0"]
        for entry in segment["entries"][:first if along else last]:
            beta ^= int(entry["mac"][:4], 16)
        self.info = f"{along:02x}00{beta:04x}{segment['timestamp']:08x}"
        self.fields = "".join(f"00{e['exp']:02x}{e['ingress']:04x}{e['egress']:04x}{e['mac']}"
                              for e in self.entries)
        self.expiry = min(expiry(segment, entry) for entry in entries)
        way_in, way_out = ("ingress", "egress") if along else ("egress", "ingress")
        self.hops = [(entry["ia"], entry[way_in], entry[way_out]) for entry in self.entries]


def walk_of(pieces: Sequence[Piece]) -> tuple[Hop, ...]:
    walk = list(pieces[0].hops)
    for piece in pieces[1:]:
        last, first = walk[-1], piece.hops[0]
        walk[-1:] = [(last[0], last[1], first[2])]
        walk += piece.hops[1:]
    walk[0] = (walk[0][0], 0, walk[0][2])
    walk[-1] = (walk[-1][0], walk[-1][1], 0)
    return tuple(walk)


def keeps_the_rules(pieces: Sequence[Piece], src: str, dst: str) -> bool:
    pairs = list(itertools.pairwise(pieces))
    if any((a.kind, b.kind) not in FOLLOWS or a.ends != b.begins for a, b in pairs):
        return False
    if any(piece.kind == "core" for piece in pieces):
        if any(piece.first or piece.kind == "core" and not piece.is_whole for piece in pieces):
            return False
    elif len({piece.first == 0 for piece in pieces}) > 1:
        return False
    ases = [hop[0] for hop in walk_of(pieces)]
    return (pieces[0].begins == src and pieces[-1].ends == dst and len(set(ases)) == len(ases)
            and sum(len(piece.entries) for piece in pieces) <= 64)


def header_of(pieces: Sequence[Piece]) -> str:
    lens = [len(piece.entries) for piece in pieces] + [0, 0]
    meta = f"{(lens[0] << 12) + (lens[1] << 6) + lens[2]:08x}"
    infos, fields = (piece.info for piece in pieces), (piece.fields for piece in pieces)
    return meta + "".join(infos) + "".join(fields)


def cuts(segment: Segment, kind: str, along: bool) -> list[Piece]:
    pairs = itertools.combinations(range(len(segment["entries"])), 2)
    return [Piece(segment, kind, first, last, along) for first, last in pairs]


def stored(segments: list[Segment]) -> list[Segment]:
    """The live segments, each once, and at most 32 of one kind with the same ends."""
    store: list[Segment] = []
    for segment in segments:
        alike = [s for s in store if all(s["kind"] == segment["kind"] and s["entries"][end]["ia"]
                                         == segment["entries"][end]["ia"] for end in (0, -1))]
        if is_live(segment) and segment not in store and len(alike) < 32:
            store.append(segment)
    return store


def answer(segments: list[Segment], src: str, dst: str,
           limit: int | None) -> list[tuple[str, str, int]]:
    """The first paths: for each walk the one that expires last, and then of the least bytes."""
    store = stored(segments)
    intra = [segment for segment in store if segment["kind"] == "intra"]
    ups = [segment for segment in intra if segment["entries"][-1]["ia"] == src]
    downs = [segment for segment in intra if segment["entries"][-1]["ia"] == dst]
    near = {src} | {segment["entries"][0]["ia"] for segment in ups}
    far = {dst} | {segment["entries"][0]["ia"] for segment in downs}
    pieces: dict[str, list[Piece]] = {
        "up": [p for s in ups for p in cuts(s, "up", False)],
        "down": [p for s in downs for p in cuts(s, "down", True)],
        "core": [],
    }
    for segment in store:
        first, last = segment["entries"][0]["ia"], segment["entries"][-1]["ia"]
        joins = first in near and last in far or last in near and first in far
        if segment["kind"] == "core" and joins:
            end = len(segment["entries"]) - 1
            pieces["core"] += [Piece(segment, "core", 0, end, along) for along in (True, False)]
    best: dict[tuple[Hop, ...], Any] = {}
    for kinds in KINDS:
        for found in itertools.product(*(pieces[kind] for kind in kinds)):
            if keeps_the_rules(found, src, dst):
                walk = walk_of(found)
                rank = (-min(piece.expiry for piece in found), header_of(found))
                if walk not in best or rank < best[walk][0]:
                    best[walk] = (rank, sum(len(piece.entries) for piece in found))
    order = sorted((count, rank[1], walk, -rank[0]) for walk, (rank, count) in best.items())
    return [(header, " ".join(f"{ia}#{way_in},{way_out}" for ia, way_in, way_out in walk), last)
            for count, header, walk, last in order[:limit]]


# Authenticators, the last two of which differ in their last byte alone.
MACS = ("000000000000", "000100000000", "a1a2a3a4a5a6", "a1a2a3a4a5a7")


def over(kind: str, ases: Iterable[int], ways: list[tuple[int, int]], **others: Any) -> Segment:
    """A segment that leaves each AS but the last by its way: the interfaces of a link."""
    pairs = zip([0, *(far for _, far in ways)], [*(near for near, _ in ways), 0])
    entries = [{"ia": name(ia), "ingress": way_in, "egress": way_out, "exp": 63, "mac": MACS[0]}
               for ia, (way_in, way_out) in zip(ases, pairs)]
    return {"kind": kind, "timestamp": NOW, "beta0": 0, "entries": entries, **others}


def alike_segments(chance: random.Random) -> Asked:
    """Many segments over the same few links, from a core AS above each end, and between the two."""
    rows = [("intra", [1, 0], [(1, 2)]), ("core", [1, 2], [(3, 4)]), ("intra", [2, 3], [(5, 6)])]
    segments: list[Segment] = []
    for kind, ases, ways in rows:
        for _ in range(chance.randint(1, 6)):
            segment = over(kind, ases, ways, timestamp=chance.choice((NOW - 100, NOW)),
                           beta0=chance.choice((0, 1)))
            for entry in segment["entries"]:
                entry.update(exp=chance.choice((0, 0, 1)), mac=chance.choice(MACS[2:]))
            segments.append(segment)
    return segments, 0, 3


def ambiguous_segments(chance: random.Random) -> Asked:
    """A segment over each stretch of a row of core ASes, with parallel links to both ends. The
    expiries of segments rise or fall by the AS in which they begin, or are equal."""
    cores, parallel, slope = chance.randint(2, 3), chance.randint(1, 2), chance.choice((-1, 0, 1))
    segments: list[Segment] = []

    def way(low: int, link: int = 0) -> tuple[int, int]:
        return 10 * low + link + 1, 10 * low + link + 101

    for core in range(1, cores + 1):
        exp = 30 + slope * core
        for link in range(parallel):
            up = [way(low, 0 if low else link)[::-1] for low in range(core - 1, -1, -1)]
            down = [way(low, link if low == cores else 0) for low in range(core, cores + 1)]
            segments += [over("intra", range(core, -1, -1), up),
                         over("intra", range(core, cores + 2), down)]
            for entry in segments[-2]["entries"]:
                entry["exp"] = exp
        segments += [over("core", range(core, other + 1), [way(low) for low in range(core, other)])
                     for other in range(core + 1, cores + 1)]
    for number, segment in enumerate(segments):
        segment["beta0"] = number if chance.random() < 0.5 else 0
    return segments, 0, cores + 1


def some_segments(chance: random.Random) -> Asked:
    """Random segments over a few ASes, some of them copies of others with other bytes."""
    is_lawful = chance.random() < 0.5
    cores, count = chance.randint(1, 3), chance.randint(4, 6)
    links: dict[Any, tuple[int, int]] = {}
    segments: list[Segment] = []
    for _ in range(chance.randint(4, 24)):
        if segments and chance.random() < 0.4:
            old = chance.choice(segments)
            segment = dict(old, entries=[dict(entry) for entry in old["entries"]])
        else:
            kind = chance.choice(("intra", "intra", "core"))
            if not is_lawful:
                ases = chance.sample(range(count), chance.randint(2, min(4, count)))
            elif kind == "core":
                ases = chance.sample(range(cores), min(cores, chance.randint(2, 3)))
            else:
                hops = min(count - cores, chance.randint(1, 3))
                ases = [chance.randrange(cores), *sorted(chance.sample(range(cores, count), hops))]
            if len(ases) < 2:
                continue
            ways = []
            for one, next_one in itertools.pairwise(ases):
                number = chance.randint(0, 1)
                key = (min(one, next_one), max(one, next_one), number)
                low, high = links.setdefault(key, (2 * len(links) + 1, 2 * len(links) + 2))
                ways.append((low, high) if one < next_one else (high, low))
            entries = [{"ia": name(ia), "ingress": ways[i - 1][1] if i else 0,
                        "egress": ways[i][0] if i < len(ways) else 0} for i, ia in enumerate(ases)]
            segment = {"kind": kind, "entries": entries}
        segment["timestamp"] = chance.choice((NOW - 300, NOW - 100, NOW))
        segment["beta0"] = chance.choice((0, 1, 0x1234))
        for entry in segment["entries"]:
            entry["exp"] = chance.choice((0, 1, 63))
            entry["mac"] = chance.choice(MACS)
        segments.append(segment)
    src, dst = chance.sample(range(count), 2)
    return segments, src, dst


# The kinds of sets, of which those that are drawn freely come twice as often.
FAMILIES: tuple[Callable[[random.Random], Asked], ...] = (
    some_segments, some_segments, alike_segments, ambiguous_segments,
)


def main(words: Sequence[str]) -> int:
    words_of = reader(__name__, __doc__)
    words_of.add_argument("shared", help="the shared object of both libraries")
    words_of.add_argument("--seed", type=int, default=SEED, help="of the requests")
    words_of.add_argument("--requests", type=int, default=REQUESTS, help="how many")
    asked = words_of.parse_args(words)
    seed, requests = asked.seed, asked.requests
    library, chance = Library(asked.shared), random.Random(seed)
    wrong = paths = 0
    for number in range(requests):
        segments, *ends = chance.choice(FAMILIES)(chance)
        src, dst = (name(ia) for ia in ends)
        limit = chance.choice((1, 2, 3, 8, 64))
        given = library.paths(src=src, dst=dst, limit=limit, now=NOW, segments=segments)
        got = [(path["header"], path["walk"], path["expiry"]) for path in given["paths"]]
        wanted = answer(segments, src, dst, limit)
        paths += len(wanted)
        if got != wanted or ("option" in given) != bool(wanted):
            wrong += 1
            print(f"answers: request {number} of seed {seed}: {src} {dst} {limit}: "
                  f"{got} in place of {wanted}")
    print(f"answers: {requests} requests, {paths} paths, {wrong} wrong")
    return 0 if requests and paths and not wrong else 1

