"""Random topologies and policies, and what a packet has to do on a walk: for theorem.py."""
import collections
import json
import random
from typing import Any, NamedTuple

# An AS and an interface.
End = tuple[str, int]


class Hop(NamedTuple):
    """A hop of a walk; an interface is 0 where the walk begins or ends."""

    ia: str
    way_in: int
    way_out: int


class Link(NamedTuple):
    """A link of a topology."""

    kind: str
    ends: Any


# A tree of a sequence: its word, and what belongs to it.
Node = tuple[Any, ...]

written_json = json.JSONEncoder(separators=(",", ":")).encode


def event(do: str, **members: Any) -> str:
    """The line of an event."""
    return written_json({"do": do, **members})


# Policies. A sequence is made as a tree, which is printed for the program and matched here.


def predicate(ia: str, *interfaces: int) -> Node:
    return "hop", ia, interfaces


def fits(node: Node, hop: Hop) -> bool:
    """Whether the hop is as the predicate says; 0 stands for any number."""
    _, ia, interfaces = node
    wanted, found = (it.partition("-")[::2] for it in (ia, hop.ia))
    if any(w not in ("0", "", f) for w, f in zip(wanted, found)):
        return False
    if len(interfaces) == 1:
        return interfaces[0] in (0, hop.way_in, hop.way_out)
    return all(w in (0, f) for w, f in zip(interfaces, hop[1:]))


def ends(node: Node, walk: list[Hop], starts: set[int]) -> set[int]:
    """Where a word of the tree may end that begins at one of these places of the walk."""
    kind, parts = node[0], node[1:]
    if kind == "hop":
        return {at + 1 for at in starts if at < len(walk) and fits(node, walk[at])}
    if kind == "row":
        for part in parts:
            starts = ends(part, walk, starts)
        return starts
    if kind == "either":
        return set().union(*(ends(part, walk, starts) for part in parts))
    once = ends(parts[0], walk, starts)
    if kind == "?":
        return starts | once
    found, new = set(once), once
    while new:
        new = ends(parts[0], walk, new) - found
        found |= new
    return found | starts if kind == "*" else found


def written(node: Node) -> str:
    kind, parts = node[0], node[1:]
    if kind == "hop":
        return parts[0] + ("#" + ",".join(map(str, parts[1])) if parts[1] else "")
    if kind == "row":
        return " ".join(map(written, parts))
    if kind == "either":
        return f"({' | '.join(map(written, parts))})"
    inner = written(parts[0])
    return f"({inner}){kind}" if parts[0][0] == "row" else f"{inner}{kind}"


def is_wild(node: Node) -> bool:
    return {*node[1].split("-"), *node[2]} <= {"0", 0}


def random_predicate(rng: random.Random, hop: Hop) -> Node:
    isd = hop.ia.partition("-")[0]
    choices: list[Any] = [("0",), (isd,), (f"{isd}-0",), (hop.ia,)]
    choices += [(hop.ia, hop.way_in, hop.way_out)]
    choices += [("0-0", hop.way_in, 0), (hop.ia, rng.choice(hop[1:])), (hop.ia, 0)]
    return predicate(*rng.choice(choices))


def random_sequence(rng: random.Random, walk: list[Hop]) -> Node:
    """A tree that often has this walk as a word."""
    parts, at = [], 0
    while at < len(walk):
        one, other = (random_predicate(rng, hop) for hop in (walk[at], rng.choice(walk)))
        span = rng.randint(1, 4)
        many = predicate(rng.choice(("0", "0-0")))
        part, length = rng.choice((
            (one, 1), (one, 1), (("either", one, other), 1), (("?", one), 1), (("+", one), 1),
            (("*", many), span), (("+", ("either", many, other)), span),
            (("*", ("row", ("?", one), many)), span),
        ))
        parts.append(part)
        at += length
    return ("row", *parts)


class Policy:
    """An access list and a sequence, either of which may be absent."""

    def __init__(self, rng: random.Random, walk: list[Hop]) -> None:
        self.entries: list[tuple[str, Node | None]] | None = None
        self.sequence: Node | None = None
        if rng.random() < 0.5:
            nodes = (random_predicate(rng, hop) for hop in rng.choices(walk, k=rng.randint(0, 3)))
            # A predicate of wildcards alone would be the entry without one, which is the last.
            self.entries = [(rng.choice("++-"), it) for it in nodes if not is_wild(it)]
            self.entries.append((rng.choice("+++-"), None))
        if rng.random() < 0.6:
            self.sequence = random_sequence(rng, walk)

    def members(self) -> dict[str, list[str] | str]:
        found: dict[str, list[str] | str] = {}
        if self.entries is not None:
            entries = ((sign, f" {written(node)}" if node else "") for sign, node in self.entries)
            found["acl"] = [sign + rest for sign, rest in entries]
        if self.sequence is not None:
            found["sequence"] = written(self.sequence)
        return found

    def allows(self, walk: list[Hop]) -> bool:
        if self.sequence is not None and len(walk) not in ends(self.sequence, walk, {0}):
            return False
        return self.entries is None or all(self.is_allowed(hop) for hop in walk)

    def is_allowed(self, hop: Hop) -> bool:
        signs = (sign for sign, node in self.entries or () if node is None or fits(node, hop))
        return next(signs) == "+"


# Topologies.


def random_number(rng: random.Random) -> str:
    """The text of an AS number, as it is printed."""
    number = rng.randrange(1, 1 << rng.choice((8, 32, 48)))
    if number < 1 << 32:
        return str(number)
    return f"{number >> 32:x}:{number >> 16 & 0xffff:x}:{number & 0xffff:x}"


class Topology:
    """ASes with their routers, links, and the router that owns each interface."""

    def __init__(self, rng: random.Random) -> None:
        self.rng = rng
        self.owners: dict[End, int] = {}
        self.far: dict[End, End] = {}
        self.links: list[Link] = []
        self.down: dict[tuple[str, str], list[End]] = collections.defaultdict(list)
        isds = [str(isd) for isd in rng.sample(range(1, 65536), rng.randint(1, 3))]
        count = rng.randint(3, 40)
        cores = rng.randint(len(isds), max(len(isds), count // 4))
        self.ases: dict[str, Any] = {}
        for place in range(count):
            isd = isds[place % len(isds)]
            names = iter(lambda: f"{isd}-{random_number(rng)}", None)
            name = next(it for it in names if it not in self.ases)
            self.ases[name] = {
                "core": place < cores, "exp": rng.randint(3, 255), "routers": rng.randint(1, 3),
                "key": rng.randbytes(rng.randint(1, 64)).hex(),
            }
        self.names = [*self.ases]
        self.join_ases(cores)

    def join_ases(self, cores: int) -> None:
        """Each AS has a link to one before it, if there is one that may have it, and some more."""
        for place, name in enumerate(self.names):
            isd = name.partition("-")[0]
            above = self.names[: min(place, cores)] if place < cores else [
                it for it in self.names[:place] if it.partition("-")[0] == isd
            ]
            for other in self.rng.choices(above, k=self.rng.choice((1, 1, 2, 3))) if above else ():
                self.join("core" if place < cores else "child", other, name)

    def join(self, kind: str, *names: str) -> None:
        places = []
        for name in names:
            free = next(it for it in iter(lambda: self.rng.randint(1, 65535), 0)
                        if (name, it) not in self.owners)
            self.owners[name, free] = self.rng.randrange(self.ases[name]["routers"])
            places.append((name, free))
        link = Link(kind, tuple(places))
        self.links.append(link)
        self.far.update({places[0]: places[1], places[1]: places[0]})
        self.down[names[0], kind].append(places[0])
        if kind == "core":
            self.down[names[1], kind].append(places[1])

    def line(self) -> str:
        ases: list[Any] = [{"ia": name, **members} for name, members in self.ases.items()]
        links: list[Any] = [
            {"kind": link.kind, **{
                side: {"ia": ia, "if": number, "router": self.owners[ia, number]}
                for side, (ia, number) in zip("ab", link.ends)
            }}
            for link in self.links
        ]
        return written_json({"ases": ases, "links": links})

    def joins(self, walk: list[Hop]) -> bool:
        """Whether each hop of the walk leads over a link to the next one."""
        pairs = zip(walk, walk[1:])
        return all(self.far.get((a.ia, a.way_out)) == (b.ia, b.way_in) for a, b in pairs)

    def links_of(self, walk: list[Hop]) -> set[tuple[str, int]]:
        """The links of a walk, each by the end at which it is left and the one behind it."""
        return {end for hop in walk[:-1] for end in self.both((hop.ia, hop.way_out))}

    def both(self, end: tuple[str, int]) -> tuple[tuple[str, int], tuple[str, int]]:
        return end, self.far[end]


class Packet:
    """A packet, what each of its turns has to answer, and what `show` has to answer between."""

    def __init__(self, topology: Topology, number: int, walk: list[Hop]) -> None:
        self.number, self.walk, self.had = number, walk, 0
        self.replies: list[str] = []
        self.shows: list[str] = []
        self.is_promised, self.is_given_up, self.has_arrived = True, False, False
        self.shows.append(f"at {walk[0].ia} {topology.owners[walk[0].ia, walk[0].way_out]}")
        for place, hop in enumerate(walk[:-1]):
            passed = written_walk(walk[:place])
            owner = topology.owners[hop.ia, hop.way_out]
            if place and topology.owners[hop.ia, hop.way_in] != owner:
                self.note(f"router {owner}", f"at {hop.ia} {owner}", passed)
            far, number = topology.far[hop.ia, hop.way_out]
            at = f"at {far} {topology.owners[far, number]}"
            self.note(f"link {hop.way_out}", at, written_walk(walk[: place + 1]))
        self.note("delivered", "delivered", written_walk(walk))

    def note(self, reply: str, place: str, passed: str) -> None:
        self.replies.append(reply)
        self.shows.append(f"{place}; {passed}" if passed else place)


def written_walk(walk: list[Hop]) -> str:
    return " ".join(f"{hop.ia}#{hop.way_in},{hop.way_out}" for hop in walk)


def read_walk(text: str) -> list[Hop]:
    hops = (hop.partition("#")[::2] for hop in text.split(" "))
    return [Hop(ia, *map(int, interfaces.split(","))) for ia, interfaces in hops]
