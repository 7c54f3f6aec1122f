"""Requests for paths in random networks: none takes longer than its segments explain.

A network has core ASes, two sides of layers below them, links in parallel, segments of several
seconds, and a policy with up to 16 options. One `ask` is made in it. Here its usable pieces are
counted (P), the groups of those that put the same hops into a walk, and the lists of groups that
meet (L). With h hops in the longest walk and o options, the request may take a few steps for P
times h and log P, and for L times h and o, as the page of `combinator` says; and memory for its
pieces, groups and paths. Seconds are those of processor, less those of the same lines without the
request, and held to a loop as in `growth.py`.

The networks are always the same; `--seed N` gives others, and `--seconds N` as many as can be tried
in that time. The last line has the number of requests, how many fall short, and the one nearest to
its bound; the status is 1 where one falls short."""
import concurrent.futures
import itertools
import math
import os
import random
import tempfile
import time
from collections import Counter
from collections.abc import Iterator, Sequence
from dataclasses import dataclass
from pathlib import Path
from typing import Any

from gate import TOP
from gate.families import Network, address
from gate.growing import LOOP_SECONDS, loop
from gate.growth import answer_to, run
from gate.words import reader

PROGRAM = str(TOP / "crates/scionet/out/scionet")
SEED, NETWORKS, TIMES = 1, 160, 3

# What is allowed: seconds whatever is asked; nanoseconds for each piece and hop, and for each list
# of groups, hop and option; bytes whatever is asked, for each piece, and for each path.
LEAST, PIECE, LIST = 0.01, 100, 100
LEAST_BYTES, PIECE_BYTES, PATH_BYTES = 4_000_000, 200, 4_000

# The second of the first segments, and the most chains of links below a core AS.
NOW, CHAINS = 1000, 48

# A link by the end where a segment comes from, and the end behind it.
Way = tuple[dict[str, Any], dict[str, Any]]
Chain = tuple[Way, ...]

# A chain by the interfaces that it passes, which tells it from others.
Ends = tuple[tuple[str, int], ...]


def from_a(link: dict[str, Any]) -> Way:
    return link["a"], link["b"]


def ends(chain: Sequence[Way]) -> Ends:
    return tuple((end["ia"], end["if"]) for way in chain for end in way)


@dataclass(frozen=True)
class Request:
    """A request in a network: the lines before it, its own, and what explains its cost."""

    lines: str
    ask: str
    shape: str
    pieces: int
    lists: int
    hops: int
    options: int
    limit: int

    @property
    def seconds(self) -> float:
        steps = self.pieces * (self.hops + math.log2(self.pieces + 1)) * PIECE
        return LEAST + (steps + self.lists * self.hops * (1 + self.options) * LIST) * 1e-9

    @property
    def bytes(self) -> int:
        return LEAST_BYTES + self.pieces * PIECE_BYTES + self.limit * PATH_BYTES


class Drawn:
    """A network by chance, with segments over chains of its links."""

    def __init__(self, rng: random.Random) -> None:
        self.rng, self.made = rng, Counter[Ends]()
        self.cores = rng.choice((1, 2, 3, 4, 6))
        self.is_split = self.cores > 1 and rng.random() < 0.6
        width, depths = rng.choice((1, 1, 2, 3)), [rng.choice((1, 1, 2, 3)) for _ in range(2)]
        self.network = Network(self.cores, width * sum(depths))
        fresh = itertools.count(self.cores)
        half = self.cores // 2
        tops = [range(half), range(half, self.cores)] if self.is_split else [range(self.cores)] * 2
        rows = [[[next(fresh) for _ in range(width)] for _ in range(it)] for it in depths]
        self.sides = [it[-1][0] for it in rows]
        self.chains = [[*self.below(top, side)] for top, side in zip(tops, rows)]
        self.between = [*self.across()]
        self.register()

    def parallel(self) -> range:
        return range(self.rng.choice((1, 1, 2, 4, 8, 16)))

    def below(self, tops: Sequence[int], rows: list[list[int]]) -> Iterator[Chain]:
        """The chains of links from these core ASes to the first AS of the last of these rows."""
        ways: dict[int, list[Chain]] = {top: [()] for top in tops}
        for row in rows:
            here: dict[int, list[Chain]] = {one: [] for one in row}
            for top, one in itertools.product(ways, row):
                for _ in self.parallel():
                    link = from_a(self.network.link("child", top, one))
                    here[one] += [(*chain, link) for chain in ways[top]]
            for chains in here.values():
                self.rng.shuffle(chains)
                del chains[CHAINS:]
            ways = here
        return iter(ways[rows[-1][0]])

    def across(self) -> Iterator[Chain]:
        """The links between core ASes, each one way."""
        for one, other in itertools.combinations(range(self.cores), 2):
            for _ in self.parallel():
                way = from_a(self.network.link("core", one, other))
                yield (way if self.rng.random() < 0.5 else way[::-1],)

    def register(self) -> None:
        chains = [*itertools.chain(*self.chains, self.between)]
        most = self.rng.choice((20, 100, 400))
        for second in range(self.rng.choice((1, 1, 2, 8, 32))):
            self.network.say("tick", now=NOW + second)
            self.rng.shuffle(chains)
            for chain in chains[:most]:
                self.network.chain(chain, beta0=self.rng.randrange(1 << 16))
                self.made[ends(chain)] += 1


def groups(chains: Sequence[Chain], made: Counter[Ends]) -> tuple[int, Counter[str]]:
    """The pieces of these chains that end in their last AS, and how many groups of them leave it
    for each AS, or come from there."""
    pieces, found = 0, {}
    for chain in (it for it in chains if made[ends(it)]):
        for cut in range(len(chain)):
            pieces += made[ends(chain)]
            part = chain[cut:]
            found[ends(part), cut == 0] = part[0][0]["ia"]
    return pieces, Counter(found.values())


def lists(up: Counter[str], core: Counter[tuple[str, str]], down: Counter[str], src: str,
          dst: str) -> int:
    """How many lists of groups meet between two ASes."""
    behind = down + Counter({dst: 1})
    through = sum(count * (up[one] + (one == src)) * behind[other]
                  for (one, other), count in core.items())
    return up[dst] + down[src] + sum(count * down[one] for one, count in up.items()) + through


def policy(rng: random.Random, names: Sequence[str]) -> dict[str, Any]:
    """The members of a request that say which paths are allowed."""
    weights = range(rng.choice((2, 8, 16)))
    members: tuple[dict[str, Any], ...] = (
        {},
        {"acl": ["- " + rng.choice(names), "+"]},
        {"sequence": rng.choice(("0*", "0* 1-9999 0*", "(0|1-1)* 0*"))},
        {"options": [{"weight": it, "acl": ["- " + rng.choice(names), "+"]} for it in weights]},
        {"options": [{"weight": it, "sequence": "1-9999 0*"} for it in weights]},
    )
    return rng.choice(members)


def drawn(seed: int) -> Request:
    """A request in the network of this seed."""
    rng = random.Random(seed)
    it = Drawn(rng)
    src, dst = (address(one) for one in it.sides)
    ups, up = groups(it.chains[0], it.made)
    downs, down = groups(it.chains[1], it.made)
    core: Counter[tuple[str, str]] = Counter()
    for ((one, other),) in (chain for chain in it.between if it.made[ends(chain)]):
        core.update([(one["ia"], other["ia"]), (other["ia"], one["ia"])])
    members = policy(rng, [one["ia"] for one in it.network.ases])
    limit, before = rng.choice((1, 4, 8, 64)), it.network.text()
    it.network.say("ask", src=src, dst=dst, limit=limit, **members)
    ask = it.network.lines[-1]
    pieces = ups + downs + 2 * sum(it.made[ends(chain)] for chain in it.between)
    hops = 2 + sum(max(map(len, chains), default=0) + 1 for chains in it.chains)
    options = len(members.get("options", ())) or 1
    count = lists(up, core, down, src, dst)
    shape = f"seed {seed}: {pieces} pieces, {count} lists, {options} options, limit {limit}"
    return Request(before, ask + "\n", shape, pieces, count, hops, options, limit)


def cost(request: Request, folder: Path) -> tuple[float, int]:
    """Seconds and bytes that a request takes beside the lines before it."""
    given = folder / f"lines-{os.getpid()}"
    found = []
    for text in (request.lines, request.lines + request.ask):
        given.write_text(text)
        seconds, memory, status = run([PROGRAM, "run"], given)
        answer_to(given).unlink()
        found.append((seconds, memory) if status == 0 else (math.inf, memory))
    (before, kept), (after, most) = found
    return after - before, most - kept


def tried(seed: int, folder: Path, speed: float) -> tuple[float, float, str]:
    """A request of this seed: its seconds, what part of its bound they are, and its shape. One that
    seems to fall short is measured again, and its fewest seconds count."""
    request, seconds, part = drawn(seed), math.inf, math.inf
    for _ in range(TIMES):
        took, memory = cost(request, folder)
        seconds = min(seconds, took * speed)
        part = max(seconds / request.seconds, memory / request.bytes)
        if part <= 1:
            break
    return seconds, part, request.shape


def seeds(first: int, until: float | None) -> Iterator[int]:
    """The seeds of networks: so many, or those up to this time."""
    for number in itertools.count() if until else range(NETWORKS):
        if until and time.monotonic() > until:
            return
        yield first + number


def main(words: Sequence[str]) -> int:
    words_of = reader(__name__, __doc__)
    words_of.add_argument("--seed", type=int, default=SEED, help="of the first network")
    words_of.add_argument("--seconds", type=int, help="for which networks are tried")
    asked = words_of.parse_args(words)
    until = time.monotonic() + asked.seconds if asked.seconds else None
    speed = LOOP_SECONDS / min(loop() for _ in range(TIMES))
    rows: list[tuple[float, float, str]] = []
    with tempfile.TemporaryDirectory() as name, concurrent.futures.ProcessPoolExecutor() as pool:
        given = seeds(asked.seed, until)
        while batch := [*itertools.islice(given, 8 * (os.cpu_count() or 1))]:
            rows += pool.map(tried, batch, [Path(name)] * len(batch), [speed] * len(batch))
    short = [f"{shape}: {seconds:.3f} s, {part:.2f} of its bound" for seconds, part, shape in rows
             if part > 1]
    for it in short:
        print(f"requests: {it}")
    seconds, part, shape = max(rows, key=lambda row: row[1], default=(0.0, 0.0, "none"))
    print(f"requests: {len(rows)} requests, {len(short)} fall short; nearest to its bound, at"
          f" {part:.2f} of it: {seconds:.3f} s, {shape}")
    return 1 if short or not rows else 0
