"""Reports of random networks, over the programs that `rt ci` has proved and built.

Each network is beaconed by `scionet_view beacons`, and some of its links are cut. Each line of
`scionet_view report` has to be what is computed here from the answers of `scionet run`: the paths
none of whose links is down, the best of them, how many links may be lost before none is left, the
links that all of them cross, the ASes that all of them pass, and at the end the links that most
pairs need, and those that are cut; with a policy and without one, and also where there are as many
paths as the limit. The same has to stand in the lines of `--json`. Of some pairs the answers are
compared with the search of `answers.py` over the segments, which tries every list of pieces. Then a
link between two ISDs is cut: exactly the pairs that need it lose their paths, and so
`tools/compare_reports.py` says.

The last line has the number of lines, of networks, and of what was wrong; the status is 1 where
something was."""
import concurrent.futures
import itertools
import json
import os
import random
import re
import sys
import tempfile
from collections.abc import Iterable, Iterator, Sequence
from pathlib import Path
from typing import Any

from gate import TOP, answers, children, networks
from gate.words import reader

VIEW, RUN = (str(TOP / "crates" / name / "out" / name) for name in ("scionet_view", "scionet"))
SEED, NETWORKS = 1, 60

# The most ASes of a network, the most paths of an answer to a request, the second at which all
# beacons are begun, the lifetime of a hop in half seconds, and the links that are named at the end.
ASES, ANSWER, NOW, LIFETIME, NAMED = 16, 64, 1000, 675, 10

# The pairs of a network whose walks are searched; the most lost links that a report looks at.
SEARCHED, LOST = 12, 3

# What is printed of a network without segments; the script that compares two reports.
BARE = "no segment is stored: 'scionet_view beacons' prints the lines that make some"
COMPARE = TOP / "tools/compare_reports.py"

# A core link of this network is the only one between its two ISDs.
PAIR, CORE = "examples/pair.txt", "1-ff00:0:110#2~2-ff00:0:210#1"


# Two ASes, and the walks between them; the members of a request that say its policy; and how many
# lines were compared, with what was wrong.
Pair = tuple[str, ...]
Walks = list[list[networks.Hop]]
Policy = dict[str, Any]
Compared = tuple[int, list[str]]


def ran(words: list[str], given: str) -> list[str]:
    return children.output(words, given.encode()).decode().splitlines()


def named(ends: Iterable[networks.End]) -> str:
    """A link by its ends."""
    return "~".join(f"{ia}#{number}" for ia, number in ends)


class Network:
    """A network whose topology is beaconed, and some of whose links are cut."""

    def __init__(self, rng: random.Random, per_pair: int) -> None:
        grown = iter(lambda: networks.Topology(rng), None)
        self.topology = next(it for it in grown if len(it.names) <= ASES)
        words = [VIEW, "beacons", "--per-pair", str(per_pair), "--now", str(NOW)]
        self.lines = ran(words, self.topology.line())
        links = self.topology.links
        cut = rng.sample(links, min(rng.choice((0, 0, 1, 2)), len(links)))
        self.down = {end for link in cut for end in link.ends}
        for link in cut:
            ia, number = link.ends[0]
            self.lines.append(networks.event("cut", ia=ia, **{"if": number}))

    def asked(self, pairs: list[Pair], limit: int, policy: Policy) -> Iterator[Walks]:
        """The walks of the answer for each pair."""
        asks = [
            networks.event("ask", src=one, dst=other, limit=limit, **policy) for one, other in pairs
        ]
        replies = ran([RUN], "\n".join(self.lines + asks) + "\n")[len(self.lines):]
        for reply in replies:
            yield [networks.read_walk(text) for text in reply.split("; ")[1:]]

    def segments(self) -> Iterator[answers.Segment]:
        """The segments that the lines register, as `answers.py` has them; no authenticators."""
        beacons: list[list[tuple[str, int, int]]] = []
        kinds = {it.ends: it.kind for it in self.topology.links}
        for line in map(json.loads, self.lines[1:]):
            if line["do"] == "originate":
                beacons.append([(line["ia"], 0, line["egress"])])
            elif line["do"] in ("extend", "terminate"):
                way = beacons[line["beacon"]]
                near = way[-1][0], way[-1][2]
                far = self.topology.far[near]
                longer = [*way, (far[0], far[1], line.get("egress", 0))]
                if line["do"] == "extend":
                    beacons.append(longer)
                    continue
                kind = kinds.get((near, far)) or kinds[far, near]
                entries = [
                    {"ia": ia, "ingress": way_in, "egress": way_out, "mac": "0" * 12,
                     "exp": self.topology.ases[ia]["exp"]} for ia, way_in, way_out in longer
                ]
                yield {"kind": "core" if kind == "core" else "intra", "entries": entries,
                       "timestamp": NOW, "beta0": 0}

    def searched(self, pairs: list[Pair]) -> Compared:
        """How many answers to requests were compared with a search, and which have other walks."""
        segments = [*self.segments()]
        wrong: list[str] = []
        for pair, walks in zip(pairs, self.asked(pairs, ANSWER, {})):
            found = {networks.written_walk(it) for it in walks}
            wanted = {it for _, it, _ in answers.answer(segments, pair[0], pair[1], None)}
            if found != wanted and (len(walks) < ANSWER or not found < wanted):
                wrong.append(f"{pair}: {len(found)} walks, and not the {len(wanted)} of a search")
        return len(pairs), wrong

    def until(self, walk: list[networks.Hop]) -> int:
        """The last second at which all hops of a walk are live."""
        lives = (self.topology.ases[hop.ia]["exp"] + 1 for hop in walk)
        return (2 * NOW + LIFETIME * min(lives)) // 2

    def line(self, pair: Pair, walks: Walks, limit: int, told: str) -> tuple[str, list[str]]:
        """The line of a pair, and the links that it needs. Where there are as many walks as the
        limit, how many of those that were found are up is what is told, if that may be."""
        crossed = [self.topology.links_of(walk) for walk in walks]
        open_walks = [walk for walk, ends in zip(walks, crossed) if not ends & self.down]
        crossed = [ends for ends in crossed if not ends & self.down]
        line, is_full = f"{pair[0]} {pair[1]} paths", len(walks) == limit
        count = counted(told, line, limit) if is_full else str(len(crossed))
        if count in ("0", "0+"):
            return f"{line} {count}", []
        best = open_walks[0] if open_walks else None
        hops = str(len(best)) if best else "unknown"
        until = str(self.until(best)) if best else "unknown"
        line += f" {count} hops {hops} until {until} survives"
        if is_full:
            return f"{line} unknown needs unknown through unknown", []
        ends = set.intersection(*crossed)
        needed = [named(link.ends) for link in self.topology.links if link.ends[0] in ends]
        passed = set.intersection(*({hop.ia for hop in walk} for walk in open_walks)) - {*pair}
        through = [ia for ia in self.topology.names if ia in passed]
        line += f" {survived(crossed)} needs " + " ".join([str(len(needed)), *needed])
        return line + " through " + " ".join([str(len(through)), *through]), needed

    def summary(self, needs: list[list[str]]) -> list[str]:
        """The lines at the end, for the links that the pairs need, and for those that are cut."""
        links = [named(link.ends) for link in self.topology.links]
        counts = {link: sum(link in needed for needed in needs) for link in links}
        ranked = sorted((it for it in links if counts[it]), key=lambda it: -counts[it])
        cut = [named(link.ends) for link in self.topology.links if link.ends[0] in self.down]
        return [f"link {it} pairs {counts[it]}" for it in ranked[:NAMED]] + [
            f"cut {it}" for it in cut
        ]


def counted(told: str, begin: str, limit: int) -> str:
    """The number of paths that a line tells where there may be more, if it may be that."""
    found = re.match(rf"{re.escape(begin)} (\d+)\+", told)
    return f"{found[1]}+" if found and int(found[1]) <= limit else "of another number"


def can_cut(crossed: list[set[networks.End]], lost: int) -> bool:
    """Whether each of the walks that cross these links has one of some links, so many of them."""
    if not crossed or not lost:
        return not crossed
    shortest = min(crossed, key=len)
    return any(can_cut([it for it in crossed if end not in it], lost - 1) for end in shortest)


def survived(crossed: list[set[networks.End]]) -> str:
    """How many links may be lost before none of these walks is left, as the report has it."""
    lost = next((it for it in range(LOST) if can_cut(crossed, it + 1)), LOST)
    return f"{lost}+" if lost == LOST else str(lost)


def options(policy: Policy) -> list[str]:
    """The words of a policy."""
    entries = [word for entry in policy.get("acl", ()) for word in ("--acl", entry)]
    return entries + (["--sequence", policy["sequence"]] if "sequence" in policy else [])


def compared(network: Network, pairs: list[Pair], limit: int, policy: Policy,
             words: list[str]) -> Compared:
    """How many lines of a report were compared, and which of them are not as computed here. Where
    an answer to a request is as long as it may be, the report may have more paths."""
    walks = list(network.asked(pairs, limit, policy))
    given = "\n".join(network.lines) + "\n"
    found = ran([VIEW, "report", *words, *options(policy)], given)
    if next(network.segments(), None) is None:
        return 1, [] if found == [BARE] else [f"{found[:1]}, not {BARE!r}"]
    told = itertools.chain(found, itertools.repeat(""))
    rows = [network.line(pair, it, limit, one) for pair, it, one in zip(pairs, walks, told)]
    is_known = limit < ANSWER or all(len(it) < ANSWER for it in walks)
    wanted = [line for line, _ in rows]
    if is_known:
        wanted += network.summary([needed for _, needed in rows])
    else:
        found = found[: len(pairs)]
    both = [
        (one, other) for place, (one, other) in enumerate(itertools.zip_longest(found, wanted))
        if place >= len(pairs) or limit < ANSWER or len(walks[place]) < ANSWER
    ]
    return len(both), [f"{one!r}, not {other!r}" for one, other in both if one != other]


def tried(seed: int, number: int) -> Compared:
    """What was compared in a network, and what was wrong with it."""
    rng = random.Random(f"{seed} {number}")
    network = Network(rng, rng.choice((1, 2, 4)))
    names = network.topology.names
    pairs = list(itertools.permutations(names, 2))
    rows = [compared(network, pairs, ANSWER, {}, [])]
    rows.append(network.searched(rng.sample(pairs, min(SEARCHED, len(pairs)))))
    some = rng.randint(1, 3)
    rows.append(compared(network, pairs, some, {}, ["--limit", str(some)]))
    rows += [compared_json(network, limit) for limit in (ANSWER, some)]
    walks = [walk for answer in network.asked(pairs, ANSWER, {}) for walk in answer]
    if walks:
        walk = rng.choice(walks)
        policy = networks.Policy(rng, walk).members()
        rows.append(compared(network, pairs, ANSWER, policy, []))
        one, other = walk[0].ia, walk[-1].ia
        rows.append(compared(network, [(one, other)], ANSWER, {}, ["--from", one, "--to", other]))
    wrong = [f"network {number} of seed {seed}: {it}" for row in rows for it in row[1]]
    return sum(row[0] for row in rows), wrong


def cut_core() -> Compared:
    """In the example with one link between two ISDs: that link is needed by exactly the pairs that
    lose their paths when it is cut, and nothing else changes."""
    topology = (TOP / PAIR).read_text().splitlines()[0]
    lines = ran([VIEW, "beacons", "--now", str(NOW)], topology)
    ia, number = CORE.split("~")[0].split("#")
    cut = json.dumps({"do": "cut", "ia": ia, "if": int(number)})
    reports = (ran([VIEW, "report"], "\n".join(it) + "\n") for it in (lines, lines + [cut]))
    last = ("link ", "cut ")
    before, after = ([it for it in report if not it.startswith(last)] for report in reports)
    wrong = []
    for line, later in zip(before, after):
        one, other = line.split(" ")[:2]
        is_apart = one.partition("-")[0] != other.partition("-")[0]
        if (CORE in line) != is_apart:
            wrong.append(f"needs the core link, or does not: {line}")
        if later != (f"{one} {other} paths 0" if is_apart else line):
            wrong.append(f"behind a cut: {later!r}, not {line!r}")
    return len(before) + len(after), wrong + told_cut(lines, lines + [cut])


def link_text(link: dict[str, Any]) -> str:
    """A link of a line of JSON, as a line of text names it."""
    return named((link[end]["ia"], link[end]["if"]) for end in "ab")


def unknown(value: Any) -> str:
    """A number of a line of JSON, which may be unknown, as a line of text has it."""
    return "unknown" if value is None else str(value)


def as_text(line: str) -> str:
    """The line of text that a line of JSON stands for."""
    one = json.loads(line)
    if "link" in one:
        return f"link {link_text(one['link'])} pairs {one['pairs']}"
    if "cut" in one:
        return f"cut {link_text(one['cut'])}"
    told = f"{one['from']} {one['to']} paths {one['paths']}" + ("+" if one["more"] else "")
    if not one["paths"]:
        return told
    told += f" hops {unknown(one['hops'])} until {unknown(one['until'])} survives "
    told += unknown(one["survives"]) + ("+" if one["survives"] == LOST else "")
    for name, items in (("needs", one["needs"]), ("through", one["through"])):
        words = [it if isinstance(it, str) else link_text(it) for it in items or ()]
        told += " ".join([f" {name}", "unknown" if items is None else str(len(items)), *words])
    return told


def compared_json(network: Network, limit: int) -> Compared:
    """The lines of JSON of a network that are not those of text."""
    given = "\n".join(network.lines) + "\n"
    words = [VIEW, "report", "--limit", str(limit)]
    texts, objects = ran(words, given), ran([*words, "--json"], given)
    if texts == [BARE]:
        texts = [as_text(it) for it in objects if '"paths":0,' in it or '{"cut":' in it]
    both = [*itertools.zip_longest(map(as_text, objects), texts)]
    return len(both), [f"--json: {one!r}, not {other!r}" for one, other in both if one != other]


def told_cut(before: list[str], after: list[str]) -> list[str]:
    """What the comparison of two reports says wrongly of a link between two ISDs that is cut."""
    with tempfile.TemporaryDirectory() as folder:
        paths = [Path(folder, it) for it in ("before", "after")]
        for path, lines in zip(paths, (before, after)):
            report = ran([VIEW, "report", "--json"], "\n".join(lines) + "\n")
            path.write_text("\n".join(report) + "\n")
        done = children.run([sys.executable, str(COMPARE), *map(str, paths)], b"")
    found = done.stdout.decode().splitlines()
    lost = [line for line in found if ": lost; " in line]
    apart = [it for it in lost if it.split(" ")[0][0] != it.split(" ")[1][0]]
    if done.returncode != 1 or len(lost) != len(found) - 1 or lost != apart or not lost:
        return [f"compare_reports: {found}"]
    return []


def refusals() -> Iterator[str]:
    """What is refused: words with status 2, and addresses of no AS or of one with status 1."""
    lines = (TOP / PAIR).read_text()
    rows = (
        (["--to", "1-ff00:0:119"], 1, "to 1-ff00:0:119: no 14 UnknownAs: an AS is not listed\n"),
        (["--from", "1-ff00:0:110", "--to", "1-ff00:0:110"], 1,
         "from 1-ff00:0:110 to 1-ff00:0:110: no 85 SameAs: the source and the destination are one "
         "AS\n"),
        (["--acl", "- 1"], 2, "no 65 NoDefault: the last entry of a list has no predicate\n"),
        (["--sequence", "(1"], 2, "no 62 Unbalanced: the parentheses of a sequence don't match\n"),
        (["--from", "1"], 2,
         "no 1 NoDash: an address has a '-' between its ISD and its AS number\n"),
    )
    for words, status, text in rows:
        text = f"scionet_view: {text}"
        done = children.run([VIEW, "report", *words], lines.encode())
        found = done.stderr.decode()
        if done.returncode != status or done.stdout or found != text:
            yield f"{words}: status {done.returncode}, {found!r}, not {text!r}"
    if (bare := ran([VIEW, "report"], lines.splitlines()[0])) != [BARE]:
        yield f"a network without segments: {bare}"


def main(words: Sequence[str]) -> int:
    words_of = reader(__name__, __doc__)
    words_of.add_argument("--seed", type=int, default=SEED, help="of the networks")
    words_of.add_argument("--networks", type=int, default=NETWORKS, help="how many")
    given = words_of.parse_args(words)
    seed, count = given.seed, given.networks
    with concurrent.futures.ThreadPoolExecutor(os.cpu_count()) as pool:
        rows = list(pool.map(lambda number: tried(seed, number), range(count)))
    rows.append(cut_core())
    wrong = [it for row in rows for it in row[1]] + list(refusals())
    for it in wrong[:20]:
        print(f"report: {it}")
    lines = sum(row[0] for row in rows)
    print(f"report: {lines} lines in {len(rows)} networks, {len(wrong)} wrong")
    return 0 if lines and not wrong else 1

