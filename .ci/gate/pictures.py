"""Holds the pictures of docs/ to the networks that they show: an SVG has the ASes, the routers and
the links of its description beside it, and the description of forty ASes is what `scionet_view
network` prints of the topology that it describes. Of random networks, also of many ASes, it draws
parts: each has to have the ASes and the links that a search here finds, those outside the part in
gray, and each layer the ASes at its distance from the core, in places of their own. Where `dot` is
there, it also has all of these laid out: no line may lie upon another one. The last line has the
numbers of pictures and of wrong ones; the status is 1 where one is wrong."""
import collections
import html
import json
import random
import re
import shlex
from collections.abc import Iterable, Sequence
from pathlib import Path
from typing import Any

from gate import TOP, children
from gate.machine import Machine
from gate.networks import Topology
from gate.words import reader

# Each picture, and its description; the last shows the row with other colours.
PICTURES = {"row": "row", "pair": "pair", "fork": "fork", "forty": "forty", "cut": "row"}
LARGE = "forty"
VIEW = TOP / "crates/scionet_view/out/scionet_view"

EDGE = re.compile(r'^"([^"]+)" -- "([^"]+)"(?: \[(.*)\])?;$', re.M)

# A link of a description without routers: the point of one between core ASes, or an arrow.
POINT = r'^"(?P<a>[^"#]+)#(?P<an>\d+)~(?P<b>[^"#]+)#(?P<bn>\d+)" \[shape=point'
ARROW = (r'^"(?P<c>[^"#]+)" -- "(?P<d>[^"#]+)" \[dir=forward, '
         r"taillabel=(?P<cn>\d+), headlabel=(?P<dn>\d+)")
LINK = re.compile(f"{POINT}|{ARROW}", re.M)

# The same of any form of a description: an AS with its look, whether its box is gray, and a link,
# by its interfaces.
AS = re.compile(r'^(?P<front>.*?)"(?P<ia>[\d:a-f-]+)" \[label="[^"]+"(?P<look>.*)$', re.M)
INTERFACES = re.compile(r'^"([^"#~ ]+#\d+)" -- "([^"#~ ]+#\d+)" ', re.M)
TIP = re.compile(r'tooltip="([^"~]+)~([^"~]+)"')
PLACE = re.compile(r'pos="(-?\d+),-(\d+)\.(\d)!"')

# The largest number of ASes that are not in layers, and the last layer; the ASes of large networks.
UNLAYERED, LAST, LARGE_ASES = 60, 8, (70, 150, 1000)

# The random networks that are laid out, and the share of their core links that begin at the other
# end.
NETWORKS, SEED, TURNED = 12, 1, 0.5


def drawn(text: str) -> collections.Counter[str]:
    """The ASes, routers, interfaces and links of a description, each as the title that it gets."""
    inner = EDGE.sub("", text)
    nodes = re.findall(r'"([^"]+)" \[', inner)
    edges = [f"{one}--{other}" for one, other, _ in EDGE.findall(text)]
    return collections.Counter([*dict.fromkeys(nodes), *edges])


def shown(text: str) -> collections.Counter[str]:
    """The same of a picture, by its titles."""
    titles = re.findall(r'<g id="\w+" class="(?:node|edge)">\n<title>(.*?)</title>', text)
    return collections.Counter(html.unescape(it) for it in titles)


def topology(text: str) -> str:
    """The topology that a description without routers shows."""
    ases = [
        {"ia": ia, "core": label.endswith(" core"), "exp": 63, "key": "6b", "routers": 1}
        for ia, label in re.findall(r'"([\d:a-f-]+)" \[label="([^"]+)"', text)
    ]
    links = []
    for link in LINK.finditer(text):
        kind, a, b = ("core", "a", "b") if link["a"] else ("child", "c", "d")
        ends = [{"ia": link[it], "if": int(link[f"{it}n"]), "router": 0} for it in (a, b)]
        links.append({"kind": kind, "a": ends[0], "b": ends[1]})
    return json.dumps({"ases": ases, "links": links})


def laid(description: str) -> Iterable[tuple[str, tuple[tuple[str, str], ...]]]:
    """Each line of a description as `dot` draws it: its ends, and the points of its curve."""
    plain = children.output(["dot", "-Tplain"], description.encode()).decode()
    for words in map(shlex.split, plain.splitlines()):
        if words[0] == "edge":
            numbers = words[4 : 4 + 2 * int(words[3])]
            curve = tuple(zip(numbers[::2], numbers[1::2]))
            yield " -- ".join(words[1:3]), min(curve, curve[::-1])


def overlaid(description: str) -> list[str]:
    """The lines that are drawn upon another one."""
    lines = list(laid(description))
    count = collections.Counter(curve for _, curve in lines)
    return [name for name, curve in lines if count[curve] > 1]


def random_network(chance: random.Random) -> str:
    """A topology, whose core links begin at either end."""
    network = Topology(chance)
    line = json.loads(network.line())
    for link in line["links"]:
        if link["kind"] == "core" and chance.random() < TURNED:
            link["a"], link["b"] = link["b"], link["a"]
    return json.dumps(line)


def large_network(chance: random.Random, count: int) -> str:
    """A topology of so many ASes, of which each tenth is a core AS. The core is a ring, and each
    other AS has one or two parents of its ISD that stand before it; some have none."""
    interfaces: collections.Counter[str] = collections.Counter()

    def end(ia: str) -> dict[str, Any]:
        interfaces[ia] += 1
        return {"ia": ia, "if": interfaces[ia], "router": 0}

    names = [f"{1 + place % 3}-ff00:0:{place + 1:x}" for place in range(count)]
    core, links = names[: count // 10], []
    for one, other in zip(core, core[1:] + core[:1]):
        links.append({"kind": "core", "a": end(one), "b": end(other)})
    for place in range(len(core), count):
        above = [it for it in names[place // 9 : place // 2] if it[0] == names[place][0]]
        for parent in chance.sample(above, chance.choice((0, 1, 1, 1, 2)) if place % 9 else 1):
            links.append({"kind": "child", "a": end(parent), "b": end(names[place])})
    ases = [{"ia": it, "core": it in core, "exp": 63, "key": "6b", "routers": 1} for it in names]
    return json.dumps({"ases": ases, "links": links})


class Network:
    """A topology, and which ASes are near others."""

    def __init__(self, text: str) -> None:
        self.text = text
        line = json.loads(text)
        self.core = {it["ia"]: it["core"] for it in line["ases"]}
        self.links = [[(link[it]["ia"], link[it]["if"]) for it in "ab"] for link in line["links"]]
        self.beside: dict[str, set[str]] = collections.defaultdict(set)
        for (one, _), (other, _) in self.links:
            self.beside[one].add(other)
            self.beside[other].add(one)

    def distances(self, start: Iterable[str]) -> dict[str, int]:
        """How many links lead to each AS from the nearest of these."""
        found: dict[str, int] = {}
        front, distance = set(start), 0
        while front:
            found |= dict.fromkeys(front, distance)
            front = {it for ia in front for it in self.beside[ia]} - found.keys()
            distance += 1
        return found

    def parts(self, chance: random.Random) -> Iterable[tuple[list[str], set[str]]]:
        """Words of `network`, and the ASes of the part that they name."""
        names = [*self.core]
        yield [], {*names}
        isd = chance.choice(names).split("-")[0]
        yield ["--isd", isd], {it for it in names if it.split("-")[0] == isd}
        core = [it for it in names if self.core[it]]
        for start, words in ((core, ["--core"]), ([chance.choice(names)], ["--around"])):
            hops = chance.randint(0, 3)
            near = {it for it, distance in self.distances(start).items() if distance <= hops}
            words += start if words == ["--around"] else []
            yield [*words, "--hops", str(hops)], near

    def faults(self, description: str, inside: set[str]) -> Iterable[str]:
        """What is wrong with the picture of a part."""
        links = {
            tuple(f"{ia}#{number}" for ia, number in ends)
            for ends in self.links if any(ia in inside for ia, _ in ends)
        }
        drawn_ases = inside | {end.split("#")[0] for link in links for end in link}
        found = {it["ia"]: "gray" in it["front"] + it["look"] for it in AS.finditer(description)}
        if found != {ia: ia not in inside for ia in drawn_ases}:
            yield f"{len(found)} ASes, and not the {len(drawn_ases)} of the part and beside it"
        told = {*INTERFACES.findall(description), *TIP.findall(description)}
        for link in LINK.finditer(description):
            ends = "ab" if link["a"] else "cd"
            told.add(tuple(f"{link[it]}#{link[f'{it}n']}" for it in ends))
        if told != links:
            yield f"{len(told)} links, and not the {len(links)} of the part"
        if ("layout=neato" in description) != (len(drawn_ases) > UNLAYERED):
            yield "a wrong form"
        if "layout=neato" in description:
            yield from self.misplaced(description)

    def misplaced(self, description: str) -> Iterable[str]:
        """ASes that are not in the rows of their layer, or in one place with others."""
        near = self.distances(it for it, core in self.core.items() if core)
        places = {it["ia"]: PLACE.search(it["look"]) for it in AS.finditer(description)}
        spots = {ia: tuple(map(int, it.groups())) for ia, it in places.items() if it}
        labels = re.findall(r'^"layer (\d)" .*pos="-2,-(\d+)\.0!"', description, re.M)
        rows = sorted((int(row), int(layer)) for layer, row in labels)
        if len({*spots.values()}) != len(places):
            yield "ASes in one place"
        for ia, (_, row, _) in spots.items():
            layer = max((it for it in rows if it[0] <= row), default=(0, 0))[1]
            if layer != min(near.get(ia, LAST), LAST):
                yield f"{ia} in layer {layer}"
                return


def drawn_parts() -> Iterable[tuple[str, str, list[str]]]:
    """Pictures of parts of random networks: their names, descriptions and faults."""
    networks = [(f"network {it}", random_network) for it in range(NETWORKS)]
    chances = {name: random.Random(f"{SEED} {name}") for name, _ in networks}
    texts = [(name, make(chances[name])) for name, make in networks]
    for count in LARGE_ASES:
        texts.append((f"network of {count}", large_network(random.Random(f"{SEED} {count}"), count)))
    for name, text in texts:
        network = Network(text)
        for words, inside in network.parts(random.Random(f"{SEED} parts {name}")):
            description = children.output([VIEW, "network", *words], text.encode()).decode()
            faults = [*network.faults(description, inside)]
            yield " ".join([name, *words]), description, faults


def fault_of(picture: str, description: str) -> str:
    """How a picture differs from its description, or an empty text."""
    wanted, found = drawn(description), shown(picture)
    lacks, more = wanted - found, found - wanted
    return f"lacks {[*lacks][:3]}, has {[*more][:3]} too much" if lacks or more else ""


def main(words: Sequence[str]) -> int:
    reader(__name__, __doc__).parse_args(words)
    machine, count, wrong = Machine(), len(PICTURES), []
    for name, of in PICTURES.items():
        picture = Path("docs", f"{name}.svg").read_text(encoding="utf-8")
        description = Path("docs", f"{of}.dot").read_text(encoding="utf-8")
        if fault := fault_of(picture, description):
            wrong.append(f"docs/{name}.svg: {fault}")
    large = Path("docs", f"{LARGE}.dot").read_bytes()
    if children.output([VIEW, "network"], topology(large.decode()).encode()) != large:
        wrong.append(f"docs/{LARGE}.dot is not what is printed of its topology")
    descriptions = [
        (f"docs/{name}.dot", Path("docs", f"{name}.dot").read_text(encoding="utf-8"))
        for name in sorted({*PICTURES.values()})
    ]
    for name, description, faults in drawn_parts():
        count += 1
        wrong += [f"{name}: {it}" for it in faults]
        descriptions.append((name, description))
    for name, description in descriptions if machine.has("dot") else ():
        if lines := overlaid(description):
            wrong.append(f"{name}: lines lie upon others: {', '.join(lines[:3])}")
    for it in wrong:
        print(f"pictures: {it}")
    print(machine.told(f"pictures: {count} pictures, {len(wrong)} wrong"))
    return 1 if wrong else 0
