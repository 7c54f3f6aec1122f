"""Inputs for the programs, by size: for growth.py. Each function makes the text of one input, whose
size is a number of lines, links, segments, packets or bytes, as its comment says."""
import json
import random
from collections.abc import Iterable
from typing import Any

NOW = 1000

# Limits of the programs: signs of a sequence, entries of an access list, options of a request,
# bytes of a payload, hops of the longest path, and interfaces of an AS with all links.
SIGNS, ENTRIES, OPTIONS, PAYLOAD, LINKS, ASES = 255, 256, 16, 1024, 4096, 1024
SIDE = 30


def address(number: int) -> str:
    return f"1-{number + 1}"


def event(word: str, **members: Any) -> str:
    return json.dumps({"do": word, **members}, separators=(",", ":"))


class Network:
    """A topology that numbers interfaces by itself, and lines that make segments over its links."""

    def __init__(self, cores: int, others: int = 0, routers: int = 1) -> None:
        self.ases: list[dict[str, Any]] = []
        self.links: list[dict[str, Any]] = []
        self.used: dict[int, int] = {}
        self.lines: list[str] = []
        self.beacons = 0
        for number in range(cores + others):
            self.add(number, number < cores, routers=routers)

    def add(self, number: int, is_core: bool, exp: int = 255, routers: int = 1) -> None:
        self.ases.append({"ia": address(number), "core": is_core, "exp": exp, "key": "6b",
                          "routers": routers})

    def link(self, kind: str, *ases: int) -> dict[str, Any]:
        """A link between two ASes; its router at each end is another one each time."""
        ends = []
        for one in ases:
            number = self.used[one] = self.used.get(one, 0) + 1
            routers = self.ases[one]["routers"] if one < len(self.ases) else 1
            ends.append({"ia": address(one), "if": number, "router": number % routers})
        self.links.append({"kind": kind, "a": ends[0], "b": ends[1]})
        return self.links[-1]

    def say(self, word: str, **members: Any) -> None:
        self.lines.append(event(word, **members))

    def chain(self, ways: Iterable[tuple[dict[str, Any], dict[str, Any]]], beta0: int = 1) -> None:
        """A segment over links in a row, each by the end where it begins and the end behind it."""
        first, *others = ways
        self.say("originate", ia=first[0]["ia"], egress=first[0]["if"], beta0=beta0)
        for begin, _ in others:
            self.say("extend", beacon=self.beacons, ia=begin["ia"], egress=begin["if"])
            self.beacons += 1
        self.say("terminate", beacon=self.beacons, ia=(others or [first])[-1][1]["ia"])
        self.beacons += 1

    def over(self, *links: dict[str, Any], beta0: int = 1) -> None:
        self.chain([(link["a"], link["b"]) for link in links], beta0)

    def topology(self) -> str:
        return json.dumps({"ases": self.ases, "links": self.links}, separators=(",", ":"))

    def text(self) -> str:
        return "\n".join([self.topology(), *self.lines]) + "\n"


# Requests for paths.


def parallel_links(size: int) -> str:
    """A request; so many links in parallel at each of three places that are no end of a path."""
    net = Network(3, 4)
    first, inner, last = net.link("child", 4, 3), net.link("core", 0, 1), net.link("child", 2, 5)
    net.say("tick", now=NOW)
    for _ in range(size):
        net.over(net.link("child", 0, 4), first)
        net.over(inner, net.link("core", 1, 2))
        net.over(last, net.link("child", 5, 6))
    net.say("ask", src=address(3), dst=address(6), limit=64)
    return net.text()


def grid(size: int, seconds: int = 32, **members: Any) -> str:
    """A request between two ASes below so many core ASes each; a core link joins each two of them,
    and each link has segments of so many seconds."""
    net = Network(2 * size, 2)
    links = [net.link("child", core, 2 * size + core // size) for core in range(2 * size)]
    links += [net.link("core", one, size + other) for one in range(size) for other in range(size)]
    for second in range(seconds):
        net.say("tick", now=NOW + second)
        for link in links:
            net.over(link, beta0=second)
    net.say("ask", src=address(2 * size), dst=address(2 * size + 1), **{"limit": 8, **members})
    return net.text()


def denied(size: int) -> str:
    """The same with 16 options, none of which allows a path."""
    never = "(" + "|".join(["0 0 0 1-9999"] * 30) + ")"
    options = [{"weight": number, "sequence": never} for number in range(OPTIONS)]
    return grid(size, options=options)


def long_paths(size: int, seconds: int = 1, **members: Any) -> str:
    """So many requests, each with 64 paths of 61 hops."""
    net = Network(1, 2 * SIDE)
    sides = []
    for side in (1, 1 + SIDE):
        tops = [net.link("child", 0, side) for _ in range(8)]
        row = [net.link("child", side + hop, side + hop + 1) for hop in range(SIDE - 1)]
        sides.append((tops, row))
    net.say("tick", now=NOW)
    for tops, row in sides:
        for top in tops:
            net.over(top, *row)
    members = {"src": address(SIDE), "dst": address(2 * SIDE), "limit": 64, **members}
    net.lines += [event("ask", **members)] * size
    return net.text()


def long_lists(size: int) -> str:
    """So many of these requests, each with an access list of 256 entries."""
    entries = [f"- 2-{number + 1}" for number in range(ENTRIES - 1)]
    return long_paths(size, acl=[*entries, "+"])


def long_sequences(size: int) -> str:
    """So many of these requests, each with a sequence of 255 signs."""
    return long_paths(size, sequence=" ".join(["0*"] * (SIGNS // 3)))


def many_options(size: int) -> str:
    """So many of these requests, each with 16 options, of which the last allows the paths."""
    nowhere = [{"weight": 1, "acl": ["- 1-1", "+"]}] * (OPTIONS - 1)
    return long_paths(size, options=[*nowhere, {"weight": 0, "acl": ["+"]}])


# The store of segments.


def registered(size: int, by_origin: bool = False) -> Network:
    """So many segments or nearly so over the links of a full mesh of core ASes, both ways: those of
    one second after another, or those of one origin."""
    cores = min(64, max(8, int(size ** 0.5 / 4)))
    net = Network(cores)
    for one in range(cores):
        for other in range(one):
            net.link("core", one, other)
    ways = [pair for link in net.links for pair in
            ((link["a"], link["b"]), (link["b"], link["a"]))]
    if by_origin:
        ways.sort(key=lambda way: way[0]["ia"])
    for second in range(max(1, round(size / len(ways)))):
        net.say("tick", now=NOW + second)
        for way in ways:
            net.chain([way], second)
    return net


def register(size: int) -> str:
    """So many segments, second by second."""
    return registered(size).text()


def register_by_origin(size: int) -> str:
    """So many segments, origin by origin."""
    return registered(size, True).text()


def sweep_one(size: int) -> str:
    """100 rounds, each of which sweeps one segment out of a store of so many."""
    net = registered(size)
    for number in (900, 901):
        net.add(number, True, exp=0)
    link, now = net.link("core", 900, 901), 2000
    for _ in range(100):
        net.say("tick", now=now)
        net.over(link)
        now += 338
        net.say("tick", now=now)
        net.say("sweep")
    return net.text()


def sweep_none(size: int) -> str:
    """1,000 sweeps of a store of so many segments, none of which has expired."""
    net = registered(size)
    net.lines += [event("sweep")] * 1000
    return net.text()


# Topologies.


def core_mesh(size: int) -> str:
    """A topology of so many core ASes and four times as many links, by chance."""
    net, chance = Network(size), random.Random(size)
    for number in range(1, size):
        net.link("core", chance.randrange(number), number)
    while len(net.links) < 4 * size:
        net.link("core", *chance.sample(range(size), 2))
    return net.topology() + "\n"


def layers(size: int) -> str:
    """A topology of so many ASes: 8 core ASes in a ring, and layers of 8 below, each AS with two
    parents."""
    net = Network(8, size - 8)
    for number in range(8):
        net.link("core", number, (number + 1) % 8)
    for number in range(8, size):
        for step in (0, 3):
            net.link("child", number - 8 - number % 8 + (number + step) % 8, number)
    return net.topology() + "\n"


def one_hub(size: int) -> str:
    """A topology in which one AS of 64 routers has all links, so many."""
    net = Network(2, 0, routers=64)
    for _ in range(size):
        net.link("core", 0, 1)
    return net.topology() + "\n"


def many_ases(size: int) -> str:
    """A topology of so many ASes: more than there may be."""
    return Network(size).topology() + "\n"


def many_links(size: int) -> str:
    """A topology of so many links: more than there may be."""
    net = Network(16)
    for number in range(size):
        net.link("core", number % 16, (number + 1) % 16)
    return net.topology() + "\n"


def cut_hub(size: int) -> str:
    """The links of an AS that has 4,096: so many are cut, and mended."""
    net = Network(2, 0, routers=64)
    for _ in range(LINKS):
        net.link("core", 0, 1)
    for number in range(size):
        net.say("mend" if number % 2 else "cut", ia=address(0), **{"if": number % LINKS + 1})
    return net.text()


# Lines of one word, in a row of three ASes with a path from the last to the first.


def row(lines: Iterable[str], now: int = NOW) -> str:
    net = Network(1, 2)
    links = [net.link("child", 0, 1), net.link("child", 1, 2)]
    net.say("tick", now=now)
    net.over(*links)
    net.say("ask", src=address(2), dst=address(0), limit=4)
    net.lines += lines
    return net.text()


SEND = event("send", ask=0, path=0, payload="00" * 8)


def ticks(size: int) -> str:
    return row(event("tick", now=NOW + number) for number in range(size))


def originated(size: int) -> str:
    return row([event("originate", ia=address(0), egress=1, beta0=1)] * size)


def extended(size: int) -> str:
    return row([event("extend", beacon=0, ia=address(1), egress=2)] * size)


def terminated(size: int) -> str:
    """So many times the same segment."""
    return row([event("terminate", beacon=1, ia=address(2))] * size)


def asked(size: int) -> str:
    return row([event("ask", src=address(2), dst=address(0), limit=4)] * size)


def packets(size: int) -> str:
    """So many packets that are sent, turned three times and shown."""
    return row(line for number in range(size) for line in (
        SEND, *[event("turn", packet=number)] * 3, event("show", packet=number)))


def on_their_way(size: int) -> str:
    """So many packets that are sent and stay on their way."""
    return row([SEND] * size)


def lines_before(size: int) -> str:
    """So many lines, and then one packet for `work`."""
    return row([*[event("tick", now=NOW)] * size, SEND])


def long_payloads(size: int) -> str:
    """So many packets with the longest payload."""
    return row([event("send", ask=0, path=0, payload="00" * PAYLOAD)] * size)


def too_long_payload(size: int) -> str:
    """A payload of so many bytes, which is refused."""
    return row([event("send", ask=0, path=0, payload="00" * size)])


def lost(size: int) -> str:
    return row(line for number in range(size) for line in (SEND, event("lose", packet=number)))


def altered(size: int) -> str:
    return row([SEND, *(event("alter", packet=0, at=number % 56, xor=255)
                        for number in range(size))])


def sent_back(size: int) -> str:
    """One delivered packet, which is sent back so many times."""
    turns = [event("turn", packet=0)] * 3
    return row([SEND, *turns, *[event("back", packet=0, payload="6869")] * size])


def shown(size: int) -> str:
    turns = [event("turn", packet=0)] * 3
    return row([SEND, *turns, *[event("show", packet=0)] * size])


def turned(size: int) -> str:
    """So many turns of a packet that has been delivered, and one for each packet."""
    return row([*[SEND] * 100, *(event("turn", packet=number % 100) for number in range(size))])


def cut_and_mended(size: int) -> str:
    return row(event("mend" if number % 2 else "cut", ia=address(0), **{"if": 1})
               for number in range(size))


def rotated(size: int) -> str:
    """So many keys of 64 bytes."""
    return row(event("rotate", ia=address(0), key=f"{number % 256:02x}" * 64)
               for number in range(size))


# Lines that are refused, and texts that nobody reads.


def faulty(size: int) -> str:
    return row(['{"do":"turn"}'] * size)


def blank(size: int) -> str:
    return row([""] * size)


def all_denied(size: int) -> str:
    """So many requests whose access list denies the middle of the one path."""
    request = event("ask", src=address(2), dst=address(0), limit=4, acl=[f"- {address(1)}", "+"])
    return row([request] * size)


def unlisted_entries(size: int) -> str:
    """Twenty requests with all options, each with so many entries for ASes that are not there."""
    entries = [*(f"- {address(3 + number)}" for number in range(size)), "+"]
    options = [{"weight": number, "acl": entries} for number in range(OPTIONS)]
    request = event("ask", src=address(2), dst=address(0), limit=1, options=options)
    return row([request] * 20)


def behind_a_cut(size: int) -> str:
    """So many packets that are sent behind a cut and are refused at their first turn."""
    cut = event("cut", ia=address(2), **{"if": 1})
    return row([cut, *(line for number in range(size)
                       for line in (SEND, event("turn", packet=number)))])


def json_list(size: int) -> str:
    return "[" + "0," * size + "0]\n"


def many_members(size: int) -> str:
    """A line with so many members that nobody reads."""
    return row([event("sweep", **{f"m{number}": number for number in range(size)})])


def one_member(size: int) -> str:
    """A line with so many members of one name."""
    return row(['{"do":"sweep",' + ",".join(['"now":0'] * size) + "}"])


def long_text(size: int) -> str:
    """A line with a text of so many escapes."""
    return row(['{"do":"sweep","text":"' + "\\u0041" * size + '"}'])


def long_address(size: int) -> str:
    """An address of so many digits."""
    return row([event("cut", ia="1-" + "1" * size, **{"if": 1})])


def long_number(size: int) -> str:
    """A number of so many digits."""
    return row(['{"do":"tick","now":0.' + "1" * size + "}"])


def long_acl(size: int) -> str:
    """An access list of so many entries: more than there may be."""
    return row([event("ask", src=address(2), dst=address(0), limit=4, acl=["+"] * size)])


def long_sequence(size: int) -> str:
    """A sequence of so many signs: more than there may be."""
    return row([event("ask", src=address(2), dst=address(0), limit=4,
                      sequence=" ".join(["0"] * size))])


def nested_sequence(size: int) -> str:
    """A sequence of so many parentheses: more than there may be."""
    return row([event("ask", src=address(2), dst=address(0), limit=4, sequence="(" * size)])


def option_list(size: int) -> str:
    """So many options: more than there may be."""
    return row([event("ask", src=address(2), dst=address(0), limit=4,
                      options=[{"weight": 0, "acl": ["+"]}] * size)])


# Packets of `step`.


# The addresses of a packet of two hops, and its path header.
ADDRESSES = "0001ff0000000110" "0001ff0000000111"
HEADER = "00002000" "0000b39600000064" "003f00020000110e4c1d3dad" "003f00000001a1a2a3a4a5a6"


def packet(size: int) -> str:
    """A packet with a payload of so many bytes."""
    return ADDRESSES + HEADER + "00" * size


def whole_packet(size: int) -> str:
    """A whole packet with a payload of so many bytes, between hosts with addresses of IPv4. If
    they are more than 65,535, its header says another number."""
    common = "00000001" "fd12" + f"{size % 65_536:04x}" + "01000000"
    return common + ADDRESSES + "0a000064" * 2 + HEADER + "00" * size
