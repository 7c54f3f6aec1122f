"""Holds the theorem of README.md to random networks, by the replies of `scionet run` alone.

A network has up to 40 ASes. Beaconing, requests with policies, packets, their turns, answers to
delivered packets, ticks, changes of keys, cuts and alterations come in any order, and so do events
that are refused. As long as the premises hold for a packet, each of its turns has one right reply,
which follows from its walk and the topology; it is delivered by the last of them, and `show` has
the hops that it has passed. Each walk of an answer joins links of the topology and is one that the
request's policy allows; and an answer has a path where one was answered before, or where a segment
leads from one of the ASes to the other.

Then each premise that lines can break is left out, in networks of their own, and packets must fail.

Without words the networks are always the same; `--seed N` and `--networks N` give others. The last
line has the number of packets and of what was wrong; the status is 1 where something was, or where
nothing failed without a premise.
"""
import argparse
import collections
import concurrent.futures
import contextlib
import functools
import itertools
import os
import random
import subprocess
import sys
import threading
from collections.abc import Callable, Sequence
from typing import IO, Any, NamedTuple

from gate import TOP
from gate.children import Limit
from gate.networks import Hop, Packet, Policy, Topology, event, read_walk
from gate.words import reader

PROGRAM = TOP / "crates/scionet/out/scionet"

# Networks in which all premises hold, and in which each one is left out; packets of a network;
# events between two looks at the replies; the seconds that a network may take.
NETWORKS, BROKEN, PACKETS, BATCH, SECONDS = 110, 3, 400, 120, 120

# What is done to packets in flight in a network in which the premise of this name is left out.
PREMISES = {
    "keys": "an AS changes its key twice",
    "links": "a link is cut",
    "bytes": "a byte is changed",
    "loss": "it is lost",
    "time": "its turns come late",
}

# What a network tells: the packets that were kept to, those that were given up, those of them that
# failed, and its faults.
Told = tuple[int, int, int, list[str]]


class Beacon(NamedTuple):
    """A beacon that can be passed on."""

    number: int
    kind: str
    ases: tuple[str, ...]
    at: str


class Way(NamedTuple):
    """A path of an answer."""

    answer: int
    number: int
    walk: list[Hop]


class Network:
    """A run of the program: the events so far, and what is known from its replies."""

    def __init__(self, seed: str, dropped: str | None) -> None:
        self.rng, self.dropped = random.Random(seed), dropped
        self.topology = Topology(self.rng)
        self.asked: list[tuple[str, Callable[[str], object] | str]] = []
        self.wrong: list[str] = []
        self.packets: list[Packet] = []
        self.answers = self.now = self.kept = 0
        self.begin_epoch()

    def begin_epoch(self) -> None:
        """Nothing that was issued before is used any more, so that the premises begin anew."""
        self.last = self.now + 675 * (min(it["exp"] for it in self.topology.ases.values()) + 1) // 2
        self.beacons: list[Beacon] = []
        self.ways: list[Way] = []
        self.flying: list[Packet] = []
        self.arrived: list[Any] = []
        # The ends of segments that are stored and live.
        self.joined: set[frozenset[str]] = set()
        self.changed: set[str] = set()
        self.stale: set[str] = set()
        self.cut: set[Any] = set()
        self.busy: collections.Counter[Any] = collections.Counter()

    def say(self, line: str, check: Callable[[str], object] | str) -> None:
        """An event, and its reply: a text, or a function that says whether it is right."""
        self.asked.append((line, check))

    def hear(self, process: subprocess.Popen[bytes]) -> None:
        """Sends what was said, and compares the replies."""
        text = "".join(f"{line}\n" for line, _ in self.asked).encode()
        assert process.stdin and process.stdout
        sender = threading.Thread(target=self.write, args=(process.stdin, text))
        sender.start()
        for line, check in self.asked:
            reply = process.stdout.readline().decode().rstrip("\n")
            if not (reply == check if isinstance(check, str) else check(reply)):
                self.wrong.append(f"{line} is answered by {reply!r}")
        sender.join()
        self.asked = []

    @staticmethod
    def write(stream: IO[bytes], text: bytes) -> None:
        with contextlib.suppress(BrokenPipeError):
            stream.write(text)
            stream.flush()

    # Beaconing.

    def originate(self) -> None:
        name = self.rng.choice(self.topology.names)
        kind = self.rng.choice(("core", "child"))
        ways = self.topology.down.get((name, kind)) if self.topology.ases[name]["core"] else None
        if ways:
            way, beta = self.rng.choice(ways), self.rng.randrange(65536)
            line = event("originate", ia=name, egress=way[1], beta0=beta)
            self.say(line, lambda reply: self.has_beacon(reply, kind, (name,), way))

    def extend(self) -> None:
        if not self.beacons:
            return
        beacon = self.rng.choice(self.beacons)
        ways = [it for it in self.topology.down.get((beacon.at, beacon.kind), ())
                if self.topology.far[it][0] not in (*beacon.ases, beacon.at)]
        if ways:
            way, ases = self.rng.choice(ways), (*beacon.ases, beacon.at)
            line = event("extend", beacon=beacon.number, ia=beacon.at, egress=way[1])
            self.say(line, lambda reply: self.has_beacon(reply, beacon.kind, ases, way))

    def has_beacon(self, reply: str, kind: str, ases: tuple[str, ...],
                   way: tuple[str, int]) -> bool:
        word, _, number = reply.partition(" ")
        if word == "beacon":
            self.beacons.append(Beacon(int(number), kind, ases, self.topology.far[way][0]))
        return word == "beacon" or reply == "no 42 LinkDown"

    def terminate(self) -> None:
        if self.beacons:
            beacon = self.rng.choice(self.beacons)
            line = event("terminate", beacon=beacon.number, ia=beacon.at)
            self.say(line, functools.partial(self.has_segment, beacon))

    def has_segment(self, beacon: Beacon, reply: str) -> bool:
        if reply in ("segment new", "segment known"):
            self.joined.add(frozenset((beacon.ases[0], beacon.at)))
            return True
        return reply in ("no 42 LinkDown", "no 50 Full")

    # Requests and packets.

    def ask(self) -> None:
        between = self.rng.sample(self.topology.names, 2)
        known = [it.walk for it in self.ways if [it.walk[0].ia, it.walk[-1].ia] == between]
        if self.ways and self.rng.random() < 0.6:
            known = [self.rng.choice(self.ways).walk]
            between = [known[0][0].ia, known[0][-1].ia]
        policies = []
        if known and self.rng.random() < 0.7:
            count = self.rng.choice((1, 1, 3))
            policies = [Policy(self.rng, self.rng.choice(known)) for _ in range(count)]
        limit = self.rng.choice((1, 2, 3, 5))
        members = {"src": between[0], "dst": between[1], "limit": limit, **self.asked_for(policies)}
        number, self.answers = self.answers, self.answers + 1
        least = int(self.has_path(between, known, policies))
        check = functools.partial(self.has_answer, number, between, policies, least)
        self.say(event("ask", **members), check)

    def has_path(self, between: list[str], known: list[Any], policies: list[Policy]) -> bool:
        """Whether there is a path that the policies allow, by what was heard so far: one that was
        answered before, or a segment between the two ASes."""
        if policies:
            return any(it.allows(walk) for it in policies for walk in known)
        return bool(known) or frozenset(between) in self.joined

    def asked_for(self, policies: list[Policy]) -> dict[str, Any]:
        """The members of a request that say its policy: one option stands for itself."""
        if len(policies) > 1:
            weights = (self.rng.randrange(4) for _ in policies)
            return {"options": [{"weight": w, **it.members()} for w, it in zip(weights, policies)]}
        return policies[0].members() if policies else {}

    def has_answer(self, number: int, between: list[str], policies: list[Policy], least: int,
                   reply: str) -> bool:
        first, *written = reply.split("; ")
        walks = [read_walk(it) for it in written]
        self.ways += [Way(number, place, walk) for place, walk in enumerate(walks)]
        is_allowed = not policies or any(all(map(it.allows, walks)) for it in policies)
        are_between = all([it[0].ia, it[-1].ia] == between for it in walks)
        are_joined = all(map(self.topology.joins, walks))
        is_told = first == f"ask {number} {len(walks)}" and len(walks) >= least
        return is_told and is_allowed and are_between and are_joined

    def send(self) -> None:
        if self.ways:
            way = self.rng.choice(self.ways)
            line = event("send", ask=way.answer, path=way.number, payload=self.payload())
            self.begin_packet(line, way.walk)

    def answer_packet(self) -> None:
        if self.arrived:
            sent = self.rng.choice(self.arrived)
            walk = [Hop(hop.ia, hop.way_out, hop.way_in) for hop in reversed(sent.walk)]
            self.begin_packet(event("back", packet=sent.number, payload=self.payload()), walk)

    def payload(self) -> str:
        return self.rng.randbytes(self.rng.choice((0, 1, 7, 30))).hex()

    def begin_packet(self, line: str, walk: list[Hop]) -> None:
        packet = Packet(self.topology, len(self.packets), walk)
        self.packets.append(packet)
        self.flying.append(packet)
        self.say(line, f"packet {packet.number}")
        is_whole = not self.cut & self.topology.links_of(walk)
        is_fresh = not any(hop.ia in self.stale for hop in walk)
        packet.is_promised = is_whole and is_fresh and self.rng.random() > 0.02
        if packet.is_promised:
            self.busy.update(self.topology.links_of(walk))

    def turn(self) -> None:
        if self.flying:
            packet = self.rng.choice(self.flying)
            for _ in range(self.rng.choice((1, 1, 2, 3))):
                self.turn_packet(packet)

    def turn_packet(self, packet: Packet) -> None:
        line = f'{{"do":"turn","packet":{packet.number}}}'
        if not packet.is_promised:
            packet.had += 1
            self.say(line, lambda reply: self.has_turned(packet, reply))
            if packet.had > len(packet.replies) and packet in self.flying:
                self.flying.remove(packet)
        elif packet.had == len(packet.replies):
            self.say(line, "no 131 NotInFlight")
        else:
            self.say(line, packet.replies[packet.had])
            packet.had += 1
            if packet.had == len(packet.replies):
                self.land(packet)

    def land(self, packet: Packet) -> None:
        self.flying.remove(packet)
        self.arrived.append(packet)
        self.busy.subtract(self.topology.links_of(packet.walk))
        self.kept += 1

    def has_turned(self, packet: Packet, reply: str) -> bool:
        """The reply to a turn of a packet of which nothing is promised."""
        packet.has_arrived |= reply == "delivered"
        words = reply.split(" ")[0]
        return words in ("link", "router", "delivered", "refused") or reply == "no 131 NotInFlight"

    def show(self) -> None:
        if self.packets:
            packet = self.rng.choice(self.packets[-60:])
            if packet.is_promised:
                self.say(event("show", packet=packet.number), packet.shows[packet.had])

    # What else happens.

    def tick(self) -> None:
        """At most the last second at which each path of this epoch is live."""
        later = self.rng.randint(self.now, self.last)
        self.now = self.rng.choice((self.now, (self.now + later) // 2, later))
        self.say(event("tick", now=self.now), "ok")

    def rotate(self) -> None:
        name = self.rng.choice(self.topology.names)
        if name not in self.changed:
            self.changed.add(name)
            self.change_key(name)

    def change_key(self, name: str) -> None:
        key = self.rng.randbytes(self.rng.randint(1, 64)).hex()
        self.say(event("rotate", ia=name, key=key), "ok")

    def cut_link(self) -> None:
        """A link on which no packet with a promise is."""
        end = self.rng.choice([*self.topology.far])
        if not self.busy[end]:
            self.cut_at(end)

    def cut_at(self, end: tuple[str, int]) -> None:
        self.cut.update(self.topology.both(end))
        self.say(event("cut", ia=end[0], **{"if": end[1]}), "ok")

    def mend_link(self) -> None:
        end = self.rng.choice([*self.topology.far])
        self.say(event("mend", ia=end[0], **{"if": end[1]}), "ok")

    def disturb_other(self) -> None:
        others = [it for it in self.flying if not it.is_promised]
        if others:
            self.change_byte(self.rng.choice(others))

    def change_byte(self, packet: Packet) -> None:
        at = self.rng.randrange(52)
        line = event("alter", packet=packet.number, at=at, xor=self.rng.randint(1, 255))
        self.say(line, lambda reply: reply in ("ok", "no 131 NotInFlight"))

    def lose(self, packet: Packet) -> None:
        line = event("lose", packet=packet.number)
        self.say(line, lambda reply: reply in ("ok", "no 131 NotInFlight"))

    def be_refused(self) -> None:
        name, number = self.rng.choice([*self.topology.far])
        self.say(*self.rng.choice((
            (event("rotate", ia=name, key=""), "no 11 BadField"),
            (event("cut", ia=name, **{"if": 0}), "no 17 NoLink"),
            (event("cut", ia="0-1", **{"if": number}), "no 14 UnknownAs"),
            (event("tick", now=-1), "no 140 BadLine"),
            (event("turn", packet=len(self.packets)), "no 130 NoPacket"),
            (event("lose", packet=len(self.packets)), "no 130 NoPacket"),
            (event("ask", src=name, dst=name, limit=1), "no 85 SameAs"),
            (event("send", ask=self.answers, path=0, payload=""), "no 133 NoAnswer"),
            (event("extend", beacon=4294967295, ia=name, egress=number), "no 132 NoBeacon"),
            ("", "no 140 BadLine"),
        )))
        if self.now:
            self.say(event("tick", now=self.now - 1), "no 134 TimeBack")

    # A network in which a premise is left out.

    def break_premise(self) -> None:
        """Does what the premise excludes, to a packet in flight; no more is promised of those that
        it touches."""
        flying = [it for it in self.flying if it.is_promised]
        if not flying:
            return
        packet = self.rng.choice(flying)
        hop = self.rng.choice(packet.walk[:-1])
        touched = [packet]
        if self.dropped == "keys":
            self.stale.add(hop.ia)
            self.change_key(hop.ia)
            self.change_key(hop.ia)
            touched = [it for it in flying if any(other.ia == hop.ia for other in it.walk)]
        elif self.dropped == "links":
            end = hop.ia, hop.way_out
            self.cut_at(end)
            touched = [it for it in flying if end in self.topology.links_of(it.walk)]
        elif self.dropped == "bytes":
            self.change_byte(packet)
        else:
            self.lose(packet)
        for it in touched:
            self.give_up(it)

    def give_up(self, packet: Packet) -> None:
        packet.is_promised, packet.is_given_up = False, True
        self.busy.subtract(self.topology.links_of(packet.walk))

    # The whole.

    def steps(self) -> dict[Callable[[], None], float]:
        """What may happen, and how often it does."""
        is_new = len(self.ways) < 12
        often = 40 if is_new else 1
        return {
            self.originate: often, self.extend: 3 * often, self.terminate: 3 * often,
            self.ask: 2 * often, self.send: 14 if len(self.flying) < 60 else 2, self.turn: 50,
            self.answer_packet: 4, self.show: 3, self.tick: 0.5, self.rotate: 0.5,
            self.cut_link: 0.5, self.mend_link: 0.5, self.disturb_other: 1, self.be_refused: 1,
            self.break_premise: 3 if self.dropped in ("keys", "links", "bytes", "loss") else 0,
        }

    def live(self, process: subprocess.Popen[bytes], packets: int) -> None:
        """One epoch: events in any order until there are so many packets, and all have landed."""
        begun, rounds = len(self.packets) + packets, 0
        while len(self.packets) < begun and rounds < 60:
            steps = self.steps()
            for step in self.rng.choices([*steps], [*steps.values()], k=BATCH):
                step()
            self.hear(process)
            rounds += 1
        if self.dropped == "time":
            for _ in range(100):
                self.send()
            self.let_expire()
        while self.flying:
            self.turn_packet(self.rng.choice(self.flying))
            if len(self.asked) > BATCH:
                self.hear(process)
        self.hear(process)
        self.end_epoch(process)

    def let_expire(self) -> None:
        self.now += 90_000
        self.say(event("tick", now=self.now), "ok")
        for packet in self.flying:
            if packet.is_promised:
                self.give_up(packet)

    def end_epoch(self, process: subprocess.Popen[bytes]) -> None:
        """No path is live any more, and every link is up; a delivered packet stays delivered."""
        self.now += 90_000
        self.say(event("tick", now=self.now), "ok")
        for packet in self.arrived[:20]:
            self.say(event("back", packet=packet.number, payload=""), "no 79 Expired")
            self.say(event("show", packet=packet.number), packet.shows[-1])
        for ia, number in self.cut:
            self.say(event("mend", ia=ia, **{"if": number}), "ok")
        self.say(event("sweep"), lambda reply: reply.startswith("swept "))
        self.hear(process)
        self.begin_epoch()

    def run(self, program: str) -> Told:
        process = subprocess.Popen([program, "run"], stdin=subprocess.PIPE,
                                   stdout=subprocess.PIPE)
        assert process.stdin and process.stdout
        with Limit(process, SECONDS) as limit:
            self.say(self.topology.line(), "topology ok")
            self.hear(process)
            for _ in range(2):
                self.live(process, PACKETS // 2)
            with contextlib.suppress(BrokenPipeError):
                process.stdin.close()
            if process.stdout.read() or process.wait():
                end = limit.fault or "the run did not end with status 0 behind its last reply"
                self.wrong.append(end)
        given_up = [it for it in self.packets if it.is_given_up]
        failed = sum(not it.has_arrived for it in given_up)
        return self.kept, len(given_up), failed, self.wrong


def ran(named: tuple[int, str, str | None, int]) -> Told:
    seed, program, dropped, number = named
    return Network(f"{seed} {dropped} {number}", dropped).run(program)


def read_words(words: Sequence[str]) -> argparse.Namespace:
    words_of = reader(__name__, __doc__)
    words_of.add_argument("--seed", type=int, default=1, help="of the networks")
    words_of.add_argument("--networks", type=int, default=NETWORKS, help="how many")
    words_of.add_argument("--program", default=str(PROGRAM), help="in place of the proved one")
    return words_of.parse_args(words)


def told(name: str, runs: list[Told]) -> int:
    """The number of wrong replies; the first of each network are told."""
    for number, (_, _, _, wrong) in enumerate(runs):
        for line in wrong[:3]:
            print(f"theorem: {name} {number}: {line}")
    return sum(len(wrong) for _, _, _, wrong in runs)


def main(words: Sequence[str]) -> int:
    given = read_words(words)
    if not os.access(given.program, os.X_OK):
        sys.exit(f"theorem: {given.program} is not there: rt ci builds it")
    kinds: list[str | None] = [None] * given.networks
    kinds += [dropped for dropped in PREMISES for _ in range(BROKEN)]
    named = ((given.seed, given.program, *it) for it in zip(kinds, itertools.count()))
    with concurrent.futures.ProcessPoolExecutor(os.cpu_count()) as pool:
        found = [*zip(kinds, pool.map(ran, named))]
    whole = [run for kind, run in found if kind is None]
    wrong = told("network", whole)
    for dropped, sentence in PREMISES.items():
        runs = [run for kind, run in found if kind == dropped]
        touched, failed = sum(run[1] for run in runs), sum(run[2] for run in runs)
        print(f"theorem: if {sentence}, {failed} of {touched} packets fail")
        wrong += told(f"network without {dropped}", runs) + (failed == 0)
    kept = sum(run[0] for run in whole)
    print(f"theorem: {kept} packets in {len(whole)} networks, {wrong} wrong; seed {given.seed}")
    return 1 if wrong or not kept else 0

