#!/usr/bin/env python3
# SPDX-License-Identifier: Apache-2.0
"""Runs a network whose routers are processes, which send its packets as datagrams.

    network.py ROUTER [VIEW] < examples/row.txt

The router is `router.c`, built. The lines are those of `scionet run`: a topology, and then the
events that make segments, answers and packets. Here a hop's authenticator is that of
`scion_hop_mac`, and an answer that of `scion_paths`. For `send` a host sends its payload in a
datagram of UDP, in a whole packet; the host that gets it prints it, and answers by the same data
over the way back. Then the packet is sent with another last byte of its header, which is in the
last hop's authenticator. Events behind `send` are left out: routers take their turns when a packet
comes.

With `scionet_view`, built, as VIEW, the datagrams of both packets are compared with those of the
capture of the same run.

It is an example of a host, and not proved. All sockets are on 127.0.0.1, and each process ends
after some packets or seconds."""
import argparse
import itertools
import json
import os
import select
import socket
import subprocess
import sys

TOP = os.path.dirname(os.path.dirname(os.path.dirname(os.path.realpath(__file__))))
sys.path.append(os.path.join(TOP, "bindings", "python"))
sys.dont_write_bytecode = True

from host import Datagram, answer, datagram_in, info_between, spelled  # noqa: E402
from scion import Kind, Library, WholePacket  # noqa: E402

LOOPBACK = "127.0.0.1"
PACKETS, SECONDS = 100, 20

# The ports of the host that asks and of the one that answers.
ASKS, ANSWERS = 40_000, 7

# The head of a capture, that of each of its frames, and the headers in front of a whole packet.
FILE_HEAD, FRAME_HEAD, HEADERS = 24, 16, 42

# The kinds of a link's interfaces: what the AS at the other end is to the AS at `a`, and at `b`.
KINDS = {"core": (Kind.CORE, Kind.CORE), "child": (Kind.CHILD, Kind.PARENT)}


def number_of(ia):
    """An address, as 16 bits of ISD and 48 of AS number."""
    isd, _, number = ia.partition("-")
    groups = [int(it, 16) for it in number.split(":")] if ":" in number else None
    low = (groups[0] << 32) + (groups[1] << 16) + groups[2] if groups else int(number)
    return (int(isd) << 48) + low


def bound(port=0):
    """A socket at this port of the loopback address, or at a free one."""
    one = socket.socket(socket.AF_INET, socket.SOCK_DGRAM)
    one.bind((LOOPBACK, port))
    return one


def free_ports(count):
    """Free ports of the loopback address."""
    sockets = [bound() for _ in range(count)]
    found = [one.getsockname()[1] for one in sockets]
    for one in sockets:
        one.close()
    return found


class Network:
    """The ASes and links of a topology, and what was made of them: beacons, segments, answers."""

    def __init__(self, topology, library):
        self.library, self.now = library, 0
        self.ases = {it["ia"]: it for it in topology["ases"]}
        self.ends, self.beacons, self.segments, self.answers = {}, [], [], []
        pairs = []
        for link in topology["links"]:
            one, other = link["a"], link["b"]
            for near, far, kind in zip((one, other), (other, one), KINDS[link["kind"]]):
                self.ends[near["ia"], near["if"]] = (near["router"], far, kind)
            pair = {(it["ia"], it["router"]) for it in (one, other)}
            if pair in pairs:
                sys.exit("network: there are two links between two routers")
            pairs.append(pair)

    def passed_on(self, beacon, ia, ingress, egress):
        """The beacon with one more entry."""
        own, beta = self.ases[ia], beacon["beta0"]
        for entry in beacon["entries"]:
            beta ^= int(entry["mac"][:4], 16)
        values = (beta, beacon["timestamp"], own["exp"], ingress, egress)
        mac = self.library.hop_mac(bytes.fromhex(own["key"]), *values).hex()
        entry = {"ia": ia, "ingress": ingress, "egress": egress, "exp": own["exp"], "mac": mac}
        return {**beacon, "entries": [*beacon["entries"], entry]}

    def arrived(self, beacon):
        """The interface at which a beacon arrives."""
        last = beacon["entries"][-1]
        return self.ends[last["ia"], last["egress"]][1]["if"]

    def take(self, event):
        """An event before packets are sent."""
        if event["do"] == "tick":
            self.now = event["now"]
        elif event["do"] == "originate":
            kind = self.ends[event["ia"], event["egress"]][2]
            begun = {"kind": "core" if kind == Kind.CORE else "intra", "timestamp": self.now}
            begun.update({"beta0": event["beta0"], "entries": []})
            self.beacons.append(self.passed_on(begun, event["ia"], 0, event["egress"]))
        elif event["do"] in ("extend", "terminate"):
            beacon, egress = self.beacons[event["beacon"]], event.get("egress", 0)
            longer = self.passed_on(beacon, event["ia"], self.arrived(beacon), egress)
            (self.beacons if egress else self.segments).append(longer)
        elif event["do"] == "ask":
            asked = {name: it for name, it in event.items() if name != "do"}
            given = self.library.paths(now=self.now, segments=self.segments, **asked)
            self.answers.append((event, given["paths"]))
        else:
            sys.exit(f"network: no event {event['do']} is known here")

    def path(self, event):
        """The ends of the path of an event `send`, its path header, and its walk."""
        asked, paths = self.answers[event["ask"]]
        path = paths[event["path"]]
        return asked["src"], asked["dst"], bytes.fromhex(path["header"]), path["walk"]

    def packet(self, event):
        """The whole packet of an event `send`, with its payload in a datagram of UDP."""
        source, destination, header, _ = self.path(event)
        info = info_between(number_of(source), number_of(destination))
        datagram = Datagram(ASKS, ANSWERS, bytes.fromhex(event["payload"]))
        packet = WholePacket(info, header, spelled(info, datagram))
        return self.library.whole_packet_write(packet)

    def first_routers(self, walk):
        """The routers that own the way out of the source, and the way into the destination."""
        hops = walk.split(" ")
        (source, _, out), (destination, _, into) = (it.partition("#") for it in (hops[0], hops[-1]))
        numbers = int(out.partition(",")[2]), int(into.partition(",")[0])
        ends = zip((source, destination), numbers)
        return [(ia, self.ends[ia, number][0]) for ia, number in ends]


class Routers:
    """A process for each router, which ends after some packets, and a socket for the hosts of all
    ASes. Quiet ones tell no turns. `sent` has the packets that hosts and routers have sent."""

    def __init__(self, network, program, packets=PACKETS, is_quiet=False):
        self.network, self.program, self.packets = network, program, packets
        self.hosts, self.children, self.is_quiet, self.sent = bound(), {}, is_quiet, []
        self.hosts.settimeout(SECONDS)
        owners = [(ia, it) for ia, own in network.ases.items() for it in range(own["routers"])]
        self.held = {owner: bound() for owner in owners}
        self.ports = {owner: one.getsockname()[1] for owner, one in self.held.items()}
        self.lines, self.told_at = os.pipe()
        self.told = self.read()
        for owner in owners:
            self.begin(owner)

    def begin(self, owner):
        """Starts a router, which is ready then. It takes over the socket that holds its port."""
        words = [self.program, *map(str, self.words(*owner))]
        with self.held.pop(owner, None) or bound(self.ports[owner]) as own:
            self.children[owner] = subprocess.Popen(words, stdin=own, stdout=self.told_at)
        if next(self.told) != "ready":
            sys.exit("network: a router did not begin")

    def kill(self, owner):
        """Ends a router without a word, as a fault of its machine would."""
        self.children[owner].kill()
        self.children[owner].wait()

    def words(self, ia, router):
        """The command line of a router."""
        network, name = self.network, "-" if self.is_quiet else ia
        yield from (self.ports[ia, router], name, f"{number_of(ia):016x}", router)
        yield from (network.ases[ia]["key"], network.now, self.packets, SECONDS)
        yield self.hosts.getsockname()[1]
        for (at, number), (owner, far, kind) in network.ends.items():
            if at == ia:
                port = self.ports[far["ia"], far["router"]]
                yield f"link:{number}:{int(kind)}:{owner}:{port}"
        for it in range(network.ases[ia]["routers"]):
            if it != router:
                yield f"router:{it}:{self.ports[ia, it]}"

    def read(self):
        """The lines of all routers, as they are written."""
        text = b""
        while select.select([self.lines], [], [], SECONDS)[0]:
            part = os.read(self.lines, 4096)
            text += part
            *lines, text = text.split(b"\n")
            yield from (line.decode() for line in lines)
            if not part:
                break
        sys.exit("network: a router ended, or said nothing for too long")

    def send(self, packet, router):
        """Gives a packet to the first router on its way, and tells its turns up to the last one."""
        self.hosts.sendto(packet, (LOOPBACK, self.ports[router]))
        self.sent.append(packet)
        for line in self.told:
            if line.startswith("sent "):
                self.sent.append(bytes.fromhex(line[5:]))
                continue
            print(line, flush=True)
            if line.endswith("delivered"):
                return self.hosts.recv(1 << 16)
            if ", refused" in line:
                return None

    def end(self):
        for child in self.children.values():
            child.terminate()
            child.wait()


def prepared(lines):
    """The network after the lines before the first `send`, and that event."""
    topology, *events = lines
    network = Network(topology, Library(os.path.join(TOP, "bindings", "out", "libscion.so")))
    for event in itertools.takewhile(lambda it: it["do"] != "send", events):
        network.take(event)
    return network, next(it for it in events if it["do"] == "send")


def lines_of_run(lines, event, payloads, turns):
    """The lines of a run that sends a packet and then the reply, with these payloads and so many
    turns each."""
    kept = itertools.takewhile(lambda it: it.get("do") != "send", lines)
    there, back = (payload.hex() for payload in payloads)
    first = [{**event, "payload": there}, *[{"do": "turn", "packet": 0}] * turns]
    second = [{"do": "back", "packet": 0, "payload": back}, *[{"do": "turn", "packet": 1}] * turns]
    return "".join(json.dumps(it) + "\n" for it in (*kept, *first, *second)).encode()


def captured(view, lines):
    """The whole packets in the capture of a run of these lines, in their order."""
    hosts = "--source-host", LOOPBACK, "--destination-host", LOOPBACK, "--next-header", "17"
    given = subprocess.run([view, "capture", *hosts], input=lines, capture_output=True, check=True)
    rest = given.stdout[FILE_HEAD:]
    while rest:
        end = FRAME_HEAD + int.from_bytes(rest[8:12], "big")
        yield rest[FRAME_HEAD + HEADERS:end]
        rest = rest[end:]


def told_datagram(library, received):
    """Prints the datagram that a host has got."""
    packet = library.whole_packet_read(received)
    datagram = datagram_in(packet)
    ports = f"from port {datagram.source} to {datagram.destination}"
    print(f"a host received {datagram.data.hex()} {ports}", flush=True)
    return datagram


def ask_and_answer(network, event, routers):
    """A datagram and the answer to it, each through the routers: the payloads of both packets."""
    library = network.library
    *_, walk = network.path(event)
    source, destination = network.first_routers(walk)
    packet = network.packet(event)
    received = routers.send(packet, source) or sys.exit("network: the packet was refused")
    data = told_datagram(library, received).data
    reply = answer(library, received, data)
    answered = routers.send(reply, destination) or sys.exit("network: the reply was refused")
    if told_datagram(library, answered).data != data:
        sys.exit("network: the answer has other data")
    return [library.whole_packet_read(it).payload for it in (packet, reply)]


def main():
    words = argparse.ArgumentParser(description=__doc__.partition("\n\n")[0])
    words.add_argument("router", help="router.c, built")
    words.add_argument("view", nargs="?", help="scionet_view, built")
    given = words.parse_args()
    lines = list(map(json.loads, sys.stdin))
    network, event = prepared(lines)
    *_, walk = network.path(event)
    print(f"path {walk}", flush=True)
    routers = Routers(network, given.router)
    try:
        payloads = ask_and_answer(network, event, routers)
        sent = list(routers.sent)
        packet = bytearray(network.packet(event))
        packet[len(packet) - len(payloads[0]) - 1] ^= 1
        print("a byte of the last hop's authenticator is changed", flush=True)
        if routers.send(packet, network.first_routers(walk)[0]) is not None:
            sys.exit("network: the changed packet was delivered")
    finally:
        routers.end()
    if given.view:
        run = lines_of_run(lines, event, payloads, 2 * walk.count("#"))
        if list(captured(given.view, run)) != sent:
            sys.exit("network: the datagrams are not those of the run's capture")
        print(f"{len(sent)} datagrams are those of the run's capture")


if __name__ == "__main__":
    main()
