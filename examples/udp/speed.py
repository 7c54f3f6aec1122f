#!/usr/bin/env python3
# SPDX-License-Identifier: Apache-2.0
"""Packets a second of one router, beside a socket that only answers each datagram by itself.

    speed.py ROUTER LOAD [PACKETS] < examples/row.txt

The programs are `router.c` and `load.c`, built. The packet is the one that `network.py` sends; the
first router on its way takes it from a host and sends it to a link. Both figures are the best of
five runs, in turn."""
import json
import subprocess
import sys

sys.dont_write_bytecode = True

import network  # noqa: E402

RUNS, SECONDS = 5, 60


def packets_a_second(server, load, sent_from, to, at, packets, packet):
    """How many packets a second pass a server with these words."""
    with subprocess.Popen([*map(str, server)], stdout=subprocess.PIPE, text=True) as child:
        if child.stdout.readline() != "ready\n":
            sys.exit("speed: the server did not begin")
        words = [load, "send", *map(str, (sent_from, to, at, packets))]
        done = subprocess.run(words, input=packet, capture_output=True, check=True)
    count, nanoseconds = map(int, done.stdout.split())
    return count * 1e9 / nanoseconds


def through_router(made, ia, program, load, packets, packet):
    """The first router of an AS, quiet: from a host to the one link that it owns."""
    own, host, far = network.free_ports(3)
    [(number, kind)] = [(it, kind) for (at, it), (_, _, kind) in made.ends.items() if at == ia]
    server = [program, own, "-", f"{network.number_of(ia):016x}", 0, made.ases[ia]["key"]]
    server += [made.now, packets, SECONDS, host, f"link:{number}:{int(kind)}:0:{far}"]
    return packets_a_second(server, load, host, own, far, packets, packet)


def through_echo(load, packets, packet):
    own, host = network.free_ports(2)
    return packets_a_second([load, "echo", own, packets], load, host, own, host, packets, packet)


def main():
    program, load = sys.argv[1:3]
    packets = int(sys.argv[3]) if sys.argv[3:] else 200_000
    made, event = network.prepared(map(json.loads, sys.stdin))
    packet, ia = made.packet(event), made.path(event)[0]
    router = echo = 0.0
    for _ in range(RUNS):
        router = max(router, through_router(made, ia, program, load, packets, packet))
        echo = max(echo, through_echo(load, packets, packet))
    print(f"a router {router:.0f} packets a second, an echo {echo:.0f}, ratio {echo / router:.2f}")


main()
