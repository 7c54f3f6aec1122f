"""How the cost of each call of the C library grows.

Each call of a shared object is made with arguments of two sizes: its seconds of processor and the
memory that it takes while it runs are held to bounds, as `growth.py` does with the programs. The
last line counts calls and exponents, and what falls short; the status is 1 where something does."""
import ctypes
import json
import sys
import time
from collections.abc import Callable, Sequence
from pathlib import Path
from typing import Any

from gate.growing import (
    LOOP_SECONDS, Bound, Cost, Measured, Work, exponent_of, faults_of, is_near, loop,
)
from gate.hosts import scion
from gate.words import reader

NOW, HOPS = 1000, 64

# The room of an answer of `scion_paths`; how often a row is measured at most, and how often again.
ROOM, TIMES, AGAIN = 1 << 20, 3, 6

Call = Callable[[], Any]


def name(number: int) -> str:
    return f"1-{number + 1}"


def header(hops: int) -> bytes:
    """A path header of one segment with so many hop fields."""
    field = bytes.fromhex("003f00010002a1a2a3a4a5a6")
    meta = (hops << 12).to_bytes(4, "big")
    return meta + bytes.fromhex("0100b39600000064") + field * hops


def router(interfaces: int) -> Any:
    """A router of an AS with so many interfaces."""
    rows = [scion.Interface(number + 1, scion.Kind.CHILD) for number in range(interfaces)]
    return scion._parts(scion.Router(ia=0x0001_0000_0000_0001, key=b"k", interfaces=rows))


def step(calls: Any, size: int) -> Call:
    """A turn of a router of so many interfaces."""
    data = bytes(16) + header(3)
    room, parts = scion._room(data), router(size)
    return lambda: calls.scion_step(parts, NOW, 0, 0, room, len(data))


def step_all(calls: Any, size: int) -> Call:
    """A turn on so many packets."""
    data = bytes(16) + header(3)
    rooms, parts = [scion._room(data) for _ in range(size)], router(4)
    slots = (scion._Packet * size)()
    for slot, room in zip(slots, rooms):
        slot.bytes, slot.len = ctypes.addressof(room), len(data)
    return lambda: (calls.scion_step_all(parts, NOW, slots, size), rooms)


def header_check(calls: Any, size: int) -> Call:
    """A header of so many hop fields."""
    data = header(size)
    return lambda: calls.scion_header_check(data, len(data))


def header_reverse(calls: Any, size: int) -> Call:
    """A header of so many hop fields."""
    data = header(size)
    room = scion._room(data)
    return lambda: calls.scion_header_reverse(room, len(data))


def hop_mac(calls: Any, size: int) -> Call:
    """A key of so many bytes."""
    key, mac = bytes(size), scion._MAC()
    return lambda: calls.scion_hop_mac(key, size, 1, NOW, 63, 1, 2, mac)


def asked(call: Any, request: dict[str, Any]) -> Call:
    """A call that answers a request, if it has an answer and no refusal."""
    text, room = json.dumps(request).encode(), ctypes.create_string_buffer(ROOM)
    given = call(text, len(text), room, ROOM)
    answer = json.loads(room.raw[: given.len])
    if given.status or "code" in answer:
        sys.exit(f"growth: {answer} is no answer")
    return lambda: call(text, len(text), room, ROOM)


def segment(kind: str, number: int, ases: list[int], ways: list[int]) -> dict[str, Any]:
    """A segment over these ASes: two of `ways` are the ends of each link."""
    pairs = list(zip([0, *ways[1::2]], [*ways[::2], 0]))
    entries = [{"ia": name(ia), "ingress": way_in, "egress": way_out, "exp": 63,
                "mac": f"{number * 65537 + place:012x}"}
               for place, (ia, (way_in, way_out)) in enumerate(zip(ases, pairs))]
    return {"kind": kind, "timestamp": NOW, "beta0": number % 65536, "entries": entries}


def request(segments: list[dict[str, Any]], dst: int, **members: Any) -> dict[str, Any]:
    return {"src": name(0), "dst": name(dst), "now": NOW, "segments": segments, **members}


def paths(calls: Any, size: int) -> Call:
    """So many segments, from as many core ASes as are needed with 32 links to each of two ASes."""
    cores = size // HOPS
    rows = [segment("intra", number, [2 + number // HOPS, number % 2],
                    [number % HOPS + 1, number // 2 + 1]) for number in range(cores * HOPS)]
    return asked(calls.scion_paths, request(rows, 1, limit=8))


def ambiguous_paths(calls: Any, size: int) -> Call:
    """A row of so many core ASes with a segment over each stretch, so that one walk is joined in
    many ways."""
    rows, number = [], 0
    for core in range(1, size + 1):
        cores = [("core", range(core, other + 1)) for other in range(core + 1, size + 1)]
        ends = [("intra", range(core, -1, -1)), ("intra", range(core, size + 2))]
        for kind, places in ends + cores:
            ases, number = list(places), number + 1
            ways = [way for low, high in zip(ases, ases[1:])
                    for way in ((low * 2 + 1, low * 2 + 2) if low < high
                                else (high * 2 + 2, high * 2 + 1))]
            rows.append(segment(kind, number, ases, ways))
    return asked(calls.scion_paths, request(rows, size + 1, limit=64))


def verified(calls: Any, size: int) -> Call:
    """A path over one segment of a request of so many."""
    rows = [segment("intra", number, [2 + number // HOPS, number % 2],
                    [number % HOPS + 1, number // 2 + 1]) for number in range(size)]
    rows[1] = segment("intra", 1, [0, 1], [1, 1])
    piece = {"segment": 1, "from": 0, "to": 1, "along": True}
    fields = "".join(f"00{e['exp']:02x}{e['ingress']:04x}{e['egress']:04x}{e['mac']}"
                     for e in rows[1]["entries"])
    text = f"{2 << 12:08x}" + f"0100{rows[1]['beta0']:04x}{NOW:08x}" + fields
    return asked(calls.scion_verify, request(rows, 1, header=text, pieces=[piece]))


# The power of a cost that is linear, as a machine that others share measures it.
LINEAR = 1.6

CALLS = [
    Work("scion_step", (), step, (128, 256), "", Bound(LINEAR, 0.8, 1), times=20_000),
    Work("scion_step_all", (), step_all, (200_000, 400_000), "", Bound(LINEAR, 2, 1)),
    Work("scion_header_check", (), header_check, (32, 63), "", Bound(LINEAR, 0.5, 1),
         times=100_000),
    Work("scion_header_reverse", (), header_reverse, (32, 63), "", Bound(LINEAR, 0.5, 1),
         times=50_000),
    Work("scion_hop_mac", (), hop_mac, (32, 64), "", Bound(LINEAR, 0.5, 1), times=40_000),
    Work("scion_paths", (), paths, (8192, 16384), "", Bound(LINEAR, 1, 40), times=10),
    # The segments grow with the square of this size.
    Work("scion_paths, one walk in many ways", (), ambiguous_paths, (16, 32), "",
         Bound(3, 0.5, 20), times=40),
    Work("scion_verify", (), verified, (8192, 16384), "", Bound(LINEAR, 1, 40), times=10),
]


def memory(field: str) -> int:
    """A field of this process's memory, in bytes."""
    for line in Path("/proc/self/status").read_text(encoding="ascii").splitlines():
        if line.startswith(field):
            return int(line.split()[1]) * 1024
    raise LookupError(field)


def cost(work: Work, call: Call) -> Cost:
    """What a call takes, so many times, and the loop behind it. Its memory is what the process has
    more at the most, since the greatest memory so far can be forgotten."""
    Path("/proc/self/clear_refs").write_text("5", encoding="ascii")
    before, begun = memory("VmRSS:"), time.process_time()
    for _ in range(work.times):
        call()
    seconds = time.process_time() - begun
    return Cost(seconds * LOOP_SECONDS / loop(), (memory("VmHWM:") - before) / 1e6)


def measured(work: Work, calls: Any) -> Measured:
    """What a call takes at its sizes: the best of some measurements, if one is near its bound."""
    made = [work.family(calls, size) for size in work.sizes]
    costs = [cost(work, it) for it in made]
    for _ in range(TIMES - 1):
        if not is_near(work, costs):
            break
        costs = [old.best_of(cost(work, it)) for old, it in zip(costs, made)]
    return Measured(work, tuple(costs), "")


def settled(work: Work, calls: Any) -> Measured:
    """What a call takes, measured again where it falls short: a machine's speed changes."""
    row = measured(work, calls)
    for _ in range(AGAIN):
        if not any(faults_of(row)):
            break
        row = measured(work, calls)
    return row


def main(words: Sequence[str]) -> int:
    words_of = reader(__name__, __doc__)
    words_of.add_argument("shared", help="the shared object of both libraries")
    calls = scion.Library(words_of.parse_args(words).shared)._calls
    rows = [settled(it, calls) for it in CALLS]
    wrong = [f"{row.work.name}: {fault}" for row in rows for fault in faults_of(row)]
    for it in wrong:
        print(f"growth: {it}")
    exponents = sum(exponent_of(row) is not None for row in rows)
    print(f"growth: {len(rows)} kinds of calls, {exponents} exponents, {len(wrong)} fall short")
    return 1 if wrong else 0

