# SPDX-License-Identifier: Apache-2.0
"""The proved router for Python, over ctypes.

`Library()` loads the shared object of the package, and `Library(path)` one that `bindings/build.py`
has linked. Their calls copy what they are given, so that another thread may change it. They refuse
what is no bytes or no whole number by TypeError, and a number that has too many bits for its place
by ValueError. The library is proved, and this module is not: bindings/README.md says what a host
has to keep.
"""
import ctypes
import enum
import json
import operator
import os
from typing import Any, Iterable, List, NamedTuple, Optional, Sequence, Union

__all__ = [
    "MAX_REQUEST",
    "Answer",
    "Arrival",
    "Code",
    "Host",
    "Interface",
    "Kind",
    "Library",
    "Packet",
    "PacketInfo",
    "Refused",
    "Router",
    "WholePacket",
]

__version__ = "0.1.0"

# The largest number of bytes in a request for paths, or to verify one.
MAX_REQUEST = 4194304

# What holds bytes: each object with a buffer of items of one byte, also with steps between them.
Bytes = Union[bytes, bytearray, memoryview]


class Kind(enum.IntEnum):
    """The kind of a link: what the AS at its far end is."""

    CORE = 0
    PARENT = 1
    CHILD = 2


class Arrival(enum.IntEnum):
    """How a packet came to a router."""

    FROM_HOST = 0
    INSIDE = 1
    OVER_LINK = 2


class Code(enum.IntEnum):
    """The result of a call, or why it was refused."""

    TO_LINK = 0
    TO_ROUTER = 1
    DELIVER = 2
    BAD_CALL = 9
    BAD_FIELD = 11
    DUPLICATE_IF = 13
    SHORT = 20
    RESERVED = 21
    PEER_FLAG = 22
    ALERT_FLAG = 23
    SEG_LENS = 24
    TOO_MANY_HOPS = 25
    BAD_INDEX = 26
    PACKET_ROOM_TOO_SMALL = 27
    BAD_HEADER = 90
    INDEX_MISMATCH = 91
    WRONG_INGRESS = 92
    EXPIRED = 93
    BAD_MAC = 94
    SOURCE_AS = 95
    DESTINATION_AS = 96
    SWITCH_INSIDE = 97
    UNKNOWN_EGRESS = 98
    LINK_KINDS = 99
    LINK_DOWN = 100
    SHORT_PACKET = 160
    BAD_VERSION = 161
    BAD_PATH_TYPE = 162
    BAD_HEADER_LENGTH = 163
    BAD_PAYLOAD_LENGTH = 164
    PAYLOAD_TOO_LARGE = 165


class Interface(NamedTuple):
    """An interface of an AS. A kind or a state without meaning is answered with BAD_CALL."""

    number: int
    kind: int
    router: int = 0
    up: int = True


class Router(NamedTuple):
    """A router, with the interfaces of its whole AS. `ia` has 16 bits of ISD and 48 of AS number;
    `previous` is the key before, or empty; `router` is its number in the AS."""

    ia: int
    key: Bytes
    interfaces: Iterable[Interface]
    previous: Bytes = b""
    router: int = 0


class Packet(NamedTuple):
    """A packet that came to a router, over the link at `interface` if it came over a link."""

    bytes: Bytes
    arrival: int = Arrival.FROM_HOST
    interface: int = 0


class Host(NamedTuple):
    """The address of a host: its type, 0 to 3, and 4, 8, 12 or 16 bytes. Type 0 is IPv4 with 4
    bytes and IPv6 with 16, type 1 with 4 bytes a service."""

    kind: int
    bytes: Bytes


class PacketInfo(NamedTuple):
    """What a whole packet says besides its path and its payload. `destination` and `source` are
    ASes; `flow_id` is below 2^20; `next_header` tells with what the payload begins."""

    destination: int
    source: int
    destination_host: Host
    source_host: Host
    next_header: int
    traffic_class: int = 0
    flow_id: int = 0
    reserved: int = 0


class WholePacket(NamedTuple):
    """A packet as it is on the wire: what it says, the bytes of its path header, its payload."""

    info: PacketInfo
    path: Bytes
    payload: Bytes


class Answer(NamedTuple):
    """The answer to a step: its code, its number, and the bytes of the packet after it."""

    code: Code
    number: int
    bytes: bytes


class Refused(Exception):
    """A call was refused for all of its packets, or has no value to return. At BAD_HEADER `header`
    is the refusal of the path header."""

    def __init__(self, code: Code, header: Optional[Code] = None) -> None:
        codes = [code] if header is None else [code, header]
        super().__init__(" ".join(f"{it.value} {it.name}" for it in codes))
        self.code, self.header = code, header


class _Answer(ctypes.Structure):
    _fields_ = [("code", ctypes.c_uint16), ("number", ctypes.c_uint16)]


class _Interface(ctypes.Structure):
    _fields_ = [
        ("number", ctypes.c_uint16),
        ("kind", ctypes.c_uint8),
        ("router", ctypes.c_uint8),
        ("up", ctypes.c_uint8),
    ]


class _Router(ctypes.Structure):
    _fields_ = [
        ("ia", ctypes.c_uint64),
        ("key", ctypes.c_char_p),
        ("key_len", ctypes.c_size_t),
        ("previous", ctypes.c_char_p),
        ("previous_len", ctypes.c_size_t),
        ("interfaces", ctypes.POINTER(_Interface)),
        ("interfaces_len", ctypes.c_size_t),
        ("router", ctypes.c_uint8),
    ]


class _Packet(ctypes.Structure):
    _fields_ = [
        ("bytes", ctypes.c_void_p),
        ("len", ctypes.c_size_t),
        ("interface", ctypes.c_uint16),
        ("answer", _Answer),
        ("arrival", ctypes.c_uint8),
    ]


class _Text(ctypes.Structure):
    _fields_ = [("status", ctypes.c_uint16), ("len", ctypes.c_size_t)]


class _Host(ctypes.Structure):
    _fields_ = [
        ("kind", ctypes.c_uint8),
        ("len", ctypes.c_uint8),
        ("bytes", ctypes.c_uint8 * 16),
    ]


class _PacketInfo(ctypes.Structure):
    _fields_ = [
        ("destination", ctypes.c_uint64),
        ("source", ctypes.c_uint64),
        ("flow_id", ctypes.c_uint32),
        ("reserved", ctypes.c_uint16),
        ("path_start", ctypes.c_uint16),
        ("traffic_class", ctypes.c_uint8),
        ("next_header", ctypes.c_uint8),
        ("destination_host", _Host),
        ("source_host", _Host),
    ]


_MAC = ctypes.c_uint8 * 6

_SLICE = [ctypes.c_char_p, ctypes.c_size_t]

# The types of each call's arguments and of its answer.
_CALLS = {
    "scion_step": (
        [ctypes.POINTER(_Router), ctypes.c_uint32, ctypes.c_uint8, ctypes.c_uint16, *_SLICE],
        _Answer,
    ),
    "scion_step_all": (
        [ctypes.POINTER(_Router), ctypes.c_uint32, ctypes.POINTER(_Packet), ctypes.c_size_t],
        _Answer,
    ),
    "scion_whole_packet_step": (
        [ctypes.POINTER(_Router), ctypes.c_uint32, ctypes.c_uint8, ctypes.c_uint16, *_SLICE],
        _Answer,
    ),
    "scion_whole_packet_read": ([*_SLICE, ctypes.POINTER(_PacketInfo)], _Answer),
    "scion_whole_packet_write": (
        [ctypes.POINTER(_PacketInfo), *_SLICE, *_SLICE, *_SLICE],
        _Answer,
    ),
    "scion_whole_packet_reply": (_SLICE, _Answer),
    "scion_header_check": (_SLICE, _Answer),
    "scion_header_reverse": (_SLICE, _Answer),
    "scion_hop_mac": (
        [
            *_SLICE,
            ctypes.c_uint16,
            ctypes.c_uint32,
            ctypes.c_uint8,
            ctypes.c_uint16,
            ctypes.c_uint16,
            ctypes.POINTER(_MAC),
        ],
        _Answer,
    ),
    "scion_paths": ([*_SLICE, *_SLICE], _Text),
    "scion_verify": ([*_SLICE, *_SLICE], _Text),
}


def _whole(name: str, value: int, bits: int) -> int:
    """The number, which ctypes would cut to this many bits without a word."""
    number = operator.index(value)
    if not 0 <= number < 1 << bits:
        raise ValueError(f"{name} is {number}, which is no number of {bits} bits")
    return number


def _copy(name: str, data: Bytes) -> bytes:
    """The bytes as they are now, whatever another thread writes there later."""
    if isinstance(data, (bytes, bytearray)):
        return b"".join([data])
    with memoryview(data) as view:
        if view.itemsize != 1:
            raise TypeError(f"the items of {name} have more than one byte")
        return view.tobytes()


def _room(data: bytes) -> "ctypes.Array[ctypes.c_char]":
    """A copy of some bytes that a call may change, never of length 0."""
    return ctypes.create_string_buffer(data, max(len(data), 1))


def _way_in(packet: Packet) -> Sequence[int]:
    """How a packet came, and by which interface."""
    return _whole("arrival", packet.arrival, 8), _whole("interface", packet.interface, 16)


def _row(it: Interface) -> _Interface:
    return _Interface(
        _whole("number", it.number, 16),
        _whole("kind", it.kind, 8),
        _whole("router", it.router, 8),
        _whole("up", it.up, 8),
    )


def _host(name: str, it: Host) -> _Host:
    """The record of a host's address; one of more than 16 bytes is as refused as it."""
    data = _copy(name, it.bytes)
    kept = (ctypes.c_uint8 * 16)(*data[:16])
    return _Host(_whole(f"the type of {name}", it.kind, 8), min(len(data), 255), kept)


def _read_host(it: _Host) -> Host:
    return Host(it.kind, bytes(it.bytes[: it.len]))


def _info(it: PacketInfo) -> _PacketInfo:
    return _PacketInfo(
        destination=_whole("destination", it.destination, 64),
        source=_whole("source", it.source, 64),
        flow_id=_whole("flow_id", it.flow_id, 32),
        reserved=_whole("reserved", it.reserved, 16),
        traffic_class=_whole("traffic_class", it.traffic_class, 8),
        next_header=_whole("next_header", it.next_header, 8),
        destination_host=_host("destination_host", it.destination_host),
        source_host=_host("source_host", it.source_host),
    )


def _read_info(it: _PacketInfo) -> PacketInfo:
    return PacketInfo(
        it.destination,
        it.source,
        _read_host(it.destination_host),
        _read_host(it.source_host),
        it.next_header,
        it.traffic_class,
        it.flow_id,
        it.reserved,
    )


def _parts(router: Router) -> _Router:
    """The record of a router, which also keeps alive what it points to."""
    rows = [_row(it) for it in router.interfaces]
    table = (_Interface * max(len(rows), 1))(*rows)
    key, previous = _copy("key", router.key), _copy("previous", router.previous)
    return _Router(
        _whole("ia", router.ia, 64),
        key,
        len(key),
        previous,
        len(previous),
        table,
        len(rows),
        _whole("router", router.router, 8),
    )


class Library:
    """The calls of the shared object at this path, or of that of the package."""

    def __init__(self, path: Optional[str] = None) -> None:
        own = os.path.join(os.path.dirname(__file__), "libscion.so")
        self._calls = ctypes.CDLL(os.path.abspath(own if path is None else path))
        for name, (types, result) in _CALLS.items():
            if hasattr(self._calls, name):
                call = getattr(self._calls, name)
                call.argtypes, call.restype = types, result

    def step(self, router: Router, now: int, packet: Packet) -> Answer:
        """One step of a router on a packet, at the second `now`."""
        return self._stepped(self._calls.scion_step, router, now, packet)

    def whole_packet_step(self, router: Router, now: int, packet: Packet) -> Answer:
        """The same step on a packet whose bytes are a whole packet."""
        return self._stepped(self._calls.scion_whole_packet_step, router, now, packet)

    def whole_packet_read(self, data: Bytes) -> WholePacket:
        """The whole packet that these bytes are; `Refused` if they are none."""
        data, info = _copy("data", data), _PacketInfo()
        given = self._calls.scion_whole_packet_read(data, len(data), info)
        start = self._done(given)
        return WholePacket(_read_info(info), data[info.path_start : start], data[start:])

    def whole_packet_write(self, packet: WholePacket) -> bytes:
        """The bytes of a whole packet; `Refused` if it has none."""
        info, path = _info(packet.info), _copy("path", packet.path)
        payload = _copy("payload", packet.payload)
        room = _room(bytes(60 + len(path) + len(payload)))
        slices = [path, len(path), payload, len(payload), room, len(room)]
        given = self._calls.scion_whole_packet_write(info, *slices)
        return room.raw[: self._done(given) + len(payload)]

    def whole_packet_reply(self, data: Bytes) -> bytes:
        """The reply to a whole packet, with its payload; `Refused` if the bytes are none."""
        data = _copy("data", data)
        room = _room(data)
        self._done(self._calls.scion_whole_packet_reply(room, len(data)))
        return room.raw[: len(data)]

    @staticmethod
    def _stepped(call: Any, router: Router, now: int, packet: Packet) -> Answer:
        data, now = _copy("packet", packet.bytes), _whole("now", now, 32)
        room = _room(data)
        given = call(_parts(router), now, *_way_in(packet), room, len(data))
        return Answer(Code(given.code), given.number, room.raw[: len(data)])

    def step_all(self, router: Router, now: int, packets: Iterable[Packet]) -> List[Answer]:
        """One step on each packet; `Refused` if there is no such router."""
        packets, now = list(packets), _whole("now", now, 32)
        copies = [_copy("packet", it.bytes) for it in packets]
        rooms = [_room(it) for it in copies]
        slots = (_Packet * max(len(rooms), 1))()
        for slot, room, data, packet in zip(slots, rooms, copies, packets):
            slot.bytes, slot.len = ctypes.addressof(room), len(data)
            slot.arrival, slot.interface = _way_in(packet)
        self._done(self._calls.scion_step_all(_parts(router), now, slots, len(rooms)))
        return [
            Answer(Code(slot.answer.code), slot.answer.number, room.raw[: slot.len])
            for slot, room in zip(slots, rooms)
        ]

    def header_length(self, data: Bytes) -> int:
        """The length of the path header at the front; `Refused` if there is none."""
        data = _copy("data", data)
        return self._done(self._calls.scion_header_check(data, len(data)))

    def header_reverse(self, data: Bytes) -> bytes:
        """The bytes with the header of the way back; `Refused` if there is no header."""
        data = _copy("data", data)
        room = _room(data)
        self._done(self._calls.scion_header_reverse(room, len(data)))
        return room.raw[: len(data)]

    def hop_mac(
        self,
        key: Bytes,
        beta: int,
        timestamp: int,
        exp_time: int,
        cons_ingress: int,
        cons_egress: int,
    ) -> bytes:
        """The authenticator of a hop; `Refused` if the key is not of 1 to 64 bytes."""
        mac, key = _MAC(), _copy("key", key)
        values = (
            _whole("beta", beta, 16),
            _whole("timestamp", timestamp, 32),
            _whole("exp_time", exp_time, 8),
            _whole("cons_ingress", cons_ingress, 16),
            _whole("cons_egress", cons_egress, 16),
        )
        self._done(self._calls.scion_hop_mac(key, len(key), *values, mac))
        return bytes(mac)

    def paths(self, **request: Any) -> Any:
        """The answer to a request for paths (bindings/README.md), as an object of JSON.

        The shared object has to be linked from both libraries."""
        return self._asked("scion_paths", request)

    def verify(self, **request: Any) -> Any:
        """Whether the path of a request may be sent (bindings/README.md), as an object of JSON."""
        return self._asked("scion_verify", request)

    def _asked(self, name: str, request: Any) -> Any:
        if not hasattr(self._calls, name):
            raise NotImplementedError(f"this shared object has no {name}: build it with --paths")
        text = json.dumps(request, allow_nan=False).encode()
        length, status = 4096, 1
        while status == 1:
            room = _room(bytes(length))
            given = getattr(self._calls, name)(text, len(text), room, length)
            status, length = given.status, given.len
        if status:
            raise MemoryError
        return json.loads(room.raw[:length])

    @staticmethod
    def _done(given: _Answer) -> int:
        if given.code:
            raise Refused(Code(given.code), Code(given.number) if given.number else None)
        number: int = given.number
        return number
