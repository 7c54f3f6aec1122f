# SPDX-License-Identifier: Apache-2.0
"""What a host does above a whole packet: datagrams of UDP, with their checksum over SCION's pseudo
header, and the answer to one over the way back.

It is an example of a host, and not proved; the packets are read, written and turned round by the
library."""
from typing import NamedTuple

from scion import Host, PacketInfo

UDP = 17
HEADER = 8

# All hosts of the example have this address.
LOOPBACK = Host(0, bytes((127, 0, 0, 1)))


class Datagram(NamedTuple):
    """A datagram of UDP: the ports, and what it carries."""

    source: int
    destination: int
    data: bytes


class Damaged(Exception):
    """The payload of a packet is no datagram of UDP."""


def info_between(source, destination):
    """What a packet of UDP says besides, between the hosts of two ASes."""
    return PacketInfo(destination, source, LOOPBACK, LOOPBACK, UDP, flow_id=1)


def words_sum(data):
    """The sum of the words of these bytes, in ones' complement (RFC 1071)."""
    data += bytes(len(data) % 2)
    total = sum(int.from_bytes(data[at:at + 2], "big") for at in range(0, len(data), 2))
    while total >> 16:
        total = (total & 0xFFFF) + (total >> 16)
    return total


def pseudo_header(info, length):
    """What the checksum covers besides the datagram: both ASes, both hosts, the length, and the
    number of UDP."""
    ases = info.destination.to_bytes(8, "big") + info.source.to_bytes(8, "big")
    hosts = bytes(info.destination_host.bytes) + bytes(info.source_host.bytes)
    return ases + hosts + length.to_bytes(4, "big") + bytes((0, 0, 0, UDP))


def spelled(info, datagram):
    """The payload of a packet with a datagram."""
    length = HEADER + len(datagram.data)
    front = b"".join(it.to_bytes(2, "big") for it in (*datagram[:2], length))
    total = words_sum(pseudo_header(info, length) + front + bytes(2) + datagram.data)
    return front + ((0xFFFF - total) or 0xFFFF).to_bytes(2, "big") + datagram.data


def datagram_in(packet):
    """The datagram in a whole packet; `Damaged` if there is none, or its checksum is wrong."""
    payload = bytes(packet.payload)
    length = int.from_bytes(payload[4:6], "big")
    if packet.info.next_header != UDP or len(payload) < HEADER or length != len(payload):
        raise Damaged("the payload is no datagram of UDP")
    if words_sum(pseudo_header(packet.info, length) + payload) != 0xFFFF:
        raise Damaged("the checksum of a datagram is wrong")
    ports = (int.from_bytes(payload[at:at + 2], "big") for at in (0, 2))
    return Datagram(*ports, payload[HEADER:])


def answer(library, received, data):
    """The packet that answers one with these data, over the way back and between the same ports."""
    asked = datagram_in(library.whole_packet_read(received))
    reply = library.whole_packet_read(library.whole_packet_reply(received))
    answered = Datagram(asked.destination, asked.source, data)
    return library.whole_packet_write(reply._replace(payload=spelled(reply.info, answered)))
