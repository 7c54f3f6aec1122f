"""Uses of the types of bindings/python, for mypy alone: nothing runs this. A use that the types
have to refuse ends with what mypy then says of it; mypy tells it if it says something else."""
from typing import List, Optional

from scion import Answer, Arrival, Code, Host, Interface, Kind, Library, Packet, PacketInfo
from scion import Refused, Router, WholePacket

KEY = b"k"
ROUTER = Router(0x0001FF0000000111, KEY, (Interface(it, Kind.PARENT) for it in (2, 3)))


def steps(library: Library, data: bytearray) -> List[Answer]:
    over = Packet(memoryview(data), Arrival.OVER_LINK, 2)
    code, number, after = library.step(ROUTER, 100, Packet(data))
    if code is Code.TO_LINK and number == 2 and after.startswith(KEY):
        return [library.whole_packet_step(ROUTER, 100, over)]
    return library.step_all(ROUTER._replace(previous=KEY, router=1), 100, iter([over]))


def headers(library: Library, packet: WholePacket) -> int:
    data: bytes = library.whole_packet_write(packet)
    info, path, payload = library.whole_packet_read(library.whole_packet_reply(data))
    host: Host = info.source_host
    again = WholePacket(PacketInfo(info.source, info.destination, host, host, 17), path, payload)
    mac: bytes = library.hop_mac(KEY, 0xB396, 100, 63, 2, 0)
    return library.header_length(library.header_reverse(again.path)) + len(mac)


def refused(fault: Refused) -> Optional[Code]:
    return fault.header if fault.code is Code.BAD_HEADER else fault.code


def wrong(library: Library) -> None:
    library.step(ROUTER._replace(ia="1-ff00:0:111"), 100, Packet(KEY))  # type: ignore[arg-type]
    Router(1, "6b", [])  # type: ignore[arg-type]
    Router(1, KEY)  # type: ignore[call-arg]
    Router(1, KEY, [2])  # type: ignore[list-item]
    library.step(ROUTER, 100.5, Packet(KEY))  # type: ignore[arg-type]
    library.step(ROUTER, 100, KEY)  # type: ignore[arg-type]
    library.step(ROUTER, Packet(KEY))  # type: ignore[call-arg, arg-type]
    library.step_all(ROUTER, 100, Packet(KEY))  # type: ignore[arg-type]
    library.step(ROUTER, 100, Packet(KEY)).code = Code.SHORT  # type: ignore[misc]
    text: str = library.header_reverse(KEY)  # type: ignore[assignment]
    library.whole_packet_write(text)  # type: ignore[arg-type]
    library.header_check(KEY)  # type: ignore[attr-defined]
    print(Code.NO_SUCH_CODE)  # type: ignore[attr-defined]
