#!/usr/bin/env python3
# SPDX-License-Identifier: Apache-2.0
"""The turns of docs/programs.md by hand, and packets that were cut or changed on their way.

What is expected is said by the rules of a router, never by what the library answered. A word is the
path of a shared object, in place of that of the package; the status is 1 if an answer differs."""
import array
import json
import sys
import threading
import time

from scion import MAX_REQUEST, Arrival, Code, Host, Interface, Kind, Library, Packet, PacketInfo
from scion import Refused, Router, WholePacket

AT_111, AT_110 = 0x0001FF0000000111, 0x0001FF0000000110
ADDRESSES = "0001ff00000001100001ff0000000111"
OWN_HOP, NEXT_HOP = "003f00020000", "003f00000001"
RIGHT, OTHER = "110e4c1d3dad", "b1b2b3b4b5b6"

# A whole packet in front of its hosts, and the reply to it.
FRONT = "0b8abcde11150003010312340001ff00000001100001ff0000000111"
FRONT_BACK = "0b8abcde11150003013012340001ff00000001110001ff0000000110"
IPV4, IPV6 = "0a000001", "20010db8000000000000000000000001"
PARENT, DOWN = Interface(2, Kind.PARENT), Interface(2, Kind.PARENT, up=False)


def packet(first, mac):
    """The packet of docs/programs.md, whose meta field begins so, with this authenticator."""
    info = "0000b39600000064"
    text = f"{ADDRESSES}{first}002000{info}{OWN_HOP}{mac}{NEXT_HOP}a1a2a3a4a5a6"
    return bytes.fromhex(text)


SENT = packet("00", RIGHT)

# A byte of the packet, the value for its exclusive or, and the router's answer.
CHANGES = [
    (7, 0x01, Code.DESTINATION_AS, 0),
    (15, 0x01, Code.SOURCE_AS, 0),
    (16, 0x01, Code.INDEX_MISMATCH, 0),
    (16, 0x02, Code.BAD_HEADER, Code.BAD_INDEX),
    (17, 0x04, Code.BAD_HEADER, Code.RESERVED),
    (18, 0x20, Code.BAD_HEADER, Code.SEG_LENS),
    (18, 0x30, Code.INDEX_MISMATCH, 0),
    (20, 0x01, Code.UNKNOWN_EGRESS, 0),
    (20, 0x02, Code.BAD_HEADER, Code.PEER_FLAG),
    (28, 0x01, Code.BAD_HEADER, Code.ALERT_FLAG),
    *((byte, flip, Code.BAD_MAC, 0) for byte in range(34, 40) for flip in range(1, 256)),
    *((byte, flip, Code.TO_LINK, 2) for byte in range(42, 52) for flip in range(1, 256)),
]


def packet_gone():
    """The packet of docs/programs.md behind its first router."""
    return packet("01", RIGHT)


class Longer(bytearray):
    """Bytes that say that they are more."""

    def __len__(self):
        return 52


def cut_and_extend(shared, whole, is_over):
    """Changes the length of shared bytes until it is told to end."""
    while not is_over.is_set():
        if len(shared) > 12:
            del shared[12:]
        else:
            shared.extend(whole[12:])


class Tour:
    """The calls of the library that were made, and the number of wrong answers."""

    def __init__(self, path=None):
        self.library, self.count, self.wrong = Library(path), 0, 0

    def expect(self, what, given, wanted):
        self.count += 1
        if given != wanted:
            print(f"{what}: {given}, and not {wanted}")
            self.wrong += 1

    def refuses(self, what, code, call, *words):
        try:
            self.expect(what, call(*words), code)
        except Refused as refusal:
            self.expect(what, refusal.code, code)

    def turns(self):
        gone, other = packet("01", RIGHT), packet("00", OTHER)
        rows = [
            ("over the link", SENT, b"k", b"", 100, PARENT, Code.TO_LINK, 2, gone),
            ("expired", SENT, b"k", b"", 21701, PARENT, Code.EXPIRED, 0, SENT),
            ("link down", SENT, b"k", b"", 100, DOWN, Code.LINK_DOWN, 0, SENT),
            ("authenticator", other, b"k", b"", 100, PARENT, Code.BAD_MAC, 0, other),
            ("key before", SENT, b"l", b"k", 100, PARENT, Code.TO_LINK, 2, gone),
            ("no key", SENT, b"", b"", 100, PARENT, Code.BAD_FIELD, 0, SENT),
            ("no such kind", SENT, b"k", b"", 100, Interface(2, 3), Code.BAD_CALL, 0, SENT),
        ]
        for what, sent, key, previous, now, link, code, number, after in rows:
            router = Router(AT_111, key, [link], previous)
            given = self.library.step(router, now, Packet(sent))
            self.expect(what, given, (code, number, after))
        inside = f"{ADDRESSES}010020000000b39600000064{OWN_HOP}{OTHER}{NEXT_HOP}7cc464f73e18"
        last = bytes.fromhex(inside)
        given = self.library.step(Router(AT_110, b"k", []), 100, Packet(last, Arrival.INSIDE))
        self.expect("delivered", given, (Code.DELIVER, 0, last))

    def hostile(self):
        router = Router(AT_111, b"k", [PARENT])
        short = (Code.BAD_HEADER, Code.SHORT)
        for length in range(len(SENT)):
            cut = SENT[:length]
            self.expect("cut off", self.library.step(router, 100, Packet(cut)), (*short, cut))
        packets, wanted = [], []
        for byte, flip, code, number in CHANGES:
            changed = bytearray(SENT)
            changed[byte] ^= flip
            packets.append(Packet(bytes(changed)))
            if code == Code.TO_LINK:
                changed[16] = 0x01
            wanted.append((code, number, bytes(changed)))
        self.expect("changed", self.library.step_all(router, 100, packets), wanted)
        one_by_one = [self.library.step(router, 100, it) for it in packets]
        self.expect("changed, one by one", one_by_one, wanted)

    def headers(self):
        library, header = self.library, SENT[16:]
        self.expect("header", library.header_length(header + b"hi"), 36)
        back = f"010020000100b39600000064{NEXT_HOP}a1a2a3a4a5a6{OWN_HOP}{RIGHT}"
        self.expect("way back", library.header_reverse(header + b"hi"), bytes.fromhex(back) + b"hi")
        self.expect("mac", library.hop_mac(b"k", 0xB396, 100, 63, 2, 0), bytes.fromhex(RIGHT))
        self.refuses("no header", Code.SHORT, library.header_length, header[:35])
        self.refuses("no way back", Code.SHORT, library.header_reverse, header[:35])
        self.refuses("no mac", Code.BAD_FIELD, library.hop_mac, b"", 0xB396, 100, 63, 2, 0)
        nobody = Router(AT_111, b"", [PARENT])
        self.refuses("no router", Code.BAD_FIELD, library.step_all, nobody, 100, [])

    def whole(self):
        """A whole packet by hand, whose hosts have addresses of different lengths."""
        library, path = self.library, SENT[16:]
        hosts = Host(0, bytes.fromhex(IPV4)), Host(0, bytes.fromhex(IPV6))
        info = PacketInfo(AT_110, AT_111, *hosts, 17, 0xB8, 0xABCDE, 0x1234)
        packet, data = WholePacket(info, path, b"hi!"), bytes.fromhex(FRONT + IPV4 + IPV6) + path
        self.expect("written", library.whole_packet_write(packet), data + b"hi!")
        self.expect("read", library.whole_packet_read(data + b"hi!"), packet)
        back = FRONT_BACK + IPV6 + IPV4 + f"010020000100b39600000064{NEXT_HOP}a1a2a3a4a5a6"
        answer = bytes.fromhex(back + OWN_HOP + RIGHT) + b"hi!"
        self.expect("reply", library.whole_packet_reply(data + b"hi!"), answer)
        self.expect("reply again", library.whole_packet_reply(answer), data + b"hi!")
        changes = {"flow_id": 1 << 20, "source_host": Host(4, b"host"),
                   "destination_host": Host(0, bytes(20))}
        for what, value in changes.items():
            odd = WholePacket(info._replace(**{what: value}), path[:35], bytes(65536))
            self.refuses(what, Code.BAD_FIELD, library.whole_packet_write, odd)
        short, large = packet._replace(path=path[:35]), packet._replace(payload=bytes(65536))
        self.refuses("path", Code.BAD_HEADER, library.whole_packet_write, short)
        self.refuses("payload", Code.PAYLOAD_TOO_LARGE, library.whole_packet_write, large)
        self.refuses("no packet", Code.BAD_PAYLOAD_LENGTH, library.whole_packet_read, data)
        self.refuses("no reply", Code.BAD_PAYLOAD_LENGTH, library.whole_packet_reply, data)
        at111, step = Router(AT_111, b"k", [PARENT]), library.whole_packet_step
        gone = Code.TO_LINK, 2, data[:48] + b"\x01" + data[49:] + b"hi!"
        self.expect("step", step(at111, 100, Packet(data + b"hi!")), gone)
        self.raises("whole packet", TypeError, library.whole_packet_read, "text")
        self.raises("wide flow", ValueError, library.whole_packet_write,
                    packet._replace(info=info._replace(flow_id=1 << 32)))

    def raises(self, what, fault, call, *words):
        """A call whose arguments don't fit, which ctypes would have cut."""
        try:
            self.expect(what, call(*words), fault.__name__)
        except (TypeError, ValueError) as found:
            self.expect(what, type(found), fault)

    def unfit(self):
        library, parts = self.library, {"ia": AT_111, "key": b"k", "interfaces": [PARENT]}
        at111, wide = Router(**parts), array.array("H", range(26))
        turns = [
            ("milliseconds", ValueError, parts, 2**32 + 100, Packet(SENT)),
            ("second -1", ValueError, parts, -1, Packet(SENT)),
            ("half a second", TypeError, parts, 100.5, Packet(SENT)),
            ("arrival 256", ValueError, parts, 100, Packet(SENT, 256)),
            ("interface 65538", ValueError, parts, 100, Packet(SENT, Arrival.OVER_LINK, 65538)),
            ("address", ValueError, {**parts, "ia": AT_111 + 2**64}, 100, Packet(SENT)),
            ("router 256", ValueError, {**parts, "router": 256}, 100, Packet(SENT)),
            ("key 5", TypeError, {**parts, "key": 5}, 100, Packet(SENT)),
            ("key of text", TypeError, {**parts, "key": "k"}, 100, Packet(SENT)),
            ("previous 5", TypeError, {**parts, "previous": 5}, 100, Packet(SENT)),
            ("wide items", TypeError, parts, 100, Packet(wide)),
            ("view of wide items", TypeError, parts, 100, Packet(memoryview(wide))),
            ("packet 5", TypeError, parts, 100, Packet(5)),
        ]
        for row in ((65538, 1), (-1, 1), (2, 257), (2, 1, 256), (2, 1, 0, 257)):
            broken = {**parts, "interfaces": [Interface(*row)]}
            turns.append((f"interface {row}", ValueError, broken, 100, Packet(SENT)))
        for what, fault, router, now, packet in turns:
            self.raises(what, fault, library.step, Router(**router), now, packet)
            self.raises(f"{what}, all", fault, library.step_all, Router(**router), now, [packet])
        right = (0xB396, 100, 63, 2, 0)
        for place, width in enumerate((16, 32, 8, 16, 16)):
            for change in (1 << width, -(1 << width)):
                wrong = [it + change * (at == place) for at, it in enumerate(right)]
                self.raises(f"mac of {wrong}", ValueError, library.hop_mac, b"k", *wrong)
        for call in (library.header_length, library.header_reverse):
            self.raises("header 36", TypeError, call, 36)
            self.raises("header of wide items", TypeError, call, wide)
        second = memoryview(bytes(it for byte in SENT for it in (byte, 0)))[::2]
        turned = memoryview(SENT[::-1])[::-1]
        rows = memoryview(SENT).cast("B", (2, len(SENT) // 2))
        whole = bytearray(SENT), memoryview(SENT), array.array("B", SENT)
        for like in (*whole, second, turned, rows):
            given = library.step(at111, 100, Packet(like))
            self.expect("like bytes", given, (Code.TO_LINK, 2, packet_gone()))

    def copied(self):
        """The length that counts is that of the copy: of bytes that say another length, and of
        bytes that a thread cuts and extends meanwhile."""
        library, header = self.library, SENT[16:]
        back = library.header_reverse(header)
        longer = Longer(header[:12])
        self.refuses("said longer", Code.SHORT, library.header_length, longer)
        self.refuses("said longer, turned", Code.SHORT, library.header_reverse, longer)
        at111 = Router(AT_111, b"k", [PARENT])
        given = library.step(at111, 100, Packet(Longer(SENT[:12])))
        self.expect("said longer, packet", given, (Code.BAD_HEADER, Code.SHORT, SENT[:12]))
        shared, is_over = bytearray(header), threading.Event()
        other = threading.Thread(target=cut_and_extend, args=(shared, header, is_over))
        pause = sys.getswitchinterval()
        sys.setswitchinterval(1e-6)
        other.start()
        found, ends = set(), time.monotonic() + 0.5
        while time.monotonic() < ends:
            for call in (library.header_length, library.header_reverse):
                try:
                    found.add(call(shared))
                except Refused as refusal:
                    found.add(refusal.code)
        is_over.set()
        other.join()
        sys.setswitchinterval(pause)
        self.expect("shared bytes", found - {len(header), back, Code.SHORT}, set())

    def segment(self, kind, beta0, hops, exp=63):
        """A segment that begins at second 1000 with this accumulator: for each AS its address, key,
        way in and way out."""
        entries, beta = [], beta0
        for ia, key, ingress, egress in hops:
            mac = self.library.hop_mac(key, beta, 1000, exp, ingress, egress)
            names = {"ia": ia, "ingress": ingress, "egress": egress, "exp": exp, "mac": mac.hex()}
            entries.append(names)
            beta ^= int.from_bytes(mac[:2], "big")
        return {"kind": kind, "timestamp": 1000, "beta0": beta0, "entries": entries}

    def path(self, what, src, dst, segments, meta, wanted):
        """The one path between two ASes, whose header begins with this meta field. The verifier
        says the same of it."""
        asked = {"src": src, "dst": dst, "now": 1000, "segments": segments}
        found = self.library.paths(limit=8, **asked)
        [path] = found["paths"]
        self.expect(f"{what}, option", found["option"], 0)
        header, pieces = path.pop("header"), path["pieces"]
        self.expect(what, (header[:8], path), (meta, wanted))
        verdict = self.library.verify(header=header, pieces=pieces, **asked)
        self.expect(f"{what}, verified", {**verdict, "pieces": pieces}, wanted)
        return bytes.fromhex(header)

    def turns_along(self, what, packet, turns):
        """Turns of routers with a packet of one segment: for each its answer, and the first byte of
        the meta field and the accumulator after it. No other byte changes. The packets after each
        turn are returned."""
        packets = []
        for router, arrival, interface, code, number, first, accumulator in turns:
            wanted = packet[:16] + bytes([first]) + packet[17:22]
            wanted += accumulator.to_bytes(2, "big") + packet[24:]
            given = self.library.step(router, 1000, Packet(packet, arrival, interface))
            self.expect(what, given, (code, number, wanted))
            packet = given.bytes
            packets.append(packet)
        return packets

    def row(self):
        """Three ASes in a row, and a reply from the last one. On the way, against construction
        direction, each router at a link takes its own authenticator out of the accumulator, the
        last one too: a reply with the bytes of before is refused."""
        ias = [f"1-ff00:0:11{it}" for it in range(3)]
        ways = [(0, 1), (1, 2), (1, 0)]
        keys = [b"a0", b"a1", b"a2"]
        hops = [(ia, key, *way) for ia, key, way in zip(ias, keys, ways)]
        segment = self.segment("intra", 4660, hops)
        macs = [it["mac"] for it in segment["entries"]]
        self.expect("row", macs, ["aef522c41890", "39b948f8a321", "ad8a52e6ab61"])
        walk = "1-ff00:0:112#0,1 1-ff00:0:111#2,1 1-ff00:0:110#1,0"
        pieces = [{"segment": 0, "from": 0, "to": 2, "along": False}]
        wanted = {"expiry": 45200, "kind": "U", "pieces": pieces, "walk": walk}
        given = self.path("row", ias[2], ias[0], [segment], "00003000", wanted)
        first, last = 0x0001FF0000000112, 0x0001FF0000000110
        packet = last.to_bytes(8, "big") + first.to_bytes(8, "big") + given + b"hi"
        middle = [Interface(1, Kind.PARENT), Interface(2, Kind.CHILD)]
        at = [
            Router(first, keys[2], [Interface(1, Kind.PARENT)]),
            Router(0x0001FF0000000111, keys[1], middle),
            Router(last, keys[0], [Interface(1, Kind.CHILD)]),
        ]
        turns = [
            (at[0], Arrival.FROM_HOST, 0, Code.TO_LINK, 1, 1, 0x1234 ^ 0xAEF5 ^ 0x39B9),
            (at[1], Arrival.OVER_LINK, 2, Code.TO_LINK, 1, 2, 0x1234 ^ 0xAEF5),
            (at[2], Arrival.OVER_LINK, 1, Code.DELIVER, 0, 2, 0x1234),
        ]
        _, before, delivered = self.turns_along("row", packet, turns)
        back = [
            (at[2], Arrival.FROM_HOST, 0, Code.TO_LINK, 1, 1, 0x1234 ^ 0xAEF5),
            (at[1], Arrival.OVER_LINK, 1, Code.TO_LINK, 2, 2, 0x1234 ^ 0xAEF5 ^ 0x39B9),
            (at[0], Arrival.OVER_LINK, 1, Code.DELIVER, 0, 2, 0x1234 ^ 0xAEF5 ^ 0x39B9),
        ]
        self.turns_along("reply", self.reply(delivered), back)
        given = self.library.step(at[2], 1000, Packet(self.reply(before)))
        self.expect("reply to the bytes before", given.code, Code.BAD_MAC)

    def reply(self, packet):
        """The packet of the way back."""
        return packet[8:16] + packet[:8] + self.library.header_reverse(packet[16:])

    def pair(self):
        """Two ISDs, each a core AS, its child and the child's child. The core segment expires
        first, 675 half seconds after it begins."""
        one, other = [[f"{isd}-ff00:0:{isd}1{it}" for it in range(3)] for isd in (1, 2)]
        ways = [(0, 1), (1, 2), (1, 0)]
        up = self.segment("intra", 1, [(ia, b"k", *way) for ia, way in zip(one, ways)])
        core = self.segment("core", 2, [(one[0], b"k", 0, 2), (other[0], b"k", 1, 0)], exp=0)
        ways = [(0, 2), (1, 2), (1, 0)]
        down = self.segment("intra", 3, [(ia, b"k", *way) for ia, way in zip(other, ways)])
        pieces = [
            {"segment": 2, "from": 0, "to": 2, "along": False},
            {"segment": 1, "from": 0, "to": 1, "along": True},
            {"segment": 0, "from": 0, "to": 2, "along": True},
        ]
        walk = (
            "1-ff00:0:112#0,1 1-ff00:0:111#2,1 1-ff00:0:110#1,2 "
            "2-ff00:0:210#1,2 2-ff00:0:211#1,2 2-ff00:0:212#1,0"
        )
        wanted = {"expiry": 2675, "kind": "UCD", "pieces": pieces, "walk": walk}
        self.path("pair", one[2], other[2], [down, core, up], "00003083", wanted)

    def fork(self):
        """A core AS, its child, and two children of the child, with a path that avoids the core."""
        ias = [f"1-ff00:0:11{it}" for it in range(4)]
        left = [(ias[0], b"k", 0, 1), (ias[1], b"k", 1, 2), (ias[2], b"k", 1, 0)]
        right = [(ias[0], b"k", 0, 1), (ias[1], b"k", 1, 3), (ias[3], b"k", 1, 0)]
        segments = [self.segment("intra", 7, left), self.segment("intra", 7, right)]
        pieces = [
            {"segment": 0, "from": 1, "to": 2, "along": False},
            {"segment": 1, "from": 1, "to": 2, "along": True},
        ]
        walk = "1-ff00:0:112#0,1 1-ff00:0:111#2,3 1-ff00:0:113#1,0"
        wanted = {"expiry": 45200, "kind": "UD", "pieces": pieces, "walk": walk}
        self.path("fork", ias[2], ias[3], segments, "00002080", wanted)
        asked = {"src": ias[2], "dst": ias[3], "limit": 8, "now": 1000, "segments": segments}
        short = {**segments[0], "entries": segments[0]["entries"][:1]}
        rows = [
            ("no path", {"now": 22601}, {"paths": []}),
            ("denied", {"acl": ["- 1-ff00:0:111", "+"]}, {"paths": []}),
            ("one AS", {"dst": ias[2]}, {"code": 85, "name": "SameAs"}),
            ("no limit", {"limit": 0}, {"code": 137, "name": "BadLimit"}),
            ("no policy", {"sequence": "("}, {"code": 60, "name": "UnexpectedEnd"}),
            ("no segment", {"segments": [{}]}, {"code": 150, "name": "BadRequest"}),
            ("short segment", {"segments": [short]}, {"code": 30, "name": "TooShort"}),
        ]
        for what, change, wanted in rows:
            self.expect(what, self.library.paths(**{**asked, **change}), wanted)
        denied = {"weight": 5, "acl": ["- 1-ff00:0:111", "+"]}
        found = self.library.paths(**asked, options=[denied, {"weight": 1}])
        self.expect("option", (found["option"], len(found["paths"])), (1, 1))
        self.longest_request({**asked, "dst": ias[2]})

    def longest_request(self, asked):
        """A request of the largest number of bytes is judged, and one of a byte more is not."""
        free = MAX_REQUEST - len(json.dumps({**asked, "none": ""}))
        same, bad = {"code": 85, "name": "SameAs"}, {"code": 150, "name": "BadRequest"}
        for count, wanted in ((free, same), (free + 1, bad)):
            self.expect(f"{count} letters", self.library.paths(**asked, none="x" * count), wanted)

    def verdicts(self):
        """The path of one piece, and its refusals after one change."""
        far, near = "1-ff00:0:110", "1-ff00:0:111"
        first = {"ia": far, "ingress": 0, "egress": 1, "exp": 63, "mac": "a1a2a3a4a5a6"}
        last = {"ia": near, "ingress": 2, "egress": 0, "exp": 63, "mac": OTHER}
        segment = {"kind": "intra", "timestamp": 100, "beta0": 4660, "entries": [first, last]}
        up = {"segment": 0, "from": 0, "to": 1, "along": False}
        header = f"000020000000b39600000064{OWN_HOP}{OTHER}{NEXT_HOP}a1a2a3a4a5a6"
        asked = {"src": near, "dst": far, "now": 100, "segments": [segment]}
        asked |= {"pieces": [up], "header": header}
        walk = f"{near}#0,2 {far}#1,0"
        wanted = {"expiry": 43400, "kind": "U", "walk": walk}
        self.expect("verified", self.library.verify(**asked), wanted)
        rows = [
            ({"pieces": []}, 70, "PieceCount"),
            ({"pieces": [up] * 4}, 70, "PieceCount"),
            ({"pieces": [{**up, "to": 2}]}, 71, "Range"),
            ({"pieces": [up, up]}, 72, "Kinds"),
            ({"dst": "1-ff00:0:112"}, 76, "Destination"),
            ({"now": 21701}, 79, "Expired"),
            ({"header": header.replace("b396", "1234")}, 80, "HeaderDiffers"),
            ({"acl": [f"- {far}", "+"]}, 81, "AclDenied"),
            ({"sequence": "0"}, 82, "SequenceMismatch"),
            ({"sequence": "1 |"}, 60, "UnexpectedEnd"),
            ({"header": header[:-2]}, 20, "Short"),
            ({"segments": [{**segment, "entries": [first]}]}, 30, "TooShort"),
            ({"pieces": [{**up, "segment": 1}]}, 150, "BadRequest"),
            ({"options": []}, 150, "BadRequest"),
        ]
        for change, code, name in rows:
            given = self.library.verify(**{**asked, **change})
            self.expect(name, given, {"code": code, "name": name})


def main():
    tour = Tour(*sys.argv[1:])
    tour.turns()
    tour.hostile()
    tour.headers()
    tour.whole()
    tour.unfit()
    tour.copied()
    tour.row()
    tour.pair()
    tour.fork()
    tour.verdicts()
    print(f"{tour.count} answers, {tour.wrong} wrong")
    return 1 if tour.wrong else 0


sys.exit(main())
