"""The works whose cost is measured, with their bounds: for growth.py."""
from gate import families
from gate.growing import Bound, Work

# The greatest exponent of what is linear: two sizes, one twice the other, leave so much to chance.
# Where the larger of two stores no longer lies in a cache, the sizes are one four times the other.
LINEAR = 1.4

RUN, EXPLAIN = ("scionet", "run"), ("scionet_view", "explain")
TURN = ("--ia", "1-ff00:0:111", "--router", "0", "--key", "6b", "--now", "100", "--from", "host",
        "2,parent,0,up")


def carried(workers: int) -> tuple[str, ...]:
    return ("scionet", "work", "--workers", str(workers), "--slots", "4096")


def view(*words: str) -> tuple[str, ...]:
    return ("scionet_view", *words)


# Works whose seconds depend on how often threads wait, which is more often where others run.
ALONE = [
    Work("carried by eight workers", carried(8), families.on_their_way, (2048, 4096),
         "flight 4095 delivered 3", Bound(1.8, 2.4, 20), times=10),
]

REQUESTS = [
    Work("a request, parallel links inside", RUN, families.parallel_links, (64, 128), "ask 0 64;",
         Bound(1.7, 0.5, 10), times=10),
    Work("a request, grid of core ASes", RUN, families.grid, (8, 16), "ask 0 8;",
         Bound(2.6, 2, 40), times=10),
    Work("a request, 16 options that allow nothing", RUN, families.denied, (4, 8), "ask 0 0",
         Bound(2.6, 1, 30), times=10),
    Work("requests of 64 paths of 61 hops", RUN, families.long_paths, (200, 400), "ask 399 64;",
         Bound(LINEAR, 1, 60), Bound(LINEAR, 0.5, 60)),
    Work("such paths under 256 entries", RUN, families.long_lists, (100, 200), "ask 199 64;",
         Bound(LINEAR, 6, 60)),
    Work("such paths under 255 signs", RUN, families.long_sequences, (100, 200), "ask 199 64;",
         Bound(LINEAR, 4, 60)),
    Work("such paths under 16 options", RUN, families.many_options, (100, 200), "ask 199 64;",
         Bound(LINEAR, 4, 60)),
    Work("requests of one path", RUN, families.asked, (20_000, 40_000), "ask 40000 1;",
         Bound(LINEAR, 0.8, 75)),
]

SEGMENTS = [
    Work("registering, second by second", RUN, families.register, (20_000, 80_000), "segment new",
         Bound(LINEAR, 1.5, 60), Bound(1.2, 0.4, 60)),
    Work("registering, origin by origin", RUN, families.register_by_origin, (20_000, 80_000),
         "segment new", Bound(LINEAR, 1.5, 60), Bound(1.2, 0.4, 60)),
    Work("sweeping one segment out, 100 times", RUN, families.sweep_one, (10_000, 40_000),
         "swept 1", Bound(LINEAR, 1, 40), Bound(1.2, 0.35, 40)),
    Work("sweeping nothing out, 1,000 times", RUN, families.sweep_none, (10_000, 40_000),
         "swept 0", Bound(LINEAR, 1, 40), Bound(1.2, 0.4, 40)),
    Work("beginning beacons", RUN, families.originated, (50_000, 100_000), "beacon 100001",
         Bound(LINEAR, 1.2, 15)),
    Work("passing beacons on", RUN, families.extended, (50_000, 100_000), "beacon 100001",
         Bound(LINEAR, 1.2, 18)),
    Work("ending the same beacon", RUN, families.terminated, (50_000, 100_000), "segment known",
         Bound(LINEAR, 1.2, 10)),
]

PACKETS = [
    Work("packets from send to show", RUN, families.packets, (10_000, 20_000), "delivered;",
         Bound(LINEAR, 0.8, 15)),
    Work("packets on their way", RUN, families.on_their_way, (50_000, 100_000), "packet 99999",
         Bound(LINEAR, 0.8, 135), Bound(LINEAR, 0.4, 105)),
    Work("packets with the longest payload", RUN, families.long_payloads, (10_000, 20_000),
         "packet 19999", Bound(LINEAR, 0.8, 90)),
    Work("packets lost", RUN, families.lost, (50_000, 100_000), "ok", Bound(LINEAR, 1, 35)),
    Work("bytes altered", RUN, families.altered, (50_000, 100_000), "ok", Bound(LINEAR, 1.6, 10),
         times=3),
    Work("answers to one packet", RUN, families.sent_back, (50_000, 100_000), "packet 100000",
         Bound(LINEAR, 1.4, 320)),
    Work("one packet shown", RUN, families.shown, (50_000, 100_000), "delivered;",
         Bound(LINEAR, 1.6, 10), times=4),
    Work("turns of packets that have ended", RUN, families.turned, (50_000, 100_000),
         "no 131 NotInFlight", Bound(LINEAR, 1.6, 10), times=4),
    Work("carried by one worker", carried(1), families.on_their_way, (2048, 4096),
         "flight 4095 delivered 3", Bound(LINEAR, 1.2, 15), times=10),
    Work("dropped at a full inbox", carried(1), families.on_their_way, (50_000, 100_000),
         "flight 99999 dropped", Bound(LINEAR, 1.6, 170), Bound(LINEAR, 0.5, 125)),
    Work("lines before one flight", carried(1), families.lines_before, (50_000, 100_000),
         "flight 0 delivered 3", Bound(LINEAR, 1.6, 10), times=4),
    Work("a packet of 'step'", ("scionet", "step", *TURN), families.packet,
         (8_000_000, 16_000_000), "link 2 ", Bound(LINEAR, 2, 150), times=3),
    Work("a packet of 'packet'", view("packet", *TURN), families.packet, (4_000_000, 8_000_000),
         "link 2 ", Bound(LINEAR, 1.6, 125), times=2),
    Work("a packet of 'packet --whole'", view("packet", "--whole", *TURN), families.whole_packet,
         (32_000, 64_000), "link 2 ", Bound(LINEAR, 0.6, 10), times=20),
    Work("a whole packet that is refused", view("packet", "--whole", *TURN), families.whole_packet,
         (4_000_000, 8_000_000), "refused 164 BadPayloadLength", Bound(LINEAR, 1.6, 125), times=2),
    Work("a packet of a run", view("packet", "--packet", "0"), families.packets, (10_000, 20_000),
         " payload", Bound(LINEAR, 1, 15)),
    Work("a packet of a run as a whole one", view("packet", "--packet", "0", "--whole"),
         families.packets, (10_000, 20_000), " payload", Bound(LINEAR, 1, 15)),
    Work("a packet of 'wrap'", view("wrap", "--packet", "0"), families.packets, (10_000, 20_000),
         "0a0000640a000064", Bound(LINEAR, 1, 15)),
    # The file ends with the payload of the last datagram.
    Work("a capture", view("capture"), families.packets, (10_000, 20_000), "\0" * 8,
         Bound(LINEAR, 1.2, 60)),
]

NETWORKS = [
    Work("seconds", RUN, families.ticks, (50_000, 100_000), "ok", Bound(LINEAR, 1.6, 10), times=4),
    Work("links cut and mended", RUN, families.cut_and_mended, (50_000, 100_000), "ok",
         Bound(LINEAR, 1.6, 10), times=3),
    Work("links cut and mended, an AS of 4,096", RUN, families.cut_hub, (50_000, 100_000), "ok",
         Bound(LINEAR, 1.6, 10), times=3),
    Work("keys of 64 bytes", RUN, families.rotated, (50_000, 100_000), "ok",
         Bound(LINEAR, 1.2, 10)),
    Work("a topology of a core mesh", RUN, families.core_mesh, (512, 1024), "topology ok",
         Bound(1.5, 1.2, 15), times=20),
    Work("a topology of one AS with all links", RUN, families.one_hub, (2048, 4096),
         "topology ok", Bound(1.5, 1.2, 15), times=20),
    Work("too many ASes", RUN, families.many_ases, (50_000, 100_000), "topology no 18 TooMany",
         Bound(LINEAR, 1.6, 190)),
    Work("too many links", RUN, families.many_links, (50_000, 100_000), "topology no 18 TooMany",
         Bound(LINEAR, 0.8, 120)),
    Work("beaconing a core mesh", view("beacons"), families.core_mesh, (128, 256),
         '{"do":"terminate"', Bound(3, 5, 200)),
    Work("the lines of the core mesh", RUN, families.core_mesh, (128, 256), "segment new",
         Bound(3, 4, 160), is_beaconed=True),
    Work("beaconing layers", view("beacons"), families.layers, (256, 512), '{"do":"terminate"',
         Bound(1.6, 1, 45), times=4),
    Work("the lines of the layers", RUN, families.layers, (256, 512), "segment new",
         Bound(1.6, 1, 40), times=4, is_beaconed=True),
    # The paths between two of these ASes double with each layer: 34 times as many in all.
    Work("a report of all pairs, layers", view("report"), families.layers, (32, 64),
         "1-64 1-63 paths ", Bound(6.5, 2.6, 20), Bound(6.5, 1, 20), is_beaconed=True),
    Work("a report of the paths to one AS", view("report", "--to", "1-8"), families.layers,
         (500, 1000), " pairs 8", Bound(LINEAR, 1, 60), is_beaconed=True),
    Work("the same in JSON", view("report", "--json", "--to", "1-8"), families.layers, (500, 1000),
         '"pairs":8}', Bound(LINEAR, 1, 60), is_beaconed=True),
    Work("a picture of the ASes around one", view("network", "--around", "1-8", "--hops", "255"),
         families.layers, (512, 1024), "numbers at the left", Bound(1.5, 1.6, 20), times=20),
    Work("a picture", view("network"), families.core_mesh, (512, 1024), "numbers at the left",
         Bound(1.5, 1.6, 20), times=10),
    Work("a picture of a packet's path", view("network", "--packet", "0"), families.packets,
         (10_000, 20_000), "labeljust=c", Bound(LINEAR, 1, 15)),
    Work("the path of a packet", view("path", "--packet", "0"), families.packets,
         (10_000, 20_000), " payload", Bound(LINEAR, 1, 15)),
    Work("the path of an answer", view("path", "--answer", "0"), families.asked, (20_000, 40_000),
         " authenticator", Bound(LINEAR, 1, 75)),
]

TEXTS = [
    Work("lines that are refused", RUN, families.faulty, (100_000, 200_000), "no 140 BadLine",
         Bound(LINEAR, 1.6, 10), times=3),
    Work("empty lines", RUN, families.blank, (500_000, 1_000_000), "no 140 BadLine",
         Bound(LINEAR, 1.6, 10), times=4),
    Work("a list for a topology", RUN, families.json_list, (2_000_000, 4_000_000),
         "topology no 11 BadField", Bound(LINEAR, 1, 190)),
    Work("members that nobody reads", RUN, families.many_members, (200_000, 400_000), "swept 0",
         Bound(1.5, 1.6, 60), times=4),
    Work("members of one name", RUN, families.one_member, (200_000, 400_000), "swept 0",
         Bound(1.5, 1.6, 60), times=4),
    Work("a text of escapes", RUN, families.long_text, (2_000_000, 4_000_000), "swept 0",
         Bound(LINEAR, 1.6, 80), times=2),
    Work("an address of many digits", RUN, families.long_address, (10_000_000, 20_000_000),
         "no 140 BadLine", Bound(LINEAR, 1.6, 80), times=2),
    Work("a number of many digits", RUN, families.long_number, (8_000_000, 16_000_000),
         "no 140 BadLine", Bound(LINEAR, 1.6, 60), times=2),
    Work("a payload that is too long", RUN, families.too_long_payload, (4_000_000, 8_000_000),
         "no 135 PayloadTooLong", Bound(LINEAR, 1.6, 80), times=2),
    Work("an access list that is too long", RUN, families.long_acl, (500_000, 1_000_000),
         "no 64 TooLarge", Bound(LINEAR, 1, 130)),
    Work("a sequence that is too long", RUN, families.long_sequence, (2_000_000, 4_000_000),
         "no 64 TooLarge", Bound(LINEAR, 1, 40)),
    Work("a sequence that is too deep", RUN, families.nested_sequence, (8_000_000, 16_000_000),
         "no 63 TooDeep", Bound(LINEAR, 1.6, 80), times=3),
    Work("too many options", RUN, families.option_list, (100_000, 200_000), "no 67 OptionCount",
         Bound(LINEAR, 1, 190)),
    Work("explaining refused lines", EXPLAIN, families.faulty, (100_000, 200_000),
         "no 140 BadLine: packet: missing", Bound(LINEAR, 1.6, 10)),
    Work("explaining empty lines", EXPLAIN, families.blank, (500_000, 1_000_000),
         "no 140 BadLine: the line: found no text", Bound(LINEAR, 1.8, 10)),
    Work("explaining requests that are denied", EXPLAIN, families.all_denied, (20_000, 40_000),
         "warning: acl[0]: no path: it denies", Bound(LINEAR, 1.4, 20)),
    Work("explaining entries for no AS", EXPLAIN, families.unlisted_entries, (127, 255),
         "acl[254]: found 1-258: the topology has no such AS", Bound(LINEAR, 1.6, 60)),
    Work("explaining packets that are refused", EXPLAIN, families.behind_a_cut, (20_000, 40_000),
         "refused 100 LinkDown: packet:", Bound(LINEAR, 1.4, 60)),
    Work("explaining lines that are right", EXPLAIN, families.packets, (10_000, 20_000), "",
         Bound(LINEAR, 1.4, 15)),
    Work("explaining members that nobody reads", EXPLAIN, families.many_members,
         (100_000, 200_000), "warning: m99999:", Bound(1.5, 1.4, 120)),
    Work("explaining an access list that is too long", EXPLAIN, families.long_acl,
         (200_000, 400_000), "no 64 TooLarge: acl[0]", Bound(LINEAR, 0.8, 80)),
    Work("explaining a sequence that is too long", EXPLAIN, families.long_sequence,
         (500_000, 1_000_000), "no 64 TooLarge: sequence", Bound(LINEAR, 0.8, 50)),
    Work("explaining too many links", EXPLAIN, families.many_links, (50_000, 100_000),
         "topology no 18 TooMany", Bound(1.6, 3, 420)),
]

WORKS = [*REQUESTS, *SEGMENTS, *PACKETS, *NETWORKS, *TEXTS, *ALONE]
