"""Drives the server of `tools/playground.py` as its page does, over the programs that `rt ci` has
proved and built.

The replies to the networks of `examples/` have to be those that `scionet run` gives without the
server, and so have the views. A page loaded anew, a second page, and a process that has ended must
make no difference. Requests that are not those of the page have to be refused. What the server
holds of processes and connections is checked by `playground_bounds.py`. The buttons of the page
itself are pressed where node is there, without a window, and where `chromium` is there, in its
tabs.

The last line has the number of checks and of what was wrong; the status is 1 where something
was."""
import concurrent.futures
import json
import os
import re
import signal
from collections.abc import Sequence
from pathlib import Path
from typing import Any

from gate import TOP, fault_tables, playground_bounds
from gate.machine import Machine
from gate.playground_server import Checks, Page, Programs, Server, turn, written
from gate.playground_windows import NodeWindow, check_page, check_tabs
from gate.words import reader

# The most turns of a packet, and the bounds of the server that are tried.
TURNS, CHILDREN, BODY_BYTES, BURST = 128, 8, 8 << 20, 200

# How many requests are made side by side, and how many in all, so that some come too soon.
SIDE_BY_SIDE, SOON = 16, 20 * BURST


def check_start(checks: Checks, server: Server) -> Any:
    """The networks, the refusals and the page."""
    status, start = server.call("start")
    checks.same("start", status, 200)
    for name in ("row", "pair", "fork"):
        lines = (TOP / "examples" / f"{name}.txt").read_text(encoding="utf-8").splitlines()
        checks.same(name, start["networks"][name], {"lines": lines})
    names = {str(number): name for number, name in fault_tables.all_names().items()}
    found = {number: it["name"] for number, it in start["refusals"].items()}
    checks.same("the refusals", found, names)
    meaning = start["refusals"]["31"]["meaning"]
    checks.same("the meaning in a run", meaning, "The beacon has 62 entries.")
    status, page, headers = server.ask("GET", f"/?{server.address.query}", Origin=None)
    wanted = (TOP / "tools/playground.html").read_text(encoding="utf-8")
    checks.same("the page", (status, page), (200, wanted))
    checks.same("its policy", "default-src 'none'" in headers["Content-Security-Policy"], True)
    addresses = set(re.findall(r"https?://[^\"'\s<]*", page)) - {"http://www.w3.org/2000/svg"}
    checks.same("addresses in the page", addresses, set())
    return start["networks"]


def check_networks(checks: Checks, server: Server, networks: dict[str, Any]) -> None:
    """The lines of each example, one by one and at once, have the replies of `scionet run`."""
    for number, name in enumerate(("row", "pair", "fork")):
        page, lines = Page(server, number), networks[name]["lines"]
        wanted = server.programs.printed("scionet", ["run"], lines).splitlines()
        replies = [reply for line in lines for reply in page.give(line)]
        checks.same(f"{name}, line by line", replies, wanted)
        checks.same(f"{name}, a reload", page.give(*lines, at=0), wanted)
        views: list[tuple[list[str], dict[str, Any]]] = [
            (["--packet", "0"], {"packet": 0}),
            (["--answer", "0", "--path", "0"], {"answer": 0, "path": 0}),
        ]
        for words, asked in views:
            text = server.programs.printed("scionet_view", ["path", *words], lines)
            checks.same(f"{name}, the path of {asked}", page.view(**asked), text)


def check_delivery(checks: Checks, server: Server, networks: dict[str, Any]) -> None:
    """A whole beaconing of the largest example, and a packet from one ISD to the other."""
    lines = networks["ten"].get("lines") or networks["pair"]["lines"][:1]
    ends = ("1-ff00:0:112", "2-ff00:0:213") if "lines" in networks["ten"] else (
        "1-ff00:0:112", "2-ff00:0:212")
    options = {"per-pair": 2, "core-length": 5, "now": 1000}
    status, beaconing = server.call("beacons", topology=lines[0] + "\n", **options)
    words = [it for name, value in options.items() for it in (f"--{name}", str(value))]
    wanted = server.programs.printed("scionet_view", ["beacons", *words], lines)
    checks.same("a beaconing", (status, beaconing.get("text")), (200, wanted))
    page = Page(server, 20)
    replies = page.give(*beaconing["text"].splitlines())
    checks.same("refused of it", [it for it in replies if it.startswith("no ")], [])
    asked = written("ask", src=ends[0], dst=ends[1], limit=4)
    [answer] = page.give(asked)
    walk = answer.split("; ")[1]
    page.give(written("send", ask=0, path=0, payload="6869"))
    replies = []
    while len(replies) < TURNS and (not replies or replies[-1].startswith(("link", "router"))):
        replies += page.give(turn())
    checks.same("its last turn", replies[-1], "delivered")
    checks.same("its way", page.give(written("show", packet=0)), [f"delivered; {walk}"])


def check_refusals(checks: Checks, server: Server, networks: dict[str, Any]) -> None:
    """Refusals of topologies, events, policies, the verifier and routers."""
    row = networks["row"]["lines"]
    page = Page(server, 30)
    checks.same("no topology", page.give("{", at=0), ["topology no 10 NotJson"])
    checks.same("no AS", page.give('{"ases":[],"links":[]}', at=0)[0][:11], "topology no")
    asked = {"src": "1-ff00:0:112", "dst": "1-ff00:0:110", "limit": 4}
    send = written("send", ask=0, path=0, payload="")
    for lines, reply in (
        (["no JSON"], "no 140 BadLine"),
        ([""], "no 140 BadLine"),
        ([written("originate", ia="1-ff00:0:111", egress=1, beta0=0)], "no 40 NotCore"),
        ([written("ask", **asked, acl=["- 1-ff00:0:111"])], "no 65 NoDefault"),
        ([written("ask", **asked, sequence="(0*")], "no 62 Unbalanced"),
        ([written("tick", now=22601), send], "no 79 Expired"),
        ([written("cut", ia="1-ff00:0:112", **{"if": 1}), turn()], "refused 100 LinkDown"),
        ([written("alter", packet=0, at=34, xor=1), turn()], "refused 94 BadMac"),
        ([written("alter", packet=0, at=16, xor=3), turn()], "refused 90 BadHeader 26 BadIndex"),
        ([written("tick", now=22601), turn()], "refused 93 Expired"),
        ([written("lose", packet=0), turn()], "no 131 NotInFlight"),
    ):
        page.give(*row[:7], at=0)
        checks.same(f"after {lines}", page.give(*lines)[-1], reply)


def check_turn(checks: Checks, server: Server) -> None:
    """The checks of a router over a packet, which README.md shows."""
    packet = (
        "0001ff00000001100001ff0000000111000020000000b39600000064"
        "003f00020000b1b2b3b4b5b6003f00000001a1a2a3a4a5a6"
    )
    asked: dict[str, Any] = {
        "ia": "1-ff00:0:111", "router": 0, "key": "6b", "now": 100, "from": "host",
    }
    interfaces = ["2,parent,0,up"]
    status, answer = server.call("turn", **asked, interfaces=interfaces, bytes=packet)
    words = [it for name, value in asked.items() for it in (f"--{name}", str(value))]
    wanted = server.programs.printed("scionet_view", ["packet", *words, *interfaces], [packet])
    checks.same("a turn", (status, answer.get("text")), (200, wanted))
    checks.same("its outcome", answer["text"].splitlines()[-1:], ["refused 94 BadMac"])
    changes: list[dict[str, Any]] = [
        {"ia": "--help"}, {"router": "0"}, {"router": 64}, {"from": "--help"}, {"key": "6"},
        {"interfaces": ["--help"]}, {"interfaces": "2,parent,0,up"}, {"bytes": "--help"},
    ]
    for changed in changes:
        members = {"interfaces": interfaces, "bytes": packet, **asked, **changed}
        checks.same(f"a turn with {changed}", server.call("turn", **members)[0], 400)


def check_beacons(checks: Checks, server: Server) -> None:
    """Requests for a beaconing that the program is not given."""
    requests: list[dict[str, Any]] = [
        {}, {"topology": 3}, {"topology": "\ud800"}, {"topology": "{}", "now": -1},
        {"topology": "{}", "per-pair": "--help"}, {"topology": "{}", "now": 1 << 32},
    ]
    for members in requests:
        checks.same(f"a beaconing with {members}", server.call("beacons", **members)[0], 400)


def check_pages(checks: Checks, server: Server, networks: dict[str, Any]) -> None:
    """Pages beside one another, pages too many, and processes that have ended."""
    row, pair = networks["row"]["lines"], networks["pair"]["lines"]
    one, other = Page(server, 40), Page(server, 41)
    printed = server.programs.printed
    wanted = [printed("scionet", ["run"], it).splitlines() for it in (row, pair)]
    found: list[list[Any]] = [[], []]
    for place, lines in enumerate(zip(row, pair)):
        for page, line, replies in zip((one, other), lines, found):
            replies += page.give(line)
    checks.same("two pages", found, [it[: len(row)] for it in wanted])
    checks.same("a place that is another", one.give(row[0], at=3), 409)
    checks.same("a page without a run", Page(server, 42).give(row[0], at=3), 410)
    for pid in server.children():
        os.kill(pid, signal.SIGKILL)
    checks.same("a process that has ended", other.give(*pair[len(row):]), [])
    checks.same("another process", other.give(*pair, at=0), wanted[1])
    pages = [Page(server, 50 + number) for number in range(CHILDREN + 1)]
    for page in pages:
        page.give(row[0], at=0)
    checks.same("processes", len(server.children()), CHILDREN)
    checks.same("the page used longest ago", pages[0].give(row[1]), 410)
    checks.same("the last page", pages[-1].give(row[1]), ["ok"])
    checks.same("an end", server.call("end", page=pages[-1].id), (200, {}))
    checks.same("processes after it", len(server.children()), CHILDREN - 1)


def check_strangers(checks: Checks, server: Server, networks: dict[str, Any]) -> None:
    """Requests that are not those of the page."""
    port, run = server.address.port, {"page": f"{60:016x}", "at": 0}
    body = json.dumps({**run, "lines": networks["row"]["lines"]}).encode()
    headers: list[tuple[int, dict[str, Any]]] = [
        (403, {"Playground_Token": None}), (403, {"Playground_Token": server.token[:-1]}),
        (403, {"Playground_Token": "\xe9"}), (403, {"Origin": None}), (403, {"Origin": "null"}),
        (403, {"Origin": "https://example.com"}), (403, {"Origin": f"http://localhost:{port}"}),
        (403, {"Host": "example.com"}), (403, {"Host": f"localhost:{port}"}), (403, {"Host": None}),
        (413, {"Content_Length": str(BODY_BYTES + 1)}), (411, {"Content_Length": None}),
        (411, {"Content_Length": "-1"}), (411, {"Transfer_Encoding": "chunked"}),
    ]
    for status, changed in headers:
        is_whole = "Content_Length" not in changed
        found = server.status("POST", "/run", body if is_whole else None, **changed)
        checks.same(f"a request with {changed}", found, status)
    for status, content in (
        (400, b"{"), (400, b"\xff"), (400, b"[]"), (400, b"[" * 100_000), (400, b"{}"),
        (400, json.dumps({**run, "lines": ["a\nb"]}).encode()),
        (400, json.dumps({**run, "lines": ["\ud800"]}).encode()),
        (400, json.dumps({**run, "lines": "a"}).encode()),
        (400, json.dumps({**run, "at": True, "lines": []}).encode()),
        (400, json.dumps({**run, "page": "../a", "lines": []}).encode()),
    ):
        found = server.status("POST", "/run", content)
        checks.same(f"the body {content[:60]!r}", found, status)
    query = f"?{server.address.query}"
    addresses: list[tuple[int, str, str, dict[str, Any]]] = [
        (403, "GET", "/", {}), (403, "GET", "/?token=", {}), (403, "GET", f"/{query}0", {}),
        (403, "GET", f"/{query}", {"Origin": "https://example.com"}),
        (403, "GET", f"/{query}", {"Host": "example.com"}), (404, "GET", f"/run{query}", {}),
        (404, "POST", "/other", {}), (501, "OPTIONS", "/run", {}), (501, "PUT", "/run", {}),
    ]
    for status, method, path, changed in addresses:
        found = server.status(method, path, **changed)
        checks.same(f"{method} {path.partition('=')[0]} {changed}", found, status)


def check_rate(checks: Checks, server: Server) -> None:
    """Requests that come too soon are refused, and later ones are not. They come side by side, so
    that a slow machine makes them soon enough, and no more of them once one was refused."""
    end, found = json.dumps({"page": f"{70:016x}"}).encode(), set()

    def ask(_: int) -> None:
        if 429 not in found:
            found.add(server.status("POST", "/end", end))

    with concurrent.futures.ThreadPoolExecutor(SIDE_BY_SIDE) as pool:
        list(pool.map(ask, range(SOON)))
    checks.same("many requests", found, {200, 429})
    checks.same("a request later", server.call("end", page=f"{70:016x}")[0], 200)


def check_windows(checks: Checks, server: Server, machine: Machine, pictures: Path | None) -> None:
    """The page itself, in what the machine has to show it."""
    if machine.has("node"):
        window = NodeWindow(server)
        check_page(checks, server, window)
        window.close()
    if machine.has("chromium"):
        check_tabs(checks, server, pictures)


def check_all(checks: Checks, server: Server, machine: Machine, pictures: Path | None) -> None:
    """Everything that is asked of one server."""
    networks = check_start(checks, server)
    check_networks(checks, server, networks)
    check_delivery(checks, server, networks)
    check_refusals(checks, server, networks)
    check_turn(checks, server)
    check_beacons(checks, server)
    check_pages(checks, server, networks)
    before = server.children()
    check_strangers(checks, server, networks)
    checks.same("processes of strangers", server.children(), before)
    check_windows(checks, server, machine, pictures)
    check_rate(checks, server)


def main(words: Sequence[str]) -> int:
    words_of = reader(__name__, __doc__)
    words_of.add_argument("programs", nargs="?", type=Path, default=TOP / "crates",
                          help="the folder with the built programs; crates/ if it is not given")
    words_of.add_argument("--pictures", type=Path, metavar="FOLDER",
                          help="write pictures of the page in the browser there")
    given = words_of.parse_args(words)
    checks, machine, programs = Checks(), Machine(), Programs(given.programs)
    playground_bounds.check(checks, programs)
    server = Server(programs)
    try:
        check_all(checks, server, machine, given.pictures)
    finally:
        children, status = server.children(), server.stop()
    checks.same("the end", status, 0)
    left = [pid for pid in children if Path(f"/proc/{pid}").exists()]
    checks.same("processes after the end", left, [])
    print(machine.told(f"playground: {checks.count} checks, {checks.wrong} wrong"))
    return 1 if checks.wrong or not checks.count else 0
