#!/usr/bin/env python3
# SPDX-License-Identifier: Apache-2.0
"""A page to play with a SCION network, served to this machine alone.

    playground.py [--open] [--programs DIR]

The page (`playground.html`) draws a network, makes its lines and shows the replies. Each line is
answered by `scionet run`, of which every open page has a process of its own; what a packet or a
path consists of is printed by `scionet_view`. Nothing here knows what a network does.

The server prints its address, which has a token that is made at the start. A request without the
token, for another host, from another origin, too large or too soon is refused, so that no other
site can use the server through the browser. Each process that it starts has limits of processor
time and memory, and ends with it: at an interrupt, at SIGTERM, and also if it is killed."""
import argparse
import base64
import hashlib
import http.server
import io
import json
import re
import signal
import subprocess
import sys
import threading
import urllib.parse
import webbrowser
from collections import OrderedDict
from http import HTTPStatus
from pathlib import Path

sys.dont_write_bytecode = True

from playground_connections import Connections, Guard, Incoming  # noqa: E402
from playground_processes import VIEW_SECONDS, Processes, Refused  # noqa: E402
from playground_requests import (  # noqa: E402
    ANY_TEXT, HEX, LINES, PACKET_BYTES, PAGE_NAME, Members, bad, encoded, subject_words, turn_words,
)

ROOT = Path(__file__).resolve().parent.parent
PAGE = Path(__file__).resolve().with_suffix(".html")

# What the page says of the program, and what it says if its `--version` calls it unproved.
PROVED = "of the proved program <code>scionet run</code>"
UNPROVED = "of <code>scionet run</code>, built here <b>without a proof</b>"

# How long a request may be.
BODY_BYTES = 8 << 20

# What a run may have, and how many runs there are. `scionet run` reads at most 64 MiB.
RUN_BYTES, CHILDREN = 32 << 20, 8

# How long a request may wait for a run, how many views are made at once, and the seconds of
# processor time that a run may have.
REPLY_SECONDS, VIEWS, RUN_PROCESSOR = 20, 2, 600

# How many connections wait to be opened, how long a whole request may take to come, and how long
# its answer may take to go.
WAITING, REQUEST_SECONDS, ANSWER_SECONDS = 128, 10, 10


class Programs:
    """Where the two programs are: in a folder, or in the folders of their crates there."""

    def __init__(self, folder):
        self.run, self.view = (self.find(folder, name) for name in ("scionet", "scionet_view"))

    @staticmethod
    def find(folder, name):
        for path in (folder / name / "out" / name, folder / name):
            if path.is_file():
                return str(path.resolve())
        raise FileNotFoundError(f"{folder} has no program {name}: README.md says how to build it")

    def is_proved(self):
        """Whether the program does not say of itself that it is unproved."""
        pipe = subprocess.PIPE
        done = subprocess.run([self.run, "--version"], stdout=pipe, stderr=pipe, timeout=10)
        return b"unproved" not in done.stdout + done.stderr


class Child:
    """A process of `scionet run`, which answers each line by a line before it reads on."""

    def __init__(self, processes, program):
        self.processes, pipe = processes, subprocess.PIPE
        pipes = {"stdin": pipe, "stdout": pipe, "stderr": subprocess.DEVNULL}
        self.process = processes.start([program, "run"], RUN_PROCESSOR, **pipes)

    def answers(self, lines):
        """The replies to these lines: fewer if the process ends, as it does when time is up."""
        replies = []
        watch = threading.Timer(REPLY_SECONDS, self.process.kill)
        watch.start()
        try:
            for line in lines:
                self.process.stdin.write(line + b"\n")
                self.process.stdin.flush()
                reply = self.process.stdout.readline()
                if not reply.endswith(b"\n"):
                    break
                replies.append(reply[:-1].decode())
        except (OSError, ValueError):
            pass  # The process has ended, or was ended for another page.
        finally:
            watch.cancel()
        return replies

    def end(self):
        self.processes.end(self.process)


class Run:
    """The process of a page, and the lines that it has answered."""

    def __init__(self, processes, program):
        self.child, self.lock = Child(processes, program), threading.Lock()
        self.lines, self.size = [], 0

    def answers(self, place, lines):
        """The replies to lines, the first of which is that of this number."""
        with self.lock:
            if place != len(self.lines):
                raise Refused(HTTPStatus.CONFLICT, f"the run has {len(self.lines)} lines")
            size = self.size + sum(len(line) + 1 for line in lines)
            if len(self.lines) + len(lines) > LINES or size > RUN_BYTES:
                raise Refused(
                    HTTPStatus.REQUEST_ENTITY_TOO_LARGE,
                    f"a run has at most {LINES} lines and {RUN_BYTES} bytes",
                )
            replies = self.child.answers(lines)
            self.lines += lines[: len(replies)]
            self.size = size
            return replies

    def text(self):
        """The lines so far, as a program takes them."""
        with self.lock:
            return b"".join(line + b"\n" for line in self.lines)


class Runs:
    """The runs of the open pages. When there are too many, the one used longest ago is ended."""

    def __init__(self, processes, program):
        self.processes, self.program = processes, program
        self.lock, self.runs = threading.Lock(), OrderedDict()

    def begin(self, page):
        """A new run of this page, in place of the one that it has."""
        with self.lock:
            self.drop(page)
            while len(self.runs) >= CHILDREN:
                self.drop(next(iter(self.runs)))
            self.runs[page] = Run(self.processes, self.program)
            return self.runs[page]

    def of(self, page):
        with self.lock:
            if page not in self.runs:
                raise Refused(HTTPStatus.GONE, "this page has no run")
            self.runs.move_to_end(page)
            return self.runs[page]

    def end(self, page):
        with self.lock:
            self.drop(page)

    def drop(self, page):
        """Ends the run of this page, if it has one. The lock is held."""
        run = self.runs.pop(page, None)
        if run:
            run.child.end()


class Viewer:
    """Runs `scionet_view`, a few processes at a time, each for some seconds."""

    def __init__(self, processes, program):
        self.processes, self.program = processes, program
        self.places = threading.BoundedSemaphore(VIEWS)

    def view(self, words, given):
        """What the program prints, and its status."""
        if not self.places.acquire(timeout=VIEW_SECONDS):
            raise Refused(HTTPStatus.SERVICE_UNAVAILABLE, "other views are being made")
        try:
            return self.processes.output([self.program, *words], given)
        finally:
            self.places.release()


class Networks:
    """The networks of `examples/`: lines for `scionet run`, the first of which is a topology."""

    def __init__(self, processes, root):
        self.processes = processes
        self.examples, self.reader = root / "examples", root / "tools" / "topo.py"

    def all(self):
        """Each network's lines, or why there are none."""
        found = {it.stem: {"lines": it.read_text().splitlines()} for it in self.files("*.txt")}
        return found | {it.stem: self.read(it) for it in self.files("*.topo")}

    def files(self, pattern):
        return sorted(self.examples.glob(pattern))

    def read(self, path):
        """The topology in a file of the reference implementation."""
        words = [sys.executable, str(self.reader), str(path)]
        try:
            done = self.processes.output(words, b"")
        except Refused as refused:
            return {"fault": str(refused)}
        if done["status"]:
            return {"fault": (done["fault"].splitlines() or ["topo.py failed"])[-1]}
        return {"lines": done["text"].splitlines()}


class Refusals:
    """The names and meanings in `docs/refusals.md`, by number."""

    SECTION = re.compile(r"^## ", re.M)
    ROW = re.compile(r"^\| (\d+) \| (\w+) \| (.*) \|$", re.M)

    def __init__(self, path):
        self.text = path.read_text()

    def all(self):
        """A number that several sections have has the meaning that its lines have in a run."""
        found = {}
        for section in sorted(self.SECTION.split(self.text), key=lambda it: "Lines:" in it):
            for number, name, meaning in self.ROW.findall(section):
                found[int(number)] = {"name": name, "meaning": meaning}
        return found


class Playground:
    """What the page may ask for: each call takes the members of a request and returns an object."""

    def __init__(self, processes, programs, root):
        self.processes = processes
        self.runs, self.viewer = Runs(processes, programs.run), Viewer(processes, programs.view)
        self.networks = Networks(processes, root).all()
        self.refusals = Refusals(root / "docs" / "refusals.md").all()
        self.calls = {
            "start": self.start,
            "run": self.run,
            "end": self.end,
            "view": self.view,
            "turn": self.turn,
            "beacons": self.beacons,
        }

    def start(self, _):
        """What the page needs before it begins."""
        return {"networks": self.networks, "refusals": self.refusals}

    def run(self, members):
        """The replies to lines. With `at` 0 they are the first lines of a new process."""
        page, at, lines = members.text("page", PAGE_NAME), members.number("at"), members.lines()
        run = self.runs.of(page) if at else self.runs.begin(page)
        replies = run.answers(at, lines)
        return {"replies": replies, "ended": len(replies) < len(lines)}

    def end(self, members):
        self.runs.end(members.text("page", PAGE_NAME))
        return {}

    def view(self, members):
        """What a packet or a path of an answer consists of, after the lines so far."""
        words = ["path", *subject_words(members)]
        return self.viewer.view(words, self.runs.of(members.text("page", PAGE_NAME)).text())

    def turn(self, members):
        """The fields of a packet, and what a router checks in a turn over it."""
        packet = members.text("bytes", HEX, 2 * PACKET_BYTES)
        return self.viewer.view(["packet", *turn_words(members)], packet.encode())

    def beacons(self, members):
        """The lines of a complete beaconing of a topology."""
        words = ["beacons"]
        for name in ("per-pair", "core-length", "now"):
            if members.has(name):
                words += [f"--{name}", str(members.number(name))]
        return self.viewer.view(words, encoded(members.text("topology", ANY_TEXT)))


class Document:
    """The page, and the policy by which a browser loads nothing else and runs no other script."""

    def __init__(self, path, is_proved=True):
        text = path.read_text() if is_proved else path.read_text().replace(PROVED, UNPROVED)
        self.bytes = text.encode()
        script, style = (self.digest(text, name) for name in ("script", "style"))
        self.policy = (
            f"default-src 'none'; script-src {script}; style-src {style}; connect-src 'self'; "
            "base-uri 'none'; form-action 'none'; frame-ancestors 'none'"
        )

    @staticmethod
    def digest(text, name):
        """The digest of the page's one element of this name, as a policy names it."""
        inner = re.search(f"<{name}>(.*?)</{name}>", text, re.S)[1]
        return f"'sha256-{base64.b64encode(hashlib.sha256(inner.encode()).digest()).decode()}'"


class Handler(http.server.BaseHTTPRequestHandler):
    """One request. The page comes by GET, and everything else by POST, as JSON."""

    server_version, sys_version = "playground", ""

    def setup(self):
        super().setup()
        self.rfile = io.BufferedReader(Incoming(self.connection, REQUEST_SECONDS))

    def do_GET(self):
        self.answer(self.page)

    def do_POST(self):
        self.answer(self.call)

    def answer(self, make):
        try:
            status, kind, content = HTTPStatus.OK, *make()
        except Refused as refused:
            status, kind = refused.status, "application/json"
            content = json.dumps({"error": str(refused)}).encode()
        self.connection.settimeout(ANSWER_SECONDS)
        self.send_response(status)
        for name, value in (
            ("Content-Type", kind),
            ("Content-Length", str(len(content))),
            ("Content-Security-Policy", self.server.document.policy),
            ("Cache-Control", "no-store"),
            ("Referrer-Policy", "same-origin"),
            ("X-Content-Type-Options", "nosniff"),
        ):
            self.send_header(name, value)
        self.end_headers()
        self.wfile.write(content)

    def check(self, token, has_origin):
        """Refuses what does not come from the page; what does keeps its connection."""
        self.server.guard.check(self.headers, token, has_origin)
        self.server.connections.know(self.connection)

    def page(self):
        path, _, query = self.path.partition("?")
        token = urllib.parse.parse_qs(query).get("token", [""])[0]
        self.check(token, False)
        if path != "/":
            raise Refused(HTTPStatus.NOT_FOUND, "there is no such page")
        return "text/html; charset=utf-8", self.server.document.bytes

    def call(self):
        self.check(self.headers.get("Playground-Token", ""), True)
        call = self.server.playground.calls.get(self.path.removeprefix("/"))
        if not call:
            raise Refused(HTTPStatus.NOT_FOUND, "there is no such call")
        try:
            answer = call(Members(self.body()))
        except OSError as error:
            why = f"a program was not started: {error}"
            raise Refused(HTTPStatus.INTERNAL_SERVER_ERROR, why) from error
        return "application/json", json.dumps(answer).encode()

    def body(self):
        """The value in the request's body."""
        length = self.headers.get("Content-Length", "")
        if "Transfer-Encoding" in self.headers or not re.fullmatch("[0-9]{1,9}", length):
            raise Refused(HTTPStatus.LENGTH_REQUIRED, "a request has to have its length")
        if int(length) > BODY_BYTES:
            raise Refused(
                HTTPStatus.REQUEST_ENTITY_TOO_LARGE, f"a request has at most {BODY_BYTES} bytes"
            )
        try:
            return json.loads(self.rfile.read(int(length)))
        except (ValueError, RecursionError) as error:
            raise bad("a request has to be JSON") from error
        except OSError as error:
            raise Refused(HTTPStatus.REQUEST_TIMEOUT, "the request did not come") from error

    def log_message(self, *_):
        """Requests are not logged: their addresses have the token."""


class Server(http.server.ThreadingHTTPServer):
    """Serves a playground at the loopback address, by a free port, with a few threads at a time."""

    daemon_threads, request_queue_size = True, WAITING

    def __init__(self, playground, document):
        super().__init__(("127.0.0.1", 0), Handler)
        self.playground, self.document = playground, document
        self.guard = Guard(self.server_port)
        self.connections = Connections()

    def process_request(self, request, client_address):
        if self.connections.add(request):
            super().process_request(request, client_address)
        else:
            self.shutdown_request(request)

    def process_request_thread(self, request, client_address):
        try:
            super().process_request_thread(request, client_address)
        finally:
            self.connections.remove(request)

    def handle_error(self, request, client_address):
        """A browser that goes away is no fault."""
        if not isinstance(sys.exc_info()[1], OSError):
            super().handle_error(request, client_address)

    def server_close(self):
        super().server_close()
        self.playground.processes.close()


def serve(playground, document, is_opened):
    """Serves a playground with this page until an interrupt."""
    with Server(playground, document) as server:
        print(f"playground: {server.guard.address()}", flush=True)
        if is_opened:
            webbrowser.open(server.guard.address())
        server.serve_forever()


def main():
    parser = argparse.ArgumentParser(description=__doc__.split("\n\n", maxsplit=1)[0])
    parser.add_argument("--open", action="store_true", help="open the page in the browser")
    parser.add_argument(
        "--programs", type=Path, default=ROOT / "crates", help="where the built programs are"
    )
    words = parser.parse_args()
    signal.signal(signal.SIGTERM, signal.default_int_handler)
    processes = Processes()
    try:
        programs = Programs(words.programs)
        document = Document(PAGE, programs.is_proved())
        serve(Playground(processes, programs, ROOT), document, words.open)
    except OSError as error:
        sys.exit(f"playground: {error}")
    except KeyboardInterrupt:
        pass
    finally:
        processes.close()


if __name__ == "__main__":
    main()
