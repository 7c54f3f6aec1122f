"""Checks for playground.py: the server of `tools/playground.py` ends with all of its processes,
puts them under limits, reads no more of them than its bound, and serves its user however many slow
strangers are connected. A program that does nothing but what a check needs stands for
`scionet_view`."""
import contextlib
import http.client
import os
import re
import signal
import socket
import tempfile
import threading
import time
from collections.abc import Callable
from pathlib import Path
from typing import Any

from gate.playground_server import Checks, Programs, Server
from gate.texts import found

# The word `--now N` says what the stand-in does.
WAITS, PRINTS, TELLS_LIMITS, SPINS = range(4)
STAND_IN = f"""#!/bin/sh
case "$*" in
*"--now {WAITS}") exec sleep 300 ;;
*"--now {PRINTS}") head -c 67108864 /dev/zero; exec sleep 300 ;;
*"--now {TELLS_LIMITS}") ulimit -t; ulimit -v; ulimit -c ;;
*"--now {SPINS}") ulimit -t 1; while :; do :; done ;;
esac
"""

STRANGERS, SERVED_SECONDS, ENDED_SECONDS = 64, 2, 5

# A connection for which the system has no room is tried again after a second.
CONNECTED_SECONDS = 1.5

# The server's deadline for a request, and by when a connection behind it has to be closed.
REQUEST_SECONDS, CLOSED_SECONDS = 10, 15

# The server itself has some 40 MB, and a view that it reads at most 32 MiB, twice for a moment.
MOST_KIB = 200 << 10


def processes_of(server: Server) -> list[int]:
    """The processes that have the server as their parent."""
    path = Path(f"/proc/{server.process.pid}/task")
    texts = (it.read_text() for it in path.glob("*/children"))
    return sorted(int(it) for text in texts for it in text.split())


def wait_until(is_so: Callable[[], object], seconds: float) -> bool:
    """Whether it is so before this time is over."""
    until = time.monotonic() + seconds
    while not is_so():
        if time.monotonic() > until:
            return False
        time.sleep(0.02)
    return True


def is_alive(pid: int) -> bool:
    try:
        return Path(f"/proc/{pid}/stat").read_text().rpartition(")")[2].split()[0] != "Z"
    except OSError:
        return False


def view(server: Server, what: int) -> tuple[int, Any]:
    return server.call("beacons", topology="{}", now=what)


def check_end(checks: Checks, folder: Path, number: signal.Signals) -> None:
    """Two long views and a run leave no process behind a server that gets this signal."""
    server = Server(Programs(folder))
    server.call("run", page=f"{1:016x}", at=0, lines=["{}"])
    threads = [threading.Thread(target=lost, args=(server,)) for _ in range(2)]
    for it in threads:
        it.start()
    has_begun = wait_until(lambda: len(processes_of(server)) == 3, SERVED_SECONDS)
    checks.same(f"a run and two views before {number.name}", has_begun, True)
    left = processes_of(server)
    os.kill(server.process.pid, number)
    server.process.wait(2 * ENDED_SECONDS)
    has_ended = wait_until(lambda: not any(map(is_alive, left)), ENDED_SECONDS)
    checks.same(f"processes end after {number.name}", has_ended, True)
    for pid in filter(is_alive, left):
        os.kill(pid, signal.SIGKILL)  # What a server has left is no burden for other checks.
    for it in threads:
        it.join()


def lost(server: Server) -> None:
    """A view whose server ends before it."""
    with contextlib.suppress(OSError, ValueError, http.client.HTTPException):
        view(server, WAITS)


def check_views(checks: Checks, server: Server) -> None:
    """What a view may take."""
    status, answer = view(server, TELLS_LIMITS)
    limits = answer.get("text", "").split()
    checks.same("the limits of a view", (status, limits), (200, ["10", str(2 << 20), "0"]))
    begun = time.monotonic()
    checks.same("a view that is too large", view(server, PRINTS)[0], 413)
    checks.same("it was not read to its end", time.monotonic() - begun < 8, True)
    checks.same("a view that takes too much processor time", view(server, SPINS)[0], 504)
    checks.same("processes of views", processes_of(server), [])
    memory = Path(f"/proc/{server.process.pid}/status").read_text()
    largest = int(found(r"^VmHWM:\s+(\d+) kB$", memory, re.M)[1])
    checks.same(f"{largest} KiB of memory", largest < MOST_KIB, True)


class Slow:
    """Connections that send a byte now and then, and never a whole request."""

    def __init__(self, server: Server, count: int) -> None:
        self.begun, address = time.monotonic(), ("127.0.0.1", server.address.port or 0)
        self.sockets = [socket.create_connection(address) for _ in range(count)]
        self.seconds: float | None = None
        self.is_over = threading.Event()
        self.thread = threading.Thread(target=self.send)
        self.thread.start()

    def send(self) -> None:
        """Sends until the last connection is closed, and notes how long it was open."""
        last = self.sockets[-1]
        last.settimeout(0.5)
        while not self.is_over.is_set() and self.seconds is None:
            for it in self.sockets:
                with contextlib.suppress(OSError):
                    it.send(b"G")
            with contextlib.suppress(TimeoutError):
                with contextlib.suppress(ConnectionError):
                    last.recv(1 << 16)
                self.seconds = time.monotonic() - self.begun

    def wait(self) -> float | None:
        """How long the last connection was open, if it was closed in time."""
        self.thread.join(max(0, self.begun + CLOSED_SECONDS - time.monotonic()))
        return self.seconds

    def end(self) -> None:
        self.is_over.set()
        self.thread.join()
        for it in self.sockets:
            it.close()


def check_strangers(checks: Checks, server: Server) -> None:
    """Strangers who hold all connections don't keep the user out, nor longer than the deadline."""
    slow = Slow(server, STRANGERS)
    try:
        time.sleep(CONNECTED_SECONDS)
        page = lambda: server.status("GET", f"/?{server.address.query}", Origin=None)
        for what, ask in (("a page", page), ("a view", lambda: view(server, TELLS_LIMITS)[0])):
            begun = time.monotonic()
            status: object
            try:
                status = ask()
            except (OSError, http.client.HTTPException) as error:
                status = error
            checks.same(f"{what} among {STRANGERS} strangers", status, 200)
            seconds = time.monotonic() - begun
            checks.same(f"{what} within 2 seconds", seconds < SERVED_SECONDS, True)
        closed = slow.wait()
        is_closed = closed is not None and closed >= REQUEST_SECONDS - 1
        checks.same(f"a slow connection closed after {closed} s", is_closed, True)
    finally:
        slow.end()


def check(checks: Checks, programs: Programs) -> None:
    with tempfile.TemporaryDirectory() as name:
        folder = Path(name)
        (folder / "scionet").symlink_to(Path(programs.path("scionet")).resolve())
        (folder / "scionet_view").write_text(STAND_IN)
        (folder / "scionet_view").chmod(0o755)
        for number in (signal.SIGTERM, signal.SIGINT, signal.SIGKILL):
            check_end(checks, folder, number)
        server = Server(Programs(folder))
        try:
            check_strangers(checks, server)
            check_views(checks, server)
        finally:
            server.stop()
