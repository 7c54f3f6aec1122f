"""The server of `tools/playground.py` as its page uses it: for playground.py."""
import http.client
import json
import signal
import subprocess
import sys
import time
from collections.abc import Iterable
from pathlib import Path
from typing import Any
from urllib.parse import parse_qs, urlsplit

from gate import TOP, children

SECONDS = 30


def written(do: str, **members: Any) -> str:
    """The line of an event."""
    return json.dumps({"do": do, **members}, separators=(",", ":"))


def turn(packet: int = 0) -> str:
    return written("turn", packet=packet)


class Programs:
    """The folder with the built programs, or with the crates in which they are built."""

    def __init__(self, folder: Path) -> None:
        self.folder = folder

    def path(self, name: str) -> str:
        path = self.folder / name / "out" / name
        return str(path if path.is_file() else self.folder / name)

    def printed(self, name: str, words: list[str], lines: Iterable[str]) -> str:
        """What a program prints over these lines, without the server."""
        given = "".join(f"{it}\n" for it in lines).encode()
        return children.run([self.path(name), *words], given, SECONDS).stdout.decode()


class Server:
    """The server, as its page uses it."""

    def __init__(self, programs: Programs) -> None:
        self.programs, server = programs, str(TOP / "tools" / "playground.py")
        words = [sys.executable, server, "--programs", str(programs.folder)]
        self.process = subprocess.Popen(words, stdout=subprocess.PIPE, text=True)
        assert self.process.stdout
        printed_line = self.process.stdout.readline()
        if not printed_line:
            sys.exit("playground: the server did not start")
        self.address = urlsplit(printed_line.removeprefix("playground: ").strip())
        self.host, self.token = self.address.netloc, parse_qs(self.address.query)["token"][0]

    def ask(self, method: str, path: str, body: bytes | None = None,
            **changed: Any) -> tuple[int, str, Any]:
        """The status and the content of an answer. A header that is changed to None is not sent."""
        headers = {
            "Host": self.host,
            "Origin": f"http://{self.host}",
            "Playground-Token": self.token,
            "Content-Length": None if body is None else str(len(body)),
            **{name.replace("_", "-"): value for name, value in changed.items()},
        }
        connection = http.client.HTTPConnection("127.0.0.1", self.address.port, timeout=SECONDS)
        connection.putrequest(method, path, skip_host=True, skip_accept_encoding=True)
        for name, value in headers.items():
            if value is not None:
                connection.putheader(name, value)
        connection.endheaders(body)
        answer = connection.getresponse()
        found = answer.status, answer.read().decode(), answer.headers
        connection.close()
        return found

    def status(self, method: str, path: str, body: bytes | None = None, **changed: Any) -> int:
        return self.ask(method, path, body, **changed)[0]

    def call(self, name: str, **members: Any) -> tuple[int, Any]:
        """The status and the object of a call, which waits where it came too soon."""
        while True:
            status, text, _ = self.ask("POST", f"/{name}", json.dumps(members).encode())
            if status != 429:
                return status, json.loads(text)
            time.sleep(0.2)

    def children(self) -> list[int]:
        """The processes of `scionet` that the server has."""
        found = []
        for path in Path("/proc").glob("[0-9]*/stat"):
            try:
                name, _, rest = path.read_text().partition("(")[2].rpartition(")")
            except OSError:
                continue
            state, parent = rest.split()[:2]
            if int(parent) == self.process.pid and name == "scionet" and state != "Z":
                found.append(int(path.parent.name))
        return found

    def stop(self) -> int:
        """The status with which it stops."""
        self.process.send_signal(signal.SIGTERM)
        return self.process.wait(SECONDS)


class Page:
    """A page: its id, and its lines, which it holds itself."""

    def __init__(self, server: Server, number: int) -> None:
        self.server, self.id = server, f"{number:016x}"
        self.lines: list[str] = []

    def give(self, *lines: str, at: int | None = None) -> Any:
        """The replies to lines."""
        place = len(self.lines) if at is None else at
        status, answer = self.server.call("run", page=self.id, at=place, lines=lines)
        if status != 200:
            return status
        self.lines = self.lines[:place] + [*lines[: len(answer["replies"])]]
        return answer["replies"]

    def view(self, name: str = "view", **members: Any) -> Any:
        return self.server.call(name, page=self.id, **members)[1].get("text")


class Checks:
    def __init__(self) -> None:
        self.count, self.wrong = 0, 0

    def same(self, what: str, found: Any, wanted: Any) -> None:
        self.count += 1
        if found != wanted:
            self.wrong += 1
            print(f"playground: {what}: {str(found)[:300]!r}, not {str(wanted)[:300]!r}")
