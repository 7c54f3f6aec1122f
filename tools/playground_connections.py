# SPDX-License-Identifier: Apache-2.0
"""Who may ask `playground.py`, how often and how long: requests with its token, each within one
deadline, and strangers only while there is room."""
import contextlib
import io
import secrets
import socket
import threading
import time
from collections import OrderedDict
from http import HTTPStatus

from playground_processes import Refused

# How often requests with the token may come, and how many connections are open at once.
REQUESTS_PER_SECOND, BURST, CONNECTIONS = 50, 200, 32


class Rate:
    """Counts requests: some may come at once, and so many in each second after that."""

    def __init__(self, per_second, burst):
        self.per_second, self.burst, self.lock = per_second, burst, threading.Lock()
        self.left, self.since = float(burst), time.monotonic()

    def take(self):
        """Whether one more may come now."""
        with self.lock:
            now = time.monotonic()
            self.left = min(self.burst, self.left + (now - self.since) * self.per_second)
            self.since = now
            if self.left < 1:
                return False
            self.left -= 1
            return True


class Guard:
    """Says which requests are those of the page."""

    def __init__(self, port):
        self.host, self.token = f"127.0.0.1:{port}", secrets.token_urlsafe(32)
        self.origin, self.rate = f"http://{self.host}", Rate(REQUESTS_PER_SECOND, BURST)

    def address(self):
        return f"{self.origin}/?token={self.token}"

    def check(self, headers, token, has_origin):
        """Refuses a request of another host, origin or token, or one too many."""
        if headers.get_all("Host") != [self.host]:
            raise Refused(HTTPStatus.FORBIDDEN, "the host is not this server")
        origins = headers.get_all("Origin", [])
        if origins != [self.origin] and (origins or has_origin):
            raise Refused(HTTPStatus.FORBIDDEN, "the origin is not this server")
        if not secrets.compare_digest(token.encode(), self.token.encode()):
            raise Refused(HTTPStatus.FORBIDDEN, "the token is not that of this server")
        if not self.rate.take():
            raise Refused(HTTPStatus.TOO_MANY_REQUESTS, "there are too many requests")


class Connections:
    """The connections that are open. If there are too many, a new one takes the place of the oldest
    one that has not shown the token."""

    def __init__(self):
        self.lock, self.strangers, self.users = threading.Lock(), OrderedDict(), set()

    def add(self, connection):
        """Whether the connection has a place."""
        with self.lock:
            if len(self.strangers) + len(self.users) >= CONNECTIONS:
                if not self.strangers:
                    return False
                oldest, _ = self.strangers.popitem(last=False)
                with contextlib.suppress(OSError):
                    oldest.shutdown(socket.SHUT_RDWR)
            self.strangers[connection] = None
            return True

    def know(self, connection):
        """The connection has shown the token, and keeps its place."""
        with self.lock:
            if connection not in self.strangers:
                raise Refused(HTTPStatus.SERVICE_UNAVAILABLE, "the place was given to another")
            del self.strangers[connection]
            self.users.add(connection)

    def remove(self, connection):
        with self.lock:
            self.strangers.pop(connection, None)
            self.users.discard(connection)


class Incoming(io.RawIOBase):
    """What comes by a connection before one deadline, however many parts it has."""

    def __init__(self, connection, seconds):
        super().__init__()
        self.connection, self.until = connection, time.monotonic() + seconds

    def readable(self):
        return True

    def readinto(self, room):
        left = self.until - time.monotonic()
        if left <= 0:
            raise TimeoutError("the request did not come in time")
        self.connection.settimeout(left)
        return self.connection.recv_into(room)
