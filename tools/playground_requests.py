# SPDX-License-Identifier: Apache-2.0
"""The requests of the page for `playground.py`: each member of one is checked before it is used."""
import re
from http import HTTPStatus

from playground_processes import Refused

# The most lines of a run, and the most bytes of one of them.
LINES, LINE_BYTES = 200_000, 2 << 20

LARGEST_NUMBER = (1 << 32) - 1
KEY_BYTES, PACKET_BYTES, INTERFACES = 64, 4096, 8192

PAGE_NAME = re.compile(r"[0-9a-f]{16,64}")
ADDRESS = re.compile(r"[0-9]{1,5}-[0-9a-fA-F:]{1,14}")
HEX = re.compile(r"(?:[0-9a-fA-F]{2})*")
ANY_TEXT = re.compile(r".*", re.S)
WAY_IN = re.compile(r"host|inside|[0-9]{1,5}")
INTERFACE = re.compile(r"[0-9]{1,5},(?:core|parent|child),[0-9]{1,2},(?:up|down)")


def bad(why):
    return Refused(HTTPStatus.BAD_REQUEST, why)


class Members:
    """The members of a request, each of which is checked as it is taken."""

    def __init__(self, members):
        if not isinstance(members, dict):
            raise bad("a request is an object")
        self.members = members

    def has(self, name):
        return name in self.members

    def number(self, name, largest=LARGEST_NUMBER):
        found = self.members.get(name)
        if type(found) is not int or not 0 <= found <= largest:
            raise bad(f"{name} has to be a number from 0 to {largest}")
        return found

    def text(self, name, form, longest=LINE_BYTES):
        """A text of this form."""
        found = self.members.get(name)
        if not isinstance(found, str) or len(found) > longest or not form.fullmatch(found):
            raise bad(f"{name} does not have its form")
        return found

    def texts(self, name, most):
        found = self.members.get(name)
        if not isinstance(found, list) or not all(isinstance(it, str) for it in found):
            raise bad(f"{name} has to be a list of texts")
        if len(found) > most:
            raise bad(f"{name} has more than {most} texts")
        return found

    def lines(self):
        """The lines, each as bytes without an end."""
        return [line_bytes(text) for text in self.texts("lines", LINES)]


def encoded(text):
    """The bytes of a text, which JSON may have made of half a character."""
    try:
        return text.encode()
    except UnicodeEncodeError as error:
        raise bad("a text is not Unicode") from error


def line_bytes(text):
    """A line that a program is given, without its end."""
    line = encoded(text)
    if b"\n" in line or len(line) > LINE_BYTES:
        raise bad(f"a line has an end in it, or more than {LINE_BYTES} bytes")
    return line


def subject_words(members):
    """The packet or the path of an answer that a view is about."""
    if members.has("packet"):
        return ["--packet", str(members.number("packet"))]
    words = ["--answer", str(members.number("answer"))]
    return [*words, "--path", str(members.number("path"))] if members.has("path") else words


def turn_words(members):
    """The words of a router's turn over a packet."""
    words = ["--ia", members.text("ia", ADDRESS), "--router", str(members.number("router", 63))]
    for name in ("key", "previous"):
        if members.has(name):
            words += [f"--{name}", members.text(name, HEX, 2 * KEY_BYTES)]
    words += ["--now", str(members.number("now")), "--from", members.text("from", WAY_IN)]
    interfaces = members.texts("interfaces", INTERFACES)
    if not all(INTERFACE.fullmatch(it) for it in interfaces):
        raise bad("an interface does not have its form")
    return words + interfaces
