#!/usr/bin/env python3
# SPDX-License-Identifier: Apache-2.0
"""The topology line of `scionet run` from a topology file of SCION's reference implementation.

    topo.py [--seed SEED] [--exp EXP] FILE.topo

The file is YAML: `ASes` maps each address to its members, of which `core` counts; `links` is a list
of maps with the ends `a` and `b` and the kind `linkAtoB`. An end is `1-ff00:0:110-A#1`: the
address, the letters of a border router, and the number of the interface. The routers of an AS are
numbered from 0 in the order in which they stand in the file; an end without letters has a router of
its own. The key of an AS is made from the seed and its address.

Links of the kind PEER are left out, since the network here has none, and members that are not known
are named; both are told on standard error. A file that can't be used is refused there with its
line, what stands in it and what was wanted, and the status is 1. No more than 4 MiB are read, no
more than 200,000 values with those that aliases repeat, and nothing deeper than 16 levels."""
import argparse
import hashlib
import json
import os
import re
import sys
from typing import NamedTuple

try:
    import yaml
except ImportError:
    sys.exit("topo: PyYAML is not here, which reads the file")

ADDRESS = r"[0-9]{1,5}-(?:[0-9]{1,10}|[0-9A-Fa-f]{1,4}(?::[0-9A-Fa-f]{1,4}){2})"
END = re.compile(rf"({ADDRESS})(?:-([A-Za-z0-9]{{1,64}}))?#([0-9]{{1,5}})")

# Members that say nothing of the paths here: certificates, and how routers send packets.
UNUSED_OF_AS = {"authoritative", "cert_issuer", "issuing", "mtu", "underlay", "voting"}
UNUSED_OF_LINK = {"bw", "mtu", "underlay"}

# What is read of a file: its bytes, its values with those that aliases repeat, and their depth.
FILE_BYTES, VALUES, DEPTH = 4 << 20, 200_000, 16

# What a topology may have, and the ranges of its numbers.
ASES, LINKS, ROUTERS = 1024, 4096, 64
LARGEST_ISD, LARGEST_DECIMAL, LARGEST_INTERFACE, LARGEST_EXP = 65535, (1 << 32) - 1, 65535, 255

KEY_LEN = 16

# Words of YAML.
NOTHING = {"", "~", "null", "Null", "NULL"}
YES = {form for word in ("true", "yes", "on") for form in (word, word.title(), word.upper())}
NO = {form for word in ("false", "no", "off") for form in (word, word.title(), word.upper())}

ADDRESS_WANTED = "wanted an address such as 1-ff00:0:110"
END_WANTED = "wanted an end such as 1-ff00:0:110-A#1, with an interface from 1 to 65535"
KIND_WANTED = "wanted CORE, CHILD, PARENT or PEER"


class Unusable(Exception):
    """Why a file gives no topology, and the line, from 1, if it is known."""

    def __init__(self, line, why):
        super().__init__(why)
        self.line = line


def shown(text):
    """A text of the file, short and in printable signs."""
    return ascii(text if len(text) <= 60 else f"{text[:57]}...")[1:-1]


class Value(NamedTuple):
    """A value of a file: a text, a list of values, or a dict of members. Its size is how many
    values it has, with those of aliases; a text is plain if it has no quotes."""

    line: int
    content: object
    size: int = 1
    is_plain: bool = False

    def is_text(self, words):
        return self.is_plain and self.content in words

    def of(self, kind, what, name):
        """The content, which has to be of this kind, or an empty one where nothing stands."""
        if self.is_text(NOTHING):
            return kind()
        if not isinstance(self.content, kind):
            raise Unusable(self.line, f"{what} is no {name}; wanted a {name}")
        return self.content

    def text(self):
        return self.content if isinstance(self.content, str) else "no text"


class Member(NamedTuple):
    """A member of a map, and the line of its name."""

    line: int
    value: Value


class Reader:
    """The value of a YAML file. No code is run, and no value is made twice: an alias is the value
    of its anchor, and is counted as often as it stands."""

    def __init__(self, content):
        loader = getattr(yaml, "CSafeLoader", yaml.SafeLoader)
        self.events, self.anchors, self.line = yaml.parse(content, Loader=loader), {}, 1

    def read(self):
        try:
            return self.document()
        except (ValueError, OverflowError) as error:
            # Without its part in C, PyYAML takes the code of a sign or a version as it stands.
            raise Unusable(self.line, "a number is out of its range; wanted YAML") from error

    def document(self):
        found = None
        for event in self.events:
            if isinstance(event, yaml.DocumentStartEvent):
                if found:
                    raise Unusable(line_of(event), "a second document begins; wanted one")
                found = self.value(next(self.events), 1)
        return found or Value(1, {})

    def value(self, event, depth):
        """The value that begins with this event."""
        line = self.line = line_of(event)
        if isinstance(event, yaml.AliasEvent):
            if not self.anchors.get(event.anchor):
                why = f"no value before it has the anchor {shown(event.anchor)}"
                raise Unusable(line, f"{why}; wanted one that has ended")
            return self.anchors[event.anchor]
        if depth > DEPTH:
            raise Unusable(line, f"a value is too deep; wanted at most {DEPTH} levels")
        if event.tag not in (None, "!"):
            raise Unusable(line, f"there is the tag {shown(event.tag)}; wanted none")
        if event.anchor:
            self.anchors[event.anchor] = None  # An alias within its own value has no meaning.
        if isinstance(event, yaml.ScalarEvent):
            found = Value(line, event.value, is_plain=event.implicit[0])
        elif isinstance(event, yaml.SequenceStartEvent):
            found = self.sequence(line, depth)
        else:
            found = self.mapping(line, depth)
        if event.anchor:
            self.anchors[event.anchor] = found
        return found

    def until(self, kind):
        """The events up to the one of this kind at which a list or a map ends."""
        return iter(lambda: self.next_unless(kind), None)

    def next_unless(self, kind):
        event = next(self.events)
        return None if isinstance(event, kind) else event

    def sequence(self, line, depth):
        found, size = [], 1
        for event in self.until(yaml.SequenceEndEvent):
            found.append(self.value(event, depth + 1))
            size = within(size + found[-1].size, line_of(event))
        return Value(line, found, size)

    def mapping(self, line, depth):
        found, merged, size = {}, [], 1
        for event in self.until(yaml.MappingEndEvent):
            at = line_of(event)
            name = self.value(event, depth + 1)
            value = self.value(next(self.events), depth + 1)
            size = within(size + name.size + value.size, at)
            if name.is_text({"<<"}):
                merged += self.merged(at, value)
            elif not isinstance(name.content, str):
                raise Unusable(at, "the name of a member is a list or a map; wanted a text")
            elif name.content in found:
                raise Unusable(at, f"{shown(name.content)} is given twice; wanted it once")
            else:
                found[name.content] = Member(at, value)
        for members in merged:
            found = {**members, **found}
        return Value(line, found, size)

    @staticmethod
    def merged(line, value):
        """The members of the maps that `<<` names."""
        maps = value.content if isinstance(value.content, list) else [value]
        if not all(isinstance(it.content, dict) for it in maps):
            raise Unusable(line, "the member << is no map; wanted a map or a list of maps")
        return [it.content for it in maps]


def within(size, line):
    if size > VALUES:
        raise Unusable(line, f"there are too many values; wanted at most {VALUES} with aliases")
    return size


def line_of(event):
    return event.start_mark.line + 1


def number_of(ia):
    """An address as its ISD and AS number, or None if one of them is 0 or out of its range."""
    isd, _, low = ia.partition("-")
    isd = int(isd)
    if ":" in low:
        number = int("".join(it.rjust(4, "0") for it in low.split(":")), 16)
    else:
        number = int(low) if int(low) <= LARGEST_DECIMAL else 0
    return (isd, number) if 0 < isd <= LARGEST_ISD and number else None


class As:
    """An AS of a file, and the number of each of its routers."""

    def __init__(self, ia, is_core):
        self.ia, self.is_core, self.routers, self.interfaces = ia, is_core, {}, set()


class Topology:
    """What a file says, as a topology of `scionet run`."""

    def __init__(self, data, seed, exp, warn):
        self.seed, self.exp, self.warn = seed, exp, warn
        self.ases, self.links = {}, []
        members = data.of(dict, "the file", "map")
        self.name_unknown(members, {"ASes", "links"}, "")
        none = Member(data.line, Value(data.line, "", is_plain=True))
        self.add_ases(*members.get("ASes", none))
        self.add_links(*members.get("links", none))

    def add_ases(self, line, value):
        ases = value.of(dict, "ASes", "map")
        if not 0 < len(ases) <= ASES:
            raise Unusable(line, f"ASes has {len(ases)} members; wanted 1 to {ASES}")
        for ia, (at, members) in ases.items():
            self.add_as(at, ia, members)

    def add_links(self, line, value):
        links = value.of(list, "links", "list")
        if len(links) > LINKS:
            raise Unusable(line, f"links has {len(links)} members; wanted at most {LINKS}")
        for place, link in enumerate(links):
            where = f"links[{place}]"
            self.add_link(where, link.line, link.of(dict, where, "map"))

    def name_unknown(self, members, known, of):
        for name in sorted(members.keys() - known):
            self.warn(members[name].line, f"the member {shown(name)}{of} is not known")

    def add_as(self, line, ia, value):
        number = number_of(ia) if re.fullmatch(ADDRESS, ia) else None
        if not number:
            raise Unusable(line, f"{shown(ia)} is no address of an AS; {ADDRESS_WANTED}")
        if number in self.ases:
            known = self.ases[number].ia
            raise Unusable(line, f"{ia} is given twice, first as {known}; wanted it once")
        members = value.of(dict, f"ASes[{ia}]", "map")
        self.name_unknown(members, UNUSED_OF_AS | {"core"}, f" of {ia}")
        at, core = members.get("core", Member(line, Value(line, "no", is_plain=True)))
        if not core.is_text(YES | NO):
            found = shown(core.text()) if core.is_plain else "no plain word"
            raise Unusable(at, f"core of {ia} is {found}; wanted true or false")
        self.ases[number] = As(ia, core.is_text(YES))

    def end(self, where, members, side, line):
        """The number of an end's AS, and the end, whose router has a number from now on."""
        at, value = members.get(side, Member(line, Value(line, [])))
        where, text = f"{where}.{side}", value.text() if side in members else "missing"
        found = END.fullmatch(text)
        number, interface = (number_of(found[1]), int(found[3])) if found else (None, 0)
        if not number or not 0 < interface <= LARGEST_INTERFACE:
            raise Unusable(at, f"{where} is {shown(text)}; {END_WANTED}")
        if number not in self.ases:
            raise Unusable(at, f"{where} is {text}; wanted an AS that stands in ASes")
        own = self.ases[number]
        if interface in own.interfaces:
            raise Unusable(at, f"{where} is {text}; wanted an interface without another link")
        own.interfaces.add(interface)
        router = own.routers.setdefault(found[2] or (interface,), len(own.routers))
        if router >= ROUTERS:
            raise Unusable(at, f"{where} is {text}; wanted at most {ROUTERS} routers in an AS")
        return number, {"ia": own.ia, "if": interface, "router": router}

    def add_link(self, where, line, link):
        self.name_unknown(link, UNUSED_OF_LINK | {"a", "b", "linkAtoB"}, f" of {where}")
        at, value = link.get("linkAtoB", Member(line, Value(line, "missing")))
        kind = value.text().upper()
        if kind == "PEER":
            one, other = (shown(link[it].value.text()) if it in link else "none" for it in "ab")
            self.warn(at, f"{where}, {one} to {other}, is a peering link and left out")
            return
        if kind not in ("CORE", "CHILD", "PARENT"):
            raise Unusable(at, f"{where}.linkAtoB is {shown(value.text())}; {KIND_WANTED}")
        ends = [self.end(where, link, it, line) for it in "ab"]
        if kind == "PARENT":
            ends.reverse()
        self.check_kind(where, at, "core" if kind == "CORE" else "child", *(it[0] for it in ends))
        one, other = (end for _, end in ends)
        self.links.append({"kind": "core" if kind == "CORE" else "child", "a": one, "b": other})

    def check_kind(self, where, line, kind, above, below):
        """Refuses a link that ASes like these may not have."""
        cores = [self.ases[it].is_core for it in (above, below)]
        if above == below:
            wanted = "wanted ends in two ASes"
        elif kind == "core" and not all(cores):
            wanted = "wanted two core ASes for a core link"
        elif kind == "child" and above[0] != below[0]:
            wanted = "wanted one ISD for parent and child"
        elif kind == "child" and cores[1]:
            wanted = "wanted a child that is no core AS"
        else:
            return
        names = " and ".join(self.ases[it].ia for it in (above, below))
        raise Unusable(line, f"{where} joins {names}; {wanted}")

    def key(self, ia):
        return hashlib.sha256(self.seed + f" {ia}".encode()).hexdigest()[: 2 * KEY_LEN]

    def line(self):
        ases = [
            {
                "ia": it.ia,
                "core": it.is_core,
                "exp": self.exp,
                "key": self.key(it.ia),
                "routers": max(1, len(it.routers)),
            }
            for it in self.ases.values()
        ]
        return json.dumps({"ases": ases, "links": self.links}, separators=(",", ":"))


def expiry(text):
    """The number of `--exp`."""
    if not re.fullmatch("[0-9]{1,3}", text) or int(text) > LARGEST_EXP:
        raise argparse.ArgumentTypeError(f"wanted a number from 0 to {LARGEST_EXP}")
    return int(text)


def text_of(path):
    """The text of a file."""
    with open(path, "rb") as it:
        found = it.read(FILE_BYTES + 1)
    if len(found) > FILE_BYTES:
        raise Unusable(None, f"the file is too large; wanted at most {FILE_BYTES} bytes")
    try:
        text = found.decode()
    except UnicodeDecodeError as error:
        line = found.count(b"\n", 0, error.start) + 1
        raise Unusable(line, "there is a byte that is not UTF-8; wanted UTF-8") from error
    odd = yaml.reader.Reader.NON_PRINTABLE.search(text)
    if odd:
        line = text.count("\n", 0, odd.start()) + 1
        raise Unusable(line, f"there is the sign {shown(odd[0])}; wanted printable signs")
    return text


def converted(path, seed, exp):
    """The topology line of a file; what is left out is told on standard error."""
    def warn(line, text):
        print(f"topo: {path}:{line}: {text}", file=sys.stderr)

    return Topology(Reader(text_of(path)).read(), seed, exp, warn).line()


def fault(error):
    """The line of a fault, if it is known, and what it is."""
    if isinstance(error, Unusable):
        return error.line, str(error)
    if isinstance(error, yaml.MarkedYAMLError):
        mark = error.problem_mark or error.context_mark
        why = ", ".join(it for it in (error.context, error.problem) if it)
        return mark and mark.line + 1, f"{shown(why)}; wanted YAML"
    if isinstance(error, OSError):
        return None, error.strerror or str(error)
    return None, f"{shown(' '.join(str(error).split()))}; wanted YAML"


def main():
    parser = argparse.ArgumentParser(description=__doc__.split("\n\n", maxsplit=1)[0])
    parser.add_argument("--seed", default="0", help="what the keys are made from (0)")
    parser.add_argument("--exp", type=expiry, default=63, help="the expiry of hops, 0 to 255 (63)")
    parser.add_argument("file")
    words = parser.parse_args()
    try:
        line = converted(words.file, os.fsencode(words.seed), words.exp)
    except (OSError, yaml.YAMLError, Unusable) as error:
        line, why = fault(error)
        place = f"{words.file}:{line}" if line else words.file
        sys.exit(f"topo: {place}: {why}")
    try:
        print(line, flush=True)
    except OSError as error:
        sys.exit(f"topo: the line was not written: {error.strerror}")


if __name__ == "__main__":
    main()
