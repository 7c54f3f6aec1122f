"""Prints the book: the definitions that the headline cites, from the top for the first hour, the
rest by crate, and then how the headline is a clause of the calls that run networks. The first part
is docs/book.md; `python3 .ci/gate pages` makes a page of the whole."""
import re
import sys
import textwrap
from collections.abc import Iterator, Sequence
from pathlib import Path
from typing import Any

from gate.book_texts import (
    ALL_PARTS, FIRST_HOUR, FIRST_PART, FRONT, LIBRARY, MOST_OUTSIDE, OF_CALLS, OUTSIDE,
)
from gate.printing import filled, settle
from gate.specs import WORD, Definition, Module, Specs

MOST_IN_FIRST_HOUR = 520
ROOT = "network_core/Ran.Ran"

# The types of refusals that part 0 names: docs/refusals.md lists what each says.
REFUSALS = re.compile(r"(?:Event|Verify|Option|Topology|Header)Fault|Refusal")

# How values of the code are seen in clauses.
VIEWS = (
    ("network_core", "net", "Net"), ("network_core", "packet", "Packet"),
    ("network_core", "sent", "Sent"), ("forwarding", "in_flight", "PacketInFlight"),
    ("scion_topology", "topology", "Topology"),
)
VIEW = r"^impl Model for NAME \{\n(?:.*\n)*?    ghost view = ((?:.*\n)*?.*\};)$"

# The calls that have the theorem as a clause, and what their contracts speak of: items of the code.
CALLS = (
    ("network_core", "running", "Stopped run"),
    ("streams", "stream", "Source Sink"),
    ("event_lines", "run", "run_lines"),
)


# The crates of a part: the name of one, its types, and its files with their definitions.
Page = tuple[str, list[Definition], list[tuple[Module, list[Definition]]]]


class Book:
    """The definitions of the parts, and the text: those of the first hour, its words, the rest of
    the theorem, and what the calls cite beside it."""

    def __init__(self, top: Path) -> None:
        self.specs = Specs(top)
        self.first = [self.specs.definition(it) for _, rows in FIRST_HOUR for it, _ in rows]
        self.outside = {self.specs.definition(it).key: said for it, said in OUTSIDE}
        self.calls = [
            self.specs.item(crate, file, name)
            for crate, file, names in CALLS
            for name in names.split()
        ]
        theorem = self.specs.closure([self.specs.definition(ROOT)])
        everything = self.specs.closure([*theorem, *self.first, *self.calls])
        own = {it.key for it in [*self.first, *theorem]}
        taken = {it.key for it in [*self.first, *self.calls]}
        self.words_of_first = self.reached()
        near = taken | {it.key for it in self.words_of_first}
        self.parts = (
            self.first,
            self.words_of_first,
            [it for it in theorem if it.key not in near],
            [it for it in everything if it.key not in own | near],
        )
        self.printed = [it for part in self.parts for it in part] + self.calls
        self.library = {word for it in self.printed for word in self.specs.library(it)}
        self.signs = self.signs_in(self.printed)
        self.types = {it.key[2]: it for it in self.printed if it.variants or not it.key[1]}
        self.here = {it.anchor for it in self.printed}
        self.shared, self.paired = self.shared_constructors()

    def is_left_out(self, one: Definition) -> bool:
        """Whether part 0 does not have this: a sentence or another page says what it is."""
        is_refusal = not one.key[1] and REFUSALS.fullmatch(one.key[2]) is not None
        return is_refusal or one.key in self.outside

    def reached(self) -> list[Definition]:
        """What the definitions of the first hour cite, and what these do, but for what is left
        out."""
        first, found = {it.key for it in self.first}, dict[tuple[str, str, str], Definition]()
        todo = [*self.first]
        while todo:
            for _, it in self.specs.cited(todo.pop()):
                if it.key not in first and it.key not in found and not self.is_left_out(it):
                    found[it.key] = it
                    todo.append(it)
        return [*found.values()]

    def shared_constructors(self) -> tuple[set[str], set[str]]:
        """The constructors that several types have, where a type of the code and its value are
        one; and the names of such pairs of types."""
        types: dict[str, set[tuple[str, str]]] = {}
        pairs: dict[tuple[str, str], set[str]] = {}
        for it in self.printed:
            stem = it.key[0], it.key[2].removesuffix("Value")
            if it.variants:
                pairs.setdefault(stem, set()).add(it.key[2])
            for name in it.variants:
                types.setdefault(name, set()).add(stem)
        shared = {name for name, own in types.items() if len(own) > 1 or name in self.library}
        return shared, {name for own in pairs.values() if len(own) > 1 for name in own}

    def shown(self, one: Definition, word: str) -> str:
        """A word of a definition as it is printed: some constructors with their type."""
        found = self.specs.constructor(one, word)
        if found is None:
            return word
        type_name, name = found
        of_pair = "." in word and type_name in self.paired
        return f"{type_name}.{name}" if of_pair or name in self.shared else name

    def text_of(self, one: Definition) -> list[str]:
        """The lines of a definition as they are printed."""
        if one.is_data or not one.key[1]:
            return [*one.comment, *one.lines]
        lines = []
        for line in one.lines:
            said, mark, comment = line.partition(" -- ")
            said = WORD.sub(lambda it: self.word_in(one, it[0]), said)
            lines.append(said + mark + comment)
        return [*one.comment, *lines]

    def word_in(self, one: Definition, word: str) -> str:
        """A word with its fields, as it is printed."""
        first, dot, rest = word.partition(".")
        if first in one.names.aliases and dot:
            return self.shown(one, word)
        return self.shown(one, first) + dot + rest

    def cited(self, one: Definition) -> list[tuple[str, Definition]]:
        """What a definition cites, by the word: in a type of the code, the other types."""
        if one.key[1] or one.names.imported:
            return self.specs.cited(one)
        words = re.findall(r"[(:<&,\[] *(\w+)", one.said)
        return [(it, self.types[it]) for it in words if it in self.types and it != one.key[2]]

    def links(self, group: Sequence[Definition]) -> str:
        """The words that these definitions cite, each a link to where it is defined."""
        found: dict[str, dict[str, None]] = {}
        own = {it.anchor for it in group}
        for one in group:
            for word, it in self.cited(one):
                words = found.setdefault(it.anchor, {})
                words[f"`{self.shown(one, word).replace('◌', '')}`"] = None
        pairs = [(" ".join(words), it) for it, words in found.items() if it not in own]
        return ", ".join(f"[{words}]({self.place(anchor)})" for words, anchor in pairs)

    def place(self, anchor: str) -> str:
        """Where a definition is: on the page, or where the page of the first hour leaves it."""
        name = anchor.rpartition("-")[2]
        is_elsewhere = anchor not in self.here and REFUSALS.fullmatch(name)
        return f"refusals.md#{anchor.lower()}" if is_elsewhere else f"#{anchor}"

    def entry(self, *group: Definition) -> Iterator[str]:
        """Definitions that stand together, with their anchors and their links."""
        anchors = "".join(f'<a id="{it.anchor}"></a>' for it in group)
        names = ", ".join(f"`{it.key[2].replace('◌', '')}`" for it in group)
        links = self.links(group)
        cite = "cites" if len(group) == 1 else "cite"
        yield f"{anchors}**{names}**" + (f" {cite} {links}" if links else "")
        yield "```" if group[0].key[1] else "```rust"
        yield "\n\n".join("\n".join(self.text_of(it)) for it in group)
        yield "```\n"

    def first_hour(self) -> Iterator[str]:
        yield "## Part 0: the first hour\n"
        for words, rows in FIRST_HOUR:
            yield filled(words) + "\n"
            for place, meaning in rows:
                anchors, *lines = self.entry(self.specs.definition(place))
                yield f"{anchors}\n\n{meaning}"
                yield from lines

    def views(self) -> Iterator[str]:
        """How values of the code are seen."""
        yield VIEWS_HEAD
        yield "```rust"
        for crate, file, name in VIEWS:
            text = (self.specs.top / "crates" / crate / "src" / f"{file}.rt").read_text()
            found = re.search(VIEW.replace("NAME", name), text, re.M)
            if found is None:
                sys.exit(f"{crate}/src/{file}.rt has no view of {name}")
            yield f"// {name} of {crate}\n{textwrap.dedent('    ' + found[1])}"
        yield "```\n"

    def left_to_sentences(self) -> Iterator[str]:
        """The table of what part 0 names and does not have."""
        yield LEFT_HEAD
        yield "| definition | what it says |\n|---|---|"
        for key, meaning in self.outside.items():
            crate, module, name = key
            path = f"../crates/{crate}/specs/{module.replace('.', '/')}.antt"
            anchor = self.specs.modules[crate, module].named[name].anchor
            yield f'| <a id="{anchor}"></a>[`{name}`]({path}) of `{crate}` | {meaning} |'
        yield ""

    def not_in_first(self) -> list[str]:
        """What part 0 names, does not have, and leaves to no sentence; and sentences about what it
        does not name."""
        own = {it.key for it in [*self.first, *self.words_of_first]}
        named = {it.key for one in self.parts[0] + self.parts[1] for _, it in self.cited(one)}
        refusals = {it for it in named if not it[1] and REFUSALS.fullmatch(it[2])}
        return ["/".join(it) for it in sorted((named - own - refusals) ^ self.outside.keys())]

    def files(self, crate: str, part: list[Definition]) -> list[str]:
        """The files of a crate that have definitions of this part, each behind those that it
        cites."""
        done, own = [], [it for it in part if it.key[0] == crate and it.key[1]]

        def visit(name: str) -> None:
            if name in done:
                return
            for one in (it for it in own if it.key[1] == name):
                for _, it in self.specs.cited(one):
                    if it in own and it.key[1] != name:
                        visit(it.key[1])
            done.append(name)

        for one in own:
            visit(one.key[1])
        return done

    def pages(self, part: list[Definition]) -> Iterator[Page]:
        """The crates of a part, lowest first, each with its types and its files of definitions."""
        keys = {it.key for it in part}
        for crate in self.specs.crates({it.key[0] for it in part}):
            items = [it for it in part if it.key[0] == crate and not it.key[1]]
            modules = [self.specs.modules[crate, name] for name in self.files(crate, part)]
            files = [(it, [one for one in it.all if one.key in keys]) for it in modules]
            yield crate, sorted(items, key=lambda it: it.key), files

    def chapter(self, part: list[Definition]) -> Iterator[str]:
        """A part, crate by crate."""
        for crate, items, files in self.pages(part):
            yield f"### `{crate}`\n"
            if items:
                yield "Types of the code:\n"
            for one in items:
                yield from self.entry(one)
            for module, own in files:
                head = "\n".join(it[2:].strip() for it in module.head)
                yield f"#### `{module.name}.antt`\n\n{head}\n"
                for group in together(module, own):
                    yield from self.entry(*group)

    def contracts(self) -> Iterator[str]:
        """The calls that run networks, as they stand in the code."""
        for one in self.calls:
            yield from self.entry(one)

    def cited_too_early(self) -> Iterator[tuple[str, str, str]]:
        """The definitions of parts 1 and 2 that stand behind one that cites them."""
        read = {it.key for it in [*self.first, *self.words_of_first]} | self.outside.keys()
        for part in self.parts[2:]:
            for _, items, files in self.pages(part):
                read |= {it.key for it in items}
                for one in (it for _, own in files for it in own):
                    read.add(one.key)
                    cited = [it for _, it in self.specs.cited(one)]
                    yield from (it.key for it in cited if it.key not in read)

    def table(self) -> Iterator[str]:
        """How many definitions each part has, and how many lines they have."""
        yield "| part | definitions | lines | with comments |\n|---|---|---|---|"
        named = [[it for it in part if it.key[1]] for part in self.parts]
        names = ("0", "0, its words", "1", "2")
        for name, part in [*zip(names, named), ("all", [it for part in named for it in part])]:
            lines = sum(len(it.lines) for it in part)
            comments = sum(len(it.comment) for it in part)
            yield f"| {name} | {len(part)} | {lines} | {lines + comments} |"
        yield ""

    def words(self, used: set[str]) -> Iterator[str]:
        """The rows of the library's words that have one of these; those of the logic are in all."""
        yield "| words | meaning |\n|---|---|"
        for words, meaning in LIBRARY:
            named = {*words.split()}
            if named & self.signs and not named & used:
                continue
            signs = " ".join(f"`{it}`" for it in words.replace("|", "\\|").split())
            yield f"| {signs} | {meaning} |"
        yield ""

    def signs_in(self, part: list[Definition]) -> set[str]:
        """The words of the library that some definitions use, sign by sign."""
        found = {word for it in part for word in self.specs.library(it)}
        return {sign for word in found for sign in word.replace("◌", " ").split()}

    def unexplained(self) -> list[str]:
        """The words of the library that the table lacks."""
        known = " ".join(words for words, _ in LIBRARY).split()
        return sorted(self.signs - {*known})

    def first_page(self) -> str:
        """The page of the first hour."""
        own = [*self.first, *self.words_of_first]
        self.here = {it.anchor for it in own}
        first = "\n".join(self.first_hour())
        if (count := len(first.splitlines())) > MOST_IN_FIRST_HOUR:
            sys.exit(f"part 0 of the book has {count} lines, more than {MOST_IN_FIRST_HOUR}")
        head = FRONT.replace("PARTS", FIRST_PART).replace("CONTRACTS", "")
        front = [head, *self.words(self.signs_in(own)), first]
        rest = [*self.left_to_sentences(), *self.views(), WORDS_HEAD, *self.chapter(self.parts[1])]
        return "\n".join([*front, *rest]).rstrip("\n") + "\n"

    def text(self) -> str:
        """The page of all parts."""
        self.here = {it.anchor for it in self.printed}
        head = FRONT.replace("PARTS", ALL_PARTS).replace("CONTRACTS", OF_CALLS)
        front = [head, *self.words(self.signs), *self.table()]
        zero = [*self.first_hour(), *self.views(), WORDS_HEAD, *self.chapter(self.parts[1])]
        one = [REST, *self.chapter(self.parts[2])]
        two = [CLAUSES, *self.contracts(), BESIDE, *self.chapter(self.parts[3])]
        return "\n".join([*front, *zero, *one, *two])


def together(module: Module, own: list[Definition]) -> list[list[Definition]]:
    """These definitions of a file, each with those behind it that have no comment of their own."""
    groups: list[list[Definition]] = []
    for one in own:
        before = module.all[module.all.index(one) - 1]
        if groups and not one.comment and groups[-1][-1] is before:
            groups[-1].append(one)
        else:
            groups.append([one])
    return groups


WORDS_HEAD = """## The words of part 0

What the first hour cites, crate by crate, to look up.
"""
LEFT_HEAD = """## What part 0 leaves to a sentence

The definitions of this page name these ten, and the page does not have them. Each name is a link to
its file. The types of refusals are in [refusals.md](refusals.md).
"""
VIEWS_HEAD = """## How the code's values are seen

Clauses of calls speak of values of the code. These are the views of a network (`Net`), of a packet
in it (`Packet` of `network_core`: a `PacketValue`), what was sent in it (`Sent`: a `Shipment`) and
where it is (`PacketInFlight`: a `Packet` of `forwarding`), and of a topology, by which `run` of
`network_core`, whose clause is `Ran`, and the calls on them are read. Each is a function of the
code's value. `items` are those of a vector; the fields `topology`, `store` and `transit` have views
of their own: a network, the registered segments, a packet in flight. `way_numbered` gives the
`Way` by which a packet was sent: its path has this number in an answer, or is alone in one.
"""
REST = "## Part 1: the rest of the theorem\n"
CLAUSES = """## Part 2: how the theorem is a clause of calls

The contracts of the two calls that run networks, as they stand in the code, and of the streams that
the second of them reads and writes. `run` takes a list of events; `run_lines` takes lines. For the
streams of a process (`S.left`, `K.held` are then `None`) it is trusted that the system hands the
bytes over.
"""
BESIDE = "What these contracts cite beside parts 0 and 1:\n"


def in_order() -> Book:
    """The book, if it is whole and in order."""
    book = Book(Path("."))
    for key in book.cited_too_early():
        sys.exit(f"the book cites {'/'.join(key)} before it says what that is")
    if names := book.not_in_first():
        sys.exit(f"part 0 of the book names and does not have, or the reverse: {' '.join(names)}")
    if len(OUTSIDE) > MOST_OUTSIDE:
        sys.exit(f"part 0 of the book leaves {len(OUTSIDE)} to a sentence, above {MOST_OUTSIDE}")
    if words := book.unexplained():
        sys.exit(f"the book's table of words lacks {' '.join(words)}")
    return book


def whole() -> str:
    """The page of all parts."""
    return in_order().text()


def main(words: Sequence[str]) -> int:
    return settle(__name__, __doc__, words, lambda: {"docs/book.md": in_order().first_page()})
