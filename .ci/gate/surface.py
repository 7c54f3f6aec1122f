"""What a crate offers to those above it: the public types, calls and constants that its lib.rt
names, each with the first sentence of its comment, and the contracts of the calls.

Definitions are read by specs.py; this reads the code beside them."""
from __future__ import annotations

import re
from collections.abc import Iterable, Iterator
from pathlib import Path
from typing import Any

from gate.specs import Definition, Names, Specs

ITEM = re.compile(
    r"^(?P<indent> {0,4})pub (?P<kind>(?:extern \"C\" |const |unsafe )*"
    r"(?:fn|struct|enum|trait|type|const|static))\s+(?P<name>\w+)",
    re.M,
)
METHOD = re.compile(r"^    fn (\w+)", re.M)
GHOST_USE = re.compile(r"^( *)ghost use (.*);$", re.M)
IMPL = re.compile(r"^impl\b(?:<[^{]*?>)? (?P<type>\w+)[^{]*\{", re.M)
CLAUSE = re.compile(r"((?:\s*//[^\n]*\n)*)\s*(ensures|requires)\s*(\w+)?\s*\{")
USE = re.compile(r"^pub use (.*?);", re.M | re.S)
PUBLIC = re.compile(r"^pub mod (\w+);", re.M)
LAWS = "laws"


class Clause:
    """A clause of a contract: its word, its name and its comment, which may be missing, and its
    text."""

    def __init__(self, comment: str, word: str, name: str | None, text: str) -> None:
        lines = comment.strip().split("\n")
        self.comment = " ".join(it.strip().removeprefix("//").strip() for it in lines)
        self.word, self.name, self.text = word, name, text


class Item:
    """An item of the code: its kind and name, its comment, how it is declared, and its clauses."""

    def __init__(self, file: File, kind: str, name: str, owner: str | None, start: int) -> None:
        self.file, self.kind, self.name, self.owner = file, kind.split()[-1], name, owner
        self.comment = comment_above(file.text, start)
        self.clauses: list[Clause] = []
        if self.kind == "fn":
            self.declared, self.clauses = contract(file.text, start)
        else:
            self.declared = file.text[start:].partition("\n")[0].strip()

    @property
    def place(self) -> str:
        """The name by which a crate above calls it, without the crate."""
        of_file = self.file.path if self.file.is_module else ""
        return "::".join(filter(None, (of_file, self.owner, self.name)))

    @property
    def sentence(self) -> str:
        return first_sentence(self.comment)

    def cited(self, specs: Specs) -> Iterable[Definition]:
        """The definitions that the clauses cite, as they are met, each once."""
        text = " ".join(it.text for it in self.clauses)
        one = Definition((self.file.crate, "", self.name), self.file.names(self.owner))
        one.lines = [text]
        return {it.key: it for _, it in specs.cited(one) if it.key[1]}.values()


class File:
    """A file of the code, and the names that its clauses import."""

    def __init__(self, crate: str, path: Path, is_module: bool) -> None:
        self.crate, self.path, self.is_module = crate, path.stem, is_module
        self.text = path.read_text()
        found = [it for it in IMPL.finditer(self.text) if " for " not in it[0]]
        self.impls = [(it["type"], it.start(), block_end(self.text, it.end())) for it in found]

    def owner(self, at: int) -> str | None:
        """The type to whose `impl` this place belongs, if there is one."""
        return next((name for name, start, end in self.impls if start < at < end), None)

    def names(self, owner: str | None) -> Names:
        """The names that clauses in this file may cite, in the code of this type."""
        names = Names(self.crate)
        for it in GHOST_USE.finditer(self.text):
            if not it[1] or owner in (None, self.owner(it.start())):
                names.read_import(it[2])
        return names

    def items(self) -> Iterator[Item]:
        """The public items of the file, and the calls of its public traits."""
        for it in ITEM.finditer(self.text):
            owner = self.owner(it.start()) if it["indent"] else None
            if it["indent"] and owner is None:
                continue
            item = Item(self, it["kind"], it["name"], owner, it.start())
            yield item
            if item.kind == "trait":
                end = block_end(self.text, self.text.index("{", it.end()) + 1)
                for method in METHOD.finditer(self.text, it.end(), end):
                    yield Item(self, "fn", method[1], item.name, method.start())


def block_end(text: str, at: int) -> int:
    """The place behind the bracket that closes the block which is open here."""
    depth = 1
    while depth:
        depth += {"{": 1, "}": -1}.get(text[at], 0)
        at += 1
    return at


def comment_above(text: str, start: int) -> str:
    """The comment above an item, without signs. A remark for readers of the code, with two slashes,
    may stand between it and the item."""
    lines = []
    for line in reversed(text[:start].rstrip("\n").split("\n")):
        line = line.strip()
        if line.startswith("///"):
            lines.append(line.removeprefix("///").strip())
        elif not lines and re.match(r"(#\[|\)\]|.*\)\]$|// )", line):
            continue
        else:
            break
    return "\n".join(reversed(lines))


def first_sentence(comment: str) -> str:
    """The first sentence of a comment, in one line and without links to the code."""
    text = " ".join(comment.partition("\n\n")[0].split())
    text = re.sub(r"\[(`[^`]*`)\](?:\([^)]*\))?", r"\1", text).replace("`crate::", "`")
    found = re.match(r".*?\.(?= [A-Z`]|$)", text)
    return found[0] if found else text.rstrip(":") + "."


def contract(text: str, start: int) -> tuple[str, list[Clause]]:
    """How a function is declared, in one line, and its clauses."""
    at, depth = start, 0
    while not (depth == 0 and (text[at] in "{;" or CLAUSE.match(text, at))):
        depth += {"(": 1, ")": -1, "[": 1, "]": -1}.get(text[at], 0)
        at += 1
    declared = " ".join(text[start:at].split()).replace("( ", "(").replace(", )", ")")
    clauses: list[Clause] = []
    while found := CLAUSE.match(text, at):
        at = block_end(text, found.end())
        comment, word, name = found.groups()
        clauses.append(Clause(comment, word, name, text[found.end() : at - 1]))
    return declared.removeprefix("pub ").replace('extern "C" ', ""), clauses


class Surface:
    """What one crate offers."""

    def __init__(self, top: Path, crate: str) -> None:
        self.crate, self.source = crate, top / "crates" / crate / "src"
        root = (self.source / "lib.rt").read_text()
        about = re.match(r"(?://!.*\n)+", root)
        self.about = re.sub(r"^//! ?", "", about[0] if about else "", flags=re.M).strip()
        self.modules = PUBLIC.findall(root)
        uses = [it.partition("::") for it in USE.findall(root)]
        self.names = {it for _, _, names in uses for it in re.findall(r"\w+", names)}
        self.lent = {
            of: re.findall(r"\w+", names)
            for of, _, names in uses
            if not (self.source / f"{of}.rt").exists()
        }
        every = [it for file in self.files() for it in file.items()]
        free = [it for it in every if it.owner is None and self.is_named(it)]
        self.types = [it for it in free if it.kind not in ("fn", "const", "static")]
        own = {it.name for it in self.types}
        known = [it for it in every if it in free or it.owner in own]
        self.calls = [it for it in known if it.kind == "fn"]
        self.constants = [it for it in known if it.kind in ("const", "static")]

    def files(self) -> list[File]:
        """The files of the code, the root first."""
        paths = sorted(self.source.glob("*.rt"), key=lambda it: (it.stem != "lib", it.stem))
        return [File(self.crate, it, it.stem in self.modules) for it in paths]

    def is_named(self, item: Item) -> bool:
        """Whether lib.rt names the item, or its module, or has it itself."""
        return item.name in self.names or item.file.is_module or item.file.path == "lib"

    @property
    def sentence(self) -> str:
        return first_sentence(self.about)
