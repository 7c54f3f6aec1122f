"""The definitions of the crates (crates/*/specs), each with its comment, and what each one cites.

This is the one parser of definitions: scripts that print documents from them read them here."""
import re
from collections.abc import Iterator, Sequence
from pathlib import Path
from typing import Any

START = re.compile(
    r"(?=abbrev |unfoldable |pub |record |data |\S+ : )"
    r"(?:abbrev |unfoldable )?(?:pub )?(?:(?:record|data|ruleset) )?([^\s:(]+)"
)
ITEM = (
    r"((?:^///.*\n)*)(?:^#\[.*\n)*"
    r"(?:^pub(?:\(crate\))? (?:enum|struct|trait) NAME\b[^;{]*(?:;|\{\n(?:.*\n)*?\})"
    r"|^pub fn NAME\b(?:.*\n)*?(?=\{))"
)
WORD = re.compile(r"[A-Za-z_][\w'-]*(?:\.[A-Za-z_][\w'-]*)*")
VARIANT = re.compile(r"^    ([A-Z]\w*)(?=[ ,({])", re.M)


class Names:
    """What the names of a file mean: those that it defines, and those that it imports."""

    def __init__(self, crate: str) -> None:
        self.crate = crate
        self.named: dict[str, Definition] = {}
        self.imported: dict[str, tuple[str, str]] = {}
        self.aliases: dict[str, str] = {}

    def read_import(self, text: str) -> None:
        many = re.match(r"(.*)\.\{(.*)\}$", text)
        if many is None:
            path, _, alias = text.partition(" as ")
            self.aliases[alias or path.rpartition(".")[2]] = path
            return
        for name in filter(None, (it.strip() for it in many[2].split(","))):
            name, _, alias = name.partition(" as ")
            self.imported[alias or name] = (many[1], name)

    def path_of(self, word: str) -> tuple[str, str] | None:
        """The path and the name under which a word was imported, if it was."""
        first, _, rest = word.partition(".")
        if first in self.aliases and rest:
            return self.aliases[first], rest.partition(".")[0]
        return self.imported.get(first)


class Definition:
    """A definition, or an item of the code: where it stands, its comment and its lines."""

    def __init__(self, key: tuple[str, str, str], names: Names,
                 comment: Sequence[str] = ()) -> None:
        self.key, self.names, self.comment = key, names, [*comment]
        self.lines: list[str] = []

    @property
    def anchor(self) -> str:
        crate, module, name = self.key
        parts = (crate, module.replace(".", "-"), re.sub(r"\W+", "-", name).strip("-") or "sign")
        return "-".join(filter(None, parts))

    @property
    def is_data(self) -> bool:
        return re.match(r"(pub )?data ", self.lines[0]) is not None

    @property
    def variants(self) -> list[Any]:
        """The constructors, where this is a type that has some."""
        if self.is_data:
            return [line.split()[0] for line in self.lines[1:] if " : " in line]
        is_enum = any(re.match(r"pub(\(crate\))? enum ", it) for it in self.lines)
        return VARIANT.findall("\n".join(self.lines)) if is_enum else []

    @property
    def titles(self) -> list[str]:
        """The names that are defined here: several, where they are defined by one another."""
        if self.key[2] != "mutual":
            return [self.key[2]]
        return re.findall(r"^  pub (\S+) : ", "\n".join(self.lines), re.M)

    @property
    def applied(self) -> str:
        """The name with the arguments by which it is defined, if there are any; a sign or a name
        that is defined case by case alone."""
        if self.key[2] == "mutual" or "◌" in self.key[2]:
            return ", ".join(self.titles).replace("◌", "")
        sides = [it for it in self.lines[1:] if it.startswith(f"{self.key[2]} ")]
        found = re.match(r"([\w' ]+?) =(?: |$)", sides[0]) if len(sides) == 1 else None
        return found[1] if found else self.key[2]

    @property
    def said(self) -> str:
        """The text without comments."""
        return re.sub(r"(^|\s)(--|//).*", "", "\n".join(self.lines))


class Module(Names):
    """A file of definitions: its head, and its definitions in their order."""

    def __init__(self, crate: str, path: Path) -> None:
        super().__init__(crate)
        inside = path.with_suffix("").parts
        self.name = ".".join(inside[inside.index("specs") + 1 :])
        self.head: list[str] = []
        self.all: list[Definition] = []
        pending: list[str] = []
        one: Definition | None = None
        at_head = True
        for line in self.imports_read(path.read_text().split("\n")):
            if not line.strip():
                at_head = at_head and not self.head
                if one is not None and one.key[2] != "mutual":
                    pending, one = [], None
            elif line.startswith("--"):
                (self.head if at_head and not self.all else pending).append(line)
            elif line.startswith("infix"):
                pending.append(line)
            elif line[0] != " " and (start := START.match(line)):
                comment = [it for it in pending if "----" not in it]
                one = Definition((crate, self.name, start[1]), self, comment)
                one.lines, pending = [line], []
                self.all.append(one)
                self.named[one.key[2]] = one
            elif one is not None:
                one.lines += [*pending, line]
                pending = []
        for one in self.all:
            for name in [*one.variants, *one.titles]:
                self.named.setdefault(name, one)

    def imports_read(self, lines: list[str]) -> list[str]:
        """The lines without the imports, which it reads."""
        kept, text = [], ""
        for line in lines:
            if text or re.match(r"(pub )?use ", line):
                text += line.strip() + " "
                if text.count("{") == text.count("}"):
                    self.read_import(re.sub(r"^(pub )?use ", "", text.strip()))
                    text = ""
            else:
                kept.append(line)
        return kept


class Specs:
    """All definitions of a repository, and the items of the code that they speak of."""

    def __init__(self, top: Path) -> None:
        self.top = top
        self.modules: dict[tuple[str, str], Module] = {}
        self.items: dict[tuple[str, str], Definition] = {}
        for path in sorted(top.glob("crates/*/specs/**/*.antt")):
            if path.stem != "Lib":
                module = Module(path.parts[path.parts.index("crates") + 1], path)
                self.modules[module.crate, module.name] = module
        lines = [it.partition("#")[0] for it in (top / "crates.txt").read_text().splitlines()]
        pairs = [it.partition(":") for it in lines if it.strip()]
        self.needs = {name.split()[0]: needs.split() for name, _, needs in pairs}

    def named(self, place: str) -> Definition | None:
        """The definition at a place that is given as `crate/Module.name`; None if it is gone."""
        crate, _, inside = place.partition("/")
        module, _, name = inside.rpartition(".")
        found = self.modules.get((crate, module))
        return found.named.get(name) if found else None

    def definition(self, place: str) -> Definition:
        """The definition at a place that the gate names, and that therefore has to be there."""
        found = self.named(place)
        if found is None:
            raise SystemExit(f"{place} is gone, and the gate names it")
        return found

    def item(self, crate: str, file: str, name: str) -> Definition:
        """An item of the code as it is declared: a type, or the contract of a function."""
        if (crate, name) not in self.items:
            text = (self.top / "crates" / crate / "src" / f"{file}.rt").read_text()
            found = re.search(ITEM.replace("NAME", name), text, re.M)
            if found is None:
                raise SystemExit(f"{crate}/src/{file}.rt has no {name}")
            names = Names(crate)
            for path in re.findall(r"^ghost use (.*);$", text, re.M):
                names.read_import(path)
            one = self.items[crate, name] = Definition((crate, "", name), names)
            lines = found[0].rstrip("\n").split("\n")
            one.lines = [it for it in lines if not it.strip().startswith("#[")]
        return self.items[crate, name]

    def meaning(self, names: Names, word: str) -> Definition | None:
        """The definition or the type that a word of a file means, or none."""
        if word in names.named:
            return names.named[word]
        path = names.path_of(word)
        return self.found(*path) if path else None

    def found(self, path: str, name: str) -> Definition | None:
        place = re.match(r"Rattle\.(\w+)\.specs\.(.*)", path)
        if place is None or place[1] not in self.needs:
            return None
        if place[2].startswith("declared."):
            return self.item(place[1], *place[2].split(".")[1:3])
        module = self.modules.get((place[1], place[2]))
        return self.meaning(module, name) if module else None

    def words(self, one: Definition) -> list[str]:
        """The words of a definition that its file defines or imports, as they are met, each once;
        a sign is given by its name, with a ring for each side."""
        text, names = one.said, one.names
        seen: dict[str, None] = {}
        for name in [it for it in [*names.imported, *names.named] if "◌" in it]:
            signs = name.replace("◌", " ").split()
            steps = ">>=" in signs and re.search(r"\bdo\b", text)
            if steps or all(f" {it} " in text.replace("\n", " ") for it in signs):
                seen[name] = None
        for word in WORD.findall(text):
            first = word.partition(".")[0]
            is_whole = first in names.aliases and first not in names.named
            seen[".".join(word.split(".")[:2]) if is_whole else first] = None
        return [it for it in seen if it in names.named or names.path_of(it)]

    def cited(self, one: Definition) -> list[tuple[str, Definition]]:
        """The definitions and types that a definition cites, by the word, as they are met."""
        pairs = [(word, self.meaning(one.names, word)) for word in self.words(one)]
        return [(word, it) for word, it in pairs if it is not None and it is not one]

    def library(self, one: Definition) -> Iterator[str]:
        """The words of the toolchain's library that a definition uses."""
        for word in self.words(one):
            if word not in one.names.named and self.meaning(one.names, word) is None:
                path = one.names.path_of(word)
                if path and path[0].startswith("Rattle."):
                    yield word

    def constructor(self, one: Definition, word: str) -> tuple[str, str] | None:
        """The type and the name of a constructor that a word of a definition means, or none."""
        path = one.names.path_of(word)
        if path and path[0].endswith(".TheVariants"):
            return path[0].split(".")[-2], path[1]
        it = self.meaning(one.names, word)
        if it is not None and it.lines and it.is_data and word != it.key[2]:
            return it.key[2], word
        return None

    def closure(self, roots: list[Definition]) -> list[Definition]:
        """The definitions that these cite, and they, each behind those that it cites."""
        order, reached = [], set()

        def reach(one: Definition) -> None:
            if one.key not in reached:
                reached.add(one.key)
                for _, it in self.cited(one):
                    reach(it)
                order.append(one)

        for one in roots:
            reach(one)
        return order

    def crates(self, cited: set[str]) -> list[str]:
        """These crates, lowest first."""
        done = []

        def visit(name: str) -> None:
            for low in self.needs.get(name, ()):
                if low in self.needs:
                    visit(low)
            if name not in done:
                done.append(name)

        for name in self.needs:
            visit(name)
        return [it for it in done if it in cited]
