"""Checks that the header and the packages of bindings/ fit what the libraries export.

First it compares their numbers with the tables of the crates (`host_numbers.py`). Then it builds
the static libraries over what `rt ci` has proved, since that leaves none, and runs the tours, side
by side: in C by each compiler that is there (the kit's clang is), in C++, in Python, as a package
too, in Rust and in JavaScript. Their answers are held to what the rules of routers and of paths
say. By gcc and clang, what is written in C runs once more with checks of memory (`sanitized.py`).
`answers.py` compares random requests for paths with a search that tries every list of pieces, and
`packets.py` whole packets with a second reader of them. The commands by which bindings/README.md
links are run as they stand.

What is not on the machine is told, and left out; but without a compiler for C nothing would be
tested, so that the status is 1 then, unless the word is `--without-compiler`. It is 1 too where an
answer differs."""
import os
import re
import shutil
import sys
import tempfile
import threading
from collections.abc import Callable, Iterable, Iterator, Sequence
from concurrent.futures import ThreadPoolExecutor
from typing import Any

from gate import TOP, children, host_numbers, sanitized
from gate.hosts import build
from gate.machine import Machine
from gate.sanitized import Compiler
from gate.words import reader

BINDINGS = str(TOP / "bindings")
GATE = [sys.executable, ".ci/gate"]

# The seconds of one command.
SECONDS = 300

# A tour has to be well formed by the standard, whichever compiler reads it.
WARNED = ("-Wall", "-Wextra", "-Wpedantic", "-Werror")
STRICT = ("-O2", *WARNED)
CXX = "c++"
NODE = ["node", "--experimental-wasm-memory64"]
VIEW = "crates/scionet_view/out/scionet_view"
MODULE = os.path.join(build.OUT, "scion.wasm")

# The words in front of a command that leaves the processors to others.
YIELDING = ("nice", "-n", "10")

# Turns of routers on whole packets.
PACKETS = "cases/packets/turns.tsv"

# The page for hosts. A block of its commands is run, with what has to be on the machine for it.
PAGE = "bindings/README.md"
BLOCK = re.compile(r"^<!-- run: ([^\n]*) -->\n```\n(.*?)^```$", re.M | re.S)
CHILD = re.compile(r"^## A whole network$.*?^```\n(import .*?)^```$", re.M | re.S)


# Something to run, after which nothing is left of it.
Task = Callable[[], object]


class Gate:
    """What was run so far, and whether all of it ended well. Several threads may run commands."""

    def __init__(self, room: str, machine: Machine) -> None:
        self.room, self.is_well, self.count, self.machine = room, True, 0, machine
        self.alone = threading.Lock()

    def run(self, what: str, words: list[str], given: bytes = b"", **how: Any) -> bool:
        """Runs a command, whose last line is told, and all of them if its status is not 0."""
        done = children.run(words, given, SECONDS, is_merged=True, **how)
        lines = done.stdout.decode(errors="replace").strip().splitlines()
        with self.alone:
            self.count += 1
            for line in lines if done.returncode else lines[-1:]:
                print(f"bindings: {what}: {line}", flush=True)
            self.is_well = self.is_well and done.returncode == 0
        return done.returncode == 0

    def path(self, name: str) -> str:
        return os.path.join(self.room, name)

    def shared(self, number: int, compiler: Compiler) -> tuple[str, str]:
        """The shared object by one compiler for C, and what is called after both."""
        name = f"{os.path.basename(compiler[0][0])}-{number}"
        shared = self.path(f"libscion-{name}.so")
        build.link_shared(compiler, build.BOTH, shared)
        return name, shared

    def over_shared(self, name: str, shared: str) -> Iterator[Task]:
        """The tour in Python over a shared object, and what is compared with second readers."""
        tour = os.path.join(BINDINGS, "python", "tour.py")
        yield lambda: self.run(f"Python over {name}", [sys.executable, "-B", tour, shared])
        yield lambda: self.run(f"answers over {name}", [*GATE, "answers", shared])
        yield lambda: self.run(f"whole packets in Python over {name}", [*GATE, "packets", shared])

    def growth(self, name: str, shared: str) -> Task:
        """How the cost of calls grows, which is held to seconds."""
        return lambda: self.run(f"growth of calls over {name}", [*GATE, "calls_growth", shared])

    def written_in_c(self, name: str, compiler: Compiler, flags: Sequence[str]) -> Iterator[Task]:
        """The tour, whole packets and the routers as processes, by one compiler for C."""
        yield lambda: self.tour_in_c(name, compiler, flags)
        yield lambda: self.packets_in_c(name, compiler, flags)
        yield lambda: self.routers(name, compiler, flags)

    def tour_in_c(self, name: str, compiler: Compiler, flags: Sequence[str]) -> None:
        """The tour by one compiler for C."""
        program, source = self.path(f"tour-by-{name}"), os.path.join(BINDINGS, "c", "tour.c")
        build.link_program(compiler, build.BOTH, source, program, ("-std=c11", *flags))
        self.run(f"tour by {name}", [program])

    def packets_in_c(self, name: str, compiler: Compiler, flags: Sequence[str]) -> None:
        """Whole packets by one compiler for C."""
        program = self.path(f"packets-by-{name}")
        source = os.path.join(BINDINGS, "c", "packets.c")
        build.link_program(compiler, build.ROUTER, source, program, ("-std=c11", *flags))
        self.run(f"whole packets by {name}", [program], (TOP / PACKETS).read_bytes())

    def routers(self, name: str, compiler: Compiler, flags: Sequence[str]) -> None:
        """The routers of a network as processes: examples/udp, which ends well if a packet crosses
        them and a changed one is refused."""
        program = self.path(f"router-by-{name}")
        source = os.path.join("examples", "udp", "router.c")
        build.link_program(compiler, build.ROUTER, source, program, ("-std=gnu11", *flags))
        words = [sys.executable, "-B", os.path.join("examples", "udp", "network.py"), program]
        if os.path.exists(VIEW):
            words.append(VIEW)
        else:
            print("bindings: scionet_view is not built: no capture is compared with the routers")
        self.run(f"routers by {name}", words, (TOP / "examples/pair.txt").read_bytes())
        for network in ("row", "pair"):
            given = (TOP / "examples" / f"{network}.txt").read_bytes()
            self.run(f"200 packets over {network} by {name}", [*GATE, "udp", program], given)

    def with_checks(self) -> Iterator[Task]:
        """What is written in C, with checks of memory, by each compiler that has them."""
        named: list[Compiler] = [([it], []) for it in ("gcc", "clang") if shutil.which(it)]
        found = [it for it in named if sanitized.are_there(it, self.room)]
        if self.machine.has_all([] if found else [sanitized.TOOL]):
            for compiler in found:
                name = f"{compiler[0][0]}-with-checks"
                yield from self.written_in_c(name, compiler, (*WARNED, *sanitized.FLAGS))

    def tour_in_cxx(self) -> None:
        if self.machine.has(CXX):
            program, source = self.path("tour-by-c++"), os.path.join(BINDINGS, "c", "tour.c")
            words = [CXX, "-std=c++17", *STRICT, "-Iinclude", "-x", "c++", source, "-x", "none"]
            parts = [*map(build.archive, build.BOTH), build.allocator()]
            if self.run("c++", [*words, *parts, "-o", program]):
                self.run("tour by c++", [program])

    def package_in_python(self) -> None:
        """The tour over the package, as pip installs it into an environment of its own."""
        if not self.machine.has_modules("venv", "ensurepip"):
            return
        folder = self.path("venv")
        python = os.path.join(folder, "bin", "python")
        install = [python, "-m", "pip", "install", "-q", "--no-index", "./bindings/python"]
        if self.run("venv", [sys.executable, "-m", "venv", folder]) and self.run("pip", install):
            tour = shutil.copy(os.path.join(BINDINGS, "python", "tour.py"), folder)
            self.run("Python's package", [python, "-B", tour])

    def crate_in_rust(self) -> None:
        if self.machine.has("cargo"):
            words = ["cargo", "test", "--offline", "--locked", "-q", "--features", "paths"]
            how: dict[str, Any] = {"cwd": os.path.join(BINDINGS, "rust")}
            how["env"] = {**os.environ, "CARGO_TARGET_DIR": self.path("target")}
            self.run("cargo", words, **how)

    def module_in_javascript(self) -> None:
        tour, packets = (os.path.join(BINDINGS, "js", it) for it in ("tour.mjs", "packets.mjs"))
        self.run("node", [*NODE, tour, MODULE])
        self.run("whole packets by node", [*NODE, packets, MODULE, PACKETS])

    def tasks(self, objects: Sequence[tuple[str, str]], compilers: Sequence[Compiler]
              ) -> Iterator[Task]:
        """All that can be run side by side; what takes longest comes first."""
        yield self.crate_in_rust
        if self.machine.has("node"):
            yield self.module_in_javascript
        for name, shared in objects:
            yield from self.over_shared(name, shared)
        yield from self.with_checks()
        for (name, _), compiler in zip(objects, compilers):
            yield from self.written_in_c(name, compiler, STRICT)
        yield self.tour_in_cxx
        yield self.package_in_python

    def documented(self) -> None:
        """The commands of the page that link, and its program that runs a network."""
        with open(PAGE, encoding="utf-8") as it:
            text = it.read()
        blocks, child = BLOCK.findall(text), CHILD.search(text)
        if not blocks or not child:
            sys.exit(f"bindings: {PAGE} has no commands that could be run")
        for tools, script in blocks:
            if self.machine.has(*tools.split()):
                self.run(PAGE, ["sh", "-e", "-c", script])
        if os.path.exists("crates/scionet/out/scionet"):
            self.child(child[1])
        else:
            print("bindings: scionet is not built, and the program that runs it is left out")

    def child(self, program: str) -> None:
        """The program prints what `scionet run` does, also if the last line has no end."""
        path = self.path("events.txt")
        with open("examples/row.txt", "rb") as it, open(path, "wb") as copy:
            copy.write(it.read().rstrip(b"\n"))
        with open(path, "rb") as it:
            words = ["crates/scionet/out/scionet", "run"]
            wanted = children.output(words, it.read())
        script = program.replace("examples/row.txt", path)
        given = children.run([sys.executable, "-c", script])
        is_same = given.stdout == wanted
        print(f"bindings: the child of {PAGE}: {'same' if is_same else 'other'} replies")
        self.is_well = self.is_well and is_same


def prove(has_node: bool) -> None:
    """Proves and builds both libraries side by side, and the module for JavaScript behind the
    first. The second library takes longest, so the processors are its own where it wants them."""
    os.makedirs(build.OUT, exist_ok=True)

    def router() -> None:
        build.prove(build.ROUTER, YIELDING)
        if has_node:
            build.build_wasm(MODULE, YIELDING)

    side_by_side([router, lambda: build.prove(build.BOTH[1:])])


def side_by_side(tasks: Iterable[Task]) -> None:
    """Runs tasks on as many threads as there are processors. A fault of one ends the script."""
    with ThreadPoolExecutor(os.cpu_count()) as pool:
        for done in [pool.submit(it) for it in tasks]:
            done.result()


def main(words: Sequence[str]) -> int:
    words_of, machine = reader(__name__, __doc__), Machine()
    words_of.add_argument("--without-compiler", action="store_true",
                          help="prove the libraries, though nothing can be linked with them")
    given = words_of.parse_args(words)
    is_well = host_numbers.check()
    prove(has_node=shutil.which("node") is not None)
    compilers = list(build.compilers())
    if not compilers:
        machine.has_all(["a compiler for C"])
        print(machine.told("bindings: no tour was run"))
        return 0 if is_well and given.without_compiler else 1
    build.gather(build.BOTH)
    build.link_shared(compilers[0], build.BOTH, os.path.join(build.OUT, "libscion.so"))
    with tempfile.TemporaryDirectory() as room:
        gate = Gate(room, machine)
        objects = [gate.shared(number, it) for number, it in enumerate(compilers)]
        side_by_side(gate.tasks(objects, compilers))
        # (the page writes where others read, and what is held to seconds wants processors)
        side_by_side([gate.documented, *(gate.growth(*it) for it in objects)])
        is_well = gate.is_well and is_well
    print(machine.told(f"bindings: {gate.count} commands, all well: {is_well}"))
    return 0 if is_well else 1
