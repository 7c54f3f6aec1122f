#!/usr/bin/env python3
# SPDX-License-Identifier: Apache-2.0
"""Builds the libraries for hosts, and what is linked with them.

    bindings/build.py                 proves and builds the router's static library, puts it into
                                      bindings/out, and links libscion.so there from it, for Python
    bindings/build.py FILE.c PROGRAM  links a program in C with the static library
    bindings/build.py --paths ..      the same of both libraries; the second has more crates below
    bindings/build.py --wasm          proves the router's library for WebAssembly, and builds
                                      bindings/out/scion.wasm

The compiler is $CC, or else cc, or else the clang of the kit that `rt` is of, which needs no
headers of the machine."""
import os
import shutil
import subprocess
import sys

HERE = os.path.dirname(os.path.realpath(__file__))
TOP = os.path.dirname(HERE)
OUT = os.path.join(HERE, "out")
ROUTER, BOTH = ("scion_ffi",), ("scion_ffi", "scion_ffi_paths")
WASM = "wasm64-unknown-unknown"

# The bytes of memory of the module: its stack has 1 MiB, and the arguments of a call what is left.
WASM_MEMORY = 36 * 65536


def stop(why):
    sys.exit(f"build: {why}")


def kit():
    """The folder of the kit."""
    rt = shutil.which("rt")
    if rt is None:
        stop("no rt on the path")
    return os.path.dirname(os.path.dirname(os.path.realpath(rt)))


def compilers():
    """The commands that compile C, each with what follows the files; those that are there."""
    for name in filter(None, (os.environ.get("CC"), "cc")):
        if shutil.which(name):
            yield [name], []
    lib = os.path.join(kit(), "toolchain", "lib")
    clang = os.path.join(kit(), "toolchain", "bin", "clang")
    front = [clang, "-nostdinc", "-isystem", os.path.join(HERE, "c", "headers")]
    link = ["-fuse-ld=lld", f"-B{lib}", "-nodefaultlibs", os.path.join(lib, "libc.so.6")]
    if shutil.which(clang):
        yield front, link


def run(words, where=TOP):
    done = subprocess.run(words, cwd=where, stdout=subprocess.PIPE, stderr=subprocess.STDOUT)
    if done.returncode:
        stop(f"{' '.join(words)}: {done.stdout.decode(errors='replace')[-2000:]}")


def archive(name):
    return os.path.join(TOP, "crates", name, "out", f"lib{name}.a")


def allocator():
    """The archive of the kit through which paths are looked for in memory of malloc."""
    return os.path.join(kit(), "c", "liblibc_c.a")


def used():
    """What each crate of the repository uses, by its name."""
    with open(os.path.join(TOP, "crates.txt"), encoding="utf-8") as it:
        lines = [line.partition("#")[0].partition(":") for line in it]
    return {front.split()[0]: behind.split() for front, _, behind in lines if front.strip()}


def below(uses, name):
    """The crates of the repository on which this one stands, lowest first."""
    found = {}
    for it in (it for it in uses[name] if it in uses):
        found |= dict.fromkeys([*below(uses, it), it])
    return list(found)


def rlib(name):
    return os.path.join(TOP, "crates", name, "out", "rlib")


def is_current(uses, name, path):
    """Whether what was built of a crate is newer than all that it is made of."""
    if not os.path.exists(path):
        return False
    made = os.path.getmtime(path)
    parts = [
        os.path.join(TOP, "crates", it, part)
        for it in [*below(uses, name), name]
        for part in ("src", "specs", "proofs")
    ]
    files = [os.path.join(at, it) for part in parts for at, _, them in os.walk(part) for it in them]
    return all(os.path.getmtime(it) < made for it in files)


def over_libraries(uses, name, path, *target):
    """The words that prove and build a static library over libraries that are built."""
    words = [os.path.join(kit(), "bin", "rattle"), "build", "--crate-name", name, "src/lib.rt"]
    rlibs = os.path.join(kit(), "rlibs")
    for it in ["std", *(it for it in uses[name] if it not in uses)]:
        words += ["--extern", f"{it}={rlibs}/{it}.rlib"]
    words += ["-L", f"dependency={rlibs}"]
    for it in (it for it in uses[name] if it in uses):
        words += ["--extern", f"{it}={rlib(it)}/{it}.rlib"]
    for it in below(uses, name):
        words += ["-L", f"dependency={rlib(it)}"]
    words += ["--antt-project", os.path.join(kit(), "rattle", "logic", "antt-project.json")]
    words += ["--logic-built", os.path.join(kit(), "logic_built"), "--links", f"{name}="]
    words += ["--jobs", str(os.cpu_count() or 2), "--crate-type", "staticlib"]
    words += ["--toolchain", os.path.join(kit(), "toolchain"), "--backend", "llvm"]
    return [*words, *target, "-o", path]


def prove(libraries, front=()):
    """Proves and builds static libraries, unless they stand and nothing has changed since, with
    these words in front of the command. `rt ci` leaves the libraries below without the stamp by
    which `rt lib` knows them, so that this would prove each anew."""
    uses = used()
    for name in libraries:
        path = archive(name)
        if is_current(uses, name, path):
            continue
        is_built = all(os.path.isdir(f"{rlib(it)}/{it}.rlib") for it in below(uses, name))
        is_known = any(os.path.exists(f"{rlib(it)}/stamp") for it in below(uses, name))
        words = over_libraries(uses, name, path) if is_built and not is_known else ["rt", "lib"]
        os.makedirs(os.path.dirname(path), exist_ok=True)
        run([*front, *words], os.path.join(TOP, "crates", name))


def gather(libraries):
    """Puts static libraries into bindings/out, where a program finds all that it links."""
    for path in [*map(archive, libraries), *[allocator()] * (libraries == BOTH)]:
        shutil.copy2(path, OUT)


def build_wasm(path, front=()):
    """Proves the router's library for WebAssembly, and links the module, unless it is current; with
    these words in front of the command that proves."""
    uses, (name,) = used(), ROUTER
    prove(ROUTER)
    if is_current(uses, name, path):
        return
    part = f"{path}.a"
    words = over_libraries(uses, name, part, "--target", WASM)
    run([*front, *words], os.path.join(TOP, "crates", name))
    link = [os.path.join(kit(), "bin", "rattle-link"), "--target", WASM]
    link += ["--toolchain", os.path.join(kit(), "toolchain"), "--memory", str(WASM_MEMORY)]
    run([*link, "-o", path, part])
    os.remove(part)


def link_shared(compiler, libraries, path):
    """Links the shared object of static libraries."""
    front, behind = compiler
    whole = ["-Wl,--whole-archive", *map(archive, libraries), "-Wl,--no-whole-archive"]
    run([*front, "-shared", "-o", path, *whole, allocator(), *behind])


def link_program(compiler, libraries, source, path, flags=("-O2", "-Wall")):
    """Compiles a program in C and links it with static libraries."""
    front, behind = compiler
    words = [*front, *flags, "-I", os.path.join(TOP, "include"), "-o", path, source]
    run([*words, *map(archive, libraries), allocator(), *behind])


def main():
    words = [os.path.abspath(it) for it in sys.argv[1:] if it not in ("--paths", "--wasm")]
    if len(words) not in (0, 2):
        stop("give a file in C and the program's path, or neither")
    os.makedirs(OUT, exist_ok=True)
    if "--wasm" in sys.argv:
        return build_wasm(os.path.join(OUT, "scion.wasm"))
    compiler = next(compilers(), None)
    if compiler is None:
        stop("no compiler for C")
    libraries = BOTH if "--paths" in sys.argv else ROUTER
    prove(libraries)
    gather(libraries)
    if words:
        link_program(compiler, libraries, *words)
    else:
        link_shared(compiler, libraries, os.path.join(OUT, "libscion.so"))


if __name__ == "__main__":
    main()
