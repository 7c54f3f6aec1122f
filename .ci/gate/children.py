"""Programs that checks start. Each has a limit of time, after which it is killed and named."""
import contextlib
import os
import shlex
import signal
import subprocess
import threading
from collections.abc import Sequence
from types import TracebackType
from typing import Any

# The seconds of a program for which a check names no other limit.
SECONDS = 120


class ChildFault(Exception):
    """A program took too long, or failed where it must not. Its text names the program."""


def named(words: Sequence[str | os.PathLike[str]]) -> str:
    """The program and its words, in one line."""
    line = shlex.join(map(str, words))
    return line if len(line) <= 200 else f"{line[:200]}.."


def kill_all(child: subprocess.Popen[Any]) -> None:
    """Kills a program with all that it has started."""
    with contextlib.suppress(ProcessLookupError):
        os.killpg(child.pid, signal.SIGKILL)
    child.wait()


def run(
    words: Sequence[str | os.PathLike[str]],
    given: bytes = b"",
    seconds: float = SECONDS,
    is_merged: bool = False,
    **how: Any,
) -> subprocess.CompletedProcess[bytes]:
    """Runs a program to its end over these bytes. What it says on standard error is merged into
    what it prints if that is asked for."""
    pipe, errors = subprocess.PIPE, subprocess.STDOUT if is_merged else subprocess.PIPE
    child = subprocess.Popen(
        words, stdin=pipe, stdout=pipe, stderr=errors, start_new_session=True, **how
    )
    try:
        output, told = child.communicate(given, seconds)
    except subprocess.TimeoutExpired:
        raise ChildFault(f"no end within {seconds:g} seconds, and killed: {named(words)}") from None
    finally:
        if child.returncode is None:
            kill_all(child)
    return subprocess.CompletedProcess(words, child.wait(), output, told)


def output(
    words: Sequence[str | os.PathLike[str]], given: bytes = b"", seconds: float = SECONDS
) -> bytes:
    """What a program prints over these bytes. Its status has to be 0."""
    done = run(words, given, seconds)
    if done.returncode:
        told = done.stderr.decode(errors="replace").strip()
        raise ChildFault(f"status {done.returncode} of {named(words)}: {told[-500:]}")
    return done.stdout


class Limit:
    """Kills a program that runs beside the check if it has not ended within these seconds; then
    `fault` says so."""

    def __init__(self, child: subprocess.Popen[Any], seconds: float) -> None:
        self.child, self.seconds, self.fault = child, seconds, ""
        self.timer = threading.Timer(seconds, self.kill)

    def kill(self) -> None:
        words = self.child.args if isinstance(self.child.args, list) else [str(self.child.args)]
        self.fault = f"no end within {self.seconds:g} seconds, and killed: {named(words)}"
        self.child.kill()

    def __enter__(self) -> "Limit":
        self.timer.start()
        return self

    def __exit__(
        self,
        kind: type[BaseException] | None,
        error: BaseException | None,
        trace: TracebackType | None,
    ) -> None:
        self.timer.cancel()
