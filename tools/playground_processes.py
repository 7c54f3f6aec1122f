# SPDX-License-Identifier: Apache-2.0
"""The processes of `playground.py`: each has limits, and ends with the server."""
import contextlib
import ctypes
import os
import resource
import selectors
import signal
import subprocess
import tempfile
import threading
import time
from concurrent.futures import ThreadPoolExecutor
from http import HTTPStatus

# How long a view may take, and how many bytes of it are read.
VIEW_SECONDS, VIEW_BYTES = 10, 32 << 20

# What a process may have: seconds of processor time, for a view, and bytes of memory.
VIEW_PROCESSOR, MEMORY_BYTES = 10, 2 << 30

# How many bytes are read at once from a pipe.
PART_BYTES = 1 << 16


class Refused(Exception):
    """Why a request is refused: a status of HTTP and a sentence."""

    def __init__(self, status, why):
        super().__init__(why)
        self.status = status


class Limits:
    """What a process is put under before its program begins. Where the system has a death signal,
    it is killed when the thread ends that started it."""

    DEATH_SIGNAL = 1  # PR_SET_PDEATHSIG of Linux.

    def __init__(self, processor):
        self.processor, self.parent = processor, os.getpid()
        self.control = getattr(ctypes.CDLL(None), "prctl", None)

    def __call__(self):
        """Runs in the new process, where it takes no lock that another thread may have held."""
        for kind, most in (
            (resource.RLIMIT_CPU, self.processor),
            (resource.RLIMIT_AS, MEMORY_BYTES),
            (resource.RLIMIT_CORE, 0),
        ):
            resource.setrlimit(kind, (most, most))
        if self.control:
            self.control(self.DEATH_SIGNAL, signal.SIGKILL)
            if os.getppid() != self.parent:
                os._exit(1)


class Processes:
    """The processes that the server has started and not ended, all by one thread that lives as long
    as the server."""

    def __init__(self):
        self.lock, self.started, self.is_closed = threading.Lock(), set(), False
        self.starter = ThreadPoolExecutor(1)

    def start(self, words, processor, **pipes):
        with self.lock:
            if self.is_closed:
                raise Refused(HTTPStatus.SERVICE_UNAVAILABLE, "the server ends")
            limits = Limits(processor)
            starting = self.starter.submit(subprocess.Popen, words, preexec_fn=limits, **pipes)
            process = starting.result()
            self.started.add(process)
            return process

    def end(self, process):
        process.kill()
        with contextlib.suppress(OSError), process:
            pass  # What was not written yet can't be, and the pipes are closed.
        with self.lock:
            self.started.discard(process)

    def close(self):
        """Ends all, and starts no more."""
        with self.lock:
            self.is_closed = True
            for process in self.started:
                process.kill()
                process.wait()
        self.starter.shutdown()

    def output(self, words, given):
        """What a program prints over this input, which may be long, and its status."""
        with tempfile.TemporaryFile() as source:
            source.write(given)
            source.seek(0)
            pipe = subprocess.PIPE
            pipes = {"stdin": source, "stdout": pipe, "stderr": pipe}
            process = self.start(words, VIEW_PROCESSOR, **pipes)
        until = time.monotonic() + VIEW_SECONDS
        try:
            text, fault = texts_within([process.stdout, process.stderr], until)
            status = process.wait(max(0, until - time.monotonic()))
        except (TimeoutError, subprocess.TimeoutExpired) as error:
            why = f"the view took more than {VIEW_SECONDS} seconds"
            raise Refused(HTTPStatus.GATEWAY_TIMEOUT, why) from error
        finally:
            self.end(process)
        if status < 0:
            raise Refused(HTTPStatus.GATEWAY_TIMEOUT, "the view was ended at one of its limits")
        return {"text": text, "fault": fault, "status": status}


def texts_within(pipes, until):
    """What comes by each of these pipes up to its end, before this time and within the bound."""
    found = {pipe: bytearray() for pipe in pipes}
    with selectors.DefaultSelector() as open_pipes:
        for pipe in pipes:
            open_pipes.register(pipe, selectors.EVENT_READ)
        while open_pipes.get_map():
            left = until - time.monotonic()
            if left <= 0:
                raise TimeoutError
            for key, _ in open_pipes.select(left):
                part = os.read(key.fd, PART_BYTES)
                found[key.fileobj] += part
                if not part:
                    open_pipes.unregister(key.fileobj)
                if len(found[key.fileobj]) > VIEW_BYTES:
                    raise Refused(HTTPStatus.REQUEST_ENTITY_TOO_LARGE, "the view is too large")
    return [text.decode(errors="replace") for text in found.values()]
