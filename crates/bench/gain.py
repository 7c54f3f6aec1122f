#!/usr/bin/env python3
# SPDX-License-Identifier: Apache-2.0
"""How much faster several workers carry even flights than one worker does.

    gain.py [--rounds ROUNDS] [COUNT]

Each round carries COUNT thousands of flights on one, two and four workers, and as many in each of
two and of four processes at once, which share nothing and have one worker each. The figures are the
least seconds of all rounds, less those for no flight. On a quiet machine n processes do n times
what one does, or nearly. Where they don't, the machine has other work, or fewer processors, and no
number of workers can gain more. The program is the one that `rt ci` has proved and built here."""
import argparse
import subprocess
import sys
import time
from pathlib import Path

BENCH = Path(__file__).resolve().parent / "out/bench"
SEVERAL = (2, 4)


def seconds(workers, count, processes=1):
    """The seconds that this many processes at once take for the work, each with these workers."""
    words = [BENCH, f"even-flights-{workers}", str(count)]
    start = time.perf_counter()
    running = [subprocess.Popen(words, stdout=subprocess.DEVNULL) for _ in range(processes)]
    if any([process.wait() for process in running]):
        sys.exit("gain: the program failed")
    return time.perf_counter() - start


def least_seconds(count, rounds):
    """The least seconds of these rounds: for no flight, for one worker, and by the number of
    workers and of processes."""
    nothing, alone = [], []
    together = {n: [] for n in SEVERAL}
    apart = {n: [] for n in SEVERAL}
    for _ in range(rounds):
        nothing.append(seconds(1, 0))
        alone.append(seconds(1, count))
        for n in SEVERAL:
            together[n].append(seconds(n, count))
            apart[n].append(seconds(1, count, n))
    best = {n: (min(together[n]), min(apart[n])) for n in SEVERAL}
    return min(nothing), min(alone), best


def main():
    parser = argparse.ArgumentParser()
    parser.add_argument("count", type=int, nargs="?", default=5, metavar="COUNT")
    parser.add_argument("--rounds", type=int, default=9)
    words = parser.parse_args()
    nothing, alone, best = least_seconds(words.count, words.rounds)
    one = alone - nothing
    print(f"1 worker: {one:.3f} seconds")
    for n, (workers, processes) in best.items():
        taken, apart = workers - nothing, processes - nothing
        print(
            f"{n} workers: {taken:.3f} seconds, {one / taken:.2f} times as fast as one;"
            f" {n} processes do {n * one / apart:.2f} times what one does"
        )


if __name__ == "__main__":
    main()
