#!/usr/bin/env python3
"""Compares two reports of `scionet_view report --json`: what a change takes from which pairs of ASes,
and what it gives them. A line is printed for each pair that is not the same in both:

    FROM TO: paths 8 to 4; survives 1 to 0; needs LINK..; needs no more LINK..

A pair that has no paths left is told first, as `lost`; one that had none before, as `won`; one that
stands in one report alone, as that: both want the same --from and --to. The last line has the numbers
of pairs, of those that differ, and of those that lost or won all their paths. The status is 0 if all
pairs are the same, 1 if some are not, and 2 if a file is no report, or has no pair.

    scionet_view report --json < lines.txt > before.json
    { cat lines.txt; echo '{"do":"cut","ia":"1-ff00:0:110","if":1}'; } |
      scionet_view report --json > after.json
    python3 tools/compare_reports.py before.json after.json"""
import argparse
import json
import sys
from collections.abc import Iterator
from typing import Any

Report = dict[tuple[str, str], dict[str, Any]]

# The members of a pair that are numbers, and those that are lists.
NUMBERS, LISTS = ("paths", "survives"), ("needs", "through")


class Fault(Exception):
    """A file that is no report."""


def named(item: Any) -> str:
    """An AS, or a link by its ends."""
    if isinstance(item, str):
        return item
    return "~".join(f"{item[end]['ia']}#{item[end]['if']}" for end in "ab")


def read(path: str) -> Report:
    """The pairs of a report."""
    found: Report = {}
    with open(path, encoding="utf-8") as lines:
        for number, line in enumerate(lines, 1):
            try:
                one = json.loads(line)
                if "link" in one or "cut" in one:
                    continue
                for name in LISTS:
                    one[name] = None if one[name] is None else [*map(named, one[name])]
                found[one["from"], one["to"]] = {it: one[it] for it in (*NUMBERS, *LISTS, "more")}
            except (ValueError, KeyError, TypeError) as fault:
                raise Fault(f"{path}: line {number} is no line of 'report --json'") from fault
    if not found:
        raise Fault(f"{path}: no pair is in it")
    return found


def told(number: int | None, more: bool) -> str:
    """A number, or that it is not known; one that may be larger has a '+' behind it."""
    return "unknown" if number is None else f"{number}{'+' if more else ''}"


def numbers(one: dict[str, Any]) -> dict[str, str]:
    """The numbers of a pair, as a report without --json has them."""
    most = one["survives"] == 3
    return {"paths": told(one["paths"], one["more"]), "survives": told(one["survives"], most)}


def differences(one: dict[str, Any], other: dict[str, Any]) -> Iterator[str]:
    """What is not the same of a pair, before and after."""
    before, after = numbers(one), numbers(other)
    if before["paths"] != after["paths"]:
        yield f"paths {before['paths']} to {after['paths']}"
    if not other["paths"]:
        return
    if before["survives"] != after["survives"]:
        yield f"survives {before['survives']} to {after['survives']}"
    for name, verb in (("needs", "needs"), ("through", "passes")):
        old, new = one[name] or [], other[name] or []
        if more := [it for it in new if it not in old]:
            yield f"{verb} {' '.join(more)}"
        if other[name] is not None and (less := [it for it in old if it not in new]):
            yield f"{verb} no more {' '.join(less)}"


def compared(before: Report, after: Report) -> Iterator[tuple[int, str]]:
    """A line for each pair that is not the same, with its place among the lines."""
    for pair in {**before, **after}:
        if pair not in before or pair not in after:
            yield 3, f"{' '.join(pair)}: only {'before' if pair in before else 'after'}"
            continue
        one, other = before[pair], after[pair]
        if one == other:
            continue
        text = "; ".join(differences(one, other))
        if one["paths"] and not other["paths"]:
            yield 0, f"{' '.join(pair)}: lost; {text}"
        elif other["paths"] and not one["paths"]:
            yield 1, f"{' '.join(pair)}: won; {text}"
        elif text:
            yield 2, f"{' '.join(pair)}: {text}"


def main() -> int:
    words = argparse.ArgumentParser(
        description=__doc__, formatter_class=argparse.RawDescriptionHelpFormatter
    )
    words.add_argument("before", help="the report before a change")
    words.add_argument("after", help="the report after it")
    given = words.parse_args()
    try:
        before, after = read(given.before), read(given.after)
    except (OSError, UnicodeDecodeError, Fault) as fault:
        print(f"compare_reports: {fault}", file=sys.stderr)
        return 2
    rows = sorted(compared(before, after), key=lambda row: row[0])
    for _, line in rows:
        print(line)
    lost, won = (sum(place == it for place, _ in rows) for it in (0, 1))
    count = len({**before, **after})
    print(f"{count} pairs, {len(rows)} differ, {lost} lost all paths, {won} won some")
    return 1 if rows else 0


if __name__ == "__main__":
    sys.exit(main())
