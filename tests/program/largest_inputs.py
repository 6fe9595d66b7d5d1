#!/usr/bin/env python3
"""Runs the program on inputs as large as they may be, with ample memory. They are histories, streams, replays and plans with as many
starting pairs, as many processes, and as many calls of one process.

    tests/program/largest_inputs.py

A body that answers out-of-memory for every large input meets most contracts. The last line counts what passed and failed.
"""

import functools
import json
import re
import sys

sys.dont_write_bytecode = True
from rows import MOST_CALLS, MOST_PAIRS, answer, as_bytes, compare, numbers, piped, report_of, scan_from_pairs, started  # noqa: E402

MOST_PROCESSES = 64
VARIANTS = ("coupled", "optimistic")
WELL = '{"verdict":"yes"}\n'
ALL_IN_TURN = f'{{"order":[{numbers(MOST_CALLS)}],"verdict":"yes"}}\n'
# A plan of gets, by the number of its processes and of the calls of each.
GETS = "generate --seed 7 --get 100 --insert 0 --remove 0 --scan 0 --lo 0 --hi 99".split()
SHARES = ((1, MOST_CALLS), (MOST_PROCESSES, MOST_CALLS // MOST_PROCESSES))


def rows_from_pairs():
    """A scan of as many pairs as there may be at the start lists all of them, or none, which gives it no order."""
    for listed in (MOST_PAIRS, 0):
        text = started(*scan_from_pairs(MOST_PAIRS, listed))
        report = '{"order":[0],"verdict":"yes"}\n' if listed else '{"calls":[0],"hi":4095,"lo":0,"verdict":"no"}\n'
        located = WELL if listed else '{"call":0,"event":1,"verdict":"no"}\n'
        checked = "ok\n" if listed else "fault: 4 Reply at place 0\n"
        status = 0 if listed else 1
        yield ["check", "0"], text, status, checked, ""
        yield ["judge", "--workers", "4"], text, status, report, ""
        yield ["locate"], text, status, located, ""


def begins(words, text, status, pattern):
    """What is wrong where the status, and all of the output by a regular expression, are wanted."""
    found, output, told = answer(words, text)
    is_right = found == status and re.fullmatch(as_bytes(pattern), output) and not told
    return None if is_right else f"{' '.join(words)} on {text[:100]}: {found}, {output[:300]}, {told[:300]}"


def others_from_pairs():
    """The same explained, drawn and followed, where more is written than is worked out here."""
    for listed in (MOST_PAIRS, 0):
        pairs, events = scan_from_pairs(MOST_PAIRS, listed)
        text, status = started(pairs, events), 0 if listed else 1
        report = r'\{"order":\[0\],"verdict":"yes"\}\n' if listed else r'\{"calls":\[0\],"hi":4095,"lo":0,"verdict":"no"\}\n([^\n]+\n)+'
        yield functools.partial(begins, ["explain"], text, status, report)
        yield functools.partial(begins, ["draw", "--calls", "0"], text, status, r"<svg [^\0]*</svg>\n")
        lines = f'{{"start":[{pairs}],"version":2}}\n' + "".join(f"{{{it}}}\n" for it in events[1:-1].split("},{"))
        lost = re.escape(report_of(0, 1, [(key, [0], [1], [None]) for key in range(MOST_PAIRS)])) + r"\n[^\n]+\n"
        followed = r'\{"calls":1,"overlap":0\.00,"verdict":"yes"\}\n' if listed else lost
        yield functools.partial(begins, ["follow"], lines, status, followed)


def replay(variant, scripts, schedule, start=None):
    """The text of a replay on a tree with room for as many leaves as there may be."""
    value = {"limit": 1_000_000, "rows": [64, 32, 32, 32], "schedule": schedule, "scripts": scripts, "variant": variant, "version": 1}
    if start is not None:
        value |= {"start": start, "version": 2}
    return json.dumps(value, separators=(",", ":"))


def rows_of_replays():
    """A tree that starts with as many pairs as there may be."""
    pairs = [[key, 1] for key in range(MOST_PAIRS)]
    for variant in VARIANTS:
        listed = ",".join(f"[{key},1]" for key in range(MOST_PAIRS))
        yield ["replay"], replay(variant, [[]], [], pairs), 0, started(listed, "") + "\n", ""


def in_turn(variant, processes, calls):
    """What is wrong with a replay of so many processes that do so many gets each, one after another: they are an order."""
    schedule = [[process, "end"] for process in range(processes) for _ in range(calls)]
    status, history, told = answer(["replay"], replay(variant, [[["get", 5]] * calls] * processes, schedule))
    judged = answer(["judge"], history)
    is_right = (status, told) == (0, b"") and judged == (0, ALL_IN_TURN.encode(), b"")
    return None if is_right else f"a replay of {processes} scripts of {calls} calls, {variant}: {status}, {told}, {judged}"


def driven(tree, processes, calls):
    """What is wrong with so many threads that do so many gets each."""
    drawn = [*GETS, "--processes", str(processes), "--calls", str(calls)]
    found = piped(drawn, ["drive", "--tree", tree], ["judge"])
    is_right = found[0] == 0 and not found[2] and len(json.loads(found[1])["order"]) == MOST_CALLS
    return None if is_right else f"{processes} scripts of {calls} calls at the {tree} tree: {found}"


def main():
    others = list(others_from_pairs())
    for share in SHARES:
        others += [functools.partial(in_turn, variant, *share) for variant in VARIANTS]
        others += [functools.partial(driven, tree, *share) for tree in ("locked", *VARIANTS)]
    return compare([*rows_from_pairs(), *rows_of_replays()], others)


if __name__ == "__main__":
    sys.exit(main())
