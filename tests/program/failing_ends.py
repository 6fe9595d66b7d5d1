#!/usr/bin/env python3
"""Runs the program with standard streams that take a byte at a time and fail once, at each read and each write in turn. It also counts the
threads that the program makes for its arguments.

    tests/program/failing_ends.py

If a read fails, only `io` is written. If a write to standard output fails, a beginning of the answer is written. If a write to standard error
fails, a beginning of the fault is written, or on a terminal of the hint after it, and nothing else changes. Pieces of seven bytes change no
answer. The last line counts what passed and failed.
"""

import functools
import os
import subprocess
import sys
import tempfile

sys.dont_write_bytecode = True
from rows import (  # noqa: E402
    APART, INSERT_THEN_GET, NO_PLAN, OTHER_TOP_LEVEL, TOO_MANY_CALLS, TOP, answer, compare, on_terminal, without_hints,
)

MISSED_INSERT = """{"events":[
    {"invoke":["insert",5,7],"process":0},{"answer":null,"process":0},
    {"invoke":["get",5],"process":1},{"answer":null,"process":1}],"version":1}"""
STREAM = """{"invoke":["insert",5,7],"process":0}
{"invoke":["get",5],"process":70}
{"answer":null,"process":0}
{"answer":7,"process":70}
"""
PLAN = '{"scripts":[[["insert",5,7],["get",5]]],"version":1}'
DONE = (
    '{"events":[{"invoke":["insert",5,7],"process":0},{"answer":null,"process":0},'
    '{"invoke":["get",5],"process":0},{"answer":7,"process":0}],"version":1}\n'
)
REPLAY = (
    '{"limit":1000,"rows":[0,0,0,1],"schedule":[[0,"end"],[0,"end"]],"scripts":[[["insert",5,7],["get",5]]],'
    '"variant":"optimistic","version":1}'
)
DRAWN = "generate --seed 42 --processes {} --calls 2 --get 100 --insert 0 --remove 0 --scan 0 --lo 5 --hi 5"
GET_PLAN = '{"scripts":[[["get",5]]],"version":1}'
DRAWN_REPLAY = (
    '{"limit":3,"rows":[1024,256,64,16],"schedule":[[0,"turns",3]],"scripts":[[["get",5]]],"variant":"optimistic","version":1}\n'
)
REFUTED = '{"calls":[0,1],"hi":5,"lo":5,"verdict":"no"}\n'
EXPLAINED = (
    '{"answer":null,"call":["insert",5,7],"event":0,"process":0,"reason":"order"}\n'
    '{"answer":null,"call":["get",5],"event":2,"misses":[{"call":["insert",5,7],"event":0,"process":0}],"process":1,"reason":"order"}\n'
    '{"events":[{"invoke":["insert",5,7],"process":0},{"answer":null,"process":0},'
    '{"invoke":["get",5],"process":0},{"answer":null,"process":0}],"version":1}\n'
    '{"front":[0],"holds":[[5,7]],"next":[{"answer":null,"event":2,"would":7}]}\n'
)

# Words, a text, the status and the output.
ANSWERED = [
    ("check 0 1", INSERT_THEN_GET, 0, "ok\n"),
    ("check 0 1", MISSED_INSERT, 1, "fault: 4 Reply at place 1\n"),
    ("judge --workers 2", MISSED_INSERT, 1, REFUTED),
    ("locate", MISSED_INSERT, 1, '{"call":1,"event":3,"verdict":"no"}\n'),
    ("explain", MISSED_INSERT, 1, REFUTED + EXPLAINED),
    ("follow", STREAM, 0, '{"calls":2,"overlap":0.50,"verdict":"yes"}\n'),
    ("schedule --seed 1 --limit 3", GET_PLAN, 0, DRAWN_REPLAY),
    ("drive", PLAN, 0, DONE),
    ("drive --tree locked", PLAN, 0, DONE),
    ("replay", REPLAY, 0, DONE),
]

# Words, the status and what a terminal shows, on the text `{}`.
REFUSED = [
    ("check", 3, OTHER_TOP_LEVEL),
    ("judge", 3, OTHER_TOP_LEVEL),
    ("locate", 3, OTHER_TOP_LEVEL),
    (DRAWN.format(0), 3, TOO_MANY_CALLS),
    ("schedule --seed 1", 3, NO_PLAN),
    ("drive", 3, NO_PLAN),
    ("run", 5, "error: unrecognized subcommand 'run'\n\nUsage: bench <COMMAND>\n\nFor more information, try '--help'.\n"),
]

# A history of two segments that loses its order at its last event, an answer.
LOST_AT_LAST = """{"events":[
    {"invoke":["insert",1,10],"process":0},{"invoke":["insert",9,90],"process":1},
    {"answer":null,"process":0},{"answer":null,"process":1},
    {"invoke":["get",1],"process":0},{"answer":10,"process":0},
    {"invoke":["get",9],"process":1},{"answer":91,"process":1}],"version":1}"""
TWO_KEYS = """{"events":[
    {"invoke":["insert",1,10],"process":0},{"answer":null,"process":0},
    {"invoke":["insert",9,90],"process":0},{"answer":null,"process":0}],"version":1}"""
TWO_SCRIPTS = '{"scripts":[[["get",5]],[["insert",5,7]]],"version":1}'

ORDERED = b'{"order":[0,1],"verdict":"yes"}\n'

# Arguments, a text, the status, how the output begins, and how many threads are made. These are one fewer than the workers of a verdict, or than the
# scripts, since the first thread does a part.
THREADS = [
    ("judge", TWO_KEYS, 0, ORDERED, 0),
    ("judge --workers 1", TWO_KEYS, 0, ORDERED, 0),
    ("judge --workers 2", TWO_KEYS, 0, ORDERED, 1),
    ("judge --workers 64", TWO_KEYS, 0, ORDERED, 63),
    ("locate", LOST_AT_LAST, 1, b'{"call":3,"event":7,"verdict":"no"}\n', 0),
    ("draw --workers 2", LOST_AT_LAST, 1, b"<svg", 1),
    ("draw --workers 64", LOST_AT_LAST, 1, b"<svg", 63),
    ("page --workers 2", LOST_AT_LAST, 1, b"<!doctype html>", 1),
    ("drive", TWO_SCRIPTS, 0, b'{"events":[{"invoke"', 1),
    ("drive --tree coupled", TWO_SCRIPTS, 0, b'{"events":[{"invoke"', 1),
    ("drive --tree optimistic", TWO_SCRIPTS, 0, b'{"events":[{"invoke"', 1),
    ("drive --tree locked", TWO_SCRIPTS, 0, b'{"events":[{"invoke"', 1),
]


# Words, a text, the status and the output, and the note that a terminal shows.
NOTED = ("follow", '{"invoke":["insert",5,7],"process":0}\n{"answer":null,"process":0}\n{"invoke":["get",5],"process":0}\n', 0,
         '{"calls":2,"overlap":0.00,"verdict":"yes"}\n', APART)


def failing(library, end, number, words, text, ask=answer):
    """The answer where the call of this number at an end fails, and whether there was one."""
    with tempfile.TemporaryDirectory() as folder:
        mark = os.path.join(folder, "failed")
        environment = {"LD_PRELOAD": library, "AT_ONCE": "1", end: str(number), "FAILED": mark}
        return ask(words.split(), text, environment), os.path.exists(mark)


def failures(library, end, words, text, calls, wanted, ask=answer):
    """What is wrong if each call at an end fails in turn: how many there have to be, and what is expected of each, and after the last."""
    for number in range(1, calls + 2):
        got, failed = failing(library, end, number, words, text, ask)
        if got != wanted(number) or failed != (number <= calls):
            return f"{end} {number} of {words}: {got}, failed: {failed}, and wanted is {wanted(number)}"
    return None


def reads_fail(library, words, text, status, output):
    """A read for each byte, and one that finds the end."""
    calls, answered = len(text) + 1, (status, output.encode(), b"")
    return failures(library, "READ", words, text, calls, lambda number: (6, b"", b"io\n") if number <= calls else answered)


def writes_fail(library, words, text, status, output):
    told = output.encode()
    fails = lambda number: (6, told[: number - 1], b"io\n") if number <= len(told) else (status, told, b"")
    return failures(library, "OUTPUT", words, text, len(told), fails)


def faults_fail(library, words, status, fault):
    told = without_hints(status, fault)
    return failures(library, "ERROR", words, "{}", len(told), lambda number: (status, b"", told[: number - 1]))


def hints_fail(library, words, text, status, output, told):
    """On a terminal: after a line that breaks off comes the whole hint, and a hint that breaks off is the end."""
    line, told = without_hints(status, told), told.encode()
    shown = lambda number: line[: number - 1] + told[len(line) :] if number <= len(line) else told[: number - 1]
    return failures(library, "ERROR", words, text, len(told), lambda number: (status, output.encode(), shown(number)), on_terminal)


def is_unread(library):
    """What is wrong with words that draw a plan from the greatest numbers, where each read fails."""
    words = "generate --seed 18446744073709551615 --processes 4294967295 --calls 4294967295 --get 4294967295 --insert 101 "
    words += "--remove 0 --scan 0 --lo 0 --hi 4294967295"
    got, failed = failing(library, "READ", 1, words, "{}")
    wanted = (3, b"", b"plan: 1 BadMix\n")
    return None if got == wanted and not failed else f"{got}, read: {failed}"


def by_sevens(library, words, text, status, output, fault):
    got = answer(words.split(), text, {"LD_PRELOAD": library, "AT_ONCE": "7"})
    wanted = (status, output.encode(), without_hints(status, fault))
    return None if got == wanted else f"{words} by pieces of 7 bytes: {got}, and wanted is {wanted}"


def threads(library, words, text, status, begins, count):
    """What is wrong with how many threads are made."""
    with tempfile.TemporaryDirectory() as folder:
        path = os.path.join(folder, "threads")
        found, output, told = answer(words.split(), text, {"LD_PRELOAD": library, "THREADS": path})
        made = os.path.getsize(path) if os.path.exists(path) else 0
    is_right = (found, output[: len(begins)], told, made) == (status, begins, b"", count)
    return None if is_right else f"{words}: {made} threads, {found}, {output[:300]}, {told}"


def main():
    with tempfile.TemporaryDirectory() as folder:
        library = os.path.join(folder, "ends.so")
        source = os.path.join(TOP, "tests", "fixtures", "ends.c")
        subprocess.run([os.environ.get("CC", "cc"), "-shared", "-fPIC", "-O1", "-o", library, source, "-ldl"], check=True)
        plan = (DRAWN.format(1), "", 0, '{"scripts":[[["get",5],["get",5]]],"version":1}\n')
        others = [functools.partial(reads_fail, library, *row) for row in ANSWERED]
        others += [functools.partial(writes_fail, library, *row) for row in [*ANSWERED, plan]]
        others += [functools.partial(faults_fail, library, *row) for row in REFUSED]
        others += [functools.partial(hints_fail, library, words, "{}", status, "", told) for words, status, told in REFUSED]
        others += [functools.partial(hints_fail, library, *NOTED)]
        others += [functools.partial(by_sevens, library, *row, "") for row in [*ANSWERED, plan]]
        others += [functools.partial(by_sevens, library, words, "{}", status, "", fault) for words, status, fault in REFUSED]
        others += [functools.partial(is_unread, library)]
        others += [functools.partial(threads, library, *row) for row in THREADS]
        return compare([], others)


if __name__ == "__main__":
    sys.exit(main())
