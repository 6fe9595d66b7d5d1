#!/usr/bin/env python3
"""Checks what a terminal shows next to an answer and after a fault, and what it does not show.

    tests/program/hints.py

Each row is run twice. With a terminal as standard error it shows the line of a fault and the hint; a pipe gets only the line of the fault. The
expected lines were worked out by hand. The last line counts what passed and failed.
"""

import functools
import sys

sys.dont_write_bytecode = True
from rows import APART, EXPLAIN, JSON, LOCATE, OTHER_TOP_LEVEL, RARE, as_bytes, compare, history, numbers, on_terminal, stream  # noqa: E402
from texts import EVENT  # noqa: E402

INSERT_THEN_GET = '{"invoke":["insert",5,7],"process":0},{"answer":null,"process":0},{"invoke":["get",5],"process":0},{"answer":7,"process":0}'
GET_MISSES_INSERT = INSERT_THEN_GET.replace('"answer":7', '"answer":null')
ONE_GET = '{"invoke":["get",5],"process":0},{"answer":null,"process":0}'
# Two calls that overlap; others come after them.
OVERLAP = (
    '{"invoke":["insert",5,7],"process":0},{"invoke":["get",5],"process":1},{"answer":null,"process":0},{"answer":7,"process":1}'
    + ',{"invoke":["get",5],"process":0},{"answer":7,"process":0}' * 8
)
ONE_MORE = OVERLAP + ',{"invoke":["get",5],"process":0},{"answer":7,"process":0}'

BOTH = '{{"calls":[0,1],"hi":5,"lo":5,"verdict":"{}"}}\n'

# Answers: words, a text, the status, the output, and what a terminal shows beside it.
ANSWERS = [
    (["judge"], history(GET_MISSES_INSERT), 1, BOTH.format("no"), EXPLAIN),
    (["judge", "--budget", "1"], history(GET_MISSES_INSERT), 2, BOTH.format("undecided"), LOCATE),
    (["judge"], history(INSERT_THEN_GET), 0, '{"order":[0,1],"verdict":"yes"}\n', APART),
    # One other call was open at one invocation of 11, and of 10.
    (["judge"], history(ONE_MORE), 0, f'{{"order":[{numbers(11)}],"verdict":"yes"}}\n', RARE.format("0.09")),
    (["judge", "--workers", "4"], history(ONE_MORE), 0, f'{{"order":[{numbers(11)}],"verdict":"yes"}}\n', RARE.format("0.09")),
    (["judge"], history(OVERLAP), 0, f'{{"order":[{numbers(10)}],"verdict":"yes"}}\n', ""),
    # One call has no other.
    (["judge"], history(ONE_GET), 0, '{"order":[0],"verdict":"yes"}\n', ""),
    (["judge"], history(""), 0, '{"order":[],"verdict":"yes"}\n', ""),
    (["follow"], stream(INSERT_THEN_GET), 0, '{"calls":2,"overlap":0.00,"verdict":"yes"}\n', APART),
    (["follow"], stream(ONE_MORE), 0, '{"calls":11,"overlap":0.09,"verdict":"yes"}\n', RARE.format("0.09")),
    (["follow"], stream(OVERLAP), 0, '{"calls":10,"overlap":0.10,"verdict":"yes"}\n', ""),
    (["follow"], stream(ONE_GET), 0, '{"calls":1,"overlap":0.00,"verdict":"yes"}\n', ""),
    (["follow"], "", 0, '{"calls":0,"overlap":0.00,"verdict":"yes"}\n', ""),
    (
        ["follow"], stream(GET_MISSES_INSERT), 1,
        '{"call":1,"event":3,"keys":[{"invoked":[2],"key":5,"put":[0],"values":[7]}],"verdict":"no"}\n'
        '{"events":[{"invoke":["get",5],"process":0},{"answer":null,"process":0}],"start":[[5,7]],"version":2}\n', "",
    ),
    (["check", "0", "1"], history(INSERT_THEN_GET), 0, "ok\n", ""),
    (["check", "1", "0"], history(INSERT_THEN_GET), 1, "fault: 4 Reply at place 0\n", ""),
    (["locate"], history(INSERT_THEN_GET), 0, '{"verdict":"yes"}\n', ""),
]

READS_HISTORIES = "wanted an event in a line of its own; bench judge and bench locate read histories\n"
NO_JSON = "history: 2 NotJson\n"
READS_STREAMS = NO_JSON + "wanted JSON in UTF-8; bench follow reads streams of events\n"
GET = '{"invoke":["get",5],"process":0}'

# Texts that spell no history, and what a terminal shows of each.
TEXTS = [
    # Streams.
    (stream(INSERT_THEN_GET), READS_STREAMS),
    (stream(GET_MISSES_INSERT, "[5,7]"), READS_STREAMS),
    (stream(INSERT_THEN_GET.replace('"process":0', '"process":70')), READS_STREAMS),
    (f" {GET} \r\n{GET}", READS_STREAMS),
    # A first line alone is JSON.
    (f" {GET} \r\n\n", OTHER_TOP_LEVEL),
    # No stream begins so: an event that wants starting pairs before it, a history, and an event that is cut short.
    ('{"invoke":["replace",5,7,8],"process":0}\n{"answer":7,"process":0}\n', NO_JSON + JSON),
    (history(INSERT_THEN_GET) + "\n" + GET, NO_JSON + JSON),
    ('{"invoke":["get",5],"proc\n' + GET, NO_JSON + JSON),
    ("\n" + stream(INSERT_THEN_GET), NO_JSON + JSON),
]


def short(line):
    return line if len(line) <= 80 else line[:80] + ".."


# First lines of streams, each with what a terminal shows after the line that is there.
FIRST_LINES = [
    (history(""), READS_HISTORIES),
    (history(INSERT_THEN_GET), READS_HISTORIES),
    (f'{{"events":[{GET_MISSES_INSERT}],"start":[[5,7]],"version":2}}', READS_HISTORIES),
    ('{ "version": 3, "start": [], "events": [{"invoke":["insert",5,7],"process":0},{"answer":"done","process":0}] }', READS_HISTORIES),
    # No histories: an answer of no open call, a version that has no start, a key twice, a process beyond the limit.
    (history('{"answer":7,"process":0}'), EVENT),
    ('{"events":[],"start":[],"version":1}', EVENT),
    ('{"events":[],"start":[[5,7],[5,8]],"version":2}', EVENT),
    (history('{"invoke":["get",5],"process":64}'), EVENT),
    ('{"events":[]}', EVENT),
]


def rows():
    """Words, a text, and the status, standard output and what a terminal shows that are wanted."""
    yield from ANSWERS
    for text, told in TEXTS:
        for words in (["check", "0", "1"], ["judge"], ["locate"], ["explain"], ["draw"], ["page"]):
            yield words, text, 3, "", told
    for line, told in FIRST_LINES:
        for text in (line, f"{line}\n{GET}\n"):
            yield ["follow"], text, 3, "", f"stream: line 1: 4 Shape\nfound {short(line)}; {told}"
        # A line after the first one never takes the place of another text.
        yield ["follow"], f"{GET}\n{line}\n", 3, "", f"stream: line 2: 4 Shape\nfound {short(line)}; {EVENT}"


def shown(row):
    """How what a terminal shows differs from the wanted."""
    words, text, status, output, told = row
    got, wanted = on_terminal(words, text), (status, as_bytes(output), as_bytes(told))
    return None if got == wanted else f"{' '.join(words)} on {text[:300]}: {str(got)[:600]}, and wanted is {str(wanted)[:600]}"


def main():
    return compare(rows(), [functools.partial(shown, row) for row in rows()])


if __name__ == "__main__":
    sys.exit(main())
