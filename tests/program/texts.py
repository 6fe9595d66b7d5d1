#!/usr/bin/env python3
"""Runs the program on texts of histories and lines of streams that it has to refuse, and on the longest that it reads.

    tests/program/texts.py

Each text has one first fault, which was worked out by hand, and so were the two lines that a terminal shows of it. If standard error is no
terminal, it has only the first line. Every subcommand on histories says the same. The last line counts what passed and failed.
"""

import json
import sys

sys.dont_write_bytecode = True
from rows import (  # noqa: E402
    APART, INSERT_THEN_GET, JSON, LENGTH, LONGEST_TEXT, MOST_CALLS, OTHER_TOP_LEVEL, compare, gets, history, pairs_listed, spaced, stream,
)

# What is said after the line of a fault.
HISTORY = "wanted an event in a line of its own; bench judge and bench locate read histories\n"
EVENT = (
    'wanted {"process":P,"invoke":C} or {"process":P,"answer":A}, in version 3 also with a "note"; C is ["get",K], ["insert",K,V], '
    '["remove",K], ["scan",LO,HI] with LO <= HI, or from version 2 on ["replace",K,OLD,NEW]; A is null, V, [[K,V],..], "refused", '
    'or in version 3 "done", "found" or "other"; numbers are from 0 to 18446744073709551615\n'
)
LIMITS = "wanted at most 4096 starting pairs, processes from 0 to 63, at most 4096 calls, at most 4096 pairs in an answer\n"
TURN = "wanted an invocation where the process has no open call, an answer where it has one\n"
PAIR = "wanted [K,V] with K above that of the pair before; numbers are from 0 to 18446744073709551615\n"
START = 'wanted {"version":V,"start":[..]}; V is 2 or 3\n'
PROCESSES = "wanted processes from 0 to 65535, and at most 17592186044414 events\n"
LONGEST_LINE = 1_048_576
LINE_LENGTH = "wanted at most 1048576 bytes\n"

# Texts of another top level.
OTHER_TOP_LEVELS = [
    "1",
    "[]",
    "{}",
    '{"events":[]}',
    '{"version":1}',
    '{"events":[],"version":3}',
    '{"events":[],"version":4}',
    '{"events":[],"version":"1"}',
    '{"events":{},"version":1}',
    '{"Events":[],"version":1}',
    '{"events":[],"more":0,"version":1}',
    '{"events":[],"start":[],"version":1}',
    '{"events":[],"version":2}',
    '{"events":[],"start":[],"version":4}',
    '{"events":[],"start":{},"version":2}',
    '{"events":[],"start":{},"version":3}',
    '{"events":{},"start":[7],"version":2}',
    '{"events":[],"more":[],"start":[],"version":2}',
    '{"events":[],"note":0,"start":[],"version":3}',
]

# Texts that are no JSON, and differ from the compact form in a few bytes.
NO_JSON = [
    '{"events":[],"version":01}',
    '{"events":[],"version":1}1',
    '{"events":[],"version":1}}',
    '{"events":[]],"version":1}',
    '{"events":[,"version":1}',
    '{"events":[],"start":[[5,7],],"version":2}',
    '{"events":[{"invoke":["get",05],"process":0}],"version":1}',
    '{"events":[{"invoke":["get",5],"process":00}],"version":1}',
    '{"events":[{"invoke":["get",5],"process":0},],"version":1}',
    '{"events":[{"invoke":["get",5],"process":0}{"answer":null,"process":0}],"version":1}',
]

# First events of another form.
OTHER_FORMS = [
    "0",
    "{}",
    '{"process":0}',
    '{"invoke":["get",5]}',
    '{"invoke":["get",5],"process":0,"time":1}',
    '{"answer":null,"invoke":["get",5]}',
    '{"answer":null,"invoke":["get",5],"process":0}',
    '{"invoke":["get",5],"process":-1}',
    '{"invoke":["get",5],"process":"0"}',
    '{"invoke":[],"process":0}',
    '{"invoke":["get"],"process":0}',
    '{"invoke":["get",-1],"process":0}',
    '{"invoke":["get","5"],"process":0}',
    '{"invoke":["get",5,7],"process":0}',
    '{"invoke":["insert",5],"process":0}',
    '{"invoke":["insert",5,7,9],"process":0}',
    '{"invoke":["Get",5],"process":0}',
    '{"invoke":["scan",2,1],"process":0}',
    '{"invoke":["scan",2,1],"process":64}',
    '{"invoke":["replace",1,2,3],"process":0}',
    '{"invoke":["replace",1,2,3],"process":300}',
    '{"answer":true,"process":0}',
    '{"answer":-1,"process":0}',
    '{"answer":"Refused","process":0}',
    '{"answer":{},"process":0}',
    '{"answer":[1,2],"process":0}',
    '{"answer":[[1]],"process":0}',
    '{"answer":[[1,2],[1,2,3]],"process":0}',
    '{"answer":[[1,null]],"process":300}',
]

# First events that version 3 alone has, with faults that come later there.
LATER_FORMS = [
    '{"answer":"done","process":0}',
    '{"answer":"found","process":0}',
    '{"answer":"other","process":300}',
    '{"invoke":["get",5],"note":0,"process":0}',
    '{"answer":null,"note":{"line":[7,null]},"process":0}',
    '{"answer":"done","note":"","process":0}',
]

# First events of a form that no version has, some with a note.
OTHER_NOTED_FORMS = [
    '{"note":0}',
    '{"note":"done","process":0}',
    '{"invoke":["get",5],"note":0}',
    '{"invoke":["get",5],"more":0,"process":0}',
    '{"invoke":["get",5],"notes":0,"process":0}',
    '{"invoke":["get",5],"note":0,"process":0,"time":1}',
    '{"answer":null,"invoke":["get",5],"note":0,"process":0}',
    '{"answer":true,"note":7,"process":0}',
    '{"answer":"Done","note":"done","process":0}',
    '{"answer":["done"],"process":0}',
    '{"invoke":["scan",2,1],"note":0,"process":300}',
    '{"invoke":["get",5],"note":0,"process":-1}',
]

# Events of version 3, and the two lines of a text that has them.
NOTED_EVENTS = [
    ('{"invoke":["get",5],"note":[],"process":64}', "history: 5 TooMany\n" + LIMITS),
    ('{"answer":"done","note":1.5,"process":300}', "history: 5 TooMany\n" + LIMITS),
    (
        '{"answer":"other","note":false,"process":1}',
        'history: 6 NotWellFormed at event 0\nfound {"answer":"other","note":false,"process":1}; ' + TURN,
    ),
    (
        '{"invoke":["get",5],"note":1,"process":0},{"invoke":["get",5],"process":0}',
        'history: 6 NotWellFormed at event 1\nfound {"invoke":["get",5],"process":0}; ' + TURN,
    ),
]

# A text of version 3 with notes of several kinds, of which 0 1 2 3 is an order.
NOTED = """
{"start": [[5, 7]], "version": 3, "events": [
    {"note": {"line": [1, null, -2.5e300, "12:00"]}, "process": 0, "invoke": ["insert", 5, 8]},
    {"note": {"answer": null, "process": 9}, "process": 0, "answer": "found"},
    {"note": null, "process": 0, "invoke": ["remove", 6]}, {"process": 0, "answer": "done", "note": [[]]},
    {"process": 1, "invoke": ["replace", 5, 7, 9]}, {"process": 1, "answer": "other"},
    {"process": 1, "note": true, "invoke": ["get", 5]}, {"process": 1, "note": "refused", "answer": 8}]}
"""

# Events, and the two lines of a text that has them.
OTHER_EVENTS = [
    ('{"invoke":["get",5],"process":0},{}', "history: 4 Shape at event 1\nfound {}; " + EVENT),
    ('{"invoke":["get",5],"process":64}', "history: 5 TooMany\n" + LIMITS),
    ('{"invoke":["scan",1,2],"process":256}', "history: 5 TooMany\n" + LIMITS),
    ('{"answer":null,"process":64}', "history: 5 TooMany\n" + LIMITS),
    ('{"answer":null,"process":18446744073709551615}', "history: 5 TooMany\n" + LIMITS),
    ('{"answer":null,"process":1}', 'history: 6 NotWellFormed at event 0\nfound {"answer":null,"process":1}; ' + TURN),
    (
        '{"invoke":["get",5],"process":0},{"invoke":["get",5],"process":0}',
        'history: 6 NotWellFormed at event 1\nfound {"invoke":["get",5],"process":0}; ' + TURN,
    ),
    (
        '{"invoke":["get",5],"process":1},{"invoke":["get",5],"process":1}',
        'history: 6 NotWellFormed at event 1\nfound {"invoke":["get",5],"process":1}; ' + TURN,
    ),
]

# Events after an open get, and what is shown of them: 80 bytes, and a question mark for a byte that is not printable ASCII.
SHOWN = [
    (' { "process" : 0 , "invoke" : [ "get" , 1.5 ] } ', '{"invoke":["get",1.5],"process":0}'),
    (r'"\u00e9 \t~"', r'"?? \t~"'),
    (
        '"1234567890123456789012345678901234567890123456789012345678901234567890123456789"',
        '"1234567890123456789012345678901234567890123456789012345678901234567890123456789..',
    ),
    (
        '"123456789012345678901234567890123456789012345678901234567890123456789012345678"',
        '"123456789012345678901234567890123456789012345678901234567890123456789012345678"',
    ),
]

# Starting pairs, events, and the two lines of a text that has them.
STARTS = [
    ("[5,7],[5,8]", "", "history: 8 Start at pair 1\nfound [5,8]; " + PAIR),
    ("[3,2],[1,2],7", "", "history: 8 Start at pair 1\nfound [1,2]; " + PAIR),
    ("[1,2],[3]", "", "history: 8 Start at pair 1\nfound [3]; " + PAIR),
    ('[1,"2"]', "", 'history: 8 Start at pair 0\nfound [1,"2"]; ' + PAIR),
    ("7", "7", "history: 8 Start at pair 0\nfound 7; " + PAIR),
    ("[1,2]", "7", "history: 4 Shape at event 0\nfound 7; " + EVENT),
    (
        "", '{"invoke":["replace",1,2],"process":0}',
        'history: 4 Shape at event 0\nfound {"invoke":["replace",1,2],"process":0}; ' + EVENT,
    ),
    (pairs_listed(4097), "", "history: 5 TooMany\n" + LIMITS),
]


def refused_texts():
    """Texts of histories, and the two lines of their faults."""
    for end in range(len(INSERT_THEN_GET)):
        yield INSERT_THEN_GET[:end], "history: 2 NotJson\n" + JSON
    for text in (*NO_JSON, b'{"events":[],"version":1}\xff', b'"\xff"', b"[" * 100_000):
        yield text, "history: 2 NotJson\n" + JSON
    for text in (*OTHER_TOP_LEVELS, "[" * 100 + "]" * 100):
        yield text, OTHER_TOP_LEVEL
    for event in OTHER_FORMS:
        yield history(event), f"history: 4 Shape at event 0\nfound {event}; {EVENT}"
    for events, told in OTHER_EVENTS:
        yield history(events), told
    for event, shown in SHOWN:
        text = f'{{"version":1,"events":[{{"process":0,"invoke":["get",5]}},{event}]}}'
        yield text, f"history: 4 Shape at event 1\nfound {shown}; {EVENT}"
    for pairs, events, told in STARTS:
        yield f'{{"events":[{events}],"start":[{pairs}],"version":2}}', told
    for event in LATER_FORMS:
        for text in (history(event), f'{{"events":[{event}],"start":[],"version":2}}'):
            yield text, f"history: 4 Shape at event 0\nfound {event}; {EVENT}"
    for event in OTHER_NOTED_FORMS:
        for text in (history(event), *(f'{{"events":[{event}],"start":[],"version":{version}}}' for version in (2, 3))):
            yield text, f"history: 4 Shape at event 0\nfound {event}; {EVENT}"
    for events, told in NOTED_EVENTS:
        yield f'{{"events":[{events}],"start":[],"version":3}}', told
    yield '{"events":[{}],"start":[7],"version":3}', "history: 8 Start at pair 0\nfound 7; " + PAIR
    yield history(gets(MOST_CALLS + 1)), "history: 5 TooMany\n" + LIMITS
    pairs = ",".join(["[5,7]"] * 4097)
    yield history(f'{{"invoke":["scan",0,9],"process":0}},{{"answer":[{pairs}],"process":0}}'), "history: 5 TooMany\n" + LIMITS
    for text in (spaced(history(""), LONGEST_TEXT + 1), b"\xff" * (LONGEST_TEXT + 1)):
        yield text, "history: 1 TooLong\n" + LENGTH


# Lines, and their fault as the first line of a stream, and after an event.
OTHER_LINES = [
    ("", "2 NotJson", JSON),
    (" ", "2 NotJson", JSON),
    ("{", "2 NotJson", JSON),
    ("{}{}", "2 NotJson", JSON),
    ('{"answer":7,"process":3},', "2 NotJson", JSON),
    ("7", "4 Shape", EVENT),
    ("[]", "4 Shape", EVENT),
    ("{}", "4 Shape", EVENT),
    ('{"process":0}', "4 Shape", EVENT),
    ('{"invoke":["get",5]}', "4 Shape", EVENT),
    ('{"invoke":["get",5],"process":0,"time":1}', "4 Shape", EVENT),
    ('{"answer":null,"invoke":["get",5]}', "4 Shape", EVENT),
    ('{"invoke":["get",5],"process":-1}', "4 Shape", EVENT),
    ('{"invoke":["get",5],"process":"0"}', "4 Shape", EVENT),
    ('{"invoke":["get"],"process":0}', "4 Shape", EVENT),
    ('{"invoke":["get",5,7],"process":0}', "4 Shape", EVENT),
    ('{"invoke":["insert",5],"process":0}', "4 Shape", EVENT),
    ('{"invoke":["Get",5],"process":0}', "4 Shape", EVENT),
    ('{"invoke":["scan",2,1],"process":0}', "4 Shape", EVENT),
    ('{"invoke":["scan",2,1],"process":65536}', "4 Shape", EVENT),
    ('{"invoke":["replace",1,2,3],"process":0}', "4 Shape", EVENT),
    ('{"invoke":["replace",5,1,2],"process":0}', "4 Shape", EVENT),
    ('{"invoke":["replace",1,2,3],"process":65536}', "4 Shape", EVENT),
    ('{"answer":true,"process":0}', "4 Shape", EVENT),
    ('{"answer":-1,"process":0}', "4 Shape", EVENT),
    ('{"answer":"Refused","process":0}', "4 Shape", EVENT),
    ('{"answer":[1,2],"process":0}', "4 Shape", EVENT),
    ('{"answer":[[1,null]],"process":65536}', "4 Shape", EVENT),
    ('{"invoke":["get",5],"process":65536}', "5 TooMany", PROCESSES),
    ('{"answer":null,"process":65536}', "5 TooMany", PROCESSES),
    ('{"answer":[[1,2]],"process":18446744073709551615}', "5 TooMany", PROCESSES),
]

# First lines with the members of starting pairs, or nearly so, and their faults.
FIRST_LINES = [
    ('{"start":[],"version":1}', "3 Version", START),
    ('{"start":[],"version":4}', "3 Version", START),
    ('{"start":[],"version":"2"}', "3 Version", START),
    ('{"start":{},"version":3}', "3 Version", START),
    ('{"start":{},"version":2}', "3 Version", START),
    ('{"start":[7],"version":1}', "3 Version", START),
    ('{"start":[7],"version":2}', "8 Start at pair 0", PAIR),
    ('{"start":[[1,"2"]],"version":2}', "8 Start at pair 0", PAIR),
    ('{"start":[[1,2],[3]],"version":2}', "8 Start at pair 1", PAIR),
    ('{"start":[[5,7],[5,8]],"version":2}', "8 Start at pair 1", PAIR),
    ('{"start":[[7,1],[7,2]],"version":2}', "8 Start at pair 1", PAIR),
    ('{"start":[[3,2],[4,2],[1,2],7],"version":2}', "8 Start at pair 2", PAIR),
    ('{"start":[[5,7],[5,8]],"version":3}', "8 Start at pair 1", PAIR),
    ('{"start":[7],"version":3}', "8 Start at pair 0", PAIR),
    ('{"note":0,"start":[],"version":3}', "4 Shape", EVENT),
    ('{"start":[]}', "4 Shape", EVENT),
    ('{"version":2}', "4 Shape", EVENT),
    ('{"events":[],"start":[],"version":2}', "4 Shape", HISTORY),
]

# An event of a process that no other line names, and a line of starting pairs.
ONE_EVENT = '{"invoke":["get",5],"process":9}'
NO_PAIRS = '{"start":[],"version":2}'


def refused_streams():
    """Streams, and the two lines of their faults."""
    for line, fault, wanted in OTHER_LINES:
        yield f"{line}\n", f"stream: line 1: {fault}\nfound {line}; {wanted}"
        yield f"{ONE_EVENT}\n{line}\n", f"stream: line 2: {fault}\nfound {line}; {wanted}"
    for line, fault, wanted in FIRST_LINES:
        yield f"{line}\n", f"stream: line 1: {fault}\nfound {line}; {wanted}"
    # What version 3 alone has, and what no version has.
    for line in LATER_FORMS:
        for front in (ONE_EVENT, NO_PAIRS):
            yield f"{front}\n{line}\n", f"stream: line 2: 4 Shape\nfound {line}; {EVENT}"
        yield f"{line}\n", f"stream: line 1: 4 Shape\nfound {line}; {EVENT}"
    for line in OTHER_NOTED_FORMS:
        for front in (ONE_EVENT, NO_PAIRS):
            yield f"{front}\n{line}\n", f"stream: line 2: 4 Shape\nfound {line}; {EVENT}"
    # In a stream of version 3 the former are out of turn where they answer nothing, and the latter of no form.
    first = '{ "version": 3, "start": [[5, 7]] }'
    for line in LATER_FORMS:
        if "answer" in line:
            yield f"{first}\n{line}\n", f"stream: line 2: 6 NotWellFormed\nfound {line}; {TURN}"
    for line in OTHER_NOTED_FORMS:
        yield f"{first}\n{line}\n", f"stream: line 2: 4 Shape\nfound {line}; {EVENT}"
    for line, fault, wanted in OTHER_LINES:
        if "replace" not in line:
            yield f"{first}\n{line}\n", f"stream: line 2: {fault}\nfound {line}; {wanted}"
    line = '{"answer":"done","note":0,"process":65536}'
    yield f"{first}\n{line}\n", f"stream: line 2: 5 TooMany\nfound {line}; {PROCESSES}"
    # Only a first line has starting pairs, and after it a replace is no fault of form.
    yield f"{ONE_EVENT}\n{NO_PAIRS}\n", f"stream: line 2: 4 Shape\nfound {NO_PAIRS}; {EVENT}"
    replace = '{"invoke":["replace",1,2,3],"process":65536}'
    yield f"{NO_PAIRS}\n{replace}\n", f"stream: line 2: 5 TooMany\nfound {replace}; {PROCESSES}"
    for text, line in ((b'"\xff"\n', 1), *((front.encode() + b'\n"\xff"\n', 2) for front in (ONE_EVENT, NO_PAIRS))):
        yield text, f'stream: line {line}: 2 NotJson\nfound "?"; {JSON}'
    yield (
        '{"invoke":["get",5],"process":0}\n{"answer":null,"process":1}\n',
        f'stream: line 2: 6 NotWellFormed\nfound {{"answer":null,"process":1}}; {TURN}',
    )
    yield (
        '{"invoke":["get",5],"process":300}\n{"invoke":["get",6],"process":300}\n',
        f'stream: line 2: 6 NotWellFormed\nfound {{"invoke":["get",6],"process":300}}; {TURN}',
    )
    # What is too long is not looked at; of the longest line 80 bytes are shown.
    for front, line in (("", 1), (ONE_EVENT + "\n", 2)):
        yield front + " " * (LONGEST_LINE + 1), f"stream: line {line}: 1 TooLong\n{LINE_LENGTH}"
        yield front + " " * LONGEST_LINE, f"stream: line {line}: 2 NotJson\nfound {' ' * 80}..; {JSON}"


def rows():
    """Words, a text, and the status, standard output and what a terminal shows that are wanted."""
    for text, told in refused_texts():
        for words in (["check", "0", "1"], ["judge"], ["locate"], ["explain"], ["draw"], ["page"]):
            yield words, text, 3, "", told
    yield ["check"], spaced(history(""), LONGEST_TEXT), 0, "ok\n", ""
    yield ["check", "0", "1", "2", "3"], NOTED, 0, "ok\n", ""
    yield ["judge"], NOTED, 0, '{"order":[0,1,2,3],"verdict":"yes"}\n', ""
    for text, told in refused_streams():
        yield ["follow"], text, 3, "", told
    # The longest lines that spell an event, and starting pairs.
    longest = spaced(ONE_EVENT, LONGEST_LINE) + "\n" + spaced('{"answer":null,"process":9}', LONGEST_LINE)
    yield ["follow"], longest, 0, '{"calls":1,"overlap":0.00,"verdict":"yes"}\n', ""
    for version in (2, 3):
        longest = spaced(f'{{"start":[[5,7]],"version":{version}}}', LONGEST_LINE) + f'\n{ONE_EVENT}\n{{"answer":7,"process":9}}\n'
        yield ["follow"], longest, 0, '{"calls":1,"overlap":0.00,"verdict":"yes"}\n', ""
    noted = json.dumps(json.loads(NOTED)["events"])[1:-1]
    yield ["follow"], stream(noted, "[5,7]"), 0, '{"calls":4,"overlap":0.00,"verdict":"yes"}\n', APART


def main():
    return compare(rows())


if __name__ == "__main__":
    sys.exit(main())
