#!/usr/bin/env python3
"""Runs the program on histories and streams whose answers do not give the value: done, found and other. Among them are calls of caches.

    tests/program/untold.py

What is expected was worked out by hand. The last line counts what passed and failed.
"""

import functools
import json
import sys

sys.dont_write_bytecode = True
from rows import answer, compare, history, report_of, started, stream  # noqa: E402

# Calls, each with the answers that are legal where key 5 holds 7, and where it holds nothing.
LEGAL = [
    ('["get",5]', {'"done"', '"found"'}, {'"done"'}),
    ('["insert",5,9]', {'"done"', '"found"'}, {'"done"'}),
    ('["remove",5]', {'"done"', '"found"'}, {'"done"'}),
    ('["replace",5,7,8]', {'"done"', '"found"'}, {'"done"', '"other"'}),
    ('["replace",5,6,8]', {'"done"', '"found"', '"other"'}, {'"done"', '"other"'}),
    ('["replace",5,7,7]', {'"done"', '"found"'}, {'"done"', '"other"'}),
    ('["scan",5,5]', {'"done"'}, {'"done"'}),
    ('["scan",0,9]', {'"done"'}, {'"done"'}),
]

# Changes of key 5 from 7, their answers, and what a get after them finds.
LEAVES = [
    ('["insert",5,9]', '"done"', "9"),
    ('["insert",5,9]', '"found"', "9"),
    ('["remove",5]', '"done"', "null"),
    ('["remove",5]', '"found"', "null"),
    ('["replace",5,7,8]', '"done"', "8"),
    ('["replace",5,7,8]', '"found"', "8"),
    ('["replace",5,6,8]', '"done"', "7"),
    ('["replace",5,6,8]', '"found"', "7"),
    ('["replace",5,6,8]', '"other"', "7"),
    ('["get",5]', '"found"', "7"),
    ('["scan",0,9]', '"done"', "7"),
    ('["insert",5,9]', '"refused"', "7"),
]

# Pairs at the start and calls of one process, each with its answer; which calls explain that they have no order, the event of each, an
# exclamation mark where its answer is left out, and the first letter of its reason; and what key 1 has before the last call, which goes wrong. None: they
# have an order.
IN_TURN = [
    ("[1,0]", ['["insert",1,7]:"done"', '["replace",1,0,5]:"done"', '["replace",1,7,0]:"done"', '["get",1]:0'], None, None),
    ("[1,0]", ['["insert",1,7]:"done"', '["replace",1,0,5]:"done"', '["replace",1,7,0]:"done"', '["get",1]:5'], "0o 2o 6o", "0"),
    ("", ['["insert",1,7]:"done"', '["get",1]:null'], "0o 2o", "7"),
    ("", ['["insert",1,5]:"done"', '["insert",1,6]:"done"', '["get",1]:5'], "2o 4o", "6"),
    ("", ['["insert",1,5]:"done"', '["replace",1,5,6]:"done"', '["get",1]:5'], "0h 2o 4o", "6"),
    ("", ['["insert",1,5]:"done"', '["replace",1,8,6]:"done"', '["get",1]:6'], "2!o 4o", "5"),
    ("", ['["remove",1]:"done"', '["get",1]:"found"'], "2o", "null"),
    ("[1,4]", ['["remove",1]:"done"', '["get",1]:"found"'], "0o 2o", "null"),
    ("[1,4]", ['["replace",1,4,5]:"other"'], "0o", "4"),
    ("", ['["insert",1,4]:"done"', '["replace",1,4,5]:"other"'], "0o 2o", "4"),
    ("", ['["insert",1,9]:"done"', '["insert",1,4]:"done"', '["replace",1,4,5]:"other"'], "2h 4o", "4"),
]

# Of some of them the values that come from outside of the calls that explain, and who put them.
ORIGINS = {
    ('["insert",1,5]:"done"', '["insert",1,6]:"done"', '["get",1]:5'): '{"key":1,"puts":[{"event":0,"process":0}],"start":false,"value":5}\n',
}

# Two puts answered done overlap, so each of their values can be read after them, and nothing else.
PUTS_OVERLAP = (
    '{"invoke":["insert",5,1],"process":0},{"invoke":["insert",5,2],"process":1},'
    '{"answer":"done","process":0,"note":"17:03:01"},{"answer":"done","process":1,"note":null},{"invoke":["get",5],"process":0,"note":[{"at":7}]},'
)

# A put answered done is lost: all that is said of it.
LOST_PUT = (
    '{"invoke":["insert",5,7],"process":3},{"answer":"done","process":3},{"invoke":["get",5],"process":9},{"answer":null,"process":9}'
)
LOST_PUT_EXPLAINED = """{"calls":[0,1],"hi":5,"lo":5,"verdict":"no"}
{"answer":"done","call":["insert",5,7],"event":0,"process":3,"reason":"order"}
{"answer":null,"call":["get",5],"event":2,"misses":[{"call":["insert",5,7],"event":0,"process":3}],"process":9,"reason":"order"}
{"events":[{"invoke":["insert",5,7],"process":0},{"answer":"done","process":0},{"invoke":["get",5],"process":0},{"answer":null,"process":0}],"start":[],"version":3}
{"front":[0],"holds":[[5,7]],"next":[{"answer":null,"event":2,"would":7}]}
"""


# A call of process 2 with its answer.
BY_TWO = '{{"invoke":{},"process":2}},{{"answer":{},"process":2}},'
# Calls at key 5, and of streams of them each call's answer: puts and removes that overlap, so that it may have one of several values after them.
INSERTS_OVERLAP = (
    '{"invoke":["insert",5,7],"process":0},{"invoke":["insert",5,9],"process":1},{"answer":"done","process":1},{"answer":"done","process":0},'
)
INSERT_AND_REMOVE_OVERLAP = (
    '{"invoke":["insert",5,1],"process":0},{"invoke":["remove",5],"process":1},{"answer":"done","process":0},{"answer":"done","process":1},'
)
# The same at two keys, and a scan that shows which value each had.
SCAN_BEHIND_OVERLAPS = (
    INSERTS_OVERLAP + INSERT_AND_REMOVE_OVERLAP.replace(",5", ",8")
    + '{"invoke":["scan",0,9],"process":2},{"answer":[[5,9]],"process":2},'
)
# A put that is never answered, among sixty-four answered done. It may have found what each of them found, or come after them, or not yet.
DEAD_PUT = '{"invoke":["insert",5,99],"process":9},' + "".join(
    f'{{"invoke":["insert",5,{value}],"process":0}},{{"answer":"done","process":0}},' for value in range(1, 65)
)
# The same among 39 others: then the part moves on for the first time. The last of them puts the same value.
DEAD_PUT_OF_THE_LAST_VALUE = '{"invoke":["insert",5,39],"process":9},' + "".join(
    f'{{"invoke":["insert",5,{value}],"process":0}},{{"answer":"done","process":0}},' for value in range(1, 40)
)

# A put that was read, so that it took effect before sixty-three others answered done, and found nothing. Then it is answered.
SEEN_PUT = '{"invoke":["insert",5,99],"process":9},{"invoke":["get",5],"process":0},{"answer":99,"process":0},' + "".join(
    f'{{"invoke":["insert",5,{value}],"process":0}},{{"answer":"done","process":0}},' for value in range(1, 64)
)

# Events, the answer of a call of process 3 after them, the call, and what its key may have had before it, if it goes wrong.
SEVERAL = [
    (INSERTS_OVERLAP, '["get",5]', "7", None),
    (INSERTS_OVERLAP, '["get",5]', "9", None),
    (INSERTS_OVERLAP, '["get",5]', "null", [7, 9]),
    (INSERTS_OVERLAP, '["get",5]', "8", [7, 9]),
    (INSERTS_OVERLAP, '["get",5]', '"other"', [7, 9]),
    (INSERTS_OVERLAP, '["replace",5,7,8]', "7", None),
    (INSERTS_OVERLAP, '["replace",5,7,8]', "9", None),
    (INSERTS_OVERLAP, '["replace",5,7,8]', '"other"', None),
    (INSERTS_OVERLAP, '["replace",5,7,8]', "null", [7, 9]),
    (INSERTS_OVERLAP, '["remove",5]', "[]", [7, 9]),
    (INSERT_AND_REMOVE_OVERLAP, '["get",5]', "null", None),
    (INSERT_AND_REMOVE_OVERLAP, '["get",5]', "1", None),
    (INSERT_AND_REMOVE_OVERLAP, '["get",5]', '"found"', None),
    (INSERT_AND_REMOVE_OVERLAP, '["insert",5,2]', '"found"', None),
    (INSERT_AND_REMOVE_OVERLAP, '["get",5]', "2", [None, 1]),
    # What was read, or found, narrows what a later call may find.
    (INSERTS_OVERLAP + BY_TWO.format('["get",5]', "7"), '["get",5]', "9", [7]),
    (INSERTS_OVERLAP + BY_TWO.format('["get",5]', '"found"'), '["get",5]', "8", [7, 9]),
    (INSERTS_OVERLAP + BY_TWO.format('["get",5]', '"done"'), '["get",5]', "8", [7, 9]),
    (INSERTS_OVERLAP + BY_TWO.format('["replace",5,7,8]', '"other"'), '["get",5]', "7", [9]),
    (INSERTS_OVERLAP + BY_TWO.format('["replace",5,7,8]', "7"), '["get",5]', "7", [8]),
    (INSERTS_OVERLAP + BY_TWO.format('["replace",5,7,8]', '"found"'), '["get",5]', "7", [8, 9]),
    (INSERTS_OVERLAP + BY_TWO.format('["replace",5,7,8]', '"done"'), '["get",5]', "7", [8, 9]),
    (INSERTS_OVERLAP + BY_TWO.format('["insert",5,1]', '"refused"'), '["get",5]', "1", [7, 9]),
    (INSERT_AND_REMOVE_OVERLAP + BY_TWO.format('["get",5]', '"found"'), '["get",5]', "null", [1]),
    (INSERT_AND_REMOVE_OVERLAP + BY_TWO.format('["insert",5,2]', '"found"'), '["get",5]', "1", [2]),
    (INSERT_AND_REMOVE_OVERLAP + BY_TWO.format('["replace",5,1,2]', '"other"'), '["get",5]', "1", [None]),
    (SCAN_BEHIND_OVERLAPS, '["get",5]', "7", [9]),
    (SCAN_BEHIND_OVERLAPS, '["get",8]', "1", [None]),
    (SCAN_BEHIND_OVERLAPS, '["get",8]', "null", None),
    (DEAD_PUT, '["get",5]', "64", None),
    (DEAD_PUT, '["get",5]', "99", None),
    (DEAD_PUT + '{"answer":3,"process":9},', '["get",5]', "64", None),
    (DEAD_PUT + '{"answer":3,"process":9},', '["get",5]', "99", [64]),
]

# Calls of a cache as `docs/RECORDING.md` has them recorded by hand: calls in turn with their answers, or events; and the status of their verdict.
# A value has a time to live: process 9 replaces it by one that nobody writes, between the earliest moment at which it expires and the latest.
EXPIRES, EXPIRED = '{"invoke":["replace",1,5,9223372036854775808],"process":9}', '{"answer":"done","process":9}'
CACHED = [
    (['["insert",1,5]:"done"', EXPIRES, '["get",1]:5', EXPIRED], 0),
    (['["insert",1,5]:"done"', EXPIRES, '["remove",1]:"done"', EXPIRED], 0),
    (['["insert",1,5]:"done"', EXPIRES, EXPIRED, '["remove",1]:"done"'], 0),
    (['["insert",1,5]:"done"', EXPIRES, EXPIRED, '["get",1]:5'], 1),
    (['["insert",1,5]:"done"', '["insert",1,6]:"done"', EXPIRES, EXPIRED, '["get",1]:6'], 0),
    (['["insert",1,5]:"done"', '["remove",1]:"done"', '["get",1]:5'], 1),
    # incr and append: the new value, of which the old one is known, or only that there was one; and none
    (['["insert",1,5]:"done"', '["insert",1,6]:5', '["get",1]:6'], 0),
    (['["insert",1,5]:"done"', '["insert",1,6]:5', '["get",1]:5'], 1),
    (['["insert",1,5]:"done"', '["insert",1,6]:"found"', '["get",1]:5'], 1),
    (['["remove",1]:"done"', '["insert",1,6]:"found"'], 1),
    # touch: yes, and no
    (['["insert",1,5]:"done"', '["get",1]:"found"', '["get",1]:5'], 0),
    (['["remove",1]:"done"', '["get",1]:"found"'], 1),
    # the loader ran, and the next one did not
    (['["insert",1,5]:"done"', '["insert",1,6]:"done"', '["get",1]:6'], 0),
    (['["insert",1,5]:"done"', '["insert",1,6]:"done"', '["get",1]:5'], 1),
    # a no that is missed: a replace found another value or none, and then the one that nobody writes is found
    (['["insert",1,5]:"done"', '["replace",1,5,9223372036854775808]:"done"', '["get",1]:"found"'], 0),
    (['["insert",1,5]:"done"', '["replace",1,5,9223372036854775808]:"done"', '["get",1]:5'], 1),
]


def told(events, start=""):
    """The text of a history of version 3."""
    return f'{{"events":[{events}],"start":[{start}],"version":3}}'


def in_turn(calls):
    """The events of calls of one process with their answers."""
    listed = (call.split("]:") for call in calls)
    return ",".join(f'{{"invoke":{call}],"process":0}},{{"answer":{reply},"process":0}}' for call, reply in listed)


def alone(key, value, call, reply):
    """The text of the history of one call with its answer, where its key has this value, or none."""
    start = "" if value is None else f"[{key},{value}]"
    events = in_turn([f"{call}:{reply}"])
    if reply in ('"done"', '"found"', '"other"'):
        return told(events, start)
    return history(events) if value is None else started(start, events)


def rows():
    """Words, a text, and the status, standard output and what a terminal shows that are wanted."""
    for call, present, absent in LEGAL:
        for start, legal in (("[5,7]", present), ("", absent)):
            for reply in ('"done"', '"found"', '"other"'):
                line = "ok" if reply in legal else "fault: 4 Reply at place 0"
                yield ["check", "0"], told(in_turn([f"{call}:{reply}"]), start), int(line != "ok"), line + "\n", ""
    for call, reply, found in LEAVES:
        for seen in ("7", "8", "9", "null"):
            text = told(in_turn([f"{call}:{reply}", f'["get",5]:{seen}']), "[5,7]")
            keys = '"hi":9,"lo":0' if "scan" in call else '"hi":5,"lo":5'
            report = '{"order":[0,1],"verdict":"yes"}' if seen == found else f'{{"calls":[0,1],{keys},"verdict":"no"}}'
            yield ["judge"], text, int(seen != found), report + "\n", ""
            place = '{"verdict":"yes"}' if seen == found else '{"call":1,"event":3,"verdict":"no"}'
            yield ["locate"], text, int(seen != found), place + "\n", ""
    for seen, report in (("1", '{"order":[1,0,2],"verdict":"yes"}'), ("2", '{"order":[0,1,2],"verdict":"yes"}')):
        yield ["judge"], told(PUTS_OVERLAP + f'{{"answer":{seen},"process":0}}'), 0, report + "\n", ""
    for seen in ("null", "3", "[]"):
        text = told(PUTS_OVERLAP + f'{{"answer":{seen},"process":0}}')
        yield ["judge"], text, 1, '{"calls":[0,1,2],"hi":5,"lo":5,"verdict":"no"}\n', ""
    yield ["explain"], told(LOST_PUT), 1, LOST_PUT_EXPLAINED, ""
    for reply in ("null", '"done"'):
        text = stream(SEEN_PUT + f'{{"answer":{reply},"process":9}}', "")
        yield ["follow"], text, 0, '{"calls":65,"overlap":0.98,"verdict":"yes"}\n', ""
    # The put took effect in all pasts and found nothing. So none is left.
    for reply in ('"found"', "99", '"other"', '"refused"'):
        text = stream(SEEN_PUT + f'{{"answer":{reply},"process":9}}', "")
        yield ["follow"], text, 1, report_of(0, 129, [(5, [], [], [])]) + "\n", ""
    # The put that is not answered is left in one past. In others it put the value.
    text = stream(DEAD_PUT_OF_THE_LAST_VALUE + '{"invoke":["get",5],"process":0},{"answer":3,"process":0}', "")
    yield ["follow"], text, 1, report_of(40, 80, [(5, [0, 79], [39, 39], [77, 0])]) + "\n", ""


def putter(events, key, value):
    """The event at which the last of some calls began that puts this value at a key, and is neither refused nor answered by other. None if there is
    no such call, or if this is no value."""
    for place in reversed(range(len(events))):
        name, low, *rest = events[place].get("invoke", ["none", None])
        put = {"insert": [rest[-1:]], "replace": [rest[-1:]]}.get(name, [])
        replies = [event["answer"] for event in events[place:] if "answer" in event and event["process"] == events[place]["process"]]
        if low == key and [value] in put and replies[:1] not in (["refused"], ["other"]):
            return place
    return None


def followed(start, events, key, values):
    """What is wrong with the report on a stream whose last answer goes wrong, of the only call at its key, which may have had these values before. If
    no values are given, the stream has an order. If no answer of that kind is right, the report names no key."""
    listed = json.loads(f"[{events}]")
    last, calls = len(listed) - 1, sum("invoke" in event for event in listed)
    status, output, faults = answer(["follow"], stream(events, start))
    report, *small = output.decode().splitlines()
    if values is None:
        wanted = 0, f'{{"calls":{calls},', []
        found = status, report[: len(wanted[1])], small
    else:
        call, reply = json.dumps(listed[-2]["invoke"]), json.dumps(listed[-1]["answer"])
        text = [alone(key, values[0], call, reply).replace(", ", ",")] if len(values) == 1 else []
        puts = [putter(listed[:-2], key, value) for value in values]
        wanted = 1, report_of(calls - 1, last, [(key, [last - 1], values, puts)] if values else []), text
        said = json.loads(report)
        keys = []
        for kept in said["keys"]:
            pairs = sorted(zip(kept["values"], kept["put"], strict=True), key=lambda pair: (pair[0] is not None, pair[0]))
            keys.append((kept["key"], kept["invoked"], [value for value, _ in pairs], [put for _, put in pairs]))
        found = status, report_of(said["call"], said["event"], keys), small
    return None if found == wanted and not faults else f"{found} and {faults}, and wanted is {wanted} of {events} from {start}"


def follow():
    """Starting pairs and events, the key of the last call, and what that may have had, where it goes wrong."""
    for call, present, absent in LEGAL:
        for start, value, legal in (("[5,7]", 7, present), ("", None, absent)):
            for reply in ('"done"', '"found"', '"other"'):
                yield start, in_turn([f"{call}:{reply}"]), 5, None if reply in legal else [] if "scan" in call else [value]
    for call, reply, found in LEAVES:
        for seen in ("7", "8", "9", "null"):
            yield "[5,7]", in_turn([f"{call}:{reply}", f'["get",5]:{seen}']), 5, None if seen == found else [json.loads(found)]
    for start, calls, _, value in IN_TURN:
        yield start, in_turn(calls), 1, value and [json.loads(value)]
    for seen, values in (("1", None), ("2", None), ("null", [1, 2]), ("3", [1, 2]), ("[]", [1, 2])):
        yield "", PUTS_OVERLAP + f'{{"answer":{seen},"process":0}}', 5, values
    for events, call, reply, values in SEVERAL:
        key = json.loads(call)[1]
        yield "", f'{events}{{"invoke":{call},"process":3}},{{"answer":{reply},"process":3}}', key, values


def explained(start, calls, wanted, _value):
    """What is wrong with the calls that explain a no."""
    text = told(in_turn(calls), start)
    status, output, faults = answer(["explain"], text)
    lines = output.splitlines(keepends=True)
    named = [json.loads(line) for line in lines if line.startswith(b'{"answer"')]
    found = " ".join(f"{call['event']}{'!' * (call['answer'] == 'left out')}{call['reason'][0]}" for call in named)
    # After the calls come who put what they read, their history, and how far an order of them gets.
    origins = b"".join(line for line in lines if line.startswith(b'{"key"')).decode()
    complete = wanted is None or len(lines) == len(named) + origins.count("\n") + 3 and origins == ORIGINS.get(tuple(calls), "")
    if status != int(wanted is not None) or found != (wanted or "") or faults or not complete:
        return f"{output}, and wanted is {wanted} of {text}"
    return None


def cached(calls, status):
    """What is wrong with the verdict on calls of a cache."""
    text = told(",".join(call if call.startswith("{") else in_turn([call]) for call in calls))
    found = answer(["judge"], text)[0]
    return None if found == status else f"status {found}, and wanted is {status} of {text}"


def drawn(reply):
    """What is wrong with the picture of a call that is answered so."""
    status, output, faults = answer(["draw"], told(in_turn([f'["get",5]:"{reply}"']), "[5,7]"))
    if status != int(reply == "other") or faults or f": {reply}" not in output.decode():
        return f"a picture of an answer {reply}: {output.decode()[:600]}"
    return None


def main():
    others = [functools.partial(explained, *row) for row in IN_TURN]
    others += [functools.partial(cached, *row) for row in CACHED]
    others += [functools.partial(drawn, reply) for reply in ("done", "found", "other")]
    others += [functools.partial(followed, *row) for row in follow()]
    return compare(rows(), others)


if __name__ == "__main__":
    sys.exit(main())
