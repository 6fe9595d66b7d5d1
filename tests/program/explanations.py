#!/usr/bin/env python3
"""Checks what `explain` says of histories without order against what `judge` says of the few calls that it names.

    tests/program/explanations.py [HISTORIES]

Histories are those of the examples that are not refused, the small ones that `follow` writes of the examples of streams, and drawn ones as in
tests/program/streams.py. Half of the drawn ones have answers that do not say what the map answers. They are drawn until so many have no order,
300 if no number is given.

- `explain` has to print the report of `judge` first.
- After a no it prints a line for each of a few calls. Each is a call of the history with its answer, or without it if it may show what a call that
  is not named put. The line has the calls that it misses. Then comes a line for each value that these calls read and none of them put, with each call
  of the history that put it; the history of only these calls, of which `judge` says no; and how far an order of them gets.
- Without any one of the calls, and without the answers that show what it put, `judge` says yes or undecided of the others, as the reason says.
- The front of the last line is a list of these calls that a map allows, each after all that were answered before it began, and none is longer. The
  line has what the map then holds, and each call that could come next, with its answer, which is not what the map would answer.

Then long ones. Of 4,096 calls of one key one answer is wrong, in the middle or near the end. The explanation has fewer than 20 calls, and takes less
than a second of a processor. And scans that disagree: 24 at once over 24 keys and over 2,000, while others put two values at each of 24 keys, one
after the other. Each scan lists the second values, but at one key the first, and this at another key than the others. Each is explained in less than
two seconds of a processor.

And of 2,000 calls of 16 processes at one key, of which some answers only say that the call was done, a get answers an old value. `judge` is undecided
of these. `explain` prints what `locate` says, and explains the calls up to the event that it names. Or it explains the calls that are left of the part
of the keys at which `follow` loses the order, if that has one past. All orders of the few calls from the pairs of the part are tried. Lines before
these have the value from which each of their keys begins, and who put it, as `follow` says. Nothing is explained only if the part has several pasts.
At budgets of a few configurations many small histories are explained so. The last line here counts what passed and failed.
"""

import concurrent.futures
import itertools
import json
import math
import os
import random
import resource
import subprocess
import sys

from streams import BUDGET, PROGRAM, SEED, TOP, answer_of, drawn_history, examples, left_of_examples, said, text_of

HISTORIES = 300
UNTOLD = ("done", "found", "other")
NO = 1
UNDECIDED = 2
LONG_CALLS = 4096
FEW_CALLS = 20
LONG_SECONDS = 1.0
FEW_SECONDS = 2.0
SCANS = 24
CONNECTIONS = 16
UNDECIDED_HISTORIES = 3
CONNECTION_CALLS = 2000
MANY_KEYS = 2000
# Small histories that are explained at budgets of 1 up to so many configurations.
SMALL_HISTORIES = 3000
SMALL_BUDGETS = 4


def calls_of(events):
    """The calls of events: each with its first event and its process, what is called, and its answer with its event, if it has one."""
    calls, opened = [], {}
    for place, event in enumerate(events):
        process = event["process"]
        if "invoke" in event:
            opened[process] = {"event": place, "process": process, "call": event["invoke"]}
            calls.append(opened[process])
        else:
            opened.pop(process).update({"answer": event["answer"], "end": place})
    return calls


def put_by(call):
    """The value that a call may put at its key, or None in place of one, in a list; no list where it changes nothing."""
    name, _, *values = call["call"]
    if name in ("get", "scan"):
        return []
    value = {"insert": values[:1], "remove": [None], "replace": values[1:]}[name][0]
    if "answer" in call:
        answer = call["answer"]
        if answer in ("refused", "other") or answer == value and name != "replace":
            return []
        told_other = answer not in UNTOLD and answer != values[0] if name == "replace" else False
        if name == "replace" and not isinstance(answer, list) and (told_other or values[0] == value):
            return []
    return [value]


def surely_puts(call):
    """Whether a call's answer says that it put something at its key: that of a replace which is done, or found a value, does not."""
    return "answer" in call and put_by(call) and not (call["call"][0] == "replace" and call["answer"] in UNTOLD)


def tells(call, key, value):
    """Whether a call tells that this value was at a key, or waits for it."""
    name, low, *others = call["call"]
    high = others[0] if name == "scan" else low
    if not low <= key <= high:
        return False
    if "answer" not in call:
        return name == "replace" and others[0] == value
    if call["answer"] == "refused":
        return False
    if call["answer"] == "other":
        return name == "replace" and others[0] != value
    if call["answer"] in UNTOLD:
        # What a replace does next depends on what it finds.
        return name == "replace" or call["answer"] == "found" and value is not None
    if isinstance(call["answer"], list):
        return next((found for at, found in call["answer"] if at == key), None) == value
    return call["answer"] == value


def precedes(first, second):
    """Whether a call is answered before another begins."""
    return "answer" in first and first["end"] < second["event"]


def pairs_told(call):
    """The pairs of a key and a value that a call's answer tells."""
    name, low, *others = call["call"]
    answer = call.get("answer")
    if isinstance(answer, list):
        return [tuple(pair) for pair in answer]
    return [(low, answer)] if isinstance(answer, int) and (name != "scan" or others == [low]) else []


def is_undone(call):
    """Whether a call's answer says that it was not done."""
    answer, (name, _, *values) = call.get("answer", "done"), call["call"]
    return answer in ("refused", "other") or name == "replace" and (answer is None or isinstance(answer, int) and answer != values[0])


def writes(call, pair):
    """Whether a call puts a value at a key, unless its answer says that it was not done."""
    name, key, *values = call["call"]
    return name in ("insert", "replace") and (key, values[-1]) == pair and not is_undone(call)


def origins_of(history, calls, left, start):
    """The lines of the values that come from outside of what is left of calls, from some pairs."""
    put = {(call["call"][1], value) for call in left for value in put_by(call)}
    own = {tuple(pair) for pair in start if pair[0] not in {key for key, _ in put}}
    outside = sorted({pair for call in left for pair in pairs_told(call)} - put - own)
    return [
        {
            "key": pair[0],
            "puts": [{"event": call["event"], "process": call["process"]} for call in calls if writes(call, pair)],
            "start": list(pair) in history.get("start", []),
            "value": pair[1],
        }
        for pair in outside
    ]


def left_by(call):
    """What a call, by its answer, left at its key, None in place of a value, in a list; no list where it may not have been done."""
    name, _, *values = call["call"]
    if name in ("get", "scan") or "answer" not in call or is_undone(call) or name == "replace" and call["answer"] in UNTOLD:
        return []
    return [None] if name == "remove" else values[-1:]


def missed_by(call, calls):
    """The calls that one misses: of each key the last that left there, before it began, what its answer does not tell, where no other may have
    put there what it tells but before that one began, or behind its own answer."""
    if call.get("answer", "refused") in ("refused", "done"):
        return []
    last = {}
    for other in calls:
        name, low, *others = call["call"]
        key = other["call"][1]
        if precedes(other, call) and low <= key <= (others[0] if name == "scan" else low):
            if any(not tells(call, key, value) for value in left_by(other)):
                last[key] = other

    def is_mended(key, other):
        menders = (third for third in calls if third["event"] != call["event"] and not precedes(third, other) and not precedes(call, third))
        return any(third["call"][1] == key and tells(call, key, value) for third in menders for value in put_by(third))

    return sorted((other for key, other in last.items() if not is_mended(key, other)), key=lambda other: other["event"])


def rest_of(calls, kept):
    """What is left of calls where those stay that begin at some events, by event, and whether one that stays holds another.

    A call loses its answer where that tells what one that goes put, unless it precedes that one, or one that stays puts something
    between the two."""
    staying = [call for call in calls if call["event"] in kept]
    puts = [call for call in staying if surely_puts(call)]
    gone = [(call, call["call"][1], value) for call in calls if call["event"] not in kept for value in put_by(call)]

    def overwritten(first, second):
        return any(put["call"][1] == first["call"][1] and precedes(first, put) and precedes(put, second) for put in puts)

    def may_tell(call, left):
        return any(tells(left, key, value) and not precedes(call, other) and not overwritten(other, call) for other, key, value in gone)

    left, held = {}, False
    for call in staying:
        opened = {name: what for name, what in call.items() if name not in ("answer", "end")}
        touched = may_tell(call, call)
        held = held or touched and may_tell(call, opened)
        rest = opened if touched else call
        if "answer" in rest or rest["call"][0] not in ("get", "scan"):
            left[call["event"]] = rest
    return left, held


def history_of(small, calls, left):
    """The small history with the calls that are left alone, at their places: `calls` are the events of its calls in the whole."""
    events, opened, number = [], {}, -1
    for event in small["events"]:
        process = event["process"]
        if "invoke" in event:
            number += 1
            opened[process] = calls[number]
            if calls[number] in left:
                events.append(event)
        elif "answer" in left.get(opened[process], {}):
            events.append(event)
    return {"events": events, "version": 3, "start": small.get("start", [])}


def wrong_with_reason(whole, small, kept, row):
    """What is wrong with the reason why a call is kept."""
    left, held = rest_of(whole, set(kept) - {row["event"]})
    if held != (row["reason"] == "held"):
        return f"{row}, which is held: {held}"
    if row["reason"] == "order":
        status, report = said("judge", text_of(history_of(small, kept, left)))
        if status == NO:
            return f"{row}, but without it judge says {report}"
    return None


def done(held, call):
    """What a map with these pairs answers to a call, and the pairs behind the call, by key."""
    pairs = dict(held)
    would = answer_of(pairs, *call["call"])
    return would, held if call.get("answer") == "refused" else tuple(sorted(pairs.items()))


def next_of(calls, taken):
    """The calls that are not taken, and before which none of these was answered, by number."""
    left = [number for number in range(len(calls)) if number not in taken]
    first = min((calls[number].get("end", math.inf) for number in left), default=0)
    return [number for number in left if calls[number]["event"] < first]


def fits(call, would):
    """Whether a call's answer, if it has one, may be given where the map would answer so."""
    answer = call.get("answer", would)
    if answer == "found":
        return isinstance(would, int)
    if answer == "other":
        return call["call"][0] == "replace" and would != call["call"][2]
    return answer in (would, "refused", "done")


def moves(calls, taken, held):
    """The calls that a map with these pairs allows next, by number, and the pairs behind each."""
    for number in next_of(calls, taken):
        would, after = done(held, calls[number])
        if fits(calls[number], would):
            yield number, after


def most_behind(calls, taken, held, known):
    """How many more calls a map allows at most, one behind another. Each set of calls taken, with the pairs, is looked at once."""
    if (taken, held) not in known:
        behind = (most_behind(calls, taken | {number}, after, known) for number, after in moves(calls, taken, held))
        known[taken, held] = max((1 + more for more in behind), default=0)
    return known[taken, held]


def wrong_with_front(small, rows, line):
    """What is wrong with how far an order of few calls is said to get."""
    calls = calls_of(small["events"])
    number_of = {row["event"]: number for number, row in enumerate(rows)}
    taken, held, known = frozenset(), tuple(sorted(map(tuple, small.get("start", [])))), {}
    most = most_behind(calls, taken, held, known)
    for place, event in enumerate(line["front"]):
        allowed = dict(moves(calls, taken, held))
        number = number_of[event]
        if number not in allowed:
            return f"{line}, whose call {place} cannot come next"
        # Of the fronts as long it is the least, by numbers.
        as_long = [other for other in allowed if 1 + most_behind(calls, taken | {other}, allowed[other], known) == most - place]
        if number != min(as_long) and len(known) <= int(BUDGET[1]):
            return f"{line}, whose call {place} is not the first of the longest front"
        taken, held = taken | {number}, allowed[number]
    stuck = [
        {"answer": calls[number].get("answer", "open"), "event": rows[number]["event"], "would": done(held, calls[number])[0]}
        for number in next_of(calls, taken)
    ]
    if len(taken) < most and len(known) <= int(BUDGET[1]):
        return f"{line}, though {most} calls get on"
    if line["holds"] != [list(pair) for pair in held] or line["next"] != stuck:
        return f"{line}, but a map holds {held}, and {stuck} could be next"
    return None


def wrong_with_few(history, rows, origins, small, front, count=None, whole=None):
    """What is wrong with few calls, who put what they read, their history and its front; where so many events are explained alone, of these, or
    of some of their calls."""
    whole, every = whole or calls_of(history["events"][:count]), calls_of(history["events"])
    known = {call["event"]: call for call in every}
    calls = calls_of(small["events"])
    kept = [row["event"] for row in rows]
    if [call["call"] for call in calls] != [row["call"] for row in rows]:
        return f"a history of other calls: {small}"
    left, held = rest_of(whole, set(kept))
    if held or list(left) != kept:
        return f"calls that are held, {held}, or go: {left}"
    for call, row in zip(calls, rows):
        said_of = known.get(row["event"], {})
        if (said_of.get("process"), said_of.get("call")) != (row["process"], row["call"]):
            return f"{row}, which is no call of the history"
        word = "left out" if "answer" in said_of else "open"
        if row["answer"] != call.get("answer", word) or row["answer"] != left[row["event"]].get("answer", word):
            return f"{row}, with an answer that it has not"
        missed = [{name: other[name] for name in ("call", "event", "process")} for other in missed_by(left[row["event"]], every)]
        if row.get("misses") != (missed or None):
            return f"{row}, which misses {missed}"
    wanted = origins_of(history, every, list(left.values()), small.get("start", []))
    if origins != wanted:
        return f"{origins}, and from outside come {wanted}"
    status, report = said("judge", text_of(small))
    if status != NO:
        return f"a history of which judge says {report}"
    wrongs = (wrong_with_reason(whole, small, kept, row) for row in rows)
    return next((wrong for wrong in wrongs if wrong), None) or wrong_with_front(small, rows, front)


def said_at(budget, subcommand, text):
    """The status and the lines of a subcommand at a budget."""
    ran = subprocess.run([PROGRAM, subcommand, "--budget", str(budget)], input=text, capture_output=True, timeout=120, check=False)
    return ran.returncode, [json.loads(line) for line in ran.stdout.splitlines()]


def lost_keys(history, budget):
    """What `follow` says of the keys of the part at which it loses the order of a history, and the history of its second line, if there is one."""
    events = [{"start": history.get("start", []), "version": max(history["version"], 2)}, *history["events"]]
    _, lines = said_at(budget, "follow", b"".join(text_of(event) + b"\n" for event in events))
    return lines[0].get("keys", []), *lines[1:2]


def has_order(small):
    """Whether a map allows all calls of a history that were answered, one behind another, from the pairs at its start: all orders are tried."""
    calls, held, known = calls_of(small["events"]), tuple(sorted(map(tuple, small.get("start", [])))), set()

    def goes_on(taken, held):
        if all("answer" not in call or number in taken for number, call in enumerate(calls)):
            return True
        if (taken, held) in known:
            return False
        known.add((taken, held))
        return any(goes_on(taken | {number}, after) for number, after in moves(calls, taken, held))

    return goes_on(frozenset(), held)


def wrong_with_beginnings(history, begins, rows, small, keys):
    """What is wrong with the values from which a few calls are said to begin: `follow` names them at these keys, each with the call that put it."""
    pairs, lost = dict(map(tuple, small.get("start", []))), {key["key"]: key for key in keys}
    for begin in begins:
        put = begin["put"] and begin["put"]["event"]
        named = lost.get(begin["key"], {})
        if (named.get("values"), named.get("put")) != ([begin["from"]], [put]):
            return f"{begin}, where follow names {keys}"
        if begin["from"] != pairs.get(begin["key"]) or begin["put"] and begin["put"]["process"] != history["events"][put]["process"]:
            return f"{begin}, but the calls begin with {pairs}"
    wanted = set()
    for row in rows:
        name, low, *others = row["call"]
        high = others[0] if name == "scan" else low
        told = dict(row["answer"]) if isinstance(row["answer"], list) else {}
        wanted |= {low} if low == high else {key for key in {*told, *pairs} if low <= key <= high and told.get(key) != pairs.get(key)}
    return None if [begin["key"] for begin in begins] == sorted(wanted) else f"values of other keys than {wanted}: {begins}"


def wrong_with_part(history, begins, rows, origins, small, front, count, budget):
    """What is wrong with a few calls of a part at which `follow` loses the order, of the history's first events, so many: they begin from the values
    that it names, and have no order from these."""
    keys, *left = lost_keys(history, budget)
    wrong = wrong_with_beginnings(history, begins, rows, small, keys)
    if wrong:
        return wrong
    if has_order(small) or said("judge", text_of(small))[0] != NO:
        return f"calls that have an order: {small}"
    every = {call["event"]: call for call in calls_of(history["events"])}
    known = {call["event"]: call for call in calls_of(history["events"][:count])}
    for row, call in zip(rows, calls_of(small["events"]), strict=True):
        whole = every.get(row["event"], {})
        if (whole.get("process"), whole.get("call")) != (row["process"], row["call"]) or row["call"] != call["call"]:
            return f"{row}, which is no call of the history"
        word = "left out" if "answer" in whole else "open"
        if row["answer"] not in (word, known[row["event"]].get("answer", word)) or row["answer"] != call.get("answer", word):
            return f"{row}, with an answer that it has not"
    if not set(front["front"]) <= {row["event"] for row in rows}:
        return f"{front}, whose calls are others"
    # If each call that is left has a key that is named, they are known, and the few are some of them.
    invoked = sorted({event for key in keys for event in key["invoked"]})
    if str(budget) == BUDGET[1] and left and len(calls_of(left[0]["events"])) == len(invoked):
        return wrong_with_few(history, rows, origins, small, front, count, [known[event] for event in invoked])
    return None


def wrong_with_located(history, lines, located, budget=BUDGET[1]):
    """What is wrong with the lines after an undecided: what `locate` says, and a few calls up to the event that it names, if any show it."""
    if lines[:1] != located:
        return f"{lines}, but locate says {located}"
    begins = [line for line in lines if "from" in line]
    if len(lines) == 1:
        _, *left = lost_keys(history, budget)
        return f"nothing, where follow writes {left}" if left and located[0]["verdict"] == "no" else None
    parts = parts_of(lines[1 + len(begins):])
    if lines[1:] != [*begins, *parts[0], *parts[1], *parts[2:]]:
        return f"lines in another order: {lines}"
    if begins:
        return wrong_with_part(history, begins, *parts, located[0]["event"] + 1, budget)
    return wrong_with_few(history, *parts, located[0]["event"] + 1)


def explained(history):
    """Whether a history has no order, how many calls are named, and what is wrong with them, or None."""
    text = text_of(history)
    judged = said("judge", text)
    status, lines = said("explain", text)
    wrong = None
    if status != judged[0] or lines[:1] != judged[1]:
        wrong = f"{lines[:1]}, but judge says {judged[1]}"
    elif status == UNDECIDED:
        wrong = wrong_with_located(history, lines[1:], said("locate", text)[1])
    elif status != NO:
        wrong = f"more than a report: {lines}" if len(lines) != 1 else None
    elif len(lines) < 4:
        wrong = f"too little: {lines}"
    else:
        rows, origins, *others = parts_of(lines[1:])
        in_order = lines[1:] == [*rows, *origins, *others]
        wrong = wrong_with_few(history, rows, origins, *others) if in_order else f"lines in another order: {lines}"
    return status == NO, len(lines), wrong and f"explain says {wrong}: {text.decode()}"


def parts_of(lines):
    """The lines of a few calls, who put what they read, the history after them, and how far an order of it gets."""
    last = (next(line for line in lines if name in line) for name in ("events", "front"))
    return [line for line in lines if "reason" in line], [line for line in lines if "puts" in line], *last


def less_told(seed):
    """A drawn history in which some answers tell less: most of them what is so, and some not."""
    chance, history = random.Random(seed), drawn_history(seed, False)
    history.update({"version": 3, "start": history.get("start", [])})
    for call in calls_of(history["events"]):
        answer = call.get("answer", "refused")
        if answer == "refused" or chance.randrange(3):
            continue
        true = ["done"] + ["found"] * isinstance(answer, int)
        true += ["other"] * (call["call"][0] == "replace" and answer != call["call"][2])
        history["events"][call["end"]]["answer"] = chance.choice(true if chance.randrange(8) else UNTOLD)
    return history


def long_history(chance, processes, values, calls=LONG_CALLS):
    """Calls of one key, each with its effect at a moment while it is open: gets, inserts and removes."""
    events, opened, answers, held, begun = [], {}, {}, {}, 0
    while begun < calls or opened:
        process = chance.randrange(processes)
        if process in answers:
            events.append({"answer": answers.pop(process), "process": process})
            del opened[process]
        elif process in opened:
            answers[process] = answer_of(held, *opened[process])
        elif begun < calls:
            begun += 1
            name = chance.choice(["get", "get", "insert", "insert", "remove"])
            opened[process] = [name, 7, *([chance.randrange(values)] if name == "insert" else [])]
            events.append({"invoke": opened[process], "process": process})
    return {"events": events, "version": 1}


def is_refuted(history):
    """Whether `judge` says no with its own budget."""
    return subprocess.run([PROGRAM, "judge"], input=text_of(history), capture_output=True, timeout=120, check=False).returncode == NO


def spoiled(history, place, answers):
    """Gives a get behind a place of the events another one of these answers, so that `judge` says no."""
    for call in calls_of(history["events"]):
        if call["call"][0] == "get" and call["event"] >= place:
            for answer in answers:
                if answer != call["answer"]:
                    history["events"][call["end"]]["answer"] = answer
                    if is_refuted(history):
                        return history
            history["events"][call["end"]]["answer"] = call["answer"]
    raise ValueError("no answer makes the history wrong")


def long_ones():
    """Histories of many calls of one key with a wrong answer: an old value of many, or one of few where few calls overlap."""
    for processes, values in ((2, 3), (2, 1 << 30), (8, 1 << 30)):
        for place in (LONG_CALLS, 2 * LONG_CALLS - 200):
            history = long_history(random.Random(SEED + processes), processes, values)
            old = [call["call"][2] for call in calls_of(history["events"]) if call["call"][0] == "insert"][10:11]
            yield spoiled(history, place, [None, 0, 1, 2] if values == 3 else old)


def connections(chance):
    """Calls of 16 processes at one key, in which a get answers an old value, and of the others one in ten that put something says only that it
    was done. So many are open at once that `judge` does not decide it."""
    history = {**long_history(chance, CONNECTIONS, 1 << 30, CONNECTION_CALLS), "start": [], "version": 3}
    calls = calls_of(history["events"])
    values = [call["call"][2] for call in calls if call["call"][0] == "insert"]
    for call in calls:
        if call["call"][0] != "get" and chance.randrange(10) == 0:
            history["events"][call["end"]]["answer"] = "done"
    wrong = next(call for call in calls if call["call"][0] == "get" and call["event"] > 3 * CONNECTION_CALLS // 2)
    history["events"][wrong["end"]]["answer"] = values[len(values) // 2]
    return history


def value_comes_back():
    """Twice, twelve inserts at one key that all overlap, of which only is told that they were done, and a get behind them that reads what the first
    put; and behind the second a get that reads what the next put. The calls may take effect in more ways than the judge tries. Four of the last ones
    have no order."""
    events = []
    for held in (0, 10):
        events += [{"invoke": ["insert", 7, held + number], "process": process} for process, number in enumerate(BACK_VALUES)]
        events += [{"answer": "done", "process": process} for process in range(len(BACK_VALUES))]
        events += [{"invoke": ["get", 7], "process": 0}, {"answer": held, "process": 0}]
    return {"events": [*events, {"invoke": ["get", 7], "process": 1}, {"answer": 11, "process": 1}], "start": [], "version": 3}


BACK_VALUES = (0, 1, 2, 2, 3, 3, 4, 4, 4, 5, 5, 5)
# What is told of it behind what `locate` says, worked out by hand.
COMES_BACK = [
    {"answer": "done", "call": ["insert", 7, 10], "event": 26, "process": 0, "reason": "order"},
    {"answer": "done", "call": ["insert", 7, 11], "event": 27, "process": 1, "reason": "order"},
    {"answer": 10, "call": ["get", 7], "event": 50, "process": 0, "reason": "order"},
    {"answer": 11, "call": ["get", 7], "event": 52, "process": 1, "reason": "order"},
    {
        "events": [
            {"invoke": ["insert", 7, 10], "process": 0}, {"invoke": ["insert", 7, 11], "process": 1}, {"answer": "done", "process": 0},
            {"answer": "done", "process": 1}, {"invoke": ["get", 7], "process": 1}, {"answer": 10, "process": 1},
            {"invoke": ["get", 7], "process": 1}, {"answer": 11, "process": 1},
        ],
        "start": [], "version": 3,
    },
    {"front": [27, 26, 50], "holds": [[7, 10]], "next": [{"answer": 11, "event": 52, "would": 10}]},
]


def wrong_with_what_comes_back():
    """What is wrong with the explanation of the value that comes back, or None."""
    status, lines = said("explain", text_of(value_comes_back()))
    return None if (status, lines[2:]) == (UNDECIDED, COMES_BACK) else f"of a value that comes back explain says {lines}"


# Two inserts that overlap, of which the first one read what the other put, so it came last; and a get after both that reads what the other put.
OF_PART = {
    "events": [
        {"invoke": ["insert", 7, 1], "process": 1}, {"invoke": ["insert", 7, 3], "process": 0}, {"answer": None, "process": 0},
        {"answer": 3, "process": 1}, {"invoke": ["get", 7], "process": 1}, {"answer": 3, "process": 1},
    ],
    "version": 1,
}
# What `explain` says of it at a budget of one configuration, worked out by hand: before the get the key has the value of the first insert.
OF_PART_SAID = [
    {"calls": [0, 1, 2], "hi": 7, "lo": 7, "verdict": "undecided"},
    {"call": 2, "event": 5, "verdict": "no"},
    {"from": 1, "key": 7, "put": {"event": 0, "process": 1}},
    {"answer": 3, "call": ["get", 7], "event": 4, "process": 1, "reason": "order"},
    {"key": 7, "puts": [{"event": 1, "process": 0}], "start": False, "value": 3},
    {"events": [{"invoke": ["get", 7], "process": 0}, {"answer": 3, "process": 0}], "start": [[7, 1]], "version": 2},
    {"front": [], "holds": [[7, 1]], "next": [{"answer": 3, "event": 4, "would": 1}]},
]


def wrong_with_part_alone():
    """What is wrong with the explanation of a get of a part that has one past, or None."""
    status, lines = said_at(1, "explain", text_of(OF_PART))
    return None if (status, lines) == (UNDECIDED, OF_PART_SAID) else f"of a part explain says {lines}"


# The undecided histories of which a few calls were found.
FOUND = []


def undecided_explained(name, history, most):
    """What is wrong with the explanation of a history of which `judge` is undecided and `locate` says no, or None: a few calls show it. Or none are
    found, if the part at which `follow` loses the order has several pasts, and it ends after what `locate` says."""
    text = text_of(history)
    (judged, report), (located, location), (_, lines) = (said(word, text) for word in ("judge", "locate", "explain"))
    if (judged, located) != (UNDECIDED, NO) or lines[:1] != report:
        return f"{name} judge says {report}, locate {location} and explain {lines[:1]}"
    print(f"{name}: {sum('reason' in line for line in lines)} calls")
    FOUND.extend([name] * any("reason" in line for line in lines))
    if len(lines) > 2 and not 4 < len(lines) < most:
        return f"{name} explain says too little or too much: {lines[1:]}"
    wrong = wrong_with_located(history, lines[1:], location)
    return wrong and f"{name} explain says {wrong}"


def explained_at(budget, history):
    """How many lines have a value from which a few calls of a history begin, if it is explained at a budget, and what is wrong with them, or None."""
    text = text_of(history)
    status, lines = said_at(budget, "explain", text)
    begins = sum("from" in line for line in lines)
    wrong = wrong_with_located(history, lines[1:], said_at(budget, "locate", text)[1], budget) if status == UNDECIDED and begins else None
    return begins, wrong and f"at a budget of {budget} explain says {wrong}: {text.decode()}"


def disagreeing_scans(keys):
    """Scans over so many keys, all open while another process puts two values at some keys; each misses the second put of another key."""
    changed = [1 + keys // SCANS * number for number in range(SCANS)]
    scans = [{"process": process, "invoke": ["scan", 1, keys]} for process in range(SCANS)]
    held, events = {key: 0 for key in range(1, keys + 1)}, []
    for value in (1, 2):
        for key in changed:
            events += [{"process": SCANS, "invoke": ["insert", key, value]}, {"process": SCANS, "answer": value - 1}]
    answers = [sorted({**held, **{key: 2 for key in changed}, missed: 1}.items()) for missed in changed]
    told = [{"process": process, "answer": [list(pair) for pair in pairs]} for process, pairs in enumerate(answers)]
    return {"version": 2, "start": [[key, 0] for key in held], "events": [*scans, *events, *told]}


def wrong_with_scan(history, rows, origins, small, front):
    """What is wrong with few calls, of which one is a scan that lists two values of which the first was overwritten before the other came.

    Of calls that are open so many overlap that `judge` does not decide their history within its budget."""
    scans = [row for row in rows if row["call"][0] == "scan"]
    if len(scans) != 1 or not isinstance(scans[0]["answer"], list):
        return f"not one scan with its answer: {rows}"
    whole = calls_of(history["events"])
    left, held = rest_of(whole, {row["event"] for row in rows})
    if held or list(left) != [row["event"] for row in rows]:
        return f"calls that are held, {held}, or go: {left}"
    told = [row["call"][1] for row in rows if row["call"][0] == "insert" and row["call"][2] == 1 and row["answer"] == 0]
    if not any([key, 1] in scans[0]["answer"] for key in told):
        return f"no put of the value that the scan lists: {rows}"
    return None


def quick_explained(name, history, most, seconds_most, wrong_with):
    """What is wrong with the explanation of a history, or None: it is as the function says, of few calls, and quick."""
    text = text_of(history)
    before = resource.getrusage(resource.RUSAGE_CHILDREN)
    ran = subprocess.run([PROGRAM, "explain"], input=text, capture_output=True, timeout=120, check=False)
    after = resource.getrusage(resource.RUSAGE_CHILDREN)
    seconds = after.ru_utime + after.ru_stime - before.ru_utime - before.ru_stime
    lines = [json.loads(line) for line in ran.stdout.splitlines()]
    print(f"{name}: {len(lines) - 3} calls, {seconds:.2f} s of a processor")
    if ran.returncode != NO or len(lines) < 4:
        return f"{name} explain says too little: {lines[1:]}"
    if len(lines) - 3 >= most or seconds >= seconds_most:
        return f"{name} explain says too much, or not in time: {lines[1:]}"
    wrong = wrong_with(history, *parts_of(lines[1:]))
    return wrong and f"{name} explain says {wrong}"


def quick_ones():
    """Histories that are explained quickly: their names, how few calls explain them in how many seconds of a processor, and what says what is
    wrong with these."""
    for history in long_ones():
        processes = 1 + max(event["process"] for event in history["events"])
        yield f"of {LONG_CALLS} calls of {processes} processes", history, FEW_CALLS, LONG_SECONDS, wrong_with_few
    for keys in (SCANS, MANY_KEYS):
        yield f"of {SCANS} scans over {keys} keys", disagreeing_scans(keys), 2 * SCANS, FEW_SECONDS, wrong_with_scan


def main():
    # Builds the program where that is still to do.
    with open(os.path.join(TOP, "examples", "kept-update-replay.json"), "rb") as source:
        subprocess.run([os.path.join(TOP, "bench"), "replay"], stdin=source, stdout=subprocess.DEVNULL, check=True)
    wanted = int(sys.argv[1]) if sys.argv[1:] else HISTORIES
    histories = [*examples(), *left_of_examples()]
    passed = failed = refuted = number = most = 0
    with concurrent.futures.ThreadPoolExecutor(os.cpu_count()) as runs:
        while histories:
            for is_no, count, wrong in runs.map(explained, histories):
                refuted += is_no
                most = max(most, count)
                passed += wrong is None
                failed += wrong is not None
                if wrong is not None:
                    print(wrong)
            seeds = range(SEED + number, SEED + number + 100)
            histories = [less_told(seed) if seed % 2 else drawn_history(seed, False) for seed in seeds] if refuted < wanted else []
            number += 100
    undecided = [(f"of {CONNECTIONS} connections", connections(random.Random(SEED + number)), FEW_CALLS) for number in range(UNDECIDED_HISTORIES)]
    undecided.append(("of a value that comes back", value_comes_back(), FEW_CALLS))
    wrongs = itertools.chain(itertools.starmap(quick_explained, quick_ones()), itertools.starmap(undecided_explained, undecided))
    for wrong in itertools.chain(wrongs, [wrong_with_what_comes_back(), wrong_with_part_alone()]):
        passed += wrong is None
        failed += wrong is not None
        if wrong is not None:
            print(wrong)
    # A few calls are found in each of them.
    passed += len(FOUND) == len(undecided)
    failed += len(FOUND) < len(undecided)
    small = ((1 + seed % SMALL_BUDGETS, drawn_history(SEED + seed, True)) for seed in range(SMALL_HISTORIES))
    with concurrent.futures.ThreadPoolExecutor(os.cpu_count()) as runs:
        of_parts = [(begins, wrong) for begins, wrong in runs.map(lambda it: explained_at(*it), small) if begins]
    passed += sum(wrong is None for _, wrong in of_parts)
    failed += sum(wrong is not None for _, wrong in of_parts)
    for _, wrong in of_parts:
        if wrong is not None:
            print(wrong)
    # Some of them begin from values of several keys.
    passed += max((begins for begins, _ in of_parts), default=0) > 1
    failed += max((begins for begins, _ in of_parts), default=0) <= 1
    print(f"{refuted} without order, with {most} lines at most; a few calls after {len(FOUND)} of {len(undecided)} undecided, of a part in {len(of_parts)}")
    print(f"{passed} passed, {failed} failed")
    return 1 if failed else 0


if __name__ == "__main__":
    sys.exit(main())
