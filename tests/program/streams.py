#!/usr/bin/env python3
"""Compares what `follow` answers to a stream with all orders of its events, or with what `judge` and `locate` answer to the same history.

    tests/program/streams.py [STREAMS]

Streams are those of the examples that are not refused, and drawn ones: 5,000 if no number is given. Up to 64 processes call a map. Each call has its
effect at a moment while it is open, and some stay open. Then answers of half of them are changed, or swapped with an event next to them. In a third
of them some answers are partial. Of those of few calls, up to seven at once, all orders are tried here after each answer, and `judge` and `locate`
have to say what these say. Of the others `judge` says whether they have one, and `locate` at which event they lose it. If one of them is undecided,
the others may say what fits. The second line of a no is a history without an order, from the only value of each key that is named. Standard error,
which is no terminal, has nothing.

Then streams are followed in which processes die. Each stops inside an insert, a remove, a replace or a get and never answers. The others call the
map at its key thousands of times, and one of them stays long within a call now and then. Into half of these streams come wrong answers. A model
in this file says what is expected of them. It has, key by key, each value that the key may have, with the open calls that were done by then.

And streams in which one call, mostly a scan, is held up while others go on (`held_streams.py`). Some are drawn, and of half of these an answer is
changed, often that of what was held up. Some are rows that were worked out by hand, most of them with short scans that may have come at several
moments. And there are recordings, whole and with other pairs of their longest scan. A model (`stream_model.py`) has all maps that there may be, with
the open calls that were done by then. Rows and recordings have to be decided, and each recording within twenty seconds of a processor.
The last line counts what passed and failed.
"""

import concurrent.futures
import itertools
import json
import os
import random
import resource
import subprocess
import sys

TOP = os.path.dirname(os.path.dirname(os.path.dirname(os.path.abspath(__file__))))
sys.dont_write_bytecode = True
sys.path.insert(0, os.path.join(TOP, "drivers", "python"))
import held_streams  # noqa: E402
import stream_of  # noqa: E402
from stream_model import LESS, agrees, answer_of, lost_by_states, tell_less  # noqa: E402

PROGRAM = os.path.join(TOP, "crates", "bench", "out", "bench")
EXAMPLES = os.path.join(TOP, "examples")
SEED = 20_261_124
STREAMS = 5000
MOST_CALLS = 160
# Of each stream but the last of so many all orders are tried.
SMALL_SHARE = 2
SMALL_CALLS = 16
MOST_SMALL = 7
# With many open calls a search of a whole segment may meet millions of configurations.
BUDGET = ["--budget", "20000"]
REFUSED = 3
# Streams with processes that die, one for each 125 others, and their calls.
DEAD_SHARE = 125
DEAD_CALLS = 3000
# Streams with a call that is held up, one for so many others; and the seconds of a processor that a recording of such may take.
HELD_SHARE = 10
HELD_SECONDS = 20
# All orders of a row of so few events are tried.
SHORT_ROW = 70


def text_of(history):
    return json.dumps(history, separators=(",", ":"), sort_keys=True).encode()


def lines_of(history):
    """The stream of a history."""
    return "".join(stream_of.lines_of(history)).encode()


def drawn_call(chance, keys, kinds):
    key = chance.randrange(keys)
    name = chance.choice(kinds)
    if name == "scan":
        return [name, key, min(keys - 1, key + chance.randrange(4))]
    return [name, key, *(chance.randrange(3) for _ in range({"insert": 1, "replace": 2}.get(name, 0)))]


def drawn_events(chance, held, processes, keys, kinds, calls):
    """Each process in a random turn begins a call, has the effect of its open one, or is answered."""
    events, opened, answers = [], {}, {}
    # Few processes at a time take turns, so that now and then few calls are open.
    turns = [process for _ in range(1 + 6 * calls // processes)
             for process in chance.choices(chance.sample(range(processes), chance.randint(1, processes)), k=processes)]
    # Some processes stop, some when their call has had its effect; and so do all at once.
    stops = {process: chance.randrange(len(turns)) for process in range(processes) if chance.randrange(8) == 0}
    for turn, process in enumerate(turns[: chance.choice((len(turns), chance.randint(1, len(turns))))]):
        if stops.get(process, turn) < turn:
            continue
        if process in answers:
            events.append({"answer": answers.pop(process), "process": process})
            del opened[process]
        elif process in opened:
            refused = chance.randrange(50) == 0
            answers[process] = "refused" if refused else answer_of(held, *opened[process])
        elif calls:
            calls -= 1
            opened[process] = drawn_call(chance, keys, kinds)
            events.append({"invoke": opened[process], "process": process})
    return events


def damage(chance, events, others):
    """Changes an answer, or swaps two events of different processes that stand side by side."""
    place = chance.randrange(len(events))
    event = events[place]
    if "answer" in event and chance.randrange(3):
        answer = event["answer"]
        if isinstance(answer, list):
            changed = answer[1:] if answer and chance.randrange(2) else [[key, value + 1] for key, value in answer]
        else:
            changed = chance.choice([None, 0, 1, 2, *others])
        events[place] = {"answer": changed, "process": event["process"]}
    elif place and events[place - 1]["process"] != event["process"]:
        events[place - 1 : place + 1] = event, events[place - 1]


def drawn_history(seed, is_small):
    chance = random.Random(seed)
    processes = chance.randint(2, MOST_SMALL) if is_small else chance.choice((1, 2, 3, 4, 6, 8, 16, 32, 64))
    keys = chance.randint(1, 3) if is_small else max(2, chance.choice((processes // 4, processes, 2 * processes)))
    kinds = ["get"] * 4 + ["insert"] * 3 + ["remove"] * 2
    kinds += ["scan"] * (3 * is_small or processes < 16 or chance.randrange(4) == 0)
    version = chance.randint(1, 3)
    history = {"version": version}
    held = {}
    if version > 1:
        held = {key: chance.randrange(3) for key in range(keys) if chance.randrange(2)}
        history = {"start": [list(pair) for pair in held.items()], "version": version}
        kinds += ["replace"] * 2
    calls = chance.randint(4, SMALL_CALLS) if is_small else chance.randrange(1, min(MOST_CALLS, 20 * processes))
    history["events"] = drawn_events(chance, held, processes, keys, kinds, calls)
    if version == 3:
        tell_less(chance, history["events"])
    if history["events"] and chance.randrange(2):
        for _ in range(chance.randint(1, 3)):
            damage(chance, history["events"], LESS if version == 3 else ())
    return history


def drawn_deaths(seed):
    """A long history of few keys, without scans, in which processes die inside their calls, before the effect or after it, and one at a time
    sleeps there for long. A few processes at a time take turns, until all of their calls have ended but those of the dead and the sleeper."""
    chance = random.Random(seed)
    keys, living = chance.randint(1, 3), list(range(chance.randint(5, 8)))
    deaths = {process: chance.randrange(DEAD_CALLS) for process in range(chance.randint(1, 2))}
    held = {key: chance.randrange(3) for key in range(keys) if chance.randrange(2)}
    start = [list(pair) for pair in held.items()]
    events, opened, answers = [], {}, {}
    sleeper, wakes = None, 0
    while len(events) < 2 * DEAD_CALLS:
        team = chance.sample(living, chance.randint(1, 3))
        turns = chance.choices(team, k=6 * len(team))
        for turn, process in enumerate(turns + 3 * team):
            if process not in living or (turn >= len(turns) and process not in opened):
                continue
            if process == sleeper and len(events) < wakes:
                continue
            if process in opened and chance.randrange(2) and deaths.get(process, len(events)) < len(events):
                living.remove(process)
            elif process in opened and len(events) >= wakes and chance.randrange(100) == 0:
                sleeper, wakes = process, len(events) + chance.randrange(300)
            elif process in answers:
                events.append({"answer": answers.pop(process), "process": process})
                del opened[process]
            elif process in opened:
                answers[process] = answer_of(held, *opened[process])
            else:
                opened[process] = drawn_call(chance, keys, ["get", "get", "insert", "remove", "replace"])
                events.append({"invoke": opened[process], "process": process})
    version = chance.randint(2, 3)
    if version == 3:
        tell_less(chance, events)
    begun, late = {}, {False: [], True: []}
    for place, event in enumerate(events):
        if "invoke" in event:
            begun[event["process"]] = place
        elif place > len(events) // 2:
            late[place > begun[event["process"]] + 100].append(place)
    for place in chance.sample(late[chance.randrange(2) == 0] or late[False], chance.randrange(2)):
        others = LESS[1:] if version == 3 else ()
        events[place] = {"answer": chance.choice([None, 0, 1, 2, *others]), "process": events[place]["process"]}
    return {"start": start, "version": version, "events": events}


def cases_after(cases, opened, process, answer):
    """What may be the case at a key after an answer: the value, and the answers of the calls that are done by then and still open."""
    todo, seen, found = list(cases), set(cases), set()
    while todo:
        value, done = todo.pop()
        answers = dict(done)
        if process in answers:
            if agrees(opened[process][0], answers[process], answer):
                found.add((value, done - {(process, answers[process])}))
            continue
        for other, (call, is_answered) in opened.items():
            if other not in answers:
                held = {} if value is None else {call[1]: value}
                given = answer_of(held, *call)
                more = held.get(call[1]), done | {(other, given if is_answered else None)}
                if more not in seen:
                    seen.add(more)
                    todo.append(more)
    return found


def lost_by_deaths(history):
    """The first event with which a history without scans has no order, or None. An open get that is never answered does not count."""
    events = history["events"]
    start, last = dict(history["start"]), {event["process"]: event for event in events}
    cases, opened, keys = {}, {}, {}
    for place, event in enumerate(events):
        process = event["process"]
        if "invoke" in event:
            call, is_answered = event["invoke"], event is not last[process]
            keys[process] = call[1]
            if is_answered or call[0] != "get":
                opened.setdefault(call[1], {})[process] = call, is_answered
            continue
        key = keys[process]
        cases[key] = cases_after(cases.get(key, {(start.get(key), frozenset())}), opened[key], process, event["answer"])
        del opened[key][process]
        if not cases[key]:
            return place
    return None


def has_order(calls, start):
    """Whether some order of calls, each with the events of its invocation and its answer and with the answer, or without, is one from these
    pairs: all that may come next are tried, from each set of calls and pairs that is reached."""
    wanted = sum(1 << number for number, (_, _, end, _) in enumerate(calls) if end is not None)
    todo, seen = [(0, start)], {(0, start)}
    while todo:
        taken, pairs = todo.pop()
        if taken & wanted == wanted:
            return True
        left = [(number, call) for number, call in enumerate(calls) if not taken >> number & 1]
        first = min(end for _, (_, _, end, _) in left if end is not None)
        for number, (call, begin, end, answer) in left:
            held = dict(pairs)
            found = answer_of(held, *call)
            if begin > first or not (end is None or answer == "refused" or agrees(call, found, answer)):
                continue
            following = taken | 1 << number, pairs if end is not None and answer == "refused" else tuple(sorted(held.items()))
            if following not in seen:
                seen.add(following)
                todo.append(following)
    return False


def calls_of(history):
    """The calls of a history after each answer, with the event of this answer, and after all events, with None. Of each call: the invocation, its
    event, the event of the answer, and the answer."""
    calls, opened = [], {}
    for place, event in enumerate(history["events"]):
        if "invoke" in event:
            opened[event["process"]] = len(calls)
            calls.append((event["invoke"], place, None, None))
            continue
        number = opened.pop(event["process"])
        calls[number] = (*calls[number][:2], place, event["answer"])
        yield place, calls
    yield None, calls


def start_of(history):
    return tuple(map(tuple, history.get("start", [])))


def lost_by_all_orders(history):
    """The first event with which a history has no order, or None."""
    start = start_of(history)
    return next((place for place, calls in calls_of(history) if place is not None and not has_order(calls, start)), None)


def is_order(history, order):
    """Whether numbers of calls are an order of a history."""
    *_, (_, calls) = calls_of(history)
    held, first = dict(start_of(history)), len(history["events"])
    for number in reversed(order):
        _, begin, end, _ = calls[number]
        if begin > first:
            return False
        first = first if end is None else min(first, end)
    for number in order:
        call, _, end, answer = calls[number]
        found = dict(held)
        given = answer_of(found, *call)
        if end is not None and answer == "refused":
            continue
        if not (end is None or agrees(call, given, answer)):
            return False
        held = found
    return len(set(order)) == len(order) and all(number in order for number, call in enumerate(calls) if call[2] is not None)


def wrong_with_event(history, lines, wanted):
    """What is wrong with a verdict where the event is known with which the history has no order, or None is."""
    report = lines[0]
    if report["verdict"] == "undecided" and (wanted is None or report["event"] <= wanted):
        return wrong_with_doubt(history, report, lines[1:])
    if wanted is None:
        return wrong_with_count(history, lines)
    if report["verdict"] != "no" or report["event"] != wanted:
        return f"{report} of a stream that goes wrong at event {wanted}"
    return wrong_with_small(history, report, lines[1:])


def wrong_with_count(history, lines):
    """What is wrong with a yes."""
    calls, overlap = overlap_of(history["events"])
    hundredths = 100 * overlap // max(calls, 1)
    return None if lines == [{"calls": calls, "overlap": hundredths / 100, "verdict": "yes"}] else f"a yes as {lines}"


def may_reply(call, answer):
    """Whether some map answers a call so: a scan by pairs of its range, by rising key, or by nothing that is told."""
    name, low, *ends = call
    if name != "scan" or answer in ("refused", "done"):
        return True
    keys = [pair[0] for pair in answer] if isinstance(answer, list) else None
    return keys is not None and keys == sorted(set(keys)) and all(low <= key <= ends[0] for key in keys)


def wrong_with_keys(history, report):
    """What is wrong with the keys that are named. They rise. A no names one, unless no map answers the call so. If the call that was answered has
    one key, that is among them. The calls that are left at a key began before the event, rise, and have the key. Values of one writer differ."""
    events, event = history["events"], report["event"]
    begun = [place for place in range(event) if "invoke" in events[place]]
    call = max(place for place in begun if events[place]["process"] == events[event]["process"])
    if begun.index(call) != report["call"]:
        return f"{report}, whose event does not answer its call"
    keys, (name, low, *_) = [kept["key"] for kept in report["keys"]], events[call]["invoke"]
    if keys != sorted(set(keys)):
        return f"{report}, whose keys do not rise"
    may = may_reply(events[call]["invoke"], events[event]["answer"])
    if bool(keys) != may or may and name != "scan" and low not in keys:
        return f"{report}, which names no key of its call, or names one where no map answers so"
    for kept in report["keys"]:
        ranges = [events[place]["invoke"] for place in kept["invoked"] if place in begun]
        are_of = [low <= kept["key"] <= (ends[0] if name == "scan" else low) for name, low, *ends in ranges]
        if not all(are_of) or len(are_of) != len(kept["invoked"]) or kept["invoked"] != sorted(set(kept["invoked"])):
            return f"{report}, whose key {kept['key']} has calls that are none of it"
        pairs = list(zip(kept["values"], kept["put"], strict=True))
        if len(pairs) != len(set(pairs)):
            return f"{report}, whose key {kept['key']} has a value twice"
    return None


def puts_before(events, event, key):
    """The calls of a key that began before an event and put a value there, unless they are refused or answered by other before it: of each the
    event at which it begins, and the value."""
    for place in range(event):
        name, low, *rest = events[place].get("invoke", ["none", None])
        replies = [later["answer"] for later in events[place:event] if "answer" in later and later["process"] == events[place]["process"]]
        if low == key and name in ("insert", "replace") and replies[:1] not in (["refused"], ["other"]):
            yield place, rest[-1]


def answered_at(events, place, event):
    """The event before another one at which the call is answered that was invoked at a place, if it is."""
    process = events[place]["process"]
    return next((later for later in range(place, event) if "answer" in events[later] and events[later]["process"] == process), None)


def is_overwritten(events, event, kept, place, value):
    """Whether the value that a call put at a key was surely overwritten by one that is gone there: that was invoked after the call's answer, and was
    answered, and left another value, or none."""
    answered = answered_at(events, place, event)
    for later in range(event if answered is None else answered, event):
        name, key, *rest = events[later].get("invoke", ["none", None])
        done = answered_at(events, later, event)
        if key != kept["key"] or later in kept["invoked"] or done is None or events[done]["answer"] in ("refused", "other"):
            continue
        found = events[done]["answer"]
        if name == "insert" and rest[0] not in (value, found) or name == "remove" and found is not None:
            return True
        if name == "replace" and rest[1] not in (value, rest[0]) and found == rest[0]:
            return True
    return False


def wrong_with_puts(history, report):
    """What is wrong with who put the values of the keys that are named. It is a call of the key that puts the value, and no call that is gone
    overwrote it. It is nobody only if the key had the value at the start."""
    start = dict(history.get("start", []))
    for kept in report["keys"]:
        puts = set(puts_before(history["events"], report["event"], kept["key"]))
        for value, place in zip(kept["values"], kept["put"], strict=True):
            if place is not None and is_overwritten(history["events"], report["event"], kept, place, value):
                return f"{report}, where what {place} put at key {kept['key']} was overwritten"
            if value not in (None, start.get(kept["key"])) if place is None else (place, value) not in puts:
                return f"{report}, where {place} did not put {value} at key {kept['key']}"
    return None


def wrong_with_small(history, report, small):
    """What is wrong with a no besides its event: the keys, and the small history, which begins with the pairs of the keys that are named."""
    keys = report["keys"]
    if len(small) > all(len(kept["values"]) == 1 for kept in keys):
        return f"{report}, with the small histories {small}"
    for few in small:
        count = sum("invoke" in event for event in few["events"])
        start = dict(few.get("start", []))
        if count < len({place for kept in keys for place in kept["invoked"]}) or any(kept["values"] != [start.get(kept["key"])] for kept in keys):
            return f"{report}, with a small history of other calls: {few}"
        judged = said("judge", text_of(few))
        if judged[0] == 0:
            return f"a small history of which judge says {judged[1]}"
    return wrong_with_keys(history, report) or wrong_with_puts(history, report)


def overlap_of(events):
    """How many calls there are, and how many other ones are open at their invocations, in all."""
    calls = opened = overlap = 0
    for event in events:
        if "invoke" in event:
            calls, overlap, opened = calls + 1, overlap + opened, opened + 1
        else:
            opened -= 1
    return calls, overlap


def run(subcommand, text):
    """The exit status of a run, each line that it writes on standard output, as a value, and what it writes on standard error."""
    ran = subprocess.run([PROGRAM, subcommand, *BUDGET], input=text, capture_output=True, timeout=120, check=False)
    return ran.returncode, [json.loads(line) for line in ran.stdout.splitlines()], ran.stderr


def said(subcommand, text):
    """The same without standard error."""
    return run(subcommand, text)[:2]


def wrong_with_yes(history, text, lines):
    """What is wrong where `follow` says yes."""
    wrong = wrong_with_count(history, lines)
    if wrong:
        return wrong
    judged = said("judge", text)
    return f"yes, but judge says {judged[1]}" if judged[0] == 1 else None


def wrong_with_no(history, text, report, small):
    """What is wrong where `follow` says no."""
    status, (located,) = said("locate", text)
    call, event = report["call"], report["event"]
    if status == 2:
        fits = located["event"] <= event
    else:
        fits = located == {"call": call, "event": event, "verdict": "no"}
    return wrong_with_small(history, report, small) if fits else f"{report}, but locate says {located}"


def wrong_with_doubt(history, report, small):
    """What is wrong where `follow` does not know."""
    if small or report["reason"] != "budget":
        return f"{report}, with {small}"
    return wrong_with_keys(history, report) or wrong_with_puts(history, report)


def verdict(history, lost=None):
    """The verdict of `follow`, and what is wrong with it, or None; `lost` finds the event with which the history has no order, else `judge` and
    `locate` do."""
    text = text_of(history)
    status, lines, told = run("follow", lines_of(history))
    if status > 2:
        return "refused", f"{told} of {text.decode()}"
    report, *small = lines
    if lost is not None:
        wrong = wrong_with_event(history, lines, lost(history))
    elif status == 0:
        wrong = wrong_with_yes(history, text, lines)
    elif status == 1:
        wrong = wrong_with_no(history, text, report, small)
    else:
        wrong = wrong_with_doubt(history, report, small)
    if told:
        wrong = wrong or f"{told} on standard error, with {lines}"
    return report["verdict"], wrong and f"follow says {wrong}: {text.decode()}"


def small_verdict(history):
    """The same of a small history. All orders are tried, and `judge` and `locate` have to say what these say."""
    lost = lost_by_all_orders(history)
    found, wrong = verdict(history, lambda _: lost)
    (judged,), (located,) = said("judge", text_of(history))[1], said("locate", text_of(history))[1]
    wanted = "yes" if lost is None else "no"
    if judged["verdict"] != wanted or wanted == "yes" and not is_order(history, judged["order"]):
        wrong = wrong or f"judge says {judged} of a history that goes wrong at event {lost}: {text_of(history).decode()}"
    if (located["verdict"], located.get("event")) != (wanted, lost):
        wrong = wrong or f"locate says {located} of a history that goes wrong at event {lost}: {text_of(history).decode()}"
    return found, wrong


def decided(history, lost):
    """The same where the answer has to be yes, or no at this event."""
    found, wrong = verdict(history, lambda _: lost)
    if wrong is None and found != ("yes" if lost is None else "no"):
        wrong = f"{found} of a stream that {'has an order' if lost is None else f'goes wrong at event {lost}'}: {text_of(history).decode()}"
    return found, wrong


def row_verdict(row):
    """The same of a row of streams with calls that are held up. `locate` and the model have to say the same, and all orders of a short one. So do
    the keys that a no names, if these are given."""
    name, history, lost, *keys = row
    found, wrong = decided(history, lost)
    models = [lost_by_states, lost_by_all_orders][: 1 + (len(history["events"]) <= SHORT_ROW)]
    if any(model(history) != lost for model in models):
        wrong = f"a model says that it goes wrong at another event than {lost}"
    (located,) = said("locate", text_of(history))[1]
    if (located["verdict"], located.get("event")) != ("yes" if lost is None else "no", lost):
        wrong = wrong or f"follow says {found}, and locate {located}"
    if wrong is None and keys:
        report = run("follow", lines_of(history))[1][0]
        wrong = None if report["keys"] == keys[0] else f"{report}, and wanted are the keys {keys[0]}"
    return found, wrong and f"{name}: {wrong}"


def recording_verdict(recording):
    """The verdict of a recording, or of one whose scan that is held up reports something else, and what is wrong with it and its event, or None.
    Who put the values of a no is not looked for here: that takes minutes with so many calls."""
    lost = lost_by_states(recording)
    before = sum(resource.getrusage(resource.RUSAGE_CHILDREN)[:2])
    report = run("follow", lines_of(recording))[1][0]
    seconds = sum(resource.getrusage(resource.RUSAGE_CHILDREN)[:2]) - before
    wrong = f"{report} after {seconds:.1f} seconds, of a recording with a scan that is held up which goes wrong at event {lost}"
    is_right = (report["verdict"], report.get("event")) == ("yes" if lost is None else "no", lost) and seconds <= HELD_SECONDS
    return report["verdict"], None if is_right else wrong[:600]


def examples():
    """The histories of the examples that are not refused."""
    for name in sorted(os.listdir(EXAMPLES)):
        if name.endswith(".json") and not name.endswith(("-stream.json", "-replay.json", "-plan.json")):
            with open(os.path.join(EXAMPLES, name), "rb") as source:
                text = source.read()
            if said("judge", text)[0] < REFUSED:
                yield json.loads(text)


def left_of_examples():
    """The small histories that `follow` writes of the examples of streams."""
    for name in sorted(os.listdir(EXAMPLES)):
        if name.endswith("-stream.json"):
            with open(os.path.join(EXAMPLES, name), "rb") as source:
                status, lines = said("follow", source.read())
            if status < REFUSED:
                yield from lines[1:]


def main():
    # Builds the program where that is still to do.
    with open(os.path.join(EXAMPLES, "kept-update-replay.json"), "rb") as source:
        subprocess.run([os.path.join(TOP, "bench"), "replay"], stdin=source, stdout=subprocess.DEVNULL, check=True)
    count = int(sys.argv[1]) if sys.argv[1:] else STREAMS
    failed = 0
    verdicts = {"yes": 0, "no": 0, "undecided": 0, "refused": 0}
    with concurrent.futures.ProcessPoolExecutor(os.cpu_count()) as runs:
        judged = [*examples(), *(drawn_history(SEED + number, False) for number in range(count) if number % SMALL_SHARE == 0)]
        small = [drawn_history(SEED + number, True) for number in range(count) if number % SMALL_SHARE]
        deaths = [drawn_deaths(SEED + number) for number in range(count // DEAD_SHARE)]
        held = [held_streams.drawn_held(SEED + number) for number in range(count // HELD_SHARE)]
        rows = [*held_streams.rows(), *held_streams.rows_of_keys()]
        recordings = list(held_streams.recordings())
        for found, wrong in itertools.chain(
            runs.map(verdict, judged), runs.map(small_verdict, small),
            runs.map(verdict, deaths, itertools.repeat(lost_by_deaths)), runs.map(verdict, held, itertools.repeat(lost_by_states)),
            runs.map(row_verdict, rows), runs.map(recording_verdict, recordings),
        ):
            verdicts[found] += 1
            if wrong is not None:
                failed += 1
                print(wrong)
    print(", ".join(f"{number} {found}" for found, number in verdicts.items()))
    print(f"{sum(verdicts.values()) - failed} passed, {failed} failed")
    return 1 if failed else 0


if __name__ == "__main__":
    sys.exit(main())
