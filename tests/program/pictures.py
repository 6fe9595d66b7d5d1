#!/usr/bin/env python3
"""Reads the pictures that the program draws of the examples, of histories of 400 and 4,096 calls, of some that `judge` leaves
undecided, and of the small ones that `follow` writes.

- Each is XML of the elements of SVG that a picture has, without a script and without a reference to anything outside.
- It has a lane for each process, and one bar for each call, with the call and its answer in the bar's title. If `locate` names the call, the bar
  is drawn as wrong, with stripes.
- For a yes, it has one mark for each call of the order, with the call in the mark's title.
- A call's number ends before the next circle, and a place is no wider than its circle.
- Starting pairs that are cut are complete in a title. The status is that of `judge`.
- A part of a picture has the lanes, bars and marks of a window over the columns, which is worked out here, with the starting pairs of its keys. It
  says what it leaves out. A part with room for the whole picture is the picture.
- Without options, a no or an undecided shows only the calls that `explain` names, those that they miss, and those that put what they read from
  outside, which are worked out here. Pictures of at most 12 such calls are at most 1,200 wide.

The last line counts what passed and failed.
"""

import glob
import json
import os
import random
import re
import subprocess
import sys
import xml.etree.ElementTree

from explanations import OF_PART, SEED, UNDECIDED_HISTORIES, connections, left_of_examples, text_of, value_comes_back

TOP = os.path.dirname(os.path.dirname(os.path.dirname(os.path.abspath(__file__))))
PROGRAM = os.path.join(TOP, "crates", "bench", "out", "bench")
ELEMENTS = {"svg", "style", "text", "title", "g", "rect", "path", "circle"}
ATTRIBUTES = {"xmlns", "width", "height", "class", "x", "y", "rx", "cx", "cy", "r", "d", "stroke", "stroke-dasharray", "text-anchor"}
NAMESPACE = "{http://www.w3.org/2000/svg}"


def bench(words, text):
    ran = subprocess.run([PROGRAM, *words], input=text, capture_output=True, check=False)
    return ran.returncode, ran.stdout


def called(event):
    """The words of a call in a picture."""
    return " ".join(str(word) for word in event["invoke"])


def answered(answer):
    """The words of an answer in a picture."""
    return "none" if answer is None else answer if isinstance(answer, str) else json.dumps(answer, separators=(",", ":"))


def titles(history):
    """The title of each call's bar."""
    calls = []
    open_calls = {}
    for number, event in enumerate(history["events"]):
        process = event["process"]
        if "invoke" in event:
            open_calls[process] = len(calls)
            calls.append([process, number, called(event), None, None])
        else:
            calls[open_calls.pop(process)][3:] = [number, answered(event["answer"])]
    return [
        f"call {call} of process {process}, event {inv} "
        + (f"on, pending: {words}" if res is None else f"to event {res}: {words}: {reply}")
        for call, (process, inv, words, res, reply) in enumerate(calls)
    ]


def groups_of(picture):
    """The groups of a picture by their classes, and what is wrong with its elements."""
    root = xml.etree.ElementTree.fromstring(picture)
    elements = list(root.iter())
    names = {element.tag for element in elements} - {NAMESPACE + name for name in ELEMENTS}
    attributes = {name for element in elements for name in element.attrib} - ATTRIBUTES
    groups = {}
    for group in root.findall(NAMESPACE + "g"):
        groups.setdefault(group.get("class"), []).append(group)
    if names or attributes:
        return groups, f"elements {names}, attributes {attributes}"
    if re.search(rb"url\(|@import|href|http(?!://www\.w3\.org/2000/svg')", picture):
        return groups, "a reference to something outside"
    return groups, None


def fault_of_numbers(groups, picture):
    """What is wrong with the numbers of a picture's calls, or with its places, or nothing. A number ends before the next circle in its lane, and a
    circle is wide enough for its place. A letter of a monospaced font is 0.602 of its size wide.
    """
    style = picture.decode()
    sizes = {name: float(re.search(re.escape(rule) + r"\{[^}]*font-size:([\d.]+)px", style)[1]) for name, rule in (
        ("number", ".number"), ("number long", ".number.long"), (None, ".mark text"), ("long", ".mark text.long"))}
    circles = {}
    for mark in groups.get("mark", []):
        circle, place = mark.find(NAMESPACE + "circle"), mark.find(NAMESPACE + "text")
        if 0.602 * sizes[place.get("class")] * len(place.text) > 2 * float(circle.get("r")):
            return f"the place {place.text} is wider than its circle"
        circles.setdefault(int(circle.get("cy")), []).append(int(circle.get("cx")) - float(circle.get("r")))
    for bar in (bar for name in ("call", "pale", "wrong") for bar in groups.get(name, [])):
        number = next(text for text in bar.findall(NAMESPACE + "text") if text.get("class"))
        begin, middle = int(number.get("x")), int(number.get("y")) - 4
        end = begin + 0.602 * sizes[number.get("class")] * len(number.text)
        if any(begin < left < end for left in circles.get(middle, [])):
            return f"the number {number.text} runs under a circle"
    return None


def titles_in(groups, *names):
    """The titles of the groups of these classes."""
    return [group.find(NAMESPACE + "title").text for name in names for group in groups.get(name, [])]


def lanes_in(groups):
    """The names of the lanes."""
    return [group.find(NAMESPACE + "text").text for group in groups.get("lane", []) if group.find(NAMESPACE + "rect") is not None]


def places_in(groups):
    """The places of the marks, each with the number of its call."""
    return [(int(title.split()[1][:-1]), int(title.split()[3])) for title in titles_in(groups, "mark")]


def spans_of(events):
    """The process of each call, with the events at which it is invoked and answered; and the call of each event."""
    spans = []
    open_calls = {}
    call_at = []
    for number, event in enumerate(events):
        process = event["process"]
        if "invoke" in event:
            open_calls[process] = len(spans)
            spans.append([process, number, None])
        else:
            spans[open_calls[process]][2] = number
        call_at.append(open_calls[process])
    return spans, call_at


def window_of(history, verdict, located, marks, around, room, few=None):
    """The bars, marks and lanes of the part of a picture with these marks, and what it says of itself; of these few calls, where there are
    some.
    """
    events = history["events"]
    shown = few or {"yes": range(len(events))}.get(verdict["verdict"], verdict.get("calls"))
    spans, call_at = spans_of(events)
    points = []
    for call in marks:
        points.append(max([spans[call][1], *points]))
    wrong = located["event"] if located["verdict"] == "no" else points[-1] if points else 0
    middle_event = around if around < len(events) else wrong
    columns = []
    middle = None
    for number, call in enumerate(call_at):
        if number == middle_event:
            middle = len(columns)
        if call in shown:
            columns.append(("event", number))
        columns += [("mark", place) for place, point in enumerate(points) if point == number and (few is None or marks[place] in few)]
    count = min(room, len(columns))
    first = min(max(middle - room // 2, 0), len(columns) - count)
    place_of = {column: place for place, column in enumerate(columns)}
    bars = [call for call, (_, inv, res) in enumerate(spans) if call in shown and place_of["event", inv] < first + count
            and (res is None or place_of["event", res] >= first)]
    drawn = [place for kind, place in columns[first:first + count] if kind == "mark"]
    lanes = [f"process {process}" for process in sorted({spans[call][0] for call in bars})]
    notes = [f"{count} of {len(columns)} columns, around event {middle_event}. "] if count < len(columns) else []
    notes += [f"\u2190 {first} more columns"] if first else []
    notes += [f"{len(columns) - first - count} more columns \u2192"] if first + count < len(columns) else []
    every = titles(history)
    return bars, [f"place {place}: {every[marks[place]]}" for place in drawn], lanes, notes


def told_by(call, answer):
    """The pairs that an answer shows."""
    if isinstance(answer, list):
        return {tuple(pair) for pair in answer}
    return {(call[1], answer)} if isinstance(answer, int) and call[0] != "scan" else set()


def is_undone(call, answer):
    """Whether an answer says that a call was not done."""
    other_found = call[0] == "replace" and (answer is None or isinstance(answer, int) and answer != call[2])
    return answer in ("refused", "other") or other_found


def may_change(call, answer):
    """Whether a call, as far as its answer says, may change its key."""
    is_same = {"insert": answer == call[-1], "remove": answer is None, "replace": answer not in ("open", "left out") and call[-1] == call[-2]}
    return call[0] not in ("get", "scan") and not is_undone(call, answer) and not is_same[call[0]]


def few_of(history, explained):
    """The calls of a history, by number, that the lines of an explanation name, those that put what these read from outside, and those that they
    miss. If they begin from values that lines name, also those that put these."""
    rows, begins = [line for line in explained if "answer" in line], [line for line in explained if "from" in line]
    small = next((line for line in explained if "events" in line), {"start": [(line["key"], line["from"]) for line in begins]})
    changes = [(row["call"][1], row["call"][-1] if row["call"][0] != "remove" else None) for row in rows if may_change(row["call"], row["answer"])]
    start = {tuple(pair) for pair in (small if begins else history).get("start", [])}
    read = {pair for row in rows for pair in told_by(row["call"], row["answer"])} - set(changes)
    read -= {pair for pair in start if pair[0] not in {key for key, _ in changes}}
    spans, call_at = spans_of(history["events"])
    events = {row["event"] for row in rows} | {missed["event"] for row in rows for missed in row.get("misses", [])}
    events |= {line["put"]["event"] for line in begins if line["put"]}
    for _, inv, res in spans:
        call = history["events"][inv]["invoke"]
        answer = "open" if res is None else history["events"][res]["answer"]
        if call[0] in ("insert", "replace") and (call[1], call[-1]) in read and not is_undone(call, answer):
            events.add(inv)
    return {call_at[event] for event in events}


def groups_where(status, picture, wanted, other):
    """The groups of a picture whose status is that of something else; or none, and what is wrong, which is nothing of a text that is refused."""
    if status != wanted:
        return None, f"status {status}, where {other} has {wanted}"
    if status > 2:
        return None, "output of a refused text" if picture else None
    groups, fault = groups_of(picture)
    return (groups, None) if fault is None else (None, fault)


def fault_of_part(text, words, around, calls):
    """What is wrong with a part of the picture of a history, or nothing."""
    asked = [*([] if calls is None else ["--calls", str(calls)]), *([] if around is None else ["--around", str(around)])]
    status, picture = bench(["draw", *words, *asked], text)
    wanted, whole = bench(["draw", *words, "--calls", "0"], text)
    groups, fault = groups_where(status, picture, wanted, "the whole picture")
    if groups is None:
        return fault
    history = json.loads(text)
    verdict, located = (json.loads(bench([word, *words], text)[1]) for word in ("judge", "locate"))
    marks = [call for _, call in places_in(groups_of(whole)[0])]
    explained = [json.loads(line) for line in bench(["explain", *words], text)[1].splitlines()[1:]]
    is_free = calls is None and (around is None or around >= len(history["events"]))
    few = few_of(history, explained) if is_free and any("answer" in line for line in explained) else None
    room = 60 if calls is None else 3 * calls
    if few is None and (room == 0 or len(history["events"]) + len(marks) <= room):
        return None if picture == whole else "not the whole picture, where all of it has room"
    fault = fault_of_numbers(groups, picture)
    if fault is not None:
        return fault
    bars, places, lanes, notes = window_of(history, verdict, located, marks, 8192 if around is None else around, room, few)
    if few is not None and len(bars) <= 12 and int(xml.etree.ElementTree.fromstring(picture).get("width")) > 1200:
        return "more than 1,200 wide, of twelve calls"
    every = titles(history)
    if sorted(titles_in(groups, "call", "pale", "wrong")) != sorted(every[call] for call in bars):
        return "bars that are not those of the window"
    if titles_in(groups, "mark") != places:
        return "marks that are not those of the window"
    if lanes_in(groups) != lanes:
        return "lanes that are not those of the processes that act in the window"
    said = [element.text for element in xml.etree.ElementTree.fromstring(picture).findall(NAMESPACE + "text")]
    counts = sum("more columns" in line or "columns, around event" in line for line in said)
    if not all(any(line.startswith(note) for line in said) for note in notes) or counts != len(notes):
        return f"{said} is said, where {notes} should be"
    what = "Calls that show where it goes wrong, with those that put what they read and those that they miss." if few else (
        "" if verdict["verdict"] == "yes" else "Calls outside of the named segment are left out.")
    if not said[-1].endswith(what):
        return f"{said[-1]} is said, where it is {what}"
    named = [history["events"][spans_of(history["events"])[0][call][1]]["invoke"] for call in bars]
    return fault_of_start(groups, "starts at these calls' keys with ", [
        pair for pair in history.get("start", []) if any(call[1] <= pair[0] <= call[2 if call[0] == "scan" else 1] for call in named)])


def fault_of(text, words):
    """What is wrong with the whole picture of a history, or nothing."""
    status, picture = bench(["draw", *words, "--calls", "0"], text)
    wanted, report = bench(["judge", *words], text)
    groups, fault = groups_where(status, picture, wanted, "judge")
    if groups is None:
        return fault
    history = json.loads(text)
    lanes = len({event["process"] for event in history["events"]})
    if len(lanes_in(groups)) != lanes:
        return f"{len(lanes_in(groups))} lanes of {lanes} processes"
    if sorted(titles_in(groups, "call", "pale", "wrong")) != sorted(titles(history)):
        return "bars that are not those of the calls"
    verdict = json.loads(report)
    located = json.loads(bench(["locate", *words], text)[1])
    wrong = [f"call {located['call']} of"] if located["verdict"] == "no" else []
    if [" ".join(title.split()[:3]) for title in titles_in(groups, "wrong")] != wrong:
        return "a bar drawn as wrong that is not of the call at which the history goes wrong"
    striped = [group.get("class") for group in groups.get("call", []) + groups.get("pale", []) + groups.get("wrong", [])
               if any(path.get("class") == "stripes" for path in group.findall(NAMESPACE + "path"))]
    if striped != ["wrong" for _ in wrong]:
        return "stripes that are not on the bar that is drawn as wrong"
    every = titles(history)
    places = places_in(groups)
    if titles_in(groups, "mark") != [f"place {place}: {every[call]}" for place, call in places]:
        return "a mark with the title of another call"
    fault = fault_of_numbers(groups, picture)
    if fault is not None:
        return fault
    if verdict["verdict"] == "yes":
        if places != list(enumerate(verdict["order"])):
            return "marks that are not those of the order"
    elif not all(call in verdict["calls"] for _, call in places):
        return "marks that are not of the named segment"
    return fault_of_legend(picture, bool(wrong), verdict["verdict"]) or fault_of_start(groups, "starts with ", history.get("start", []))


def fault_of_legend(picture, has_wrong, verdict):
    """What is wrong with the legend of a whole picture, which comes last, or nothing."""
    said = [element.text for element in xml.etree.ElementTree.fromstring(picture).findall(NAMESPACE + "text")]
    places = "A circle has the call's place in " + {
        "yes": "the order", "no": "an order, as far as one gets", "undecided": "an order, as far as one got within the budget"}[verdict]
    legend = [
        "A bar is a call, from its invocation to its answer; the number in it is the call's.",
        places + ("; red stripes show where it goes wrong." if has_wrong else "."),
    ]
    return None if said[-2:] == legend else f"{said[-2:]} is the legend"


def fault_of_start(groups, begin, pairs):
    """What is wrong with the starting pairs of a picture, which come after these words, or nothing."""
    words = json.dumps(pairs, separators=(",", ":"))
    title, shown = (groups["start"][0].find(NAMESPACE + name) for name in ("title", "text"))
    if shown.text == begin + words:
        return None if title is None else "a title of starting pairs that are not cut"
    if not shown.text.endswith("\u2026") or not (begin + words).startswith(shown.text[:-1]):
        return f"{shown.text} of {words}"
    return None if title is not None and title.text == words else "starting pairs that are cut, and are not whole in a title"


def overlapping(count):
    """A history with an order: four processes whose calls overlap, each with its effect where it is answered."""
    events = []
    held = {}
    for call in range(0, count, 4):
        inserts = [["insert", (call + process) % 7, call + process] for process in range(4)]
        events += [{"process": process, "invoke": insert} for process, insert in enumerate(inserts)]
        for process, (_, key, value) in enumerate(inserts):
            events.append({"process": process, "answer": held.get(key)})
            held[key] = value
    return json.dumps({"events": events, "version": 1}).encode()


def cases():
    """Names, texts and words."""
    for path in sorted(glob.glob(os.path.join(TOP, "examples", "*.json"))):
        with open(path, "rb") as file:
            text = file.read()
        yield os.path.basename(path), text, []
        yield os.path.basename(path) + " at budget 2", text, ["--budget", "2"]
    for count in (8, 60, 400, 4096):
        yield f"{count} calls", overlapping(count), []
    yield "400 calls with a wrong answer", wronged(overlapping(400)), []
    yield "400 calls with a wrong answer, and pairs", started(wronged(overlapping(400)), 4096), []
    yield "a value that was overwritten is read", json.dumps({"events": STALE, "version": 1}).encode(), []
    yield "4096 calls at budget 100", overlapping(4096), ["--budget", "100"]
    for number in range(UNDECIDED_HISTORIES):
        yield f"calls of many connections, undecided, {number}", text_of(connections(random.Random(SEED + number))), []
    yield "a value that comes back, undecided", text_of(value_comes_back()), ["--budget", "20000"]
    yield "calls of a part, undecided", text_of(OF_PART), ["--budget", "1"]
    for number, history in enumerate(left_of_examples()):
        yield f"what is left of stream {number}", text_of(history), []


def wronged(text):
    """The same history, where one answer in its midst is another one."""
    history = json.loads(text)
    answers = [event for event in history["events"] if "answer" in event]
    answers[len(answers) // 2]["answer"] = 10 ** 6
    return json.dumps(history).encode()


def started(text, count):
    """The same history, from so many pairs of other keys."""
    return json.dumps({**json.loads(text), "start": [[100 + key, key] for key in range(count)], "version": 2}).encode()


# A value is put and overwritten by a call that was answered; then it is read.
STALE = [
    {"process": 0, "invoke": ["insert", 5, 70]}, {"process": 0, "answer": None},
    {"process": 1, "invoke": ["insert", 5, 71]}, {"process": 1, "answer": 70},
    {"process": 2, "invoke": ["get", 9]}, {"process": 2, "answer": None},
    {"process": 0, "invoke": ["get", 5]}, {"process": 0, "answer": 70},
]


def faults():
    """For each case and each part of it, its name and what is wrong."""
    for name, text, words in cases():
        yield name, fault_of(text, words)
        for around, calls in ((None, None), (None, 20), (0, 1), (5, 2), (11, 3), (300, 20), (8191, 7), (11, None), (None, 4096)):
            yield f"{name}, {calls} calls around event {around}", fault_of_part(text, words, around, calls)


def main():
    # Builds the program where that is still to do.
    with open(os.path.join(TOP, "examples", "kept-update-replay.json"), "rb") as source:
        subprocess.run([os.path.join(TOP, "bench"), "replay"], stdin=source, stdout=subprocess.DEVNULL, check=True)
    passed = failed = 0
    for name, fault in faults():
        if fault is None:
            passed += 1
        else:
            failed += 1
            print(f"{name}: {fault}")
    print(f"{passed} passed, {failed} failed")
    sys.exit(failed > 0)


if __name__ == "__main__":
    main()
