"""Streams in which a scan or a get is held up while others go on with their calls: rows of them with their answers, and drawn ones. For
`streams.py`, which compares what `follow` says of them.

While a scan is open, all later calls of its keys are left. Among them are short scans that may have come at several moments: a *pause* is a short
scan that misses a key which is removed and put again twice meanwhile. It came at one of two moments, so four pauses have sixteen ways. A *stretch*
is some calls of two other keys, and then pauses.
"""

import json
import lzma
import os
import random

from stream_model import answer_of, states_behind, tell_less

RECORDINGS = os.path.join(os.path.dirname(os.path.dirname(os.path.abspath(__file__))), "fixtures", "held_scans.xz")

# The key of pauses, its value, and the processes of their scans and of the others' calls.
PAUSED, KEPT = 9, 1
SCANNER, PUTTER = 10, 11


def invoked(process, *call):
    return {"invoke": list(call), "process": process}


def answered(process, answer=None):
    return {"answer": answer, "process": process}


def done(process, answer, *call):
    """A call that is answered before anything else."""
    return [invoked(process, *call), answered(process, answer)]


def pause():
    """A short scan that took effect at one of two moments."""
    twice = 2 * [*done(PUTTER, KEPT, "remove", PAUSED), *done(PUTTER, None, "insert", PAUSED, KEPT)]
    return [invoked(SCANNER, "scan", PAUSED, PAUSED), *twice, answered(SCANNER, [])]


def pauses(count=4):
    """So many of them: in two ways to the power of the count they may have taken effect."""
    return [event for _ in range(count) for event in pause()]


def paused(start, *events):
    """The history of these events, from pairs and that of pauses."""
    return {"version": 3, "start": [*start, [PAUSED, KEPT]], "events": list(events)}


def wrong_at(wrong, start, *events):
    """The same with the event at which it goes wrong: that is one of these events itself, or nothing."""
    places = [place for place, event in enumerate(events) if event is wrong]
    return paused(start, *events), places[0] if places else None


def many_values(inside):
    """The scan came before the insert at key 1, so at key 0 the 2 came before the 1. Then the get does not find 2."""
    wrong = answered(0, [[0, 2], [PAUSED, KEPT]])
    return wrong_at(
        wrong, [], invoked(0, "scan", 0, PAUSED), invoked(1, "insert", 0, 2), *inside, *done(2, "done", "insert", 1, 9),
        invoked(3, "insert", 0, 1), answered(1, "done"), answered(3, "done"), *done(1, 2, "get", 0), wrong,
    )


def beside_range(inside):
    """As the first scan saw the 5, the second one came after the insert of 1. So at key 0 the 7 stays, and this is no key of the first scan."""
    wrong = answered(0, [[1, 5], [PAUSED, KEPT]])
    return wrong_at(
        wrong, [[1, 1]], invoked(0, "scan", 1, PAUSED), invoked(1, "insert", 1, 5), *inside, *done(2, "done", "insert", 2, 9),
        invoked(3, "scan", 0, 1), invoked(4, "insert", 0, 7), invoked(5, "insert", 0, 8), answered(4, "done"), answered(5, "done"),
        *done(6, "done", "insert", 1, 1), answered(1, "done"), *done(1, 1, "get", 1), answered(3, [[0, 7], [1, 1]]),
        *done(1, 8, "get", 0), wrong,
    )


def early_or_late(inside):
    """The scan came before the remove, or saw the insert that is open at its answer. That insert came later."""
    return wrong_at(
        None, [[0, 1]], invoked(0, "scan", 0, PAUSED), invoked(3, "get", 5), *inside, *done(1, 1, "remove", 0), answered(3),
        invoked(2, "insert", 0, 1), answered(0, [[0, 1], [PAUSED, KEPT]]), *done(1, None, "insert", 0, 2), answered(2, 2),
    )


def open_insert(inside):
    """The scan saw the insert that is open. So that is done by then, and cannot find what is put after the scan."""
    wrong = answered(1, 2)
    return wrong_at(
        wrong, [], invoked(0, "scan", 0, PAUSED), invoked(1, "insert", 0, 1), *inside, *done(2, "done", "remove", 0),
        answered(0, [[0, 1], [PAUSED, KEPT]]), *done(2, "done", "insert", 0, 2), wrong,
    )


def two_scans(inside):
    """Two scans that are held up together: each sees an insert without the other one's."""
    wrong = answered(3, [[2, 2], [PAUSED, KEPT]])
    return wrong_at(
        wrong, [], invoked(0, "scan", 1, PAUSED), invoked(3, "scan", 1, PAUSED), invoked(1, "insert", 1, 1), *inside,
        invoked(2, "insert", 2, 2), answered(1, "done"), answered(2, "done"), answered(0, [[1, 1], [PAUSED, KEPT]]), wrong,
    )


def ways_differ(inside, found, pairs, is_right):
    """The scan of keys 0 and 1 came before the remove, so at key 0 the 7 came first and the 8 stays. Or it came after the insert at key 1, so the 7
    stays. The get says which, and so whether both keys can have had nothing at once."""
    answer = answered(0, pairs)
    return wrong_at(
        None if is_right else answer, [[1, 1]], invoked(0, "scan", 0, PAUSED), invoked(4, "scan", 0, 1), invoked(1, "insert", 0, 7), *inside,
        *done(2, 1, "remove", 1), invoked(3, "insert", 0, 8), answered(1, "done"), answered(3, "done"), *done(2, None, "insert", 1, 1),
        answered(4, [[0, 7], [1, 1]]), *done(2, found, "get", 0), answer,
    )


def stretch(number):
    """A stretch: keys 0 and 1 get 10 N + 1, where they had 10 less, by way of 10 N, one after another, and then come pauses."""
    before, inside, after = 10 * number - 9, 10 * number, 10 * number + 1
    puts = [(0, before, inside), (1, before, inside), (0, inside, after), (1, inside, after)]
    return [event for key, found, put in puts for event in done(1, found, "insert", key, put)] + pauses()


def stretches(first, last):
    """Those from the first to the last."""
    return [event for number in range(first, last + 1) for event in stretch(number)]


ALL = "scan", 0, PAUSED
FROM = [[0, 1], [1, 1]]
# What a scan of all keys may report that is held up over the stretches from 1 to 3 and two inserts after them: what was there in the first, in one
# in the middle, in the last, at the moment between two of them, in a pause, after all, and nothing. And what it may not: what was there at no moment,
# or at two of different stretches, or of one, or a pause at another time.
RIGHT = [
    [[0, 1], [1, 1], [9, 1]], [[0, 10], [1, 1], [9, 1]], [[0, 20], [1, 20], [9, 1]], [[0, 20], [1, 11], [9, 1]], [[0, 31], [1, 30], [9, 1]],
    [[0, 11], [1, 11], [9, 1]], [[0, 31], [1, 31], [9, 1]], [[0, 21], [1, 21]], [[0, 31], [1, 31]], [[0, 40], [1, 31], [9, 1]],
    [[0, 40], [1, 40], [9, 1]], "done",
]  # fmt: skip
WRONG = [
    [[0, 2], [1, 20], [9, 1]], [[0, 10], [1, 20], [9, 1]], [[0, 11], [1, 20], [9, 1]], [[0, 30], [1, 21]], [[0, 10], [9, 1]], [[9, 1]], [],
    [[0, 40], [1, 31]], [[0, 20], [1, 21], [9, 1]], [[0, 31], [1, 40], [9, 1]], [[0, 41], [1, 31], [9, 1]],
]  # fmt: skip


def reported(pairs, is_right, *after):
    """A scan that is held up over three stretches and what comes after them, and that reports these pairs; and then others."""
    answer = answered(0, pairs)
    late = [*done(1, 31, "insert", 0, 40), *done(1, 31, "insert", 1, 40)]
    return wrong_at(None if is_right else answer, FROM, invoked(0, *ALL), *stretches(1, 3), *late, answer, *after)


def lost_after(*before):
    """After these events a get finds what was overwritten."""
    wrong = answered(2, 30)
    return wrong_at(wrong, FROM, *before, invoked(2, "get", 0), wrong)


def keys_lost(*left):
    """What a no says of key 0 if these calls of it are left, by the events of their invocations. It has 1 before them, which nobody put."""
    return [{"invoked": list(left), "key": 0, "put": [None], "values": [1]}]


MANY = 150


def one_after_another(pairs, is_right):
    """Two scans that are held up, one after the other. The second one reports these pairs."""
    answer = answered(0, pairs)
    first = [invoked(0, *ALL), *stretches(1, 2), answered(0, [[0, 10], [1, 10], [9, 1]])]
    return wrong_at(None if is_right else answer, FROM, *first, invoked(0, *ALL), *stretches(3, 4), answer)


def overlapping(pairs, is_right):
    """Two that overlap: in the stretches 1 and 2 only the first is open, in 3 both are, and in 4 only the second one, which reports these pairs."""
    answer = answered(3, pairs)
    return wrong_at(
        None if is_right else answer, FROM, invoked(0, *ALL), *stretches(1, 2), invoked(3, *ALL), *stretch(3),
        answered(0, [[0, 20], [1, 11], [9, 1]]), *stretch(4), answer,
    )


def held_get(value, is_right):
    """Only a get of key 0 is held up, over three stretches."""
    answer = answered(0, value)
    return wrong_at(None if is_right else answer, FROM, invoked(0, "get", 0), *stretches(1, 3), answer, *done(2, 31, "get", 0))


def get_and_scan(value, pairs, wrong):
    """A get and a scan that are held up over one stretch, the scan over two more; which of the answers is wrong, if one is."""
    answers = answered(2, value), answered(0, pairs)
    events = [invoked(0, *ALL), invoked(2, "get", 0), *stretch(1), answers[0], *stretches(2, 3), answers[1]]
    return wrong_at(None if wrong is None else answers[wrong], FROM, *events)


def many_stretches(pairs, is_right):
    """A scan that is held up over as many stretches as a history has room for, and that reports these pairs."""
    answer = answered(0, pairs)
    return wrong_at(None if is_right else answer, FROM, invoked(0, *ALL), *stretches(1, MANY), answer)


def seen_late(found, is_right):
    """A scan sees an insert that is open, of a value that was in no stretch: so a get after it finds that."""
    answer = answered(3, found)
    return wrong_at(
        None if is_right else answer, FROM, invoked(0, *ALL), *stretches(1, 3), invoked(1, "insert", 0, 50),
        answered(0, [[0, 50], [1, 31], [9, 1]]), invoked(3, "get", 0), answer, answered(1, 31),
    )


def seen_early(found):
    """The same of what it may have seen in a stretch: the get may find either."""
    return wrong_at(
        None, FROM, invoked(0, *ALL), *stretches(1, 3), invoked(1, "insert", 0, 31), *done(2, 31, "insert", 0, 60),
        answered(0, [[0, 31], [1, 31], [9, 1]]), *done(3, found, "get", 0), answered(1, 31 if found == 60 else 60),
    )


def rows_of_keys():
    """Each row in which a no names key 0, and no other key: what it is of, the history, the event, and the keys. The scan that is held up does not
    join the parts of the keys, since it is not answered. But no part moves past its invocation, so all later calls of key 0 are left."""
    for count, left in ((1, (1, 5)), (3, (1, 5, 49, 53, 97, 101))):
        held = [invoked(0, *ALL), *stretches(1, count)]
        end = len(held)
        yield f"{count} stretches, lost", *lost_after(*held), keys_lost(*left, end)
        history, event = lost_after(*held, *done(1, 10 * count + 1, "insert", 0, 5))
        yield f"{count} stretches, lost after an insert", history, event, keys_lost(*left, end, end + 2)


def rows():
    """Each row: what it is of, the history, and the event at which it goes wrong, or None."""
    for make in (many_values, beside_range, early_or_late, open_insert, two_scans):
        for count in (0, 4, 5):
            yield f"{make.__name__}, {count} pauses", *make(pauses(count))
    for found, pairs, is_right in (
        (7, [[9, 1]], True), (8, [[9, 1]], False), (7, [[0, 8], [9, 1]], True), (8, [[0, 8], [9, 1]], True), (8, [[0, 7], [9, 1]], True),
    ):
        for count in (0, 4):
            yield f"ways differ, {count} pauses, {found}, {pairs}", *ways_differ(pauses(count), found, pairs, is_right)
    for pairs in RIGHT:
        yield f"reported {pairs}", *reported(pairs, True, *done(2, 40, "get", 0))
        yield f"reported {pairs}, lost after it", *lost_after(*reported(pairs, True)[0]["events"])
    for pairs in WRONG:
        yield f"reported {pairs}", *reported(pairs, False)
    for count in (1, 3):
        held = [invoked(0, *ALL), *stretches(1, count)]
        yield f"never answered, {count} stretches", *wrong_at(None, FROM, *held)
    for pairs, is_right in (
        ([[0, 30], [1, 30], [9, 1]], True), ([[0, 21], [1, 21], [9, 1]], True), ([[0, 41], [1, 41]], True), ("done", True),
        ([[0, 20], [1, 20], [9, 1]], False), ([[0, 10], [1, 10], [9, 1]], False), ([[0, 30], [1, 40], [9, 1]], False),
    ):
        yield f"one after another, {pairs}", *one_after_another(pairs, is_right)
        yield f"overlapping, {pairs}", *overlapping(pairs, is_right)
    for value, is_right in ((1, True), (10, True), (21, True), (31, True), ("found", True), (None, False), (2, False)):
        yield f"get held up, {value}", *held_get(value, is_right)
    for value, pairs, wrong in (
        (1, [[0, 1], [1, 1], [9, 1]], None), (11, [[0, 31], [1, 31], [9, 1]], None), ("done", [[0, 20], [1, 11], [9, 1]], None),
        (10, [[0, 10], [1, 20], [9, 1]], 1), (20, "done", 0),
    ):
        yield f"get and scan held up, {value}, {pairs}", *get_and_scan(value, pairs, wrong)
    for pairs, is_right in (
        ([[0, 1], [1, 1], [9, 1]], True), ([[0, 740], [1, 731], [9, 1]], True), ([[0, 740], [1, 730], [9, 1]], False),
        ([[0, 1501], [1, 1501]], True), ([[0, 1501], [9, 1]], False),
    ):
        yield f"{MANY} stretches, {pairs}", *many_stretches(pairs, is_right)
    yield "seen late", *seen_late(50, True)
    yield "seen late, and missed", *seen_late(31, False)
    yield "seen early", *seen_early(60)
    yield "seen early, found again", *seen_early(31)


def drawn_call(chance, keys, values, kinds):
    key, name = chance.randrange(keys), chance.choice(kinds)
    if name == "scan":
        return [name, key, chance.randrange(key, keys)]
    return [name, key, *(chance.randrange(values) for _ in range({"insert": 1, "replace": 2}.get(name, 0)))]


class Drawn:
    """A stream that is being drawn: the pairs held, the events, and by process the calls that are open, and the answers of those that had their
    effect."""

    def __init__(self, chance):
        self.chance = chance
        self.keys, self.values = chance.randint(1, 3), chance.randint(2, 3)
        self.kinds = ["scan"] * chance.randint(2, 4) + ["insert"] * 3 + ["remove"] * 2 + ["get", "replace"]
        self.held = {key: chance.randrange(self.values) for key in range(self.keys) if chance.randrange(2)}
        self.start = [list(pair) for pair in self.held.items()]
        self.events, self.opened, self.answers = [], {}, {}

    def invoke(self, process, call):
        self.opened[process] = call
        self.events.append(invoked(process, *call))

    def take_effect(self, process):
        self.answers[process] = answer_of(self.held, *self.opened[process])

    def answer(self, process):
        del self.opened[process]
        self.events.append(answered(process, self.answers.pop(process)))

    def go_on(self, process, may_begin=True):
        """The process takes its next step."""
        if process in self.answers:
            self.answer(process)
        elif process in self.opened:
            self.take_effect(process)
        elif may_begin:
            self.invoke(process, drawn_call(self.chance, self.keys, self.values, self.kinds))

    def burst(self, team):
        """A few processes take turns, and then their calls end, but for one now and then."""
        for process in self.chance.choices(team, k=self.chance.randint(4, 10) * len(team)):
            self.go_on(process)
        self.rest(team[self.chance.choice((0, 0, 1)) :])

    def rest(self, team):
        """Their calls end."""
        for process in 2 * team:
            self.go_on(process, may_begin=False)


def drawn_slow(drawn):
    """What is held up: most are scans of most keys."""
    if drawn.chance.randrange(10) == 0:
        return ["get", drawn.chance.randrange(drawn.keys)]
    low = drawn.chance.choice((0, 0, drawn.chance.randrange(drawn.keys)))
    return ["scan", low, drawn.chance.choice((drawn.keys - 1, drawn.chance.randrange(low, drawn.keys)))]


def damage(chance, events):
    """Changes an answer: that of what was held up to what it may have found at another moment, or at two of them, or of another call."""
    places = [place for place, event in enumerate(events) if "answer" in event]
    places = places[len(places) // 2 :]
    slow = [place for place in places if events[place]["process"] == 0]
    place = chance.choice(slow if slow and chance.randrange(2) else places)
    answer = events[place]["answer"]
    if isinstance(answer, list):
        others = [events[other]["answer"] for other in places if isinstance(events[other]["answer"], list)]
        keys = {key for key, _ in answer}
        mixed = [pair for pair in chance.choice(others) if pair[0] in keys]
        answer = chance.choice((answer[1:], mixed, [[key, (value + 1) % 3] for key, value in answer]))
    else:
        answer = chance.choice((None, 0, 1, 2))
    events[place] = answered(events[place]["process"], answer)


def drawn_held(seed):
    """A stream in which one process has a call that is held up, one after another. From two to six others go on with theirs, of few keys and values,
    so short scans may have taken effect at several moments."""
    chance = random.Random(seed)
    drawn, calm = Drawn(chance), list(range(1, chance.randint(3, 7)))
    wanted, bursts, effect, end = 2 * chance.randint(60, 400), 0, 0, -1
    while len(drawn.events) < wanted:
        if 0 not in drawn.opened and (end < 0 or chance.randrange(4)):
            drawn.invoke(0, drawn_slow(drawn))
            length = chance.choice((5, 40, 100))
            effect, end = bursts + chance.randrange(length), bursts + length + chance.randrange(length)
        if bursts >= effect and 0 in drawn.opened and 0 not in drawn.answers:
            drawn.take_effect(0)
        if bursts >= end and 0 in drawn.answers and chance.randrange(8):
            drawn.answer(0)
        drawn.burst(chance.sample(calm, chance.randint(1, min(3, len(calm)))))
        if chance.randrange(4) == 0:
            drawn.rest(calm)
        bursts += 1
    if 0 in drawn.answers and chance.randrange(4):
        drawn.answer(0)
    version = chance.choice((2, 2, 3))
    if version == 3:
        tell_less(chance, drawn.events)
    if chance.randrange(2):
        damage(chance, drawn.events)
    return {"version": version, "start": drawn.start, "events": drawn.events}


def recorded():
    """Recordings of a map in which a thread was held up in a scan, from no pairs; and of each the events at which that scan begins and ends."""
    with lzma.open(RECORDINGS, "rt") as source:
        for text in source.read().split("\n\n"):
            events = [json.loads(line) for line in text.splitlines()]
            begun, spans = {}, []
            for place, event in enumerate(events):
                if "invoke" in event:
                    begun[event["process"]] = place
                elif isinstance(event["answer"], list):
                    spans.append((begun[event["process"]], place))
            yield {"version": 2, "start": [], "events": events}, *max(spans, key=lambda span: span[1] - span[0])


def with_pairs(history, place, pairs):
    """The same, but the scan that is answered at an event reports these pairs."""
    events = history["events"]
    return {**history, "events": [*events[:place], answered(events[place]["process"], pairs), *events[place + 1 :]]}


def changed(history, place, change):
    """The same with another of its pairs: what a change makes of one."""
    pairs = list(history["events"][place]["answer"])
    number = random.Random(place).randrange(len(pairs))
    pairs[number] = change(*pairs[number])
    return with_pairs(history, place, pairs)


def pair_before(history, place, key, value):
    """Another pair of a key: the last that a scan before an event reported."""
    answers = [event.get("answer") for event in history["events"][:place]]
    return [pair for answer in answers if isinstance(answer, list) for pair in answer if pair[0] == key and pair[1] != value][-1]


def pairs_at(history, begun, place):
    """Pairs of a scan's range that the map may have held at some event."""
    _, low, high = history["events"][begun]["invoke"]
    for answer, states in states_behind(history):
        if answer >= place:
            held = min(pairs for pairs, _ in states)
            return [list(pair) for pair in held if low <= pair[0] <= high]
    return []


def recordings():
    """The recordings. And each with other pairs of its scan that is held up: with a value that nobody put, with one that a key had before, and with
    what the map may have held soon after the scan began, in the middle, and late."""
    for history, begun, place in recorded():
        yield history
        yield changed(history, place, lambda key, value: [key, value + 1000])
        yield changed(history, place, lambda key, value: pair_before(history, place, key, value))
        for share in (2, 20, 38):
            yield with_pairs(history, place, pairs_at(history, begun, begun + share * (place - begun) // 40))
