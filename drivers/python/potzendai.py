"""Tests an ordered map of your own. Threads (or processes) call its functions, and what they do is recorded. The program `bench` judges each
recording, or follows one stream of it. Copy this file: it needs only Python 3.8 and the program, or the library by ctypes.

    import potzendai

    class Map: ...                   # with the functions below; a new and empty map for each run

    if __name__ == "__main__":
        potzendai.main(Map)

A function answers a value, a pair or pairs if it reports them, or one of the words in brackets. Any but get and put may be missing.

    connection(self)                 what one thread calls instead of the map, as a cursor; it may have close(self)
    get(self, key)                   the value [NONE or None, DONE, FOUND, REFUSED, UNKNOWN]
    put(self, key, value)            the value before [NONE, DONE, FOUND, REFUSED, UNKNOWN]
    delete(self, key)                the value before [NONE, DONE, FOUND, REFUSED, UNKNOWN]
    scan(self, low, high)            the pairs of one moment, both ends included, by rising keys [NONE, DONE, REFUSED, UNKNOWN]
    replace(self, key, old, new)     the value found [NONE, DONE: it was replaced, OTHER: it was not, FOUND, REFUSED, UNKNOWN]
    put_if_absent(self, key, value)  the value found [NONE: it was put, FOUND: it was not, REFUSED, UNKNOWN]
    floor, ceiling(self, key)        the greatest pair up to the key, the least one from it on [NONE or None, DONE, REFUSED, UNKNOWN]
    pop_first(self)                  the least pair, which is removed [NONE or None, REFUSED]
    reopen(self)                     for --reopen: closes the map at rest, and returns it opened again, with what it held
    close(self)                      called after the last use of the map

NONE: there was no value. DONE: it was done, and nothing is reported. FOUND: there was a value, which is not reported; of a pair the value may
be FOUND. OTHER: the old value was not there. REFUSED: nothing has changed. UNKNOWN, or an OSError that is raised, as of a timeout or a lost
connection: nobody knows whether it was done. `told(value)` is NONE for None. Keys and values are numbers, and nothing else changes the map.
"""
import argparse
import collections
import copy
import ctypes
import itertools
import json
import multiprocessing
import os
import queue
import re
import shutil
import subprocess
import sys
import tempfile
import threading
import time
import traceback
import types

NONE, DONE, FOUND, OTHER, REFUSED, UNKNOWN = SAYINGS = ("none", "done", "found", "other", "refused", "unknown")
GREATEST = 2 ** 64 - 1
OWN = 2 ** 63  # under --cache, values from here on are the driver's own
BATCH_ROUNDS, BATCH_CALLS = 64, 256  # so many rounds are judged together, of so many calls
PROCESSES, CALLS, SPAN = 64, 4096, 16  # limits of a history; the most keys of a scan
STREAM_PROCESSES, STREAM_KEYS = 65536, 16384  # limits of a stream, and of its keys
AHEAD, BATCH = 8192, 4096  # how many stamps a thread may be ahead of what is handed over; how many lines are handed over at once
KEPT = 2 ** 26  # the most bytes of a stream that are kept for a file
SELDOM = 20  # one call in so many goes wrong in a map that is broken
YES, NO, UNDECIDED, FAULTY, MEMORY, WORDS, FILE = range(7)  # statuses, as the program's
VERDICTS = ("yes", "no", "undecided")
SHARES = {"get": 40, "put": 30, "delete": 10, "scan": 5, "replace": 10, "put_if_absent": 5, "floor": 3, "ceiling": 3, "pop_first": 2}
BREAKS = {"drop": "put", "race": "put", "replay": "put", "stale": "get", "zombie": "delete", "torn": "scan", "cas": "replace"}


class Stop(Exception):
    """Ends the run with a line and a status."""

    def __init__(self, status, line):
        super().__init__(line)
        self.status, self.line = status, line


def told(value):
    """The answer of a function that found this value before: NONE if it is None."""
    return NONE if value is None else value


def word(kind):
    """The name of a function in words; `del` cannot be a name in Python."""
    return "del" if kind == "delete" else kind


# Draws

def mixed(state):
    """Steele, Lea and Flood's SplitMix: the number that a state gives."""
    z = (state + 0x9E3779B97F4A7C15) & GREATEST
    z = ((z ^ z >> 30) * 0xBF58476D1CE4E5B9) & GREATEST
    z = ((z ^ z >> 27) * 0x94D049BB133111EB) & GREATEST
    return z ^ z >> 31


class Draws:
    """Numbers that a seed, a round and a thread decide."""

    def __init__(self, seed, number, thread):
        self.state = mixed(seed) ^ mixed(number + (1 << 40)) ^ mixed(thread + (1 << 50))

    def below(self, bound):
        drawn = mixed(self.state) % bound
        self.state = (self.state + 0x9E3779B97F4A7C15) & GREATEST
        return drawn


_of_thread = threading.local()


def point():
    """A map's functions may call this at each place where another thread should be able to run: under `--yield` it sometimes does."""
    _of_thread.has_points = True
    give_way()


def give_way():
    often = getattr(_of_thread, "often", 0)
    if often and _of_thread.draws.below(1000) < often:
        time.sleep(0 if _of_thread.draws.below(4) else (1 + _of_thread.draws.below(50)) / 1e6)


def taken():
    """A map's read may call this when it has its snapshot. The read counts as answered at that moment, and may read its pairs later."""
    worker = getattr(_of_thread, "worker", None)
    if worker:
        worker.take()


# What a history has of a call

def is_value(answer):
    return type(answer) is int and 0 <= answer <= GREATEST


def is_pair(answer):
    return isinstance(answer, (tuple, list)) and len(answer) == 2 and is_value(answer[0]) and (is_value(answer[1]) or answer[1] == FOUND)


def values_of(answer):
    """The values that an answer has."""
    return [answer] if is_value(answer) else [answer[1]] if is_pair(answer) else [pair[1] for pair in answer]


def is_pairs(answer):
    return isinstance(answer, (tuple, list)) and all(is_pair(pair) and is_value(pair[1]) for pair in answer)


OPEN = "open"
EVENTS = {NONE: None, FOUND: "found", DONE: "done", OTHER: "other", REFUSED: "refused", UNKNOWN: OPEN}
# Of each function: its call in a history, what it reports, and the words that it may answer instead.
ANSWERS = {
    "get": ("get", is_value, (NONE, FOUND, DONE, REFUSED, UNKNOWN)),
    "put": ("insert", is_value, (NONE, FOUND, DONE, REFUSED, UNKNOWN)),
    "delete": ("remove", is_value, (NONE, FOUND, DONE, REFUSED, UNKNOWN)),
    "scan": ("scan", is_pairs, (NONE, DONE, REFUSED, UNKNOWN)),
    "replace": ("replace", is_value, (NONE, FOUND, DONE, OTHER, REFUSED, UNKNOWN)),
    "put_if_absent": ("insert", is_value, (NONE, FOUND, REFUSED, UNKNOWN)),
    "floor": ("scan", is_pair, (NONE, DONE, REFUSED, UNKNOWN)),
    "ceiling": ("scan", is_pair, (NONE, DONE, REFUSED, UNKNOWN)),
    "pop_first": ("scan", is_pair, (NONE, REFUSED)),
}


def checked(kind, answer, cache=None):
    """The answer, if the function may give it."""
    if answer is None and kind in ("get", "floor", "ceiling", "pop_first"):
        return NONE
    _, tells, words = ANSWERS[kind]
    if tells(answer):
        if cache and any(is_value(value) and value >= OWN for value in values_of(answer)):
            raise Stop(WORDS, "%s said a value from 2^63 on, and --cache needs these for its own use" % word(kind))
        return answer
    if isinstance(answer, str) and answer in words:
        return answer
    hint = "nothing: NONE if the key held none, DONE if that is not known" if answer is None else "%s, which does not fit it" % (answer,)
    raise Stop(WORDS, "%s said %s" % (word(kind), hint))


def edge(kind, key, pair):
    """Floor and ceiling are scans from the key to what was found, or to the end."""
    low, high = (0, key) if kind == "floor" else (key, GREATEST)
    if pair == NONE:
        return ["scan", low, high], []
    if pair[1] == FOUND:
        return ["get", pair[0]], FOUND
    if low <= pair[0] <= high:
        low, high = (pair[0], key) if kind == "floor" else (key, pair[0])
    return ["scan", low, high], [list(pair)]


HELD = ("put_if_absent", "floor", "ceiling", "pop_first")  # the answer says which call of a history it was


# What a history has of a call: its invocation, its answer, a note of the call as it was made where that is another one, and further calls of
# the same interval, each by a process of its own.
Noted = collections.namedtuple("Noted", "call answer note beside", defaults=(None, ()))


def noted(kind, words, answer):
    """What a history has of a call; None if it is left out, since it reports nothing."""
    told_of = noted_call(kind, words, answer)
    return told_of and Noted(*told_of)


def noted_by_cache(kind, words, answer, options, fresh):
    """What a history has of a call of a cache, which may lose any key at any time. A miss is recorded so that the key has no value from then on. So
    this history has an order if and only if the cache's own has one in which keys may be lost. Late: a miss says nothing."""
    plain, is_late = noted(kind, words, answer), options.cache == "late"
    if plain is None or is_late and (answer == OTHER or answer == NONE and kind not in ("put", "delete", "put_if_absent")):
        return None
    if answer == NONE and kind in ("get", "put", "delete", "replace", "put_if_absent"):
        call = ["insert", *words] if kind in ("put", "put_if_absent") else ["remove", words[0]]
        return Noted(call, "done", said_call(plain.call) + ", answered none" + ("" if is_late else ": the key was gone"))
    if answer == OTHER:
        return Noted(["replace", *words[:2], next(fresh)], "done", said_call(plain.call) + ", answered another value")
    if plain.call[0] != "scan":
        return plain
    if is_late:
        gets = [Noted(["get", key], value, "%s, answered %d: %d" % (said_call(plain.call), key, value)) for key, value in plain.answer]
        return gets[0]._replace(beside=gets[1:]) if gets else None
    held = {pair[0] for pair in plain.answer}
    missing = [key for key in range(plain.call[1], min(plain.call[2], options.keys - 1) + 1) if key not in held]
    return plain._replace(beside=[Noted(["remove", key], "done", "%s, which did not have %d: the key was gone" % (said_call(plain.call), key))
                                  for key in missing])


def noted_call(kind, words, answer):
    changes = kind in ("put", "delete", "replace")
    if answer == REFUSED and not changes or answer in (DONE, UNKNOWN) and kind in ("get", "scan", "floor", "ceiling"):
        return None
    if kind in ("floor", "ceiling"):
        return edge(kind, words[0], answer)
    if kind == "pop_first":
        return (["scan", 0, GREATEST], []) if answer == NONE else (["remove", answer[0]], answer[1])
    if kind == "scan":
        return ["scan", *words], [] if answer == NONE else [list(pair) for pair in answer]
    if kind == "put_if_absent" and (is_value(answer) or answer == FOUND):
        return ["get", words[0]], answer
    if kind == "replace" and answer == DONE:
        answer = words[1]
    return [ANSWERS[kind][0], *words], answer if is_value(answer) else EVENTS[answer]


# A map that is wrong now and then, around one that may be right: a test of the test

class Broken:
    """A connection with one kind of bug, which shows in one of some calls."""

    def __init__(self, connection, how, draws, keys):
        self.connection, self.how, self.draws, self.keys, self.late, self.once, self.style = connection, how, draws, keys, None, {}, None
        self.times = 0  # how often it went wrong
        for kind in ANSWERS:
            if callable(getattr(connection, kind, None)):
                setattr(self, kind, self.around(kind))
        if hasattr(connection, "close"):
            self.close = connection.close

    def around(self, kind):
        function, wrong = getattr(self.connection, kind), getattr(self, "%s_%s" % (self.how, kind), None)

        def call(*words):
            if self.late and self.draws.below(2):
                late, self.late = self.late, None
                self.connection.put(*late)
                self.times += 1
            answer = wrong(*words) if wrong and self.draws.below(SELDOM) == 0 else None
            self.times += answer is not None
            if answer is None:
                answer = function(*words)
                self.see(kind, words, answer)
            return answer
        return call

    def see(self, kind, words, answer):
        if kind == "put" and (is_value(answer) or answer in (DONE, FOUND)):
            self.style = answer if answer in (DONE, FOUND) else "told"
        elif kind == "get" and (words[0] not in self.once or self.draws.below(4) == 0):
            self.once[words[0]] = told(answer)

    def pause(self):
        time.sleep(0 if self.draws.below(4) else (1 + self.draws.below(50)) / 1e6)

    def in_style(self, got):
        """What the put of the map would say if a get says this."""
        return DONE if self.style == DONE else self.style if is_value(got) and self.style != "told" else got

    def drop_put(self, key, value):
        return self.in_style(told(self.connection.get(key))) if self.style else None

    def race_put(self, key, value):
        """Makes a get and then a put, as if they were one call. If the put reports what it found, the get is of the same key. Otherwise the get is of
        the key next to it, and what it got is put back."""
        if not self.style:
            return None
        beside = key if self.style == "told" or key ^ 1 >= self.keys else key ^ 1
        got = told(self.connection.get(beside))
        self.pause()
        if beside != key and is_value(got):
            self.connection.put(beside, got)
        answer = self.connection.put(key, value)
        return answer if beside != key or self.style == DONE else self.in_style(got)

    def replay_put(self, key, value):
        self.late = (key, value)

    def stale_get(self, key):
        return self.once.get(key)

    def zombie_delete(self, key):
        found = self.connection.get(key)
        if is_value(found):
            self.late = (key, found)

    def torn_scan(self, low, high):
        first = self.connection.scan(low, (low + high) // 2)
        if low == high or not is_pairs(first):
            return None
        time.sleep(self.draws.below(2000) / 1e6)  # long enough for others to change keys of both halves
        second = self.connection.scan((low + high) // 2 + 1, high)
        return list(first) + list(second) if is_pairs(second) else second

    def cas_replace(self, key, old, new):
        said = self.connection.put(key, new)
        return said if said == REFUSED or said == UNKNOWN else DONE


# Threads and what they record

WRITING = ("put", "delete", "replace", "put_if_absent")
READS = ("get", "scan", "floor", "ceiling")


class Worker:
    """One thread or process: draws calls, makes them, and notes them with the stamps of their beginning and their end."""

    def __init__(self, number, options, stamp, locks, doubts, stream, values_from):
        self.number, self.options, self.stamp, self.locks, self.doubts, self.stream = number, options, stamp, locks, doubts, stream
        self.puts, self.values_from, self.process, self.helpers = 0, values_from, number, []
        self.total, self.is_reading, self.end = sum(options.shares.values()), False, None
        self.held = ANSWERS if options.cache else HELD  # the note of a cache's call has its answer
        self.fresh = itertools.count(OWN + number, options.threads)  # values that no call puts
        self.span = options.span

    def open(self, made):
        self.connection = made.connection() if hasattr(made, "connection") else made
        if self.options.broken:
            self.connection = Broken(self.connection, self.options.broken, Draws(self.options.seed, 0, self.number), self.options.keys)

    def run(self, number, lives, start, doubtful):
        """The calls of a round, as at most this many processes. A process whose answer is unknown makes no further call."""
        options = self.options
        if self.values_from is None:
            self.values_from = 1 + max(start.values(), default=0)  # each put has a value of its own, which was not in the map before
        self.draws, self.log, self.life, self.made, self.seen = Draws(options.seed, number, self.number), [], 0, 0, {}
        self.sayings, self.called = dict.fromkeys(("told",) + SAYINGS, 0), dict.fromkeys(ANSWERS, 0)
        _of_thread.worker, _of_thread.has_points = self, False
        self.memory = {key: start.get(key, NONE) for key in range(options.keys) if key not in doubtful} if options.void == "own" else {}
        _of_thread.often, _of_thread.draws = options.yields, copy.copy(self.draws)
        self.lives, times = lives, getattr(self.connection, "times", 0)
        while self.goes_on():
            self.draw()
        return self.log, self.sayings, self.called, _of_thread.has_points, getattr(self.connection, "times", 0) - times

    def goes_on(self):
        """Whether it may make one more call."""
        if self.stream and (self.stream.state.value != RUNNING or self.process >= STREAM_PROCESSES):
            return False
        return self.life < self.lives and (self.made < self.options.calls or self.options.calls == 0)

    def draw(self):
        options, place = self.options, self.draws.below(self.total)
        for kind, share in options.shares.items():
            if place < share:
                break
            place -= share
        is_write = kind in WRITING or kind == "pop_first"
        key = self.key(is_write)
        if is_write:
            value = (self.values_from + self.puts * (options.threads + 1) + self.number) & GREATEST
            self.puts += 1
        if kind == "scan":
            high = min(key + self.draws.below(self.span), options.keys - 1)
        give_way()
        if kind == "scan" and options.scan == "steps":
            return self.steps(key, high)
        words = {"scan": lambda: (key, high), "put": lambda: (key, value), "put_if_absent": lambda: (key, value), "pop_first": tuple,
                 "replace": lambda: (key, self.seen.get(key, 0), value)}.get(kind, lambda: (key,))()
        if is_write and self.locks:
            with self.locks[key]:
                self.make(kind, *words)
        else:
            self.make(kind, *words)

    def key(self, is_write):
        options = self.options
        is_hot = 0 < options.hot < options.keys and self.draws.below(10) < 9
        key = self.draws.below(options.hot if is_hot else options.keys)
        if options.void != "own" or not is_write:
            return key
        key = key // options.threads * options.threads + self.number
        return key if key < options.keys else self.number

    def steps(self, low, high):
        while low <= high and self.goes_on():
            pair = self.make("ceiling", low)
            if not is_pair(pair) or pair[0] < low:
                break
            low = pair[0] + 1

    def ask(self, kind, *words):
        try:
            return checked(kind, getattr(self.connection, kind)(*words), self.options.cache)
        except OSError:
            return UNKNOWN

    def take(self):
        """Takes this moment as that of the answer of the open call, if the call only reads. Of several such moments the last one counts."""
        if self.is_reading:
            if self.stream and self.end is not None:
                self.stream.put(self.end, ())
            self.end = self.stamp()

    def make(self, kind, *words):
        """Makes a call between two stamps, and notes it."""
        begin, got = self.stamp(), DONE
        if self.stream and kind not in self.held:
            self.stream.put(begin, [(self.process, [ANSWERS[kind][0], *words], None, None)], kind)
        if self.locks and kind in ("put", "delete"):
            got = self.ask("get", words[0])
        if self.options.cache:
            got = DONE  # the key may be lost between that get and the call
        self.is_reading, self.end = kind in READS, None
        answer = self.ask(kind, *words)
        self.is_reading = False
        end = self.stamp() if self.end is None else self.end
        self.made += 1
        self.called[kind] += 1
        self.sayings[answer if isinstance(answer, str) else "told"] += 1
        if self.locks and answer == UNKNOWN and words:
            self.doubts[words[0]] |= kind in WRITING  # it may still come between a get and the put after it
        says = self.known(kind, words, answer, DONE if words and self.locks and self.doubts[words[0]] else got)
        if self.options.void == "told" and kind in ("put", "delete") and says in (DONE, FOUND):
            raise Stop(WORDS, "%s said %s, and --void told wants the value before" % (word(kind), says))
        if kind == "put" or kind == "replace" and answer == DONE:
            self.seen[words[0]] = words[-1]
        elif kind in ("get", "delete", "replace", "put_if_absent") and is_value(answer):
            self.seen[words[0]] = answer
        made = noted_by_cache(kind, words, says, self.options, self.fresh) if self.options.cache else noted(kind, words, says)
        if self.stream:
            self.hand_over(begin, end, kind, answer, made)
        else:
            self.note(begin, end, kind, answer, made)
        return answer

    def known(self, kind, words, answer, got):
        """Returns what is known of the answer. If a put or a delete was done and does not report what it found, the get before it under the key's
        lock says so, or what the only writer of the key remembers."""
        before = self.memory.get(words[0]) if words else None
        if kind in WRITING and before is not None and answer != REFUSED:
            if answer == UNKNOWN or kind == "replace" and answer == FOUND:
                del self.memory[words[0]]
            elif kind == "delete":
                self.memory[words[0]] = NONE
            elif kind == "put" or kind == "put_if_absent" and answer == NONE or kind == "replace" and answer in (DONE, words[1]):
                self.memory[words[0]] = words[-1]
        if kind not in ("put", "delete") or answer != DONE:
            return answer
        return before if before is not None else got if got == NONE or is_value(got) else DONE

    def note(self, begin, end, kind, answer, made):
        if made is None:
            return
        self.log.append(Line(begin, self.number, self.life, kind, None, made))
        if made.answer == OPEN:
            self.life += 1
        else:
            self.log.append(Line(end, self.number, self.life, kind, answer if isinstance(answer, str) else "told", made))

    def hand_over(self, begin, end, kind, answer, made):
        """Puts the events of a call that is over into the stream. A call that reports nothing is left out, or gets the answer `refused` if the
        stream has its invocation already. A call whose answer is unknown stays open, and its thread continues as another process."""
        saying = answer if isinstance(answer, str) else "told"
        if made and len(made.beside) > BESIDE:
            made, kind = None, LEFT_OUT
        if made is None:
            if kind not in self.held and kind != LEFT_OUT:
                return self.stream.put(end, [(self.process, None, REFUSED, None)], kind, saying)
            self.stream.put(begin, ())
            return self.stream.put(end, (), kind, saying)
        while len(self.helpers) < len(made.beside):
            self.helpers.append(self.stream.next_process())
        calls = list(zip([self.process] + self.helpers, (made,) + tuple(made.beside)))
        if kind in self.held:
            self.stream.put(begin, [(process, one.call, None, one.note) for process, one in calls], kind)
        self.stream.put(end, [(process, None, one.answer, None) for process, one in calls], kind, saying)
        if made.answer == OPEN:
            self.process = self.stream.next_process()


LEFT_OUT, BESIDE = "left out", 32  # the most calls that a stream has on behalf of one


# What a thread noted at a stamp: which thread it was, as which of its processes; the function and, at its end, what it said; and the call.
Line = collections.namedtuple("Line", "stamp thread life kind saying made")


def serve(worker, made, inbox, outbox, barrier):
    """What a thread or a process does from its first round to its last."""
    try:
        worker.open(made)
        outbox.put(None)
        for task in iter(inbox.get, None):
            barrier.wait()
            outbox.put(worker.run(*task))
        if hasattr(made, "connection") and hasattr(worker.connection, "close"):
            worker.connection.close()
    except BaseException as error:
        barrier.abort()
        if worker.stream:
            worker.stream.state.value = FAILED
        status = error.status if isinstance(error, Stop) else MEMORY if isinstance(error, MemoryError) else WORDS
        outbox.put((status, error.line if isinstance(error, Stop) else traceback.format_exc()))


def stamps(processes):
    """One word, and a sequentially consistent fetch-and-add on it."""
    if processes:
        shared = multiprocessing.get_context("fork").Value("Q", 0)

        def of_processes():
            with shared.get_lock():
                shared.value += 1
                return shared.value
        return of_processes
    if getattr(sys, "_is_gil_enabled", lambda: True)():
        return itertools.count().__next__  # one step of the interpreter, under its lock
    lock, count = threading.Lock(), itertools.count()

    def of_threads():
        with lock:
            return next(count)
    return of_threads


RUNNING, OVER, FAILED = range(3)
RENUMBERED = "here and in the files, events and processes have new numbers. The calls are those \"invoked\" above, by rising event:"
AGAIN = "  again (draws the same calls; threads may interleave otherwise): "
OPEN_SHOWN = 6  # of the other calls that were open
REPORT_SHOWN = 1000  # characters of the report of a stream without order
NOTES = 10 ** 6  # of so many events of a stream the notes are kept for the words of a no


class Stream:
    """One stream of events, which a thread of its own writes to the program while others record. Stamps are numbers without a gap, so this thread
    delays what comes early. A thread that is too far ahead waits, so that memory does not grow. Between its two stamps a thread waits only for
    threads with lower stamps, so the event of the least stamp always comes."""

    def __init__(self, options, pipe, stamp):
        shared = multiprocessing.get_context("fork").RawValue if options.processes else lambda kind: types.SimpleNamespace(value=0)
        self.inbox, self.stamp, self.others = pipe(), stamp, stamps(options.processes)
        self.threads = options.threads
        self.taken, self.state = shared("Q"), shared("B")

    def next_process(self):
        return self.threads + self.others()

    def put(self, stamp, events, kind=None, saying=None):
        """Puts what a stamp has into the stream. Each event is of a process, with its call and the note of that, or with its answer. The first
        event is the function's own; those after it are on its behalf. If this ends a call, `saying` is what the map said."""
        while stamp >= self.taken.value + AHEAD and self.state.value != FAILED:
            time.sleep(0.0005)
        self.inbox.put((stamp, events, kind, saying))

    def begin(self, run, start, follower):
        self.run, self.follower, self.wrong, self.outcome = run, follower, None, None
        run.kept = None if isinstance(follower, Out) else []
        self.opened, self.writers, self.number, self.notes = {}, {}, 0, {}
        self.lines = ['{"start":%s,"version":3}\n' % json.dumps(sorted(map(list, start.items())), separators=(",", ":"))]
        self.taken.value = self.stamp() + 1
        self.writer = threading.Thread(target=self.write, daemon=True)
        self.writer.start()

    def write(self):
        """Writes each event in its turn, and asks for the verdict at the end. If it cannot, later events are dropped."""
        events = iter(self.inbox.get, None)
        try:
            self.follower.open(self)
            self.hand_all(events)
        except OSError:
            self.drop(events)  # whoever follows has ended: the verdict says why
        except BaseException as error:
            self.wrong = error
            self.drop(events)
        try:
            self.outcome = self.follower.end()
        except BaseException as error:
            self.wrong = self.wrong or error

    def hand_all(self, events):
        early = {}
        for event in events:
            early[event[0]] = event
            while self.taken.value in early:
                self.take(*early.pop(self.taken.value)[1:])
                self.taken.value += 1
            if len(self.lines) >= BATCH or self.inbox.empty():
                self.flush()
        self.flush()
        if early:
            self.state.value = FAILED

    def drop(self, events):
        self.state.value = FAILED
        for _ in events:
            pass

    def take(self, events, kind, saying):
        """The lines of events, and the counts, as for a round. But nothing is stored of calls that are over. A call without an answer is
        over too: nobody waits for it."""
        run, opened, writers = self.run, self.opened, self.writers
        run.left_out += kind == LEFT_OUT
        for i, (process, call, answer, note) in enumerate(events):
            if call:
                self.number += 1
                if note:
                    self.notes[self.number - 1] = note
                run.helped += i > 0
                self.lines.append('{"invoke":["%s",%s],%s"process":%d}\n' % (
                    call[0], ",".join(map(str, call[1:])), '"note":"%s",' % note if note else "", process))
            elif answer != OPEN:
                self.number += 1
                self.lines.append('{"answer":%s,"process":%d}\n' % (json.dumps(answer, separators=(",", ":")), process))
        if len(self.notes) > 2 * NOTES:
            self.notes = {number: note for number, note in self.notes.items() if number >= self.number - NOTES}
        if events and events[0][1]:
            process, call = events[0][:2]
            run.calls += 1
            run.overlap += len(opened)
            if kind in WRITING:
                run.met.update([call[1]] if writers.get(call[1]) else [])
                writers[call[1]] = writers.get(call[1], 0) + 1
            opened[process] = call, run.tally.begin(kind, call[1])
        elif events:
            process, _, answer, _ = events[0]
            call, stored = opened.pop(process)
            run.tally.end(kind, call[1], saying, stored)
            if kind in WRITING and answer != OPEN:
                writers[call[1]] -= 1
                if not writers[call[1]]:
                    del writers[call[1]]
        if saying:
            run.sayings[saying] += 1

    def flush(self):
        lines, self.lines = "".join(self.lines).encode(), []
        self.run.keep(lines)
        if lines:
            self.follower.hand(lines)
        self.run.progress()

    def end(self):
        """Ends the stream. Returns the status of the verdict and its report, or what went wrong."""
        self.inbox.put(None)
        self.writer.join()


class Crew:
    """The threads or processes of a run, and a connection of the driver's own."""

    def __init__(self, options, made, stamp=None, values_from=None):
        self.options, self.stamp = options, stamp or stamps(options.processes)
        kit = multiprocessing.get_context("fork") if options.processes else threading
        pipe, member = (kit.SimpleQueue, kit.Process) if options.processes else (queue.SimpleQueue, threading.Thread)
        locks = [kit.Lock() for _ in range(options.keys)] if options.void == "lock" else []
        doubts = multiprocessing.get_context("fork").RawArray("b", options.keys) if options.processes else bytearray(options.keys)
        barrier = kit.Barrier(options.threads)
        self.stream = Stream(options, pipe, self.stamp) if options.stream else None
        self.pipes = [(pipe(), pipe()) for _ in range(options.threads)]
        self.members = [
            member(target=serve, args=(Worker(number, options, self.stamp, locks, doubts, self.stream, values_from), made, *pipes, barrier),
                   daemon=True)
            for number, pipes in enumerate(self.pipes)]
        for one in self.members:
            one.start()
        self.taken()
        self.made, self.puts, self.values_from = made, 0, values_from or 1
        self.connection = made.connection() if hasattr(made, "connection") else made

    def taken(self):
        """What each member puts out. Where one has met an error, the run ends."""
        for member, (_, outbox) in zip(self.members, self.pipes):
            while outbox.empty():
                if not member.is_alive() and outbox.empty():
                    raise Stop(WORDS, "%s: a process has ended" % self.options.name)
                time.sleep(0.0002)
        taken = [outbox.get() for _, outbox in self.pipes]
        errors = [one for one in taken if one and isinstance(one[1], str)]
        if errors:
            first = next((error for error in errors if "BrokenBarrierError" not in error[1]), errors[0])
            raise Stop(first[0], "%s: %s" % (self.options.name, first[1].rstrip()))
        return taken

    def run(self, *task):
        self.start(*task)
        return self.taken()

    def start(self, *task):
        for inbox, _ in self.pipes:
            inbox.put(task)

    def is_done(self):
        """Whether all have put out what they had to, or one has ended."""
        return all(not outbox.empty() for _, outbox in self.pipes) or not all(one.is_alive() for one in self.members)

    def contents(self, number=0):
        """Gets of all keys, the last calls of a round, and what the map then holds. If a get does not report the value, the key is written."""
        log, pairs = [], {}
        for key in range(self.options.keys):
            said, made = self.ask_at_rest(log, "get", key)
            holds, is_known = said, made is not None and (said == NONE or is_value(said))
            write = None if is_known or said in (REFUSED, UNKNOWN) else self.write_of(key, number)
            if write:
                said, holds = self.ask_at_rest(log, *write)[0], write[2] if write[2:] else NONE
                is_known = said not in (REFUSED, UNKNOWN)
            if not is_known:
                name = word(write[0]) if write else "get"
                raise Stop(WORDS, "%s: %s of %d said %s at rest: the run has to know what the key holds" % (self.options.name, name, key, said))
            if holds != NONE:
                pairs[key] = holds
        return log, pairs

    def write_of(self, key, number):
        """The call by which is known what a key holds: a put of a new value or, at each second key, a delete. Of a cache, a delete."""
        is_put = callable(getattr(self.connection, "put", None))
        is_delete = callable(getattr(self.connection, "delete", None)) and (self.options.cache or not is_put or (key + number) % 2)
        if is_delete or not is_put:
            return ("delete", key) if is_delete else None
        self.puts += 1
        return "put", key, self.values_from + self.puts * (self.options.threads + 1) + self.options.threads

    def ask_at_rest(self, log, kind, *words):
        """Asks a function at rest: again if it is refused, and a get also if nobody knows. The answer is noted unless it reports nothing."""
        for _ in range(1000):
            begin = self.stamp()
            try:
                answer = checked(kind, getattr(self.connection, kind)(*words), self.options.cache)
            except OSError:
                answer = UNKNOWN
            end = self.stamp()
            if answer != REFUSED and (answer != UNKNOWN or kind != "get"):
                break
            time.sleep(0.001)
        made = noted_by_cache(kind, words, answer, self.options, None) if self.options.cache else noted(kind, words, answer)
        if made and made.answer != OPEN:
            saying, kind = answer if isinstance(answer, str) else "told", "rest" if kind == "get" else kind
            log.append(Line(begin, self.options.threads, 0, kind, None, made))
            log.append(Line(end, self.options.threads, 0, kind, saying, made))
        return answer, made

    def close(self):
        """Ends the threads or processes, and closes all connections."""
        for inbox, _ in self.pipes:
            inbox.put(None)
        for one in self.members:
            one.join(1)
        if hasattr(self.made, "connection") and hasattr(self.connection, "close"):
            self.connection.close()


def forget(made):
    """Closes a map that is used no more."""
    if callable(getattr(made, "close", None)):
        made.close()


# Histories

class Round:
    """What one round recorded, as a history, and what its threads met."""

    at_start, nobody = "at the start", "nobody"

    def __init__(self, logs, start, pending, tally):
        lines = sorted((line for log in logs for line in log), key=lambda line: line.stamp)
        self.start, self.events, self.kinds, self.left_out = start, [], [], 0
        self.numbers, self.before = {}, len(pending)
        for process, call in enumerate(pending):
            self.add(process, "invoke", call)
        self.order(lines)
        self.measure(tally)

    def add(self, process, member, what, note=None, kind=None, saying=None):
        """An event. Calls that no thread made have no kind."""
        self.events.append({member: what, "note": note, "process": process} if note else {member: what, "process": process})
        self.kinds.append((kind, saying))

    def number(self, who):
        """Each thread, and each of its lives, becomes a process, and so does who makes further calls on behalf of one."""
        return self.numbers.setdefault(who, self.before + len(self.numbers))

    def order(self, lines):
        """The events of the threads. The further calls of a call get processes that are free. If there are none, or too many calls, the call is left
        out with its further calls."""
        room = PROCESSES - self.before - len({(line.thread, line.life) for line in lines})
        calls = CALLS - self.before - sum(line.saying is None for line in lines)
        free, helping, left_out, made_up = [], {}, set(), itertools.count()
        for line in lines:
            who, beside = (line.thread, line.life), line.made.beside
            if line.saying is not None and who in left_out:
                left_out.remove(who)
                continue
            if line.saying is None:
                while len(free) < len(beside) and room:
                    room -= 1
                    free.append(("beside", next(made_up)))
                if len(beside) > min(len(free), calls):
                    left_out.add(who)
                    self.left_out += 1
                    continue
                calls -= len(beside)
                helping[who] = [free.pop() for _ in beside]
            helpers = helping[who]
            for maker, one, kind in zip([who] + helpers, (line.made, *beside), itertools.chain([line.kind], itertools.repeat(None))):
                if line.saying is None:
                    self.add(self.number(maker), "invoke", one.call, one.note, kind)
                else:
                    self.add(self.number(maker), "answer", one.answer, None, kind, line.saying)
            free += helpers if line.saying is not None else []

    def measure(self, tally):
        """How many calls were open when another began, at which keys two writers met, and which changes may still come: calls without an answer whose
        value no answer reports. A call without an answer does not count as overlapped."""
        answered, opened, told_of, self.calls, self.overlap, self.met = set(), {}, set(), 0, 0, set()
        last = {}
        for number, event in enumerate(self.events):
            if "invoke" in event:
                last[event["process"]] = number
            else:
                answered.add(last[event["process"]])
        for number, (event, (kind, saying)) in enumerate(zip(self.events, self.kinds)):
            process, call = event["process"], event.get("invoke")
            if call is None:
                told_of.update(pair[1] for pair in event["answer"]) if type(event["answer"]) is list else told_of.add(event["answer"])
                _, call, _, stored = opened.pop(process)
                if kind:
                    tally.end(kind, call[1], saying, stored)
                continue
            if kind:
                self.calls += 1
                self.overlap += sum(1 for other, _, is_one, _ in opened.values() if other and is_one)
            if kind in WRITING and any(other in WRITING and met[1] == call[1] for other, met, _, _ in opened.values()):
                self.met.add(call[1])
            opened[process] = kind, call, number in answered, tally.begin(kind, call[1]) if kind else None
        self.pending = [call for _, call, _, _ in opened.values() if call[0] == "remove" or call[-1] not in told_of]

    def is_apart(self, keys):
        """Whether all its keys are below `keys` and all its calls have answers. Then it may be judged together with other rounds."""
        answers = [event["answer"] for event in self.events if type(event.get("answer")) is list]
        calls = [event["invoke"] for event in self.events if "invoke" in event]
        held = list(self.start) + [pair[0] for pairs in answers for pair in pairs] + [call[1] for call in calls]
        return 2 * len(calls) == len(self.events) and max(held, default=0) < keys

    def text(self):
        answers = [event["answer"] for event in self.events if isinstance(event.get("answer"), str)]
        if any(answer != "refused" for answer in answers) or any("note" in event for event in self.events):
            version = 3
        else:
            version = 2 if self.start or any("replace" in event.get("invoke", "") for event in self.events) else 1
        whole = {"events": self.events, "version": version}
        if version > 1:
            whole["start"] = sorted([key, value] for key, value in self.start.items())
        return json.dumps(whole, separators=(",", ":"), sort_keys=True) + "\n"


def together(rounds, keys):
    """Rounds as one history, in which the keys of each are moved up. It has an order if and only if each round has one, since linearizability is
    local: a call says nothing of keys that it does not touch (Herlihy and Wing, 1990)."""
    start, events = [], []
    for by, one in zip(itertools.count(0, keys), rounds):
        start += [[key + by, value] for key, value in sorted(one.start.items())]
        for event in one.events:
            call, answer = event.get("invoke"), event.get("answer")
            if call:
                high = [min(call[2], keys - 1) + by] if call[0] == "scan" else call[2:]
                events.append({"invoke": [call[0], call[1] + by, *high], "process": event["process"]})
            else:
                moved = [[key + by, value] for key, value in answer] if type(answer) is list else answer
                events.append({"answer": moved, "process": event["process"]})
    return json.dumps({"events": events, "start": start, "version": 3}, separators=(",", ":"), sort_keys=True) + "\n"


class Tally:
    """How often gets found a value, and how often a key was lost. A key is lost if nothing is found although a put of it was answered, and no delete
    has begun since."""

    def __init__(self):
        self.hits = self.misses = self.losses = self.clock = 0
        self.forget()

    def forget(self):
        """Begins with a new map."""
        self.stored, self.deletes, self.deleted = {}, {}, {}  # when a put ended; open deletes; when a delete began or ended last

    def begin(self, kind, key):
        """When the call begins."""
        self.clock += 1
        if kind in ("delete", "pop_first"):
            self.stored.pop(key, None)
            self.deletes[key] = self.deletes.get(key, 0) + 1
            self.deleted[key] = self.clock
        return self.clock

    def end(self, kind, key, saying, begun):
        self.clock += 1
        if kind == "get":
            self.hits += saying in ("told", FOUND)
            self.misses += saying == NONE
        if saying == NONE and kind in ("get", "put", "replace", "put_if_absent", "rest") and self.stored.get(key, begun) < begun:
            self.losses += 1
            del self.stored[key]
        if kind in ("delete", "pop_first"):
            self.deletes[key] -= saying != UNKNOWN
            self.deleted[key] = self.clock
        elif kind == "put" and saying in ("told", NONE, DONE, FOUND) or (kind, saying) in (("put_if_absent", NONE), ("replace", DONE)):
            if not self.deletes.get(key) and self.deleted.get(key, 0) < begun:
                self.stored[key] = self.clock


class Judge:
    """Whoever judges."""

    def judge(self, text):
        """The verdict; if it is undecided, it is asked again at ten times the budget."""
        return self.asked("judge", text)[0]

    def more(self):
        """The budget of a question that is asked again."""
        return min(10 * self.budget, 10 ** 6)

    def asked(self, command, text):
        answer = self.ask(command, text, self.budget)
        return self.ask(command, text, self.more()) if answer[0] == UNDECIDED else answer


class Program(Judge):
    """The program `bench`."""

    def __init__(self, options):
        self.path, self.budget = options.bench or os.environ.get("POTZENDAI_BENCH") or self.found(), options.budget
        self.answered = set()
        self.ask(*(("follow", "") if options.stream else ("judge", '{"events":[],"version":1}\n')), self.budget)

    def program(self, command):
        """Returns the program that runs a command. After the repository's own `bench` has answered, this is the program that `bench` built last. For
        `bench` itself takes as long as ten rounds to see that nothing has changed."""
        folder, script = os.path.split(self.path)
        if (command == "judge") not in self.answered or not folder or script != "bench":
            return self.path
        names = ("bench_judge", "bench_histories", "bench")[command != "judge":]
        outs = [os.path.join(folder, "crates", name, "out", "") for name in names]
        built = [(os.path.getmtime(out + "built"), out + name) for name, out in zip(names, outs)
                 if os.access(out + name, os.X_OK) and os.path.isfile(out + "built")]
        return max(built, default=(0, self.path))[1]

    @staticmethod
    def found():
        beside = os.path.join(os.path.dirname(os.path.abspath(__file__)), "..", "..", "bench")
        found = next((path for path in ("./bench", beside) if os.path.isfile(path) and os.access(path, os.X_OK)), shutil.which("bench"))
        if not found:
            raise Stop(WORDS, "--bench: no program `bench` here or on the PATH")
        return found

    def ask(self, command, text, budget):
        try:
            done = subprocess.run([self.program(command), command, "--budget", str(budget)], input=text.encode(), stdout=subprocess.PIPE)
        except OSError as error:
            raise Stop(FILE, "%s: %s" % (self.path, error.strerror))
        return self.checked(command, done.returncode, done.stdout)

    def checked(self, command, status, answer):
        """The status with its report, if the program has given one."""
        if status not in (YES, NO, UNDECIDED):
            raise Stop(status if FAULTY <= status <= FILE else FILE, "%s %s: status %d" % (self.path, command, status))
        answer = answer.decode("utf-8", "replace")
        if command not in ("draw", "page") and not answer.partition("\n")[0].endswith('"verdict":"%s"}' % VERDICTS[status]):
            raise Stop(FILE, "%s %s: status %d without its verdict" % (self.path, command, status))
        self.answered.add(command == "judge")
        return status, answer

    def follower(self):
        return Pipe(self)


class Pipe:
    """A stream that `bench follow` reads. It writes once it has a verdict, perhaps while the stream is still running: a thread waits for that."""

    def __init__(self, program):
        self.program = program

    def open(self, stream):
        self.process = subprocess.Popen([self.program.program("follow"), "follow", "--budget", str(self.program.budget)], stdin=subprocess.PIPE,
                                        stdout=subprocess.PIPE)
        self.reader = threading.Thread(target=self.read, args=(stream,), daemon=True)
        self.reader.start()

    def read(self, stream):
        self.answer = self.process.stdout.read()
        stream.state.value = max(stream.state.value, OVER)

    def hand(self, lines):
        self.process.stdin.write(lines)
        self.process.stdin.flush()

    def end(self):
        try:
            self.process.stdin.close()
        except OSError:
            pass  # it has ended
        self.reader.join()
        return self.program.checked("follow", self.process.wait(), self.answer)


class Library(Judge):
    """The library as a shared object, in place of the program."""

    def __init__(self, options):
        self.budget = options.budget
        try:
            self.calls = ctypes.CDLL(os.path.abspath(options.library))
        except OSError as error:
            raise Stop(FILE, "--library: %s" % error)

    def ask(self, command, text, budget):
        name = {"draw": "potzendai_draw_part"}.get(command, "potzendai_" + command)
        if not hasattr(self.calls, name):
            raise Stop(FILE, "--library: it has no %s" % name)
        status, answer = self.told(name, ctypes.c_char_p(text.encode()), ctypes.c_size_t(len(text.encode())),
                                   ctypes.c_uint32(budget))
        if status > UNDECIDED:
            raise Stop(status, "%s: %s" % (command, answer.rstrip()))
        return status, answer

    def told(self, name, *words):
        """What a call answers, and its text. It is called again with more room if it needs more."""
        length = ctypes.c_size_t(32767)
        while True:
            room = ctypes.create_string_buffer(length.value + 1)
            status = getattr(self.calls, name)(*words, room, ctypes.c_size_t(len(room)), ctypes.byref(length))
            if length.value < len(room):
                return status, room.value.decode()

    def follower(self):
        return Handle(self)


class Handle:
    """A stream that the library follows: opened, used and closed by one thread."""

    class Follower(ctypes.Structure):
        _fields_ = [("at", ctypes.c_void_p), ("is_open", ctypes.c_bool)]

    def __init__(self, library):
        self.library, self.follower = library, self.Follower()

    def open(self, _):
        if self.library.calls.potzendai_follow_open(ctypes.byref(self.follower), ctypes.c_uint32(self.library.budget)) != YES:
            raise MemoryError

    def hand(self, lines):
        if self.library.calls.potzendai_follow_event(ctypes.byref(self.follower), ctypes.c_char_p(lines), ctypes.c_size_t(len(lines))):
            raise OSError("the stream has its verdict")

    def end(self):
        status, answer = self.library.told("potzendai_follow_verdict", ctypes.byref(self.follower))
        self.library.calls.potzendai_follow_close(ctypes.byref(self.follower))
        if status > UNDECIDED:
            raise Stop(status, "follow: %s" % answer.rstrip())
        return status, answer


class Out:
    """A stream that is written to standard output, and that nobody follows."""

    def open(self, _):
        pass

    def hand(self, lines):
        sys.stdout.buffer.write(lines)
        sys.stdout.buffer.flush()

    def end(self):
        return YES, None


# A run

COUNTED = ("rounds", "calls", "overlap", "left_out", "sayings", "called", "wrong_times", "tally", "met")


class Run:
    """Rounds at a new map. Each begins with what the one before has left: the pairs, and calls without an answer that may still take effect."""

    def __init__(self, options, make, program):
        self.options, self.make, self.program = options, make, program
        self.rounds = self.calls = self.overlap = self.undecided = self.helped = self.left_out = self.wrong_times = 0
        self.cut, self.called, self.tally, self.has_points = [], dict.fromkeys(ANSWERS, 0), Tally(), False
        self.waiting, self.waiting_calls = [], 0  # rounds that are not judged yet
        self.kept, self.length = None, 0  # the stream so far, while it is no longer than is kept
        self.sayings, self.met, self.failed, self.began = dict.fromkeys(("told",) + SAYINGS, 0), set(), None, time.monotonic()

    def go(self, number=0):
        """Rounds from this number on, until one has no order, or the time is over; or one stream."""
        if self.options.stream:
            return self.follow()
        self.crew = self.made = None
        try:
            self.open(self.make())
            while not self.is_over() and not self.failed:
                if self.rounds and self.options.fresh and self.rounds % self.options.fresh == 0:
                    self.close()
                    forget(self.made)
                    self.open(self.make())
                lives = (PROCESSES - 1 - len(self.pending)) // self.options.threads
                if lives == 0:
                    self.cut = ["%s: calls without an answer leave no room for others: %d" % (self.options.name, len(self.pending))]
                    break
                self.round(number + self.rounds, lives)
            self.judge_waiting()
        finally:
            self.close()
            forget(self.made)
        return self

    def open(self, made):
        """Begins with a new map."""
        self.made, self.crew = made, Crew(self.options, made)
        self.start, self.pending, self.top = self.crew.contents()[1], [], 0
        self.crew.values_from = 1 + max(self.start.values(), default=0)
        self.tally.forget()

    def close(self):
        crew, self.crew = self.crew, None
        if crew:
            crew.close()

    def reopen(self):
        """Closes the map, at rest, and opens it again."""
        stamp = self.crew.stamp
        self.close()
        closed, self.made = self.made, None
        try:
            made = closed.reopen()
        except Exception:
            raise Stop(WORDS, "%s: reopen: %s" % (self.options.name, traceback.format_exc().rstrip()))
        if made is None:
            raise Stop(WORDS, "%s: reopen returned nothing; it has to return the map" % self.options.name)
        self.made, self.crew = made, Crew(self.options, made, stamp, self.top + 1)

    def round(self, number, lives):
        """The calls of all threads, and gets of all keys: these are the last ones of the round, and the start of the next."""
        taken = self.crew.run(number, lives, self.start, {call[1] for call in self.pending})
        if self.options.reopen:
            puts = (line.made.call[-1] for each in taken for line in each[0] if line.made.call[0] in ("insert", "replace"))
            self.top = max([self.top, *self.start.values(), *(value for value in puts if value < OWN)])
            self.reopen()
        gets, left = self.crew.contents(number)
        one = Round([each[0] for each in taken] + [gets], self.start, self.pending, self.tally)
        self.count(taken)
        self.take(one, [each[1] for each in taken])
        self.start, self.pending = left, one.pending

    def follow(self):
        """One stream, until it has no order, or the time is over."""
        made, options = self.make(), self.options
        crew = Crew(self.options, made)
        stream = crew.stream
        try:
            start = crew.contents()[1]
            stream.begin(self, start, self.program.follower() if self.program else Out())
            try:
                crew.start(0, STREAM_PROCESSES, start, set())
                while stream.state.value == RUNNING and time.monotonic() - self.began < options.seconds and not crew.is_done():
                    time.sleep(0.01)
                stream.state.value = max(stream.state.value, OVER)
                self.count(crew.taken())
            except BaseException:
                stream.state.value = FAILED
                raise
            finally:
                stream.end()
        finally:
            crew.close()
            forget(made)
        if stream.wrong:
            raise stream.wrong
        self.conclude(stream, *stream.outcome)
        return self

    def conclude(self, stream, status, report):
        """What the verdict on a stream says. A stream that was cut off gets no yes."""
        is_cut = stream.state.value == FAILED
        if report and status == YES:
            is_cut = is_cut or json.loads(report)["calls"] != self.calls + self.helped
        if is_cut and status == YES:
            raise Stop(FILE, "%s: the stream was cut off" % self.options.name)
        self.undecided += status == UNDECIDED
        self.failed, self.notes = report if status == NO else None, stream.notes
        if stream.next_process() >= STREAM_PROCESSES:
            self.cut = ["%s: calls without an answer leave no room for others" % self.options.name]

    def keep(self, lines):
        """Stores lines of the stream, for a file. If there are too many, nothing of the stream is stored any more."""
        if self.kept is not None:
            self.kept.append(lines)
            self.length += len(lines)
            self.kept = self.kept if self.length <= KEPT else None

    def count(self, taken):
        for _, _, called, has_points, wrong_times in taken:
            self.has_points |= has_points
            self.wrong_times += wrong_times
            for kind, count in called.items():
                self.called[kind] += count

    def take(self, one, sayings):
        self.rounds += 1
        self.calls += one.calls
        self.overlap += one.overlap
        self.left_out += one.left_out
        self.met |= one.met
        for said in self.sayings:
            self.sayings[said] += sum(each[said] for each in sayings)
        if self.program is None:
            try:
                print(one.text(), end="", flush=True)
            except OSError:
                raise Stop(FILE, "standard output: a history was not written")
            return
        calls = len(one.events) // 2
        is_apart = calls <= BATCH_CALLS and one.is_apart(self.options.keys)
        if self.waiting and (not is_apart or calls + self.waiting_calls > CALLS):
            self.judge_waiting()
        if self.failed:
            return
        if not self.waiting:
            self.waiting_calls, self.waits_since = 0, time.monotonic()
        self.waiting_calls += calls
        self.waiting.append((one, {name: copy.copy(getattr(self, name)) for name in COUNTED}))
        is_full = len(self.waiting) == BATCH_ROUNDS or time.monotonic() - self.waits_since > 1
        if is_full or self.rounds == 1 or not is_apart:
            self.judge_waiting()

    def judge_waiting(self):
        """Judges the rounds that wait: first all together, and each on its own if that is not a yes. After a no, only what was counted up to its end
        counts."""
        waiting, self.waiting = self.waiting, []
        all_rounds = together([one for one, _ in waiting], self.options.keys) if len(waiting) > 1 else None
        if all_rounds and self.program.ask("judge", all_rounds, self.program.budget)[0] == YES:
            return
        for one, counts in waiting:
            status = self.program.judge(one.text())
            self.undecided += status == UNDECIDED
            if status == NO:
                self.failed = one
                self.__dict__.update(counts)
                return

    def is_over(self):
        """At least one round is made."""
        self.progress()
        options = self.options
        return self.rounds > 0 and (0 < options.rounds <= self.rounds or time.monotonic() - self.began >= options.seconds)

    def progress(self):
        """Each second a line on a terminal says how far the run is."""
        now, options = time.monotonic(), self.options
        if options.shows and now - options.shown >= 1 and self.calls:
            options.shown = now
            refused = 100 * self.sayings[REFUSED] / max(sum(self.sayings.values()), 1)
            tell("%s, %.0f a second, overlap %.1f a call, %.1f%% refused, two writers met on %d of %s" % (
                counted(self.calls, "call"), self.calls / (now - self.began), self.overlap / self.calls, refused, len(self.met),
                counted(options.keys, "key")))

    def summary(self, verdict):
        """The verdict, and the counts on which it is based."""
        said = ", ".join("%d %s" % (count, said) for said, count in self.sayings.items() if count)
        rounds = "" if self.options.stream else counted(self.rounds, "round") + ", "
        return "%s: %s%s in %.1f seconds, overlap %.2f a call: %s%s%s" % (
            verdict, rounds, counted(self.calls, "call"), time.monotonic() - self.began, self.overlap / max(self.calls, 1), said,
            "; %d undecided" % self.undecided if self.undecided else "",
            "".join("; " + each for each in self.said_cache() + ([] if verdict.startswith("no") else self.cautions())))

    def said_cache(self):
        tally = self.tally
        if self.options.cache == "late":  # such a miss may be of a write that has not appeared yet, and is no loss
            return [", ".join((counted(tally.hits, "hit"), counted(self.called["get"] - tally.hits, "miss")))]
        return [", ".join((counted(tally.hits, "hit"), counted(tally.misses, "miss"), counted(tally.losses, "loss")))] if self.options.cache else []

    def cautions(self):
        """Why a yes of this run says little."""
        tally, options, gets, said = self.tally, self.options, self.called["get"], []
        if 2 * self.sayings[REFUSED] > sum(self.sayings.values()):
            said.append("most calls were refused: a yes says little")
        if tally.hits == 0 and options.cache:
            said.append("no get hit: a yes says nothing")
        elif tally.hits == 0 and gets:
            said.append("no get found a value: a yes says little")
        elif options.cache and 20 * tally.hits < gets:
            said.append("%s in {:,} gets: a yes says little".format(gets) % counted(tally.hits, "hit"))
        if options.cache and tally.losses == 0 and options.cache != "late":
            said.append("no key was lost: eviction was not tested")
        if self.left_out:
            said.append("%s without some of the keys left out" % counted(self.left_out, "scan"))
        if self.overlap < 0.05 * self.calls:
            said.append("overlap below 0.05: the threads hardly met, and a yes says little: call point() in the map, and run with --yield 200")
        if options.yields and not self.has_points:
            said.append("--yield acted only between calls, since the map called no point()")
        return said


def counted(count, noun):
    """A number with its noun."""
    return "%d %s%s" % (count, noun, "" if count == 1 else "es" if noun.endswith("s") else "s")


def said_calls(has, runs):
    """How often the threads of some runs called each function of the map, and which functions it does not have."""
    calls = ", ".join("%s %d" % (kind, sum(run.called[kind] for run in runs)) for kind in ANSWERS if kind in has)
    missing = ", ".join(kind for kind in ANSWERS if kind not in has)
    return "calls: %s%s" % (calls, "; not there: " + missing if missing else "")


def smaller(run):
    """The smallest run that failed, of some tries with half of the calls or keys, or a thread less. Threads interleave as they will.
    If calls have no answer, nothing smaller is tried, since they may still take effect."""
    best, until, tries, names = run, time.monotonic() + 5, 60 if run.sayings[UNKNOWN] == 0 else 0, ["calls", "keys", "threads"]
    while names:
        options, found = copy.copy(best.options), None
        size = getattr(options, names[0])
        setattr(options, names[0], size - 1 if names[0] == "threads" else size // 2)
        options.rounds, options.shows = 1, False
        is_less = min(options.calls, options.threads, options.keys // (options.threads if options.void == "own" else 1)) > 0
        for _ in range(6 if is_less else 0):
            tries -= 1
            if tries < 0 or time.monotonic() > until or found:
                break
            again = Run(options, run.make, run.program).go(run.rounds - 1)
            found = again if again.failed else None
        best, names = (found, ["calls", "keys", "threads"]) if found else (best, names[1:])
    return best


# A no in words

def said_pairs(pairs):
    return ", ".join("%d: %d" % tuple(pair) for pair in pairs) or "nothing"


def said_answer(answer):
    if isinstance(answer, list):
        return said_pairs(answer)
    return {None: "none", "done": "that it was done", "found": "that there was a value", "other": "another value",
            "refused": "that it was refused", "open": "nothing"}.get(answer, str(answer))


def said_answered(one, answer):
    """What a call was answered, and who put that, or that its answer is left out of the report."""
    return ", whatever its answer" if answer == "left out" else ", answered " + said_answer(answer) + said_writer(one, answer)


def said_verdict(line):
    """The first line of a report, with `..` in place of a long list of calls."""
    return re.sub(r'"calls":\[[^]]{80,}\]', '"calls":[..]', line)


def said_call(call):
    name, words = call[0], call[1:]
    if name == "insert":
        return "put %d at %d" % (words[1], words[0])
    if name == "replace":
        return "replace %d at %d by %d" % (words[1], words[0], words[2])
    return "scan from %d to %d" % tuple(words) if name == "scan" else "%s %d" % (name, words[0])


def said_events(one, invoked, process):
    """The events of a call: that of its invocation by a process, and that of its answer if it has one."""
    answer = next((number for number in range(invoked + 1, len(one.events)) if one.events[number]["process"] == process), None)
    return "event %d on" % invoked if answer is None else "events %d to %d" % (invoked, answer)


def said_writer(one, value):
    """Who put a value."""
    if not is_value(value):
        return ""
    for number, event in enumerate(one.events):
        call = event.get("invoke", ("",))
        if call[0] in ("insert", "replace") and call[-1] == value:
            return "; %d is what process %d put (event %d)" % (value, event["process"], number)
    return "; %d %s" % (value, "was there " + one.at_start if value in one.start.values() else "is what %s put" % one.nobody)


def said_origin(one, line):
    """Who put a value that the few calls read and none of them put."""
    start = ["what was there " + one.at_start] if line["start"] else []
    puts = ["what process %d put (event %d)" % (put["process"], put["event"]) for put in line["puts"]]
    return "  %d at %d is %s" % (line["value"], line["key"], ", ".join(start + puts) or "what %s put" % one.nobody)


def said_from(line):
    """The value of a key from which the few calls have no order. Only an undecided report has such lines."""
    if line["from"] is None:
        return "  from key %d holding nothing" % line["key"]
    put = line["put"]
    return "  from key %d holding %d, which %s" % (line["key"], line["from"], "was there before these calls" if put is None else
                                                   "process %d put (event %d)" % (put["process"], put["event"]))


def said_missed(one, line):
    """Which calls one misses."""
    return "".join("; it misses %s of process %d (event %d)" % (said_made(one, call["event"], call["call"]), call["process"], call["event"])
                   for call in line.get("misses", []))


def note_of(one, number):
    """The call of an event as it was made, if the history has another one."""
    return one.events[number].get("note") if number < len(one.events) else None


def said_made(one, number, call):
    """A call as it was made."""
    note = note_of(one, number)
    return note.partition(":")[0].replace("answered none", "which found none") + "," if note else said_call(call)


def last_event(one, invoked):
    """The event of a call's answer, or the end if it has none."""
    process = one.events[invoked]["process"]
    return next((number for number in range(invoked + 1, len(one.events)) if one.events[number]["process"] == process), len(one.events))


def meets(call, other):
    """Whether two calls have a key in common."""
    low, high = (call[1], call[2]) if call[0] == "scan" else (call[1], call[1])
    return low <= (other[2] if other[0] == "scan" else other[1]) and other[1] <= high


def said_open(one, shown, numbers):
    """The other calls that were open on the keys of these."""
    said = []
    for number, event in enumerate(one.events):
        call = event.get("invoke")
        if call and number not in shown and any(
                meets(call, one.events[of]["invoke"]) and number < last_event(one, of) and of < last_event(one, number)
                for of in numbers if of < len(one.events) and "invoke" in one.events[of]):
            said.append("%s of process %d (%s)" % (said_made(one, number, call), event["process"], said_events(one, number, event["process"])))
    more = ["and %d more" % (len(said) - OPEN_SHOWN)] if len(said) > OPEN_SHOWN else []
    return ["  also open on the same keys meanwhile: " + ", ".join(said[:OPEN_SHOWN] + more)] if said else []


def said_report(report, one):
    """A report of `explain` in words, and the line that is the few calls' history, or None. After an undecided there is a line of `locate`, which
    is skipped."""
    texts = report.splitlines()
    texts[1:] = [text for text in texts[1:] if "verdict" not in json.loads(text)]
    lines, few, events, late = [json.loads(text) for text in texts], None, [], []
    said = [said_verdict(text) for text in texts[:1]] + ["these calls have no order, and no other could mend that:"][:len(texts) - 1]
    for line, text in zip(lines[1:], texts[1:]):
        if "events" in line:
            few = text
        elif "answer" in line:
            events.append(line["event"])
            said.append("  %-19s process %-3d %s%s" % (
                said_events(one, line["event"], line["process"]), line["process"],
                note_of(one, line["event"]) or said_call(line["call"]) + said_answered(one, line["answer"]), said_missed(one, line)))
        elif "from" in line:
            said.append(said_from(line))
        elif "puts" in line:
            said.append(said_origin(one, line))
        elif "front" in line:
            late += [call["event"] for call in line["next"]]
            said.append("  an order of them gets as far as the events %s; the map then holds %s" % (
                json.dumps(line["front"], separators=(",", ":")), said_pairs(line["holds"])) if line["front"] else
                "  no call of them can come first; the map holds %s" % said_pairs(line["holds"]))
            said += ["  the call of event %d was answered %s, and would be answered %s%s" % (
                call["event"], said_answer(call["answer"]), said_answer(call["would"]), said_writer(one, call["answer"]))
                for call in line["next"]]
    return said + said_open(one, events, late or events[-1:]), few


def unmarked(line):
    """A line of a report, without the values that some replaces of a cache put: those that said that they changed nothing."""
    return re.sub("[0-9]{19,20}", lambda found: "a value that no call puts" if OWN <= int(found[0]) < GREATEST else found[0], line)


def keep(options, ending, text):
    """Writes a file of a round, or of a stream, and says its name."""
    path = os.path.join(options.out, "%s-%d-%d%s" % (options.name, options.seed, options.round, ending))
    try:
        with open(path, "wb") as out:
            out.write(text if isinstance(text, bytes) else text.encode())
    except OSError:
        return "file: not written: " + path
    return "  file: " + path


# Words

class Parser(argparse.ArgumentParser):
    def error(self, message):
        raise Stop(WORDS, message.replace("argument ", "", 1))

    def print_help(self, file=None):
        try:
            print(self.format_help(), end="", flush=True)
        except OSError:
            raise Stop(FILE, "standard output: not written")


def number(least, most):
    def read(text):
        if not text.isdigit() or not least <= int(text) <= most:
            raise argparse.ArgumentTypeError("a number from %d to %d" % (least, most))
        return int(text)
    return read


def late(text):
    if text != "late":
        raise argparse.ArgumentTypeError("only late may follow")
    return text


def mix(text):
    shares = {}
    for part in text.split(","):
        name, _, share = part.partition("=")
        kind = {"del": "delete", "delete": ""}.get(name, name)
        if kind not in SHARES or not share.isdigit() or len(share) > 6:
            raise argparse.ArgumentTypeError("shares, such as get=50,put=30,del=10,scan=10")
        shares[kind] = int(share)
    return {kind: shares.get(kind, 0) for kind in SHARES}


# What the value of an option is called in the help, if it is no number.
NAMED = {"--mix": "LIST", "--out": "FOLDER", "--bench": "PATH", "--library": "PATH"}


def words_of(argv):
    words = Parser(prog=os.path.basename(sys.argv[0]), usage="%(prog)s [OPTIONS]", allow_abbrev=False)
    for name, kind, usual, what in (
            ("--seconds", number(1, 10 ** 9), 0, "how long (10, or as long as --rounds take)"),
            ("--rounds", number(1, GREATEST), 0, "at most N rounds"),
            ("--threads", number(1, 1024), 4, "threads that call the map (4)"),
            ("--keys", number(1, STREAM_KEYS), 0, "keys, from 0 (16; of a stream 1000)"),
            ("--hot", number(1, STREAM_KEYS), 0, "nine calls in ten use one of the first N keys"),
            ("--calls", number(1, GREATEST), 0, "calls of each thread in a round, or in a stream (200; no limit)"),
            ("--seed", number(0, GREATEST), time.time_ns() % 1000000007, "what the calls are drawn from (the clock)"),
            ("--mix", mix, None, "shares, such as get=50,put=30,del=10,scan=10; also replace, put_if_absent, floor, ceiling, pop_first"),
            ("--yield", number(0, 1000), 0, "of a thousand points in and between calls, N let another thread run (0)"),
            ("--out", str, ".", "where files are written (.); -: all histories, or the stream, on standard output, judged by nobody"),
            ("--fresh", number(1, GREATEST), 0, "a new map after each N rounds (one map)"),
            ("--budget", number(1, 10 ** 6), 100000, "states that a search may meet (100000); an undecided round is asked again at ten times "
             "as many"),
            ("--bench", str, None, "the program (./bench, or on the PATH)"),
            ("--library", str, None, "the library as a shared object, in place of the program")):
        words.add_argument(name, type=kind, default=usual, help=what, metavar=NAMED.get(name, "N"),
                           dest=name[2:] + "s" * (name == "--yield"))
    words.add_argument("--void", choices=("done", "told", "own", "lock"), help="done: a put or del may answer done; told: it must say the value "
                       "before. With own, one writer for each key remembers what it put. With lock, a lock for each key is around a get and the "
                       "put after it (done)")
    words.add_argument("--scan", choices=("snapshot", "steps"), default="snapshot",
                       help="snapshot: a scan is of one moment; steps: steps of ceiling (snapshot)")
    words.add_argument("--cache", nargs="?", const=True, type=late, metavar="late", help="the map is a cache, which may lose any key at any "
                       "time; late: its writes appear later, so a miss says nothing")
    words.add_argument("--reopen", action="store_true", help="the map is closed and opened again after each round")
    words.add_argument("--break", dest="broken", choices=tuple(BREAKS) + ("all",), help="makes the map wrong now and then; all: in each "
                       "of these ways")
    words.add_argument("--processes", action="store_true", help="processes in place of threads, for clients of servers")
    words.add_argument("--stream", action="store_true", help="one stream, judged while it is recorded, in place of rounds")
    return words.parse_args(argv)


def fit(options, has, can_reopen):
    """Tests that the options fit each other and the functions of the map."""
    def wrong(name, what):
        raise Stop(WORDS, "%s: %s" % (name, what))
    options.has_void, options.void = options.void is not None, options.void or "done"
    options.keys = options.keys or (1000 if options.stream else 16)
    able = {kind: kind in has for kind in SHARES}
    able["scan"] = "ceiling" in has if options.scan == "steps" else able["scan"]
    if not able["get"] or not (able["put"] or able["put_if_absent"]):
        wrong("the map", "a map needs the functions get, and put or put_if_absent")
    apart = options.void in ("own", "lock")
    options.has_mix = options.mix is not None
    options.shares = options.mix or {kind: 0 if not able[kind] or kind == "pop_first" and apart else SHARES[kind] for kind in SHARES}
    if options.scan == "steps" and not able["scan"]:
        wrong("--scan", "steps need the function ceiling")
    for kind, share in options.shares.items():
        if share and not able[kind]:
            wrong(word(kind), "no such function of the map")
    if not sum(options.shares.values()):
        wrong("--mix", "no share")
    if options.shares["pop_first"] and apart:
        wrong("pop_first", "takes keys of other threads, so not with --void own or lock")
    if options.cache and options.void == "own":
        wrong("--cache", "not with --void own, since the writer of a key does not see that the key was lost")
    for name, is_asked in (("--fresh", options.fresh), ("--reopen", options.reopen)):
        if is_asked and options.stream:
            wrong(name, "not with --stream, which is of one map")
    if options.reopen and not can_reopen:
        wrong("--reopen", "the map has no function reopen")
    options.shown_by = {how: options.shares[kind] > 0 and not (how == "torn" and options.scan == "steps") for how, kind in BREAKS.items()}
    if not options.shown_by.get(options.broken, not options.broken or any(options.shown_by.values())):
        wrong("--break", "no call that it would break is made")
    if options.stream and options.rounds:
        wrong("--rounds", "a stream has no rounds; use --seconds, or --calls for each thread")
    if options.hot > options.keys:
        wrong("--hot", "more than there are keys")
    if options.void == "own" and options.keys < options.threads:
        wrong("--void", "own: each thread needs a key")
    options.seconds = options.seconds or (10 ** 9 if options.rounds else 10)
    options.calls = options.calls or (0 if options.stream else min(CALLS // (options.threads + 2), 200))
    most = CALLS // (options.threads + 1)
    size = "at most %d with %d threads, since a round has at most %d calls" % (most, options.threads, CALLS)
    if not options.stream and options.threads >= PROCESSES:
        wrong("--threads", "at most 63 in rounds; --stream has no such limit")
    if not options.stream and options.keys > most:
        wrong("--keys", size + ", with a get of each key at its end; --stream has no such limit")
    if not options.stream and options.calls > most:
        wrong("--calls", size + "; --stream has no such limit")
    options.span = SPAN
    if options.cache and not options.stream:
        options.span = max(1, min(SPAN, (PROCESSES - 1 - options.threads) // options.threads))  # each missing key needs a process
    options.shows, options.shown = sys.stderr.isatty(), time.monotonic()
    try:
        if options.out != "-":
            tempfile.TemporaryFile(dir=options.out).close()
    except OSError as error:
        raise Stop(FILE, "--out: no file can be written into %s: %s" % (options.out, error.strerror))
    return options


def words_again(options, rounds):
    """The options that repeat the draws of a run of this many rounds."""
    said = [os.path.basename(sys.argv[0]), *itertools.takewhile(lambda word: not word.startswith("--"), sys.argv[1:])]
    said += ["--seed", options.seed, "--threads", options.threads, "--keys", options.keys]
    said += ["--hot", options.hot] if options.hot else []
    said += ["--calls", options.calls] if options.calls else []
    said += ["--mix", ",".join("%s=%d" % (word(kind), share) for kind, share in options.shares.items() if share)]
    said += ["--void", options.void] if options.has_void or not options.stream else []
    said += ["--scan", options.scan] + (["--yield", options.yields] if options.yields else [])
    said += (["--cache"] + ["late"] * (options.cache == "late")) * bool(options.cache)
    said += (["--fresh", options.fresh] if options.fresh else []) + ["--reopen"] * options.reopen
    said += (["--break", options.broken] if options.broken else []) + (["--processes"] if options.processes else [])
    return " ".join(map(str, said + (["--stream", "--seconds", options.seconds] if options.stream else ["--rounds", rounds])))


def functions(make):
    """Those of a map, and whether it can be opened again."""
    made = make()
    connection = made.connection() if hasattr(made, "connection") else made
    has = {kind for kind in ANSWERS if callable(getattr(connection, kind, None))}
    if connection is not made and hasattr(connection, "close"):
        connection.close()
    can_reopen = callable(getattr(made, "reopen", None))
    forget(made)
    return has, can_reopen


def tested(make, options):
    """Runs with these options. Returns the status, the lines to print before the last line, and the last line."""
    has, can_reopen = functions(make)
    fit(options, has, can_reopen)
    options.name = getattr(make, "__name__", "map")
    program = None if options.out == "-" else Library(options) if options.library else Program(options)
    interval = sys.getswitchinterval()
    sys.setswitchinterval(1e-5)  # else a thread of Python goes on for 5 ms, and hardly a call overlaps another
    try:
        if options.broken == "all":
            return all_broken(make, options, program, has)
        run = Run(options, make, program).go()
        calls = [said_calls(has, [run])]
        if run.failed:
            return NO, refuted(run) + calls, run.summary("no")
    finally:
        sys.setswitchinterval(interval)
    status = UNDECIDED if run.undecided or run.cut or program and options.cache and not run.tally.hits else YES
    if program and options.broken and status == YES:
        run.cut = ["--break %s: the map was wrong now and then, and these calls did not show it" % options.broken]
    said = run.cut + calls
    return (status, said, run.summary(VERDICTS[status])) if program else (status, said + [run.summary("not judged")], None)


def refuted_stream(run):
    """Reports a stream that has no order. If the calls that are left show the fault, their history is explained; otherwise a line says why not. The
    stream so far is saved, unless it is long. The report is saved if it is not shown whole, or if nothing else is saved."""
    report, _, left = run.failed.partition("\n")
    run.options.round, is_whole = 0, len(report) <= REPORT_SHOWN
    said = [report if is_whole else report[:REPORT_SHOWN] + ".."]
    said += shown_left(run, left) if left else ["the few calls are not shown: " + why_not_few(json.loads(report)["keys"])]
    said += ["the stream is not saved, since it is longer than %d bytes" % KEPT] if run.kept is None else [
        keep(run.options, ".jsonl", b"".join(run.kept))]
    said += [keep(run.options, "-report.json", report + "\n")] if not is_whole or not left and run.kept is None else []
    return said + [AGAIN + words_again(run.options, 0)]


def shown_left(run, left):
    """Saves the history of the calls that are left, and a few calls of it that have no order. If these are not found, it saves only the
    history."""
    try:
        told_of = run.program.asked("explain", left)[1]
    except Stop as stop:
        return ["the few calls are not shown: " + stop.line, keep(run.options, ".json", left)]
    if "\n{\"answer\":" not in told_of:
        return ["the few calls are not shown: they are not found within a budget of %d" % run.program.more(), keep(run.options, ".json", left)]
    whole = json.loads(left)
    keys, calls = json.loads(run.failed.partition("\n")[0])["keys"], [each for each in whole["events"] if "invoke" in each]
    invoked = sorted({number for key in keys for number in key["invoked"]})
    for number, event in zip(invoked, calls if len(calls) == len(invoked) else []):
        if number in run.notes:
            event["note"] = run.notes[number]
    return [RENUMBERED] + shown(run, left, told_of, types.SimpleNamespace(
        events=whole["events"], start=dict(whole.get("start", [])), at_start="before these calls", nobody="none of these calls"))


def why_not_few(keys):
    """Why no history of few calls follows a no of a stream."""
    if not keys:
        return "no map gives a scan the answer of this event"
    most = max(len(key["values"]) for key in keys)
    if most == 0:
        return "the call had taken effect by then, and its answer contradicts what it found"
    if most > 1:
        return "a key may have had any of the listed values before the calls \"invoked\""
    return ("the calls \"invoked\" may have taken effect in several ways, or they fit no history: they are too many, or too many are open at "
            "once")


def shown(run, text, report, one):
    """What a report of `explain` says of a history, and the files that show it. The words and the picture have the processes and events of the
    first file."""
    said, few = said_report(report, one)
    said = [unmarked(line) for line in said] if run.options.cache else said
    said += [keep(run.options, ".json", text)] + ([keep(run.options, "-few.json", few + "\n")] if few else [])
    return said + [keep_made(run, "draw", ".svg", text), keep_made(run, "page", ".html", text)]


def keep_made(run, command, ending, text):
    """Saves the file that the program or the library makes of a history, or says why there is none."""
    try:
        return keep(run.options, ending, run.program.asked(command, text)[1])
    except Stop as stop:
        return "file: not made: %s: %s" % (ending, stop.line)


def refuted(run):
    """A round that has no order: what shows it, and how to repeat it."""
    options = run.options
    if options.stream:
        return refuted_stream(run)
    options.round = run.rounds - 1
    least = smaller(run)
    said = ["round %d has no order" % options.round, "the smallest of some tries that failed: threads %d, keys %d, calls %d" % (
        least.options.threads, least.options.keys, least.options.calls)]
    text = least.failed.text()
    kept = keep(options, ".json", text)  # before: the part that explains may be built first
    try:
        said += shown(run, text, run.program.asked("explain", text)[1], least.failed)
    except Stop as stop:
        said += [kept, "the few calls are not shown: " + stop.line]
    return said + [AGAIN + words_again(options, run.rounds)]


def all_broken(make, options, program, has):
    """Each kind of bug that the drawn calls can show has to be refuted. Then the status is that of a no."""
    said, missed, runs = [], 0, []
    for how, is_called in options.shown_by.items():
        options.broken = how
        run = Run(options, make, program).go() if is_called else None
        runs += [run] if run else []
        missed += run is not None and not (run.failed and run.wrong_times)
        verdict = "no" if run and run.failed and run.wrong_times else "no of the map itself" if run and run.failed else "yes"
        said.append("%s: %s" % (how, run.summary(verdict) if run else "no call that it would break is made"))
    said += [said_calls(has, runs), "this shows that calls and answers reach the judge; it does not show that threads meet: see the overlap"]
    return (YES, said, "yes: %d of the broken maps were not refuted" % missed) if missed else (NO, said, "no: each broken map was refuted")


def check(make, *argv):
    """For a test: raises an AssertionError with the explanation if the verdict is not yes. The arguments are those of the command line, as in
    check(Map, "--seconds", "2")."""
    status, said, last = tested(make, words_of([str(one) for one in argv]))
    assert status == YES, "\n".join(said + [last])


def tell(text):
    """Writes lines to standard error. If that fails, nothing else changes."""
    try:
        print(text, file=sys.stderr, flush=True)
    except OSError:
        sys.stderr = open(os.devnull, "w", encoding="utf-8")


def open_ends():
    """Python has no object for a standard stream that is closed. Then a write to standard output fails, and what is said of a run is left out."""
    if sys.stdout is None:
        sys.stdout = open(os.devnull, encoding="utf-8")
    try:
        os.write(2, b"")
    except OSError:
        sys.stderr = open(os.devnull, "w", encoding="utf-8")


def main(make, argv=None):
    """A whole program. `make` makes a new and empty map: it is called at the beginning, and again for each run after a no."""
    open_ends()
    try:
        status, said, last = tested(make, words_of(argv))
        if said:
            tell("\n".join(said))
        try:
            print(last if last else "", end="\n" if last else "", flush=True)
        except OSError:
            tell("standard output: not written")
            status = FILE if status == YES else status
    except Stop as stop:
        tell(stop.line)
        status = stop.status
    except MemoryError:
        tell("memory")
        status = MEMORY
    except KeyboardInterrupt:
        tell("interrupted")
        status = UNDECIDED
    except Exception:
        tell(traceback.format_exc().rstrip())
        status = FILE
    try:
        sys.stdout.flush()
    except OSError:
        os.dup2(os.open(os.devnull, os.O_WRONLY), 1)  # this was reported above; else the interpreter reports it again as it ends
    sys.exit(status)
