"""Streams that `benchmarks/run.py follow` follows: right ones, of processes that call a map as fast as they can."""

import bisect
import itertools
import json
import random

compact = json.JSONEncoder(separators=(",", ":")).encode
# Processes that take the place of dead ones are numbered from here on.
HEIRS = 30_000
MOST_PROCESSES = 65_536
# How fast a key gets rarer in the drawn keys of YCSB.
ZIPF = 0.99


def zipf(keys):
    """Draws keys as YCSB does: key of rank r as often as 1 / r^0.99, the ranks in a drawn order of the keys."""
    sums = list(itertools.accumulate(1 / rank**ZIPF for rank in range(1, keys + 1)))
    order = random.Random(1).sample(range(keys), keys)
    return lambda chance: order[min(keys - 1, bisect.bisect(sums, chance.random() * sums[-1]))]


class Stream:
    """A stream that is written line by line. In a random turn a process has the effect of its call, or is answered and begins its next.

    - `scans`: how many of a hundred calls are scans, at random, of `length` keys or of all.
    - `every`: each call of this number is a scan of all keys.
    - `done`: puts and removes are answered `done`.
    - `slow`: so many processes take only each so many hundredth turn.
    - `opened`: calls that begin first, and stay open.
    - `held`: one more process scans all keys again and again, and each of its scans is open for so many calls.
    - `dies`: after each so many calls all processes die inside their calls, and others take their places.
    """

    def __init__(self, file, count, processes=8, keys=1000, scans=0, every=0, length=None, puts=30, removes=20, done=False,
                 slow=0, opened=(), held=0, dies=0, are_new=False, is_zipf=False):
        self.file, self.count, self.processes, self.keys = file, count, processes, keys
        self.scans, self.every, self.length, self.puts, self.removes, self.done = scans, every, length, puts, removes, done
        self.slow, self.opened, self.held, self.dies, self.are_new = slow, opened, held, dies, are_new
        self.chance = random.Random(count + processes)
        self.draw = zipf(keys) if is_zipf else lambda chance: int(chance.random() * keys)
        self.pairs, self.calls, self.answers, self.begun, self.invoked = {}, {}, {}, 0, 0

    def write(self, kind, what, process):
        self.file.write(f'{{"{kind}":{what},"process":{process}}}\n')

    def drawn_call(self):
        number, key, kind = self.begun, self.draw(self.chance), self.chance.random() * 100
        if self.are_new:
            return ["insert", number, number]
        if self.every and number % self.every == 0:
            return ["scan", 0, self.keys - 1]
        if kind < self.scans:
            return ["scan", 0, self.keys - 1] if self.length is None else ["scan", key, min(self.keys, key + self.length) - 1]
        kind = self.chance.random() * 100
        if kind < self.puts:
            return ["insert", key, number]
        return ["remove", key] if kind < self.puts + self.removes else ["get", key]

    def invoke(self, process, call):
        self.invoked += 1
        self.calls[process] = call
        self.write("invoke", compact(call), process)

    def begin(self, process):
        self.begun += 1
        self.invoke(process, self.drawn_call())

    def take_effect(self, process):
        name, key, *rest = self.calls[process]
        if name == "scan":
            within = range(key, rest[0] + 1) if rest[0] - key < 2 * len(self.pairs) else sorted(self.pairs)
            found = [[at, self.pairs[at]] for at in within if key <= at <= rest[0] and at in self.pairs]
        else:
            found = self.pairs.get(key)
        if name == "insert":
            self.pairs[key] = rest[0]
        elif name == "remove":
            self.pairs.pop(key, None)
        self.answers[process] = '"done"' if self.done and name in ("insert", "remove") else compact(found)

    def answer(self, process):
        del self.calls[process]
        self.write("answer", self.answers.pop(process), process)

    def hold(self, process, since):
        """The next step of the process whose scans are held up. Returns how many calls had begun when its open one began."""
        if process in self.answers and self.begun - since >= self.held:
            self.answer(process)
        elif process in self.calls and process not in self.answers and self.begun - since >= self.held // 2:
            self.take_effect(process)
        if process not in self.calls:
            self.invoke(process, ["scan", 0, self.keys - 1])
            return self.begun
        return since

    def died(self, living, first):
        """Some calls of those who die have their effects, and none is answered. Returns the processes that take their places."""
        for process in living:
            if process in self.calls and process not in self.answers and self.chance.randrange(2):
                self.take_effect(process)
            self.calls.pop(process, None)
            self.answers.pop(process, None)
        return list(range(first, first + len(living)))

    def write_all(self):
        self.file.write('{"start":[],"version":3}\n')
        for process, call in enumerate(self.opened, self.processes):
            self.invoke(process, call)
        living, since, deaths, heirs = list(range(self.processes)), 0, self.dies, HEIRS
        for process in living:
            self.begin(process)
        while living:
            if self.held:
                since = self.hold(self.processes, since)
            if deaths and self.begun >= deaths and heirs + len(living) <= MOST_PROCESSES:
                living, deaths, heirs = self.died(living, heirs), deaths + self.dies, heirs + len(living)
                for process in living:
                    self.begin(process)
            place = int(self.chance.random() * len(living))
            process = living[place]
            if place < self.slow and self.chance.randrange(100):
                continue
            if process not in self.answers:
                self.take_effect(process)
                continue
            self.answer(process)
            if self.begun < self.count:
                self.begin(process)
            else:
                living.pop(place)
