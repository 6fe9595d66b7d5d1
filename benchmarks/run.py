#!/usr/bin/env python3
"""Times the program on histories that it generates, and prints the time and the peak memory of each run.

    benchmarks/run.py [check|judge|search|segments|workers|follow|wrong|generate|replay|record|drive]..

What each part runs on:

- `check`: a history of one sorted map that processes call in turn, so that the calls by number are an order of it.
- `judge`, `segments`: calls overlap, and each has its effect at some moment while it is open.
- `search`: one segment without order. There are some pairs, some calls overlap, and then a read finds at one key what nobody put there.
- `workers`: segments that are equal but for their keys, with many configurations and without order.
- `follow`: a stream of processes that each begin a call as soon as their last one is answered. It is followed from a file. The table has its
  calls in a second of a processor, in place of its bytes.
- `wrong`: the same streams with a thousand calls, of at most 64 processes. In each copy of a stream one answer is changed. It counts the copies in
  which `follow` says at which event the stream goes wrong, or that it is right, just as `locate` does.
- `generate` makes plans. `replay` runs generated plans on both full trees, each call to its end or some turns at a time. One of its calls waits for
  a lock as long as a machine may live.
- `record`: threads note calls and answers at recorders. They are compared with as many threads that add to one shared word as often.
- `drive`: threads do a plan on each full tree. They are compared with additions to one word.

`crates/rates` does the last two. The time of the same threads with nothing to do is subtracted.
"""

import json
import os
import random
import resource
import subprocess
import sys
import tempfile
import time

sys.dont_write_bytecode = True
from streams import Stream  # noqa: E402

TOP = os.path.dirname(os.path.dirname(os.path.abspath(__file__)))
PROGRAM = os.path.join(TOP, "crates", "bench", "out", "bench")
RATES = os.path.join(TOP, "crates", "rates", "out", "rates")
MAX_TEXT = 16_777_216
MAX_BUDGET = 1_000_000


def text_of(events):
    """The compact text of a history."""
    text = json.dumps({"events": events, "version": 1}, separators=(",", ":"), sort_keys=True)
    return text.encode()


def answer_of(held, name, numbers):
    """Does a call on the pairs held, and gives its answer."""
    if name == "scan":
        low, high = numbers
        return [[key, held[key]] for key in sorted(held) if low <= key <= high]
    answer = held.get(numbers[0])
    if name == "insert":
        held[numbers[0]] = numbers[1]
    elif name == "remove":
        held.pop(numbers[0], None)
    return answer


def history(calls):
    """The compact text of a history whose calls each are answered before the next begins."""
    held = {}
    events = []
    for number, (name, *numbers) in enumerate(calls):
        process = number % 4
        events.append({"invoke": [name, *numbers], "process": process})
        events.append({"answer": answer_of(held, name, numbers), "process": process})
    return text_of(events)


def overlapping(calls, processes, seed):
    """The compact text of a history whose calls overlap: each process in a random turn begins its next call,
    has the effect of its open one, or is answered."""
    choose = random.Random(seed)
    calls = iter(calls)
    held = {}
    events = []
    opened = {}
    answers = {}
    left = True
    while left or opened:
        process = choose.randrange(processes)
        if process in answers:
            events.append({"answer": answers.pop(process), "process": process})
            del opened[process]
        elif process in opened:
            name, *numbers = opened[process]
            answers[process] = answer_of(held, name, numbers)
        elif left:
            call = next(calls, None)
            if call is None:
                left = False
            else:
                opened[process] = call
                events.append({"invoke": list(call), "process": process})
    return text_of(events)


def mixed(count, keys, seed, scans=True):
    """Calls of all kinds on some keys, or of all but scans."""
    choose = random.Random(seed)
    for _ in range(count):
        key = choose.randrange(keys)
        kind = choose.randrange(10 if scans else 9)
        if kind < 4:
            yield ("get", key)
        elif kind < 7:
            yield ("insert", key, choose.randrange(1 << 30))
        elif kind < 9:
            yield ("remove", key)
        else:
            yield ("scan", key, key + choose.randrange(10))


def long_scans(pairs, scans):
    """Inserts at great keys, then scans that list them all."""
    great = 18446744073709551615
    for number in range(pairs):
        yield ("insert", great - number, great - number)
    for _ in range(scans):
        yield ("scan", 0, great)


def run(words, text, statuses=(0, 1, 2), program=PROGRAM):
    """The seconds and the peak of memory, in MiB, of one run on a text, with what it printed."""
    with tempfile.NamedTemporaryFile() as source:
        source.write(text)
        source.flush()
        seconds, _, peak, answer = run_on(words, source.name, statuses, program)
    return seconds, peak, answer


def peak_of(process):
    """The most memory that a process has had so far, in MiB, or 0 once it has ended. What the system says of one that has ended is at least what
    its parent had."""
    try:
        with open(f"/proc/{process.pid}/status", encoding="ascii") as status:
            return next((int(line.split()[1]) / 1024 for line in status if line.startswith("VmHWM")), 0)
    except OSError:
        return 0


def run_on(words, path, statuses=(0, 1, 2), program=PROGRAM, limit=None):
    """The same for a run on a file, with the seconds of a processor after those on the clock. None if it takes more of a processor than a limit."""
    def limited():
        resource.setrlimit(resource.RLIMIT_CPU, (limit or resource.RLIM_INFINITY,) * 2)

    with open(path, "rb") as source, tempfile.TemporaryFile() as output:
        began, peak = time.monotonic(), 0
        process = subprocess.Popen([program, *words], stdin=source, stdout=output, stderr=subprocess.DEVNULL, preexec_fn=limited)
        while not (ended := os.wait4(process.pid, os.WNOHANG))[0]:
            peak = max(peak, peak_of(process))
            time.sleep(0.002)
        _, status, usage = ended
        seconds = time.monotonic() - began
        output.seek(0)
        answer = output.read()
    if limit and os.WIFSIGNALED(status):
        return None
    assert os.WIFEXITED(status) and os.WEXITSTATUS(status) in statuses, status
    return seconds, usage.ru_utime + usage.ru_stime, peak, answer


def show(name, words, text, wanted):
    best = min(run(words, text) for _ in range(3))
    seconds, peak, answer = best
    assert answer.startswith(wanted), answer[:200]
    print(f"{name:<44} {len(text):>10} bytes {seconds:8.3f} s {peak:8.1f} MiB")


def check():
    for count in (1000, 2000, 4096):
        text = history(mixed(count, 200, count))
        show(f"check, {count} calls on 200 keys", ["check", *map(str, range(count))], text, b"ok\n")
    for count in (1000, 2000, 4096):
        text = history(("insert", number, 1) for number in range(count))
        show(f"check, {count} inserts of new keys", ["check", *map(str, range(count))], text, b"ok\n")
    for scans in (45, 90, 180):
        calls = list(long_scans(2000, scans))
        text = history(calls)
        assert len(text) <= MAX_TEXT, len(text)
        words = ["check", *map(str, range(len(calls)))]
        show(f"check, {scans} scans of 2000 pairs", words, text, b"ok\n")


def configurations(text):
    """How many configurations the search meets: the least budget at which it is not spent."""
    low, high = 1, MAX_BUDGET
    while low < high:
        middle = (low + high) // 2
        _, _, answer = run(["judge", "--budget", str(middle)], text)
        if b"undecided" in answer:
            low = middle + 1
        else:
            high = middle
    return low


def judge():
    for processes in (2, 3, 4):
        for count in (10, 50, 100, 200):
            text = overlapping(mixed(count, 5, count), processes, count)
            met = configurations(text)
            name = f"judge, {count} calls of {processes}, {met} configurations"
            show(name, ["judge", "--budget", str(MAX_BUDGET)], text, b'{"order":')


def without_order(held, opened):
    """The compact text of a history of one segment. First come inserts of as many keys, each answered before the next begins. Then
    calls with their answers that all overlap, and a scan of all keys that is answered by what nobody inserted."""
    events = []
    for number in range(held):
        events.append({"invoke": ["insert", 1000 + number, 1], "process": 0})
        events.append({"answer": None, "process": 0})
    for process, (call, _) in enumerate(opened):
        events.append({"invoke": call, "process": process})
    for process, (_, answer) in enumerate(opened):
        events.append({"answer": answer, "process": process})
    events.append({"invoke": ["scan", 0, 1000 + held], "process": 0})
    events.append({"answer": [[0, 99]], "process": 0})
    return text_of(events)


def three_on_each(keys):
    """On each key an insert, a get that sees it and a remove that takes it away, with their answers."""
    for key in range(keys):
        yield ["insert", key, 1], None
        yield ["get", key], 1
        yield ["remove", key], 1


def without_order_at(pairs, opened):
    """The compact text of a history of one segment, with these pairs at the start. Calls with their answers all overlap, and a scan
    of all keys is answered by what nobody put."""
    events = [{"invoke": call, "process": process} for process, (call, _) in enumerate(opened)]
    events += [{"answer": answer, "process": process} for process, (_, answer) in enumerate(opened)]
    events.append({"invoke": ["scan", 0, 2 ** 64 - 1], "process": 0})
    events.append({"answer": [[0, 99]], "process": 0})
    return json.dumps({"events": events, "start": pairs, "version": 2}, separators=(",", ":"), sort_keys=True).encode()


def search():
    for held, most in ((0, 20), (200, 17)):
        for number in (10, 13, 17, 20):
            if number <= most:
                text = without_order(held, [(["get", key], None) for key in range(number)])
                name = f"judge, {number} overlapping gets, {held} pairs"
                show(name, ["judge", "--budget", str(MAX_BUDGET)], text, b'{"calls":')
    for budget in (1000, 10_000, 100_000, MAX_BUDGET):
        text = without_order(0, list(three_on_each(10)))
        show(f"judge, 30 overlapping calls on 10 keys, {budget}", ["judge", "--budget", str(budget)], text, b'{"calls":')
    pairs = [[10 ** 19 + number * 7919, number] for number in range(4096)]
    for kind, opened in (
        ("inserts that replace", [(["insert", key, 1], value) for key, value in pairs[::69]]),
        ("inserts of new keys", [(["insert", key + 1, 1], None) for key, _ in pairs[::69]]),
        ("removes", [(["remove", key], value) for key, value in pairs[::69]]),
    ):
        text = without_order_at(pairs, opened)
        show(f"judge, 60 overlapping {kind}, 4096 pairs", ["judge"], text, b'{"calls":')
    text = without_order_at(pairs[:1000], [(["scan", 0, 2 ** 64 - 1], pairs[:1000])] * 60)
    show("judge, 60 overlapping scans of 1000 pairs", ["judge"], text, b'{"calls":')
    text = history([("get", 0)] * 4096)
    show("judge, 4096 gets of one key", ["judge"], text, b'{"order":')
    text = history(("insert", number, 1) for number in range(4096))
    show("judge, 4096 calls on as many keys", ["judge"], text, b'{"order":')


def segments():
    for count in (1024, 2048, 4096):
        text = history(("insert", number, 1) for number in range(count))
        show(f"judge, {count} calls on as many keys", ["judge"], text, b'{"order":')
    for count in (1024, 2048, 4096):
        text = overlapping(mixed(count, 64, count, scans=False), 4, count)
        show(f"judge, {count} calls of 4 on 64 keys", ["judge"], text, b'{"order":')


def heavy(count, processes, rounds):
    """The compact text of a history of segments that are equal but for their keys. In each there are rounds of inserts of new
    keys that all overlap, and a scan over all keys that misses them."""
    events = []
    for round_number in range(rounds):
        for kind in ("invoke", "answer"):
            for segment in range(count):
                for number in range(processes):
                    process = segment * processes + number
                    key = segment * 1_000_000 + round_number * processes + number
                    said = ["insert", key, 1] if kind == "invoke" else None
                    events.append({kind: said, "process": process})
    for segment in range(count):
        process = segment * processes
        low = segment * 1_000_000
        events.append({"invoke": ["scan", low, low + rounds * processes], "process": process})
        events.append({"answer": [], "process": process})
    return text_of(events)


def workers():
    text = heavy(8, 8, 24)
    for number in (1, 2, 4):
        words = ["judge", "--budget", str(MAX_BUDGET), "--workers", str(number)]
        show(f"judge, 8 equal segments, {number} workers", words, text, b'{"calls":')


# Streams: how many calls a second are expected, and how the stream is drawn.
STREAMS = {
    "8 processes, 1,000 keys": (400_000, {}),
    "the same, done": (400_000, {"done": True}),
    "the same, each 1,000th a scan of all keys": (250_000, {"scans": 0.1}),
    "done, each 1,000th a scan of all keys": (250_000, {"done": True, "scans": 0.1}),
    "each 100th a scan of all keys": (100_000, {"scans": 1}),
    "done, each 100th a scan of all keys": (100_000, {"done": True, "scans": 1}),
    "60 processes, 64 keys": (200_000, {"processes": 60, "keys": 64}),
    "60 processes, 64 keys, done": (200_000, {"processes": 60, "keys": 64, "done": True}),
    "60 processes, 64 keys, 0.1 % scans": (60_000, {"processes": 60, "keys": 64, "scans": 0.1}),
    "8 processes, 16 keys, 30 % scans": (20_000, {"keys": 16, "scans": 30}),
    "16 processes, 16 keys, 10 % scans": (20_000, {"processes": 16, "keys": 16, "scans": 10}),
    "YCSB-E, 8 processes": (100_000, {"scans": 95, "length": 10, "puts": 100, "removes": 0, "is_zipf": True}),
    "YCSB-E, 16 processes": (100_000, {"processes": 16, "scans": 95, "length": 10, "puts": 100, "removes": 0, "is_zipf": True}),
    "8 processes, one key": (30_000, {"keys": 1}),
    "16 processes, one key": (30_000, {"processes": 16, "keys": 1}),
    "60 processes, one key": (5_000, {"processes": 60, "keys": 1}),
    "8 processes, one key, done": (30_000, {"keys": 1, "done": True}),
    "16 processes, one key, done": (20_000, {"processes": 16, "keys": 1, "done": True}),
    "a slow process, one key": (50_000, {"keys": 1, "slow": 1}),
    "a slow process, 1,000 keys": (50_000, {"slow": 1}),
    "scans open for 5,000 calls, 64 keys": (50_000, {"processes": 60, "keys": 64, "held": 5000}),
    "all die each 100th call": (100_000, {"keys": 100, "dies": 100}),
    "all die each 100th call, 5 % scans": (10_000, {"keys": 100, "dies": 100, "scans": 5, "length": 20}),
    "5 dead in puts": (100_000, {"opened": [["insert", key, 0] for key in range(5)]}),
    "a scan that stays open": (100_000, {"opened": [["scan", 0, 999]]}),
    "a get that stays open, 8 keys": (100_000, {"keys": 8, "opened": [["get", 0]]}),
    "a put that stays open, one key": (100_000, {"keys": 1, "opened": [["insert", 0, 0]]}),
    "16,384 processes": (100_000, {"processes": 16_384, "keys": 65_536}),
    "each call puts a new key": (100_000, {"are_new": True}),
}


def follow():
    """Follows each stream, of so many calls and of twice as many: the seconds of both show whether it takes linear time."""
    for name, (expected, drawn) in STREAMS.items():
        row = f"follow, {name:<42}"
        for count in (100_000, 200_000):
            with tempfile.NamedTemporaryFile("w+", encoding="utf-8") as file:
                stream = Stream(file, count, **drawn)
                stream.write_all()
                file.flush()
                done = run_on(["follow"], file.name, limit=30)
            if done is None:
                row += " not done in 30 s"
                break
            _, seconds, peak, answer = done
            is_yes = answer.startswith(f'{{"calls":{stream.invoked},'.encode())
            row += f" {count / seconds:>9,.0f} calls/s {peak:6.1f} MiB" + " undecided" * (not is_yes)
        print(f"{row}, expected {expected:,}", flush=True)


def events_of(drawn, calls):
    """The events of a stream, up to the first one of a 65th process. Processes are numbered as they come."""
    with tempfile.TemporaryFile("w+", encoding="utf-8") as file:
        Stream(file, calls, **drawn).write_all()
        file.seek(0)
        lines = [json.loads(line) for line in file][1:]
    numbers, events = {}, []
    for line in lines:
        number = numbers.setdefault(line["process"], len(numbers))
        if number == 64:
            break
        events.append({**line, "process": number})
    return events


def says(event):
    """Whether an event is an answer of more than `done` or an empty list."""
    return event.get("answer", "done") not in ("done", [])


def changed(chance, events):
    """The events, of which one answer is changed: another value, none in place of a value, or a scan without one of its pairs."""
    place = chance.choice([place for place, event in enumerate(events) if says(event)])
    answer = events[place]["answer"]
    if isinstance(answer, list):
        gone = chance.randrange(len(answer))
        answer = answer[:gone] + answer[gone + 1:]
    else:
        values = [event["invoke"][2] for event in events if event.get("invoke", "")[:1] == ["insert"]]
        answer = chance.choice([value for value in {None, *chance.choices(values, k=3)} if value != answer])
    return [*events[:place], {**events[place], "answer": answer}, *events[place + 1:]]


def wrong(copies=175, calls=1000):
    """Follows and locates copies of each stream with one answer changed. Both have to say the same."""
    chance = random.Random(1)
    sums = {}
    for name, (_, drawn) in STREAMS.items():
        events, counts = events_of(drawn, calls), {}
        if not any(says(event) for event in events):
            continue
        for _ in range(copies):
            copy = changed(chance, events)
            lines = "\n".join(json.dumps(line, separators=(",", ":")) for line in ({"start": [], "version": 3}, *copy))
            history = json.dumps({"events": copy, "start": [], "version": 3}, separators=(",", ":"), sort_keys=True)
            followed = json.loads(run(["follow"], lines.encode())[-1].splitlines()[0])
            located = json.loads(run(["locate"], history.encode())[-1])
            same = (followed["verdict"], followed.get("event")) == (located["verdict"], located.get("event"))
            said = f"the same, {located['verdict']}" if same else f"{followed['verdict']}, not {located['verdict']}"
            counts[said] = counts.get(said, 0) + 1
            sums[said] = sums.get(said, 0) + 1
        print(f"wrong, {name:<42} {counts}", flush=True)
    print(f"wrong, in all {sums}", flush=True)


def generated(processes, calls, seed, most):
    """The words that generate a plan of calls of all kinds on the keys up to the most."""
    numbers = {"seed": seed, "processes": processes, "calls": calls, "get": 40, "insert": 30, "remove": 20, "scan": 10,
               "lo": 0, "hi": most}
    return ["generate", *(word for name, number in numbers.items() for word in (f"--{name}", str(number)))]


def generate():
    for processes, calls in ((1, 0), (4, 256), (4, 1024), (64, 64)):
        show(f"generate, {calls} calls of {processes}", generated(processes, calls, 1, 4_294_967_295), b"", b'{"scripts":')


def replay_text(variant, scripts, schedule, limit):
    """The compact text of a replay over rows for thousands of keys."""
    rows = [4096, 1024, 256, 64]
    members = {"limit": limit, "rows": rows, "schedule": schedule, "scripts": scripts, "variant": variant, "version": 1}
    return json.dumps(members, separators=(",", ":"), sort_keys=True).encode()


def turns_of(variant, scripts, schedule):
    """How many turns a schedule makes: the least limit at which none is refused."""
    low, high = 1, 1_000_000
    while low < high:
        middle = (low + high) // 2
        _, _, answer = run(["replay"], replay_text(variant, scripts, schedule, middle), (0, 3))
        low, high = (low, middle) if answer else (middle + 1, high)
    return low


def replay():
    for variant in ("coupled", "optimistic"):
        for most in (63, 4_294_967_295):
            _, _, answer = run(generated(4, 1000, 7, most), b"")
            scripts = json.loads(answer)["scripts"]
            schedule = [[number % 4, "end"] for number in range(4000)]
            turns = turns_of(variant, scripts, schedule)
            text = replay_text(variant, scripts, schedule, 1_000_000)
            show(f"replay, {variant}, keys to {most}, {turns} turns", ["replay"], text, b'{"events":')
    scripts = [[["insert", 5, 50]], [["get", 5]]]
    schedule = [[0, "turns", 3], [1, "turns", 999_997]]
    show("replay, a get that waits, 1000000 turns", ["replay"], replay_text("coupled", scripts, schedule, 1_000_000), b'{"events":')


def rates(threads, rounds, *works):
    """How often in so many rounds each work was done, and the seconds that it took, less those of threads that do nothing."""
    done = {}
    for work in ("neither", *works):
        seconds, _, count = min(run([work, str(threads), str(rounds)], b"", (0,), RATES) for _ in range(5))
        done[work] = int(count), seconds
    return [(done[work][0], done[work][1] - done["neither"][1]) for work in works]


def build_rates():
    folder = os.path.dirname(os.path.dirname(RATES))
    subprocess.run(["rt", "run", "--", "neither", "1", "0"], cwd=folder, stdout=subprocess.DEVNULL, check=True)


def record(rounds=500):
    build_rates()
    for threads in (1, 2, 4):
        (events, noted), (additions, added) = rates(threads, rounds, "recorder", "word")
        rate = f"{events / noted:14,.0f} events/s {additions / added:14,.0f} additions/s {noted / added:6.2f} times"
        print(f"record, {threads} threads: {rate}")


def drive(rounds=200):
    build_rates()
    for variant in ("coupled", "optimistic"):
        _, _, answer = run(generated(1, 1024, 7, 10_000), b"")
        scripts = json.loads(answer)["scripts"]
        # The stamps are steps too, and the turns of one process are its steps.
        steps = turns_of(variant, scripts, [[0, "end"]] * 1024)
        for threads in (1, 2, 4):
            (events, driven), (additions, added) = rates(threads, rounds, variant, "word")
            told = f"drive, {variant}, {threads} threads: {events / 2 / driven:12,.0f} calls/s"
            if threads == 1:
                told += f" {steps * rounds / driven:12,.0f} steps/s {additions / added:14,.0f} additions/s"
            print(told)


def main():
    parts = {"check": check, "judge": judge, "search": search, "segments": segments, "workers": workers,
             "follow": follow, "wrong": wrong, "generate": generate, "replay": replay, "record": record, "drive": drive}
    unknown = [part for part in sys.argv[1:] if part not in parts]
    if unknown:
        sys.exit(f"benchmarks/run.py: {unknown[0]} is none of {', '.join(parts)}")
    # Builds the program where that is still to do.
    with open(os.path.join(TOP, "examples", "kept-update-replay.json"), "rb") as source:
        subprocess.run([os.path.join(TOP, "bench"), "replay"], stdin=source, stdout=subprocess.DEVNULL, check=True)
    for part in sys.argv[1:] or parts:
        parts[part]()


if __name__ == "__main__":
    sys.exit(main())
