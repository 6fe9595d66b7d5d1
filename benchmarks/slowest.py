#!/usr/bin/env python3
"""Searches for short streams that the program follows slowly, or with much memory.

    benchmarks/slowest.py [--seconds N] [--seed N] [--lines N] [--budget N]

All streams are right, and have at most so many lines (1,000), of at most 64 processes at a time. For so many seconds (60) it draws the traits of a
stream, or changes some of those of one of the slowest until then, and follows the stream at this budget (100,000, the program's default). It prints
the seconds of a processor, the peak of memory in MiB, the verdict and the traits of each stream that is among the ten slowest when it is found, and
at the end the ten slowest and the ten with the most memory. The seed (1) fixes what is drawn, and the traits fix a stream. The status is 1 if one
takes a second or 100 MiB, or is undecided.
"""

import argparse
import json
import os
import random
import subprocess
import sys
import tempfile
import time

TOP = os.path.dirname(os.path.dirname(os.path.abspath(__file__)))
PROGRAM = os.path.join(TOP, "crates", "bench", "out", "bench")
compact = json.JSONEncoder(separators=(",", ":")).encode
# What a stream may take, in seconds of a processor and MiB.
SECONDS, MEMORY = 1, 100
KEPT = 10
# The traits that a stream may have.
TRAITS = {
    "processes": (1, 2, 3, 4, 6, 8, 12, 16, 24, 32, 48, 64),
    "keys": (1, 2, 3, 4, 6, 8, 16, 32, 64),
    "values": (1, 2, 3, 8, 1 << 30),
    "gets": (0, 1, 2, 5, 10),
    "inserts": (1, 2, 5),
    "removes": (0, 1, 2, 5),
    "replaces": (0, 0, 1, 5),
    "scans": (0, 0, 1, 3, 10),
    # keys of a scan
    "length": (1, 2, 4, 64),
    # of a hundred answers of puts and removes, how many are partial, and how many calls are refused
    "partial": (0, 0, 20, 50, 100),
    "refused": (0, 0, 5),
    # after so many calls a process dies within its call
    "dies": (0, 0, 5, 20, 100),
    # so many processes take each twentieth turn only
    "slow": (0, 0, 1, 3),
    # how soon a call has its effect and its answer: the turns that are passed over, of a hundred
    "waits": (0, 30, 60, 90),
    "seed": range(1 << 30),
}


def drawn_call(chance, traits):
    kinds = ["get", "insert", "remove", "replace", "scan"]
    name = chance.choices(kinds, [traits[kind + "s"] for kind in kinds])[0]
    key, value = chance.randrange(traits["keys"]), lambda: chance.randrange(traits["values"])
    if name == "scan":
        return [name, key, min(traits["keys"], key + traits["length"]) - 1]
    return [name, key, *(value() for _ in range({"insert": 1, "replace": 2}.get(name, 0)))]


def answer_of(pairs, name, key, *numbers):
    """The answer of a call, which has its effect."""
    if name == "scan":
        return [[at, pairs[at]] for at in sorted(pairs) if key <= at <= numbers[0]]
    found = pairs.get(key)
    if name == "insert" or name == "replace" and found == numbers[0]:
        pairs[key] = numbers[-1]
    elif name == "remove":
        pairs.pop(key, None)
    return found


def partial(name, found, numbers):
    """An answer that tells less."""
    if name == "replace":
        return "done" if found == numbers[0] else "other"
    if name == "remove":
        return found if found is None else "found"
    return "done"


def lines_of(traits, most):
    """The lines of a right stream with these traits, at most so many."""
    chance = random.Random(traits["seed"])
    pairs, opened, answers, lines = {}, {}, {}, ['{"start":[],"version":3}']
    living, heirs, begun = list(range(traits["processes"])), traits["processes"], 0
    while len(lines) + len(opened) < most and living:
        place = chance.randrange(len(living))
        process = living[place]
        if place < traits["slow"] and chance.randrange(20) or chance.randrange(100) < traits["waits"] and process in opened:
            continue
        if process not in opened:
            opened[process] = drawn_call(chance, traits)
            begun += 1
            lines.append(compact({"invoke": opened[process], "process": process}))
            if traits["dies"] and begun % traits["dies"] == 0:
                if chance.randrange(2):
                    answer_of(pairs, *opened[process])
                del opened[process]
                living[place], heirs = heirs, heirs + 1
        elif process not in answers:
            name, key, *numbers = opened[process]
            if chance.randrange(100) < traits["refused"]:
                answers[process] = "refused"
                continue
            answers[process] = answer_of(pairs, name, key, *numbers)
            if name in ("insert", "remove", "replace") and chance.randrange(100) < traits["partial"]:
                answers[process] = partial(name, answers[process], numbers)
        else:
            lines.append(compact({"answer": answers.pop(process), "process": process}))
            del opened[process]
    return lines


def followed(lines, budget):
    """The seconds of a processor and the peak of memory, in MiB, of a run, and its verdict."""
    with tempfile.TemporaryFile() as text:
        text.write("\n".join(lines).encode())
        text.seek(0)
        child = subprocess.Popen([PROGRAM, "follow", "--budget", str(budget)], stdin=text, stdout=subprocess.PIPE, stderr=subprocess.DEVNULL)
        said = child.stdout.read()
        child.stdout.close()
        _, status, used = os.wait4(child.pid, 0)
        child.returncode = os.waitstatus_to_exitcode(status)
    verdict = json.loads(said.splitlines()[0])["verdict"] if said else f"status {child.returncode}"
    return used.ru_utime + used.ru_stime, used.ru_maxrss / 1024, verdict


def changed(chance, traits):
    """Other traits in place of one to three of these, mostly."""
    names = {"seed", *chance.sample(sorted(TRAITS), chance.randint(0, 3))}
    return {name: chance.choice(values) if name in names else traits[name] for name, values in TRAITS.items()}


def main():
    parser = argparse.ArgumentParser()
    parser.add_argument("--seconds", type=int, default=60)
    parser.add_argument("--seed", type=int, default=1)
    parser.add_argument("--lines", type=int, default=1000)
    parser.add_argument("--budget", type=int, default=100_000)
    given = parser.parse_args()
    chance = random.Random(given.seed)
    slowest, largest, count, bad = [], [], 0, 0
    end = time.monotonic() + given.seconds
    while time.monotonic() < end:
        kept = slowest + largest
        drawn = changed(chance, chance.choice(kept)[-1]) if kept and chance.randrange(3) else {name: chance.choice(of) for name, of in TRAITS.items()}
        if not drawn["gets"] + drawn["inserts"]:
            continue
        seconds, memory, verdict = followed(lines_of(drawn, given.lines), given.budget)
        count += 1
        bad += seconds >= SECONDS or memory >= MEMORY or verdict != "yes"
        row = seconds, memory, verdict, drawn
        if len(slowest) < KEPT or seconds > slowest[-1][0] or verdict != "yes":
            print(f"{seconds:.2f} s, {memory:.0f} MiB, {verdict}: {drawn}", flush=True)
        slowest = sorted([*slowest, row], key=lambda it: -it[0])[:KEPT]
        largest = sorted([*largest, row], key=lambda it: -it[1])[:KEPT]
    print(f"{count} streams; the slowest and those with the most memory:")
    for seconds, memory, verdict, drawn in slowest + largest:
        print(f"{seconds:.2f} s, {memory:.0f} MiB, {verdict}: {drawn}")
    sys.exit(1 if bad else 0)


if __name__ == "__main__":
    main()
