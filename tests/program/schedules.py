#!/usr/bin/env python3
"""Draws schedules of plans with the program, replays them, and judges what is recorded.

    tests/program/schedules.py

From one plan, `examples/eight-scripts-plan.json`, each of the four tree variants is refuted by one of the first seeds, and a full tree by none of
them. Schedules of gets are compared with a model of the three strategies. The last line counts what passed and failed.
"""

import functools
import itertools
import json
import os
import sys

sys.dont_write_bytecode = True
from rows import EXAMPLES, JSON, LENGTH, LONGEST_TEXT, NO_PLAN, TOO_MANY_CALLS, answer, compare  # noqa: E402

SEEDS = 20
STRATEGIES = ["walk", "pos", "pct"]
FULL = ["coupled", "optimistic"]
VARIANTS = ["read-unchecked", "scan-unvalidated", "lock-unchecked", "early-release"]
with open(os.path.join(EXAMPLES, "eight-scripts-plan.json"), "rb") as file:
    PLAN = file.read()
CALLS = sum(map(len, json.loads(PLAN)["scripts"]))

# The turns of a get of an empty tree: it draws the stamp of its invocation, loads the root's version, a child and the version again, and draws the
# stamp of its response. Under lock coupling it loads the version, locks the root by an exchange, loads the child, and unlocks the root by a store.
STAMP, LOAD = "stamp", "load"
GET = [STAMP, LOAD, LOAD, LOAD, STAMP]

TOO_LONG = "schedule: 1 TooManyItems\nwanted a schedule of at most 100000 items: fewer operations, or a lower --limit\n"


def plan_of(scripts):
    return json.dumps({"scripts": scripts, "version": 1}, separators=(",", ":"))


def replay_of(schedule, scripts, limit=1_000_000, rows=(1024, 256, 64, 16), tree="optimistic"):
    """The text of a replay without starting pairs."""
    parts = {"limit": limit, "rows": rows, "schedule": schedule, "scripts": scripts, "variant": tree, "version": 1}
    return json.dumps(parts, separators=(",", ":")) + "\n"


def words_of(seed):
    """The words of PCG's generator with 64 bits of state, stream 0."""
    mask, increment = 2**64 - 1, 1
    step = lambda state: (state * 6364136223846793005 + increment) & mask
    state = step((seed + increment) & mask)
    while True:
        mixed, turned = ((state >> 18) ^ state) >> 27 & 0xFFFFFFFF, state >> 59
        yield (mixed >> turned | mixed << (-turned & 31)) & 0xFFFFFFFF
        state = step(state)


def model(counts, seed, strategy, depth, changes_before=None):
    """The processes of the turns that are drawn for scripts of so many gets, which wait for nobody. Steps race only if both draw a stamp."""
    words = words_of(seed)
    left = [GET * count for count in counts]
    priorities = [next(words) + 2**32 for _ in counts]
    changes = []
    if strategy == "pct":
        if changes_before is None:
            changes_before = len(model(counts, seed, strategy, depth, 0))
        if changes_before:
            changes = [next(words) % changes_before for _ in range(depth - 1)]
    turns = []
    while any(left):
        process = max((it for it in range(len(counts)) if left[it]), key=lambda it: (priorities[it], -it))
        step = left[process].pop(0)
        if strategy == "pct":
            if len(turns) in changes:
                priorities[process] = changes.index(len(turns))
        else:
            for other, steps in enumerate(left):
                if strategy == "walk" or other == process or step == STAMP and steps[:1] == [STAMP]:
                    priorities[other] = next(words) + 2**32
        turns.append(process)
    return turns


def items_of(turns):
    return [[process, "turns", len(list(same))] for process, same in itertools.groupby(turns)]


def modelled():
    """Rows of plans of gets, with the replays that the model draws."""
    for strategy, seed, counts in itertools.product(STRATEGIES, (0, 1, 2, 42, 2**64 - 1), ([1], [2, 2], [3, 0, 1], [1] * 64)):
        for depth in (1, 3, 64):
            scripts = [[["get", 5]] * count for count in counts]
            words = f"schedule --seed {seed} --strategy {strategy} --depth {depth}".split()
            yield words, plan_of(scripts), 0, replay_of(items_of(model(counts, seed, strategy, depth)), scripts), ""


def rows():
    """Words, a text, the status, the output, and what a terminal shows."""
    yield from modelled()
    get = [[["get", 5]]]
    drawn = "schedule --seed 7"
    # The options.
    yield f"{drawn} --limit 3".split(), plan_of(get), 0, replay_of([[0, "turns", 3]], get, limit=3), ""
    yield f"{drawn} --limit 1".split(), plan_of(get), 0, replay_of([[0, "turns", 1]], get, limit=1), ""
    yield (
        f"{drawn} --rows4 0 --rows16 1 --rows48 2 --rows256 3".split(), plan_of(get), 0,
        replay_of([[0, "turns", len(GET)]], get, rows=(0, 1, 2, 3)), "",
    )
    for tree in VARIANTS[:3]:
        loads = len(GET) - (tree == "read-unchecked")
        yield f"{drawn} --tree {tree}".split(), plan_of(get), 0, replay_of([[0, "turns", loads]], get, tree=tree), ""
    for tree in ("coupled", "early-release"):
        yield f"{drawn} --tree {tree}".split(), plan_of(get), 0, replay_of([[0, "turns", len(GET) + 1]], get, tree=tree), ""
    yield drawn.split(), plan_of([[], []]), 0, replay_of([], [[], []]), ""
    # A replay is of version 2 only if a script has a replace, which takes the turns of a get if it finds nothing.
    yield drawn.split(), '{"version":2,"scripts":[[]]}', 0, replay_of([], [[]]), ""
    replaced = replay_of([[0, "turns", len(GET)]], [[["replace", 5, 1, 2]]])
    replaced = replaced.replace('"variant"', '"start":[],"variant"').replace('"version":1', '"version":2')
    yield drawn.split(), '{"version":2,"scripts":[[["replace",5,1,2]]]}', 0, replaced, ""
    # Texts that are refused.
    yield drawn.split(), "[]", 3, "", NO_PLAN
    yield drawn.split(), plan_of([[["get", 2**32]]]), 3, "", NO_PLAN
    yield drawn.split(), "{", 3, "", "plan: 6 NotJson\n" + JSON
    yield drawn.split(), " " * (LONGEST_TEXT + 1), 3, "", "plan: 5 TooLong\n" + LENGTH
    for lengths in ([], [0] * 65, [4097], [2049, 2048]):
        yield drawn.split(), plan_of([[["get", 5]] * length for length in lengths]), 3, "", TOO_MANY_CALLS
    # Each scan reads all slots of the root, so the turns come to the limit, and a random walk of 64 processes hardly has two in a row of one.
    scans = plan_of([[["scan", 0, 2**32 - 1]] * 64] * 64)
    yield f"{drawn} --strategy walk".split(), scans, 3, "", TOO_LONG


def drawing(tree, strategy, seed):
    return ["schedule", "--seed", str(seed), "--strategy", strategy, "--tree", tree]


def is_refuted(tree, strategy, seed):
    return piped_plan(drawing(tree, strategy, seed), ["replay"], ["judge"])[0] == 1


def piped_plan(words, *later):
    """The answer to the last of some lists of words, the first on the plan, and each other one on what the one before it has written."""
    found = answer(words, PLAN)
    for other in later:
        found = answer(other, found[1])
    return found


def never_refuted(tree):
    """What is wrong if no seed refutes a variant by any strategy."""
    if not any(is_refuted(tree, strategy, seed) for seed in range(SEEDS) for strategy in STRATEGIES):
        return f"{tree} is refuted by none of {SEEDS} seeds"
    return None


def not_right(tree, strategy, seed):
    """What is wrong with a schedule of a full tree. It ends each operation, so no process spends all turns on a locked word, and the history is
    linearizable."""
    words = drawing(tree, strategy, seed)
    status, output, told = piped_plan(words, ["replay"])
    answers = output.count(b'"answer"')
    if status or told or answers != CALLS:
        return f"{' '.join(words)}: {status}, {answers} responses, {told}"
    verdict = answer(["judge"], output)
    return None if verdict[0] == 0 else f"{' '.join(words)}: {verdict}"


def differs(words):
    """What is wrong with a replay apart from its schedule, or if a second run draws another one."""
    status, output, told = answer(words, PLAN)
    if status or told or answer(words, PLAN)[1] != output:
        return f"{' '.join(words)}: {status} {told}, or another replay the second time"
    replay = json.loads(output)
    schedule = replay.pop("schedule")
    wanted = {**json.loads(replay_of([], json.loads(PLAN)["scripts"], tree=words[-1]))}
    del wanted["schedule"]
    is_right = replay == wanted and all(item[1] == "turns" for item in schedule)
    return None if is_right else f"{' '.join(words)}: {str(replay)[:300]}"


def is_long():
    """What is wrong with a schedule of as many turns as a replay may have items."""
    scripts = [[["scan", 0, 2**32 - 1]] * 64] * 64
    status, output, told = answer("schedule --seed 7 --strategy walk --limit 100000".split(), plan_of(scripts))
    turns = sum(item[2] for item in json.loads(output)["schedule"]) if status == 0 else None
    if turns != 100_000 or told:
        return f"{status}, {turns} turns, {told}"
    status, output, told = answer(["replay"], output)
    return None if status == 0 and not told else f"its replay: {status} {told}"


def main():
    others = [functools.partial(never_refuted, tree) for tree in VARIANTS]
    others += [functools.partial(not_right, *row) for row in itertools.product(FULL, STRATEGIES, range(SEEDS))]
    others += [functools.partial(differs, drawing(tree, "pos", 3)[:5] + ["--tree", tree]) for tree in FULL + VARIANTS]
    others += [is_long]
    return compare(rows(), others)


if __name__ == "__main__":
    sys.exit(main())
