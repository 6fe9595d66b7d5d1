#!/usr/bin/env python3
"""Runs the program on texts made by damaging those of the examples.

    tests/program/damaged_texts.py

A text is cut, or bytes of it are doubled, swapped or flipped, up to three times; a fixed seed chooses how. Each run has to end with a status from 0
to 3, and to write one line to standard output. For a refused text it writes one line to standard error: that of a fault in docs/FORMATS.md. What is
drawn is one SVG, and a no of a stream has a second line. A text that is accepted is read and written again by Python's json, each line of a stream
by itself. A run on that text has to end as one on the text, and to write the same. The last line counts the texts that passed and failed.
"""

import concurrent.futures
import json
import os
import random
import re
import subprocess
import sys

TOP = os.path.dirname(os.path.dirname(os.path.dirname(os.path.abspath(__file__))))
PROGRAM = os.path.join(TOP, "crates", "bench", "out", "bench")
EXAMPLES = os.path.join(TOP, "examples")
SEED = 20_161_116
TEXTS = 5000
MOST_DAMAGES = 3

NOTHING = rb""
LINE = rb"[^\n]+\n"
# After a stream that goes wrong comes a small history.
LINE_OR_TWO = rb"([^\n]+\n){1,2}"
PICTURE = rb"<svg [^>]*>\n(?:[^\n]+\n)+</svg>\n"
PAGE = rb"<!doctype html>\n(?:[^\n]*\n)+</html>\n"
REFUSED_HISTORY = (
    rb"history: ([1-3] (TooLong|NotJson|Version)|5 TooMany|[46] (Shape|NotWellFormed) at event [0-9]+"
    rb"|8 Start at pair [0-9]+)\n"
)
REFUSED_PLAN = rb"plan: (3 TooMany|5 TooLong|6 NotJson|7 Shape)\n"
# Of each subcommand the line of a refused text, and the statuses of an answer.
REFUSED = {
    "judge": REFUSED_HISTORY,
    "locate": REFUSED_HISTORY,
    "draw": REFUSED_HISTORY,
    "page": REFUSED_HISTORY,
    "replay": rb"replay: ([5-7] (TooLong|NotJson|Shape)|8 StartRefused)\n"
    rb"|schedule: item [0-9]+: (1 NoProcess|2 NothingToDo|3 TurnLimit)\n",
    "drive": REFUSED_PLAN,
    "schedule --seed 1": REFUSED_PLAN,
    "follow": rb"stream: line [0-9]+: (1 TooLong|2 NotJson|3 Version|4 Shape|5 TooMany|6 NotWellFormed|8 Start at pair [0-9]+)\n",
}
ANSWERED = {name: (0,) if name in ("replay", "drive", "schedule --seed 1") else (0, 1, 2) for name in REFUSED}
ANSWERS = {"draw": PICTURE, "page": PAGE, "follow": LINE_OR_TWO}
# A page has the text in it, and threads of `drive` interleave as they like: instead of these runs others are compared.
COMPARED = {"page": "judge", "drive": "schedule --seed 1"}
# What reads an example, by the ending of its name. Of several subcommands each text is given to one.
READERS = {"-stream.json": ("follow",), "-replay.json": ("replay",), "-plan.json": ("drive", "schedule --seed 1"), ".json": ("judge", "locate", "draw", "page")}


def cut(text, chance):
    return text[: chance.randrange(len(text) + 1)]


def double(text, chance):
    start, end = sorted(chance.randrange(len(text) + 1) for _ in range(2))
    return text[:end] + text[start:]


def swap(text, chance):
    first, second = sorted(chance.randrange(len(text)) for _ in range(2))
    swapped = bytearray(text)
    swapped[first], swapped[second] = swapped[second], swapped[first]
    return bytes(swapped)


def flip(text, chance):
    flipped = bytearray(text)
    flipped[chance.randrange(len(text))] ^= 1 << chance.randrange(8)
    return bytes(flipped)


def damaged(text, chance):
    for _ in range(chance.randint(1, MOST_DAMAGES)):
        if text:
            text = chance.choice((cut, double, swap, flip))(text, chance)
    return text


def originals():
    """Each example, with the subcommands that read it."""
    for name in sorted(os.listdir(EXAMPLES)):
        if name.endswith(".json"):
            with open(os.path.join(EXAMPLES, name), "rb") as source:
                yield next(READERS[ending] for ending in READERS if name.endswith(ending)), source.read()


def run(subcommand, text):
    return subprocess.run([PROGRAM, *subcommand.split()], input=text, capture_output=True, timeout=60, check=False)


def rewritten(subcommand, text):
    """A text as Python's json reads and writes it: a stream line by line, up to the line at which it may end."""
    parts = text.split(b"\n") if subcommand == "follow" else [text]
    return b"\n".join(json.dumps(json.loads(part.decode())).encode() if part.strip() else part for part in parts)


def fails(subcommand, text):
    """What is wrong with the run on a text, or None."""
    ran = run(subcommand, text)
    if ran.returncode in ANSWERED[subcommand]:
        wanted = ANSWERS.get(subcommand, LINE), NOTHING
    elif ran.returncode == 3:
        wanted = NOTHING, REFUSED[subcommand]
    else:
        return f"{subcommand} of {text!r} ends with status {ran.returncode}"
    if not all(map(re.fullmatch, wanted, (ran.stdout, ran.stderr))):
        return f"{subcommand} of {text!r} writes {ran.stdout!r} and {ran.stderr!r} with status {ran.returncode}"
    if ran.returncode == 3:
        return None
    try:
        again = rewritten(subcommand, text)
    except ValueError as error:
        # What follows the answer at which a stream ends is not read.
        return None if subcommand == "follow" and ran.returncode else f"{subcommand} accepts {text!r}, which json refuses: {error}"
    compared = COMPARED.get(subcommand, subcommand)
    first, second = ran if compared == subcommand else run(compared, text), run(compared, again)
    if (first.returncode, first.stdout) != (second.returncode, second.stdout):
        return f"{compared} of {text!r} writes {first.stdout!r}, and of {again!r}, which json writes for it, {second.stdout!r}"
    return None


def main():
    # Builds the program where that is still to do.
    with open(os.path.join(EXAMPLES, "kept-update-replay.json"), "rb") as source:
        subprocess.run([os.path.join(TOP, "bench"), "replay"], stdin=source, stdout=subprocess.DEVNULL, check=True)
    chance = random.Random(SEED)
    examples = list(originals())
    texts = [(chance.choice(readers), damaged(text, chance)) for readers, text in chance.choices(examples, k=TEXTS)]
    failed = 0
    with concurrent.futures.ThreadPoolExecutor(os.cpu_count()) as runs:
        for wrong in runs.map(fails, *zip(*texts)):
            if wrong is not None:
                failed += 1
                print(wrong)
    print(f"{TEXTS - failed} passed, {failed} failed")
    return 1 if failed else 0


if __name__ == "__main__":
    sys.exit(main())
