#!/usr/bin/env python3
"""Runs the program on words and standard streams that no example has, and in little stack and little memory.

    tests/program/words_and_streams.py

Each run has to end with the status that docs/FORMATS.md gives, and to write what belongs to that status and nothing
else. The last line counts the runs that passed and failed.
"""

import functools
import json
import os
import pty
import re
import resource
import subprocess
import sys
import tempfile
import time

sys.dont_write_bytecode = True
from rows import shown_on  # noqa: E402

TOP = os.path.dirname(os.path.dirname(os.path.dirname(os.path.abspath(__file__))))
PROGRAM = os.path.join(TOP, "crates", "bench", "out", "bench")
EXAMPLES = os.path.join(TOP, "examples")
ORDERED = os.path.join(EXAMPLES, "insert-then-get.json")
CUT_SHORT = os.path.join(EXAMPLES, "cut-short.json")
OVERLAPPING = os.path.join(EXAMPLES, "get-overlaps-insert-stream.json")
MISSED = os.path.join(EXAMPLES, "get-misses-insert-stream.json")
APART = os.path.join(EXAMPLES, "insert-then-get-stream.json")
FULL = "/dev/full"
MOST_CALLS = 4096
LITTLE_STACK = 256 * 1024
LITTLE_MEMORY = 64 * 1024 * 1024
WORKER_STACK = 8 * 1024 * 1024

# What a stream gets, as regular expressions over all its bytes.
NOTHING = rb""


# Arguments that ask for nothing that can be done, or for help, and how the text begins that is printed. An error's text ends by pointing at
# the help.
FAULTS = [
    ("", "error: 'bench' requires a subcommand but one was not provided"),
    ("verify", "error: unrecognized subcommand 'verify'"),
    ("prove", "error: unrecognized subcommand 'prove'"),
    ("run", "error: unrecognized subcommand 'run'"),
    ("check x", "error: invalid value 'x' for '[CALL]...'"),
    ("check 4294967296", "error: invalid value '4294967296' for '[CALL]...'"),
    ("check 0 1 4294967296", "error: invalid value '4294967296' for '[CALL]...'"),
    ("judge 0", "error: unexpected argument '0' found"),
    ("judge 4", "error: unexpected argument '4' found"),
    ("judge --budget 0", "error: invalid value '0' for '--budget <N>'"),
    ("judge --budget 1000001", "error: invalid value '1000001' for '--budget <N>'"),
    ("judge --budget", "error: a value is required for '--budget <N>' but none was supplied"),
    ("judge --workers 0", "error: invalid value '0' for '--workers <N>'"),
    ("judge --workers 65", "error: invalid value '65' for '--workers <N>'"),
    ("judge --workers=65", "error: invalid value '65' for '--workers <N>'"),
    ("judge --workers x", "error: invalid value 'x' for '--workers <N>'"),
    ("judge --workers 4 --workers 4", "error: the argument '--workers <N>' cannot be used multiple times"),
    ("judge --worker 4", "error: unexpected argument '--worker' found"),
    ("judge --tree locked", "error: unexpected argument '--tree' found"),
    ("locate 0", "error: unexpected argument '0' found"),
    ("locate --budget 0", "error: invalid value '0' for '--budget <N>'"),
    ("locate --budget 1000001", "error: invalid value '1000001' for '--budget <N>'"),
    ("locate --workers 2", "error: unexpected argument '--workers' found"),
    ("locate --order 1", "error: unexpected argument '1' found"),
    ("locate --order --order", "error: the argument '--order' cannot be used multiple times"),
    ("judge --order", "error: unexpected argument '--order' found"),
    ("draw --workers 0", "error: invalid value '0' for '--workers <N>'"),
    ("draw --workers 65", "error: invalid value '65' for '--workers <N>'"),
    ("draw --around 8193", "error: invalid value '8193' for '--around <N>'"),
    ("draw --calls 4098", "error: invalid value '4098' for '--calls <N>'"),
    ("draw --seed 1", "error: unexpected argument '--seed' found"),
    ("page --workers 0", "error: invalid value '0' for '--workers <N>'"),
    ("page --budget 1000001", "error: invalid value '1000001' for '--budget <N>'"),
    ("page --calls 4", "error: unexpected argument '--calls' found"),
    ("follow --workers 2", "error: unexpected argument '--workers' found"),
    ("generate", "error: the following required arguments were not provided"),
    ("generate --seed 1", "error: the following required arguments were not provided"),
    (
        "generate --seed 42 --processes 1 --calls 2 --get 100 --insert 0 --remove 0 --scan 0 --lo 5",
        "error: the following required arguments were not provided",
    ),
    (
        "generate --seed 42 --processes 1 --calls 2 --get 100 --insert 0 --remove 0 --scan 0 --lo 5 --hi 4294967296",
        "error: invalid value '4294967296' for '--hi <N>'",
    ),
    ("generate --seed 18446744073709551616", "error: invalid value '18446744073709551616' for '--seed <N>'"),
    ("generate --hi 4294967296", "error: invalid value '4294967296' for '--hi <N>'"),
    ("schedule", "error: the following required arguments were not provided"),
    ("schedule --seed 18446744073709551616", "error: invalid value '18446744073709551616' for '--seed <N>'"),
    (
        "schedule --seed 1 --tree locked",
        "error: invalid value 'locked' for '--tree <NAME>'\n  [possible values: coupled, optimistic, read-unchecked, "
        "scan-unvalidated, lock-unchecked, early-release]",
    ),
    (
        "schedule --seed 1 --strategy mix",
        "error: invalid value 'mix' for '--strategy <NAME>'\n  [possible values: walk, pos, pct]",
    ),
    ("schedule --seed 1 --depth 0", "error: invalid value '0' for '--depth <N>'"),
    ("schedule --seed 1 --depth 65", "error: invalid value '65' for '--depth <N>'"),
    ("schedule --seed 1 --rows256 0", "error: invalid value '0' for '--rows256 <N>'"),
    ("schedule --seed 1 --limit 0", "error: invalid value '0' for '--limit <N>'"),
    ("schedule --seed 1 --limit 1000001", "error: invalid value '1000001' for '--limit <N>'"),
    ("schedule --seed 1 5", "error: unexpected argument '5' found"),
    ("drive 0", "error: unexpected argument '0' found"),
    ("drive locked", "error: unexpected argument 'locked' found"),
    ("drive --tree", "error: a value is required for '--tree <NAME>' but none was supplied"),
    ("drive --trees locked", "error: unexpected argument '--trees' found"),
    ("drive --tree locked locked", "error: unexpected argument 'locked' found"),
    ("drive --rows4 4097", "error: invalid value '4097' for '--rows4 <N>'"),
    ("drive --rows16 1025", "error: invalid value '1025' for '--rows16 <N>'"),
    ("drive --rows48 257", "error: invalid value '257' for '--rows48 <N>'"),
    ("drive --rows256 0", "error: invalid value '0' for '--rows256 <N>'"),
    ("drive --rows256 65", "error: invalid value '65' for '--rows256 <N>'"),
    ("drive --limit 0", "error: invalid value '0' for '--limit <N>'"),
    ("drive --limit 1000001", "error: invalid value '1000001' for '--limit <N>'"),
    (
        "drive --tree other",
        "error: invalid value 'other' for '--tree <NAME>'\n  [possible values: locked, coupled, optimistic, read-unchecked, "
        "scan-unvalidated, lock-unchecked, early-release]",
    ),
    ("help", "Tests whether recorded histories of a concurrent ordered map are linearizable"),
    ("--help", "Tests whether recorded histories of a concurrent ordered map are linearizable"),
    ("check --help", "Checks whether an order of operations"),
]
POINTER = "\n\nFor more information, try '--help'.\n"

# Arguments, and the line and the hint that are printed for a text that is cut short.
DRAWN = "generate --seed 42 --processes 1 --calls 2 --get 100 --insert 0 --remove 0 --scan {} --lo {} --hi 5"
SHOWN = '{"events":[{"invoke":["insert",5,7],"process":0},{"answer":null,"process":0},{"i..'
REFUSALS = [
    *((words, "history: 2 NotJson", "wanted JSON in UTF-8") for words in ("check 0 1", "judge", "locate", "explain", "draw", "page")),
    ("follow", "stream: line 1: 2 NotJson", f"found {SHOWN}; wanted JSON in UTF-8"),
    ("schedule --seed 1", "plan: 6 NotJson", "wanted JSON in UTF-8"),
    ("replay", "replay: 6 NotJson", "wanted JSON in UTF-8"),
    ("drive", "plan: 6 NotJson", "wanted JSON in UTF-8"),
    ("drive --tree locked", "plan: 6 NotJson", "wanted JSON in UTF-8"),
    (DRAWN.format(1, 5), "plan: 1 BadMix", "wanted shares of gets, inserts, removes and scans that are 100 together"),
    (DRAWN.format(0, 6), "plan: 2 BadRange", "wanted a least key that is not above the greatest"),
]

# What the user is shown who asks for help on `judge`.
JUDGE_HELP = """Reports whether the history on standard input is linearizable

Usage: bench judge [OPTIONS]

Options:
      --budget <N>   Most states of one search, from 1 to 1000000 [default: 100000]
      --workers <N>  Threads that search, from 1 to 64 [default: 1]
  -h, --help         Print help
"""


# And on `locate`, which has an option without a value.
LOCATE_HELP = """Reports the response at which a history stops being linearizable

Usage: bench locate [OPTIONS]

Options:
      --budget <N>  Most states of one search, from 1 to 1000000 [default: 100000]
      --order       Also prints an order of the operations before that response
  -h, --help        Print help
"""


def refused_words():
    """Arguments that ask for nothing that can be done, or for help, each with a name and what has to be printed."""
    yield "a word that is no text", [b"check", b"\xff"], re.escape(b"error: a word is no text\n")
    yield "a word that begins as a text", [b"check", b"0", b"1\xff"], re.escape(b"error: a word is no text\n")
    for words, begins in FAULTS:
        # If an option has a few values, nothing comes after them; help ends with at most one empty line.
        between = rb"" if "possible" in begins else rb"(?s:.*)"
        ends = re.escape(POINTER.encode()) if begins.startswith("error") else rb"\n"
        yield words or "no words", words.split(), re.escape(begins.encode()) + between + ends
    yield "help on judge", ["judge", "--help"], re.escape(JUDGE_HELP.encode())
    yield "help on locate", ["locate", "--help"], re.escape(LOCATE_HELP.encode())


def run(words, source, output=subprocess.PIPE, error=subprocess.PIPE, before=None):
    """The exit status of the program, and what it wrote to the streams that are pipes."""
    ran = subprocess.run(
        [PROGRAM, *words], stdin=source, stdout=output, stderr=error, preexec_fn=before, timeout=60, check=False
    )
    return ran.returncode, ran.stdout or b"", ran.stderr or b""


def before_the_end(words, text):
    """The same, if the program reads this text from a pipe that stays open: it has to end on its own."""
    source, kept_open = os.pipe()
    os.write(kept_open, text)
    try:
        return run(words, source)
    except subprocess.TimeoutExpired:
        return None, b"", b""
    finally:
        os.close(source)
        os.close(kept_open)


def on_terminal(words, lines, pause):
    """The same of a program whose standard error is a terminal, and that reads its last line after a pause."""
    terminal, error = pty.openpty()
    ran = subprocess.Popen([PROGRAM, *words], stdin=subprocess.PIPE, stdout=subprocess.PIPE, stderr=error)
    os.close(error)
    ran.stdin.write(b"".join(lines[:-1]))
    ran.stdin.flush()
    time.sleep(pause)
    output = ran.communicate(lines[-1], timeout=60)[0]
    return ran.returncode, output, shown_on(terminal)


def with_little_stack():
    resource.setrlimit(resource.RLIMIT_STACK, (LITTLE_STACK, LITTLE_STACK))


def with_little_memory():
    resource.setrlimit(resource.RLIMIT_AS, (LITTLE_MEMORY, LITTLE_MEMORY))
    # Each worker's stack is of this size, so that few of them fit and the search has room left.
    resource.setrlimit(resource.RLIMIT_STACK, (WORKER_STACK, WORKER_STACK))


def wide_text(path):
    """Writes a history of inserts that all overlap, so that any set of them may come first."""
    insert = '{"invoke":["insert",%d,0],"process":%d}'
    inserts = [insert % (process % 10, process) for process in range(30)]
    scan = '{"invoke":["scan",0,9],"process":30},{"answer":[[0,1]],"process":30}'
    with open(path, "w", encoding="utf-8") as text:
        text.write('{"events":[' + ",".join([*inserts, scan]) + '],"version":1}')


def many_pairs_text(path, pairs, opened):
    """Writes a history of one segment, without order, from these pairs: calls with their answers, which all overlap, and a scan over all keys."""
    events = [{"invoke": call, "process": process} for process, (call, _) in enumerate(opened)]
    events += [{"answer": answer, "process": process} for process, (_, answer) in enumerate(opened)]
    events += [{"invoke": ["scan", 0, 2**64 - 1], "process": 0}, {"answer": [[0, 99]], "process": 0}]
    with open(path, "w", encoding="utf-8") as text:
        json.dump({"events": events, "start": pairs, "version": 2}, text)


def undecided_of_many_pairs(folder):
    """Searches of configurations that differ little from many starting pairs: they hold what differs, so that the memory suffices."""
    pairs = [[10**19 + number * 7919, number] for number in range(4096)]
    path = os.path.join(folder, "pairs")
    report = rb'\{"calls":[^\n]*"verdict":"undecided"\}\n'
    for shows, most, held, opened in (
        ("60 inserts over 4,096 pairs", 400 << 20, pairs, [(["insert", key, 1], value) for key, value in pairs[::69]]),
        ("60 scans of 1,000 pairs", 200 << 20, pairs[:1000], [(["scan", 0, 2**64 - 1], pairs[:1000])] * 60),
    ):
        many_pairs_text(path, held, opened)
        with open(path, "rb") as source:
            limit = functools.partial(resource.setrlimit, resource.RLIMIT_AS, (most, most))
            yield f"{shows}, in {most >> 20} MB", run(["judge"], source, before=limit), (2, report, NOTHING)


def deep_text(path):
    """Writes a history whose calls are all in one segment, and each of them comes after all before it."""
    call = '{"invoke":["get",5],"process":0},{"answer":null,"process":0}'
    with open(path, "w", encoding="utf-8") as text:
        text.write('{"events":[' + ",".join([call] * MOST_CALLS) + '],"version":1}')


def runs(folder):
    """What each run shows, its result, and the status, standard output and standard error that are wanted."""
    for shows, words, told in refused_words():
        with open(ORDERED, "rb") as source:
            yield shows, run(words, source), (5, NOTHING, told)

    deep = os.path.join(folder, "deep")
    deep_text(deep)
    order = ",".join(map(str, range(MOST_CALLS)))
    report = re.escape(f'{{"order":[{order}],"verdict":"yes"}}\n'.encode())
    with open(deep, "rb") as source:
        yield f"an order of {MOST_CALLS} words", run(["check", *map(str, range(MOST_CALLS))], source), (0, rb"ok\n", NOTHING)
    with open(deep, "rb") as source:
        yield "a deep search in little stack", run(["judge"], source, before=with_little_stack), (0, report, NOTHING)

    with open(deep, "rb") as source:
        # Where there is no room for the stacks of so many workers, fewer of them do the work.
        words = ["judge", "--workers", "64"]
        yield "many workers in little memory", run(words, source, before=with_little_memory), (0, report, NOTHING)
    wide = os.path.join(folder, "wide")
    wide_text(wide)
    with open(wide, "rb") as source:
        words = ["judge", "--budget", "1000000"]
        yield "a wide search in little memory", run(words, source, before=with_little_memory), (4, NOTHING, rb"memory\n")
    yield from undecided_of_many_pairs(folder)

    with open(OVERLAPPING, "rb") as source:
        lines = source.read().splitlines(keepends=True)
    yes = rb'\{"calls":2,"overlap":0\.50,"verdict":"yes"\}\n'
    yield "a slow stream", on_terminal(["follow"], lines, 1.1), (0, yes, rb"2 calls, [0-2] a second\n")
    yield "a fast stream", on_terminal(["follow"], lines, 0), (0, yes, NOTHING)

    with open(MISSED, "rb") as source:
        missed = source.read()
    answer = rb'\{"call":2,"event":4,"keys":\[[^\n]*\n[^\n]+\n'
    yield "a stream that goes wrong before it ends", before_the_end(["follow"], missed), (1, answer, NOTHING)
    yield "a line that is none in a stream that goes on", before_the_end(["follow"], b"[]\n"), (3, NOTHING, rb"[^\n]+\n")

    with open(CUT_SHORT, "rb") as source:
        cut_short = source.readlines()
    for words, fault, hint in REFUSALS:
        line, more = (re.escape(told.encode()) + rb"\n" for told in (fault, hint))
        with open(CUT_SHORT, "rb") as source:
            yield f"one line of a fault: {words}", run(words.split(), source), (3, NOTHING, line)
        yield f"a fault and its hint on a terminal: {words}", on_terminal(words.split(), cut_short, 0), (3, NOTHING, line + more)
    with open(APART, "rb") as source:
        apart = source.readlines()
    yes = rb'\{"calls":2,"overlap":0\.00,"verdict":"yes"\}\n'
    with open(APART, "rb") as source:
        yield "a yes that says little", run(["follow"], source), (0, yes, NOTHING)
    yield "a note on a terminal", on_terminal(["follow"], apart, 0), (0, yes, rb"note: [^\n]+\n")
    help_on_judge = re.escape(JUDGE_HELP.encode())
    yield "help on a terminal", on_terminal(["judge", "--help"], [b""], 0), (5, NOTHING, help_on_judge)

    unreadable = os.open(EXAMPLES, os.O_RDONLY)
    yield "input that is a folder", run(["check"], unreadable), (6, NOTHING, rb"io\n")
    os.close(unreadable)

    answers = {"an order": ["check", "0", "1"], "a verdict": ["judge"], "a location": ["locate"], "a picture": ["draw"], "a page": ["page"]}
    for shows, words in answers.items():
        with open(ORDERED, "rb") as source, open(FULL, "wb") as full:
            yield f"{shows} to a full standard output", run(words, source, output=full), (6, NOTHING, rb"io\n")
    reader, unread = os.pipe()
    os.close(reader)
    with open(ORDERED, "rb") as source:
        yield "a verdict that nobody reads", run(["judge"], source, output=unread), (6, NOTHING, rb"io\n")
    os.close(unread)
    with open(CUT_SHORT, "rb") as source, open(FULL, "wb") as full:
        yield "a fault to a full standard error", run(["judge"], source, error=full), (3, NOTHING, NOTHING)


def main():
    # Builds the program where that is still to do.
    with open(os.path.join(EXAMPLES, "kept-update-replay.json"), "rb") as source:
        subprocess.run([os.path.join(TOP, "bench"), "replay"], stdin=source, stdout=subprocess.DEVNULL, check=True)
    passed = failed = 0
    with tempfile.TemporaryDirectory() as folder:
        for shows, got, wanted in runs(folder):
            status, *patterns = wanted
            if got[0] == status and all(map(re.fullmatch, patterns, got[1:])):
                passed += 1
            else:
                failed += 1
                print(f"{shows}: {got}, and wanted is {wanted}")
    print(f"{passed} passed, {failed} failed")
    return 1 if failed else 0


if __name__ == "__main__":
    sys.exit(main())
