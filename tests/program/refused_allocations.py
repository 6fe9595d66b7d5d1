#!/usr/bin/env python3
"""Runs the program on each example with each of its allocations refused in turn, and tests of the judge's calls.

    tests/program/refused_allocations.py

Each run has to answer out-of-memory, or exactly what it answers when nothing is refused. A map refuses a call of a plan if memory
is refused to it, and `judge` has to say yes to a history with such calls. A test compares what a public call answers, and may fail
only for lack of memory. The last line counts the examples' command lines and the tests that passed and failed.
"""

import os
import subprocess
import sys
import tempfile

TOP = os.path.dirname(os.path.dirname(os.path.dirname(os.path.abspath(__file__))))
PROGRAM = os.path.join(TOP, "crates", "bench", "out", "bench")
EXAMPLES = os.path.join(TOP, "examples")
WANT_OF_MEMORY = (4, b"", b"memory\n")

# Tests that compare the answers of each public call of the judge. They are judge_alone and report; search_all, with up to 64 workers, four among
# them, on three segments; and cut, search and merge. One history is read with its notes and written without.
TESTS = (
    ("judge_tests", "verdicts::histories_are_judged_by_one_thread"),
    ("judge_tests", "verdicts::equal_answers_for_every_number_of_workers"),
    ("judge_tests", "layers::orders_of_segments_are_merged"),
    ("judge_tests", "lines::a_history_is_written_without_its_notes"),
)
# What a test prints that fails for lack of memory.
WANTING = (b"error: Memory", b"error: AllocError")


def command_lines():
    """The text of each example, with each list of words that its expected output names."""
    for name in sorted(os.listdir(EXAMPLES)):
        stem, ending = os.path.splitext(name)
        if ending != ".txt":
            continue
        with open(os.path.join(EXAMPLES, name), encoding="utf-8") as expected:
            for line in expected:
                if line.startswith("$ bench "):
                    yield os.path.join(EXAMPLES, stem + ".json"), line.split()[2:]
    # Its answer is too long for an example.
    yield os.path.join(EXAMPLES, "lost-put.json"), ["page"]


def answer(words, text, environment):
    with open(text, "rb") as source:
        ran = subprocess.run(
            [PROGRAM, *words], stdin=source, capture_output=True, env=environment, timeout=60, check=False
        )
    return ran.returncode, ran.stdout, ran.stderr


def tests_of(crate):
    """The program of the tests of a crate, built where that is still to do."""
    program = os.path.join(TOP, "crates", crate, "out", crate + "_tests")
    if not os.path.exists(program):
        subprocess.run(["rt", "test"], cwd=os.path.join(TOP, "crates", crate), stdout=subprocess.DEVNULL, check=True)
    return program


def fails_otherwise(program, test, environment):
    """Whether a test fails, and not for lack of memory."""
    ran = subprocess.run([program, test], capture_output=True, env=environment, timeout=60, check=False)
    printed = (ran.stdout + ran.stderr).splitlines()
    return ran.returncode != 0 and not any(line in WANTING for line in printed)


def is_linearizable(words, got):
    """Whether a drive has written a history, of which `judge` says yes."""
    status, output, faults = got
    if words[0] != "drive" or status != 0 or faults:
        return False
    return subprocess.run([PROGRAM, "judge"], input=output, capture_output=True, timeout=60, check=False).returncode == 0


def main():
    # Builds the program where that is still to do.
    with open(os.path.join(EXAMPLES, "kept-update-replay.json"), "rb") as source:
        subprocess.run([os.path.join(TOP, "bench"), "replay"], stdin=source, stdout=subprocess.DEVNULL, check=True)
    passed = failed = runs = 0
    sweeps = []
    with tempfile.TemporaryDirectory() as folder:
        library = os.path.join(folder, "refuse.so")
        source = os.path.join(TOP, "tests", "fixtures", "refuse.c")
        compiler = os.environ.get("CC", "cc")
        subprocess.run([compiler, "-shared", "-fPIC", "-O1", "-o", library, source], check=True)
        mark = os.path.join(folder, "refused")
        for text, words in command_lines():
            wanted = answer(words, text, {})

            def is_wrong(environment, wanted=wanted, text=text, words=words):
                got = answer(words, text, environment)
                return got not in (wanted, WANT_OF_MEMORY) and not is_linearizable(words, got)

            sweeps.append(([os.path.basename(text), *words], is_wrong))
        for crate, test in TESTS:
            program = tests_of(crate)

            def is_wrong(environment, program=program, test=test):
                return fails_otherwise(program, test, environment)

            sweeps.append(([crate, test], is_wrong))
        for name, is_wrong in sweeps:
            wrong = []
            number = 0
            while True:
                number += 1
                environment = {"LD_PRELOAD": library, "REFUSE": str(number), "REFUSED": mark}
                if is_wrong(environment):
                    wrong.append(number)
                runs += 1
                if not os.path.exists(mark):
                    break
                os.remove(mark)
            if number == 1:
                wrong.append("no allocation was refused")
            if wrong:
                failed += 1
                print(*name, wrong[:3])
            else:
                passed += 1
    print(f"{runs} runs with a refused allocation")
    print(f"{passed} passed, {failed} failed")
    return 1 if failed else 0


if __name__ == "__main__":
    sys.exit(main())
