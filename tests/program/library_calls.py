"""Whether the library answers each example as the program does, at several budgets: with the same status and the same bytes. For a refusal
these are the bytes that a terminal shows. It also judges histories as long as they may be. Run by tests/program/library.

    tests/program/library_calls.py libpotzendai.so
"""

import os
import sys

TOP = os.path.dirname(os.path.dirname(os.path.dirname(os.path.abspath(__file__))))
sys.dont_write_bytecode = True
sys.path.insert(0, os.path.join(TOP, "examples", "library"))
from own_map import Potzendai  # noqa: E402
from rows import LONG, MOST_PAIRS, answer, on_terminal, scan_from_pairs, started  # noqa: E402


def texts():
    folder = os.path.join(TOP, "examples")
    for name in sorted(os.listdir(folder)):
        if name.endswith(".json"):
            with open(os.path.join(folder, name), "rb") as text:
                yield name, text.read()


def main():
    potzendai = Potzendai(os.path.abspath(sys.argv[1]))
    passed = failed = 0
    scans = [(f"a scan of {listed} pairs", started(*scan_from_pairs(MOST_PAIRS, listed)).encode()) for listed in (MOST_PAIRS, 0)]
    for name, text in [*texts(), *scans, ("no text", b""), ("no JSON", b"\xff{")]:
        for word in ("judge", "locate", "explain", "draw", "draw_part", "page", "follow"):
            for budget in (1, 3, 100_000, 1_000_000):
                words = [word.partition("_")[0], "--budget", str(budget), *(["--calls", "0"] if word == "draw" else [])]
                wanted, output, faults = answer(words, text)
                if faults:
                    # A refusal has a hint, which only a terminal and the library show.
                    wanted, output, faults = on_terminal(words, text)
                status, told = potzendai.call("potzendai_" + word, text, budget)
                if (status, told) == (wanted, (output or faults).decode()):
                    passed += 1
                else:
                    failed += 1
                    print(name, word, budget, status, told[:200], wanted, output[:200], faults[:200])
    for text, budget, order in LONG:
        status, told = potzendai.call("potzendai_judge", text.encode(), budget)
        if (status, told) == (0, f'{{"order":[{order}],"verdict":"yes"}}\n'):
            passed += 1
        else:
            failed += 1
            print(f"{len(text)} bytes, at {budget}", status, told[:200])
    print(f"{passed} passed, {failed} failed")
    return 1 if failed else 0


if __name__ == "__main__":
    sys.exit(main())
