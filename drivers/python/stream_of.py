#!/usr/bin/env python3
"""Makes a stream for `bench follow` of a recording, the text of a history as `bench judge` reads it:

    python3 drivers/python/stream_of.py < run.json | ./bench follow

The first line of the stream has all that the text has besides its events, such as the starting pairs, unless that is just version 1. Then comes a
line for each event, in the text's order. Numbers stay as they are, up to 2^64 - 1. Only the form of the text is checked: `bench follow` says what is
wrong with a line. The status is 3 if the text is not JSON, or has no list of events, and 6 if it cannot be read, or the stream not written.
"""

import json
import os
import sys


def lines_of(history):
    """The lines of the stream of a history."""
    first = {name: value for name, value in history.items() if name != "events"}
    is_plain = list(first) == ["version"] and type(first["version"]) is int and first["version"] == 1
    for line in [*([] if is_plain else [first]), *history["events"]]:
        yield json.dumps(line, separators=(",", ":"), sort_keys=True) + "\n"


def main():
    if sys.stdin is None:
        sys.exit(said("standard input: not read", 6))
    try:
        lines = list(lines_of(json.load(sys.stdin)))
    except (ValueError, KeyError, TypeError, AttributeError, RecursionError):
        sys.exit(said("history: this is not JSON with a list of events", 3))
    except OSError:
        sys.exit(said("standard input: not read", 6))
    try:
        sys.stdout.writelines(lines)
        sys.stdout.flush()
    except BrokenPipeError:
        os.dup2(os.open(os.devnull, os.O_WRONLY), 1)  # who reads it has its verdict
    except (OSError, AttributeError):
        os.dup2(os.open(os.devnull, os.O_WRONLY), 1)
        sys.exit(said("standard output: not written", 6))


def said(line, status):
    """The status, after a line on standard error that says why."""
    print(line, file=sys.stderr)
    return status


if __name__ == "__main__":
    main()
