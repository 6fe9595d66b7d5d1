"""Rows of what the program is asked, and of what it has to answer. For the scripts beside this file."""

import concurrent.futures
import json
import os
import pty
import re
import subprocess

TOP = os.path.dirname(os.path.dirname(os.path.dirname(os.path.abspath(__file__))))
PROGRAM = os.path.join(TOP, "crates", "bench", "out", "bench")
EXAMPLES = os.path.join(TOP, "examples")
LONGEST_TEXT = 16_777_216
MOST_CALLS = 4096
MOST_PAIRS = 4096

# An insert, and a get after it.
INSERT_THEN_GET = """{"events":[
    {"invoke":["insert",5,7],"process":0},{"answer":null,"process":0},
    {"invoke":["get",5],"process":0},{"answer":7,"process":0}],"version":1}"""

# What a terminal shows of a yes that says little, of such calls apart, of a no and of an undecided; of a fault, or its second line, a hint.
RARE = "note: {} other calls were open at an invocation on average, and of calls that hardly overlap a yes says little\n"
APART = RARE.format("0.00")
EXPLAIN = "note: bench explain names a few of the calls that have no order on their own\n"
LOCATE = "note: bench locate may decide it\n"
JSON = "wanted JSON in UTF-8\n"
LENGTH = "wanted at most 16777216 bytes\n"
OTHER_TOP_LEVEL = 'history: 3 Version\nwanted {"version":1,"events":[..]} or {"version":V,"start":[..],"events":[..]}; V is 2 or 3\n'
NO_PLAN = (
    'plan: 7 Shape\nwanted {"version":1,"scripts":[[C,..],..]}; C is ["get",K], ["insert",K,V], ["remove",K], ["scan",LO,HI] '
    'with LO <= HI, or in version 2 ["replace",K,OLD,NEW]; keys are from 0 to 4294967295, values from 0 to 1073741823\n'
)
TOO_MANY_CALLS = (
    "plan: 3 TooMany\nwanted 1 to 64 scripts, at most 4096 calls in all, "
    "and to be done at most 4096 as scripts times the longest of them\n"
)

# How far a stream is, which a terminal shows each second: here of streams that take less but where a machine is busy.
PROGRESS = re.compile(rb"\d+ calls, \d+ a second\n")


def as_bytes(text):
    return text.encode() if isinstance(text, str) else text


def answer(words, text=b"", environment=None):
    """The exit status of the program on a text, and what it writes to standard output and to standard error."""
    ran = subprocess.run(
        [PROGRAM, *words], input=as_bytes(text), capture_output=True, env=environment, timeout=300, check=False
    )
    return ran.returncode, ran.stdout, ran.stderr


def shown_on(terminal):
    """All that a terminal shows of a program that has ended, where nobody else has the other end open."""
    told = b""
    try:
        while more := os.read(terminal, 1 << 16):
            told += more
    except OSError:
        # All was read.
        pass
    os.close(terminal)
    return told.replace(b"\r\n", b"\n")


def on_terminal(words, text=b"", environment=None):
    """The same of a program whose standard error is a terminal, with all that this shows."""
    terminal, error = pty.openpty()
    try:
        ran = subprocess.run(
            [PROGRAM, *words], input=as_bytes(text), stdout=subprocess.PIPE, stderr=error, env=environment, timeout=300, check=False
        )
    finally:
        os.close(error)
    return ran.returncode, ran.stdout, shown_on(terminal)


def without_hints(status, told):
    """What stays of it where standard error is no terminal: of a refusal its first line, and beside an answer nothing."""
    if status < 3:
        return b""
    lines = as_bytes(told).splitlines(keepends=True)
    return b"".join(lines[:1] if status == 3 else lines)


def piped(*lines):
    """The answer to the last of some lists of words, each of which reads what the one before it has written."""
    text = b""
    for words in lines:
        found = answer(words, text)
        text = found[1]
    return found


def difference(row):
    """How the answer to a row differs from the wanted one: words, a text, and a status, standard output and what a terminal shows."""
    words, text, status, output, told = row
    got, wanted = answer(words, text), (status, as_bytes(output), without_hints(status, told))
    if got == wanted and wanted[2] != as_bytes(told):
        found, written, shown = on_terminal(words, text)
        got, wanted = (found, written, PROGRESS.sub(b"", shown)), (status, as_bytes(output), as_bytes(told))
    if got == wanted:
        return None
    return f"{' '.join(words)[:200]} on {as_bytes(text)[:300]}:\n  {str(got)[:600]}\n  and wanted is {str(wanted)[:600]}"


def build():
    """Builds the program where that is still to do."""
    with open(os.path.join(EXAMPLES, "kept-update-replay.json"), "rb") as source:
        subprocess.run([os.path.join(TOP, "bench"), "replay"], stdin=source, stdout=subprocess.DEVNULL, check=True)


def compare(rows, others=()):
    """Asks the program each row, and calls the others, each of which gives what is wrong or None. Prints that, counts what passed and
    failed, and gives the exit status of a script."""
    build()
    passed = failed = 0
    with concurrent.futures.ThreadPoolExecutor(os.cpu_count()) as pool:
        asked = [pool.submit(difference, row) for row in rows] + [pool.submit(other) for other in others]
        for wrong in (task.result() for task in asked):
            if wrong is None:
                passed += 1
            else:
                failed += 1
                print(wrong)
    print(f"{passed} passed, {failed} failed")
    return 1 if failed else 0


def history(events):
    """The text of a history, of its events."""
    return f'{{"events":[{events}],"version":1}}'


def numbers(count, swapped=False):
    """The numbers below a count, in turn, or each two of them swapped."""
    return ",".join(str(number ^ swapped) for number in range(count))


def gets(count):
    """Gets of the key 5 that find nothing, each answered before the next."""
    return ",".join(['{"invoke":["get",5],"process":0},{"answer":null,"process":0}'] * count)


def inserts(count):
    """Inserts of 1 at the keys below a count, each answered before the next."""
    return ",".join(f'{{"invoke":["insert",{key},1],"process":0}},{{"answer":null,"process":0}}' for key in range(count))


def pairs_listed(count):
    """Pairs of 1 at the keys below a count, as a scan lists them."""
    return ",".join(f"[{key},1]" for key in range(count))


def missed_inserts(rounds):
    """Rounds of an insert and a get of one key that overlap, where the get misses what is inserted in its round."""
    held = ["null", *map(str, range(rounds))]
    return ",".join(
        f'{{"invoke":["insert",5,{round}],"process":0}},{{"invoke":["get",5],"process":1}},'
        f'{{"answer":{held[round]},"process":1}},{{"answer":{held[round]},"process":0}}'
        for round in range(rounds)
    )


def scan_then_inserts(count):
    """A scan of all keys that finds nothing, and inserts after it."""
    scan = '{"invoke":["scan",0,18446744073709551615],"process":1},{"answer":[],"process":1}'
    return f"{scan},{inserts(count)}"


def scans_of_inserts(keys, scans):
    """Inserts at so many keys, and then so many scans that list them all."""
    scan = f'{{"invoke":["scan",0,9000],"process":0}},{{"answer":[{pairs_listed(keys)}],"process":0}}'
    return ",".join([inserts(keys), *[scan] * scans])


def scan_from_pairs(count, listed):
    """The starting pairs of 1 at the keys below a count, and the events of a scan of all of them that lists so many of them."""
    events = f'{{"invoke":["scan",0,{count - 1}],"process":0}},{{"answer":[{pairs_listed(listed)}],"process":0}}'
    return pairs_listed(count), events


def started(pairs, events):
    """The text of a history, of its starting pairs and its events."""
    return f'{{"events":[{events}],"start":[{pairs}],"version":2}}'


def stream(events, start=None):
    """The stream of some events, a line each. If pairs are given, a line of version 3 with these starting pairs comes first."""
    first = [] if start is None else [{"start": json.loads(f"[{start}]"), "version": 3}]
    return "".join(json.dumps(line) + "\n" for line in [*first, *json.loads(f"[{events}]")])


def report_of(call, event, keys, reason=None):
    """What is said of an answer that is no yes: its call and event, and something for each key. These are the events at which the calls that are
    left there begin, the key, the values that it may have had, and the events at which the calls that put these begin."""
    said = [{"invoked": invoked, "key": key, "put": puts, "values": values} for key, invoked, values, puts in keys]
    report = {"call": call, "event": event, "keys": said, "verdict": "no"}
    if reason:
        report |= {"reason": reason, "verdict": "undecided"}
    return json.dumps(report, separators=(",", ":"), sort_keys=True)


def spaced(text, length):
    """A text with spaces after it, of so many bytes."""
    return text.ljust(length)


# Histories as long as they may be, each with a budget that is enough and with its one order.
LONG = [
    (history(inserts(MOST_CALLS)), 2, numbers(MOST_CALLS)),
    (history(gets(MOST_CALLS)), 10_000, numbers(MOST_CALLS)),
    (history(missed_inserts(MOST_CALLS // 2)), 10_000, numbers(MOST_CALLS, swapped=True)),
    (history(scan_then_inserts(MOST_CALLS - 1)), 10_000, numbers(MOST_CALLS)),
    (history(scans_of_inserts(300, 900)), 10_000, numbers(1200)),
    (spaced(history(""), LONGEST_TEXT), 1, ""),
]
