#!/usr/bin/env python3
"""Kills a store's process again and again, and has each life judged by `bench follow`. The store may be in any language.

    kill_test.py [OPTIONS] -- COMMAND..

`COMMAND run LIFE` opens the store, makes calls without end, and writes each event as a line to descriptor 1, unbuffered: the invocation before
its call, the answer after it. `COMMAND read KEYS` opens the store again, gets the keys from 0 to KEYS - 1, writes these events too, and ends. If
a get does not say what it found, the reading puts or removes that key instead. Lines are those of a stream of version 3 (docs/FORMATS.md) without
its first. The environment has POTZENDAI_STORE, the folder of the store, which is empty at first, POTZENDAI_SEED, a number that with LIFE decides
what a child draws, and POTZENDAI_READINGS, how many readings came before.

Each life is one stream: from the pairs that the reading before it found to those that the reading after it finds. Calls that are open at a
kill stay open in that life, and are no part of the next.
"""
import argparse
import json
import os
import random
import select
import shlex
import shutil
import signal
import struct
import subprocess
import sys
import tempfile
import time

YES, NO, UNDECIDED, MEMORY, WORDS, FILE = 0, 1, 2, 4, 5, 6  # statuses, as the program's
VERDICTS = ("yes", "no", "undecided")
HERE = os.path.dirname(os.path.abspath(__file__))
GREATEST = 2 ** 64 - 1
CALLS, PROCESSES = 4096, 64  # limits of a history
SHAPES = {"get": 2, "insert": 3, "remove": 2, "scan": 3, "replace": 4}  # how many members a call has
SHOWN = 12  # the most calls that a no shows, and the most keys


class Stop(Exception):
    """Ends the run with a line and a status."""

    def __init__(self, status, line):
        super().__init__(line)
        self.status, self.line = status, line


# Words

class Parser(argparse.ArgumentParser):
    def error(self, message):
        raise Stop(WORDS, message)


def positive(kind):
    def read(text):
        number = kind(text)
        if not 0 < number < 10 ** 9:
            raise ValueError
        return number
    read.__name__ = "positive number"
    return read


def options_of(words):
    parser = Parser(prog="kill_test.py", usage="kill_test.py [OPTIONS] -- COMMAND..", allow_abbrev=False,
                    description="Kills a store's process again and again, and has each life judged.")
    parser.add_argument("--bench", metavar="PATH", help="the program [the repository's, or on PATH]")
    parser.add_argument("--lives", metavar="N", type=positive(int), default=40, help="how many lives [40]")
    parser.add_argument("--seconds", metavar="S", type=positive(float), help="begin no life after this time [no limit]")
    parser.add_argument("--keys", metavar="N", type=positive(int), default=16, help="keys are from 0 to N - 1 [16]")
    parser.add_argument("--kill", metavar="SECONDS", type=positive(float),
                        help="kill 0.5 to 1.5 times this long after the first call [0.2]")
    parser.add_argument("--kill-at-write", action="store_true", help="kill before a random write of the store")
    parser.add_argument("--power", action="store_true", help="after a kill a file holds what was synced")
    parser.add_argument("--stop", action="store_true", help="SIGTERM, not SIGKILL: the child closes the store")
    parser.add_argument("--open", metavar="SECONDS", type=positive(float), default=60, help="how long opening or reading may take [60]")
    parser.add_argument("--seed", metavar="N", type=int, default=1, help="seed of the run and of its children [1]")
    parser.add_argument("--budget", metavar="N", type=positive(int), default=100000, help="the program's budget [100000]")
    parser.add_argument("--keep", metavar="FOLDER", default=".", help="folder in which the run's folder is made [.]")
    if "--" in words:
        words, command = words[:words.index("--")], words[words.index("--") + 1:]
    elif any(word in ("-h", "--help") for word in words):
        command = []
    else:
        raise Stop(WORDS, "`--` and the command of the store are missing")
    options = parser.parse_args(words)
    if not command:
        raise Stop(WORDS, "the command of the store is missing after `--`")
    if options.stop:
        for word in ("kill_at_write", "power"):
            if getattr(options, word):
                raise Stop(WORDS, "--%s needs a kill: it does not go with --stop" % word.replace("_", "-"))
    if not 0 <= options.seed <= GREATEST:
        raise Stop(WORDS, "--seed is from 0 to 2^64 - 1")
    if options.budget > 1000000:
        raise Stop(WORDS, "--budget is from 1 to 1000000")
    options.kill = options.kill or 0.2
    options.command, options.words = command, words
    return options


# The program

class Program:
    def __init__(self, options):
        self.budget = str(options.budget)
        self.path = options.bench or os.environ.get("POTZENDAI_BENCH") or self.found()
        self.ask("follow", b"")
        folder, script = os.path.split(self.path)
        parts = ("bench_histories", "bench")  # those that follow streams
        outs = [os.path.join(folder, "crates", name, "out", "") for name in parts]
        built = [(os.path.getmtime(out + "built"), out + name) for name, out in zip(parts, outs)
                 if script == "bench" and os.access(out + name, os.X_OK) and os.path.isfile(out + "built")]
        self.path = max(built, default=(0, self.path))[1]  # what the repository's `bench` has just built

    def found(self):
        for path in ("./bench", os.path.join(HERE, "..", "..", "bench"), shutil.which("bench") or ""):
            if os.access(path, os.X_OK) and os.path.isfile(path):
                return os.path.abspath(path)
        raise Stop(WORDS, "no program bench here or on the PATH: name it by --bench PATH")

    def ask(self, command, text):
        """The status and the report of the program. One that is no verdict ends the run."""
        try:
            done = subprocess.run([self.path, command, "--budget", self.budget], input=text, stdout=subprocess.PIPE, stderr=subprocess.PIPE)
        except OSError as error:
            raise Stop(WORDS, "--bench %s: %s" % (self.path, error.strerror))
        if done.returncode not in (YES, NO, UNDECIDED):
            said = done.stderr.decode(errors="replace").strip() or "no reason given"
            status = done.returncode if done.returncode in (MEMORY, FILE) else WORDS  # a line that is refused is a child's fault
            raise Stop(status, "bench %s ended with status %d: %s" % (command, done.returncode, said))
        try:
            reports = [json.loads(line) for line in done.stdout.splitlines()]
            assert reports and (command == "explain" or reports[0]["verdict"] == VERDICTS[done.returncode])
        except (ValueError, KeyError, TypeError, AssertionError):
            raise Stop(WORDS, "bench %s: its report is none of %s" % (command, VERDICTS[done.returncode]))
        return done.returncode, reports


# What a child writes

def is_number(word):
    return type(word) is int and 0 <= word <= GREATEST


class Events:
    """The events of a life, or of a reading, as its child wrote them."""

    def __init__(self, name, keys):
        self.name, self.keys = name, keys
        self.lines, self.opened, self.calls = [], {}, 0
        self.answers = []  # of each answered call its invocation and its answer

    def fault(self, line, what):
        shown = line[:80].decode("ascii", "replace")
        raise Stop(WORDS, "%s wrote %s: %s" % (self.name, shown, what))

    def take(self, text):
        """Takes whole lines."""
        for line in text.splitlines():
            try:
                event = json.loads(line)
                process, kind = event["process"], "invoke" if "invoke" in event else "answer"
                said = event[kind]
            except (ValueError, KeyError, TypeError):
                self.fault(line, "this is no event of a stream")
            if not is_number(process) or process > 65535:
                self.fault(line, "its process is not from 0 to 65535")
            if kind == "invoke":
                if process in self.opened:
                    self.fault(line, "the process has an open call")
                if not isinstance(said, list) or not said or SHAPES.get(str(said[0])) != len(said) or not all(map(is_number, said[1:])):
                    self.fault(line, "this is no call")
                if max(said[1:2] + (said[2:] if said[0] == "scan" else [])) >= self.keys:
                    self.fault(line, "its keys are not below --keys %d" % self.keys)
                self.opened[process] = said
                self.calls += 1
            else:
                if process not in self.opened:
                    self.fault(line, "the process has no open call")
                self.answers.append((self.opened.pop(process), said))
            self.lines.append(line)


# A run

class Run:
    def __init__(self, options):
        self.options, self.program = options, Program(options)
        self.random = random.Random(options.seed)
        try:
            self.folder = tempfile.mkdtemp(prefix="kill-%d-" % options.seed, dir=options.keep)
        except OSError as error:
            raise Stop(FILE, "--keep %s: %s" % (options.keep, error.strerror))
        self.folder = os.path.realpath(self.folder)
        self.store, self.shadow, self.writes = (os.path.join(self.folder, name) for name in ("store", "shadow", "writes"))
        os.mkdir(self.store)
        self.environment = {**os.environ, "POTZENDAI_STORE": self.store, "POTZENDAI_SEED": str(options.seed)}
        self.lives, self.calls, self.open_at_kill, self.full, self.empty = 0, 0, 0, 0, 0
        self.seen, self.syncs, self.first_writes, self.at_write, self.changes = 0, 0, 0, 0, 0
        self.is_kept = False
        self.begun = time.monotonic()
        if options.kill_at_write or options.power:
            self.preload("power" if options.power else "crash_at")

    def preload(self, name):
        """Compiles the library that is loaded into each child."""
        library = os.path.join(self.folder, name + ".so")
        try:
            made = subprocess.run(["cc", "-std=c11", "-shared", "-fPIC", "-o", library, os.path.join(HERE, name + ".c"), "-ldl", "-lpthread"],
                                  stdout=subprocess.PIPE, stderr=subprocess.STDOUT)
        except OSError:
            raise Stop(WORDS, "--kill-at-write and --power need the compiler cc, which is not there")
        if made.returncode:
            raise Stop(WORDS, "cc does not compile %s.c: %s" % (name, made.stdout.decode(errors="replace").strip()[:400]))
        os.mkdir(self.shadow)
        before = os.environ.get("LD_PRELOAD")
        self.environment.update(LD_PRELOAD=library + (":" + before if before else ""), POTZENDAI_SHADOW=self.shadow,
                                POTZENDAI_WRITES=self.writes, POTZENDAI_KILL_AT="0")

    # Children

    def start(self, word, number, kill_at=0):
        if "LD_PRELOAD" in self.environment:
            with open(self.writes, "wb") as file:
                file.write(bytes(16))
        environment = {**self.environment, "POTZENDAI_KILL_AT": str(kill_at), "POTZENDAI_READINGS": str(self.lives)}
        try:
            return subprocess.Popen([*self.options.command, word, str(number)], stdin=subprocess.DEVNULL, stdout=subprocess.PIPE,
                                    env=environment, start_new_session=True)
        except OSError as error:
            raise Stop(WORDS, "%s: %s" % (self.options.command[0], error.strerror))

    def counted(self):
        """How many writes and syncs the last child made."""
        if "LD_PRELOAD" not in self.environment:
            return 0, 0
        with open(self.writes, "rb") as file:
            return struct.unpack("=QQ", file.read(16))

    @staticmethod
    def kill(child):
        """Kills a child with all processes that it started, before it is waited for: until then no other process can have its number."""
        os.killpg(child.pid, signal.SIGKILL)

    @staticmethod
    def is_over(child, due):
        """Whether a child ends until then. It is not waited for yet."""
        while not os.waitid(os.P_PID, child.pid, os.WEXITED | os.WNOHANG | os.WNOWAIT):
            if time.monotonic() >= due:
                return False
            time.sleep(0.001)
        return True

    def read(self):
        """The events of a reading, or why the store did not open."""
        child, events, rest = self.start("read", self.options.keys), Events("`read`", self.options.keys), b""
        due = time.monotonic() + self.options.open
        try:
            while True:
                if not select.select([child.stdout], [], [], max(0, due - time.monotonic()))[0]:
                    return None, "the reading did not end within %g seconds" % self.options.open
                text = os.read(child.stdout.fileno(), 1 << 16)
                if not text:
                    break
                text, _, rest = (rest + text).rpartition(b"\n")
                events.take(text)
            if not self.is_over(child, due):
                return None, "the reading did not end within %g seconds" % self.options.open
        finally:
            self.kill(child)
            status = child.wait()
            child.stdout.close()
        if status:
            return None, "the reading ended with status %d" % status if status > 0 else "the reading died by signal %d" % -status
        if rest:
            events.fault(rest, "the line has no end")
        if sorted(call[1] for call, _ in events.answers) != list(range(self.options.keys)) or events.opened:
            raise Stop(WORDS, "`read %d` has to get each key from 0 to %d once" % (self.options.keys, self.options.keys - 1))
        for call, answer in events.answers:
            is_known = answer is None or is_number(answer)
            if not (is_known and call[0] == "get" or (is_known or answer in ("done", "found")) and call[0] in ("insert", "remove")):
                raise Stop(WORDS, "`read` made the call %s, answered %s: a get needs a value or null; else insert or remove that key" % (
                    json.dumps(call), json.dumps(answer)))
        return events, ""

    def take_life(self, child, events, drawn):
        """Takes the events of a life, which is to end a drawn time after its first call. Returns the signal that was sent to end it, or None."""
        options, rest, due, sent = self.options, b"", None, None
        opening = time.monotonic() + options.open
        while True:
            if select.select([child.stdout], [], [], max(0, (due or opening) - time.monotonic()))[0]:
                text = os.read(child.stdout.fileno(), 1 << 16)
                if not text:
                    break  # the rest is a line that the kill cut: its call had not begun, or stays open
                due = due or time.monotonic() + drawn
                text, _, rest = (rest + text).rpartition(b"\n")
                events.take(text)
            if time.monotonic() < (due or opening):
                continue
            if sent == signal.SIGTERM:
                raise Stop(WORDS, "%s did not end within %g seconds of SIGTERM" % (events.name, options.open))
            if sent == signal.SIGKILL:
                raise Stop(WORDS, "%s left a process that holds its output after the kill" % events.name)
            if options.stop and due:
                child.terminate()
                sent = signal.SIGTERM
            else:
                self.kill(child)
                sent = signal.SIGKILL
            due = time.monotonic() + options.open
        if not self.is_over(child, time.monotonic() + options.open):
            raise Stop(WORDS, "%s closed its output and did not end" % events.name)
        return sent

    def live(self, life):
        """Runs a life until it is killed, or asked to end. Returns its events."""
        options = self.options
        drawn = options.kill * (0.5 + self.random.random())
        kill_at = self.random.randint(1, self.first_writes) if options.kill_at_write and self.first_writes else 0
        child, events = self.start("run", life, kill_at), Events("`run %d`" % life, options.keys)
        try:
            sent = self.take_life(child, events, drawn)
        finally:
            self.kill(child)
            status = child.wait()
            child.stdout.close()
        writes, syncs = self.counted()
        self.seen, self.syncs = self.seen + writes, self.syncs + syncs
        self.first_writes = self.first_writes or writes
        is_at_write = bool(kill_at) and writes >= kill_at
        self.at_write += is_at_write
        is_stopped = sent == signal.SIGTERM and status == 0
        is_killed = status == -signal.SIGKILL and (sent == signal.SIGKILL or is_at_write)
        if not is_stopped and not is_killed:
            ended = "status %d" % status if status >= 0 else "signal %d" % -status
            raise Stop(WORDS, "%s ended on its own, with %s%s" % (events.name, ended, "" if events.calls else ", before its first call"))
        return events

    def lose_power(self):
        """Leaves each file of the store what it held when it was last synced."""
        copies, used = set(os.listdir(self.shadow)), set()
        for folder, _, names in os.walk(self.store):
            for name in names:
                path = os.path.join(folder, name)
                if os.path.islink(path) or not os.path.isfile(path):
                    continue
                copy = str(os.stat(path).st_ino)
                if copy in copies:
                    with open(os.path.join(self.shadow, copy), "rb") as kept, open(path, "r+b") as file:
                        shutil.copyfileobj(kept, file)
                        file.truncate()
                    used.add(copy)
                else:
                    os.truncate(path, 0)
        for copy in copies - used:
            os.unlink(os.path.join(self.shadow, copy))

    # Verdicts

    def judge(self, life, head, events, reading):
        """The status of a life, by what `bench follow` says of it with the reading after it."""
        busy = {json.loads(line)["process"] for line in reading.lines} & set(events.opened)
        if busy:
            raise Stop(WORDS, "`read` uses process %d, which has a call that is open since the kill: take a number that `run` never uses"
                       % min(busy))
        lines = [head, *events.lines, *reading.lines]
        status, reports = self.program.ask("follow", b"\n".join(lines) + b"\n")
        made = events.calls + reading.calls
        if status == YES and reports[0].get("calls") != made:
            raise Stop(WORDS, "life %d: bench follow counts %s calls of %d" % (life, reports[0].get("calls"), made))
        if status != YES:
            self.show(life, status, reports, lines, len(events.lines))
        return status

    def one_life(self, life, before):
        """Runs a life from the pairs of the reading before it, and judges it. Returns the status, and the reading after it."""
        options = self.options
        held = {call[1]: answer if call[0] == "get" else call[2] if call[0] == "insert" else None for call, answer in before.answers}
        start = [pair for pair in sorted(held.items()) if pair[1] is not None]
        head = b'{"start":%s,"version":3}' % json.dumps(start, separators=(",", ":")).encode()
        events = self.live(life)
        if options.power:
            self.lose_power()
        self.lives += 1
        self.calls += events.calls
        self.open_at_kill += len(events.opened)
        self.empty += not events.calls
        self.full += bool(events.calls) and not events.opened
        self.changes += sum(call[0] not in ("get", "scan") for call, _ in events.answers)
        if self.changes:
            self.check_seen()
        reading, why = self.read()
        if reading is None:
            self.keep(life, head, events.lines)
            print("does not open after %s %d: %s" % ("stop" if options.stop else "kill", life, why))
            return NO, None
        return self.judge(life, head, events, reading), reading

    def check_seen(self):
        """Raises `Stop` if the run looks for writes and has seen none."""
        if (self.options.kill_at_write or self.options.power) and not self.seen:
            raise Stop(WORDS, "no write of the store was seen: the child writes by direct system calls, through mmap or stdio, or not below "
                              "POTZENDAI_STORE")

    def all_lives(self):
        options = self.options
        reading, why = self.read()
        if reading is None:
            raise Stop(WORDS, "the store does not open before the first life: %s" % why)
        for life in range(options.lives):
            if options.seconds and time.monotonic() - self.begun >= options.seconds:
                break
            status, reading = self.one_life(life, reading)
            if status != YES:
                return status
            if not self.calls:
                break  # the first life is never killed at a write
        if not self.calls:
            print("no life had a call: nothing was tested")
            return UNDECIDED
        self.check_seen()
        return YES

    def keep(self, life, head, lines):
        """Keeps the recording of a life, and the folder."""
        self.is_kept = True
        path = os.path.join(self.folder, "life-%d.jsonl" % life)
        with open(path, "wb") as file:
            file.write(b"\n".join([head, *lines]) + b"\n")
        print("recording: %s" % path)
        print("store: %s" % self.store)
        again = [sys.argv[0], *self.options.words, "--", *self.options.command]
        if "--seed" not in " ".join(self.options.words):
            again[1:1] = ["--seed", str(self.options.seed)]
        print("again (draws the same; threads and kills may come otherwise): %s" % shlex.join(again))

    def show(self, life, status, reports, lines, lived):
        """Says which answer went wrong, and the calls that have no order."""
        event = reports[0]["event"]
        when = "in the reading after the %s" % ("stop" if self.options.stop else "kill") if event >= lived else "before the %s" % (
            "stop" if self.options.stop else "kill")
        answer = json.loads(lines[event + 1])
        call = next(earlier["invoke"] for earlier in map(json.loads, reversed(lines[1:event + 1]))
                    if "invoke" in earlier and earlier["process"] == answer["process"])
        print("life %d %s: event %d, %s: %s, answered %s" % (life, "has no order" if status == NO else "is undecided", event, when,
                                                             words_of(call), json.dumps(answer["answer"])))
        if status == NO:
            for line in self.few(reports, lines):
                print("  " + line)
        else:
            print("  %s" % json.dumps(reports[0])[:400])
        self.keep(life, lines[0], lines[1:])

    def few(self, reports, lines):
        """A few calls that have no order on their own, if `bench explain` finds them."""
        numbers, head = {}, json.loads(lines[0])
        events = [json.loads(line) for line in lines[1:]]
        if len(reports) > 1:
            history = reports[1]
        elif sum("invoke" in event for event in events) <= CALLS:
            for event in events:
                event["process"] = numbers.setdefault(event["process"], len(numbers))
            history = {"version": 3, "start": head["start"], "events": events}
        else:
            return []
        if len(numbers) > PROCESSES:
            return []
        try:
            status, told = self.program.ask("explain", json.dumps(history).encode())
        except Stop:
            return []
        calls, opened, number = [], {}, 0
        for event in history["events"]:
            if "invoke" in event:
                opened[event["process"]] = len(calls)
                calls.append([event["process"], event["invoke"], "pending"])
            else:
                calls[opened.pop(event["process"])][2] = "answered " + json.dumps(event["answer"])
        named = told[0].get("calls", [])[:SHOWN] if status == NO else []
        said = ["%s, %s" % (words_of(calls[n][1]), calls[n][2]) for n in named]
        held = []
        for key in reports[0].get("keys", [])[:SHOWN] if len(reports) > 1 else []:
            for value, event in zip(key["values"], key["put"]):
                by = "at the start of the life" if event is None else "by event %d: %s" % (event, words_of(json.loads(lines[event + 1])["invoke"]))
                held.append("before these calls %d held %s" % (key["key"], "nothing" if value is None else "%d, written %s" % (value, by)))
        return held + said

    def verdict(self, status):
        parts = ["%d lives" % self.lives if self.lives != 1 else "1 life", "%d calls in %.1f seconds" % (self.calls, time.monotonic() - self.begun),
                 "%d open at a %s" % (self.open_at_kill, "stop" if self.options.stop else "kill"),
                 "%d lives without an open call" % self.full]
        if self.empty:
            parts.append("%d without a call" % self.empty)
        if self.options.kill_at_write:
            parts.append("%d killed at one of %d writes" % (self.at_write, self.first_writes))
        if self.options.power:
            parts.append("%d writes and syncs, %d syncs" % (self.seen, self.syncs))
        print("%s: %s" % (VERDICTS[status], ", ".join(parts)))

    def end(self):
        if not self.is_kept:
            shutil.rmtree(self.folder, ignore_errors=True)


def words_of(call):
    """A call of a history in words."""
    names = {"get": "get %d", "insert": "put %d := %d", "remove": "remove %d", "scan": "scan %d to %d", "replace": "replace at %d of %d by %d"}
    return names[call[0]] % tuple(call[1:])


def main(words):
    run = None
    try:
        run = Run(options_of(words))
        status = run.all_lives()
        run.verdict(status)
        return status
    except Stop as stop:
        print("kill_test.py: %s" % stop.line, file=sys.stderr)
        if run and run.lives:
            run.is_kept = True
            print("kill_test.py: the run's folder is kept: %s" % run.folder, file=sys.stderr)
        return stop.status
    except OSError as error:
        print("kill_test.py: %s" % error, file=sys.stderr)
        return FILE
    finally:
        if run:
            run.end()


if __name__ == "__main__":
    sys.stdout.reconfigure(line_buffering=True)
    sys.exit(main(sys.argv[1:]))
