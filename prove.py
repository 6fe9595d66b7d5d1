#!/usr/bin/env python3
"""Proves and builds the libraries of this repository that a crate uses, on all cores, and shows its progress on standard error:

    ./prove.py bench

Each is proved once, by rt's own scheduler: first those with the longest chain above them, in parallel as far as processors and memory allow. As
rt ci does, it builds libraries of statements: a crate above loads what was proved of them, and not the proofs. What an earlier run has built of
the same files is used again, and rt's commands find it built. So a run that was interrupted goes on where it was.

The status is 0, or 70 if a crate is not proved. It is another one if this script does not fit the toolchain. Then rt's own commands do the same,
crate by crate.
"""
import copy
import importlib.machinery
import os
import shutil
import signal
import subprocess
import sys
import tempfile
import threading
import time

sys.dont_write_bytecode = True
# It uses the inside of this toolchain's `rt`, which may differ in another one.
KNOWN = "rattle-kit-13f logic dac8208d650f15bf"
NOT_PROVED, UNKNOWN = 70, 75
# A crate takes the prover a time by its lines of code, whatever its proofs, and its start as long as so many of them.
START = 200
found = subprocess.run(["rt", "version"], stdout=subprocess.PIPE, text=True).stdout.strip()
if found != KNOWN:
    sys.stderr.write(f"prove: it knows the toolchain {KNOWN}, and this is {found}\n")
    sys.exit(UNKNOWN)
TOP = os.path.dirname(os.path.realpath(__file__))
rt = importlib.machinery.SourceFileLoader("rt", os.path.realpath(shutil.which("rt"))).load_module()


class Crate(rt.rtlib.Crate):
    """A crate that is built as a library of statements. These fit only such builds of the libraries below, where rt's own commands build a
    library with its proofs, so one of those counts as not built here."""

    def marks(self):
        """The files that say of what the library is built: rt's own, and the one that says that it is of statements."""
        return [f"{os.path.dirname(self.rlib)}/{name}" for name in ("stamp", "statements")]

    def mark(self):
        stamp = self.stamp()
        for file in self.marks():
            with open(file, "w", encoding="utf-8") as it:
                it.write(stamp)

    def is_built(self):
        stamp = self.stamp()
        return os.path.isdir(self.rlib) and all(rt.rtlib.text_of(file) == stamp for file in self.marks())

    def build(self, jobs):
        """Proves and builds it above libraries that are built, and returns whether it is."""
        stamp, folder = self.stamp(), os.path.dirname(self.rlib)
        shutil.rmtree(folder, ignore_errors=True)
        os.makedirs(folder)
        words = self.words(["--jobs", str(jobs), "--statements"], keeps=False)
        if self.call(rt.rtlib.RATTLE, "build", *words, "-o", self.rlib) or self.stamp() != stamp:
            return False
        self.mark()
        return True


class Progress:
    """How far it is and, by the weights of the crates that were proved until now, how long the libraries that are left will take."""

    def __init__(self, weights):
        self.began, self.saying = time.monotonic(), threading.Lock()
        self.left, self.whole = dict(weights), sum(weights.values())

    def say(self, text):
        print(f"prove: {time.monotonic() - self.began:.0f} s: {text}", file=sys.stderr, flush=True)

    def proved(self, crate):
        with self.saying:
            done = self.whole - sum(self.left.values()) + self.left.pop(crate.name)
            seconds = (time.monotonic() - self.began) * sum(self.left.values()) / done
            self.say(f"proved {crate.name}; crates left: {len(self.left)}" + f", for some {seconds:.0f} s" * (len(self.left) > 0))


def build(crate, jobs, progress):
    """Proves and builds a library above those that are built. Returns whether it is; why not goes to standard error."""
    crate = copy.copy(crate)
    with tempfile.TemporaryFile("w+", errors="replace") as crate.out:
        is_built = crate.build(jobs)
        crate.out.seek(0)
        if is_built:
            progress.proved(crate)
        else:
            sys.stderr.write(crate.out.read())
    return is_built


def chains(crates, weights):
    """The weight of the longest chain that begins with each crate, by their names."""
    behind = dict.fromkeys(weights, 0)
    for it in reversed(crates):
        behind[it.name] += weights[it.name]
        for lower in it.below():
            if lower.name in weights:
                behind[lower.name] = max(behind[lower.name], behind[it.name])
    return behind


def prove(crates):
    """Proves and builds those of the libraries that are not built. Returns whether all are then."""
    lacking = [it for it in crates if not it.is_built()]
    weights = {it.name: START + it.count(rb"\n") for it in lacking}
    progress = Progress(weights)
    if lacking:
        progress.say(f"crates to prove: {len(lacking)} of {len(crates)}; that takes minutes")

    behind = chains(lacking, weights)
    running, turn = [], threading.Lock()

    def work(crate, waits, given, jobs):
        if not all(given[it] for it in waits):
            return False
        with turn:
            leads = all(behind[crate.name] >= behind[it] for it in running)
            running.append(crate.name)
        # a crate gets four processors, if these and the memory are free, and no crate with a longer chain above it is being proved
        if leads and rt.free() > 3 * rt.need(crate):
            jobs = max(jobs, min(rt.processors(), 4))
        is_built = build(crate, jobs, progress)
        with turn:
            running.remove(crate.name)
        return is_built

    tasks = {}
    for it in sorted(lacking, key=lambda it: -behind[it.name]):
        waits = [(lower.name, "proof") for lower in it.below() if lower.name in weights]
        tasks[it.name, "proof"] = waits, weights[it.name], rt.need(it), lambda given, jobs, it=it, waits=waits: work(it, waits, given, jobs)
    return all(rt.in_lanes(tasks).values())


def main(*names):
    """Proves and builds the libraries below these crates. One lock of their folders keeps other runs out until it ends."""
    # What was started ends with this, however this ends: at an interrupt too.
    rt.rtlib.guarded()
    signal.signal(signal.SIGINT, signal.SIG_DFL)
    known, crates = {}, []
    for name in names:
        crates += [it for it in Crate(f"{TOP}/crates/{name}", TOP, known).below() if it not in crates]
    held = rt.rtlib.lock(crates)
    try:
        for it in crates:
            rt.rtlib.stop_on_links(it.folder)
        return 0 if prove(crates) else NOT_PROVED
    finally:
        for it in held:
            os.close(it)


rt.rtlib.Crate = Crate
if __name__ == "__main__":
    sys.exit(main(sys.argv[1]))
