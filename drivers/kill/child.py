"""What the children in Python share: they draw calls, make them in threads, and print each event as a line. A store is one class with
`get(key)` and `change(key, value)`, which returns the value before; None as a value removes the key. It may have `scan(low, high)`."""
import argparse
import os
import random
import signal
import threading

READER = 65535  # the process that reads


def note(process, member):
    os.write(1, b'{"process":%d,%s}\n' % (process, member.encode()))


def answer(process, value):
    note(process, '"answer":' + ("null" if value is None else str(value).replace(" ", "")))


def arguments():
    """The parser of a child's arguments, to which the store adds its own."""
    parser = argparse.ArgumentParser(allow_abbrev=False)
    parser.add_argument("--threads", type=int, default=4)
    parser.add_argument("word", choices=("run", "read"))
    parser.add_argument("number", type=int)
    return parser


def call(store, process, draws, value):
    """Makes one drawn call. A put writes this value."""
    key, draw = draws.randrange(16), draws.random()
    if draw < .05 and hasattr(store, "scan"):
        high = draws.randrange(key, 16)
        note(process, '"invoke":["scan",%d,%d]' % (key, high))
        found = store.scan(key, high)
    elif draw < .5:
        note(process, '"invoke":["get",%d]' % key)
        found = store.get(key)
    elif draw < .9:
        note(process, '"invoke":["insert",%d,%d]' % (key, value))
        found = store.change(key, value)
    else:
        note(process, '"invoke":["remove",%d]' % key)
        found = store.change(key, None)
    answer(process, found)


def run(options, connect, failure):
    """Makes calls in threads until SIGTERM comes."""
    seed, is_over = int(os.environ["POTZENDAI_SEED"]), threading.Event()
    signal.signal(signal.SIGTERM, lambda *_: is_over.set())

    def calls(thread):
        process, n = thread, 0
        draws = random.Random((seed * 100003 + options.number) * 64 + thread)
        with connect() as store:
            while not is_over.is_set():
                n += 1
                try:
                    call(store, process, draws, (options.number * 64 + thread) << 32 | n)
                except failure:
                    process += options.threads  # nobody knows whether the call was done: it stays open

    threads = [threading.Thread(target=calls, args=(thread,)) for thread in range(options.threads)]
    for thread in threads:
        thread.start()
    for thread in threads:
        thread.join()


def read(options, connect):
    """Gets each key once."""
    with connect() as store:
        for key in range(options.number):
            note(READER, '"invoke":["get",%d]' % key)
            answer(READER, store.get(key))


def main(options, connect, failure=()):
    """Does what the arguments say. `connect` gives each thread a store to use in a `with`. If a call raises `failure`, nobody knows of it."""
    if options.word == "read":
        read(options, connect)
    else:
        run(options, connect, failure)
