"""A small store, and the child of it that kill_test.py kills: a map in memory, and a log that is read when the store opens. By --plant it is
wrong in one of four ways, none of which shows while it stays open:

    seen      a put is seen by others before it is logged
    order     puts are logged outside of the lock, so the log may have another order than the map: opening the store again shows it
    torn      a record is two writes, and opening does not cut off a torn record
    buffered  puts are answered from a buffer that is written each 5 milliseconds
"""
import contextlib
import os
import random
import struct
import sys
import threading
import time

sys.dont_write_bytecode = True
sys.path.insert(0, os.path.dirname(os.path.abspath(__file__)))

import child  # noqa: E402

RECORD = struct.Struct("<QQQ")  # 1 and a pair, or 2 and a key that is removed
PUT, REMOVE = 1, 2


class Store:
    def __init__(self, folder, plant, is_synced, point):
        self.plant, self.is_synced, self.point = plant, is_synced, point
        self.lock, self.writers, self.pairs = threading.Lock(), [threading.Lock() for _ in range(64)], {}
        self.buffer, self.buffered = b"", threading.Lock()
        self.log = os.open(os.path.join(folder, "log"), os.O_RDWR | os.O_CREAT | os.O_APPEND, 0o600)
        held = os.pread(self.log, os.fstat(self.log).st_size, 0)
        whole = len(held) // RECORD.size * RECORD.size
        for kind, key, value in RECORD.iter_unpack(held[:whole]):
            if kind == PUT:
                self.pairs[key] = value
            else:
                self.pairs.pop(key, None)
        if plant != "torn" and whole < len(held):
            os.ftruncate(self.log, whole)
        if plant == "buffered":
            threading.Thread(target=self.flush_often, daemon=True).start()

    def flush_often(self):
        while True:
            time.sleep(0.005)
            self.flush()

    def flush(self):
        with self.buffered:
            if self.buffer:
                os.write(self.log, self.buffer)
                self.buffer = b""

    def append(self, record):
        if self.plant == "buffered":
            with self.buffered:
                self.buffer += record
            return
        if self.plant == "torn":
            os.write(self.log, record[:8])
            self.point()
            record = record[8:]
        os.write(self.log, record)
        if self.is_synced:
            os.fdatasync(self.log)

    def change(self, key, value):
        record = RECORD.pack(REMOVE, key, 0) if value is None else RECORD.pack(PUT, key, value)
        if self.plant == "seen":
            with self.writers[key % 64]:  # the log has each key's order of the map, but readers do not wait for it
                before = self.changed(key, value)
                self.point()
                self.append(record)
        elif self.plant == "order":
            before = self.changed(key, value)
            self.point()
            self.append(record)
        else:
            with self.lock:
                self.append(record)
                before = self.swapped(key, value)
        return before

    def changed(self, key, value):
        with self.lock:
            return self.swapped(key, value)

    def swapped(self, key, value):
        before = self.pairs.pop(key, None)
        if value is not None:
            self.pairs[key] = value
        return before

    def get(self, key):
        with self.lock:
            return self.pairs.get(key)

    def scan(self, low, high):
        with self.lock:
            return [[key, self.pairs[key]] for key in sorted(self.pairs) if low <= key <= high]

    def close(self):
        self.flush()
        os.close(self.log)


def main():
    arguments = child.arguments()
    arguments.add_argument("--plant", choices=("seen", "order", "torn", "buffered"))
    arguments.add_argument("--sync", action="store_true", help="sync the log at each put")
    arguments.add_argument("--delay", type=float, default=0, help="the greatest delay within a put, in seconds [0]")
    options = arguments.parse_args()

    def point():
        if options.delay and random.random() < 0.5:
            time.sleep(random.random() * options.delay)

    store = Store(os.environ["POTZENDAI_STORE"], options.plant, options.sync, point)
    child.main(options, lambda: contextlib.nullcontext(store))
    store.close()


main()
