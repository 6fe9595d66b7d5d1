"""A dictionary under a lock: every call is one moment, so the verdict is yes."""
import threading

import potzendai
from potzendai import told


class LockedMap:
    def __init__(self):
        self.pairs, self.lock = {}, threading.Lock()

    def get(self, key):
        return self.pairs.get(key)

    def put(self, key, value):
        with self.lock:
            before = self.pairs.get(key)
            self.pairs[key] = value
            return told(before)

    def delete(self, key):
        with self.lock:
            return told(self.pairs.pop(key, None))

    def scan(self, low, high):
        with self.lock:
            return [(key, self.pairs[key]) for key in sorted(self.pairs) if low <= key <= high]

    def replace(self, key, old, new):
        with self.lock:
            before = self.pairs.get(key)
            if before == old:
                self.pairs[key] = new
            return told(before)


if __name__ == "__main__":
    potzendai.main(LockedMap)
