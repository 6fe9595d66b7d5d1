"""Judges histories from Python, by ctypes over a shared object that is linked from the archive. From the top of the repository:

    ./library .
    cc -shared -o libpotzendai.so -Wl,--whole-archive libpotzendai.a -Wl,--no-whole-archive
    python3 examples/library/own_map.py ./libpotzendai.so
"""

import ctypes
import itertools
import json
import sys
import threading

YES, NO, UNDECIDED, REFUSED, MEMORY, WORDS = range(6)


class Potzendai:
    """The calls of the library."""

    def __init__(self, path):
        self.library = ctypes.CDLL(path)

    def call(self, name, text, budget=100_000):
        """The status and the text of a call; again with more room, where it needs more."""
        room_length = 32_768
        while True:
            room = ctypes.create_string_buffer(room_length)
            length = ctypes.c_size_t()
            status = getattr(self.library, name)(
                ctypes.c_char_p(text), ctypes.c_size_t(len(text)), ctypes.c_uint32(budget),
                room, ctypes.c_size_t(room_length), ctypes.byref(length),
            )
            if length.value < room_length:
                return status, room.value.decode()
            room_length = length.value + 1


class Recorded:
    """A dict, each of whose calls is noted with what it answers: the numbers that order the notes come from one count."""

    def __init__(self):
        self.stamps, self.notes, self.values = itertools.count(), [], {}

    def note(self, process, **event):
        self.notes.append((next(self.stamps), {"process": process, **event}))

    def insert(self, process, key, value, lock):
        self.note(process, invoke=["insert", key, value])
        with lock:
            old = self.values.get(key)
            self.values[key] = value
        self.note(process, answer=old)

    def get(self, process, key, answer):
        self.note(process, invoke=["get", key])
        self.note(process, answer=answer)

    def text(self):
        return json.dumps({"version": 1, "events": [event for _, event in sorted(self.notes, key=lambda note: note[0])]}).encode()


def main():
    potzendai = Potzendai(sys.argv[1])
    recorded, lock = Recorded(), threading.Lock()

    def run(process):
        for i in range(100):
            recorded.insert(process, i % 5, 100 * process + i, lock)

    threads = [threading.Thread(target=run, args=[process]) for process in range(4)]
    for thread in threads:
        thread.start()
    for thread in threads:
        thread.join()
    status, report = potzendai.call("potzendai_judge", recorded.text())
    assert status == YES, report
    print(len(recorded.notes) // 2, "calls have an order")

    # A read of what nobody wrote. After the no, the report has a few calls that show it, who put what they read, a history of them, and how far an
    # order gets.
    recorded.get(4, 0, 1_000_000)
    status, report = potzendai.call("potzendai_explain", recorded.text())
    _, *rows, history, front = report.splitlines()
    assert status == NO and json.loads(history)["events"] and json.loads(front)["next"], report
    calls = [row for row in rows if "reason" in json.loads(row)]
    print("with a wrong read", len(calls), "call has none")


if __name__ == "__main__":
    main()
