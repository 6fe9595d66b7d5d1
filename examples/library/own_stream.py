"""Follows from Python what threads do at a dict while they do it: each event's line is handed to a follower of the library as it
comes. From the top of the repository:

    ./library .
    cc -shared -o libpotzendai.so -Wl,--whole-archive libpotzendai.a -Wl,--no-whole-archive
    python3 examples/library/own_stream.py ./libpotzendai.so
"""

import ctypes
import json
import queue
import sys
import threading

YES, NO, UNDECIDED, REFUSED, MEMORY, WORDS = range(6)


class Handle(ctypes.Structure):
    """struct potzendai_follower."""

    _fields_ = [("at", ctypes.c_void_p), ("is_open", ctypes.c_bool)]


class Follower:
    """A stream that is followed: to be used by the thread that makes it, and closed by `with`."""

    def __init__(self, path, budget=100_000):
        self.library, self.handle = ctypes.CDLL(path), Handle()
        self.opened = self.library.potzendai_follow_open(ctypes.byref(self.handle), ctypes.c_uint32(budget))

    def __enter__(self):
        assert self.opened == YES, self.opened
        return self

    def __exit__(self, *_):
        self.library.potzendai_follow_close(ctypes.byref(self.handle))

    def event(self, line):
        """The status of the stream with this line, or these."""
        return self.library.potzendai_follow_event(ctypes.byref(self.handle), ctypes.c_char_p(line), ctypes.c_size_t(len(line)))

    def verdict(self):
        """The status and the text of the stream so far; again with more room, where it needs more."""
        room_length = 32_768
        while True:
            room, length = ctypes.create_string_buffer(room_length), ctypes.c_size_t()
            status = self.library.potzendai_follow_verdict(
                ctypes.byref(self.handle), room, ctypes.c_size_t(room_length), ctypes.byref(length),
            )
            if length.value < room_length:
                return status, room.value.decode()
            room_length = length.value + 1


def main():
    events, values, lock = queue.SimpleQueue(), {}, threading.Lock()

    def run(process):
        for i in range(100):
            key, value = i % 5, 100 * process + i
            events.put({"process": process, "invoke": ["insert", key, value]})
            with lock:
                old = values.get(key)
                values[key] = value
            events.put({"process": process, "answer": old})

    def run_all():
        threads = [threading.Thread(target=run, args=[process]) for process in range(4)]
        for thread in threads:
            thread.start()
        for thread in threads:
            thread.join()
        events.put(None)

    threading.Thread(target=run_all).start()
    with Follower(sys.argv[1]) as follower:
        for event in iter(events.get, None):
            status = follower.event(json.dumps(event).encode())
            assert status == YES, follower.verdict()
        print(follower.verdict()[1], end="")


if __name__ == "__main__":
    main()
