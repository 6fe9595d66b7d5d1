"""memcached and Redis as caches that evict, tested by their protocols on the loopback address. README.md says how the servers are started.

    python3 drivers/engines/caches/servers.py memcached --cache --keys 400
    python3 drivers/engines/caches/servers.py redis:7379 --cache --keys 100

The ports are 7380 for memcached and 7379 for Redis; another one comes after the name.
"""
import os
import sys

sys.path.insert(0, os.path.join(os.path.dirname(os.path.abspath(__file__)), "..", "..", "python"))

import potzendai  # noqa: E402
import redis_map  # noqa: E402
from potzendai import DONE, FOUND, NONE, OTHER, REFUSED  # noqa: E402

MEMCACHED_VALUE, REDIS_VALUE = 30000, 20000  # bytes of a value, so that a small server has to evict
NO_MEMORY = b"SERVER_ERROR out of memory storing object".split()


class Evicting(redis_map.Told):
    """Redis with values that are filled up with blanks. What it has no memory for it refuses, and nothing has changed."""

    def put(self, key, value):
        try:
            return super().put(key, str(value).ljust(REDIS_VALUE))
        except OSError as wrong:
            if str(wrong.args[0]).startswith("b'-OOM"):
                return REFUSED
            raise


class Redis(redis_map.Redis):
    connection = Evicting


def answer_in(lines):
    """The words of the first line that memcached answers, and the value below it."""
    words = lines.readline().split()
    if not words or b"ERROR" in words[0] and words != NO_MEMORY:
        raise OSError(b" ".join(words))
    found = None
    if words[0] == b"VALUE":
        found = int(lines.read(int(words[3]) + 2))
        lines.readline()
    return words, found


class Connection(redis_map.Client):
    """A write that memcached has no memory for is refused: then it has stored nothing. A `set` has dropped the value before, which a cache may
    lose at any time."""
    port = 7380

    def ask(self, line, value=None):
        data = b"" if value is None else str(value).ljust(MEMCACHED_VALUE).encode() + b"\r\n"
        return self.exchange(line.encode() + b"\r\n" + data, answer_in)

    def get(self, key):
        return potzendai.told(self.ask(f"get {key}")[1])

    def put(self, key, value):
        said = self.ask(f"set {key} 0 0 {MEMCACHED_VALUE}", value)[0]
        return REFUSED if said == NO_MEMORY else DONE

    def delete(self, key):
        return FOUND if self.ask(f"delete {key}")[0] == [b"DELETED"] else NONE

    def put_if_absent(self, key, value):
        said = self.ask(f"add {key} 0 0 {MEMCACHED_VALUE}", value)[0]
        return {b"STORED": NONE, b"NOT_STORED": FOUND}.get(said[0], REFUSED)

    def replace(self, key, old, new):
        words, found = self.ask(f"gets {key}")
        if found != old:
            return potzendai.told(found)
        said = self.ask(f"cas {key} 0 0 {MEMCACHED_VALUE} {words[4].decode()}", new)[0]
        return {b"STORED": DONE, b"NOT_FOUND": NONE, b"EXISTS": OTHER}.get(said[0], REFUSED)


class Memcached:
    """An empty server; each thread has a connection of its own."""
    connection = Connection

    def __init__(self):
        Connection().ask("flush_all")


def main(words):
    name, _, port = (words or [""])[0].partition(":")
    if name not in ("memcached", "redis") or not (port or "1").isdecimal():
        print("servers.py: the first argument is memcached or redis, or one of them with a port, such as redis:7379", file=sys.stderr)
        sys.exit(5)
    if port:
        (redis_map.Connection if name == "redis" else Connection).port = int(port)
    potzendai.main(Redis if name == "redis" else Memcached, words[1:])


if __name__ == "__main__":
    main(sys.argv[1:])
