"""Redis by its protocol over a socket: `SET` and `DEL`, which return no value; or with the word `told`, `SET .. GET` and `GETDEL`, which do.

    redis-server --port 7379 --save '' &
    python3 drivers/python/redis_map.py told
"""
import socket
import sys

import potzendai
from potzendai import DONE, FOUND, NONE, told

TIMEOUT = 5


class Client:
    """One connection after another: if a request has no answer in time, its connection is closed, since the answer may still come."""
    port, wire = None, None

    def exchange(self, request, read):
        """Sends a request, and returns what `read` makes of the answer's lines."""
        try:
            if self.wire is None:
                self.wire = socket.create_connection(("127.0.0.1", self.port), TIMEOUT)
                self.lines = self.wire.makefile("rb")
            self.wire.sendall(request)
            return read(self.lines)
        except OSError:
            self.close()
            raise

    def close(self):
        if self.wire is not None:
            self.wire.close()
        self.wire = None


def answer_in(lines):
    """What Redis says: a number or a word as bytes, or a value as bytes or None."""
    line = lines.readline()
    if line[:1] not in (b"$", b":", b"+"):
        raise OSError(line)
    if line[:1] != b"$":
        return line[1:-2]
    return None if line == b"$-1\r\n" else lines.read(int(line[1:]) + 2)[:-2]


class Connection(Client):
    port = 7379

    def ask(self, *words):
        parts = [str(word).encode() for word in words]
        return self.exchange(b"*%d\r\n" % len(parts) + b"".join(b"$%d\r\n%s\r\n" % (len(part), part) for part in parts), answer_in)

    def get(self, key):
        found = self.ask("GET", key)
        return NONE if found is None else int(found)


class Untold(Connection):
    def put(self, key, value):
        self.ask("SET", key, value)
        return DONE

    def delete(self, key):
        return FOUND if self.ask("DEL", key) == b"1" else NONE


class Told(Connection):
    def put(self, key, value):
        before = self.ask("SET", key, value, "GET")
        return told(None if before is None else int(before))

    def delete(self, key):
        before = self.ask("GETDEL", key)
        return told(None if before is None else int(before))


class Redis:
    """An empty database; each thread has a connection of its own."""
    connection = Told

    def __init__(self):
        Connection().ask("FLUSHDB")


if __name__ == "__main__":
    Redis.connection = Untold if sys.argv[1:2] == ["untold"] else Told
    potzendai.main(Redis, sys.argv[2:])
