"""SQLite's table as a map: the child that kill_test.py kills. Each put is one transaction; with --pairs it writes two tables, and a key of which
these differ answers a value that nobody wrote."""
import contextlib
import os
import sqlite3
import sys

sys.dont_write_bytecode = True
sys.path.insert(0, os.path.dirname(os.path.abspath(__file__)))

import child  # noqa: E402

TORN = 1 << 62  # added to what a key has whose tables differ


class Store:
    def __init__(self, options):
        self.tables = ("one", "two") if options.pairs else ("one",)
        self.base = sqlite3.connect(os.path.join(os.environ["POTZENDAI_STORE"], "base"), timeout=5, isolation_level=None)
        self.base.execute("PRAGMA journal_mode = %s" % options.journal)
        self.base.execute("PRAGMA synchronous = %s" % options.synchronous)
        for table in self.tables:
            self.base.execute("CREATE TABLE IF NOT EXISTS %s (k INTEGER PRIMARY KEY, v INTEGER)" % table)

    def get(self, key):
        found = self.base.execute("SELECT %s" % ", ".join("(SELECT v FROM %s WHERE k = ?1)" % table for table in self.tables), (key,)).fetchone()
        return found[0] if len(set(found)) == 1 else TORN + (found[0] or 0)

    def change(self, key, value):
        """Puts a value, or removes the key if there is none."""
        try:
            self.base.execute("BEGIN IMMEDIATE")
            before = self.get(key)
            for table in self.tables:
                if value is None:
                    self.base.execute("DELETE FROM %s WHERE k = ?" % table, (key,))
                else:
                    self.base.execute("INSERT OR REPLACE INTO %s VALUES (?, ?)" % table, (key, value))
            self.base.execute("COMMIT")
        except sqlite3.OperationalError:
            if self.base.in_transaction:
                self.base.execute("ROLLBACK")
            raise
        return before

    def close(self):
        self.base.close()


def main():
    arguments = child.arguments()
    arguments.add_argument("--journal", default="WAL", choices=("WAL", "DELETE", "TRUNCATE", "PERSIST", "MEMORY", "OFF"))
    arguments.add_argument("--synchronous", default="FULL", choices=("OFF", "NORMAL", "FULL", "EXTRA"))
    arguments.add_argument("--pairs", action="store_true", help="each put writes two tables")
    options = arguments.parse_args()
    if options.word == "run":
        Store(options).close()  # the tables are there before the threads are
    child.main(options, lambda: contextlib.closing(Store(options)), sqlite3.OperationalError)


main()
