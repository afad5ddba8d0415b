"""The desk's database: a row for each fax."""
import contextlib
import sqlite3
import threading
import time

from .client import Fault

# A fax is `uploaded`, then `ready` once its document is made, then `submitted` once the queue has its job; or `unusable` if no
# document can be made of its files, or `refused` by the queue. `state` is its job's, as in sendq(5), or 0 if the queue doesn't
# have that job any more.
TABLES = """
CREATE TABLE faxes (
    id INTEGER PRIMARY KEY, owner TEXT NOT NULL, token TEXT NOT NULL, created INTEGER NOT NULL,
    number TEXT NOT NULL, name TEXT NOT NULL, send_at INTEGER, resolution TEXT NOT NULL,
    file_name TEXT NOT NULL, uploads TEXT NOT NULL, rest_of INTEGER,
    stage TEXT NOT NULL, reason TEXT NOT NULL DEFAULT '', document TEXT, pages INTEGER,
    job INTEGER, state INTEGER, confirmed INTEGER NOT NULL DEFAULT 0, status TEXT NOT NULL DEFAULT '',
    ended INTEGER, is_told INTEGER NOT NULL DEFAULT 0, UNIQUE (owner, token)
) STRICT;
CREATE INDEX faxes_by_stage ON faxes (stage, state);
CREATE INDEX faxes_to_tell ON faxes (id) WHERE is_told = 0;
PRAGMA user_version = 1;
"""
VERSION = 1
IS_OVER = "(stage IN ('unusable', 'refused') OR ifnull(state, 1) IN (0, 7, 8))"


class Store:
    """Each thread has a connection of its own."""

    def __init__(self, file):
        self.file, self.threads = file, threading.local()
        with self.work() as database:
            version = database.execute("PRAGMA user_version").fetchone()[0]
            if version == 0:
                database.executescript(f"PRAGMA journal_mode = WAL; BEGIN; {TABLES} COMMIT;")
            elif version != VERSION:
                raise Fault(f"{file} is of version {version}, and this desk of version {VERSION}")

    @contextlib.contextmanager
    def work(self):
        """A connection, whose changes are committed at the end."""
        if not hasattr(self.threads, "database"):
            self.threads.database = sqlite3.connect(self.file, timeout=30)
            self.threads.database.row_factory = sqlite3.Row
            self.threads.database.execute("PRAGMA synchronous = FULL")
        with self.threads.database:
            yield self.threads.database

    def rows(self, text, *values):
        with self.work() as database:
            return database.execute(f"SELECT * FROM faxes {text}", values).fetchall()

    def change(self, fax, **values):
        with self.work() as database:
            names = ", ".join(f"{name} = ?" for name in values)
            database.execute(f"UPDATE faxes SET {names} WHERE id = ?", (*values.values(), fax))

    def add(self, owner, token, **values):
        """Adds a fax unless its owner submitted one with this token, and returns that with the token."""
        columns = {"owner": owner, "token": token, "created": int(time.time()), **values}
        with self.work() as database:
            database.execute(f"INSERT INTO faxes ({', '.join(columns)}) VALUES ({', '.join('?' * len(columns))}) "
                             "ON CONFLICT (owner, token) DO NOTHING", tuple(columns.values()))
        return self.with_token(owner, token)

    def with_token(self, owner, token):
        return next(iter(self.rows("WHERE owner = ? AND token = ?", owner, token)), None)

    def fax(self, number):
        return next(iter(self.rows("WHERE id = ?", number)), None)

    def newest(self, owner, before, most=200):
        """The newest faxes of an owner, or without one of everybody, whose numbers are below this, and whether there are older
        ones. Those that failed come first."""
        mine, values = ("owner = ? AND", (owner,)) if owner else ("", ())
        found = self.rows(f"WHERE {mine} id < ? ORDER BY id DESC LIMIT ?", *values, before, most + 1)
        return sorted(found[:most], key=lambda fax: not has_failed(fax)), len(found) > most

    def at(self, stage):
        return self.rows("WHERE stage = ? ORDER BY id", stage)

    def to_tell(self):
        """The faxes that are over, and whose owners don't know it yet."""
        return self.rows(f"WHERE is_told = 0 AND {IS_OVER} ORDER BY id")

    def unfinished(self):
        """The faxes whose jobs aren't over, as far as is known."""
        return self.rows("WHERE stage = 'submitted' AND (state IS NULL OR state BETWEEN 1 AND 6) ORDER BY id")

    # ---- limits

    def waiting(self, owner):
        """How many faxes of an owner aren't over."""
        with self.work() as database:
            return database.execute(f"SELECT count(*) FROM faxes WHERE owner = ? AND NOT {IS_OVER}", (owner,)).fetchone()[0]

    def since(self, owner, moment):
        """The faxes of an owner that were submitted since then."""
        return self.rows("WHERE owner = ? AND created >= ?", owner, moment)

    def over_before(self, moment):
        """The faxes that were over before this, if their owners know it. The newest of all stays: SQLite would give its number
        again."""
        return self.rows(f"WHERE is_told = 1 AND {IS_OVER} AND max(created, ifnull(ended, 0)) < ? "
                         "AND id < (SELECT max(id) FROM faxes)", moment)

    def delete(self, fax):
        with self.work() as database:
            database.execute("DELETE FROM faxes WHERE id = ?", (fax,))

    def files(self):
        """The names of all uploads and documents of faxes."""
        with self.work() as database:
            found = database.execute("SELECT uploads || ' ' || ifnull(document, '') FROM faxes")
            return {name for names, in found for name in names.split()}


def has_failed(fax):
    return fax["stage"] in ("unusable", "refused") or fax["state"] in (0, 8)
