"""Which files `serve` and `list` take; those that they don't take stay as they are."""
import sqlite3
import subprocess

from .serving import HEADING, check, fails, prints, reads, row, says
from .shared import (PATIENCE, Peer, Server, Wrong, attempt, created, database_of, expect, expect_same, free_port, get, post,
                     reply, run, submission, whole)

TEXT = "This is no database. " * 500


# ---- listings

def lines(state, time_shown):
    """The listing of the two jobs of a file."""
    return (HEADING + "".join(row(job, state, "5550111", f"fax {job}", "0:1", time_shown) for job in (1, 2))).encode()


PENDING = lines("P", "2033-05-18 03:33")


@check
def listings(folder):
    """`GET /jobs` shows the jobs, and so does `list` of a file that no server has open, at any moment and in any zone."""
    file = folder / "queue.db"
    with Server(file, "--connections", "2") as server:
        with Peer(server.port) as peer:
            for job in 1, 2:
                body = f"number:5550111\ntotpages:1\njobtag:fax {job}\ntts:2000000000\n"
                peer.asks(post("/jobs", job, body), created(job), "a submission")
            peer.asks(get("/jobs"), reply("200 OK", PENDING.decode(), kind="text/plain"), "a listing")
            says(b"", "faxqd: database", "'list' of a file that a server has open", "list", "--db", file)
            peer.asks(get("/jobs"), reply("200 OK", PENDING.decode(), kind="text/plain"), "a listing behind a refused 'list'")
        url = f"http://127.0.0.1:{server.port}/jobs"
        out = subprocess.run(["curl", "--silent", "--max-time", str(PATIENCE), "--noproxy", "*", url], capture_output=True).stdout
        expect_same(out, PENDING, "curl, a listing")
        server.ends("behind the last of two connections")
    prints(PENDING, "'list'", "list", "--db", file)
    prints(PENDING, "'list' once more", "list", "--db", file)
    prints(lines("W", "2033-05-18 03:33"), "'list' at a moment", "list", "--db", file, "--moment", "2000000000")
    prints(PENDING, "'list' once more", "list", "--db", file)
    (folder / "zone.setup").write_text("TimeZone: EST5EDT,M3.2.0,M11.1.0\n")
    prints(lines("P", "2033-05-17 23:33"), "'list' in a zone", "list", "--setup", folder / "zone.setup", "--db", file)
    reads(file, 2, 2, "a file that was listed")
    with open("/dev/full", "wb") as full:
        status, _, err, _ = run("list", "--db", file, stdout=full)
    expect_same((status, err), (1, b"faxqd: ended write-failed\n"), "'list' where the output is full")
    with Server(file) as server:
        expect_same(whole(server.port, submission(3)), created(3), "a file that was listed")


@check
def not_listed(folder):
    """`list` of what is no queue says so, makes no file, and leaves all as it is."""
    new, text = folder / "new.db", folder / "text.db"
    with attempt("a file that isn't there"):
        says(b"", "faxqd: database", "'list'", "list", "--db", new)
        expect(not list(folder.glob("new.db*")), "'list' makes a file")
    new.touch()
    prints(HEADING.encode(), "'list' of an empty file", "list", "--db", new)
    prints(HEADING.encode(), "'list' of a queue without jobs", "list", "--db", new)
    text.write_text(TEXT)
    with database_of(new) as database:
        database.executescript("UPDATE meta SET version = 9")
    for what, file in ("a text", text), ("a queue of version 9", new):
        with attempt(what):
            before = file.read_bytes()
            says(b"", "faxqd: database", "'list'", "list", "--db", file)
            expect(file.read_bytes() == before, "it isn't as it was")
    with attempt("a folder that isn't there"):
        says(b"", "faxqd: database", "'list'", "list", "--db", folder / "none" / "queue.db")
    with attempt("a setup that isn't there"):
        says(b"", f"faxqd: cannot read {folder}/none", "'list'", "list", "--db", new, "--setup", folder / "none")


# ---- files that aren't taken

def refused(file):
    """`serve` doesn't take the file, and leaves it as it is."""
    before = file.read_bytes() if file.is_file() else None
    fails("faxqd: database", "--db", file, "--listen", f"127.0.0.1:{free_port()}")
    expect(before is None or file.read_bytes() == before, "it isn't as it was")


@check
def other_files(folder):
    """A database of another program, a text and a folder aren't taken, and stay as they are."""
    with database_of(folder / "other.db") as database:
        database.execute("CREATE TABLE notes (text TEXT)")
        database.execute("INSERT INTO notes VALUES ('call back')")
    (folder / "text.db").write_text(TEXT)
    (folder / "short.db").write_text("SQLite")
    (folder / "folder.db").mkdir()
    for name in "other.db", "text.db", "short.db", "folder.db":
        with attempt(name):
            refused(folder / name)
    expect(not list((folder / "folder.db").iterdir()), "a folder that was named as the file has something in it")
    with attempt("a folder that isn't there"):
        refused(folder / "none" / "queue.db")
        expect(not (folder / "none").exists(), "it makes the folder that isn't there")


CALLS = "CREATE TABLE calls (dial TEXT PRIMARY KEY NOT NULL, open INTEGER NOT NULL) STRICT"
INDEXES = "DROP INDEX grants_by_job; DROP INDEX jobs_by_choice; DROP INDEX jobs_by_killtime"
NO_TIMES = f"DROP TABLE calls; {INDEXES}; DROP TABLE times"
BARE = f"{NO_TIMES}; DROP TABLE floors; UPDATE meta SET version = 1"
KILLS = f"{BARE}; CREATE INDEX jobs_by_killtime ON jobs (phase, killtime)"
SIX = f"{KILLS}; CREATE INDEX jobs_by_choice ON jobs (phase, priority, tts, job, next, killtime, dial, modem)"
SECOND = SIX.replace("DROP TABLE floors; UPDATE meta SET version = 1", "UPDATE meta SET version = 2")
OLDER = f"{KILLS}; CREATE INDEX jobs_by_choice ON jobs (phase, priority, tts)"
OTHER = OLDER.replace("priority, tts)", "tts, priority)")
REFUSED = {
    "a queue of another version": "UPDATE meta SET version = 4",
    "a queue of version 2 with times": "UPDATE meta SET version = 2",
    "a queue of version 3 without times": "DROP TABLE times",
    "a queue of version 1 with floors": "UPDATE meta SET version = 1",
    "a queue without floors": "DROP TABLE floors",
    "a queue with another table": "CREATE TABLE notes (text TEXT)",
    "a queue that lacks a table": "DROP TABLE down",
    "a queue with another table of calls": "DROP TABLE calls; CREATE TABLE calls (dial TEXT PRIMARY KEY, open INTEGER)",
    "a queue with a hold of no job": "INSERT INTO holds VALUES ('ttyS0', 9, 1)",
    "a queue with another index": f"{OTHER}; {CALLS}",
    "a queue that lacks one index": "DROP INDEX jobs_by_choice",
    "a queue whose indexes were dropped from beside its calls": INDEXES,
}
HELD = ("UPDATE jobs SET phase = 2; INSERT INTO holds VALUES ('ttyS0', 1, 1); "
        "INSERT INTO grants VALUES (1, 1, 'ttyS0', 1, 1, 0, 0, 0); INSERT INTO calls VALUES ('5550222', 3)")
ONE = [("5550111", 1)]
ALONE = f"{INDEXES}; VACUUM"
TAKEN = {
    "a queue of version 1": (f"{SIX}; {CALLS}", []),
    "a queue of version 1 without calls": (SIX, []),
    "a queue of version 1 with neither calls nor indexes": (BARE, []),
    "a queue of version 1 with calls and no indexes": (f"{BARE}; {CALLS}", []),
    "a queue of version 1 that was vacuumed": (f"{SIX}; {CALLS}; VACUUM", []),
    "a queue of version 2": (f"{SECOND}; {CALLS}", []),
    "a queue of version 2 that was vacuumed": (f"{SECOND}; {CALLS}; VACUUM", []),
    "a queue with the index of older versions": (f"{OLDER}; {CALLS}", []),
    "a queue with that index, and without calls": (OLDER, []),
    "a queue with that index that was vacuumed": (f"{OLDER}; {CALLS}; VACUUM", []),
    "a queue without indexes": (ALONE, []),
    "a queue without calls": ("DROP TABLE calls", []),
    "a queue with neither": (f"DROP TABLE calls; {INDEXES}", []),
    "a queue that counts calls": ("INSERT INTO calls VALUES ('5550111', 1), ('x', -1)", []),
    "a queue that counts other calls": (HELD, ONE),
    # Whatever other rows say, what is held is counted.
    "a queue that counts other calls, with a row that isn't lawful": (f"{HELD}; INSERT INTO down VALUES ('{'x' * 40}')", ONE),
    "a queue that was vacuumed": ("INSERT INTO calls VALUES ('5550111', 1); VACUUM", []),
}


def queue_with(file, statements):
    """A queue with one job, on which the system's sqlite ran these statements."""
    with Server(file, "--connections", "1") as server:
        expect_same(whole(server.port, submission(1)), created(1), "a new file")
        server.ends("behind the only connection")
    with database_of(file) as database:
        database.executescript(statements)
    return file


@check
def other_queues(folder):
    """A queue of another version, or with other tables, indexes or holds, isn't taken, and stays as it is."""
    for place, (what, statements) in enumerate(REFUSED.items()):
        with attempt(what):
            refused(queue_with(folder / f"{place}.db", statements))


def is_taken(file, calls):
    """`serve` takes the file, with its one job, and the file then has the indexes, and counts these calls."""
    with Server(file, "--connections", "1") as server:
        expect_same(whole(server.port, submission(1)), created(1), "its job is")
        server.ends("behind the only connection")
    with database_of(file) as database:
        def ask(text):
            return database.execute(text).fetchall()

        made = ask("SELECT name FROM sqlite_master WHERE type = 'index' AND sql NOT NULL")
        expect(sorted(made) == [("grants_by_job",), ("jobs_by_choice",), ("jobs_by_killtime",)], f"it has the indexes {made}")
        columns = [column[2] for column in ask("PRAGMA index_info (jobs_by_choice)")]
        expect(columns == "phase priority tts job next killtime dial modem".split(), f"it has an index by {columns}")
        counted = ask("SELECT * FROM calls")
        expect(counted == calls, f"it counts the calls {counted}, and {calls} are open")
        expect(ask("SELECT version FROM meta") == [(3,)], "it isn't of version 3")
        expect(ask("SELECT job, ended FROM times") == [(1, 0)], "its job hasn't its times")
        expect(ask("SELECT * FROM floors") == [], "it has floors")
        expect(ask("PRAGMA integrity_check") == [("ok",)], "it isn't sound")


@check
def older_queues(folder):
    """A queue of an older version, or that was vacuumed or copied, or lacks what can be made anew, is taken with its job."""
    with attempt("an empty file"):
        (folder / "empty.db").touch()
        with Server(folder / "empty.db") as server:
            expect_same(whole(server.port, submission(1)), created(1), "an empty file")
    for place, (what, (statements, calls)) in enumerate(TAKEN.items()):
        with attempt(what):
            is_taken(queue_with(folder / f"{place}.db", statements), calls)
    with attempt("a queue that sqlite copied, table by table"):
        alone = queue_with(folder / "alone.db", ALONE)
        is_taken(alone, [])
        with database_of(folder / "copied.db") as database:
            database.execute("ATTACH ? AS first", (str(alone),))
            for kind, name, text in database.execute("SELECT type, name, sql FROM first.sqlite_master WHERE sql NOT NULL "
                                                     "ORDER BY type = 'index', rowid").fetchall():
                database.execute(text)
                if kind == "table":
                    database.execute(f"INSERT INTO main.{name} SELECT * FROM first.{name}")
        is_taken(folder / "copied.db", [])


@check
def one_at_a_time(folder):
    """A file that a server or another program has open isn't taken, and nobody reads a server's file."""
    locked, address = folder / "locked.db", f"127.0.0.1:{free_port()}"
    with Server(locked) as server:
        expect_same(whole(server.port, submission(1)), created(1), "a new file")
        with attempt("a file that a server has open"):
            fails("faxqd: database", "--db", locked, "--listen", address)
        expect_same(whole(server.port, submission(2)), created(2), "a server whose file another one wanted")
        # Another program can't look at it either.
        with attempt("another program's look"):
            try:
                with database_of(locked) as database:
                    database.execute("PRAGMA busy_timeout = 0")
                    database.execute("SELECT count(*) FROM jobs").fetchone()
            except sqlite3.OperationalError as fault:
                expect("locked" in str(fault), f"sqlite reads a server's file: {fault}")
            else:
                raise Wrong("sqlite reads a file that a server has open")
    with attempt("a file that another program reads"), database_of(locked) as database:
        database.execute("BEGIN")
        database.execute("SELECT count(*) FROM jobs").fetchone()
        fails("faxqd: database", "--db", locked, "--listen", address)
    with Server(locked) as server:
        expect_same(whole(server.port, submission(3)), created(3), "a file whose server is gone")


# Names that a shell, a reader of lines or the engine would take for others.
NAMES = ("queue.db ", " queue.db", "queue.db\n", "queue.db\t", "queue.db\r", "queue\n.db", "queue .db ", "queue.db;", "$(date)",
         "`date`", "$HOME", "*", "?.db", "[q].db", "'queue.db'", '"queue.db"', "queue.db\\", "queue\\n.db", "a&b", "a|b", "<a>",
         "#q", "~", "%41.db", "q.db?mode=ro", "q.db#a", "\x01\x7f", "é", "\u2028", "...", "--db", 200 * "q")
# A modem of the setup, a number that the controls reject, and a job.
SAID = (post("/modems/last/down", 3), submission(1), post("/jobs", 2, "number:7\ntotpages:1\ntts:2000000000\n"))
ANSWERED = (reply("200 OK", '{"down":true}'), reply("403 Forbidden", '{"no":11,"notice":"No","word":"rejected"}'), created(1))
LISTED = (HEADING + row(1, "P", "7", "", "0:1", "2033-05-18 03:33")).encode()


def others_of(name):
    """The names that it would be taken for, and that are no names of its own."""
    taken = {name.strip(), name.split("\n")[0], name.strip("'\""), name.rstrip("\\; "), name.replace("%41", "A"),
             name.partition("?")[0], name.partition("#")[0], name.replace("\\n", "\n")}
    return taken - {name, ""}


def used_by_name(folder, name):
    """The database, setup and controls of just this name are used, and beside the database stands its log alone."""
    for part in "database", "setup", "controls":
        (folder / part).mkdir(parents=True)
        for other in others_of(name):
            (folder / part / other).write_text(TEXT)
    (folder / "setup" / name).write_text("Modem: last\n")
    (folder / "controls" / name).write_text("^555 RejectNotice = No\n")
    files = "--setup", f"setup/{name}", "--controls", f"controls/{name}"
    with Server(f"database/{name}", "--connections", "1", *files, folder=folder) as server:
        expect_same(whole(server.port, b"".join(SAID)), b"".join(ANSWERED), "it is answered")
        server.ends("behind the only connection")
    status, out, err, _ = run("list", "--db", f"database/{name}", cwd=folder)
    expect_same((status, out, err), (0, LISTED, b""), "'list' ends, and says")
    found = {file.name: file.read_bytes() for file in (folder / "database").iterdir()}
    expect(set(found) == {name, f"{name}-wal", *others_of(name)}, f"beside it stand {sorted(found)}")
    expect(all(found[other] == TEXT.encode() for other in others_of(name)), "another file isn't as it was")


@check
def names(folder):
    """A database, a setup and controls are the files of just the names that are said, whatever characters these have, and no
    other file is made or changed."""
    for place, name in enumerate(NAMES):
        with attempt(repr(name)):
            used_by_name(folder / str(place), name)
            (folder / str(place) / "setup" / name).unlink()
            status, out, err, _ = run("replay", "--setup", f"setup/{name}", cwd=folder / str(place))
            expect_same((status, out, err), (1, b"", f"faxqd: cannot read setup/{name}\n".encode()), "without its setup it ends")
