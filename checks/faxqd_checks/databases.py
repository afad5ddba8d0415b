"""Databases that the system's sqlite changed, and their listings. The group `server` has databases of other programs, older
versions and VACUUM."""
import contextlib
import subprocess

from .hostile_memory import messages_of
from .runner import group
from .shared import (CONVERSATIONS, NO_JOB, Peer, Server, attempt, changed, conversed, created, database_of, empty_queue,
                     expect, expect_same, get, post, preload, reply, rows_of, run, wants, words_of)

check = group("databases", "Lists the jobs of databases that the system's sqlite changed.", "computing")

META = "clock INTEGER NOT NULL, next_job INTEGER NOT NULL, next_grant INTEGER NOT NULL, version INTEGER NOT NULL"
CALLS = "CREATE TABLE calls (dial TEXT PRIMARY KEY NOT NULL, open INTEGER NOT NULL) STRICT"
NO_INDEXES = "DROP TABLE calls; DROP INDEX grants_by_job; DROP INDEX jobs_by_choice; DROP INDEX jobs_by_killtime"
FLOORS = "CREATE TABLE floors (client TEXT PRIMARY KEY NOT NULL, upto INTEGER NOT NULL) STRICT"
TIMES = "CREATE TABLE times (job INTEGER PRIMARY KEY NOT NULL, submitted INTEGER NOT NULL, ended INTEGER NOT NULL) STRICT"
JOB_INDEXES = ("CREATE INDEX jobs_by_killtime ON jobs (phase, killtime); CREATE INDEX jobs_by_choice ON jobs "
               "(phase, priority, tts, job, next, killtime, dial, modem)")
# The tables of the second and of the first version alone, and with their indexes and calls.
SECOND_BARE = f"{NO_INDEXES}; DROP TABLE times; UPDATE meta SET version = 2"
SECOND = f"{SECOND_BARE}; {JOB_INDEXES}; {CALLS}"
FIRST_BARE = f"{NO_INDEXES}; DROP TABLE times; DROP TABLE floors; UPDATE meta SET version = 1"
FIRST = f"{FIRST_BARE}; {JOB_INDEXES}; {CALLS}"

# Changes of an empty queue, and what isn't a queue then.
STRANGE = [
    "UPDATE meta SET version = 9",
    "UPDATE meta SET version = 1",
    "UPDATE meta SET version = 2",
    "DROP TABLE times",
    "DROP TABLE times; UPDATE meta SET version = 2",
    "DROP INDEX grants_by_job",
    "DROP TABLE floors",
    "DROP TABLE floors; CREATE TABLE floors (client TEXT PRIMARY KEY NOT NULL, upto INTEGER) STRICT",
    "DELETE FROM meta",
    "DROP TABLE replies",
    "DROP TABLE calls; DROP INDEX jobs_by_choice",
    "DROP TABLE calls; CREATE TABLE calls (dial TEXT PRIMARY KEY NOT NULL, open INTEGER) STRICT",
    "DROP TABLE calls; UPDATE meta SET version = 9",
    "INSERT INTO holds (modem, job, id) VALUES ('ttyS0', 1, 1)",
    "CREATE TABLE more (name TEXT NOT NULL) STRICT",
    "CREATE INDEX by_job ON grants (job)",
    "DROP INDEX jobs_by_choice",
    "DROP INDEX grants_by_job; DROP INDEX jobs_by_choice; DROP INDEX jobs_by_killtime; UPDATE meta SET version = 9",
    "CREATE VIEW late AS SELECT job FROM jobs",
    f"{NO_INDEXES}; DROP TABLE times; DROP TABLE floors; DROP TABLE meta; "
    f"CREATE TABLE meta (one INTEGER PRIMARY KEY NOT NULL, {META}) STRICT; INSERT INTO meta VALUES (1, 0, 1, 1, 3); {FLOORS}; {TIMES}",
]

# A table that is spelled otherwise.
SPELLED = (f"{NO_INDEXES}; DROP TABLE times; DROP TABLE floors; DROP TABLE meta; create table \"meta\" (one integer not null primary key, {META.lower()}, "
           f"constraint only_one check ( (one = 1) )) strict; insert into meta values (1, 0, 1, 1, 3); {FLOORS.lower()}; {TIMES.lower()}")

# Two jobs to one number, with a grant of each.
JOB = "'5550111', 'any', '', '', '', 0, 5000, 127, 0, 3, 0, 1, 3, 1, 1, 12, 2, 0, 0"
TWO_CALLS = f"""
INSERT INTO jobs (job, dial, modem, jobtag, status, extra, tts, killtime, priority, npages, totpages, ntries, tottries,
    maxtries, ndials, totdials, maxdials, phase, wish, next) VALUES (1, {JOB}), (2, {JOB});
INSERT INTO grants (id, job, modem, first_page, last_page, call, pages, shut)
    VALUES (1, 1, 'ttyS0', 1, 3, 0, 0, 0), (2, 2, 'ttyS1', 1, 3, 0, 0, 0);
INSERT INTO holds (modem, job, id) VALUES ('ttyS0', 1, 1), ('ttyS1', 2, 2);
INSERT INTO times (job, submitted, ended) VALUES (1, 1000, 0), (2, 1000, 0);
UPDATE meta SET next_job = 3, next_grant = 3;
"""

# Changes of that, and the calls that are counted then.
BOTH = [("5550111", 2)]
COUNTED = [
    ("", BOTH),
    ("INSERT INTO calls VALUES ('5550111', 1)", BOTH),
    ("INSERT INTO calls VALUES ('5550122', 3)", BOTH),
    ("INSERT INTO calls VALUES ('five', -1)", BOTH),
    ("DROP TABLE calls", BOTH),
    (NO_INDEXES, BOTH),
    ("INSERT INTO floors VALUES ('desk', 3); DROP TABLE calls", BOTH),
    # Those of the second version, which had no times, and of the first, which had no floors.
    (SECOND, BOTH),
    (f"{SECOND}; INSERT INTO calls VALUES ('5550111', 1)", BOTH),
    (f"{SECOND}; DROP TABLE calls", BOTH),
    (SECOND_BARE, BOTH),
    (f"{SECOND_BARE}; {CALLS}", BOTH),
    (f"{SECOND}; VACUUM", BOTH),
    (FIRST, BOTH),
    (f"{FIRST}; INSERT INTO calls VALUES ('5550111', 1)", BOTH),
    (f"{FIRST}; DROP TABLE calls", BOTH),
    (FIRST_BARE, BOTH),
    (f"{FIRST_BARE}; {CALLS}", BOTH),
    (f"{FIRST}; VACUUM", BOTH),
    # All nine tables, and no indexes, or these in the order of VACUUM.
    (f"{NO_INDEXES}; {CALLS}; INSERT INTO calls VALUES ('5550111', 1)", BOTH),
    (f"INSERT INTO calls VALUES ('5550111', 1); VACUUM", BOTH),
    ("UPDATE jobs SET dial = '5550122' WHERE job = 2", [("5550111", 1), ("5550122", 1)]),
    ("DELETE FROM holds WHERE id = 2", [("5550111", 1)]),
    ("DELETE FROM holds", []),
]

# The same of rows that no job and no clock has. These are met by who reads them, and the listing isn't made.
COUNTED_STRANGE = [
    ("UPDATE jobs SET priority = 300", BOTH),
    ("UPDATE meta SET clock = 5000000000", BOTH),
]

# Changes of that, so that a hold calls no number.
CALLS_NONE = [
    "DELETE FROM jobs WHERE job = 1",
    "UPDATE jobs SET dial = '555 0111' WHERE job = 2",
    "UPDATE jobs SET job = -1 WHERE job = 1; UPDATE holds SET job = -1 WHERE job = 1",
    "UPDATE jobs SET job = 4294967296 WHERE job = 1; UPDATE holds SET job = 4294967296 WHERE job = 1",
]


def lists(file):
    """Whether `list` ends well; else it tells that something is wrong with the database."""
    status, _, err, _ = run("list", "--db", file, "--moment", "1000", patience=60)
    expect((status, err) in ((0, b""), (1, b"faxqd: database\n")), f"'list' ends with {status}, and says {err!r}")
    return status == 0


def each(folder, cases, holds, before=""):
    """This holds of the file of an empty queue on which these statements ran, and behind them those of each case."""
    empty = empty_queue(folder / "empty")
    for number, (statements, *wanted) in enumerate(cases):
        with attempt(statements):
            holds(changed(empty, folder / str(number), before + statements), *wanted)


@check
def strange(folder):
    """A database that differs from a queue's in one thing isn't taken, and stays as it was."""
    each(folder, [(statements,) for statements in STRANGE], is_strange)


@check
def strange_holds(folder):
    """A database with a hold that calls no number isn't taken, and stays as it was."""
    each(folder, [(statements,) for statements in CALLS_NONE], is_strange, TWO_CALLS)


def is_strange(file):
    before = file.read_bytes()
    expect(not lists(file), "it is taken")
    expect(file.read_bytes() == before, "it isn't as it was")


@check
def spelled(folder):
    """A database whose texts are spelled otherwise is taken."""
    each(folder, [(SPELLED,)], lambda file: expect(lists(file), "it isn't taken"))


@check
def counted(folder):
    """In a database that is taken calls are counted by what is held, whatever the table of calls said before."""
    each(folder, [(statements, True, calls) for statements, calls in COUNTED], counts, TWO_CALLS)


@check
def counted_strange(folder):
    """Calls are counted too where other rows are such as no job and no clock has, and then the listing isn't made."""
    each(folder, [(statements, False, calls) for statements, calls in COUNTED_STRANGE], counts, TWO_CALLS)


def counts(file, listed, calls):
    expect(lists(file) == listed, "its jobs are listed" if not listed else "its jobs aren't listed")
    with database_of(file) as database:
        found = database.execute("SELECT * FROM calls ORDER BY dial").fetchall()
    expect(found == calls, f"the calls are {found}")


@check
def dumped(folder):
    """A database of any version that was made anew by sqlite3's `.dump` is taken, with its jobs, times, floors and calls."""
    wants("sqlite3")
    empty = empty_queue(folder / "empty")
    floor = "INSERT INTO floors VALUES ('desk', 3)"
    for version, statements, wanted in ((3, f"{TWO_CALLS}; {floor}", (3, 1, 2, 2000)), (2, f"{TWO_CALLS}; {floor}; {SECOND}", (3, 1, 2, 0)),
                                        (1, TWO_CALLS + FIRST, (3, 0, 2, 0))):
        with attempt(f"version {version}"):
            copy = folder / f"copy-{version}.db"
            file = changed(empty, folder / str(version), statements)
            dump = subprocess.run(["sqlite3", file, ".dump"], check=True, capture_output=True)
            subprocess.run(["sqlite3", copy], input=dump.stdout, check=True, capture_output=True)
            counts(copy, True, BOTH)
            found = rows_of(copy, "SELECT version, (SELECT count(*) FROM floors), (SELECT count(*) FROM jobs), "
                            "(SELECT sum(submitted) FROM times) FROM meta")
            expect(found == [wanted], f"its version, floors, jobs and times are {found}")


# ---- files of older versions, and what was deleted from outside

OLDER = {"version 2": SECOND, "version 1": FIRST}
MOMENT = 1086  # of the last request of retry-goes-on


def fed(file, name):
    """A file whose server is told a transcript, each message at its moment."""
    clock = file.with_name("moment")
    clock.write_text("0")
    with Server(file, *words_of(name), "--connections", "1", before=preload(["clocks"], MOMENT_FILE=clock)) as server:
        with Peer(server.port) as peer:
            for moment, message in messages_of((CONVERSATIONS / f"{name}.in").read_bytes()):
                clock.write_text(str(moment))
                peer.say(message)
                peer.reply()
        server.ends("behind a transcript")


def is_sound(file):
    expect_same(run("check", "--db", file, patience=60)[:3], (0, b"faxqd: sound\n", b""), "'check'")


@contextlib.contextmanager
def later(file, moment):
    """A server on the file at a moment."""
    setup = "--setup", CONVERSATIONS / "office.setup"
    with Server(file, *setup, "--connections", "1", before=preload(["clocks"], FIXED_MOMENT=moment)) as server:
        yield server


def purge(number, before):
    return post("/jobs/purge", number, f'{{"before":{before}}}', "adm")


def purged(count):
    return reply("200 OK", f'{{"purged":{count}}}')


@check
def ended(folder):
    """Of a file of an older version the jobs that are over ended at the file's clock, and came at no known moment; a purge takes
    them out when this clock is past."""
    (folder / "made").mkdir()
    fed(folder / "made/queue.db", "retry-goes-on")
    for name, statements in OLDER.items():
        with attempt(name):
            file = changed(folder / "made", folder / name, statements)
            expect(rows_of(file, "SELECT clock FROM meta") == [(MOMENT,)], "the transcript ends at another moment")
            with attempt("the server"), later(file, MOMENT + 1) as server:
                got = conversed(server.port, get("/jobs/1/times"), purge(1, MOMENT), purge(2, MOMENT + 1), get("/jobs/1"))
                wanted = [reply("200 OK", f"submitted:0\nended:{MOMENT}\n", kind="text/plain"), purged(0), purged(1), NO_JOB]
                expect_same(got, wanted, "the replies")
            is_sound(file)
            found = [rows_of(file, f"SELECT count(*) FROM {table}") for table in ("jobs", "grants", "times")]
            expect(found == 3 * [[(0,)]], f"it has {found} jobs, grants and times")
            file = changed(folder / "made", folder / f"{name} checked", statements)
            is_sound(file)
            found = rows_of(file, "SELECT version, job, submitted, ended FROM meta, times")
            expect_same(found, [(3, 1, 0, MOMENT)], "the version and the times")


# What a script deleted from the files of stopped servers, before servers purged them, and what people deleted by hand.
OUTSIDE = {
    "by a script": "DELETE FROM jobs WHERE phase IN (3, 4); "
                   "DELETE FROM grants WHERE shut = 1 AND job NOT IN (SELECT job FROM jobs); DELETE FROM replies",
    "by hand": "DELETE FROM grants WHERE job = 1; DELETE FROM jobs WHERE job = 1",
    "by hand, without its grant": "DELETE FROM jobs WHERE job = 1",
}
# Of three jobs the first is done, the second has a grant, and the third waits.
THREE = [
    *(post("/jobs", number, f"number:555011{number}\ntotpages:1\n") for number in (1, 2, 3)),
    post("/modems/ttyS0/next", 1, client="w0"), post("/grants/1/call", 2, '{"result":"connected"}', "w0"),
    post("/grants/1/page", 3, '{"page":1}', "w0"),
    post("/grants/1/outcome", 4, '{"dialed":true,"outcome":"done","pages":1}', "w0"), post("/modems/ttyS0/next", 5, client="w0"),
]


@check
def purged_outside(folder):
    """Files of older versions from which a job was deleted with its grant or without are taken, and are sound: that job isn't
    there, the others are, and the numbers of jobs and grants go on."""
    (folder / "made").mkdir()
    with later(folder / "made/queue.db", 1000) as server:
        got = conversed(server.port, *THREE)
        expect(len(got) == len(THREE) and all(one.startswith(b"HTTP/1.1 20") for one in got), f"a queue can't be made: {got[-1:]}")
        server.ends("behind three submissions")
    for name, statements in OLDER.items():
        for how, deletes in OUTSIDE.items():
            with attempt(f"{name}, {how}"):
                file = changed(folder / "made", folder / f"{name} {how}", f"{deletes}; {statements}")
                expect(rows_of(file, "SELECT job FROM jobs ORDER BY job") == [(2,), (3,)], "another job was deleted")
                is_sound(file)
                found = rows_of(file, "SELECT 0, job, submitted, ended FROM times UNION ALL SELECT 1, id, job, shut FROM grants")
                expect_same(sorted(found), [(0, 2, 0, 0), (0, 3, 0, 0), (1, 2, 2, 0)], "the times and the grants")
                goes_on(file)


def goes_on(file):
    """Job 1 isn't there, the next job is 4 and the next grant 3, and job 2 leaves once it is done."""
    with later(file, 1001) as server:
        got = conversed(server.port, get("/jobs/1"), post("/jobs", 9, "number:5550119\ntotpages:1\n"),
                        post("/modems/ttyS1/next", 1, client="w1"),
                        post("/grants/2/outcome", 9, '{"dialed":false,"outcome":"fail","pages":0}', "w0"), purge(1, 1001))
        grant = '{"from":1,"grant":3,"job":3,"number":"5550113","to":1}'
        failed = '{"job":2,"state":8}'
        expect_same(got, [NO_JOB, created(4), reply("200 OK", grant), reply("200 OK", failed), purged(0)], "the replies")
    with later(file, 1002) as server:
        expect_same(conversed(server.port, purge(2, 1002), get("/jobs/2")), [purged(1), NO_JOB], "the replies to a purge")
    is_sound(file)
