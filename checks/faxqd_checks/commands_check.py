"""What `check` says of a queue's file once the system's sqlite has spoilt a row of it, and what it takes for a large one."""
from .databases import CALLS, FIRST, FIRST_BARE, NO_INDEXES, SECOND, SECOND_BARE
from .heavy_jobs import copy_job, copy_reply
from .runner import group
from .shared import (SETUP, Server, attempt, changed, conversed, database_of, expect, expect_same, limited, post, rows_of, run,
                     say)

check = group("check", "Has `check` look at a queue of which one row is spoilt, and at a large one.", "computing")
SOUND = 0, b"faxqd: sound\n", b""
NO_DATABASE = 1, b"", b"faxqd: database\n"
LARGE = 100_000  # jobs, and kept replies
LONGEST = 10.0  # seconds
ROOM = 4 << 10  # kilobytes more than a start takes

# A job that a modem has, one that is done, one that waits, one that is suspended and one that was killed; kept replies, a modem
# that is down and a floor.
MADE = [
    *(post("/jobs", number, f"number:555011{number}\ntotpages:3\n") for number in range(1, 6)),
    post("/jobs/4/suspend", 6), post("/jobs/5/kill", 7),
    post("/modems/ttyS0/next", 1, client="w0"), post("/modems/ttyS1/next", 1, client="w1"),
    post("/grants/2/call", 2, '{"result":"connected"}', "w1"),
    *(post("/grants/2/page", 2 + page, f'{{"page":{page}}}', "w1") for page in (1, 2, 3)),
    post("/grants/2/outcome", 6, '{"dialed":true,"outcome":"done","pages":3}', "w1"),
    post("/grants/1/call", 2, '{"result":"connected"}', "w0"), post("/grants/1/page", 3, '{"page":1}', "w0"),
    post("/modems/ttyS1/down", 7, client="w1"), post("/numbers/floor", 5, '{"upto":3}', "old"),
]

CLOCK = "(SELECT clock FROM meta)"

# Changes that leave the queue sound. How many calls there are is counted again when the file is opened. Numbers may have gaps.
SPARED = [
    "", "VACUUM", NO_INDEXES, "DELETE FROM calls", "UPDATE calls SET open = 5", "INSERT INTO calls VALUES ('5550122', 3)",
    f"DROP TABLE calls; {CALLS}", SECOND, SECOND_BARE, f"{SECOND_BARE}; {CALLS}", FIRST, FIRST_BARE, f"{FIRST_BARE}; {CALLS}", "DELETE FROM replies", "DELETE FROM floors",
    "DELETE FROM down", "INSERT INTO down VALUES ('ttyS0')", "UPDATE jobs SET priority = 255, tts = 0 WHERE job = 3",
    "UPDATE holds SET rowid = 77", "UPDATE meta SET clock = 4102444800",
    "UPDATE replies SET number = 999999999999999999 WHERE client = 'desk' AND number = 1",
    "UPDATE floors SET upto = 999999999999999999",
    *(f"DELETE FROM jobs WHERE job = {job}; DELETE FROM times WHERE job = {job}; DELETE FROM grants WHERE job = {job}"
      for job in (2, 3, 5)),
    # Before the third version closed grants might lack their job.
    f"DELETE FROM jobs WHERE job = 2; {SECOND}", f"DELETE FROM jobs WHERE job = 2; {FIRST}",
    "UPDATE times SET submitted = 0", f"UPDATE times SET submitted = {CLOCK}", "UPDATE times SET ended = 0",
    f"UPDATE times SET ended = {CLOCK} WHERE job IN (2, 5)", "UPDATE meta SET next_job = 7",
    "UPDATE meta SET next_job = 1000000", "DELETE FROM grants WHERE id = 2", "UPDATE meta SET next_grant = 4",
    "UPDATE jobs SET job = 9 WHERE job = 3; UPDATE times SET job = 9 WHERE job = 3; UPDATE meta SET next_job = 10",
]

# A change, the table with the row that is told then, and where this row is.
SPOILT = [
    *((f"UPDATE jobs SET {change} WHERE job = 3", "jobs", "job = 3") for change in (
        "phase = 7", "phase = 2", "phase = -1", "wish = 3", "wish = 1", "priority = 256", "priority = -1", "totpages = 0",
        "npages = 4", "npages = 3", "totdials = maxdials", "tottries = maxtries", "ndials = 1", "killtime = 4102444801",
        "dial = ''", "dial = '12x'", "modem = 'a b'", "jobtag = ' a'", "status = 'a' || char(0)", "status = CAST(X'FF' AS TEXT)",
        "extra = 'none'", "extra = CAST(X'613AFF0A' AS TEXT)")),
    ("UPDATE jobs SET job = 9 WHERE job = 3", "jobs", "job = 9"),
    ("UPDATE jobs SET job = 0 WHERE job = 3", "jobs", "job = 0"),
    ("UPDATE jobs SET job = 9223372036854775807 WHERE job = 3", "jobs", "job = 9223372036854775807"),
    ("UPDATE meta SET next_job = 5", "jobs", "job = 5"),
    ("UPDATE jobs SET phase = 1 WHERE job = 1", "holds", "id = 1"),
    ("UPDATE jobs SET npages = 0 WHERE job = 1", "holds", "id = 1"),
    ("UPDATE jobs SET totpages = 2 WHERE job = 1", "holds", "id = 1"),
    ("UPDATE holds SET rowid = 77, id = 99", "holds", "rowid = 77"),
    *((change, "holds", "modem <> ''") for change in (
        "UPDATE holds SET id = 99", "UPDATE holds SET id = 2", "UPDATE holds SET id = -1", "UPDATE holds SET id = 4294967297",
        "UPDATE holds SET modem = 'ttyS2'", "UPDATE holds SET job = 3", "DELETE FROM grants WHERE id = 1",
        "UPDATE grants SET shut = 1 WHERE id = 1", "UPDATE grants SET job = 3 WHERE id = 1",
        "UPDATE grants SET modem = 'ttyS2' WHERE id = 1", "UPDATE grants SET last_page = 2 WHERE id = 1",
        "UPDATE grants SET pages = 2 WHERE id = 1", "UPDATE grants SET shut = 2 WHERE id = 1")),
    ("DELETE FROM holds", "grants", "id = 1"),
    *((f"UPDATE grants SET {change} WHERE id = 2", "grants", "id = 2") for change in (
        "shut = 0", "shut = 2", "modem = 'a b'", "modem = ''", "job = 0", "job = 1000000", "first_page = 0", "last_page = 10000",
        "call = 9", "pages = 10000")),
    ("UPDATE grants SET id = 9 WHERE id = 2", "grants", "id = 9"),
    ("UPDATE meta SET next_grant = 2", "grants", "id = 2"),
    *((f"UPDATE down SET modem = {name}", "down", "modem <> 'ttyS1'") for name in (
        "'a b'", "''", "'a/b'", "'ttyS0' || char(0)", f"'{33 * 'm'}'")),
    *((f"UPDATE replies SET {change} WHERE client = 'desk' AND number = 1", "replies", where) for change, where in (
        ("client = 'a b'", "client = 'a b'"), ("client = ''", "client = ''"), ("number = 0", "number = 0"),
        ("number = -1", "number = -1"), ("number = 1000000000000000000", "number = 1000000000000000000"),
        ("status = 404", "status = 404"), ("status = 0", "status = 0"))),
    *((f"UPDATE floors SET {change}", "floors", "TRUE") for change in (
        "client = 'a b'", "client = ''", "upto = 0", "upto = -1", "upto = 1000000000000000000")),
    *((f"UPDATE times SET {change} WHERE job = 3", "times", "job = 3") for change in (
        "submitted = -1", "submitted = 4102444801", "ended = -1", "ended = 4102444801", "ended = 1")),
    (f"UPDATE times SET submitted = {CLOCK} + 1 WHERE job = 3", "times", "job = 3"),
    (f"UPDATE times SET ended = {CLOCK} + 1 WHERE job = 5", "times", "job = 5"),
    ("UPDATE meta SET clock = 0", "times", "job = 1"),
    ("UPDATE times SET job = 9 WHERE job = 3", "times", "job = 9"),
    ("INSERT INTO times VALUES (9, 0, 0)", "times", "job = 9"),
    ("DELETE FROM jobs WHERE job = 3", "times", "job = 3"),
    ("UPDATE jobs SET phase = 1, npages = 0 WHERE job = 5", "times", "job = 5"),
    # A closed grant whose job isn't there.
    ("DELETE FROM jobs WHERE job = 2; DELETE FROM times WHERE job = 2", "grants", "id = 2"),
    ("UPDATE grants SET job = 6 WHERE id = 2", "grants", "id = 2"),
    *((f"UPDATE meta SET {change}", "meta", "one = 1") for change in (
        "clock = -1", "clock = 4102444801", "next_job = 0", "next_job = 1000001", "next_grant = 0", "next_grant = 1000000001")),
    # Of several rows the first is told, and of several tables that which is read first.
    ("UPDATE jobs SET phase = 7", "holds", "id = 1"),
    ("UPDATE jobs SET phase = 7 WHERE job > 1", "jobs", "job = 2"),
    ("UPDATE floors SET upto = 0; UPDATE jobs SET phase = 7 WHERE job = 4", "jobs", "job = 4"),
    ("UPDATE jobs SET phase = 7 WHERE job = 4; UPDATE grants SET call = 9 WHERE id = 2", "grants", "id = 2"),
    ("DELETE FROM jobs WHERE job = 3; UPDATE jobs SET phase = 7 WHERE job = 4", "jobs", "job = 4"),
]

# Changes that keep the file from being opened.
NOT_TAKEN = [
    "DELETE FROM jobs WHERE job = 1", "UPDATE jobs SET dial = '555 0111' WHERE job = 1", "UPDATE holds SET job = 99",
    "UPDATE meta SET version = 9", "DELETE FROM meta", "DROP TABLE floors", "DROP TABLE times", "CREATE VIEW late AS SELECT job FROM jobs",
]


def made(folder):
    """The folder of that queue."""
    folder.mkdir()
    (folder / "setup").write_text(SETUP)
    with Server(folder / "queue.db", "--setup", folder / "setup", "--connections", "1") as server:
        got = conversed(server.port, *MADE)
        wrong = [reply for reply in got if not reply.startswith(b"HTTP/1.1 20")]
        expect(len(got) == len(MADE) and not wrong, f"the queue can't be made: {got[-1:]}{wrong[:1]}")
        server.ends("behind the requests that make the queue")
    return folder


def checks(file, wanted, before=()):
    """`check` ends so, and says that; gives how many seconds it took."""
    *got, seconds = run("check", "--db", file, before=before, patience=120)
    expect_same(tuple(got), wanted, "'check'")
    return seconds


def unsound(what):
    return 1, b"", f"faxqd: unsound: {what}\n".encode()


def each(folder, cases, wanted):
    """`check` says so of the queue behind each change, and says it again."""
    queue = made(folder / "made")
    for number, (statements, *told) in enumerate(cases):
        with attempt(statements):
            file = changed(queue, folder / str(number), statements)
            says = wanted(file, *told)
            checks(file, says)
            checks(file, says)


@check
def spared(folder):
    """A queue that requests have made is sound, and so it is behind changes that make no difference."""
    each(folder, [(statements,) for statements in SPARED], lambda file: SOUND)


@check
def empty(folder):
    """A file without tables is sound, and one that isn't there is no database, and isn't made."""
    (folder / "queue.db").touch()
    checks(folder / "queue.db", SOUND)
    checks(folder / "queue.db", SOUND)
    checks(folder / "none.db", NO_DATABASE)
    expect(not (folder / "none.db").exists(), "'check' makes a file")


@check
def full_output(folder):
    """A verdict that can't be printed is a fault, and a flaw is told all the same."""
    queue = made(folder / "made")
    spoilt = changed(queue, folder / "spoilt", "UPDATE jobs SET phase = 7 WHERE job = 3")
    for file, wanted in (queue / "queue.db", b"faxqd: ended write-failed\n"), (spoilt, b"faxqd: unsound: row 3 of jobs\n"):
        with attempt(wanted), open("/dev/full", "wb") as full:
            status, _, err, _ = run("check", "--db", file, stdout=full)
            expect_same((status, err), (1, wanted), "'check'")


@check
def spoilt(folder):
    """Of a queue of which one row is spoilt the table and the number of this row are told, and nothing is printed."""
    each(folder, SPOILT, told)


def told(file, table, where):
    (number,), = rows_of(file, f"SELECT rowid FROM {table} WHERE {where}")
    return unsound(f"row {number} of {table}")


@check
def below(folder):
    """Of a row whose number is below 0 the table is told."""
    file = changed(made(folder / "made"), folder / "below", "UPDATE jobs SET job = -3 WHERE job = 3")
    checks(file, unsound("a row of jobs"))


@check
def not_taken(folder):
    """A file that no start would take is no database."""
    each(folder, [(statements,) for statements in NOT_TAKEN], lambda file: NO_DATABASE)


@check
def left(folder):
    """`check` leaves the rows of a queue as they are, but for those of calls."""
    queue = made(folder / "made")
    for number, (statements, *_) in enumerate([*((statements,) for statements in SPARED[:6]), *SPOILT[:3]]):
        with attempt(statements):
            file = changed(queue, folder / str(number), statements)
            rows = all_rows(file)
            run("check", "--db", file)
            expect_same(all_rows(file), rows, "the rows")


def all_rows(file):
    with database_of(file) as database:
        database.text_factory = bytes
        return [database.execute(f"SELECT * FROM {table} ORDER BY rowid").fetchall()
                for table in ("jobs", "grants", "holds", "down", "replies", "floors", "meta")]


@check(beside=None)
def large(folder):
    """100,000 jobs and as many kept replies are checked within ten seconds, in the memory of a start and 4 MB more; and a row at
    their end is told."""
    queue = made(folder / "made")
    copy_waiting(queue)
    with database_of(queue / "queue.db") as database:
        database.execute("UPDATE replies SET client = 'ttyS0' WHERE client = 'w0' AND number = 1")
    copy_reply(queue, LARGE)
    file = queue / "queue.db"
    with Server(file, "--connections", "1") as server:
        room = (server.memory("VmHWM") >> 10) + ROOM
    seconds = checks(file, SOUND, limited(room))
    say(f"{LARGE:,} jobs and replies in {seconds:.1f} s with {room:,} kB at most")
    expect(seconds <= LONGEST, f"{LARGE:,} jobs are checked in {seconds:.1f} s")
    with database_of(file) as database:
        database.execute("UPDATE jobs SET phase = 7 WHERE job = ?", (LARGE,))
    checks(file, unsound(f"row {LARGE} of jobs"), limited(room))


def copy_waiting(folder):
    """Makes a last job that waits so many."""
    with Server(folder / "queue.db", "--setup", folder / "setup", "--connections", "1") as server:
        got = conversed(server.port, post("/jobs", 8, "number:5550116\ntotpages:1\n"))
        expect_same(len(got), 1, "the replies to a submission")
        server.ends("behind a submission")
    copy_job(folder, 6, LARGE)
