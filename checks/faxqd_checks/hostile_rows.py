"""Rows that no request makes, put into a queue's file by the system's sqlite: in each column values past both ends of its range,
and texts that it hasn't. Whoever reads such a row is told 503, and nothing changes."""
import sqlite3

from .hostile_files import BIG, LOOSE, asked_of, changed_file, queue_file, setup
from .hostile_shared import check, copied, expect_rows, serving, tables, try_all
from .shared import UNAVAILABLE, conversed, database_of, expect, expect_same, get, post, reply, run

# ---- what is asked of each file, and what a sound one answers

JOBS = 1, 2, 3, 4, 5
ON_JOBS = {  # the statuses that the five jobs get: granted, done, waiting and then granted, suspended, killed
    "alter": (409, 409, 409, 200, 409), "suspend": (200, 409, 200, 200, 409), "resume": (200, 409, 200, 200, 409),
    "kill": (200, 409, 200, 200, 409)}
REPORTS = {"call": '{"result":"busy"}', "page": '{"page":2}', "outcome": '{"dialed":true,"outcome":"retry","pages":2}'}
REPORTED = {1: (409, 200, 200), 2: (409, 409, 409)}  # the statuses of these on a grant that is open and on one that is closed
NOTHING = reply("200 OK", '{"grant":0}')
NOT_CHOSEN = {  # what job 3 gets where it waits still
    "alter 3": reply("409 Conflict", '{"no":15,"word":"not-suspended"}'),
    **{f"{what} 3": reply("200 OK", f'{{"job":3,"state":{state}}}')
       for what, state in (("suspend", 1), ("resume", 5), ("kill", 8))}}


def requests():
    """What is asked, in this order, with its name and the status that a sound file gives it."""
    yield from ((f"job {job}", 200, get(f"/jobs/{job}")) for job in JOBS)
    yield from ((f"times {job}", 200, get(f"/jobs/{job}/times")) for job in JOBS)
    yield "all jobs", 200, get("/jobs")
    yield "the newest jobs", 200, get("/jobs/newest")
    yield "the modems", 200, get("/modems")
    yield "no route", 404, get("/none")
    yield "a repeat", 201, post("/jobs", 2, "number:5550112\ntotpages:1\ntts:600\n")
    yield "a used number", 409, post("/jobs", 2, "number:1\ntotpages:1\n")
    yield "a number given up", 410, post("/jobs", 2, "number:1\ntotpages:1\n", "old")
    yield "a number above its floor", 200, post("/modems/ttyS2/ready", 6, client="old")
    yield "a busy modem", 409, post("/modems/ttyS0/next", 9, client="w0")
    yield "a modem down", 409, post("/modems/ttyS1/next", 9, client="w1")
    yield "a modem ready", 200, post("/modems/ttyS1/ready", 10, client="w1")
    yield "a choice", 200, post("/modems/ttyS2/next", 1, client="w2")
    yield "a submission", 201, post("/jobs", 9, "number:5550116\ntotpages:1\ntts:700\n")
    for place, (what, statuses) in enumerate(ON_JOBS.items(), 1):
        yield from ((f"{what} {job}", status, post(f"/jobs/{job}/{what}", 10 * place + job, "priority:9\n"))
                    for job, status in zip(JOBS, statuses))
    yield "a purge", 200, post("/jobs/purge", 1, '{"before":1}', "adm")
    for grant, statuses in REPORTED.items():
        yield from ((f"{what} on grant {grant}", status, post(f"/grants/{grant}/{what}", 10 * grant + place, body, "w3"))
                    for place, ((what, body), status) in enumerate(zip(REPORTS.items(), statuses)))


ASKED = {name: message for name, _, message in requests()}
ON_GRANT = {grant: [f"{what} on grant {grant}" for what in REPORTS] for grant in REPORTED}
HOLD = ["a busy modem", "the modems"]  # those that read a hold, its grant and its job
BESIDE = {1: [*HOLD, *ON_GRANT[1]], 2: ON_GRANT[2], 3: ["a choice"]}  # other requests that read these jobs
REPEATS = ["a repeat", "a used number"]
OF_FLOOR = ["a number given up", "a number above its floor"]
# Who reads neither the clock nor the next numbers.
NO_CLOCK = {"no route", *REPEATS, "a number given up"}
ROWS = [  # each row, where it is found, and the requests that read it
    *(("jobs", f"job = {job}",
       [f"job {job}", f"times {job}", "all jobs", "the newest jobs", *(f"{what} {job}" for what in ON_JOBS), *BESIDE.get(job, [])]) for job in JOBS),
    ("grants", "id = 1", BESIDE[1]), ("grants", "id = 2", ON_GRANT[2]), ("holds", "modem = 'ttyS0'", HOLD),
    ("replies", "client = 'desk' AND number = 2", REPEATS), ("floors", "client = 'old'", OF_FLOOR),
    ("times", "job = 3", ["times 3"]),
    ("meta", "one = 1", [name for name in ASKED if name not in NO_CLOCK])]


# ---- values

LAST_JOB, LAST_GRANT, LAST_NUMBER = 999999, 999999999, 10 ** 18 - 1
LAST_MOMENT, LAST_DELAY = 4102444800, 86400
LIMITS = {  # the least and the greatest value of each column; a name stands for the row's value of that column
    "jobs": {"phase": (0, 4), "wish": (0, 2), "priority": (0, 255), "npages": (0, "totpages"), "totpages": ("npages", 9999),
             "ntries": (0, "tottries"), "tottries": ("ntries", "maxtries"), "maxtries": ("tottries", 1000),
             "ndials": (0, "totdials"), "totdials": ("ndials", "maxdials"), "maxdials": ("totdials", 1000),
             "killtime": (0, LAST_MOMENT), "tts": (0, LAST_MOMENT), "next": (0, LAST_MOMENT + LAST_DELAY)},
    "grants": {"job": (1, LAST_JOB), "first_page": (1, 9999), "last_page": (0, 9999), "call": (0, 5), "pages": (0, 9999),
               "shut": (0, 1)},
    "holds": {"job": (1, LAST_JOB), "id": (1, LAST_GRANT)}, "replies": {"status": (200, 201)},
    "floors": {"upto": (0, LAST_NUMBER)}, "times": {"submitted": (0, LAST_MOMENT), "ended": (0, LAST_MOMENT)},
    "meta": {"clock": (0, LAST_MOMENT), "next_job": (1, LAST_JOB + 1), "next_grant": (1, LAST_GRANT + 1)}}
LEAST_ONE = "totpages", "maxtries", "maxdials"
NAMES = ["''", f"'{33 * 'm'}'", "'a b'", "'a/b'", "'é'", "'ttyS0' || char(0)", "'ttyS0' || char(10)", "CAST(X'C3' AS TEXT)"]
TEXTS = {  # texts that no lawful row has
    "dial": ["''", f"'{33 * '1'}'", f"'+{33 * '1'}'", "'+'", "'12x'", "'1+2'", "'555 0111'", "'1' || char(0)", "'1' || char(10)",
             "'٥'", "CAST(X'FF' AS TEXT)"],
    "modem": NAMES,
    "jobtag": [f"'{201 * 't'}'", f"'{100 * 'é'}t'", "' a'", "char(9) || 'a'", "'a' || char(10)", "'a' || char(0)",
               "'a' || char(127)", "CAST(X'FF' AS TEXT)"],
    "status": ["' a'", "char(9) || 'a'", r"'a\'", "'a' || char(1)", "'a' || char(13)", "'a' || char(0)", "char(127)",
               "CAST(X'ED' AS TEXT)"],
    "extra": ["'none'", "'a:b'", *(f"{text} || char(10)" for text in (
        "'number:1'", "'status:a'", "'a: b'", "' a:b'", "'#a:b'", "':b'", f"'{65 * 't'}:b'", "'a:b' || char(10)",
        "'a:b' || char(13)", "'a:b' || char(0)", "'é:b'")), "CAST(X'FF0A' AS TEXT)", "CAST(X'613AFF0A' AS TEXT)"]}


def row_of(sound, table, where):
    """The row's values by their columns."""
    with database_of(sound) as database:
        database.row_factory = sqlite3.Row
        found, = database.execute(f"SELECT * FROM {table} WHERE {where}")
        return dict(found)


def strange_numbers(row, column, limits):
    """Numbers that the column of the row hasn't: those next to its ends, and some beyond, of which a part is a number that it
    has."""
    least, greatest = (row.get(limit, limit) for limit in limits)
    least = max(1, least) if column in LEAST_ONE else least
    wanted = [least - 1, greatest + 1, -1, 2 ** 31, 2 ** 32, BIG, -BIG - 1, *(2 ** bits + row[column] for bits in (8, 16, 32))]
    return [number for number in dict.fromkeys(wanted) if not least <= number <= greatest]


# ---- what is tried

def as_ever(name, got):
    """No request is answered otherwise."""
    return False


def otherwise(name, got):
    """Where a row was moved, a job or a grant may be shown otherwise, and a request on it or one that is refused answered
    otherwise."""
    return b" 20" not in got[:11] or name[-1].isdigit() or name == "the modems"


def passed_over(name, got):
    """A modem may get no job."""
    return name == "a choice" and got == NOTHING


def not_chosen(name, got):
    """A job that isn't given since its extra lines can't be read waits."""
    return got == NOT_CHOSEN.get(name)


def strange_row(sound, wanted, meets, may_be, *statements):
    """Each request is answered as by the sound file, or 503, or as may be; 503 where it meets the row. Or the file isn't
    taken."""
    file = changed_file(sound, *statements)
    answers = asked_of(copied(file), asked=ASKED)
    if answers.err:
        return
    lost = [name for name, got in answers.got.items() if got == UNAVAILABLE]
    others = [name for name, got in answers.got.items() if got not in (UNAVAILABLE, wanted[name]) and not may_be(name, got)]
    expect(not others, f"'{others[:1]}' gets {answers.got[others[0]][-200:]!r}" if others else "")
    missed = [(name, answers.got[name][-200:]) for name in meets if name not in lost]
    expect(not missed, f"no 503 for {missed}")
    expect("no route" not in lost, "503 for each request")
    refuses_alone(file, meets or lost)


def refuses_alone(file, lost):
    """The requests that meet a row get 503 where nothing else is asked, `list` doesn't list it, and all rows are as they
    were."""
    rows = tables(copied(file))
    with serving(file, *setup(), "--connections", "1") as served:
        got = conversed(served.port, *(ASKED[name] for name in lost))
        served.ends("behind the requests that meet a row")
    expect(got == [UNAVAILABLE] * len(lost), f"{lost} alone get {got!r}")
    expect_rows(tables(file), rows, f"behind 503 for {lost}")
    if "all jobs" in lost:
        status, out, err, _ = run("list", "--db", file)
        expect_same((status, out, err), (1, b"", b"faxqd: database\n"), "'list'")
        expect_rows(tables(file), rows, "behind 'list'")


def is_passed_over(where, column, number):
    """Whether a choice needn't read the job: by this column it doesn't wait, or not yet."""
    by_column = {"phase": True, "tts": number > 0, "next": number > 0, "killtime": number < 0}
    return where == "job = 3" and by_column.get(column, False)


def number_rows(sound):
    """Each number that isn't one of its column's: the row, who reads it, what else may be answered, and the change."""
    for table, where, meets in ROWS:
        row = row_of(sound, table, where)
        for column, limits in LIMITS[table].items():
            for number in strange_numbers(row, column, limits):
                passes = table == "jobs" and is_passed_over(where, column, number)
                reads = [name for name in meets if not passes or name != "a choice"]
                yield table, where, reads, passed_over if passes else as_ever, f"{column} = {number}"


def text_rows():
    """The same of texts. Of extra lines the job itself is shown alone, and they are read of one that is chosen."""
    for table, where, meets in ROWS:
        for column, texts in TEXTS.items() if table == "jobs" and where in ("job = 1", "job = 3") else ():
            reads = [name for name in meets if column != "extra" or name in ("job 1", "job 3", "a choice")]
            may_be = not_chosen if column == "extra" else as_ever
            yield from ((table, where, reads, may_be, f"{column} = {text}") for text in texts)
        if table == "grants":
            yield from ((table, where, meets, as_ever, f"modem = {name}") for name in NAMES)


MOVED = (  # rows that contradict others, or that no request can name: the requests that meet them, and what makes them
    *((["all jobs", "the newest jobs", "a choice"], f"UPDATE jobs SET job = {job} WHERE job = 3")
      for job in (0, -1, 1000000, 2 ** 32 + 3, BIG)),
    *((HOLD, statement) for statement in (
        "UPDATE holds SET job = 99", "UPDATE holds SET id = 99", "DELETE FROM grants WHERE id = 1",
        "UPDATE grants SET modem = 'ttyS2' WHERE id = 1", "UPDATE grants SET shut = 1 WHERE id = 1")),
    (ON_GRANT[1], "DELETE FROM jobs WHERE job = 1"),
    *((ON_GRANT[1], f"UPDATE grants SET {change} WHERE id = 1") for change in ("job = 99", "last_page = 0")),
    (["a submission"], "UPDATE meta SET next_job = 2"), (["a choice"], "UPDATE meta SET next_grant = 2"),
    ([], "UPDATE replies SET number = -number WHERE client = 'w0'"),
    *(([], f"INSERT INTO {row} VALUES ({name}{more})") for row, more in (("down", ""), ("floors", ", 3")) for name in NAMES))
NULLS = {"jobs": "job = 3", "grants": "id = 1", "holds": "modem = 'ttyS0'", "replies": "client = 'desk' AND number = 2",
         "meta": "one = 1"}


def rows(sound, wanted):
    """The files with a strange row."""
    for table, where, meets, may_be, change in [*number_rows(sound), *text_rows()]:
        yield (f"{table}, {where}: {change[:80]}", strange_row, sound, wanted, meets, may_be,
               f"UPDATE {table} SET {change} WHERE {where}")
    for meets, statement in MOVED:
        yield statement, strange_row, sound, wanted, meets, otherwise, statement
    for table, column in LOOSE:
        name, loose = column.split()[0], column.replace(" NOT NULL", "")
        yield (f"{name} of {table} is NULL", strange_row, sound, wanted, [], as_ever, f"schema |{table}|{column}|{loose}",
               f"UPDATE {table} SET {name} = NULL WHERE {NULLS[table]}", f"schema |{table}|{loose}|{column}")


@check
def strange_rows():
    """Whoever reads a row with a number past its column's range, or with a text that its column hasn't, gets 503, and changes
    nothing; all else is answered as ever."""
    sound = queue_file()
    wanted = asked_of(copied(sound), asked=ASKED).got
    for name, status, _ in requests():
        expect(wanted[name].startswith(f"HTTP/1.1 {status} ".encode()), f"of a sound file '{name}' gets {wanted[name]!r}")
    expect(b'"grant":3,"job":3,' in wanted["a choice"], f"of a sound file a choice gets {wanted['a choice']!r}")
    try_all(list(rows(sound, wanted)))
