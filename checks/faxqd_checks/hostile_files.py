"""Setups, controls and databases that nobody should have. `hostile_rows` has the rows that nobody should have."""
import collections
import contextlib
import functools
import random
import re
import sqlite3

from .hostile_shared import SECOND, check, chosen, copied, ended, folder, replies, serving, try_all
from .shared import LIMIT, NotServing, TOP, UNAVAILABLE, conversed, database_of, expect, expect_same, get, post, replay, run

KINDS = {"setup": "not-text bad-quote bad-value bad-pattern no-colon bad-zone",
         "controls": "not-text bad-quote bad-value bad-pattern no-rule no-equals bad-hours"}


def lines_of(option):
    """The example file with each line cut at each place, doubled and blanked: the number of the line, and the
    bytes."""
    lines = (TOP / f"examples/office.{option}").read_bytes().splitlines(keepends=True)
    for place, line in enumerate(lines):
        cut = [line[:size] for size in range(len(line))]
        cut += [line[:size] + b"\n" for size in range(1, len(line) - 1)]
        for new in cut + [2 * line, b" " * (len(line) - 1) + b"\n"]:
            yield place + 1, b"".join([*lines[:place], new, *lines[place + 1:]])


def example_line(option, line, data):
    """The file is taken, or its fault is told in one line: the changed line, or a parameter behind it that lost its
    rule."""
    file = folder() / "file"
    file.write_bytes(data)
    ran = replay(b"", f"--{option}", file)
    expect(ran.seconds <= SECOND and ran.out == b"", f"it takes {ran.seconds:.2f} s, and writes {ran.out!r}")
    if (ran.status, ran.err) != (0, b""):
        told = re.fullmatch(rf"faxqd: {option} line (\d+): ({KINDS[option].replace(' ', '|')})\n".encode(), ran.err)
        expect(ran.status == 1 and told, f"it ends with {ran.status}, and says {ran.err[:200]!r}")
        expect(int(told[1]) == line or told[2] == b"no-rule" and int(told[1]) > line,
            f"it says {ran.err!r} of a fault in line {line}")


ONES = "1" * 32
SLOWEST = 2.0  # the processor's seconds that a pattern may take: ten times what the slowest one takes
# Patterns of `1`, which becomes `a` for names of modems.
PATTERNS = [
    "(a*)*b", "(1*)*2", "(1|1)*2", "(1|11)+2", "^(1+)+$2", "^(1+)+2$", "(1*)*(1*)*(1*)*2", "(.*)*(.*)*(.*)*2",
    ".*" * 32 + "2", "(.*1){32}2", "(1?){32}1{32}", "1?" * 32 + "1" * 32, "((1{1,30}){1,30}){1,30}",
    "((((1{1,9}){1,9}){1,9}){1,9}){1,9}", "1{1000}{1000}", "1{0,65535}", "(1{0,1000}){0,1000}2", "1{4294967295}",
    "1{4294967296}", "1{99999999999999999999}", "x{0}{0}{0}{0}", "(){1000}{1000}", "(|1){1000}2",
    "(|||){1000}{1000}{1000}", r".{1000}", r"\w{500}", r"\pL{300}", r"[^1]{1000}", r"(\w|1){1000}2",
    r"\p{Greek}" * 300, r"(?i)" + "k" * 500, "(?i)(ſ|K){1000}", "1*" * 1000 + "2", "*" * 64, "1**********", "+",
    "(" * 64, ")" * 64, "[" * 64, "{" * 64, "\\" * 63, "\\" * 64, "|" * 20000, "1|" * 20000, "^" * 10000,
    "$^" * 5000, r"\b" * 5000, r"\x{110000}", r"\x{D800}", r"(?P<a>1)(?P<a>1)", r"\1", "(?=1)", "(?<=1)", "(?1)",
    "[1-0]", "[[:alpha:]-1]", "[a&&b]", "[^\\x{0}-\\x{10FFFF}]", "(?x)#", "(?-u:\\xFF)", "1" * 60000,
    "[0-9]" * 10000, "[\\w&&[\\d&&[1]]]*2", "[" + "1-9" * 20000 + "]"]
PATTERNS += [opened * count + "1" + closed * count for count in (10, 100, 249, 250, 251, 1000, 10000, 100000)
             for opened, closed in (("(", ")"), ("(?:", ")*"), ("[", "]"), ("[1&&", "]"), ("(?i:", "){2}"),
                                    ("(1|", ")+2"))]


def pattern(text, option):
    """A pattern is bad, or is looked for within two seconds: among 32 times the same character."""
    file = folder() / "file"
    if option == "controls":
        file.write_text(f"{text}\n  MaxSendPages = 1\n")
        data, line = post("/jobs", 1, f"number:{ONES}\ntotpages:1\n"), 1
    else:
        name = "a" * 32
        file.write_text(f"Modem: {name}\nModemClass: c:{text.replace('1', 'a')}\n")
        data, line = post("/jobs", 1, "number:1\ntotpages:1\nmodem:c\n") + post(f"/modems/{name}/next", 2), 2
    ran = replay(data, f"--{option}", file, limit=262144, kind=f"a pattern in {option}")
    if ran.err == f"faxqd: {option} line {line}: bad-pattern\n".encode():
        expect((ran.status, ran.out) == (1, b""), f"it ends with {ran.status}")
        expect(ran.seconds <= SLOWEST, f"it takes {ran.seconds:.2f} s")
    else:
        expect_same([reply.status for reply in ended(ran, SLOWEST)], [201] if line == 1 else [201, 200], "the replies")


GROUPED = ["(1)" * count for count in (10, 100, 400, 1600)] + [
    "(" * 200 + "1" + ")" * 200, "(1|2)" * 500, "(1*2?)" * 500, "(?:1)" * 10000, "1" * 60000]


def groups(text):
    """A pattern takes as much memory as its characters and groups say, and a job is unavailable without it."""
    file = folder() / "file"
    file.write_text(f"{text}\n  MaxSendPages = 1\n")
    submission = post("/jobs", 1, f"number:{ONES}\ntotpages:1\n")
    kilobytes = 32 * len(text) * (len(re.findall(r"\((?!\?)", text)) + 1) // 1024
    ran = replay(submission, "--controls", file, limit=LIMIT + kilobytes, kind="a pattern in controls")
    expect_same([reply.status for reply in ended(ran, SLOWEST)], [201], f"with {kilobytes} kB, the replies")
    if kilobytes > 4 * LIMIT:
        ran = replay(submission, "--controls", file, limit=LIMIT + kilobytes // 2)
        expect_same((ran.status, ran.out), (0, UNAVAILABLE), f"with half of {kilobytes} kB, it ends")


@functools.cache
def setup():
    """The words for a setup with a modem that is free."""
    file = folder() / "setup"
    file.write_text("Modem: ttyS0\nModem: ttyS1\nModem: ttyS2\nJobReqBusy: 90\nTimeZone: EST5EDT,M3.2.0,M11.1.0\n")
    return "--setup", file


# Lawful numbers of a job that isn't over, none of them at an end of its range.
COUNTS = "npages = 2, ntries = 1, tottries = 2, maxtries = 5, ndials = 1, totdials = 4, maxdials = 8"


def queue_file():
    """A file with a job that a modem has, one that is done, one that waits, one that is suspended and one that was killed, in
    itself alone."""
    file = folder() / "queue.db"
    waiting, held, killed = (f"number:555011{job}\ntotpages:3\ntts:800\n" for job in (3, 4, 5))
    with serving(file, *setup(), "--connections", "1") as served:
        asked = [post("/jobs", 1, "number:5550111\ntotpages:3\ntts:500\n"),
                 post("/jobs", 2, "number:5550112\ntotpages:1\ntts:600\n"),
                 post("/jobs", 3, f"{waiting}x-note:{'n' * 9000}\n"), post("/jobs", 4, held), post("/jobs", 5, killed),
                 post("/jobs/4/suspend", 6), post("/jobs/5/kill", 7),
                 post("/modems/ttyS0/next", 1, client="w0"),
                 post("/modems/ttyS1/next", 1, client="w1"), post("/grants/2/call", 2, '{"result":"connected"}', "w1"),
                 post("/grants/2/page", 3, '{"page":1}', "w1"),
                 post("/grants/2/outcome", 4, '{"dialed":true,"outcome":"done","pages":1}', "w1"),
                 post("/grants/1/call", 2, '{"result":"connected"}', "w0"),
                 post("/grants/1/page", 3, '{"page":1}', "w0"),
                 post("/modems/ttyS1/down", 5, client="w1"),
                 post("/numbers/floor", 5, '{"upto":3}', "old")]
        expect(all(answer.startswith(b"HTTP/1.1 20") for answer in conversed(served.port, *asked)),
            "a file can't be prepared")
        served.ends("behind a file's preparation")
    with database_of(file) as database:
        database.execute(f"UPDATE jobs SET {COUNTS} WHERE job IN (3, 4)")
        database.execute("PRAGMA wal_checkpoint(TRUNCATE)")
    return file


ASKED = {  # of each file, in this order
    "job 1": get("/jobs/1"), "job 2": get("/jobs/2"), "job 3": get("/jobs/3"), "all jobs": get("/jobs"),
    "the newest jobs": get("/jobs/newest"), "the modems": get("/modems"),
    "no route": get("/none"), "a repeat": post("/jobs", 2, "number:5550112\ntotpages:1\ntts:600\n"),
    "a used number": post("/jobs", 2, "number:1\ntotpages:1\n"),
    "a busy modem": post("/modems/ttyS0/next", 9, client="w0"),
    "a closed grant": post("/grants/2/call", 9, '{"result":"busy"}', "w1"),
    "a modem down": post("/modems/ttyS1/next", 9, client="w1"),
    "a page": post("/grants/1/page", 10, '{"page":2}', "w0"),
    "a modem ready": post("/modems/ttyS1/ready", 10, client="w1"),
    "a submission": post("/jobs", 9, "number:5550114\ntotpages:1\ntts:700\n"), "a kill": post("/jobs/3/kill", 10),
    "a purge": post("/jobs/purge", 1, '{"before":1}', "adm")}
Answers = collections.namedtuple("Answers", "got err")
PAGES = 2200  # so many pages of its file a server may have in memory
PLACES = 6000  # and so many kilobytes for the connections that may come


def asked_of(file, has_sound_replies=True, limit=LIMIT, asked=ASKED):
    """What a server on this file answers, or says where it doesn't start. A file that it doesn't take stays as it is;
    its log may come, without a page. A kept reply that was damaged is sent as it stands."""
    before, has_log = file.read_bytes(), file.with_name("queue.db-wal").exists()
    try:
        with serving(file, *setup(), "--connections", "1", limit=limit) as served:
            got = dict(zip(asked, conversed(served.port, *asked.values())))
            served.ends("behind these requests")
    except NotServing as fault:
        expect_same((fault.status, fault.said, fault.err), (1, b"", b"faxqd: database\n"), "it ends")
        expect(file.read_bytes() == before, "the file isn't as it was")
        beside = [(part.name, part.stat().st_size) for part in file.parent.iterdir() if part != file]
        expect(has_log or all(name == "queue.db-wal" and size < 512 for name, size in beside),
            f"beside the file stands {beside}")
        status, out, err, _ = run("list", "--db", file)
        expect_same((status, out, err), (1, b"", b"faxqd: database\n"), "'list'")
        expect(file.read_bytes() == before, "the file isn't as it was behind 'list'")
        return Answers({}, fault.err)
    expect(len(got) == len(asked), f"only {len(got)} requests are answered")
    replies(b"".join(answer for name, answer in got.items() if has_sound_replies or name != "a repeat"))
    return Answers(got, b"")


def changed_file(sound, *statements):
    """A copy on which the system's sqlite ran these."""
    file = copied(sound)
    with contextlib.closing(sqlite3.connect(file, isolation_level=None)) as database:
        database.execute("PRAGMA ignore_check_constraints = 1")
        for statement in statements:
            if statement.startswith("schema "):  # the text of a table's schema, changed
                version, = database.execute("PRAGMA schema_version").fetchone()
                database.execute("PRAGMA writable_schema = 1")
                _, table, old, new = statement.split("|")
                done = database.execute("UPDATE sqlite_schema SET sql = replace(sql, ?, ?) WHERE name = ?", (old, new,
                    table))
                expect(done.rowcount == 1, f"{statement} changes {done.rowcount} rows")
                database.execute(f"PRAGMA schema_version = {version + 1}")
                database.close()
                database = sqlite3.connect(file, isolation_level=None)
            else:
                database.execute(statement)
        database.execute("PRAGMA wal_checkpoint(TRUNCATE)")
        database.close()
    return file


def not_taken(sound, *statements):
    """A file with another schema isn't taken."""
    expect_same(asked_of(changed_file(sound, *statements)).err, b"faxqd: database\n", "the file is taken: it says")


def another_way(sound, wanted, *statements):
    """A file that the system's sqlite keeps otherwise is answered as ever, or isn't taken. Large pages take memory."""
    file = changed_file(sound, *statements)
    size = int.from_bytes(file.read_bytes()[16:18], "big")  # 1 stands for 65536
    answers = asked_of(file, limit=max(LIMIT, PLACES + PAGES * (64 if size == 1 else size // 1024)))
    expect(answers.err or answers.got == wanted, f"it is answered {answers.got!r}")


def with_log(sound, *statements):
    """A file that isn't taken has all its rows, though they stand in its log alone."""
    file = copied(sound)
    with contextlib.closing(sqlite3.connect(file, isolation_level=None)) as database:
        for statement in ("PRAGMA journal_mode = WAL", "PRAGMA wal_autocheckpoint = 0", *statements):
            database.execute(statement)
        file = copied(file)
        rows = list(database.iterdump())
    expect(file.with_name("queue.db-wal").stat().st_size > 512, "the file has no log")
    expect_same(asked_of(copied(file)).err, b"faxqd: database\n", "the file is taken: it says")
    expect_same(asked_of(file).err, b"faxqd: database\n", "the file is taken: it says")
    with contextlib.closing(sqlite3.connect(file)) as database:
        expect(list(database.iterdump()) == rows, "rows of its log are lost")


def another_reply(wanted, data):
    """A kept reply that was overwritten is sent as it stands, and all else is answered as ever."""
    expect(b'{"job":2}' in data, "the file has no kept reply to overwrite")
    file = folder() / "queue.db"
    file.write_bytes(data.replace(b'{"job":2}', b'{"job":7}'))
    got = asked_of(file).got
    others = [name for name in ASKED if got[name] != wanted[name].replace(b'{"job":2}', b'{"job":7}')]
    expect(not others and wanted["a repeat"].endswith(b'{"job":2}'), f"{others} are answered {got!r}")


def damaged(wanted, is_changed, data):
    """A damaged file isn't taken, or each request gets a well-formed reply; where nothing but an end is missing, that
    of the sound file or 503."""
    file = folder() / "queue.db"
    file.write_bytes(data)
    answers = asked_of(file, not is_changed)
    if not is_changed and not answers.err:
        others = [name for name, got in answers.got.items() if got not in (UNAVAILABLE, wanted[name])]
        expect(not others, f"'{others[:1]}' gets {answers.got[others[0]][-200:]!r}" if others else "")


BIG = 2 ** 63 - 1
TABLES = ("jobs", "grants", "holds", "down", "replies", "meta", "floors", "times", "calls")
LOOSE = (("jobs", "dial TEXT NOT NULL"), ("jobs", "extra TEXT NOT NULL"), ("jobs", "priority INTEGER NOT NULL"),
         ("grants", "call INTEGER NOT NULL"), ("holds", "id INTEGER NOT NULL UNIQUE"), ("replies", "body BLOB NOT NULL"),
         ("meta", "clock INTEGER NOT NULL"))


@check
def files():
    """Cut setups and controls, costly patterns, and other and damaged databases are told, or taken as what they are, in
    time and in little memory."""
    tasks = [(f"{option}, line {line}, {len(data)} bytes", example_line, option, line, data)
             for option in KINDS for line, data in chosen(lines_of(option), 250)]
    tasks += [(f"{option}, pattern {text[:40]!r} of {len(text)} characters", pattern, text, option)
              for option in KINDS for text in PATTERNS]
    tasks += [(f"pattern {text[:40]!r} of {len(text)} characters in its memory", groups, text) for text in GROUPED]
    try_all(tasks)
    sound = queue_file()
    wanted = asked_of(copied(sound)).got
    expect(sum(answer.startswith(b"HTTP/1.1 20") for answer in wanted.values()) == 12, f"a sound file: {wanted!r}")
    try_all([*schemas(sound, wanted), *damages(sound.read_bytes(), wanted)])


def schemas(sound, wanted):
    """Files with another schema, and files that are kept in another way."""
    statements = [f"DROP TABLE {name}" for name in TABLES if name not in ("down", "calls")]
    statements += [f"ALTER TABLE {name} ADD COLUMN more INTEGER" for name in TABLES]
    statements += [f"ALTER TABLE {name} RENAME COLUMN {old} TO other"
                   for name, old in zip(TABLES, ("extra", "call", "id", "modem", "said", "clock", "upto", "ended", "open"))]
    statements += [f"schema |{table}|{column}|{column.replace(' NOT NULL', '')}" for table, column in LOOSE]
    statements += [
        "CREATE INDEX more ON jobs (tts)", "CREATE VIEW more AS SELECT job FROM jobs", "DELETE FROM meta",
        "UPDATE meta SET version = 0", "CREATE TRIGGER more AFTER INSERT ON jobs BEGIN DELETE FROM grants; END",
        f"UPDATE meta SET version = {BIG}", "ALTER TABLE jobs DROP COLUMN wish", "ALTER TABLE jobs RENAME TO faxes",
        "schema |meta|, CHECK (one = 1)|", "schema |down|) STRICT|)",
        "schema |jobs|INTEGER NOT NULL) STRICT|ANY NOT NULL) STRICT"]
    yield from ((statement, not_taken, sound, statement) for statement in statements)
    empty = folder() / "queue.db"
    empty.touch()
    notes = "CREATE TABLE notes (text TEXT)", "INSERT INTO notes VALUES ('call back')"
    yield "another program's log", with_log, empty, *notes
    yield "a table too many in the log", with_log, sound, *notes
    for ways in (
            *(("PRAGMA journal_mode = DELETE", f"PRAGMA page_size = {512 << power}", "VACUUM") for power in range(8)),
            ("PRAGMA journal_mode = DELETE", "PRAGMA auto_vacuum = FULL", "VACUUM"), ("PRAGMA journal_mode = DELETE",),
            ("PRAGMA user_version = 7",), ("PRAGMA application_id = 7",), ("VACUUM",),
            ("CREATE TABLE more (a)", "DROP TABLE more"), ("ANALYZE",), ("REINDEX",)):
        yield "; ".join(ways), another_way, sound, wanted, *ways


def damages(data, wanted):
    """Files that are cut, or of which bytes were overwritten."""
    yield "a kept reply that was overwritten", another_reply, wanted, data
    for sizes, is_changed, most in ((range(512, len(data), 512), False, 40), (range(1, 512), True, 10)):
        for size in chosen(sizes, most):
            yield f"cut behind {size} bytes", damaged, wanted, is_changed, data[:size]
    for place, byte in chosen([(place, byte) for place in range(112) for byte in (0, 1, 127, 255)], 60):
        made = overwritten(data, [(place, byte)])
        yield f"byte {place} of the header is {byte}", damaged, wanted, True, made
    chance = random.Random("hostile files")
    changes = [[(chance.randrange(len(data)), chance.randrange(256)) for _ in range(chance.choice((1, 4, 64)))]
               for _ in range(2000)]
    for number, change in chosen(list(enumerate(changes)), 80):
        yield f"damage {number}", damaged, wanted, True, overwritten(data, change)


def overwritten(data, change):
    made = bytearray(data)
    for place, byte in change:
        made[place] = byte
    return bytes(made)
