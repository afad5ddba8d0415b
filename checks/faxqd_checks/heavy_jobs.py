"""A job weighs what its row weighs, and one that is passed over costs little. The files, of up to 130 MB, are in /dev/shm where
that has room, else in the folder of temporary files. They are filled with copies of the rows of a job that the program took. A
start has as much memory as it wants, since the engine reads each table whole to check it."""
import contextlib
import json
import pathlib
import re
import resource
import shutil
import time

from .runner import group
from .shared import (EXAMPLES, Peer, SETUP, Server, attempt, database_of, expect, expect_same, get, new_folder, post, run, say,
                     settle)

check = group("heavy-jobs", "Has thousands of heavy jobs wait, and tens of thousands for a busy number, and measures what a "
              "request costs then.")
HEAVY = 2_000  # jobs
DATA = 48 << 20  # bytes, of the whole process
BUSY = 90_000  # jobs to a busy number
OTHERS = 5_000  # jobs for another modem
SHOWN = 8 << 20  # bytes more than at rest
LONGEST = 1.0  # seconds
PASSED = 0.25  # seconds of a processor; it takes 0.08 to 0.16, as the machine is
SEARCHED = 1.0  # seconds of a processor; it takes 0.25 on an idle machine
ROUNDS = 5
PAGES = 100  # confirmed pages of a heavy job
REPORTED = 0.1  # seconds of a processor
PLAIN = 10_000  # jobs of a listing
LISTED = 16 << 20  # bytes more than at rest
GIVEN = 100_000  # kept replies of a client
GIVEN_UP = 4 << 20  # bytes more than before
UNREAD = 24  # peers that ask for a listing and don't read it
LONG = 100_000  # jobs of their listings
ROOM = 64_000_000  # bytes that replies have which aren't read whole, beside the last one
STORED = 100_000  # jobs of a file that is purged
LEFT = 1_000  # jobs that one purge takes out at most
PURGES = 3
PURGED = 0.12  # seconds of a processor; it takes less than 0.06 on an idle machine, and up to twice that on a busy one
PURGE_ROOM = 4 << 20  # bytes more than before
EXTRA = "a:\n" * 21_800  # extra lines, as many as a body has room for


def room():
    """A folder for large files."""
    memory = pathlib.Path("/dev/shm")
    return new_folder(memory if memory.is_dir() and shutil.disk_usage(memory).free > 1 << 30 else None)


class Queue(Server):
    """The program on a file, with so much data from when it listens, and one connection to it."""

    def __init__(self, folder, data=None, *words, **more):
        (folder / "setup").write_text(SETUP)
        super().__init__(folder / "queue.db", "--setup", folder / "setup", *words, **more)
        if data:
            resource.prlimit(self.process.pid, resource.RLIMIT_DATA, (data, data))
            # Resets the peak of the memory.
            pathlib.Path(f"/proc/{self.process.pid}/clear_refs").write_text("5")
        self.peer = Peer(self.port, patience=60)

    def __exit__(self, *_):
        self.peer.socket.close()
        super().__exit__()

    def ask(self, what, message, wanted):
        """Sends a message; gives the body of its reply and how many seconds that took."""
        start = time.perf_counter()
        try:
            self.peer.say(message)
            got = self.peer.reply()
        except OSError as fault:
            self.process.poll()
            expect(False, f"{what} has no reply: {fault}; the server's status is {self.process.returncode}")
        taken = time.perf_counter() - start
        expect(got.startswith(f"HTTP/1.1 {wanted} ".encode()), f"{what} is answered {got[:200]!r}")
        return got.partition(b"\r\n\r\n")[2], taken

    def most(self):
        """The most bytes of memory that it has had since it was limited."""
        return self.memory("VmHWM")


def copy_job(folder, job, jobs):
    """Makes this last job so many, with its times."""
    with database_of(folder / "queue.db") as database:
        names = ", ".join(f'"{column[1]}"' for column in database.execute("PRAGMA table_info (jobs)"))
        values = names.replace('"job"', "n")
        last = job + jobs - 1
        database.execute("BEGIN")
        more = f"WITH RECURSIVE more (n) AS (SELECT {job + 1} UNION ALL SELECT n + 1 FROM more WHERE n < {last}) "
        database.execute(f"{more}INSERT INTO jobs ({names}) SELECT {values} FROM more, jobs WHERE job = {job}")
        database.execute(f"{more}INSERT INTO times SELECT n, submitted, ended FROM more, times WHERE job = {job}")
        database.execute("UPDATE meta SET next_job = ?", (last + 1,))
        database.execute("COMMIT")


def fill(folder):
    """Makes the file: a heavy job that the program took and copies of it, which go first and to no modem, and a plain
    job behind them."""
    with Queue(folder) as server:
        server.ask("a heavy submission", post("/jobs", 1, f"number:5550111\ntotpages:1\npriority:0\nmodem:nosuch\n{EXTRA}"), 201)
    copy_job(folder, 1, HEAVY)
    with Queue(folder) as server:
        server.ask("a plain submission", post("/jobs", 2, "number:5550222\ntotpages:1\n"), 201)


@check
def waiting(_):
    """While 2,000 jobs of 64 kB of extra lines wait and the server has 48 MB, the choice, the listings, the modems and a
    submission answer within a second, and what shows one such job takes less than 8 MB more."""
    with room() as folder:
        fill(folder)
        with Queue(folder, DATA) as server:
            rest = server.most()
            body, taken = server.ask("a heavy job", get("/jobs/1"), 200)
            more = server.most() - rest
            say(f"one of {HEAVY:,} shown in {taken:.3f} s with {more >> 10} kB")
            expect(EXTRA.encode() in body, "a heavy job isn't shown with its extra lines")
            expect(more < SHOWN, f"a heavy job takes {more >> 10} kB")
            for what, message, status, part in (
                    ("next", post("/modems/ttyS0/next", 1, client="ttyS0"), 200, f'"job":{HEAVY + 1},'),
                    ("the listing", get("/jobs"), 200, f"{HEAVY + 1} 127 R"),
                    ("the newest jobs", get("/jobs/newest"), 200, f"{HEAVY + 1} 127 R"),
                    ("the modems", get("/modems"), 200, f":up grant 1 job {HEAVY + 1} number "),
                    ("a submission", post("/jobs", 3, "number:5550333\ntotpages:1\n"), 201, f'{{"job":{HEAVY + 2}}}')):
                body, taken = server.ask(what, message, status)
                say(f"{what} in {taken:.3f} s")
                expect(part.encode() in body, f"{what} is answered {body[:300]!r}")
                expect(taken <= LONGEST, f"{what} takes {taken:.2f} s")
            say(f"{server.most() >> 20} MB at most, {rest >> 20} MB at rest")


@check
def reported(_):
    """105 reports and requests on a job of 64 kB of extra lines, which they don't read, take less than 0.1 s of a processor."""
    with room() as folder, Queue(folder) as server:
        server.ask("a submission", post("/jobs", 1, f"number:5550111\ntotpages:{PAGES + 1}\n{EXTRA}"), 201)
        server.ask("next", post("/modems/ttyS0/next", 1, client="ttyS0"), 200)
        before = server.processor()
        server.ask("a call", post("/grants/1/call", 2, '{"result":"connected"}', "ttyS0"), 200)
        for page in range(PAGES):
            server.ask("a page", post("/grants/1/page", 3 + page, f'{{"page":{page + 1}}}', "ttyS0"), 200)
        over = f'{{"dialed":true,"outcome":"retry","pages":{PAGES},"reason":"cut"}}'
        server.ask("an outcome", post("/grants/1/outcome", 3 + PAGES, over, "ttyS0"), 200)
        for number, what in enumerate(["suspend", "resume", "kill"]):
            server.ask(what, post(f"/jobs/1/{what}", 2 + number), 200)
        taken = server.processor() - before
        expect(EXTRA.encode() in server.ask("the job", get("/jobs/1"), 200)[0], "a job has lost its extra lines")
    say(f"{taken:.3f} s")
    expect(taken <= REPORTED, f"{PAGES + 5} reports on a heavy job take {taken:.3f} s")


def fill_busy(folder):
    """Makes the file: a job that the program granted to another modem, and copies of it that wait."""
    with Queue(folder) as server:
        for number in 1, 2:
            server.ask("a submission", post("/jobs", number, "number:5550111\ntotpages:1\npriority:0\n"), 201)
        server.ask("next", post("/modems/ttyS1/next", 1, client="ttyS1"), 200)
    copy_job(folder, 2, BUSY)
    with Queue(folder) as server:
        for number in range(ROUNDS):
            server.ask("a submission", post("/jobs", 3 + number, f"number:555{number}\ntotpages:1\n"), 201)


def choose(server, number, request, taken):
    """Has the modem ask for work, which is the job to 555 and that number; gives its grant, and notes the processor time."""
    before = server.processor()
    body, _ = server.ask("next", post("/modems/ttyS0/next", request, client="ttyS0"), 200)
    taken.append(server.processor() - before)
    expect(f'"number":"555{number}"'.encode() in body, f"next is answered {body!r}")
    return re.search(rb'"grant":(\d+)', body)[1].decode()


@check
def busy(_):
    """90,000 jobs to a number that another modem has a call to wait in front of those that may go, and the best of five choices
    passes them in 0.25 s of a processor."""
    with room() as folder:
        fill_busy(folder)
        taken = []
        with Queue(folder) as server:
            for number in range(ROUNDS):
                grant = choose(server, number, 1 + 3 * number, taken)
                over = '{"dialed":true,"outcome":"fail","pages":0,"reason":"busy"}'
                server.ask("a call", post(f"/grants/{grant}/call", 2 + 3 * number, '{"result":"busy"}', "ttyS0"), 200)
                server.ask("an outcome", post(f"/grants/{grant}/outcome", 3 + 3 * number, over, "ttyS0"), 200)
    say(f"{min(taken):.3f} s")
    expect(min(taken) <= PASSED, f"a choice behind {BUSY:,} jobs to a busy number takes {min(taken):.3f} s")


def fill_outside(folder):
    """Makes the file: jobs that are outside the hours of their numbers, each of its own."""
    (folder / "controls").write_text("".join(f"^{digit} MaxSendPages = 99\n" for digit in range(10, 20)) + "^6......$ TimeOfDay = Never\n")
    with Queue(folder) as server:
        server.ask("a submission", post("/jobs", 1, "number:6000001\ntotpages:1\npriority:0\n"), 201)
    copy_job(folder, 1, STORED)
    with database_of(folder / "queue.db") as database:
        database.execute("UPDATE jobs SET dial = CAST(6000000 + job AS TEXT)")
        database.commit()


@check
def outside(_):
    """100,000 jobs, each to a number of its own and outside its hours, by the eleventh rule, wait in front of those that may go,
    and the best of five choices passes them in a second of a processor: it makes what searches for a pattern once."""
    with room() as folder:
        fill_outside(folder)
        taken = []
        with Queue(folder, None, "--controls", folder / "controls") as server:
            for number in range(ROUNDS):
                server.ask("a submission", post("/jobs", 2 + number, f"number:555{number}\ntotpages:1\n"), 201)
                grant = choose(server, number, 1 + 2 * number, taken)
                over = '{"dialed":false,"outcome":"fail","pages":0,"reason":"none"}'
                server.ask("an outcome", post(f"/grants/{grant}/outcome", 2 + 2 * number, over, "ttyS0"), 200)
    say(f"{min(taken):.3f} s")
    expect(min(taken) <= SEARCHED, f"a choice after {STORED:,} jobs outside their hours takes {min(taken):.3f} s")


# How the jobs that are passed over stand: all alike, or in each order of the choice.
STANDING = {"alike": "priority = 0", "by priority": "priority = job % 127", "by time": "tts = tts - job % 1000",
            "by priority and time": "priority = job % 5, tts = tts - job % 7"}


@check
def passed(_):
    """A job behind 5,000 that only another modem may have is given, however these stand, within a second; and that modem gets the
    best of these."""
    for how, change in STANDING.items():
        with attempt(f"5,000 jobs {how}"), room() as folder:
            with Queue(folder) as server:
                server.ask("a submission", post("/jobs", 1, "number:5550111\ntotpages:1\npriority:0\nmodem:ttyS1\n"), 201)
            copy_job(folder, 1, OTHERS)
            with database_of(folder / "queue.db") as database:
                database.execute(f"UPDATE jobs SET {change}")
                best, = database.execute("SELECT job FROM jobs ORDER BY priority, tts, job").fetchone()
            with Queue(folder) as server:
                server.ask("a submission", post("/jobs", 2, "number:5550222\ntotpages:1\n"), 201)
                body, taken = server.ask("next", post("/modems/ttyS0/next", 1, client="ttyS0"), 200)
                expect(f'"job":{OTHERS + 1},"number":"5550222"'.encode() in body, f"next is answered {body!r}")
                expect(taken <= LONGEST, f"next takes {taken:.2f} s")
                say(f"{how} in {taken:.3f} s")
                body, _ = server.ask("next", post("/modems/ttyS1/next", 1, client="ttyS1"), 200)
                expect(f'"job":{best},"number":"5550111"'.encode() in body, f"next of the other modem is answered {body!r}")


def copy_reply(folder, replies):
    """Makes the first reply of ttyS0 so many, under the numbers from 1 on."""
    with database_of(folder / "queue.db") as database:
        database.execute("BEGIN")
        database.execute(f"WITH RECURSIVE more (n) AS (SELECT 2 UNION ALL SELECT n + 1 FROM more WHERE n < {replies}) "
                         "INSERT INTO replies (client, number, said, status, body) "
                         "SELECT client, n, said, status, body FROM more, replies WHERE client = 'ttyS0' AND number = 1")
        database.execute("COMMIT")


@check
def given_up(_):
    """A client that gives up 100,000 replies at once has its answer within two seconds, for less than 4 MB of memory."""
    with room() as folder:
        with Queue(folder) as server:
            server.ask("next", post("/modems/ttyS0/next", 1, client="ttyS0"), 200)
        copy_reply(folder, GIVEN)
        with Queue(folder, DATA) as server:
            rest = server.most()
            body, taken = server.ask("a floor", post("/numbers/floor", GIVEN + 1, f'{{"upto":{GIVEN}}}', "ttyS0"), 200)
            more = server.most() - rest
        with database_of(folder / "queue.db") as database:
            left = database.execute("SELECT number FROM replies WHERE client = 'ttyS0'").fetchall()
    say(f"{taken:.3f} s with {more >> 10} kB")
    expect(left == [(GIVEN + 1,)], f"the replies that are left have the numbers {left[:10]}")
    expect(taken <= 2 * LONGEST, f"{GIVEN:,} replies are given up in {taken:.2f} s")
    expect(more < GIVEN_UP, f"{GIVEN:,} replies are given up with {more >> 10} kB")


@check
def listed(_):
    """A listing of 10,000 jobs has them all, within a second and for less than 16 MB."""
    with room() as folder:
        with Queue(folder) as server:
            server.ask("a submission", post("/jobs", 1, "number:5550111\ntotpages:1\n"), 201)
        copy_job(folder, 1, PLAIN)
        with Queue(folder, DATA) as server:
            rest = server.most()
            body, taken = server.ask("the listing", get("/jobs"), 200)
            more = server.most() - rest
    say(f"{len(body) >> 10} kB in {taken:.3f} s with {more >> 10} kB")
    numbers = [int(line[:6]) for line in body.splitlines()[1:]]
    expect(numbers == list(range(1, PLAIN + 1)), f"the listing has {len(numbers)} jobs, from {numbers[:3]} to {numbers[-3:]}")
    expect(taken <= LONGEST, f"a listing of {PLAIN:,} jobs takes {taken:.2f} s")
    expect(more < LISTED, f"a listing of {PLAIN:,} jobs takes {more >> 10} kB")


def send_one(server, number):
    """Submits a job that goes first, and has it sent."""
    job = json.loads(server.ask("a submission", post("/jobs", number, "number:5550111\ntotpages:1\npriority:0\n"), 201)[0])["job"]
    body, _ = server.ask("next", post("/modems/ttyS0/next", 1, client="ttyS0"), 200)
    expect(json.loads(body)["job"] == job, f"next is answered {body!r}")
    for place, (what, said) in enumerate((("call", '{"result":"connected"}'), ("page", '{"page":1}'),
                                          ("outcome", '{"dialed":true,"outcome":"done","pages":1}')), 2):
        server.ask(f"a {what}", post(f"/grants/1/{what}", place, said, "ttyS0"), 200)
    return job


def copy_grants(folder, first, jobs):
    """Gives copies of grant 1 to these jobs, of which the first has it, and a second one to each other job; they ended some time
    before."""
    with database_of(folder / "queue.db") as database:
        names = [f'"{column[1]}"' for column in database.execute("PRAGMA table_info (grants)")]
        expect(names[:2] == ['"id"', '"job"'], f"grants have {names}")
        database.execute("BEGIN")
        for start, step in ((first + 1, 1), (first, 2)):
            database.execute(
                f"WITH RECURSIVE more (n) AS "
                f"(SELECT {start} UNION ALL SELECT n + {step} FROM more WHERE n < {first + jobs - step}) "
                f"INSERT INTO grants SELECT (SELECT max(id) FROM grants) + 1 + (n - {start}) / {step}, n, {', '.join(names[2:])} "
                "FROM more, grants WHERE id = 1")
        database.execute("UPDATE meta SET next_grant = (SELECT max(id) + 1 FROM grants)")
        database.execute("UPDATE times SET submitted = submitted - 1000, ended = ended - 1000 WHERE ended > 0")
        database.execute("COMMIT")


def fill_over(folder, front, recent, old):
    """Makes the file: in the order of their numbers jobs that wait, jobs that were sent just now, jobs that were sent some time
    before, and jobs that wait for the rest. Those that leave first have grants. Gives the moment before which the old ones ended."""
    first, last = front + recent + 1, front + recent + old
    if front:
        with Queue(folder) as server:
            server.ask("a submission", post("/jobs", 2, "number:5550222\ntotpages:1\n"), 201)
        copy_job(folder, 1, front)
    with Queue(folder) as server:
        send_one(server, 1)
    copy_job(folder, front + 1, recent + old)
    if last < STORED:
        with Queue(folder) as server:
            server.ask("a submission", post("/jobs", 3, "number:5550222\ntotpages:1\n"), 201)
        copy_job(folder, last + 1, STORED - last)
    copy_grants(folder, first, PURGES * LEFT)
    with database_of(folder / "queue.db") as database:
        database.execute("UPDATE times SET ended = ended + 1000 WHERE ended > 0 AND job < ?", (first,))
        return database.execute("SELECT ended + 1 FROM times WHERE job = ?", (first,)).fetchone()[0]


# How many jobs of a file that is purged wait in front, are over too recently, and may leave.
PURGEABLE = {"that are all old": (0, 0, STORED), "in front of those that wait": (0, 0, PURGES * LEFT),
             "after 97,000 that wait": (STORED - PURGES * LEFT, 0, PURGES * LEFT), "after 10,000 that wait": (10_000, 0, 90_000),
             "after 50,000 that are too recent": (0, 50_000, 50_000)}


@check
def purged(_):
    """The best of three purges that take out 1,000 jobs each, with a grant or two, of a file with 100,000 jobs takes 0.12 s of a
    processor at most, whatever stands before them, and so does one that finds nothing. They take 4 MB more at most."""
    for how, (front, recent, old) in PURGEABLE.items():
        with attempt(f"{LEFT:,} jobs {how}"), room() as folder:
            before = fill_over(folder, front, recent, old)
            expect_same(run("check", "--db", folder / "queue.db")[:2], (0, b"faxqd: sound\n"), "'check' of the file")
            taken = []
            with Queue(folder, DATA) as server:
                rest = server.most()
                for number in range(1, PURGES + 2):
                    used = server.processor()
                    body, _ = server.ask("a purge", post("/jobs/purge", number, f'{{"before":{before}}}', "adm"), 200)
                    taken.append(server.processor() - used)
                    left = min(LEFT, max(0, old - LEFT * (number - 1)))
                    expect(json.loads(body) == {"purged": left}, f"purge {number} is answered {body!r}")
                more = server.most() - rest
            say(f"{how} in {min(taken[:PURGES]):.3f} s, another in {taken[PURGES]:.3f} s, with {more >> 10} kB")
            expect(min(taken[:PURGES]) < PURGED, f"purges of {LEFT:,} jobs take {[round(each, 3) for each in taken[:PURGES]]} s")
            expect(old > PURGES * LEFT or taken[PURGES] < PURGED, f"a purge that finds nothing takes {taken[PURGES]:.3f} s")
            expect(more < PURGE_ROOM, f"purges take {more >> 10} kB")


@check
def unread(_):
    """While 24 peers don't read their listings of 100,000 jobs, those that are begun take 64 MB and one listing more, in the
    environment of the unit; the others wait, every other request is answered, and the server is idle. Once the peers read, each
    gets its whole listing."""
    environment = re.findall(r"(?m)^Environment=(.+)$", (EXAMPLES / "faxqd.service").read_text())
    with room() as folder, contextlib.ExitStack() as stack:
        with Queue(folder) as server:
            server.ask("a submission", post("/jobs", 1, "number:5550111\ntotpages:1\n"), 201)
        copy_job(folder, 1, LONG)
        server = stack.enter_context(Queue(folder, None, "--timeout", "100", before=("env", *environment)))
        body, _ = server.ask("the listing", get("/jobs"), 200)
        rest = server.memory()
        peers = [stack.enter_context(Peer(server.port, 65536, 100)) for _ in range(UNREAD)]
        for peer in peers:
            peer.say(get("/jobs"))
        settle(server)
        more, used = server.memory() - rest, server.processor()
        time.sleep(1)
        used = server.processor() - used
        took = max(server.ask("a look", get("/jobs/1"), 200)[1],
                   server.ask("a submission", post("/jobs", 2, "number:5550111\ntotpages:1\n"), 201)[1])
        for number, peer in enumerate(peers):
            listing = peer.reply().partition(b"\r\n\r\n")[2]
            expect(listing.startswith(body), f"peer {number} gets {len(listing)} bytes of {len(body)}")
    say(f"{UNREAD} listings of {len(body) >> 10} kB that aren't read take {more >> 20} MB more; another request takes {took:.3f} s, and "
        f"an idle second {used:.2f} s of a processor")
    expect(more < ROOM + 2 * len(body), f"{UNREAD} listings that aren't read take {more >> 20} MB")
    expect(took < LONGEST, f"another request takes {took:.2f} s")
    expect(used < 0.1, f"an idle second takes {used:.2f} s of a processor")
