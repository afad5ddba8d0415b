"""The commands of a client with a journal, `faxqd worker` and `faxqd post`: a whole fax, what isn't the queue's answer, kills at
any moment, journals that are lost, locked or no journals, and what can't come now."""
import collections
import contextlib
import json
import random
import signal
import socket
import sqlite3
import subprocess
import threading
import time

from .proxy import STRANGE_TO_COMMANDS, Answers, Proxy, Strange, number_of, path_of
from .runner import group
from .shared import (CLOSE, MANY, NO_WAITS, Server, answer_to, attempt, expect, expect_same, free_port, get, one_line, option, post,
                     rows_of_copy, run, said, say)

check = group("journals", "The commands `worker` and `post`, over a journal.", "scripts")
ORDER = "number:5550100\ntotpages:{}\n"
NOBODY = "127.0.0.1:1"
LONG = 900 if said.all else 120  # seconds: a command waits a second or more before it sends a request again


class Office:
    """A queue with two modems, a proxy in front of it, and the commands of its clients."""

    def __init__(self, folder, instead=None):
        folder.mkdir(exist_ok=True)
        (folder / "setup").write_text("Modem: ttyS0\nModem: ttyS1\n" + NO_WAITS)
        self.folder, self.jobs = folder, 0
        self.server = Server(folder / "queue.db", "--setup", folder / "setup", *MANY)
        self.proxy = Proxy(self.server.port, instead)

    def __enter__(self):
        return self

    def __exit__(self, *_):
        self.proxy.listener.close()
        self.server.__exit__()

    @property
    def to(self):
        return f"127.0.0.1:{self.proxy.port}"

    def ask(self, path, body="", client="other"):
        """A request of somebody else, past the proxy."""
        self.jobs += 1
        return json.loads(answer_to(self.server.port, post(path, self.jobs, body, client, CLOSE))[1])

    def submit(self, pages=3):
        return self.ask("/jobs", ORDER.format(pages))["job"]

    def job(self, number=1):
        """The seventeen lines of a job."""
        text = answer_to(self.server.port, get(f"/jobs/{number}", CLOSE))[1].decode()
        return dict(line.split(":", 1) for line in text.split("\n")[:17] if ":" in line)

    def worker(self, *words, journal="ttyS0.journal", to=None, wait=()):
        """How a worker's command ends, and what it says on both streams."""
        wait = ["--wait", str(wait)] if wait != () else []
        return run("worker", "--to", to or self.to, "--journal", self.folder / journal, *wait, *words, patience=LONG)[:3]

    def post(self, *words, client="desk", journal="desk.journal", to=None, wait=()):
        """The same of `post`."""
        wait = ["--wait", str(wait)] if wait != () else []
        words = "--to", to or self.to, "--journal", self.folder / journal, "--client", client, *wait, *words
        return run("post", *words, patience=LONG)[:3]

    def next(self, **more):
        return self.worker("--modem", "ttyS0", "next", **more)


def printed(line):
    return 0, line.encode() + b"\n", b""


def not_now(what, got):
    expect_same(got, (2, b"", b"faxqd: not now\n"), what)


def grant(pages, call="none", number=1, job=1):
    return printed(f"grant {number} job {job} number 5550100 pages {pages} call {call}")


@check
def fax(folder):
    """A fax of three pages goes by the commands, and each prints what it is to; a command that can't come now says so and sends
    nothing."""
    with Office(folder) as office:
        not_now("a page of nothing", office.worker("page"))
        expect_same(office.next(), printed("none"), "no work")
        not_now("another modem", office.worker("--modem", "ttyS1", "next"))
        office.submit()
        expect_same(office.next(), grant("1-3"), "work")
        seen = len(office.proxy.seen)
        not_now("a page before the call", office.worker("page"))
        not_now("done before the call", office.worker("end", "done"))
        expect_same(office.next(), grant("1-3"), "a second next")
        expect_same(len(office.proxy.seen), seen, "messages of what can't come now")
        expect_same(office.worker("call", "connected"), printed("go"), "a call")
        not_now("a second call", office.worker("call", "busy"))
        expect_same(office.worker("page"), printed("go"), "page 1")
        expect_same(office.worker("page"), printed("go"), "page 2")
        expect_same(office.next(), grant("3-3", "connected"), "next in the middle")
        expect_same(office.worker("show"), grant("3-3", "connected"), "show")
        not_now("done with a page left", office.worker("end", "done"))
        office.ask("/jobs/1/suspend")
        expect_same(office.worker("page"), printed("stop"), "page 3 of a job that is to stop")
        not_now("a fourth page", office.worker("page"))
        expect_same(office.worker("end", "done"), printed("job 1 state 7"), "the end")
        expect_same(office.worker("show"), printed("none"), "show of nothing")
        not_now("a second end", office.worker("end", "done"))
        expect_same(office.job()["npages"], "3", "confirmed pages")
        expect_same(office.next(), printed("none"), "no more work")


@check
def words(folder):
    """Wrong words end with status 2 and a line, and the journal isn't made."""
    for words in (["next"], ["--modem", "a b", "next"], ["dial"], ["call"], ["call", "maybe"], ["page", "1"], ["end"], ["end", "well"],
                  ["end", "done", "a", "b"], ["show", "all"]):
        with attempt(" ".join(words)):
            status, out, err = run("worker", "--to", NOBODY, "--journal", folder / "j", *words)[:3]
            wanted = b"faxqd: bad modem\n" if "next" in words else b"faxqd: bad action\n"
            expect_same((status, out, err), (2, b"", wanted), "a worker")
    for words in ([], ["/jobs", "file", "more"]):
        with attempt(" ".join(words) or "no path"):
            status, out, err = run("post", "--to", NOBODY, "--journal", folder / "j", "--client", "desk", *words)[:3]
            expect_same((status, out, err), (2, b"", b"faxqd: bad path\n"), "a post")
    status, out, err = run("post", "--to", NOBODY, "--journal", folder / "j", "--client", "desk", "/jobs", folder / "none")[:3]
    expect_same((status, out, err), (1, b"", f"faxqd: cannot read {folder}/none\n".encode()), "a body that isn't there")
    expect_same(sorted(folder.iterdir()), [], "files")


@check
def strange_answers(folder):
    """What isn't the queue's answer isn't taken for one: each page is reported once, each fax is one job, and a request is the same
    to the byte when it is sent again."""
    with Office(folder, Strange(STRANGE_TO_COMMANDS)) as office:
        (folder / "order").write_text(ORDER.format(2))
        expect_same(office.post("/jobs", folder / "order"), (0, b'{"job":1}', b""), "a submission")
        expect_same(office.next(), grant("1-2"), "work")
        expect_same(office.worker("call", "connected"), printed("go"), "a call")
        expect_same(office.worker("page"), printed("go"), "page 1")
        expect_same(office.worker("page"), printed("go"), "page 2")
        expect_same(office.worker("end", "done"), printed("job 1 state 7"), "the end")
        expect_same(answer_to(office.server.port, get("/jobs/2", CLOSE))[0], 404, "a second job")
        same = collections.defaultdict(set)
        for message in office.proxy.seen:
            same[path_of(message), number_of(message)].add(message)
        for (path, number), messages in same.items():
            expect(len(messages) == 1, f"{path} under {number} is sent as {messages}")


@check
def refusals(folder):
    """A refusal is said with its status and word, and ends what it is of; after it the client gives up its numbers so far."""
    with Office(folder) as office:
        office.submit()
        expect_same(office.next(), grant("1-3"), "work")
        office.ask("/grants/1/outcome", '{"dialed":false,"pages":0,"outcome":"retry","reason":""}')
        expect_same(office.worker("call", "connected"), (1, b"", b"faxqd: refused 409 grant-closed\n"), "a call of a closed grant")
        expect_same(office.worker("show"), printed("none"), "what is held then")
        expect(rows_of_copy(folder / "queue.db", "SELECT upto FROM floors WHERE client = 'ttyS0'"), "it gives up nothing")
        office.ask("/modems/ttyS0/down")
        expect_same(office.next(), printed("none"), "work for a modem that is down")
        expect_same(office.post("/jobs/9/kill"), (1, b"", b"faxqd: refused 404 no-job\n"), "a kill of no job")
        (folder / "order").write_text("number:5550100\n")
        expect_same(office.post("--key", "k", "/jobs", folder / "order"), (1, b"", b"faxqd: refused 400 bad-body\n"), "no pages")
        (folder / "order").write_text(ORDER.format(1))
        expect_same(office.post("--key", "k", "/jobs", folder / "order"), (0, b'{"job":2}', b""), "the same key, put right")


@check
def lost_journals(folder):
    """A worker whose journal was lost holds the grant that its modem has, with the call and the pages that the queue knows."""
    with Office(folder) as office:
        office.submit()
        expect_same(office.next(), grant("1-3"), "work")
        expect_same(office.next(journal="second"), grant("1-3"), "a journal lost before the call")
        expect_same(office.worker("call", "connected", journal="second"), printed("go"), "its call")
        expect_same(office.worker("page", journal="second"), printed("go"), "its page")
        expect_same(office.next(journal="third"), grant("2-3", "connected"), "a journal lost after a page")
        expect_same(office.worker("end", "retry", "line " + "noise " * 60 + "\x07\\", journal="third"), printed("job 1 state 5"), "its end")
        status = office.job()["status"]
        expect(status.startswith("line noise noise") and len(status) <= 200, f"the reason is {one_line(status)}")


@check
def keys(folder):
    """Under a key a request is handed in once, until the key is forgotten; without one, an unanswered request with the same path and
    body is that request."""
    with Office(folder) as office:
        (folder / "order").write_text(ORDER.format(1))
        hand_in = "/jobs", folder / "order"
        for _ in range(2):
            expect_same(office.post("--key", "letter", *hand_in), (0, b'{"job":1}', b""), "a key")
        expect_same(office.post("--key", "letter", *hand_in, to=NOBODY, wait=0), (0, b'{"job":1}', b""), "a key without a queue")
        expect_same(office.post("--key", "other", *hand_in, to=NOBODY, wait=0), (4, b"", b"faxqd: no answer\n"), "no queue")
        expect_same(office.post("--key", "letter", *hand_in), (0, b'{"job":1}', b""), "the first key, after what was unanswered")
        expect_same(office.post("--key", "other", *hand_in), (0, b'{"job":2}', b""), "the other key")
        expect_same(office.post("--forget", "letter"), (0, b"", b""), "forgetting")
        expect_same(office.post("--key", "letter", *hand_in), (0, b'{"job":3}', b""), "a key that was forgotten")
        expect_same(office.post(*hand_in, to=NOBODY, wait=0), (4, b"", b"faxqd: no answer\n"), "no queue, no key")
        expect_same(office.post(*hand_in), (0, b'{"job":4}', b""), "the same again")
        expect_same(office.post(*hand_in), (0, b'{"job":5}', b""), "another one")


@check
def files(folder):
    """A journal of another client, a file that is none, and a folder that isn't there are reported, and stay as they are."""
    with Office(folder) as office:
        office.post("/jobs/9/kill")
        office.next()
        (folder / "text").write_text("Dear journal,\n" * 100)
        with contextlib.closing(sqlite3.connect(folder / "tables")) as tables:
            tables.execute("CREATE TABLE journal (one INTEGER PRIMARY KEY, client TEXT) STRICT")
            tables.commit()
        was = {name: (folder / name).read_bytes() for name in ("text", "tables", "queue.db")}
        wrong = 1, b"", b"faxqd: journal\n"
        for name in *was, "none/journal":
            with attempt(name):
                expect_same(office.next(journal=name), wrong, "a worker")
                expect_same(office.post("/jobs/1/kill", journal=name), wrong, "a post")
        expect_same(office.post("/jobs/1/kill", client="other"), wrong, "another client's journal")
        expect_same(office.post("--forget", "k", client="other"), wrong, "another client's key")
        office.submit()
        expect_same(office.next(), grant("1-3"), "work")
        expect_same(office.post("/jobs/1/kill", client="ttyS0", journal="ttyS0.journal"), wrong, "a worker's journal")
        for name, content in was.items():
            expect((folder / name).read_bytes() == content, f"{name} has changed")


@check
def waits(folder):
    """A command gives up for now after --wait, with ever longer breaks until then, and the next one goes on; a journal that another
    command has is waited for."""
    with Office(folder) as office, socket.create_server(("127.0.0.1", 0)) as deaf:
        start = time.monotonic()
        expect_same(office.next(to=NOBODY, wait=2), (4, b"", b"faxqd: no answer\n"), "nobody there")
        expect(2 <= time.monotonic() - start < 30, "it doesn't wait two seconds")
        with Answers(b"") as silent:
            expect_same(office.next(to=f"127.0.0.1:{silent.port}", wait=5), (4, b"", b"faxqd: no answer\n"), "no answers")
        expect(len(silent.seen) <= 4, f"it sends {len(silent.seen)} times in five seconds, and not after 1, 3 and 5")
        expect_same(office.worker("show", to=NOBODY), (0, b"none\nunanswered /modems/ttyS0/next\n", b""), "show")
        office.submit()
        words = [said.program, "worker", "--to", f"127.0.0.1:{deaf.getsockname()[1]}", "--journal", folder / "ttyS0.journal", "page"]
        with subprocess.Popen(words, stdout=subprocess.DEVNULL, stderr=subprocess.DEVNULL) as holding:
            deaf.accept()[0].close()
            expect_same(office.next(wait=0), (4, b"", b"faxqd: no answer\n"), "a journal that is held")
            holding.kill()
        expect_same(office.next(), grant("1-3"), "the next command")


class Line:
    """A network that loses requests and replies, and hands some on twice."""

    def __init__(self, seed):
        self.random, self.lock = random.Random(seed), threading.Lock()

    def __call__(self, data, hand_on):
        with self.lock:
            fate = self.random.choice(("passes", "passes", "passes", "is lost", "its reply is lost", "comes twice"))
        if fate == "is lost":
            return b""
        if fate == "comes twice":
            hand_on()
        got = hand_on()
        return b"" if fate == "its reply is lost" else got


class Driver:
    """What dials: it transmits a page only if the call is connected and the page is the next of the grant, and reports it. It is
    killed at any moment; so is each of its commands."""

    def __init__(self, office, seed):
        self.office, self.random = office, random.Random(seed)
        self.receiver, self.kills = collections.Counter(), 0

    def command(self, *words):
        """A command, which may be killed; gives its output, or nothing."""
        words = [said.program, "worker", "--to", self.office.to, "--journal", self.office.folder / "ttyS0.journal", *words]
        with subprocess.Popen(words, stdout=subprocess.PIPE, stderr=subprocess.PIPE) as process:
            if self.random.random() < 0.4:
                time.sleep(self.random.expovariate(30))
                process.send_signal(signal.SIGKILL)
                self.kills += 1
            out, err = process.communicate()
        expect(process.returncode in (0, -signal.SIGKILL), f"{words[6:]} ends with {process.returncode}: {out} {err}")
        return out.decode() if process.returncode == 0 else None

    def held(self):
        """The grant, as `next` prints it after a start, however often that is killed."""
        while (line := self.command("--modem", "ttyS0", "next")) is None:
            pass
        if line == "none\n":
            return None
        return dict(zip(line.split()[::2], line.split()[1::2]))

    def turn(self):
        """Goes on from where the journal is, until a command is killed or the grant ends. Returns whether there was work."""
        held = self.held()
        if not held:
            return False
        if held["call"] == "none" and self.command("call", "connected") is None:
            return True
        first, last = map(int, held["pages"].split("-"))
        for page in range(first, last + 1):
            self.receiver[held["job"], page] += 1  # the receiver confirms it: what may come between is the driver's
            while self.command("page") is None and int(self.held()["pages"].split("-")[0]) == page:
                pass
        self.command("end", "done")
        return True


@check
def killed(folder):
    """Over a network that loses and repeats, with each command killed at random moments, each page of each fax is transmitted once,
    in order, and each fax is done."""
    kills, seed, faxes = int(option("kills", 1000 if said.all else 12)), int(option("seed", 12)), 0
    with Office(folder, Line(seed)) as office:
        driver = Driver(office, seed)
        while driver.kills < kills:
            faxes += 1
            office.submit(3)
            while driver.turn():
                pass
            expect_same(office.job(faxes)["state"], "7", f"the state of job {faxes}, after {driver.kills} kills")
        wanted = [((str(job), page), 1) for job in range(1, faxes + 1) for page in (1, 2, 3)]
        expect_same(list(driver.receiver.items()), wanted, f"the pages in their order, after {driver.kills} kills")
        say(f"{driver.kills} commands killed, {faxes} faxes of 3 pages, {len(office.proxy.seen)} messages")
