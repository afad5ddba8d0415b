"""`serve` is killed with -9 in the midst of requests, and started again each time on the same file. Thirteen clients, one who brings
an older queue's jobs in, and two workers ask it at once over a line that loses, doubles and delays messages, beside peers that
say nothing."""
import contextlib
import json
import random
import re
import resource
import signal
import threading
import time

from .runner import group
from .shared import (CLOSE, MANY, NO_WAITS, Peer, SETUP, Server, Wrong, copied, database_of, exchange, expect, get, option,
                     post, said, say, told)

check = group("killed", "Kills `serve` under the load of thirteen clients, an office that moves its jobs in, and two workers at "
              "once; then its file can't grow for a while.")
PATIENCE = 60  # seconds until whatever is awaited counts as never coming
UNAVAILABLE = b'{"no":27,"word":"unavailable"}'
GIVEN_UP = b'{"no":28,"word":"given-up"}'


def serving(folder, **more):
    """A server on a new file, with two modems that never wait, for as many connections as come."""
    (folder / "setup").write_text(SETUP + NO_WAITS)
    return Server(folder / "queue.db", "--setup", folder / "setup", *MANY, patience=PATIENCE, **more)


def connected(port):
    """A connection that says nothing, or none."""
    with contextlib.suppress(OSError):
        return Peer(port, patience=PATIENCE)
    return None


class Facts:
    """What was seen of the queue, and what has to hold of it."""

    def __init__(self):
        self.lock, self.accepted, self.unlooked = threading.Lock(), {}, []
        self.grants, self.pages, self.asked, self.repeated = {}, {}, 0, 0
        self.floors, self.given = {}, {}  # of each client: the floor that it asked for, and the one that it was told

    def see(self, client, number, data, answer):
        """A reply was seen."""
        with self.lock:
            self.asked += 1
            if answer == (410, GIVEN_UP):
                expect(number <= self.floors.get(client, 0), f"request {number} of {client} is given up")
                return
            expect(number > self.given.get(client, 0) or answer == (503, UNAVAILABLE),
                   f"request {number} of {client} was given up, and is answered {answer}")
            known = self.accepted.get((client, number))
            if known:
                self.repeated += 1
                expect(answer in (known[1], (503, UNAVAILABLE)),
                       f"request {number} of {client} was answered {known[1]} and is answered {answer}")
            elif answer[0] in (200, 201):
                self.accepted[client, number] = data, answer
                self.unlooked.append((client, number))

    def is_granted(self, given):
        with self.lock:
            grant = given["job"], given["from"], given["to"]
            expect(self.grants.setdefault(given["grant"], grant) == grant, f"grant {given} was {self.grants[given['grant']]}")

    def is_confirmed(self, grant, page):
        with self.lock:
            job = self.grants[grant][0]
            expect(self.pages.setdefault((job, page), grant) == grant, f"page {page} of job {job} is confirmed twice")


# ---- the line, and who asks over it

class Asker(threading.Thread):
    """One client name, whose requests go over a bad line, each under its own number until it is answered."""

    def __init__(self, name, port, facts, seed):
        super().__init__(daemon=True)
        self.client, self.port, self.facts, self.chance = name, port, facts, random.Random(f"{seed} {name}")
        self.number, self.late, self.ends, self.fault = 0, [], False, None

    def run(self):
        try:
            while not self.ends:
                self.work()
        except Exception as fault:
            self.fault = Wrong(f"{self.client}: {told(fault)}")

    def once(self, number, data, reads=True):
        answer = exchange(self.port, data, PATIENCE, reads)
        if answer:
            self.facts.see(self.client, number, data, answer)
        return answer

    def ask(self, path, body=""):
        """The first reply to a new request but 503. What is lost is sent again."""
        self.number += 1
        number, data, until = self.number, post(path, self.number, body, self.client, CLOSE), time.monotonic() + PATIENCE
        while True:
            expect(time.monotonic() < until, f"{path} of {self.client} isn't answered")
            way = self.chance.random()
            if self.late and self.chance.random() < 0.1:
                self.once(*self.late.pop(self.chance.randrange(len(self.late))))
            if way < 0.1:  # it doesn't arrive now, and perhaps later
                self.late.append((number, data))
                continue
            if way < 0.2:  # its reply doesn't arrive
                self.once(number, data, reads=False)
                continue
            if way < 0.3:
                self.once(number, data)
            answer = self.once(number, data)
            if answer and answer[0] != 503:
                return answer
            time.sleep(0.005)

    def give_up(self):
        """It has the replies to all its numbers, and gives them up."""
        floor = self.number
        self.facts.floors[self.client] = floor
        answer = self.ask("/numbers/floor", json.dumps({"upto": floor}))
        expect(answer == (200, b'{"floor":%d}' % floor), f"the floor {floor} of {self.client} is answered {answer}")
        self.facts.given[self.client] = floor


class Desk(Asker):
    """Hands in faxes of one to four pages, and gives its replies up now and then."""

    def work(self):
        pages, dial = self.chance.randint(1, 4), self.chance.choice(["5550111", "5550112", "5550113"])
        order = f"number:{dial}\ntotpages:{pages}\nmaxtries:999\nmaxdials:999\n"
        status, body = self.ask("/jobs", order)
        expect(status == 201, f"a fax is answered {status} {body!r}")
        if self.chance.random() < 0.1:
            self.give_up()
        time.sleep(self.chance.random() * 0.02)


class Mover(Asker):
    """Brings faxes of an older queue in, some of whose pages were sent there."""

    def work(self):
        pages, dial = self.chance.randint(1, 4), self.chance.choice(["5550111", "5550112", "5550113"])
        sent, state = self.chance.randint(0, pages), self.chance.randint(1, 8)
        old = f"number:{dial}\ntotpages:{pages}\nnpages:{sent}\nstate:{state}\nmaxtries:999\nmaxdials:999\n"
        status, body = self.ask("/imports", old)
        expect(status == 201, f"an import is answered {status} {body!r}")
        job = json.loads(body)
        ends = 7 if sent == pages and state != 8 else {1: 1, 7: 7, 8: 8}.get(state)
        expect(job["state"] == ends if ends else job["state"] in (4, 5), f"an import in state {state} is told {job}")
        time.sleep(self.chance.random() * 0.05)


class Worker(Asker):
    """A modem, some of whose calls fail, and whose pages sometimes aren't confirmed."""

    def work(self):
        status, body = self.ask(f"/modems/{self.client}/next")
        expect(status in (200, 409), f"a question for work is answered {status} {body!r}")
        given = json.loads(body)
        if not given.get("grant"):
            time.sleep(0.005)
            return
        self.facts.is_granted(given)
        if self.chance.random() < 0.1:
            self.give_up()
        grant, page = given["grant"], given["from"]
        if given.get("called"):  # a late question got it, or one whose reply never came
            self.end(grant, "retry", sum(by == grant for by in list(self.facts.pages.values())))
            return
        result = self.chance.choice(["connected"] * 5 + ["busy", "no-answer"])
        if self.report(grant, "call", {"result": result}) is None or result != "connected":
            self.end(grant, "retry", 0)
            return
        while page <= given["to"] and self.chance.random() < 0.9:
            if self.report(grant, "page", {"page": page}) is None:
                return
            self.facts.is_confirmed(grant, page)
            page += 1
        self.end(grant, "done" if page > given["to"] else "retry", page - given["from"])

    def report(self, grant, what, body):
        """The reply to a report, or none where it is refused, as by a grant that a late report has closed."""
        status, reply = self.ask(f"/grants/{grant}/{what}", json.dumps(body))
        return reply if status == 200 else None

    def end(self, grant, outcome, pages):
        reason = "" if outcome == "done" else "not confirmed"
        body = {"dialed": True, "outcome": outcome, "pages": pages, "reason": reason}
        expect(self.report(grant, "outcome", body) is not None, f"the end of grant {grant} is refused: {body}")


# ---- what is left on the disk

def look(file, folder, facts, every=False):
    """Another program's look at a copy of the file, while no server has it: how many jobs and grants there are."""
    with database_of(copied(file, folder)) as database:
        def rows(text, *values):
            return database.execute(text, values).fetchall()

        expect(rows("PRAGMA integrity_check") == [("ok",)], "sqlite finds the file unsound")
        looks_at_replies(rows, facts, every)
        counts = looks_at_jobs(rows)
        looks_at_pages(rows, facts)
    for copy in folder.glob(f"{file.name}*"):
        copy.unlink()
    return counts


def looks_at_replies(rows, facts, every):
    """Each accepted request has its reply, unless it was given up."""
    for client, number in list(facts.accepted) if every else facts.unlooked:
        kept = rows("SELECT status, body FROM replies WHERE client = ? AND number = ?", client, number)
        lacks = number <= facts.floors.get(client, 0) and not kept
        expect(lacks or number > facts.given.get(client, 0) and kept == [facts.accepted[client, number][1]],
               f"of request {number} of {client} is left {kept}")
    facts.unlooked.clear()


def looks_at_jobs(rows):
    """The jobs have their numbers in order, and what is held is what is granted; how many jobs and grants there are."""
    (jobs, last), = rows("SELECT count(*), max(job) FROM jobs")
    (next_job, next_grant), = rows("SELECT next_job, next_grant FROM meta")
    expect(jobs == (last or 0) and next_job == jobs + 1, f"there are {jobs} jobs to {last}, and then {next_job}")
    for column in "modem", "job", "id":
        twice = rows(f"SELECT {column} FROM holds GROUP BY {column} HAVING count(*) > 1")
        expect(not twice, f"held twice: {column} {twice}")
    expect(rows("SELECT id, job, modem FROM grants WHERE shut = 0 ORDER BY id")
           == rows("SELECT id, job, modem FROM holds ORDER BY id"), "holds aren't the open grants")
    return jobs, next_grant - 1


def looks_at_pages(rows, facts):
    """No page is granted that was confirmed or came in as sent."""
    sent = {}
    for asked, body in rows("SELECT said, body FROM replies WHERE client = 'spool'"):
        sent[json.loads(body)["job"]] = int(re.search(rb"\nnpages:(\d+)", asked)[1])
    for number, job, first, last, pages in rows("SELECT id, job, first_page, last_page, pages FROM grants ORDER BY id"):
        expect(first == sent.get(job, 0) + 1, f"grant {number} begins with page {first} of job {job}, of which "
               f"{sent.get(job, 0)} were sent")
        expect(facts.grants.get(number, (job, first, last)) == (job, first, last), f"grant {number} has changed")
        sent[job] = sent.get(job, 0) + pages
    for job, page in facts.pages:
        expect(page <= sent[job], f"page {page} of job {job} was confirmed, and {sent[job]} are")
    for job, npages in rows("SELECT job, npages FROM jobs"):
        expect(npages == sent.get(job, 0), f"job {job} has {npages} pages, and {sent.get(job, 0)} came in or were confirmed")


# ---- the checks

def kill_often(server, count, chance, facts, askers):
    """The server is killed so often, and each time its file is looked at and it is started again."""
    copies = server.file.parent / "copy"
    copies.mkdir()
    for _ in range(count):
        silent = [peer for _ in range(20) if (peer := connected(server.port))]
        time.sleep(0.005 + chance.random() * 0.25)
        server.kill()
        for peer in silent:
            peer.socket.close()
        look(server.file, copies, facts)
        server.start()
        for asker in askers:
            if asker.fault:
                raise asker.fault
    for asker in askers:
        asker.ends = True
    for asker in askers:
        asker.join(2 * PATIENCE)
        if asker.fault:
            raise asker.fault
        expect(not asker.is_alive(), f"{asker.client} doesn't end")
    for (client, number), (data, _) in list(facts.accepted.items()):
        facts.see(client, number, data, exchange(server.port, data, PATIENCE))
    server.kill()
    return look(server.file, copies, facts, every=True)


@check
def kills(folder):
    """However often the server is killed, no accepted request is lost, a repeat gets its reply, no page is granted that was
    confirmed or came in as sent, none given up is answered, and the system's sqlite finds each file sound."""
    count, seed = int(option("kills", 1000 if said.all else 100)), int(option("seed", 1))
    facts, server = Facts(), serving(folder)
    kinds = [*((Desk, f"desk{place}") for place in range(13)), (Mover, "spool"), (Worker, "ttyS0"), (Worker, "ttyS1")]
    askers = [kind(name, server.port, facts, seed) for kind, name in kinds]
    for asker in askers:
        asker.start()
    try:
        jobs, grants = kill_often(server, count, random.Random(seed), facts, askers)
    except Wrong as fault:
        raise Wrong(f"seed {seed}: {fault}") from None
    finally:
        server.process.kill()
        server.process.communicate()
    say(f"{count} kills, {facts.asked} replies, {len(facts.accepted)} accepted, {facts.repeated} repeats, {jobs} jobs, "
        f"{grants} grants, {len(facts.pages)} pages")


def little_room():
    """A file may have 600,000 bytes, and no more."""
    signal.signal(signal.SIGXFSZ, signal.SIG_IGN)
    resource.setrlimit(resource.RLIMIT_FSIZE, (600_000, resource.RLIM_INFINITY))


def fill(server, facts, ask):
    """Hands in faxes until there is no room; gives the number of the fax that was refused."""
    for number in range(1, 1000):
        answer = ask(number)
        expect(answer, f"fax {number} isn't answered")
        if answer[0] == 503:
            expect(answer == (503, UNAVAILABLE), f"without room it answers {answer}")
            return number
    raise Wrong("a file that can't grow takes a thousand faxes")


@check
def full_disk(folder):
    """While its file can't grow the server refuses faxes, shows jobs and repeats its replies, and with room it goes on."""
    facts, server = Facts(), serving(folder, limits=little_room)
    order = "number:5550111\ntotpages:1\n" + "note:" + 2000 * "x" + "\n"

    def ask(number):
        data = post("/jobs", number, order, fields=CLOSE)
        answer = exchange(server.port, data, PATIENCE)
        facts.see("desk", number, data, answer or (0, b""))
        return answer

    try:
        refused = fill(server, facts, ask)
        for again in "at once", "a little later":
            answer = ask(1)
            expect(answer and answer[0] == 201, f"without room a repeat is answered {answer}, {again}")
            shown = exchange(server.port, get("/jobs/1", CLOSE), PATIENCE)
            expect(shown and shown[0] == 200, f"without room a job is shown as {shown}, {again}")
            time.sleep(0.1)
        resource.prlimit(server.process.pid, resource.RLIMIT_FSIZE, (resource.RLIM_INFINITY, resource.RLIM_INFINITY))
        for place in range(refused, refused + 50):
            answer = ask(place)
            expect(answer == (201, f'{{"job":{place}}}'.encode()), f"with room again fax {place} is answered {answer}")
        server.kill()
        (folder / "copy").mkdir()
        jobs, _ = look(server.file, folder / "copy", facts, every=True)
        expect(jobs == refused + 49, f"there are {jobs} jobs")
        server.limits = None
        server.start()
        for (client, place), (data, _) in list(facts.accepted.items()):
            facts.see(client, place, data, exchange(server.port, data, PATIENCE) or (0, b""))
        server.kill()
    finally:
        server.process.kill()
        server.process.communicate()
    say(f"without room behind fax {refused - 1}, and with room again")
