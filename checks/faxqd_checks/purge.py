"""examples/purge.sh, and what it leaves of a queue that goes on serving."""
import json
import os
import pathlib
import random
import re
import subprocess
import time

from .bad_line import line_to
from .heavy_jobs import LEFT, copy_grants, copy_job
from .proxy import Answers, Proxy, Strange, number_of, reply
from .runner import group
from .shared import (CLOSE, EXAMPLES, MANY, Server, answer_to, attempt, expect, expect_same, free_port, get, option, post, preload,
                     rows_of, rows_of_copy, database_of, run, wants, within)

check = group("purge", "Has examples/purge.sh delete what is over while the server runs, and nothing else, over a bad line, and "
              "where it or the server is killed.", "waiting")
PATIENCE = 90
SHELLS = "dash", "bash"
DAY = 86400
OLD = 2_500  # jobs that are over, for two whole purges and half of one


class Queue:
    """`faxqd serve` on a file, and what was asked of it and answered."""

    def __init__(self, folder):
        folder.mkdir(exist_ok=True)
        self.port, self.file, self.setup, self.kept, self.numbers = free_port(), folder / "queue.db", folder / "setup", {}, {}
        self.setup.write_text("Modem: ttyS0\nJobReqProto: 0\n")

    @property
    def url(self):
        return f"http://127.0.0.1:{self.port}"

    def serving(self, **more):
        return Server(self.file, *MANY, "--setup", self.setup, port=self.port, patience=PATIENCE, **more)

    def send(self, data):
        status, body = answer_to(self.port, data)
        return status, body.decode()

    def show(self, job):
        return self.send(get(f"/jobs/{job}", CLOSE))

    def ask(self, client, path, body=""):
        """A new request of a client, and its reply; both are remembered."""
        number = self.numbers[client] = self.numbers.get(client, 0) + 1
        body = body if isinstance(body, str) else json.dumps(body)
        data = post(path, number, body, client, CLOSE)
        got = self.send(data)
        expect(got[0] in (200, 201), f"{path} of {client} is answered {got}")
        self.kept[client, number] = data, got
        return json.loads(got[1])

    def submit(self):
        return self.ask("desk", "/jobs", "number:5550111\ntotpages:2\n")["job"]

    def work(self, pages, outcome):
        """Sends a job's pages and reports the outcome; leaves it held without one. Its job and grant."""
        told = self.ask("ttyS0", "/modems/ttyS0/next")
        self.ask("ttyS0", f"/grants/{told['grant']}/call", {"result": "connected"})
        for page in range(told["from"], told["from"] + pages):
            self.ask("ttyS0", f"/grants/{told['grant']}/page", {"page": page})
        if outcome:
            self.ask("ttyS0", f"/grants/{told['grant']}/outcome", {"dialed": True, "outcome": outcome, "pages": pages})
        return told["job"], told["grant"]

    def repeats(self):
        """Each request that was ever accepted gets the reply that it got."""
        for key, (data, before) in self.kept.items():
            expect_same(self.send(data), before, f"the reply to request {key} after a purge")

    def rows(self, text):
        return rows_of_copy(self.file, text)

    def age(self, days=40):
        """Has what is over be so many days older; no server may run."""
        with database_of(self.file) as database:
            database.execute(f"UPDATE times SET submitted = submitted - {days * DAY}, ended = ended - {days * DAY} WHERE ended > 0")

    def is_sound(self, what):
        expect_same(run("check", "--db", self.file, patience=PATIENCE)[:3], (0, b"faxqd: sound\n", b""), f"'check' {what}")

    def is_only(self, *jobs):
        """It has just these jobs, no other's times, and no grant of another."""
        got = [self.rows(f"SELECT job FROM {table} ORDER BY job") for table in ("jobs", "times")]
        expect_same(got, 2 * [[(job,) for job in jobs]], "the jobs and the times that are left")
        expect_same(self.rows("SELECT id FROM grants WHERE job NOT IN (SELECT job FROM jobs)"), [], "the grants of jobs that left")


def purge(url, folder, days=30, shell="sh", **settings):
    """The script, under way."""
    script = pathlib.Path(option("purge", EXAMPLES / "purge.sh")).resolve()
    environment = {**os.environ, "JOURNAL": str(folder / "journal"), "CLIENT": "adm", "LIMIT": "30", "PAUSE": "0.05",
                   "no_proxy": "*", **settings}
    return subprocess.Popen([shell, script, url, str(days)], env=environment, stdin=subprocess.DEVNULL, stdout=subprocess.PIPE,
                            stderr=subprocess.PIPE, text=True)


def ended(url, folder, days=30, shell="sh", **settings):
    """How it ends, and what it says on both streams."""
    ran = purge(url, folder, days, shell, **settings)
    out, err = ran.communicate(timeout=PATIENCE)
    return ran.returncode, out, err


def purges(wanted, url, folder, **more):
    """It deletes so many jobs, and keeps no request."""
    status, out, err = ended(url, folder, **more)
    expect_same((status, out), (0, f"{wanted} jobs purged\n"), f"it says {err!r}, and how it ends and says")
    expect(not (folder / "journal").exists(), "a request that was answered is still kept")
    return err


def mixed(folder):
    """A queue with jobs that are over, of which each has a grant and more, and with others."""
    queue = Queue(folder)
    with queue.serving():
        done, failed, tried, held, waiting = (queue.submit() for _ in range(5))
        queue.work(2, "done")
        queue.work(0, "retry")
        queue.work(1, "fail")
        expect(queue.work(1, "retry")[0] == tried, "another job was tried")
        queue.ask("desk", f"/jobs/{tried}/suspend")
        expect(queue.work(1, None)[0] == held, "another job is held")
    queue.age()
    return queue, (done, failed), (tried, held, waiting)


@check
def what_is_over(folder):
    """While the server runs, the jobs that are over for so long leave with their grants, and nothing else: what waits, is
    suspended or held, and what was over later, stays as it was. Every old request gets its old reply, and no number is given
    again."""
    wants("curl", "flock")
    queue, over, others = mixed(folder)
    with queue.serving():
        young = queue.submit()
        queue.ask("desk", f"/jobs/{young}/kill")
        before = {job: queue.show(job) for job in (*others, young)}
        purges(0, queue.url, folder, days=60)
        purges(2, queue.url, folder, days=30)
        purges(0, queue.url, folder, days=30)
        for job in before:
            expect_same(queue.show(job), before[job], f"job {job} after a purge")
        for job in over:
            expect_same(queue.show(job), (404, '{"no":8,"word":"no-job"}'), f"job {job} after a purge")
        queue.repeats()
        queue.is_only(*others, young)
    queue.is_sound("after a purge")
    with queue.serving():
        goes_on(queue, others[1], others[2], young)
    queue.is_sound("of a queue that went on")


def goes_on(queue, held, waiting, young):
    """After a purge numbers go on, what is held is reported, and the next job is granted."""
    queue.repeats()
    expect(queue.submit() == young + 1, "a number of a job is given again")
    (grant,), = queue.rows("SELECT id FROM holds")
    queue.ask("ttyS0", f"/grants/{grant}/page", {"page": 2})
    got = queue.ask("ttyS0", f"/grants/{grant}/outcome", {"dialed": True, "outcome": "done", "pages": 2})
    expect(got == {"job": held, "state": 7}, f"a held job is {got}")
    expect(queue.work(2, "done") == (waiting, grant + 1), "another job or grant comes next")


def filled(folder):
    """A queue with so many jobs that are over, and then one that waits."""
    queue = Queue(folder)
    with queue.serving():
        first = queue.submit()
        queue.work(2, "done")
    copy_job(folder, first, OLD)
    copy_grants(folder, first, OLD)
    queue.age()
    with queue.serving():
        expect(queue.submit() == OLD + 1, "another job comes after the copies")
    return queue


@check
def thousands(folder):
    """2,500 jobs leave in three requests, the lowest numbers first, and a fourth deletes none."""
    wants("curl", "flock")
    queue, left = filled(folder), []
    with queue.serving():
        def sees(data, hand_on):
            got = hand_on()
            (count, low), = queue.rows("SELECT count(*), min(job) FROM jobs")
            left.append((got.rpartition(b"\r\n\r\n")[2].decode(), count, low))
            return got
        with Proxy(queue.port, sees) as proxy:
            purges(OLD, proxy.url, folder)
            expect(len({number_of(data) for data in proxy.seen}) == 4, f"it sends {proxy.seen}")
            expect(len({data.rpartition(b"\r\n\r\n")[2] for data in proxy.seen}) == 1, "its requests have other moments")
        wanted = [(f'{{"purged":{count}}}', OLD + 1 - gone, gone + 1) for count, gone in
                  ((LEFT, LEFT), (LEFT, 2 * LEFT), (OLD - 2 * LEFT, OLD), (0, OLD))]
        expect_same(left, wanted, "each reply, how many jobs are left then, and the first of them")
        queue.repeats()
        queue.is_only(OLD + 1)
    queue.is_sound("after three purges")


@check
def bad_lines(folder):
    """However the line behaves, and whatever a proxy answers in the queue's place, the same jobs leave; each request is the same to
    the byte when it is sent again, and what isn't the queue's answer is reported once."""
    wants(*SHELLS, "curl", "flock")
    for number, shell in enumerate(SHELLS):
        with attempt(shell):
            queue, over, others = mixed(folder / shell)
            with queue.serving(), line_to(queue.port, number, 0.3) as (line, _), Proxy(line, Strange()) as proxy:
                status, out, err = ended(proxy.url, folder / shell, shell=shell, LIMIT="1")
                expect(status == 0, f"it ends with {status}, and says {out!r} and {err!r}")
                expect_same(err, f"purge.sh: {proxy.url} doesn't answer as a fax queue; trying again\n", "what it reports")
                first = {number_of(data): data for data in reversed(proxy.seen)}
                expect(len(first) == 2 and len(proxy.seen) > 2, f"it sends requests {list(first)}, and {len(proxy.seen)} messages")
                expect(all(data == first[number_of(data)] for data in proxy.seen), "a request isn't the same when it is sent again")
                time.sleep(0.4)  # late ones come
                queue.repeats()
                queue.is_only(*others)
            queue.is_sound("after purges over a bad line")


@check
def no_answers(folder):
    """An answer that isn't the queue's own deletes no kept request; a refusal ends it with 1, and faulty arguments with 2."""
    wants("curl", "flock")
    fine = '{"purged":0}'
    for answer in (reply(201, fine), reply(200, fine, "text/plain"), reply(200, '{"purged":-1}'), reply(200, '{"purged":"0"}'),
                   reply(200, '{"purged":00}'), reply(200, '{"purged":0,"job":1}'), reply(200, f"{fine}\n{fine}"),
                   reply(200, fine, length=99), reply(503, '{"no":27,"word":"unavailable"}'), reply(400, '{"no":30}')):
        with attempt(answer), Answers(answer, answer, reply(200, fine)) as peer:
            expect("doesn't answer as a fax queue" in purges(0, peer.url, folder, LIMIT="2"), "it reports nothing")
            expect(len(peer.seen) == 3 and len(set(peer.seen)) == 1, f"it sends {peer.seen}")
    for answer in '{"no":30,"word":"purge-high"}', '{"kind":"bad-field","no":6,"word":"bad-body"}':
        with attempt(answer), Answers(reply(409, answer)) as peer:
            expect_same(ended(peer.url, folder), (1, "", f"purge.sh: refused: {answer}\n"), "how it ends and says")
            expect(len(peer.seen) == 1 and not (folder / "journal").exists(), "a refused request is kept")
    with Answers(reply(200, fine)) as peer:
        kept = {**os.environ, "JOURNAL": str(folder / "no")}
        for words in (*((peer.url, days) for days in ("", "0", "030", "-1", "1.5", "1000000", "30 ")), (peer.url, "30", "30"),
                      (peer.url,), ()):
            ran = subprocess.run(["sh", EXAMPLES / "purge.sh", *words], capture_output=True, env=kept)
            expect(ran.returncode == 2 and not peer.seen and not (folder / "no.lock").exists(), f"with {words} it ends with {ran}")


@check
def clocks(folder):
    """Where the queue's clock is behind this machine's, it is refused, and no later request has another moment for it."""
    wants("curl", "flock")
    queue = Queue(folder)
    with queue.serving(before=preload(["clocks"], FIXED_MOMENT=1000)):
        got = ended(queue.url, folder)
        expect_same(got, (1, "", 'purge.sh: refused: {"no":30,"word":"purge-high"}\n'), "how it ends and says")
        purges(0, queue.url, folder, days=99999)


@check
def left_over(folder):
    """The request of a run that was killed goes first, under its number and with its moment; then this run's own are asked until no
    job is left, also where nobody listens at first."""
    wants("curl", "flock")
    queue, over, others = mixed(folder)
    one = purge(queue.url, folder, days=60)
    within("a request is kept", (folder / "journal").exists)
    time.sleep(0.2)
    one.kill()
    one.communicate()
    number, body = (folder / "journal").read_text().split()
    expect(re.fullmatch(r"\d{18}", number) and body == f'{{"before":{json.loads(body)["before"]}}}', f"it keeps {number} {body}")
    two = purge(queue.url, folder)
    time.sleep(0.3)
    with queue.serving(), Proxy(queue.port) as proxy:
        out, err = two.communicate(timeout=PATIENCE)
        expect_same((two.returncode, out), (0, "2 jobs purged\n"), f"it says {err!r}, and how it ends and says")
        found = queue.rows("SELECT CAST(number AS TEXT), CAST(body AS TEXT) FROM replies WHERE client = 'adm' ORDER BY rowid")
        expect(found[0] == (number, '{"purged":0}') and len(found) == 3, f"the replies kept for it are {found}")
        (folder / "journal").write_text(f"{found[1][0]} {body}\n")
        status, out, err = ended(proxy.url, folder)
        expect(status == 1 and "number-reused" in err, f"with another moment under a number: {status}, {out!r}, {err!r}")
        queue.is_only(*others)


@check
def killed(folder):
    """Killed at random moments, the script or the server, the same jobs have left in the end; each time the jobs of a whole purge
    left or none, and the file is sound."""
    wants("curl", "flock")
    chance, queue, steps = random.Random(1), filled(folder), {OLD + 1, OLD + 1 - LEFT, OLD + 1 - 2 * LEFT, 1}
    for round_number in range(6):
        with queue.serving() as server:
            one = purge(queue.url, folder)
            time.sleep(chance.uniform(0.02, 0.4))
            for victim in (one, server) if round_number % 2 else (server, one):
                victim.kill()
            one.communicate()
        (count, low), = rows_of(queue.file, "SELECT count(*), min(job) FROM jobs")
        expect(count in steps and low == OLD + 2 - count, f"{count} jobs are left, from {low} on")
        queue.is_sound(f"after kill {round_number + 1}")
    with queue.serving():
        status, out, err = ended(queue.url, folder)
        expect(status == 0, f"it ends with {status}, and says {out!r} and {err!r}")
        queue.repeats()
        queue.is_only(OLD + 1)
        expect(queue.submit() == OLD + 2, "a number of a job is given again")
    queue.is_sound("in the end")
