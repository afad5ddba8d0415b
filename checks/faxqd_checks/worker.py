"""examples/worker.sh, with dash and with bash as sh, against what isn't the queue's answer, against refused reports, against
hostile texts of jobs, with a modem command that doesn't keep to its words, and with kills at any moment; and
examples/efax-worker against the first three, with a program in place of efax."""
import collections
import contextlib
import fcntl
import json
import os
import random
import re
import shutil
import subprocess
import threading
import time

from .fax_line import killed as os_killed, processes
from .journals import Line
from .proxy import STRANGE_TO_COMMANDS, Proxy, Strange, number_of, path_of, reply
from .runner import group
from .shared import (CLOSE, EXAMPLES, MANY, NO_WAITS, TOP, Server, Wrong, answer_to, attempt, expect, expect_same, get, option, post,
                     run, said, say, wants, within as awaited)

check = group("worker", "Has examples/worker.sh, with dash and bash, and efax-worker send each page once, whatever answers them.",
              "scripts")
SHELLS = "dash", "bash"
EFAX_WORKER = "efax-worker"
LONG = 900 if said.all else 300  # seconds: a command waits a second or more before it sends a request again
MODEM = """\
#!/bin/sh
echo "$*" >> "${0%/*}/did"
case $1 in
    dial) cat "${0%/*}/result" ;;
    page) sleep "${PAGE_TAKES:-0}" && echo "$2 $3" >> "${0%/*}/received" ;;
esac
"""


# What stands in place of efax: each call connects, and each page is confirmed.
EFAX = """\
#!/bin/sh
while [ "$1" != -t ]; do shift; done
echo "dial $2" >> "${0%/*}/did"
shift 2
echo 'efax: 1 connected'
for page; do
    echo "page 1 $((1${page%.tif} - 10000))" >> "${0%/*}/did"
    echo "efax: 2 sent -> $page"
done
echo 'efax: 3 done, returning 0 (success)'
"""


def within(what, holds, patience=LONG):
    return awaited(what, holds, patience, 0.02)


# The program, whose first report of a page is killed before it does anything, while the worker is told to stop.
KILLED_ONCE = """\
#!/bin/sh
case "$*" in
    *" page") if mkdir {folder}/killed 2> /dev/null; then kill -TERM "$(cat {folder}/pid)" && kill -KILL $$; fi ;;
esac
exec {program} "$@"
"""


class Office:
    """A queue, and a worker with its modem command. The worker is worker.sh with a shell, or efax-worker. A worker that ends is
    started again, as systemd does."""

    def __init__(self, folder, shell, instead=None):
        folder.mkdir()
        self.folder, self.shell, self.ends, self.starts, self.number = folder, shell, False, 0, 0
        (folder / "modem").write_text(MODEM)
        (folder / "modem").chmod(0o755)
        (folder / "efax").write_text(EFAX)
        (folder / "efax").chmod(0o755)
        (folder / "result").write_text("connected\n")
        (folder / "errors").touch()
        (folder / "setup").write_text("Modem: ttyS0\n" + NO_WAITS)
        self.server = Server(folder / "queue.db", "--setup", folder / "setup", *MANY)
        self.proxy = Proxy(self.server.port, instead)
        self.worker, self.keeper = None, None

    def __enter__(self):
        return self

    def __exit__(self, *_):
        self.stop()
        self.proxy.listener.close()
        self.server.__exit__()

    def ask(self, path, body="", client="other"):
        """A request of somebody else, past the proxy."""
        self.number += 1
        body = body if isinstance(body, str) else json.dumps(body)
        return json.loads(answer_to(self.server.port, post(path, self.number, body, client, CLOSE))[1])

    def job(self, number=1):
        """The seventeen lines of a job."""
        text = answer_to(self.server.port, get(f"/jobs/{number}", CLOSE))[1].decode()
        return dict(line.split(":", 1) for line in text.split("\n")[:17] if ":" in line)

    def run(self, **more):
        """Runs the worker once; gives its process."""
        environment = {**os.environ, "PROGRAM": str(said.program), "WAIT": "0.1", "FAXQD": self.proxy.url,
                       "LOG": str(self.folder / "log"), "PATH": f"{self.folder}:{os.environ['PATH']}", **more}
        script = [EXAMPLES / EFAX_WORKER] if self.shell == EFAX_WORKER else [self.shell, EXAMPLES / "worker.sh"]
        last = self.folder if self.shell == EFAX_WORKER else self.folder / "modem"
        words = [*script, "ttyS0", self.folder / "ttyS0", last, *(["-d", "x"] if self.shell == EFAX_WORKER else [])]
        with open(self.folder / "errors", "ab") as errors:
            self.worker = subprocess.Popen(words, env=environment, stderr=errors, stdin=subprocess.DEVNULL)
        return self.worker

    def called(self, *did):
        """What the modem does for these, with the hang-ups that worker.sh wants before and after."""
        return list(did) if self.shell == EFAX_WORKER else ["hangup", *did, *(["hangup"] if did else [])]

    def start(self, **more):
        """Runs the worker, again whenever it ends."""
        def keep():
            while not self.ends and self.starts < 20:
                self.starts += 1
                self.run(**more).wait()

        self.ends, self.keeper = False, threading.Thread(target=keep, daemon=True)
        self.keeper.start()

    def stop(self):
        """Ends the worker, also one that is just being started."""
        self.ends = True
        while True:
            if self.worker:
                self.worker.kill()
                self.worker.wait()
            if not self.keeper or not self.keeper.is_alive():
                return
            self.keeper.join(0.05)

    def ends_with(self, status):
        """The worker, which runs once, ends by itself."""
        try:
            expect_same(self.run().wait(LONG), status, f"how it ends, after {self.errors()!r}")
        finally:
            self.stop()

    def errors(self):
        return (self.folder / "errors").read_text()

    def did(self):
        return (self.folder / "did").read_text().splitlines() if (self.folder / "did").exists() else []

    def forget(self):
        """Forgets what the modem did and the worker said."""
        for name in "did", "errors":
            (self.folder / name).write_text("")

    def is_in(self, state, number=1):
        within(lambda: f"state {state} of {self.job(number)}; the modem did {self.did()}; the worker says {self.errors()}",
               lambda: self.job(number)["state"] == state)


def each_shell(folder, part, *more):
    """Tries a part with each shell, side by side, and with what is named besides."""
    def tried(shell):
        with attempt(shell), Office(folder / shell, shell) as office:
            part(office)

    wants(*SHELLS, "flock")
    threads = [threading.Thread(target=tried, args=(shell,)) for shell in (*SHELLS, *more)]
    for thread in threads:
        thread.start()
    for thread in threads:
        thread.join()


def efax_worker(folder):
    """efax-worker, with a document of three pages in a folder, on a machine that has what it needs."""
    if not all(map(shutil.which, ("gs", "tiffcp", "tiffinfo"))):
        (folder / "document.tif").touch()
        return []
    subprocess.run(["gs", "-q", "-dBATCH", "-dNOPAUSE", "-sDEVICE=tiffg3", f"-sOutputFile={folder}/document.tif", "-c",
                    "showpage showpage showpage"], check=True)
    return [EFAX_WORKER]


def fax(office, lines="", path="/jobs"):
    """Hands a fax of three pages in, whose document is in the folder."""
    shutil.copy(office.folder.parent / "document.tif", office.folder)
    office.ask(path, f"number:5550111\ntotpages:3\n{lines}tiff:0::document.tif\n")


@check
def strange_answers(folder):
    """What isn't the queue's answer to the request, as a proxy's 401, 403, 404, 429, 200 or redirect, isn't taken for one: each
    page is sent once, and each request goes out until the queue answers it, the same to the byte."""
    def part(office):
        office.proxy.instead = Strange(STRANGE_TO_COMMANDS, most=2)
        fax(office)
        office.start()
        office.is_in("7")
        within("the worker asks for work", lambda: path_of(office.proxy.seen[-1]) == "/modems/ttyS0/next")
        wanted = office.called("dial 5550111", "page 1 1", "page 1 2", "page 1 3")
        within(lambda: f"the modem did {office.did()}, after {office.starts} starts; the worker says {office.errors()}",
               lambda: (office.did(), office.starts) == (wanted, 1))
        seen = list(office.proxy.seen)
        sent = {number_of(data): data for data in seen}
        expect(all(data == sent[number_of(data)] for data in seen), "a request isn't the same when it is sent again")
        expect("\x1b" not in office.errors(), "a strange answer is printed raw")

    each_shell(folder, part, *efax_worker(folder))


@check
def reported_once(folder):
    """That nothing but strange answers comes is reported once."""
    def part(office):
        count = iter(range(100))

        def instead(data, hand_on):
            return reply(401, "<html>", "text/html") if next(count) < 11 else hand_on()

        office.proxy.instead = instead
        office.start()
        within("the queue is asked", lambda: len(office.proxy.seen) > 12)
        lines = [line.split(": ", 1)[1] for line in office.errors().splitlines()]
        expect_same(lines, ["next: faxqd: no answer; trying again"], "what it says")

    each_shell(folder, part, EFAX_WORKER)


# What somebody else asks just before the worker's report of this kind, how that is refused, what the modem does until then, and
# whether the worker goes on when it is started again.
OTHERS = [
    ("call", "outcome", {"dialed": False, "outcome": "retry", "pages": 0}, "409 grant-closed", 0, True),
    ("call", "call", {"result": "busy"}, "409 call-known", 0, False),
    ("page", "outcome", {"dialed": True, "outcome": "retry", "pages": 0}, "409 grant-closed", 1, True),
    ("page", "page", {"page": 1}, "409 page-order", 1, False),
]


@check
def refused_reports(folder):
    """If somebody else reports on a worker's grant, its own report is refused: it says so, hangs up and ends with 1. Started
    again, it calls once more if the grant has ended; if it is still open it calls nobody, and ends with 1 each time."""
    more = efax_worker(folder)
    for number, (kind, others, body, refused, pages, goes_on) in enumerate(OTHERS):
        def part(office):
            done = []

            def instead(data, hand_on):
                if path_of(data) == f"/grants/1/{kind}" and not done:
                    done.append(office.ask(f"/grants/1/{others}", body))
                return hand_on()

            office.proxy.instead = instead
            fax(office)
            office.ends_with(1)
            expect(f"{kind}: faxqd: refused {refused}\n" in office.errors(), f"it says {office.errors()!r}")
            sent = 3 if office.shell == EFAX_WORKER else pages  # efax goes on by itself
            within(f"{sent} pages", lambda: len([line for line in office.did() if line.startswith("page")]) == sent)
            wanted = office.called("dial 5550111", *(f"page 1 {page}" for page in range(1, sent + 1)))
            expect_same(office.did(), wanted, "what the modem did")
            office.forget()
            if goes_on:
                office.start()
                office.is_in("7")
                expect_same(office.did().count("dial 5550111"), 1, f"calls, after {office.errors()!r}")
                return
            for _ in "ab":
                office.ends_with(1)
            expect(not any(line != "hangup" for line in office.did()), f"the modem did {office.did()}")

        with attempt(f"{kind} after {others}"):
            place = folder / str(number)
            place.mkdir()
            shutil.copy(folder / "document.tif", place)
            each_shell(place, part, *more)


@check
def hostile_status(folder):
    """Lines of an import's `status` that look like other lines of the job are no more than text: nothing of them is run, no
    document is taken from them, and the pages that somebody else has reported aren't sent again."""
    def part(office):
        ran = office.folder / "ran"
        status = f"status:old\\\n\"grant\":7,\"stop\":true\\\nnpages:+from[$(touch {ran})]\\\ntotpages:1\\\ntiff:0::other.tif\n"
        fax(office, f"npages:1\n{status}", "/imports")
        office.ask("/modems/ttyS0/next")
        office.ask("/grants/1/call", {"result": "connected"})
        office.ask("/grants/1/page", {"page": 2})
        office.start()
        office.is_in("7")
        expect(not ran.exists(), "a text was run")
        expect_same(office.starts, 1, f"starts, after {office.errors()!r}")
        did = "dial 5550111", "page 1 3"
        wanted = office.called(*did) if office.shell == EFAX_WORKER else office.called("hangup", *did)
        within(lambda: f"the modem did {office.did()}", lambda: office.did() == wanted)

    each_shell(folder, part, *efax_worker(folder))


@check
def strange_results(folder):
    """A modem command that prints anything but one of the five words, or nothing, has its call counted as `other`."""
    def part(office):
        results = ("hello\n", "connected \n", "", '","x":"connected\n', "busy\nbusy\n", "connected\n\nbusy\n",
                   "$(echo connected)\n")
        for number, result in enumerate(results, 1):
            (office.folder / "result").write_text(result)
            office.ask("/jobs", "number:5550111\ntotpages:1\nmaxdials:1\n")
            if number == 1:
                office.start()
            office.is_in("8", number)
            job = office.job(number)
            expect((job["totdials"], job["tottries"]) == ("1", "0"), f"after {result!r} the job is {job}")
        expect(office.did().count("dial 5550111") == len(results) and office.starts == 1, f"{office.starts} starts: {office.did()}")

    each_shell(folder, part)


@check
def logs(folder):
    """The line of a call is written once its outcome was accepted, also by the worker that is started again, and a log that can't
    be written stops nothing."""
    def part(office):
        log, lets_through = office.folder / "log", []

        def instead(data, hand_on):
            return hand_on() if lets_through or "/outcome" not in path_of(data) else b""

        office.proxy.instead = instead
        office.ask("/jobs", "number:5550111\ntotpages:1\n")
        process = office.run()
        within("an outcome", lambda: any("/outcome" in path_of(data) for data in office.proxy.seen))
        time.sleep(0.1)
        expect(not log.exists(), "the call is logged before its outcome was accepted")
        process.kill()
        process.wait()
        lets_through.append(True)
        office.start()
        within("the line of the call", log.exists)
        office.ask("/jobs", "number:5550111\ntotpages:1\n")
        within("two lines of calls", lambda: log.read_text().count("\n") == 2)
        expect([line.split("\t")[2] for line in log.read_text().splitlines()] == ["000000001", "000000002"], log.read_text())
        office.stop()
        office.starts = 0
        office.start(LOG=str(office.folder / "nowhere/log"))
        for number in 3, 4:
            office.ask("/jobs", "number:5550111\ntotpages:1\n")
            office.is_in("7", number)
        within("a message", lambda: "can't write" in office.errors())
        expect(office.starts == 1, f"it was started {office.starts} times")

    each_shell(folder, part)


@check
def stops(folder):
    """A worker that is stopped without work ends; one that can't reach the queue ends, and its journal has the page that it
    sent; one whose report of a page was killed at that moment reports it first."""
    def part(office):
        process = office.run()
        within("it asks for work", lambda: office.proxy.seen)
        process.terminate()
        expect_same(process.wait(LONG), 0, "how it ends")
        office.proxy.instead = lambda data, hand_on: b"" if path_of(data) == "/grants/1/page" else hand_on()
        office.ask("/jobs", "number:5550111\ntotpages:2\n")
        process = office.run()
        within("a page", lambda: any(path_of(data) == "/grants/1/page" for data in office.proxy.seen))
        process.terminate()
        expect_same(process.wait(LONG), 0, "how it ends without an answer")
        expect_same(office.did()[-1], "hangup", "the last that the modem did")
        office.proxy.instead = None
        office.start()
        office.is_in("7")
        office.stop()
        (office.folder / "killed-once").write_text(KILLED_ONCE.format(folder=office.folder, program=said.program))
        (office.folder / "killed-once").chmod(0o755)
        office.ask("/jobs", "number:5550111\ntotpages:2\n")
        process = office.run(PROGRAM=str(office.folder / "killed-once"))
        (office.folder / "pid").write_text(str(process.pid))
        expect_same(process.wait(LONG), 0, "how it ends after a report that was killed")
        expect((office.folder / "killed").exists(), "no report was killed")
        office.start()
        office.is_in("7", 2)
        pages = [line for line in office.did() if line.startswith("page")]
        expect_same(pages, ["page 1 1", "page 1 2", "page 2 1", "page 2 2"], "the pages that are sent")

    each_shell(folder, part)


@check
def older_folder(folder):
    """In the folder of an older worker.sh that was killed in a call, a worker doesn't begin before the last page is reported, by
    the commands of CHANGELOG.md; then no page is sent again. Any other request that is left there hinders nothing."""
    text = (TOP / "CHANGELOG.md").read_text()
    commands = re.search(r"(?m)^ +(sed -n 3p FOLDER/request > page)\n +(faxqd post .*)$", text)
    expect(commands, "CHANGELOG.md has no commands for a page that is left")

    def part(office):
        request = office.folder / "ttyS0/request"
        request.parent.mkdir()
        office.ask("/jobs", "number:5550111\ntotpages:3\n")
        office.ask("/modems/ttyS0/next", client="ttyS0")
        office.ask("/grants/1/call", {"result": "connected"}, "ttyS0")
        request.write_text('170000000000007\n/grants/1/page\n{"page":1}\n')
        office.ends_with(1)
        expect(re.fullmatch(r"worker\.sh: \S+/request: .*CHANGELOG.*\n", office.errors()), f"it says {office.errors()!r}")
        expect_same((office.did(), office.proxy.seen), ([], []), "what it does and sends")
        script = "\n".join(commands.groups())
        for old, new in (("FOLDER", str(request.parent)), ("127.0.0.1:4559", f"127.0.0.1:{office.proxy.port}"),
                         ("faxqd post", f"{said.program} post")):
            script = script.replace(old, new)
        for status, out, err in ((0, '{"npages":1,"stop":false}', ""), (1, "", "faxqd: refused 409 page-order\n")):
            ran = subprocess.run(["sh", "-ec", script], cwd=office.folder, capture_output=True, text=True, timeout=60)
            expect_same((ran.returncode, ran.stdout, ran.stderr), (status, out, err), "the commands of CHANGELOG.md")
        request.write_text("170000000000009\n/modems/ttyS0/next\n\n")
        office.start()
        office.is_in("7")
        within(lambda: f"the modem did {office.did()}", lambda: office.did() == [
            "hangup", "hangup", "dial 5550111", "page 1 2", "page 1 3", "hangup"])

    each_shell(folder, part)


# ---- kills

class Killer:
    """Kills the worker and its commands, and counts the pages that a death of the worker has send again."""

    def __init__(self, office, seed):
        self.office, self.random = office, random.Random(seed)
        self.again, self.counted, self.kills = collections.Counter(), 0, collections.Counter()

    def kill_command(self):
        """Kills a command that has the worker's journal, if there is one."""
        for process in list(processes(said.program, self.office.folder / "ttyS0/journal")):
            self.kills["commands"] += os_killed(process)

    def kill_worker(self):
        """Kills the worker, often within a page. A page that is received, and whose report isn't in the journal then, is sent
        again."""
        if self.random.random() < 0.5:
            with contextlib.suppress(Wrong):
                within("a page", lambda: self.office.did()[-1:] and self.office.did()[-1].startswith("page"), 2)
        self.office.worker.kill()
        self.office.worker.wait()
        self.kills["workers"] += 1
        with open(self.office.folder / "ttyS0/lock", "w") as lock:
            fcntl.flock(lock, fcntl.LOCK_EX)  # the modem's command ends
            shown = run("worker", "--to", "127.0.0.1:1", "--journal", self.office.folder / "ttyS0/journal", "show", patience=60)
        line, _, unanswered = shown[1].decode().partition("\n")
        if not line.startswith("grant "):
            return
        words = line.split()
        job, first = words[3], words[7].split("-")[0]
        begun = unanswered.startswith("unanswered ") and unanswered.endswith("/page\n")
        pages = received(self.office)
        if len(pages) > self.counted and pages[-1] == (job, first) and not begun:
            self.again[job, first] += 1
            self.counted = len(pages)


def received(office):
    """The pages that the receiver has confirmed, in their order."""
    file = office.folder / "received"
    return [tuple(line.split()) for line in file.read_text().splitlines()] if file.exists() else []


@check
def killed(folder):
    """While the worker, its commands and the queue are killed at random moments, and the network loses and doubles messages,
    each fax is done, unless three calls in a row were killed before their first report. By the receiver each page came once, and
    once more for each time that the worker died between its confirmation and the begin of its report; none of a fax that is
    done is missing."""
    def part(office):
        seed, faxes = int(option("seed", 5)), int(option("kills", 300 if said.all else 15)) // 5
        office.proxy.instead, killer = Line(seed), Killer(office, seed)
        for _ in range(faxes):
            office.ask("/jobs", "number:5550111\ntotpages:3\nmaxdials:1000\nmaxtries:1000\n")
        jobs, more = [str(number) for number in range(1, faxes + 1)], {"PAGE_TAKES": "0.2"}
        office.run(**more)
        until = time.monotonic() + LONG + 60 * faxes
        while not {office.job(job)["state"] for job in jobs} <= {"7", "8"}:
            expect(time.monotonic() < until, f"the faxes aren't sent; the worker says {office.errors()}")
            time.sleep(killer.random.uniform(0.1, 3 + sum(killer.kills.values()) / 10))  # so that a slow machine makes progress
            what = killer.random.choice((killer.kill_command, killer.kill_command, killer.kill_worker, office.server.kill))
            what()
            if what == office.server.kill:
                killer.kills["queues"] += 1
                office.server.start()
            elif what == killer.kill_worker:
                office.run(**more)
            expect(office.worker.poll() is None, f"the worker ends with {office.worker.poll()}, and says {office.errors()}")
        office.stop()
        pages, done = received(office), [job for job in jobs if office.job(job)["state"] == "7"]
        counts = collections.Counter(pages)
        for job in jobs:
            most, came = [1 + killer.again[job, page] for page in "123"], [counts[job, page] for page in "123"]
            if job in done:
                expect_same(came, most, f"how often pages 1 to 3 of job {job} came, after {dict(killer.kills)}")
                order = list(dict.fromkeys(page for number, page in pages if number == job))
                expect_same(order, ["1", "2", "3"], f"the order of job {job}")
            else:
                expect_same(office.job(job)["status"], "Unable to transmit page", f"why job {job} failed")
                expect(all(one <= two for one, two in zip(came, most)), f"the pages of job {job} came {came} times, not {most}")
        expect(done, "no fax is done")
        again = sum(killer.again.values())
        say(f"{office.shell}: {len(done)} of {faxes} faxes done, kills {dict(killer.kills)}, {again} pages once more")

    each_shell(folder, part)
