"""Faxes and an older queue's files go over examples/bad-line.py, which loses, doubles and delays messages."""
import contextlib
import os
import re
import signal
import subprocess
import sys
import threading
import time

from .runner import group
from .shared import (CLOSE, EXAMPLES, MANY, Peer, Server, answer_to, attempt, expect, expect_same, free_port, get, post, said,
                     within)

check = group("bad-line", "Has examples/client.sh and worker.sh send faxes over a line that loses, doubles and delays "
              "messages, and import.sh bring an older queue's files in.", "waiting")
PATIENCE = 90  # seconds until a fax that isn't sent counts as never sent
FAX = "number:555-0111\ntotpages:3\njobtag:over a bad line\nmaxtries:100\nmaxdials:100\n"
NO_JOB = b'{"no":8,"word":"no-job"}'
FATES = "is lost", "its reply is lost", "comes twice", "comes late", "comes again"
# A modem whose calls all connect, and which notes what it does.
MODEM = """\
#!/bin/sh
echo "$*" >> "${0%/*}/did"
case $1 in
    dial) echo connected ;;
    page) sleep "${PAGE_TAKES:-0}" ;;
esac
"""
# One call, and one line of it, with the fields of xferfaxlog(5).
LOGGED = re.compile(r'\d\d/\d\d/\d\d \d\d:\d\d\tSEND\t000000001\tttyS0\t1\t[^\t]*\t[^\t]*\t"5550111"\t[^\t]*\t[^\t]*\t3\t'
                    r"0:0\d:\d\d\t[^\t]*\t[^\t]*\n")


@contextlib.contextmanager
def line_to(port, seed, late):
    """The port of a bad line to this port, and what it says of its messages."""
    line, says = free_port(), []
    words = [EXAMPLES / "bad-line.py", f"127.0.0.1:{line}", f"127.0.0.1:{port}", "--seed", str(seed), "--late", str(late)]
    process = subprocess.Popen([sys.executable, *words], stdout=subprocess.PIPE, text=True)
    listener = threading.Thread(target=lambda: says.extend(process.stdout), daemon=True)  # a full pipe would stop it
    listener.start()

    def listens():
        with contextlib.suppress(OSError), Peer(line):
            return True

    try:
        within("the line listens", listens)
        yield line, says
    finally:
        process.kill()
        process.wait()
        listener.join()
        process.stdout.close()


class Office:
    """A server on a new file, a bad line to it, and a client and a worker at the other end."""

    def __init__(self, folder, seed):
        self.folder, self.ends, self.worker, self.page_takes = folder, contextlib.ExitStack(), None, "0"
        (folder / "modem").write_text(MODEM)
        (folder / "modem").chmod(0o755)
        (folder / "setup").write_text("Modem: ttyS0\nJobReqProto: 0\nJobReqOther: 0\n")
        (folder / "fax").write_text(FAX)
        (folder / "did").touch()
        self.server = self.ends.enter_context(Server(folder / "queue.db", "--setup", folder / "setup", *MANY))
        self.line, self.said = self.ends.enter_context(line_to(self.server.port, seed, 1))

    def __enter__(self):
        return self

    def __exit__(self, *_):
        self.stop_worker()
        self.ends.close()

    def environment(self, client="desk"):
        return {**os.environ, "PROGRAM": str(said.program), "WAIT": "0.2", "CLIENT": client, "LOG": str(self.folder / "log"),
                "FAXQD": f"http://127.0.0.1:{self.line}", "PAGE_TAKES": self.page_takes}

    def submits(self):
        words = [EXAMPLES / "client.sh", self.folder / "desk", self.folder / "fax"]
        ran = subprocess.run(words, env=self.environment(), capture_output=True, timeout=PATIENCE, text=True)
        expect((ran.returncode, ran.stdout) == (0, '{"job":1}\n'), f"the client says '{ran.stdout}' for job 1, and {ran.stderr}")

    def start_worker(self):
        words = [EXAMPLES / "worker.sh", "ttyS0", self.folder / "ttyS0", self.folder / "modem"]
        with open(self.folder / "worker", "wb") as says:
            self.worker = subprocess.Popen(words, env=self.environment(), stderr=says)

    def stop_worker(self, how=signal.SIGTERM):
        if self.worker:
            self.worker.send_signal(how)
            self.worker.wait()
            self.worker = None

    def shows(self, job):
        return answer_to(self.server.port, get(f"/jobs/{job}", CLOSE))[1]

    def shows_lines(self, job, *lines):
        return set(lines) <= set(self.shows(job).decode().split("\n"))

    def is_done(self):
        within(lambda: f"the job is done: {self.shows(1)}; the worker says {(self.folder / 'worker').read_text()}",
               lambda: self.shows_lines(1, "state:7", "npages:3"), PATIENCE, 0.1)

    def is_over(self):
        """Once late messages have come the job is as it was, and there is no other."""
        self.stop_worker()
        time.sleep(1.2)
        expect(self.shows_lines(1, "state:7", "npages:3", "totpages:3", "status:"), f"late messages change the job: {self.shows(1)}")
        expect(self.shows(2) == NO_JOB, f"there is a second job: {self.shows(2)}")

    def did(self):
        return (self.folder / "did").read_text().splitlines()


@check
def faxes(folder):
    """However the line behaves there is one job, it is called for once, each page is sent and confirmed once, and one line of
    it is logged."""
    for seed in 1, 2, 3:
        place = folder / str(seed)
        place.mkdir()
        with attempt(f"seed {seed}"), Office(place, seed) as office:
            office.submits()
            office.start_worker()
            office.is_done()
            within("the line of the call", lambda: (place / "log").exists() and (place / "log").read_text().endswith("\n"), PATIENCE)
            office.is_over()
            wanted = ["hangup", "dial 5550111", "page 1 1", "page 1 2", "page 1 3", "hangup"]
            expect(office.did() == wanted, f"the modem did {office.did()}")
            logged = (place / "log").read_text()
            expect(LOGGED.fullmatch(logged), f"the log has {logged!r}")
            expect(office.shows_lines(1, "tottries:1", "totdials:1"), f"the job is {office.shows(1)}")
            for fate in FATES:
                expect(any(f" {fate}: " in line for line in office.said), f"no message {fate}")


@check
def worker_killed(folder):
    """Killed at some moment of its work, a worker goes on where it was: what was confirmed isn't sent again, though a page
    may be sent twice where the worker was killed before it had noted that the page was confirmed."""
    with Office(folder, 4) as office:
        office.submits()
        office.page_takes = "0.2"
        for moment in 0.3, 0.7, 0.5, 0.9, 0.6:
            office.start_worker()
            time.sleep(moment)
            office.stop_worker(signal.SIGKILL)
        office.start_worker()
        office.is_done()
        office.is_over()
        for page in 1, 2, 3:
            expect(f"page 1 {page}" in office.did(), f"page {page} wasn't sent: {office.did()}")


@check
def imports(folder):
    """Twelve files of an older queue, brought in by examples/import.sh, which is killed again and again, come in once each,
    and the first of their pages isn't granted."""
    with Office(folder, 5) as office:
        spool = folder / "sendq"
        spool.mkdir()
        for number in range(1, 13):
            old = f"jobid:7\nnumber:5550111\ntotpages:3\nnpages:1\nstate:6\nexternal:q {number:02}\n"
            (spool / f"q {number:02}").write_text(old)
        words = [EXAMPLES / "import.sh", folder / "import", *sorted(spool.iterdir())]
        more = {"env": office.environment("old"), "stdin": subprocess.DEVNULL, "text": True}
        for moment in 0.3, 0.6, 1.2, 0.9:
            mover = subprocess.Popen(words, stdout=subprocess.DEVNULL, stderr=subprocess.DEVNULL, **more)
            time.sleep(moment)
            mover.kill()
            mover.wait()
        ran = subprocess.run(words, timeout=4 * PATIENCE, capture_output=True, **more)
        expect(ran.returncode == 0, f"an import: {ran.stderr}")
        time.sleep(1.2)
        for number, file in enumerate(sorted(spool.iterdir()), 1):
            wanted = "number:5550111", "npages:1", "state:5", f"external:{file.name}"
            expect(office.shows_lines(number, *wanted), f"file {number} came in as {office.shows(number)}")
        expect(office.shows(13) == NO_JOB, f"a file came in twice: {office.shows(13)}")
        wanted = [f'{file}: {{"job":{number},"state":5}}' for number, file in enumerate(sorted(spool.iterdir()), 1)]
        expect_same(ran.stdout.splitlines(), wanted, "what it says of the files")
        answer = answer_to(office.server.port, post("/modems/ttyS0/next", 1, client="w0", fields=CLOSE))[1]
        expect(answer == b'{"from":2,"grant":1,"job":1,"number":"5550111","to":3}',
               f"the first file isn't granted from its second page on: {answer}")
