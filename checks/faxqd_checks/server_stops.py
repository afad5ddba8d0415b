"""What `serve` leaves where it is stopped, and how often it has the disk sync."""
import contextlib
import random
import re
import shutil
import signal
import subprocess
import time

from .serving import check, kept, reads
from .shared import (NO_JOB, NotTried, PATIENCE, Peer, Server, Wrong, attempt, copied, created, expect, expect_same,
                     free_port, get, new_folder, option, post, slack, submission, whole)


SUBMISSIONS = 200


class Stopped:
    """A server that is stopped and started again three times in the midst of submissions, and the replies to them."""

    def __init__(self, file, signal_number, chance):
        self.file, self.signal_number, self.chance, self.port = file, signal_number, chance, free_port()
        self.stops, self.replies, self.starts = chance.sample(range(10, SUBMISSIONS - 10), 3), {}, 1
        self.server = Server(file, port=self.port)

    def submits(self):
        """Submits what isn't answered yet, on one connection, while that lasts."""
        with contextlib.suppress(ConnectionError), Peer(self.port) as peer:
            while len(self.replies) < SUBMISSIONS:
                number = len(self.replies) + 1
                peer.say(submission(number))
                if number in self.stops:
                    self.stops.remove(number)
                    time.sleep(self.chance.random() * 0.002)
                    self.server.process.send_signal(self.signal_number)
                answer = peer.reply()
                expect(answer.startswith(b"HTTP/1.1 201 "), f"request {number} is answered {answer!r}")
                self.replies[number] = answer

    def starts_again(self):
        """Has another program look at a copy of what is left, and starts it again."""
        try:
            self.server.process.communicate(timeout=slack())
        except subprocess.TimeoutExpired:
            raise Wrong("a connection ends, and the server doesn't") from None
        with new_folder() as folder:
            reads(copied(self.file, folder), len(self.replies), len(self.replies) + 1, f"copy {self.starts} of what is left")
        self.server = Server(self.file, port=self.port)
        self.starts += 1
        kept(self.port, dict(list(self.replies.items())[-10:]))

    def run(self):
        while len(self.replies) < SUBMISSIONS:
            self.submits()
            if len(self.replies) < SUBMISSIONS or self.server.process.poll() is not None:
                self.starts_again()
        jobs = kept(self.port, self.replies)
        expect(sorted(jobs) == list(range(1, SUBMISSIONS + 1)), f"the jobs are {sorted(jobs)}")
        expect(self.starts > 1, "the server wasn't stopped")
        with Peer(self.port) as peer:
            peer.asks(get(f"/jobs/{SUBMISSIONS + 1}"), NO_JOB, "a 201st job")


def stopped(folder, signal_number):
    """A server that is stopped by this signal leaves a file that the system's sqlite reads, and a server goes on with it."""
    file, seed = folder / "queue.db", int(option("seed", time.time_ns() % 10000))
    with attempt(f"seed {seed}"):
        office = Stopped(file, signal_number, random.Random(seed))
        try:
            office.run()
        finally:
            office.server.process.kill()
            office.server.process.communicate()
        reads(file, SUBMISSIONS, SUBMISSIONS, "a stopped server's file")
        if shutil.which("sqlite3"):
            dump = subprocess.run(["sqlite3", "-readonly", file, ".dump"], capture_output=True, timeout=PATIENCE)
            expect(dump.returncode == 0 and dump.stdout.count(b"INSERT INTO jobs ") == SUBMISSIONS,
                   f"sqlite3 .dump ends with {dump.returncode}: {dump.stderr!r}, {dump.stdout[-200:]!r}")
        with Server(file, "--connections", "3") as server:
            kept(server.port, office.replies)
            expect_same(whole(server.port, submission(201)), created(201), "a file that sqlite has read")
            server.ends("behind the last of three connections")
        reads(file, SUBMISSIONS + 1, SUBMISSIONS + 1, "the file of a server that ended")


@check
def stops(folder):
    """What was answered is there when the server was told to stop, and the system's sqlite reads it."""
    stopped(folder, signal.SIGTERM)


@check
def kills(folder):
    """What was answered is there when the server was killed, and the system's sqlite reads it."""
    stopped(folder, signal.SIGKILL)


@check
def syncs(folder):
    """An accepted request costs one sync, or hardly more; a repeat or a refusal costs none."""
    log = folder / "syncs"
    strace = ["strace", "-f", "-e", "trace=fsync,fdatasync,sync_file_range,msync,sync,syncfs", "-o", log]
    if not shutil.which("strace") or subprocess.run([*strace, "true"], capture_output=True).returncode != 0:
        raise NotTried("strace isn't there or may not trace, so syncs aren't counted")

    def synced():
        return len(re.findall(r"^(?:\d+ +)?(?:fsync|fdatasync|sync_file_range|msync|sync|syncfs)\(",
                              log.read_text(), re.M))

    with Server(folder / "queue.db", "--connections", "1", before=strace) as server, Peer(server.port) as peer:
        counts = []
        for kind in "accepted", "repeated", "refused":
            before = synced()
            for number in range(1, 51):
                if kind == "refused":
                    peer.say(post("/jobs", number + 50, "number:5550111\n"))
                    expect(b'"no-pages"' in peer.reply(), "a submission without pages isn't refused")
                else:
                    peer.asks(submission(number), created(number), f"request {number}, {kind}")
            counts.append(synced() - before)
        peer.stop()
        server.ends("behind the only connection")
    expect(50 <= counts[0] <= 55, f"50 accepted requests cost {counts[0]} syncs")
    expect(counts[1] == 0, f"50 repeats cost {counts[1]} syncs")
    expect(counts[2] == 0, f"50 refusals cost {counts[2]} syncs")
