"""What the checks of `serve` share: what it prints and says, and that it serves."""
import contextlib
import re
import sqlite3
import time

from .runner import group
from .shared import ASK, NO_JOB, Peer, Wrong, expect, expect_same, get, run, slack, submission

check = group("server", "Runs `faxqd serve` over TCP: whole connections, listings, what `sendfax` sends and `list` prints, "
              "the examples of the help texts, broken messages, slow peers, files that it doesn't take, an "
              "address in use, and a stop in the middle.")
HEADING = "   JID Pri S Number               Tag              Pages     Dials TTS              Status\n"


def row(job, state, number, tag, pages, time_shown):
    """The line of a job that wasn't tried yet."""
    return f"{job:6} 127 {state} {number:20} {tag:12} {pages:>9}      0:12 {time_shown}\n"


def prints(wanted, what, *words):
    """With these words the program succeeds, and prints just this."""
    status, out, err, took = run(*words)
    expect(status == 0 and err == b"", f"{what} ends with {status}, and says {err!r}")
    expect_same(out, wanted, f"{what} prints")
    expect(took <= slack(), f"{what} takes {took:.1f} s")


def says(wanted, text, what, *words):
    """With these words the program ends with status 1, prints just this, and says this one line on standard error."""
    status, out, err, took = run(*words)
    expect(status == 1, f"{what} ends with {status}")
    expect_same((out, err), (wanted, f"{text}\n".encode()), what)
    expect(took <= slack(), f"{what} takes {took:.1f} s")


def fails(text, *words):
    """With these words the program ends at once, with status 1 and this one line on standard error."""
    status, out, err, took = run("serve", *words)
    what = f"'serve {' '.join(map(str, words))}'"
    expect(status == 1, f"{what} ends with {status}, and says {err!r}")
    expect_same(err, f"{text}\n".encode(), f"{what} says")
    expect(out == b"", f"{what} writes {out!r} to standard output")
    expect(took <= slack(), f"{what} takes {took:.1f} s to end, and should end at once")


def served(port, what, within=None, least=0):
    """The server answers a further connection within this time, and not before the least."""
    within = within or slack()
    start = time.monotonic()
    with Peer(port) as peer:
        try:
            peer.asks(ASK, NO_JOB, what)
        except (OSError, ConnectionError) as fault:
            raise Wrong(f"{what}: the next connection isn't served: {fault}") from None
    took = time.monotonic() - start
    expect(took <= within, f"{what}: the next connection is served after {took:.1f} s, and should be within {within} s")
    expect(took >= least, f"{what}: the next connection is served after {took:.1f} s, and {least} s are its peer's")


def ended(peer, what, most, least=0):
    """The connection ends by itself within this time, and not before the least; what comes until then isn't looked at."""
    start = time.monotonic()
    with contextlib.suppress(ConnectionError):
        while peer.take():
            peer.got = b""
    took = time.monotonic() - start
    expect(least <= took <= most, f"{what}: its connection ends after {took:.1f} s, and should within {least} to {most} s")


def kept(port, replies):
    """Each request that was answered has its job, and its repeat gets the same bytes."""
    jobs = {}
    with Peer(port) as peer:
        for number, answer in replies.items():
            peer.asks(submission(number), answer, f"the repeat of request {number}")
            job = int(re.search(rb'\{"job":(\d+)\}$', answer)[1])
            expect(job not in jobs, f"the requests {jobs.get(job)} and {number} have the job {job}")
            jobs[job] = number
    with Peer(port) as peer:
        for job, number in jobs.items():
            peer.say(get(f"/jobs/{job}"))
            answer = peer.reply()
            expect(f"\njobtag:fax {number}\n".encode() in answer, f"job {job} of request {number}: {answer!r}")
    return jobs


def reads(file, least, most, what):
    """The system's sqlite finds the file sound, with as many jobs and kept replies."""
    with contextlib.closing(sqlite3.connect(file)) as database:
        found = database.execute("PRAGMA integrity_check").fetchall()
        expect(found == [("ok",)], f"{what}: sqlite finds the file unsound: {found}")
        jobs, = database.execute("SELECT count(*) FROM jobs").fetchone()
        replies, = database.execute("SELECT count(*) FROM replies").fetchone()
    expect(least <= jobs <= most, f"{what}: the file has {jobs} jobs, and should have {least} to {most}")
    expect(jobs == replies, f"{what}: the file has {jobs} jobs and {replies} kept replies")
