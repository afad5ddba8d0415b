"""Slow peers of `serve`, and slow servers of `sendfax`. Each has a server of its own, and all are tried at the same time."""
import contextlib
import select
import socket
import subprocess
import threading
import time

from .serving import check, ended, served
from .shared import (ASK, NO_JOB, Peer, Server, Wrong, attempt, created, expect, expect_same, get, library, post, preload, run,
                     slack, submission)
from .server_sendfax import line_that

slow = check(beside="slow peers")


def silent(folder, seconds):
    what = f"a silent peer, --timeout {seconds}"
    with Server(folder / f"silent-{seconds}.db", "--timeout", str(seconds)) as server, Peer(server.port) as peer:
        served(server.port, what)
        ended(peer, what, seconds + slack(), seconds - slack())
        expect_same(peer.got, b"", f"{what}, gets")


@slow
def slow_silent(folder):
    """A peer that says nothing holds nobody, and its connection ends when its time is over."""
    silent(folder, 1)


@slow
def slow_longer(folder):
    """A peer that says nothing has longer where `--timeout` says so."""
    silent(folder, 4)


@slow
def slow_within(folder):
    """A peer that stops within a message, or says nothing more behind its reply, holds nobody, and its connection ends."""
    with Server(folder / "within.db", "--timeout", "1") as server:
        with Peer(server.port) as peer:
            peer.say(submission(1)[:-1])
            served(server.port, "a peer that stops within a message")
            ended(peer, "a peer that stops within a message", 1 + slack())
            expect_same(peer.got, b"", "a peer that stops within a message gets")
        with Peer(server.port) as peer:
            peer.asks(submission(1), created(1), "a submission")
            served(server.port, "a peer that stays behind its reply")
            ended(peer, "a peer that stays behind its reply", 1 + slack())
            expect_same(peer.got, b"", "a peer that stays behind its reply gets")


def dripping(peer, data):
    """Says a byte four times a second, until the connection ends or the data does."""
    with contextlib.suppress(OSError):
        for byte in data:
            peer.say(bytes([byte]))
            time.sleep(0.25)


@slow
def slow_drip(folder):
    """A peer that drips its message holds nobody, and has six times as long, and no longer."""
    with Server(folder / "drip.db", "--timeout", "1") as server, Peer(server.port) as peer:
        thread = threading.Thread(target=dripping, args=(peer, submission(1)))
        thread.start()
        time.sleep(0.1)
        try:
            served(server.port, "a peer that drips a message")
            ended(peer, "a peer that drips a message", 6 + slack(), 6 - slack())
        finally:
            peer.socket.close()
            thread.join()


@slow
def slow_asking(folder):
    """A peer that asks again and again and takes its replies holds nobody, and has six times as long."""
    with Server(folder / "asking.db", "--timeout", "1") as server, Peer(server.port) as peer:
        start = time.monotonic()
        with contextlib.suppress(OSError, ConnectionError):
            while time.monotonic() < start + 6 + 2 * slack():
                peer.asks(ASK, NO_JOB, "a peer that asks again and again")
                served(server.port, "a peer that asks again and again")
                time.sleep(0.25)
        took = time.monotonic() - start
    expect(6 - slack() <= took <= 6 + slack(), f"a peer that asks again and again has {took:.1f} s, and should have six")


def unread(folder, name, what, within, takes):
    """A peer that asks for 12 MB, and takes of it what `takes` does, holds nobody, and the server ends when its time is
    over."""
    with Server(folder / f"{name}.db", "--timeout", "1", "--connections", "3") as server:
        with Peer(server.port) as peer:
            peer.asks(post("/jobs", 1, f"number:5550111\ntotpages:1\nnote:{'x' * 60000}\n"), created(1), what)
            start = time.monotonic()
            peer.say(get("/jobs/1"))
            peer.reply()
            within = min(6, within + 80 * (time.monotonic() - start))  # until what the system buffers is full
        with Peer(server.port, receives=4096) as peer:
            peer.say(200 * get("/jobs/1"))
            thread = threading.Thread(target=takes, args=(peer,))
            thread.start()
            time.sleep(0.1)
            try:
                served(server.port, what)
                start = time.monotonic()
                with contextlib.suppress(subprocess.TimeoutExpired):
                    server.process.wait(within + slack())
                server.ends(f"{what} for {time.monotonic() - start:.1f} s")
            finally:
                peer.socket.close()
                thread.join()


@slow
def slow_answer(folder):
    """A server that doesn't answer holds `sendfax` for ten seconds."""
    with socket.create_server(("127.0.0.1", 0)) as silent:
        words = ["sendfax", "-d", "5550111", "--pages", "1", "--request", "1"]
        status, out, err, took = run(*words, "--to", f"127.0.0.1:{silent.getsockname()[1]}")
    expect_same((status, out, err), (1, b"", b"faxqd: no reply\n"), "'sendfax' that isn't answered")
    expect(9 <= took <= 10 + slack(), f"'sendfax' that isn't answered takes {took:.1f} s, and should take ten")


@slow
def slow_to_connect(folder):
    """A server that takes no further connection holds `sendfax` for ten seconds."""
    with socket.create_server(("127.0.0.1", 0), backlog=0) as full, contextlib.ExitStack() as others:
        address = full.getsockname()
        for _ in range(2):  # more than it keeps
            other = others.enter_context(socket.socket())
            other.setblocking(False)
            other.connect_ex(address)
        words = ["sendfax", "-d", "5550111", "--pages", "1", "--request", "1"]
        status, out, err, took = run(*words, "--to", f"127.0.0.1:{address[1]}")
    what = "'sendfax' to a server that takes no connection"
    expect_same((status, out, err), (1, b"", b"faxqd: no reply\n"), what)
    expect(9 <= took <= 10 + slack(), f"{what} takes {took:.1f} s, and should take ten")


@slow
def slow_reply(folder):
    """A server that drips its reply holds `sendfax` for a minute; time runs ten times as fast for it."""
    def drips(_):
        yield b"HTTP/1.1 201 Created\r\nContent-Length: 60000\r\n\r\n"
        for _ in range(200):
            time.sleep(0.1)
            yield b"x"
    words = ["sendfax", "-d", "5550111", "--pages", "1", "--request", "1", "--to", line_that(drips)]
    status, out, err, took = run(*words, before=preload(["clocks"], FASTER=10))
    what = "'sendfax' whose reply drips, a minute being six seconds,"
    expect_same((status, out, err), (1, b"", b"faxqd: no reply\n"), what)
    expect(5.5 <= took <= 6 + slack(), f"{what} takes {took:.1f} s, and should take six")


@slow
def slow_unread(folder):
    """A peer that never reads has as long as one write may take."""
    unread(folder, "unread", "a peer that never reads", 2, lambda peer: None)


@slow
def slow_reader(folder):
    """A peer that reads a little at a time has six times as long."""
    def sip(peer):
        with contextlib.suppress(OSError):
            while peer.socket.recv(2048):
                time.sleep(0.1)
    unread(folder, "reader", "a peer that reads slowly", 6, sip)


# ---- exactly its time

EARLY = 0.95  # of its time a peer is still served
# The words, how many times as fast time runs for the server, and how many seconds a silent peer then has.
SILENT = ((("--timeout", "1"), 1, 1), (("--timeout", "4"), 1, 4), ((), 2, 5), (("--timeout", "60"), 20, 3),
          (("--timeout", "3600"), 900, 4))
WHOLE = ((("--timeout", "1"), 1), ((), 10), (("--timeout", "60"), 60))  # such that a silent peer has one second


def after(start, seconds):
    """Waits until so many seconds have passed since then."""
    time.sleep(max(0, start + seconds - time.monotonic()))


def is_ended(peer, seconds):
    """Whether the connection ends within these seconds; nothing more comes."""
    ready, _, _ = select.select([peer.socket], [], [], seconds)
    if ready:
        with contextlib.suppress(ConnectionError):
            expect(not peer.take(), f"a peer gets {peer.got!r}")
    return bool(ready)


def ends_at(peer, what, start, wanted, span):
    """The connection ends so many seconds behind that start, of which the last part was to be so long."""
    most = wanted + 2 * span
    expect(is_ended(peer, max(0, start + most - time.monotonic())), f"{what} has more than {most:.1f} s")
    took, more = time.monotonic() - start, max(0.05 * span, 0.2)
    expect(wanted - (1 - EARLY) * span <= took <= wanted + more, f"{what} has {took:.2f} s, and should have {wanted:.2f} s")


def silence(file, words, faster, seconds):
    """A peer that moves nothing for so long, from when it connected or moved something last, is closed then, and not a
    little before."""
    with contextlib.ExitStack() as stack:
        server = stack.enter_context(Server(file, *words, before=preload(["clocks"], FASTER=faster)))
        start = time.monotonic()
        never, asking, part, whole = (stack.enter_context(Peer(server.port)) for _ in range(4))
        after(start, 0.5 * seconds)
        part.say(submission(1)[:-1])
        whole.say(submission(1)[:-1])
        after(start, EARLY * seconds)
        asking.asks(ASK, NO_JOB, f"a peer that was silent for {EARLY} of its time")
        ends_at(never, "a silent peer", start, seconds, seconds)
        after(start, (0.5 + EARLY) * seconds)
        whole.asks(submission(1)[-1:], created(1), f"a peer that was silent for {EARLY} of its time within a message")
        ends_at(part, "a peer that is silent within a message", start, 1.5 * seconds, seconds)
        ends_at(asking, "a peer that is silent behind its reply", start, (1 + EARLY) * seconds, seconds)


def whole_time(file, words, faster):
    """A peer that goes on and on is closed when six times as long have passed, and not a little before."""
    with contextlib.ExitStack() as stack:
        server = stack.enter_context(Server(file, *words, before=preload(["clocks"], FASTER=faster)))
        start = time.monotonic()
        drips, ends, asking = (stack.enter_context(Peer(server.port)) for _ in range(3))
        message = submission(1)
        for place in range(27):
            after(start, 0.2 * place)
            drips.say(b"x")
            ends.say(message[place:place + 1])
            asking.asks(ASK, NO_JOB, "a peer that asks again and again")
        after(start, 6 * EARLY)
        ends.asks(message[27:], created(1), f"a peer whose message ends at {EARLY} of its whole time")
        asking.asks(ASK, NO_JOB, f"a peer that asks at {EARLY} of its whole time")
        while not is_ended(drips, 0.02) and time.monotonic() < start + 12:
            with contextlib.suppress(OSError):
                drips.say(b"x")
        ends_at(drips, "a peer that drips", start, 6, 6)
        ends_at(asking, "a peer that asks again and again", start, 6, 6)


def exact(folder, tried, cases):
    """Tries all of these at once, and what goes wrong again: something else may have had the processors."""
    library("clocks")

    def often(place, case):
        with attempt(f"with the words {case[0]}, and time {case[1]} times as fast"):
            for again in "abcd":
                with contextlib.suppress(Wrong, OSError):
                    return tried(folder / f"{place}{again}.db", *case)
            tried(folder / f"{place}.db", *case)
    threads = [threading.Thread(target=often, args=(place, case)) for place, case in enumerate(cases)]
    for thread in threads:
        thread.start()
    for thread in threads:
        thread.join()


@slow
def slow_to_the_end(folder):
    """A silent peer has just the time that `--timeout` says, from when it moved something last, whatever that is."""
    exact(folder, silence, SILENT)


@slow
def slow_whole(folder):
    """A peer that drips or asks again and again has just six times as long in all, whatever `--timeout` says."""
    exact(folder, whole_time, WHOLE)
