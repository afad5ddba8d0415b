"""`serve` beside peers that hold nobody: silent ones, such that drip, such that take nothing of what they ask for, and more than
it has places for; and which connections it counts."""
import concurrent.futures
import contextlib
import http.client
import itertools
import json
import multiprocessing
import resource
import select
import signal
import socket
import threading
import time

from .runner import group
from .shared import (CLOSE, MANY, NO_JOB, NO_JOB_LAST, PATIENCE, Peer, SETUP, Server, Wrong, answer_to, attempt, busyness, expect,
                     get, post, preload, say, settle, within)

check = group("peers", "Runs `serve` beside slow peers, greedy ones and more than it has places for: how long a request "
              "takes, what memory they take, and how connections are counted.")
LIMIT = 0.02  # seconds that a request may take at the 99th percentile
ASK = get("/jobs/999999", CLOSE)


def serving(folder, **more):
    """A server on a new file, with two modems, for as many connections as come."""
    (folder / "setup").write_text(SETUP)
    return Server(folder / "queue.db", "--setup", folder / "setup", *MANY, **more)


def connect(port, receives=None):
    return Peer(port, receives).socket


def work(port, modem, told):
    """A worker that finishes a fax of twenty pages."""
    number = itertools.count(1)

    def ask(path, body=None):
        text = json.dumps(body) if body else ""
        status, reply = answer_to(port, post(path, next(number), text, modem, CLOSE))
        expect(status == 200, f"{path} of {modem} is answered {status} {reply!r}")
        return json.loads(reply)

    try:
        grant = ask(f"/modems/{modem}/next")["grant"]
        ask(f"/grants/{grant}/call", {"result": "connected"})
        for page in range(1, 21):
            ask(f"/grants/{grant}/page", {"page": page})
        end = ask(f"/grants/{grant}/outcome", {"dialed": True, "outcome": "done", "pages": 20})
        told[modem] = end["state"]
    except (Wrong, OSError, KeyError) as fault:
        told[modem] = fault


def times(port, count):
    """How many seconds each of so many requests takes, one connection each, in ascending order."""
    took = []
    for _ in range(count):
        start = time.monotonic()
        status, _ = answer_to(port, ASK)
        took.append(time.monotonic() - start)
        expect(status == 404, f"a look at no job is answered {status}")
    return sorted(took)


@contextlib.contextmanager
def dripping(peers):
    """Each of these says a byte of a message in each second, until this ends."""
    ends = threading.Event()

    def drip():
        for byte in post("/jobs", 1, "number:5550111\ntotpages:1\n", "drip", CLOSE):
            for peer in peers:
                with contextlib.suppress(OSError):
                    peer.send(bytes([byte]))
            if ends.wait(1):
                return
    thread = threading.Thread(target=drip)
    thread.start()
    try:
        yield
    finally:
        ends.set()
        thread.join()


def times_below(port, count, place):
    """The times of so many requests, again where that at this place is too long: something else may have had the processors.
    Returns what that one may take, too."""
    for _ in range(5):
        took, limit = times(port, count), LIMIT * busyness()
        if took[place] < limit:
            break
    return took, limit


@check
def crowd(folder):
    """Behind 40 silent peers, 10 that drip, 3 that take nothing of 12 MB and 200 more for whom there is no place, a request is
    answered in 20 ms, and two workers finish their faxes."""
    with serving(folder) as server, contextlib.ExitStack() as stack:
        port, told = server.port, {}
        for number in 1, 2:
            order = f"number:555011{number}\ntotpages:20\nnote:{60000 * 'x'}\n"
            expect(answer_to(port, post("/jobs", number, order, fields=CLOSE))[0] == 201, "a fax isn't taken")
        peers = [stack.enter_context(connect(port)) for _ in range(40)]
        drips = [stack.enter_context(connect(port)) for _ in range(10)]
        for _ in range(3):
            stack.enter_context(connect(port, 4096)).sendall(200 * b"GET /jobs/1 HTTP/1.1\r\n\r\n")
        time.sleep(0.5)  # until what the system buffers for these is full
        workers = [threading.Thread(target=work, args=(port, modem, told)) for modem in ("ttyS0", "ttyS1")]
        with dripping(drips):
            alone, alone_limit = times_below(port, 300, 297)
            for worker in workers:
                worker.start()
            start = time.monotonic()
            peers += [stack.enter_context(connect(port)) for _ in range(200)]
            took, limit = times_below(port, 1000, 990)
            whole = time.monotonic() - start
            for worker in workers:
                worker.join(PATIENCE)
        expect(told == {"ttyS0": 7, "ttyS1": 7}, f"two workers' faxes of twenty pages come to {told}")
    say(f"beside 53 slow peers a request takes {1e6 * alone[150]:.0f} us, {1e6 * alone[297]:.0f} us at the 99th percentile")
    say(f"with 200 more that wait {1e6 * took[500]:.0f} us, {1e6 * took[990]:.0f} us at the 99th percentile and "
        f"{took[-1]:.2f} s at most; 1,000 take {whole:.1f} s")
    expect(alone[297] < alone_limit, f"beside 53 slow peers a request takes {alone[297]:.3f} s at the 99th percentile")
    expect(took[990] < limit, f"beside 253 slow peers a request takes {took[990]:.3f} s at the 99th percentile")


@check
def greedy(folder):
    """Forty peers that ask on and on, a hundred messages at a time, hold nobody, and get all their replies."""
    with serving(folder) as server:
        ends, fault = threading.Event(), []

        def ask(place):
            numbers = itertools.count(1)
            with connect(server.port) as peer, contextlib.suppress(ConnectionError):
                for _ in range(9):
                    part = [next(numbers) for _ in range(100)]
                    peer.sendall(b"".join(b"GET /jobs/%d HTTP/1.1\r\n\r\n" % (100_000 + n % 7) for n in part))
                    got = b""
                    while got.count(b"no-job") < 100:
                        piece = peer.recv(65536)
                        if not piece:
                            fault.append(f"greedy peer {place} gets {got.count(b'no-job')} of 100 replies")
                            return
                        got += piece
                    if ends.is_set():
                        return
        threads = [threading.Thread(target=ask, args=(place,)) for place in range(40)]
        for thread in threads:
            thread.start()
        took = times(server.port, 200)
        ends.set()
        for thread in threads:
            thread.join(PATIENCE)
        expect(not fault, "; ".join(fault[:3]))
    say(f"beside 40 greedy peers a request takes {1e3 * took[100]:.1f} ms, {1e3 * took[197]:.1f} ms at the 99th percentile")


@check
def kept_open(folder):
    """Clients that keep their connection open, as a browser does, and are idle for up to a minute, hold nobody; time runs twenty
    times as fast for the server."""
    with serving(folder, before=preload(["clocks"], FASTER=20)) as server:
        clients = [http.client.HTTPConnection("127.0.0.1", server.port, timeout=PATIENCE) for _ in range(6)]

        def fetch(client):
            """As a browser does: a request on the open connection, and on a new one where that was closed."""
            for attempt in 1, 2:
                try:
                    client.request("GET", "/jobs")
                    answer = client.getresponse()
                    return answer.status, answer.read()
                except (ConnectionError, http.client.HTTPException):
                    expect(attempt == 1, "a request on a new connection isn't answered")
                    client.close()
            raise Wrong("never here")

        for idle in 0.02, 0.2, 3, 0:  # seconds; 3 are a minute for the server
            for client in clients:
                status, listing = fetch(client)
                expect(status == 200 and listing.startswith(b"   JID Pri S "), f"a fetch is answered {status}")
            took = times(server.port, 50)
            expect(took[-1] < 0.5 * busyness(), f"after idle clients a request takes {took[-1]:.3f} s")
            time.sleep(idle)
        for client in clients:
            client.close()


@check
def memory(folder):
    """Sixty-four connections that have each sent 80 kB of a message take less than 24 MB, and a message is answered behind
    them."""
    with serving(folder) as server, contextlib.ExitStack() as stack:
        before = server.memory()
        fields = "".join(f"X-{place}: {240 * 'x'}\r\n" for place in range(60))
        head = f"POST /jobs HTTP/1.1\r\nFax-Client: desk\r\nFax-Number: 1\r\n{fields}Content-Length: 65536\r\n\r\n".encode()
        part = head + 65_000 * b"x"
        peers = [stack.enter_context(connect(server.port)) for _ in range(64)]
        for peer in peers:
            peer.sendall(part)
        until = time.monotonic() + 2
        while time.monotonic() < until:
            time.sleep(0.1)
        used = server.memory()
        say(f"64 connections with {len(part):,} bytes each: {used / 1e6:.1f} MB, {before / 1e6:.1f} MB before")
        expect(used < 24_000_000, f"64 connections with {len(part)} bytes each take {used / 1e6:.1f} MB")
        expect(answer_to(server.port, ASK)[0] == 404, "behind them a message isn't answered")


def few_files():
    resource.setrlimit(resource.RLIMIT_NOFILE, (20, 20))


@check
def no_files(folder):
    """A server that may open no file more goes on with who is there, doesn't spin, and accepts again once one leaves."""
    with serving(folder, limits=few_files) as server, contextlib.ExitStack() as stack:
        peers = [stack.enter_context(connect(server.port)) for _ in range(30)]
        time.sleep(0.2)
        start, used = time.monotonic(), server.processor()
        for _ in range(20):
            peers[0].sendall(ASK.replace(b"Connection: close\r\n", b""))
            expect(peers[0].recv(65536).startswith(b"HTTP/1.1 404 "), "who is there isn't answered")
            time.sleep(0.05)
        used = server.processor() - used
        say(f"without files it uses {used:.2f} s of a processor in {time.monotonic() - start:.1f} s")
        expect(used < 0.5, f"without files it uses {used:.2f} s of a processor in a second")
        for peer in peers:
            peer.close()
        expect(answer_to(server.port, ASK)[0] == 404, "once they have left a message isn't answered")


@check
def idle(folder):
    """A server with nothing to do does nothing."""
    with serving(folder) as server, contextlib.ExitStack() as stack:
        for place in range(70):
            peer = stack.enter_context(connect(server.port))
            with contextlib.suppress(OSError):
                peer.sendall(b"GET /jobs" if place % 2 else b"")
        time.sleep(1.5)
        used = server.processor()
        time.sleep(1)
        used = server.processor() - used
        say(f"with 70 silent peers it uses {used:.2f} s of a processor in a second")
        expect(used < 0.1, f"with 70 silent peers it uses {used:.2f} s of a processor in a second")
        server.process.send_signal(signal.SIGTERM)
        server.process.wait(PATIENCE)


def stubborn(port, stack, count):
    """So many peers that ask for 60 kB two hundred times and read nothing."""
    for _ in range(count):
        with contextlib.suppress(OSError):  # one that was disconnected
            stack.enter_context(connect(port, 4096)).sendall(200 * b"GET /jobs/1 HTTP/1.1\r\n\r\n")


@check
def unread(folder):
    """While 64 or 200 peers read nothing of their replies and have more requests unread in their sockets, these are sent away
    for others: a request is answered within a second, eight clients that keep their connections open keep them, and the
    server doesn't spin."""
    for count in 64, 200:
        with attempt(f"{count} peers that read nothing"), contextlib.ExitStack() as stack, \
                Server(folder / f"{count}.db", *MANY, "--timeout", "300") as server:
            order = f"number:5550111\ntotpages:20\nnote:{60000 * 'x'}\n"
            expect(answer_to(server.port, post("/jobs", 1, order, fields=CLOSE))[0] == 201, "a fax isn't accepted")
            stubborn(server.port, stack, count)
            # until all have come whose turn it is, and what the system buffers for them is full; one for whom there was no room
            # tries again after up to 3.2 s (RFC 6298)
            settle(server, 4)
            used = server.processor()
            took = times(server.port, 20)
            patience = 3 * busyness()
            clients = [stack.enter_context(Peer(server.port, patience=patience)) for _ in range(8)]
            for asked in 1, 2:
                for number, client in enumerate(clients):
                    client.asks(get("/jobs/999999"), NO_JOB, f"client {number}, asking for the {asked}. time")
            time.sleep(1)
            used = server.processor() - used
            say(f"beside {count} peers that read nothing a request takes {took[-1]:.3f} s at most, and {used:.2f} s of a processor "
                "are used in a second")
            expect(took[-1] < busyness(), f"a request takes {took[-1]:.2f} s")
            expect(used < 0.2, f"the server uses {used:.2f} s of a processor")


@check
def last(folder):
    """After the last connection has come, the server ends within a second or two although others stay open and idle, and
    after `--timeout` although one goes on asking; what was asked before is answered."""
    ask = get("/jobs/999999")
    for how, limit, pause in (("idle", 3, 0), ("asking", 4.5, 0.1)):
        with attempt(f"one stays, {how}"), Server(folder / f"{how}.db", "--connections", "2", "--timeout", "3") as server, \
                Peer(server.port) as peer:
            peer.say(ask)
            expect(peer.reply() == NO_JOB, f"the first gets {peer.got!r}")
            expect(answer_to(server.port, ASK)[0] == 404, "the last isn't answered")
            start, asked, most = time.monotonic(), 0, limit * busyness()
            with contextlib.suppress(OSError):
                while pause and time.monotonic() < start + 2 * most:
                    peer.asks(ask, NO_JOB, "who goes on asking")
                    asked += 1
                    time.sleep(pause)
            expect(asked * busyness() >= 15 or not pause, f"who goes on asking is answered {asked} times")
            server.ends("after its last connection", most)
            took = time.monotonic() - start
            say(f"with one that stays, {how}, it ends after {took:.1f} s")
            expect(took < most, f"it ends after {took:.1f} s")


REFUSED = 0.05  # seconds behind an accept that fails


def failing(file, refused, count):
    """A server for so many connections, of which the first can't be accepted."""
    return Server(file, "--connections", str(count), before=preload(["refuse_accept"], REFUSE_ACCEPTS=refused))


@check
def misses(folder):
    """Each accept that fails counts as a served connection, 50 milliseconds pass behind it, and the server doesn't spin
    meanwhile; those that are left are served, and it ends behind the last."""
    for refused in 1, 7, 20:
        least = refused * REFUSED
        with attempt(f"{refused} accepts that fail"), failing(folder / f"{refused}.db", refused, refused + 3) as server:
            start, before = time.monotonic(), server.processor()
            with contextlib.ExitStack() as stack:
                for peer in [stack.enter_context(Peer(server.port)) for _ in range(3)]:
                    peer.say(ASK)
                    expect(peer.rest() == NO_JOB_LAST, f"one that is left gets {peer.got!r}")
            took, used = time.monotonic() - start, server.processor() - before
            server.ends("behind those that are left")
            most = least + 0.5 * busyness()
            expect(0.9 * least <= took <= most, f"those that are left are served after {took:.2f} s, not {least:.2f} s")
            expect(used < 0.1, f"the server uses {used:.2f} s of a processor")
    with attempt("each accept fails"), failing(folder / "all.db", 1000, 20) as server, Peer(server.port) as peer:
        start = time.monotonic()
        server.ends("behind twenty accepts that fail")
        took = time.monotonic() - start
        expect(peer.rest() == b"", f"a peer that wasn't accepted gets {peer.got!r}")
        most = 20 * REFUSED + 0.5 * busyness()
        expect(0.9 * 19 * REFUSED <= took <= most, f"it ends after {took:.2f} s, not {20 * REFUSED:.2f} s")


def has_reply(peer):
    """Whether something has come for a peer, which stays where it is."""
    with contextlib.suppress(OSError):
        return bool(select.select([peer.socket], [], [], 0)[0] and peer.socket.recv(1, socket.MSG_PEEK))
    return False


@check
def misses_files(folder):
    """Accepts for want of a file count, too: with all of 40 connections accepted or missed, those that wait aren't served when
    others leave, and the server ends."""
    with Server(folder / "queue.db", "--connections", "40", limits=few_files) as server, contextlib.ExitStack() as stack:
        start, before = time.monotonic(), server.processor()
        peers = [stack.enter_context(Peer(server.port)) for _ in range(30)]
        for peer in peers:
            peer.say(get("/jobs/999999"))
        time.sleep(0.3)
        within("a peer is served", lambda: any(map(has_reply, peers)))
        served = [peer for peer in peers if has_reply(peer)]
        expect(1 <= len(served) < 20, f"with 20 files {len(served)} of 30 peers are served")
        for peer in served:
            expect(peer.reply() == NO_JOB, "who is accepted isn't answered")
        while time.monotonic() < start + (40 - len(served)) * REFUSED + 0.5:
            time.sleep(0.3)
            for peer in served:  # who goes on asking isn't sent away
                peer.asks(get("/jobs/999999"), NO_JOB, "one that is there")
        used = server.processor() - before
        for peer in served:
            peer.socket.close()
        server.ends("once they have left")
        expect(used < 0.2, f"without files it uses {used:.2f} s of a processor")
        for peer in peers:
            expect(peer in served or peer.rest() == b"", f"one that waits gets {peer.got!r}")


CONNECTIONS = 66_000
ASKING = 4  # processes


def ask_each(port, count):
    """How many of so many connections, one after the other, get their reply."""
    answered = 0
    for _ in range(count):
        with socket.socket() as peer:
            peer.settimeout(PATIENCE)
            peer.connect(("127.0.0.1", port))
            peer.sendall(ASK)
            got = b""
            while piece := peer.recv(4096):
                got += piece
            answered += got == NO_JOB_LAST
    return answered


@check
def counted(folder):
    """A server for 66,000 connections, more than a number of two bytes counts, answers each, and ends behind the last one, not
    before."""
    with Server(folder / "queue.db", "--connections", str(CONNECTIONS)) as server:
        fork, share = multiprocessing.get_context("fork"), CONNECTIONS // ASKING - 1
        with concurrent.futures.ProcessPoolExecutor(ASKING, fork) as pool:
            answered = sum(pool.map(ask_each, ASKING * [server.port], ASKING * [share]))
        expect(answered == ASKING * share, f"of {ASKING * share} connections {answered} are answered")
        left = CONNECTIONS - answered
        expect(ask_each(server.port, left - 1) == left - 1, "one of the last connections isn't answered")
        time.sleep(0.2)
        expect(server.process.poll() is None, f"it ends before its last connection, with {server.process.returncode}")
        expect(ask_each(server.port, 1) == 1, "the last connection isn't answered")
        server.ends(f"behind {CONNECTIONS:,} connections")
