"""Whole connections to `serve`: which messages they have, what they are answered, and when they and the server end."""
import contextlib
import re
import shlex
import shutil
import signal
import socket
import subprocess
import threading
import time

from .serving import HEADING, check, fails, row, served
from .shared import (ASK, BAD_LAST, CONVERSATIONS, EXAMPLES, LARGE_LAST, NO_JOB, NO_JOB_LAST, PATIENCE, Peer, Server, Wrong,
                     attempt, created, database_of, expect, expect_same, free_port, get, post, reply, reply_bytes, run, said,
                     slack, submission, whole)


@check
def words(folder):
    """Words at fault are refused and make no file, help tells each option, and an output that can't be written is told."""
    file, free = folder / "queue.db", f"127.0.0.1:{free_port()}"
    both = ["--db", file, "--listen", free]
    for faulty in ([], both[:2], both[2:], [*both, "more"], [*both, "--db", file], [*both, "--listen", free],
                   [*both, "--connections", "0"], [*both, "--connections", "1000001"], [*both, "--connections", "x"],
                   [*both, "--timeout", "0"], [*both, "--timeout", "3601"], [*both, "--timeout", "1.5"],
                   [*both, "--port", "1"]):
        with attempt(f"'serve {' '.join(map(str, faulty))}'"):
            status, out, err, _ = run("serve", *faulty)
            expect(status == 2, f"it ends with {status}")
            expect(out == b"" and err.startswith(b"error: "), f"it says {out!r} and {err!r}")
            expect(not file.exists(), "it makes the file")
    status, out, err, _ = run("serve", "--help")
    expect(status == 0 and err == b"", f"'serve --help' ends with {status}, and says {err!r}")
    for option in b"--db", b"--listen", b"--connections", b"--timeout", b"--setup", b"--controls":
        expect(option in out, f"'serve --help' doesn't tell {option.decode()}")
    with open("/dev/full", "wb") as full:
        status, _, err, _ = run("serve", *both, stdout=full)
    expect(status == 1, f"'serve' ends with {status} where it can't say that it listens")
    expect_same(err, b"faxqd: ended write-failed\n", "'serve' says where it can't say that it listens")


class Examples:
    """The examples of the help texts, with another port."""

    def __init__(self, folder):
        self.folder, self.port = folder, free_port()
        for name in "office.setup", "one-fax.http":
            shutil.copy(EXAMPLES / name, folder)

    def line(self, *command):
        """The example in this help, as a shell reads it behind the program's name."""
        _, out, _, _ = run(*command, "--help")
        found = re.findall(r"\n\nExample:\n  faxqd (.+)\n", out.decode())
        expect(len(found) == 1, f"'{' '.join([*command, '--help'])}' has {len(found)} examples")
        return found[0].replace("127.0.0.1:4559", f"127.0.0.1:{self.port}")

    def prints(self, command):
        """What its example prints."""
        line = self.line(command)
        ran = subprocess.run(["sh", "-c", f'exec "$0" {line}', said.program], cwd=self.folder, timeout=PATIENCE,
                             stdin=subprocess.DEVNULL, capture_output=True)
        expect(ran.returncode == 0 and ran.stderr == b"", f"'{line}' ends with {ran.returncode}, and says {ran.stderr!r}")
        return ran.stdout

    def serving(self, *command):
        """A server by the example in this help."""
        line = shlex.split(self.line(*command))
        expect_same(line[:5], ["serve", "--db", "queue.db", "--listen", f"127.0.0.1:{self.port}"], "an example of 'serve'")
        return Server(line[2], *line[5:], port=self.port, folder=self.folder)


@check
def examples(folder):
    """The example of each help does what it says."""
    of = Examples(folder)
    with of.serving() as server:
        served(of.port, "the example of the program")
        server.stopped(signal.SIGTERM)
    with of.serving("serve") as server:
        expect_same(of.prints("sendfax"), b'{"job":1}', "the example of 'sendfax'")
        expect_same(of.prints("sendfax"), b'{"job":1}', "the example of 'sendfax' once more")
        with Peer(of.port) as peer:
            peer.asks(post("/modems/ttyS1/down", 1), reply("200 OK", '{"down":true}'), "a modem of the example's setup")
        server.stopped(signal.SIGTERM)
    listed = re.sub(r"\d{4}-\d\d-\d\d \d\d:\d\d\n$", "NOW\n", of.prints("list").decode())
    expect_same(listed, HEADING + row(1, "W", "+14155550100", "", "0:3", "NOW"), "the example of 'list'")
    expect_same(of.prints("replay"), (EXAMPLES / "one-fax.replies").read_bytes(), "the example of 'replay'")


@check
def pieces(folder):
    """A submission and what is shown of it are taken in pieces of any size, and moments are the machine's."""
    messages = (CONVERSATIONS / "submit-and-show.in").read_bytes()
    wanted = (CONVERSATIONS / "submit-and-show.out").read_bytes()
    wanted = wanted.replace(b"Content-Length: 178", b"Content-Length: 184").replace(b"\ntts:1000\n", b"\ntts:NOW\n")
    for size in None, 1, 2, 3:
        what = "a submission, and the job shown" + (f", in pieces of {size} bytes" if size else "")
        with attempt(what):
            before = int(time.time())
            with Server(folder / f"pieces-{size}.db") as server:
                got = whole(server.port, messages, size)
            found = re.search(rb"\ntts:(\d+)\n", got)
            expect(found, f"it is answered {got!r}")
            expect(before <= int(found[1]) <= time.time(), f"its moment {found[1]!r} isn't that of the machine")
            expect_same(re.sub(rb"\ntts:\d{10}\n", b"\ntts:NOW\n", got), wanted, "it is answered")


@check
def connections(folder):
    """One connection has many messages, each with its reply, up to a thousand."""
    with Server(folder / "queue.db") as server:
        port = server.port
        with Peer(port) as peer:
            for number in range(1, 6):
                peer.asks(submission(number), created(number), "a client that waits for each reply")
            peer.asks(submission(5), created(5), "a repeat")
            peer.asks(submission(5, "lab"), created(6), "another client")
            peer.say(submission(6) + ASK)
            expect_same(peer.reply() + peer.reply(), created(7) + NO_JOB, "two messages in one segment")
            peer.say(submission(7) + ASK[:9])
            expect_same(peer.reply(), created(8), "a message and part of the next")
            peer.asks(ASK[9:], NO_JOB, "the rest of the next")
            peer.say(b"HEAD /jobs HTTP/1.1\r\n\r\n" + ASK)
            peer.stop()
            lost = reply("404 Not Found", '{"no":3,"word":"no-route"}').partition(b"{")[0]
            expect_same(peer.rest(), lost + NO_JOB, "HEAD /jobs")
        expect_same(whole(port, b""), b"", "a connection without a message")

        with Peer(port) as peer:
            peer.say(1001 * ASK)
            expect_same(peer.rest(), 1000 * NO_JOB, "a connection with 1,001 messages")
        served(port, "a connection with 1,001 messages")


def noted(number):
    """A submission with a note of so many bytes that messages end at all places of what is read."""
    return post("/jobs", number, f"number:5550111\ntotpages:1\nx-note:{37 * number % 1601 * 'n'}\n")


@check
def thousand(folder):
    """A thousand messages that are sent at once, ten times as long as what the server reads ahead, are each answered in their
    order, and the next one isn't."""
    data = b"".join(noted(number) for number in range(1, 1002))
    expect(len(data) > 10 * 81920, f"the messages have {len(data)} bytes")
    with Server(folder / "queue.db") as server:
        with Peer(server.port) as peer:
            sending = threading.Thread(target=peer.say, args=(data,))
            sending.start()
            got = reply_bytes(peer.rest())
            sending.join()
        expect(len(got) == 1000, f"a connection with 1,001 messages has {len(got)} replies")
        wrong = [(job, answer) for job, answer in enumerate(got, 1) if answer != created(job)]
        expect(not wrong, f"of a thousand replies these are wrong: {wrong[:3]}")
        expect_same(whole(server.port, noted(1001)), created(1001), "the message behind the last of a connection, sent again")


@check
def last_messages(folder):
    """Behind a message that says that it is the last, or of HTTP/1.0, nothing is answered, though the peer doesn't close."""
    with Server(folder / "queue.db") as server:
        port = server.port
        for fields in ("Connection: close\r\n", "connection:CLOSE\r\n", "Connection: keep-alive, Close\r\n",
                       "Connection: a ,close , b\r\n", "Connection: keep-alive\r\nConnection: close\r\n"):
            with attempt(f"a message with {fields!r}"), Peer(port) as peer:
                peer.say(get("/jobs/999999", fields) + ASK)
                expect_same(peer.rest(), NO_JOB_LAST, "it is answered")
        for fields in "", "Connection: keep-alive\r\n":
            with attempt(f"a message of HTTP/1.0 with {fields!r}"), Peer(port) as peer:
                peer.say(get("/jobs/999999", fields, "1.0") + ASK)
                expect_same(peer.rest(), NO_JOB_LAST, "it is answered")
        for fields in "Connection: closed\r\n", "Connection: keep-alive\r\n", "X-Connection: close\r\n":
            with attempt(f"a message with {fields!r}"), Peer(port) as peer:
                peer.asks(get("/jobs/999999", fields), NO_JOB, "it")
                peer.asks(ASK, NO_JOB, "the message behind it")


@check
def waiting(folder):
    """Peers that connect and write while another one is there get their replies at once, and that one goes on."""
    with Server(folder / "queue.db") as server, contextlib.ExitStack() as stack:
        with Peer(server.port) as first:
            first.asks(submission(1), created(1), "the peer that stays")
            others = [stack.enter_context(Peer(server.port)) for _ in range(3)]
            for job, other in enumerate(others, 2):
                other.say(submission(job, fields="Connection: close\r\n"))
                expect_same(other.rest(), created(job, last=True), "a peer that comes beside another one")
            first.asks(submission(1), created(1), "the peer that stays, behind others")
        late = [stack.enter_context(Peer(server.port)) for _ in range(60)]  # fewer than its places, so that none has to leave
        for _ in range(3):
            for peer in late[::6]:
                peer.asks(ASK, NO_JOB, "one of sixty peers")


@check
def curls(folder):
    """curl sends two requests on one connection, and a body that waits for leave."""
    with Server(folder / "queue.db") as server:
        url = f"http://127.0.0.1:{server.port}"
        curl = ["curl", "--silent", "--max-time", str(PATIENCE), "--noproxy", "*"]
        out = subprocess.run([*curl, "--write-out", "%{http_code} %{num_connects};", f"{url}/jobs/1", f"{url}/jobs/2"],
                             capture_output=True).stdout
        expect_same(out, b'{"no":8,"word":"no-job"}404 1;{"no":8,"word":"no-job"}404 0;',
                    "curl, two requests on one connection")
        body = b"number:5550111\ntotpages:1\n" + b"note:" + 2000 * b"x" + b"\n"
        start = time.monotonic()
        out = subprocess.run([*curl, "--header", "Fax-Client: desk", "--header", "Fax-Number: 1", "--header",
                              "Expect: 100-continue", "--data-binary", "@-", "--write-out", " %{http_code}",
                              f"{url}/jobs"], input=body, capture_output=True).stdout
        took = time.monotonic() - start
        expect_same(out, b'{"job":1} 201', "curl, a body that waits for leave")
        expect(took <= 1 + slack(), f"curl, a body that waits for leave: the reply takes {took:.1f} s")


@check
def at_once(folder):
    """The body of a reply doesn't wait until its head is confirmed, which a peer puts off for 40 ms."""
    with Server(folder / "queue.db") as server, Peer(server.port) as peer:
        times = []
        for _ in range(31):
            peer.socket.setsockopt(socket.IPPROTO_TCP, socket.TCP_QUICKACK, 0)
            start = time.monotonic()
            peer.asks(ASK, NO_JOB, "a client that waits for each reply")
            times.append(time.monotonic() - start)
    expect(sorted(times)[15] < 0.02, f"a reply takes {sorted(times)[15]:.3f} s: its body waits for leave")


@check
def broken(folder):
    """What begins no message is answered as such, and the next connection is served."""
    names = [file.stem for file in sorted(CONVERSATIONS.glob("*.err"))]
    expect(len(names) >= 10, "checks/conversations/ lacks broken messages")
    with Server(folder / "queue.db") as server:
        job = 0
        for place, name in enumerate(names):
            # All have the job 1 and the client desk, and here each has its own.
            message = (CONVERSATIONS / f"{name}.in").read_bytes()
            wanted = (CONVERSATIONS / f"{name}.out").read_bytes()
            job += b'{"job":1}' in wanted
            message = message.replace(b"Fax-Client: desk", b"Fax-Client: d%03d" % place)
            wanted = wanted.replace(b'{"job":1}', b'{"job":%d}' % job)
            with attempt(f"conversation {name}"):
                expect_same(whole(server.port, message), wanted, "it is answered")
                served(server.port, "behind it")
        for message in b"\0\0\0\0\r\n\r\n", b"\x16\x03\x01\x02\0\x01\0\x01\xfc\x03\x03", b"HELO office\r\n":
            with attempt(message):
                expect_same(whole(server.port, message), BAD_LAST, "it is answered")
                served(server.port, "behind it")
        # The reply reaches a peer that has sent more than the server reads.
        for size in 65537, 1000000:
            with attempt(f"a body of {size} bytes"):
                expect_same(whole(server.port, post("/jobs", 9, size * "x")), LARGE_LAST, "it is answered")
                served(server.port, "behind it")


@check
def leaving(folder):
    """Peers that leave before their message ends, or before their replies, disturb nobody."""
    with Server(folder / "queue.db") as server:
        port = server.port
        text = f"number:5550111\ntotpages:1\nnote:{'x' * 60000}\n"
        with Peer(port) as peer:
            peer.asks(post("/jobs", 1, text), created(1), "a large submission")
        for part in 0, 1, 60, len(submission(2)) - 1:
            with Peer(port) as peer:
                peer.say(submission(2)[:part])
            served(port, f"a peer that closes behind {part} bytes")
            peer = Peer(port)
            peer.say(submission(2)[:part])
            peer.break_off()
            served(port, f"a peer that breaks off behind {part} bytes")
        for count in 1, 100:
            peer = Peer(port, receives=4096)
            peer.say(count * get("/jobs/1"))
            peer.break_off()
            served(port, f"a peer that breaks off before {count} replies")
            with Peer(port, receives=4096) as peer:
                peer.say(count * get("/jobs/1"))
            served(port, f"a peer that closes before {count} replies")
        with Peer(port) as peer:
            peer.asks(submission(2), created(2), "what wasn't sent whole before")


@check
def count(folder):
    """The server ends behind its last connection, whatever became of the others."""
    file = folder / "queue.db"
    with Server(file, "--connections", "4", "--timeout", "1") as server:
        port = server.port
        with Peer(port) as peer:
            peer.asks(submission(1), created(1), "the first of four connections")
        expect_same(whole(port, b"POST /jobs HTT"), BAD_LAST, "the second of four connections")
        with Peer(port):
            pass
        expect(server.process.poll() is None, "it ends before its last connection")
        with Peer(port) as peer:
            peer.asks(submission(1), created(1), "the last of four connections")
        server.ends("behind the last of four connections")
        try:
            Peer(port)
        except ConnectionRefusedError:
            pass
        else:
            raise Wrong("its address is still taken when it has ended")
    with Server(file, "--connections", "1", port=port) as server:
        expect_same(whole(port, submission(2)), created(2), "a server on the same file and address")
        server.ends("behind the only connection")


@check
def full(folder):
    """With a setup that says no limits, jobs are numbered up to 999,999 and grants up to 999,999,999."""
    with Server(folder / "queue.db", "--connections", "1") as server:
        expect_same(whole(server.port, submission(1)), created(1), "a new file")
        server.ends("behind the only connection")
    with database_of(folder / "queue.db") as database:
        database.executescript("UPDATE meta SET next_job = 999999, next_grant = 999999999")
    (folder / "setup").write_text("Modem: ttyS0\nModem: ttyS1\n")
    none = reply("507 Insufficient Storage", '{"no":26,"word":"full"}')
    with Server(folder / "queue.db", "--setup", folder / "setup") as server, Peer(server.port) as peer:
        other = post("/jobs", 2, "number:5550122\ntotpages:1\n")
        peer.asks(other, created(999999), "the last job")
        peer.asks(submission(3), none, "a job behind the last")
        grant = '{"from":1,"grant":999999999,"job":1,"number":"5550111","to":1}'
        peer.asks(post("/modems/ttyS0/next", 1, client="w0"), reply("200 OK", grant), "the last grant")
        peer.asks(post("/modems/ttyS1/next", 1, client="w1"), none, "a grant behind the last")


@check
def addresses(folder):
    """An address that can't be had is told; of several faults that of the setup is told first, then the controls, the
    database and the address."""
    file = folder / "queue.db"
    with attempt("an address in use"), socket.create_server(("127.0.0.1", 0)) as taken:
        fails("faxqd: cannot listen", "--db", file, "--listen", f"127.0.0.1:{taken.getsockname()[1]}")
    for address in "nonsense", "127.0.0.1", "127.0.0.1:", "127.0.0.1:65536", "127.0.0.1:x", "192.0.2.1:4559":
        with attempt(address):
            fails("faxqd: cannot listen", "--db", file, "--listen", address)

    (folder / "bad.db").write_text("This is no database. " * 500)
    (folder / "bad.setup").write_text('Modem: ttyS0\n\nModemClass: "fast:("\n')
    (folder / "bad.controls").write_text('^5550\n\n  TimeOfDay = "Xx"\n')
    ordered = [("faxqd: setup line 3: bad-pattern", ["--setup", folder / "bad.setup"]),
               ("faxqd: controls line 3: bad-hours", ["--controls", folder / "bad.controls"]),
               ("faxqd: database", ["--db", folder / "bad.db"]),
               ("faxqd: cannot listen", ["--listen", "nonsense"])]
    for place, (text, _) in enumerate(ordered):
        options = {"--db": file, "--listen": f"127.0.0.1:{free_port()}"}
        for _, (option, value) in ordered[place:]:
            options[option] = value
        with attempt(text):
            fails(text, *[word for option in reversed(options.items()) for word in option])
    for option in "--setup", "--controls":
        with attempt(f"{option} that isn't there"):
            fails(f"faxqd: cannot read {folder}/none", "--db", folder / "bad.db", "--listen", "nonsense",
                  option, folder / "none")
