"""What `sendfax --to` hands in, prints and says."""
import contextlib
import socket
import subprocess
import threading
import time

from .serving import HEADING, check, prints, row, says
from .shared import (ASK, NO_JOB, NotTried, PATIENCE, Peer, Server, attempt, created, expect_same, free_port, get, is_whole,
                     reply, run, wants, whole)


def line_that(answers, port=None):
    """A line that takes one connection; gives its address. A server at the port has the request, and `answers` makes of
    its reply what the peer gets."""
    listener = socket.create_server(("127.0.0.1", 0))

    def carry():
        with listener, contextlib.suppress(OSError):
            near, _ = listener.accept()
            with near:
                near.settimeout(PATIENCE)
                got = b""
                while not is_whole(got):
                    got += near.recv(65536)
                back = whole(port, got) if port else b""
                for part in answers(back):
                    near.sendall(part)
                    time.sleep(0.001)
    threading.Thread(target=carry, daemon=True).start()
    return f"127.0.0.1:{listener.getsockname()[1]}"


FAX = "sendfax", "-d", "+1 415 555-0100", "--pages", "3", "-a", "2033-05-18T03:33:20Z", "--client", "desk"


@check
def sends(folder):
    """What `sendfax --to` hands in is one job, also where its reply is lost and it is repeated, and it prints the reply."""
    with Server(folder / "queue.db") as server:
        to = f"127.0.0.1:{server.port}"
        lossy = line_that(lambda back: [], server.port)
        says(b"", "faxqd: no reply", "'sendfax' whose reply is lost", *FAX, "--request", "7", "--to", lossy)
        prints(b'{"job":1}', "'sendfax' once more", *FAX, "--request", "7", "--to", to)
        prints(b'{"job":1}', "'sendfax' once more", *FAX, "--to", to, "--request", "7")
        prints(b'{"job":2}', "'sendfax' under another number", *FAX, "--request", "8", "--to", to)
        prints(b'{"job":2}', "'sendfax' to a name", *FAX, "--request", "8", "--to", f"localhost:{server.port}")
        dripped = line_that(lambda back: [back[at:at + 1] for at in range(len(back))], server.port)
        prints(b'{"job":2}', "'sendfax' whose reply drips", *FAX, "--request", "8", "--to", dripped)
        says(b'{"no":7,"word":"number-reused"}', "faxqd: refused 409", "'sendfax' of another fax under a used number",
             *FAX, "-P", "1", "--request", "8", "--to", to)
        with Peer(server.port) as peer:
            rows = "".join(row(job, "P", "+14155550100", "", "0:3", "2033-05-18 03:33") for job in (1, 2))
            peer.asks(get("/jobs"), reply("200 OK", HEADING + rows, kind="text/plain"), "the jobs that 'sendfax' handed in")
        status, out, err, _ = run(*FAX, "--request", "0", "--to", to)
        expect_same((status, out, err), (2, b"", b"faxqd: bad request\n"), "'sendfax' with a text at fault")
        with open("/dev/full", "wb") as full:
            status, _, err, _ = run(*FAX, "--request", "9", "--to", to, stdout=full)
        expect_same((status, err), (1, b"faxqd: ended write-failed\n"), "'sendfax' where the output is full")
        prints(b'{"job":3}', "'sendfax' once more", *FAX, "--request", "9", "--to", to)


# What a server that isn't the queue, or breaks off, gives as its reply.
NO_REPLY = (
    b"", b"220 office ESMTP\r\n", b"HTTP/1.1 201 Created\r\n\r\n", created(1)[:-1],
    b"HTTP/1.1 100 Continue\r\nContent-Length: 0\r\n\r\n",
    b"HTTP/1.1 201 Created\r\nContent-Length: 9\r\nContent-Length: 9\r\n\r\n{\"job\":1}",
    b"HTTP/1.1 201 Created\r\nContent-Length: 65537\r\n\r\n" + b"x" * 65537,
    b"HTTP/1.1 201 Created\r\n" + b"A: a\r\n" * 64 + b"Content-Length: 0\r\n\r\n",
    b"HTTP/1.1 201 Created\r\nA: " + b"a" * 16384 + b"\r\nContent-Length: 0\r\n\r\n",
)


@check
def sends_to_others(folder):
    """`sendfax --to` takes no reply but a whole one of up to 64 kB, and tells a refusal by its status."""
    fax = [*FAX, "--request", "7", "--to"]
    for address in f"127.0.0.1:{free_port()}", "nonsense", "127.0.0.1", "127.0.0.1:x", "":
        with attempt(f"to '{address}'"):
            says(b"", "faxqd: no reply", "'sendfax'", *fax, address)
    for answer in NO_REPLY:
        with attempt(f"answered {answer[:80]!r}"):
            says(b"", "faxqd: no reply", "'sendfax'", *fax, line_that(lambda _, answer=answer: [answer]))
    large = b"HTTP/1.1 201 Created\r\ncontent-length: 65536\r\n\r\n" + b"x" * 65536
    with attempt("a large reply"):
        prints(b"x" * 65536, "'sendfax'", *fax, line_that(lambda _: [large, b"more"]))
    with attempt("a proxy's refusal"):
        says(b"no", "faxqd: refused 503", "'sendfax'", *fax,
             line_that(lambda _: [b"HTTP/1.0 503 Service Unavailable\r\nContent-Length: 2\r\n\r\nno"]))


BOTH = "127.0.0.1", "::1"


def two_named(folder):
    """The words before a program for which localhost has two addresses."""
    wants("unshare", "getent")
    (folder / "hosts").write_text("".join(f"{address} localhost\n" for address in BOTH))
    words = ["unshare", "--mount", "sh", "-c", 'mount --bind "$0" /etc/hosts && exec "$@"', str(folder / "hosts")]
    found = subprocess.run([*words, "getent", "ahosts", "localhost"], capture_output=True, text=True).stdout
    if {line.split()[0] for line in found.splitlines()} != set(BOTH):
        raise NotTried("localhost can't be given two addresses")
    return words


def listening(port, *addresses):
    """Listens at this port of these addresses, until this ends."""
    stack = contextlib.ExitStack()
    for address in addresses:
        family = socket.AF_INET6 if ":" in address else socket.AF_INET
        stack.enter_context(socket.create_server((address, port), family=family))
    return stack


def answered_at(address, port):
    """A server answers at this address."""
    with socket.create_connection((address, port), timeout=PATIENCE) as peer:
        peer.sendall(ASK)
        expect_same(peer.recv(65536), NO_JOB, f"at {address}")


@check
def two_addresses(folder):
    """Where localhost has two addresses `serve` listens on one that is free, and `sendfax` reaches it there."""
    before = two_named(folder)
    for place, address in enumerate(BOTH):
        with attempt(f"a server at {address}, where the other address is taken"):
            port = free_port()
            with listening(port, *(other for other in BOTH if other != address)):
                server = Server(folder / f"{place}.db", port=port, host="localhost", before=before)
            with server:
                answered_at(address, port)
                ran = run(*FAX, "--request", "7", "--to", f"localhost:{port}", before=before)
                expect_same(ran[:3], (0, b'{"job":1}', b""), "'sendfax' ends, and says")
    port = free_port()
    with attempt("both addresses taken"), listening(port, *BOTH):
        ran = run("serve", "--db", folder / "queue.db", "--listen", f"localhost:{port}", before=before)
        expect_same(ran[:3], (1, b"", b"faxqd: cannot listen\n"), "'serve' ends, and says")
    with attempt("nobody at either address"):
        ran = run(*FAX, "--request", "7", "--to", f"localhost:{port}", before=before)
        expect_same(ran[:3], (1, b"", b"faxqd: no reply\n"), "'sendfax' ends, and says")
