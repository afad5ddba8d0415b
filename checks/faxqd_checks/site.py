"""nginx in front of the queue and the desk, with the site examples/fax.nginx, and on the machine of a worker, with the site
examples/worker.nginx."""
import base64
import contextlib
import http.client
import http.server
import os
import ssl
import subprocess

from .runner import group
from .shared import (CLOSE, InThread, MANY, Server, TOP, answer_to, expect, expect_same, free_port, get, is_free, post, run, said,
                     wants, within)

check = group("site", "Tries the sites examples/fax.nginx and worker.nginx in nginx.", "waiting")


class Proxy:
    """nginx with the site examples/fax.nginx, in which only names, addresses and paths of files are replaced. The password of its users is
    `secret`."""

    def __init__(self, folder, *users, only_desk=()):
        self.folder, self.port, self.log, self.process, self.more = folder, free_port(), folder / "fax.log", None, ""
        self.users, self.only_desk = (*users, *only_desk), only_desk
        folder.chmod(0o755)
        self.does("openssl", "req", "-x509", "-newkey", "ec", "-pkeyopt", "ec_paramgen_curve:P-256", "-nodes", "-keyout",
                  folder / "key", "-out", folder / "pem", "-days", "2", "-subj", "/CN=localhost")
        secret = self.does("openssl", "passwd", "-apr1", "secret")
        (folder / "users").write_text("".join(f"{user}:{secret}\n" for user in self.users))

    @staticmethod
    def does(*words):
        ran = subprocess.run(words, capture_output=True, text=True)
        expect(ran.returncode == 0, f"{words[0]} says {ran.stderr}")
        return ran.stdout.strip()

    def configuration(self, queue, desk):
        """The configuration, for a queue and a desk at these ports."""
        site = (TOP / "examples/fax.nginx").read_text()
        names = "".join(f"{user} 1;\n" for user in self.users if user != "ttyS0" and user not in self.only_desk)
        for old, new, times in (("frontdesk  1;", names, 1), ("listen 443", f"listen 127.0.0.1:{self.port}", 1), ("/etc/nginx/fax.pem", self.folder / "pem", 1),
                                ("/etc/nginx/fax.key", self.folder / "key", 1), ("/etc/nginx/fax.users", self.folder / "users", 1),
                                ("/var/log/nginx/fax.log", self.log, 1),
                                ("http://127.0.0.1:4559", f"http://127.0.0.1:{queue}", 3),
                                ("http://127.0.0.1:4560", f"http://127.0.0.1:{desk}", 1)):
            expect(site.count(old) == times, f"the site hasn't {old} {times} times")
            site = site.replace(old, str(new))
        places = " ".join(f"{kind}_temp_path {self.folder}/{kind};" for kind in ("client_body", "proxy", "fastcgi", "uwsgi", "scgi"))
        return (f"pid {self.folder}/pid; error_log {self.folder}/errors; events {{}} daemon off; user root;\n"
                f"http {{ {places}\n{site}{self.more}}}\n")

    def start(self, queue, desk):
        """Starts nginx in front of a queue and a desk at these ports, or starts it again."""
        self.stop()
        (self.folder / "nginx.conf").write_text(self.configuration(queue, desk))
        # `daemon off` has nginx end with its workers when it gets SIGTERM, and not when it is killed.
        self.process = subprocess.Popen(["nginx", "-c", self.folder / "nginx.conf", "-p", self.folder],
                                        stdin=subprocess.DEVNULL, stdout=subprocess.DEVNULL, stderr=subprocess.PIPE, text=True)
        within(self.says, lambda: self.process.poll() is not None or not is_free(self.port))
        expect(self.process.poll() is None, self.says())

    def says(self):
        return f"nginx listens; it says {self.process.stderr.read() if self.process.poll() is not None else 'nothing'}"

    def stop(self):
        if self.process:
            self.process.terminate()
            self.process.communicate()
            self.process = None


class Asked:
    """What nginx answers to a request of a user, with these fields."""

    def __init__(self, proxy, method, path, user=None, body=None, password="secret", fields=()):
        unknown = ssl._create_unverified_context()
        door = http.client.HTTPSConnection("127.0.0.1", proxy.port, timeout=20, context=unknown)
        with contextlib.closing(door):
            door.putrequest(method, path)
            if user is not None:
                login = base64.b64encode(f"{user}:{password}".encode()).decode()
                door.putheader("Authorization", f"Basic {login}")
            for name, value in fields:
                door.putheader(name, value)
            if body is not None:
                door.putheader("Content-Length", str(len(body)))
            door.endheaders(body.encode() if body is not None else None)
            reply = door.getresponse()
            self.status, self.fields, self.body = reply.status, reply.headers, reply.read()
        self.own = self.body.startswith((b'{"', b"   JID"))  # whether it is the queue's own


FAX = "number:5550111\ntotpages:1\n"


@check
def recipe(folder):
    """A request in the login's own name and a GET reach the queue, one in another's name is refused, as is one without the
    password; /modems and /grants are the workers' alone, and a purge is nobody's, however the path is written; and what browsers ask
    reaches the desk with the login as the user."""
    wants("nginx", "openssl")
    (folder / "setup").write_text("Modem: ttyS0\n")
    proxy = Proxy(folder, "desk", "other", "0", "ttyS0", only_desk=("anna",))
    with Server(folder / "queue.db", *MANY, "--setup", folder / "setup") as server, StubDesk() as desk:
        try:
            proxy.start(server.port, desk.port)
            names(proxy)
            workers(proxy)
            purges(proxy)
            browsers(proxy, desk)
            desk_alone(proxy, desk)
        finally:
            proxy.stop()
        listed = answer_to(server.port, get("/jobs", CLOSE))[1].decode()
        expect(len(listed.splitlines()) == 3, f"of all requests only two are faxes, and the queue has {listed!r}")
        expect(" R " in listed.splitlines()[1], f"only the worker's question gave a grant, and the queue has {listed!r}")


def named(*clients, number):
    """The fields of a request."""
    return [*(("Fax-Client", client) for client in clients), ("Fax-Number", str(number))]


def is_answered(asked, wanted, own, what):
    expect((asked.status, asked.own) == (wanted, own), f"{what} is answered {asked.status} {asked.body[:200]!r}")


def names(proxy):
    """Each login speaks for itself alone."""
    is_answered(Asked(proxy, "POST", "/jobs", "desk", FAX, fields=named("desk", number=1)), 201, True, "a fax in one's own name")
    is_answered(Asked(proxy, "POST", "/jobs", "0", FAX, fields=named("0", number=1)), 201, True, "a fax of the client 0")
    is_answered(Asked(proxy, "GET", "/jobs", "desk"), 200, True, "a listing without a client's name")
    asked = Asked(proxy, "GET", "/modems", "desk")
    expect((asked.status, asked.body) == (200, b"ttyS0:up\n"), f"a client's GET /modems is answered {asked.status} {asked.body[:200]!r}")
    asked = Asked(proxy, "POST", "/numbers/floor", "desk", '{"upto":1}', fields=named("other", number=2))
    is_answered(asked, 403, False, "a floor of another client")
    for user, client in (("desk", "other"), ("desk", "0"), ("desk", "Desk"), ("desk", "desk2"), ("desk", "esk"), ("0", "desk"),
                         ("desk", "desk desk"), ("other", "ttyS0")):
        asked = Asked(proxy, "POST", "/jobs", user, FAX, fields=named(client, number=2))
        is_answered(asked, 403, False, f"a fax of {client} under the login {user}")
    for clients in ("desk", "other"), ("other", "desk"):
        asked = Asked(proxy, "POST", "/jobs", "desk", FAX, fields=named(*clients, number=2))
        expect(asked.status in (400, 403), f"a fax of {clients} is answered {asked.status}")
    is_answered(Asked(proxy, "POST", "/jobs", "desk", FAX, fields=named(number=2)), 400, True, "a fax of nobody")
    for method, path, body in (("GET", "/jobs", None), ("POST", "/jobs", FAX), ("GET", "/jobs/newest", None)):
        fields = named("desk", number=2) if method == "POST" else ()
        is_answered(Asked(proxy, method, path, None, body, fields=fields), 401, False, f"{method} {path} without a login")
        asked = Asked(proxy, method, path, "desk", body, "secrets", fields)
        is_answered(asked, 401, False, f"{method} {path} with a wrong password")


def workers(proxy):
    """Only workers ask for work and report, however a path is written."""
    for path in ("/modems/ttyS0/next", "//modems/ttyS0/next", "/%6dodems/ttyS0/next", "/jobs/../modems/ttyS0/next",
                 "/./modems/ttyS0/down", "/grants/1/call", "/modems/ttyS0/next?", "/modems/ttyS0/next?x=/jobs"):
        asked = Asked(proxy, "POST", path, "desk", "{}", fields=named("desk", number=3))
        is_answered(asked, 403, False, f"a client's POST {path}")
    for path in "/MODEMS/ttyS0/next", "/jobs/../../modems/ttyS0/next", "/modems", "/jobs/%2e%2e/modems/ttyS0/next":
        asked = Asked(proxy, "POST", path, "desk", "{}", fields=named("desk", number=3))
        expect(400 <= asked.status < 500, f"a client's POST {path} is answered {asked.status}")
    expect(Asked(proxy, "POST", "/modems/ttyS0/next", None, "{}", fields=named("ttyS0", number=1)).status in (401, 403),
           "a worker without a login is answered")
    asked = Asked(proxy, "POST", "/modems/ttyS0/next", "ttyS0", "{}", "secrets", named("ttyS0", number=1))
    is_answered(asked, 401, False, "a worker with a wrong password")
    asked = Asked(proxy, "POST", "/modems/ttyS0/next", "ttyS0", "", fields=named("ttyS0", number=1))
    is_answered(asked, 200, True, "a worker's question")
    expect(b'"grant":1' in asked.body, f"a worker gets {asked.body!r}")
    for method, path, body in ("GET", "/modems", None), ("GET", "/jobs/1", None), ("POST", "/numbers/floor", '{"upto":1}'):
        asked = Asked(proxy, method, path, "ttyS0", body, fields=named("ttyS0", number=9) if body else ())
        expect(asked.status == 200, f"a worker's {method} {path} is answered {asked.status} {asked.body[:200]!r}")
    for method, path in (("POST", "/jobs"), ("POST", "/jobs/1/kill"), ("GET", "/jobs"), ("POST", "/imports"),
                         ("GET", "/jobs/1/times")):
        asked = Asked(proxy, method, path, "ttyS0", FAX if method == "POST" else None, fields=named("ttyS0", number=10))
        is_answered(asked, 403, False, f"a worker's {method} {path}")


def purges(proxy):
    """Nobody purges by way of nginx, however the path is written."""
    for user, path in (("desk", "/jobs/purge"), ("ttyS0", "/jobs/purge"), ("desk", "//jobs/purge"), ("desk", "/jobs/%70urge"),
                       ("desk", "/jobs/./purge"), ("desk", "/jobs/x/../purge"), ("desk", "/jobs/purge?x")):
        asked = Asked(proxy, "POST", path, user, '{"before":0}', fields=named(user, number=4))
        is_answered(asked, 403, False, f"a purge of {user} by {path}")
    for path in "/jobs/purge/", "/jobs/PURGE", "/jobs/purge%3fx", "/jobs/purge%2f":
        asked = Asked(proxy, "POST", path, "desk", '{"before":0}', fields=named("desk", number=4))
        expect(400 <= asked.status < 500, f"a purge by {path} is answered {asked.status}")


def browsers(proxy, desk):
    """What a browser asks reaches the desk alone, and the user is the login, whatever the browser states."""
    for method, path, body in (("GET", "/", None), ("POST", "/faxes", "x" * 70_000), ("GET", "/faxes/1/pages/2", None),
                               ("GET", "/static/desk.css", None)):
        asked = Asked(proxy, method, path, "desk", body, fields=(("X-Remote-User", "other"),))
        expect((asked.status, asked.body) == (200, b"desk"), f"{method} {path} is answered {asked.status} {asked.body[:200]!r}")
        users, host = desk.seen[-1]
        expect((users, host) == (["desk"], f"127.0.0.1:{proxy.port}"), f"the desk sees the users {users} at {host}")
        expect(Asked(proxy, method, path, None, body).status == 401, f"{method} {path} without a login is answered")
    count = len(desk.seen)
    for path in "/fax", "/metrics", "/health", "/jobs", "/x/faxes":
        Asked(proxy, "GET", path, "desk")
    expect(len(desk.seen) == count, f"the desk is asked {desk.seen[count:]}")
    expect(Asked(proxy, "POST", "/faxes", "desk", "x" * 22_020_097).status == 413, "more than 21 MB are taken")


def desk_alone(proxy, desk):
    """Who uses the desk alone reaches nothing of the queue."""
    expect(Asked(proxy, "GET", "/faxes", "anna").body == b"desk", "a user doesn't reach the desk")
    for method, path in (("GET", "/jobs"), ("GET", "/jobs/1"), ("POST", "/jobs"), ("POST", "/jobs/1/kill"), ("GET", "/modems"),
                         ("POST", "/imports"), ("POST", "/numbers/floor"), ("GET", "//jobs"), ("GET", "/faxes/../jobs")):
        asked = Asked(proxy, method, path, "anna", FAX if method == "POST" else None, fields=named("anna", number=9))
        is_answered(asked, 403, False, f"{method} {path} of a user of the desk")


MODEM = """#!/bin/sh
case $1 in dial) echo connected ;; page) echo "$2 $3" >> "${0%/*}/pages" ;; esac
"""


def far_site(proxy, port):
    """The site examples/worker.nginx at this port, towards this proxy; only addresses and files are replaced."""
    site = (TOP / "examples/worker.nginx").read_text()
    for old, new in (("listen 127.0.0.1:4559", f"listen 127.0.0.1:{port}"),
                     ("https://fax.office.example", f"https://127.0.0.1:{proxy.port}"),
                     ("proxy_ssl_name fax.office.example", "proxy_ssl_name localhost"),
                     ("/etc/ssl/certs/ca-certificates.crt", str(proxy.folder / "pem"))):
        expect(site.count(old) == 1, f"the site of a worker hasn't {old} once")
        site = site.replace(old, new)
    return site


@check
def far_worker(folder):
    """Through the site examples/worker.nginx of its own machine, with TLS and its password, worker.sh sends a fax, a worker whose
    journal was lost holds its grant, and replies are given up; nothing goes under another name, and nothing if the server's
    certificate isn't known."""
    wants("nginx", "openssl", "flock")
    (folder / "setup").write_text("Modem: ttyS0\n")
    (folder / "modem").write_text(MODEM)
    (folder / "modem").chmod(0o755)
    (folder / "floor").write_text('{"upto":1}')
    proxy, port = Proxy(folder, "desk", "ttyS0"), free_port()
    proxy.more = far_site(proxy, port)
    to = "--to", f"127.0.0.1:{port}"

    def worker(name, *words):
        return run("worker", *to, "--journal", folder / name, "--wait", "60", *words, patience=120)[:3]

    def posts(client, name, *words):
        return run("post", *to, "--journal", folder / name, "--client", client, "--wait", "0", *words)[:3]

    with Server(folder / "queue.db", *MANY, "--setup", folder / "setup") as server:
        try:
            proxy.start(server.port, 1)
            for number in 1, 2:
                answer_to(server.port, post("/jobs", number, "number:5550111\ntotpages:2\n", fields=CLOSE))
            expect(worker("one", "--modem", "ttyS0", "next")[1].startswith(b"grant 1 job 1 "), "a worker gets no work")
            expect_same(worker("one", "call", "connected"), (0, b"go\n", b""), "a call")
            lost = 0, b"grant 1 job 1 number 5550111 pages 1-2 call connected\n", b""
            expect_same(worker("two", "--modem", "ttyS0", "next"), lost, "what a worker holds whose journal was lost")
            expect_same(worker("two", "end", "fail"), (0, b"job 1 state 8\n", b""), "its end")
            given_up = posts("ttyS0", "three", "/numbers/floor", folder / "floor")
            expect(given_up[0] == 0 and given_up[1].startswith(b'{"floor":'), f"replies are given up: {given_up}")
            nothing = 4, b"", b"faxqd: no answer\n"
            expect_same(posts("desk", "four", "/jobs", folder / "setup"), nothing, "a request in another name")
            environment = {**os.environ, "PROGRAM": str(said.program), "FAXQD": f"127.0.0.1:{port}", "WAIT": "0.2"}
            process = subprocess.Popen([TOP / "examples/worker.sh", "ttyS0", folder / "ttyS0", folder / "modem"], env=environment,
                                       stdin=subprocess.DEVNULL)
            try:
                within("the fax is done", lambda: b"\nstate:7\n" in answer_to(server.port, get("/jobs/2", CLOSE))[1], 300)
            finally:
                process.terminate()
                process.wait()
            expect_same((folder / "pages").read_text(), "2 1\n2 2\n", "the pages")
            proxy.does("openssl", "req", "-x509", "-newkey", "ec", "-pkeyopt", "ec_paramgen_curve:P-256", "-nodes", "-keyout",
                       folder / "other-key", "-out", folder / "other-pem", "-days", "2", "-subj", "/CN=localhost")
            proxy.more = proxy.more.replace(str(folder / "pem"), str(folder / "other-pem"))
            proxy.start(server.port, 1)
            expect_same(posts("ttyS0", "three", "/numbers/floor", folder / "floor"), nothing, "an unknown server")
        finally:
            proxy.stop()


class StubDesk(InThread):
    """Answers each request `desk`, and keeps who it says asks, and at which host."""

    def __init__(self):
        self.seen = seen = []

        class Handler(http.server.BaseHTTPRequestHandler):
            def do_GET(self):
                self.rfile.read(int(self.headers.get("Content-Length", 0)))
                seen.append((self.headers.get_all("X-Remote-User"), self.headers["Host"]))
                self.send_response(200)
                self.send_header("Content-Length", "4")
                self.end_headers()
                self.wfile.write(b"desk")

            do_POST = do_GET

            def log_message(self, *_):
                pass

        super().__init__(http.server.ThreadingHTTPServer(("127.0.0.1", 0), Handler))
