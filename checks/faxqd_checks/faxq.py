"""`examples/faxq` against `serve`: over examples/bad-line.py each command is done once; killed before it is answered it goes
on, and makes one job; replies that aren't the queue's own say nothing of a request, and those that have to be corrected are reported
at once; `why` says why a job isn't sent; `again` hands in the pages that weren't confirmed; `modems` prints who holds what;
a client that was retired gets nothing accepted; and `purge` asks until nothing is left that is over."""
import json
import os
import pathlib
import re
import socket
import ssl
import struct
import subprocess
import sys
import time

from .bad_line import line_to
from .proxy import Answers, Proxy, number_of, reply
from .runner import group
from .shared import (CLOSE, EXAMPLES, Server, Wrong, answer_to, attempt, database_of, expect, expect_same, free_port, get, is_whole,
                     option, post, preload, rows_of_copy, run, wants)

check = group("faxq", "Has examples/faxq do each command once over a bad line and through stops, say why a job isn't sent, "
              "and take no answer but the queue's own.", "waiting")
PATIENCE = 90
SETUP = "Modem: ttyS0\nModem: ttyS1\nModemClass: fast:^ttyS0$\nModemClass: none:^x\nJobReqProto: 0\nJobReqBusy: 3000\n"
CONTROLS = "^666$\n  RejectNotice = Not to them\n^777$\n  TimeOfDay = Never\n^888$\n  MaxConcurrentCalls = 1\n"


def faxq_file():
    return pathlib.Path(option("faxq", EXAMPLES / "faxq")).resolve()


def rows(folder, text, *values):
    """What the file has, which a server may have open."""
    return rows_of_copy(folder / "queue.db", text, *values)


def serving(folder, port):
    (folder / "setup").write_text(SETUP)
    (folder / "controls").write_text(CONTROLS)
    return Server(folder / "queue.db", "--connections", "100000", "--setup", folder / "setup", "--controls", folder / "controls",
                  port=port, patience=PATIENCE)


class Desk:
    """Who calls faxq, with a folder of his own."""

    def __init__(self, folder, client="desk", home=None):
        self.folder, self.client, self.home, self.place = folder / f"of-{client}", client, home or folder, None

    def words(self, url, *words):
        name = ("--client", self.client) if self.client else ()
        own = "--server", url, *name, "--folder", self.folder, "--limit", "2", "--pause", "0.05"
        return [sys.executable, str(faxq_file()), *map(str, own), *map(str, words)]

    def start(self, url, *words):
        return subprocess.Popen(self.words(url, *words), stdin=subprocess.DEVNULL, stdout=subprocess.PIPE,
                                stderr=subprocess.PIPE, text=True, env={**os.environ, "HOME": str(self.home)}, cwd=self.place)

    def killed(self, port, *words):
        """Has it ask, where nobody answers, and kills it; gives what it sent."""
        with socket.create_server(("127.0.0.1", port)) as deaf:
            held = self.start(f"http://127.0.0.1:{port}", *words)
            peer, _ = deaf.accept()
            with peer:
                data = b""
                while not is_whole(data):
                    data += peer.recv(65536)
                held.kill()
                held.communicate()
        return data

    def says(self, url, *words):
        """Its status, and what it says on both streams."""
        process = self.start(url, *words)
        try:
            out, err = process.communicate(timeout=PATIENCE)
        except subprocess.TimeoutExpired:
            process.kill()
            raise Wrong(f"'{words}' doesn't end, and says {process.communicate()}") from None
        return process.returncode, out, err

    def does(self, wanted, url, *words):
        status, out, err = self.says(url, *words)
        expect(status == 0 and out == f"{wanted}\n", f"{words} ends with {status}, and says {out!r} and {err!r}")

    def fails(self, wanted, status, url, *words):
        start = time.monotonic()
        got, out, err = self.says(url, *words)
        expect(got == status and out == "" and re.search(wanted, err), f"{words} ends with {got}, and says {out!r}, {err!r}")
        expect(time.monotonic() - start < 60, f"{words} isn't told at once")

    def left(self):
        return sorted(file.name for file in self.folder.glob("waiting/*"))


def tiff(file, pages):
    """A TIFF that has just the directories of its pages, each with its number as the height."""
    data = struct.pack("<2sHI", b"II", 42, 8)
    for page in range(1, pages + 1):
        following = len(data) + 18 if page < pages else 0
        data += struct.pack("<HHHIII", 1, 257, 4, 1, page, following)
    file.write_bytes(data)


def heights(file):
    """The heights of the pages of such a TIFF."""
    data = pathlib.Path(file).read_bytes()
    place, = struct.unpack_from("<I", data, 4)
    found = []
    while place:
        found.append(struct.unpack_from("<I", data, place + 10)[0])
        place, = struct.unpack_from("<I", data, place + 14)
    return found


def ask(port, path, number, body="", client="ttyS0"):
    """A worker's request, past the line."""
    body = body if isinstance(body, str) else json.dumps(body)
    return json.loads(answer_to(port, post(path, number, body, client, CLOSE))[1])


# ---- parts

@check
def over_the_line(folder):
    """Each command is done once, however the line behaves."""
    tiff(folder / "letter.tif", 3)
    for seed in 1, 2:
        place = folder / str(seed)
        place.mkdir()
        with attempt(f"seed {seed}"):
            commands_once(place, folder / "letter.tif", seed)


def commands_once(place, letter, seed):
    port, desk = free_port(), Desk(place)
    with serving(place, port), line_to(port, seed, 0.3) as (line, _):
        url = f"http://127.0.0.1:{line}"
        desk.does("1", url, "submit", "+1 415 555-0100", letter, "-i", "Quarterly report", "-P", "10")
        desk.does("2", url, "submit", "5550111", "--pages", "2", "-a", "now + 2 hours")
        desk.does("job 1 is suspended", url, "suspend", "1")
        desk.does("job 1 is suspended", url, "alter", "1", "priority=20", "jobtag=Report")
        desk.does("job 1 is ready", url, "resume", "1")
        desk.does("job 2 is failed", url, "kill", "2")
        desk.does("modem ttyS0 is down", url, "modems", "down", "ttyS0")
        desk.does("modem ttyS0 is up", url, "modems", "up", "ttyS0")
        desk.does("job 1 to +14155550100 (Report) is ready: 0 of 3 pages confirmed, 0 of 12 calls, 0 of 3 tries", url,
                  "status", "1")
        status, out, _ = desk.says(url, "status")
        expect(status == 0 and out.count("\n") == 3 and out.startswith("   JID Pri S Number"), f"status says {out!r}")
        status, out, _ = desk.says(url, "wait", "2", "--every", "0.1")
        expect(status == 1 and "is failed (Killed)" in out, f"wait says {out!r}")
        status, out, err = desk.says(url, "kill", "2")
        expect(status == 1 and "refused: job-over" in err, f"a second kill: {status} {out!r} {err!r}")
        time.sleep(0.4)  # late ones come
    expect(rows(place, "SELECT count(*) FROM jobs") == [(2,)], "there are other jobs than two")
    expect(rows(place, "SELECT count(*) FROM replies") == [(8,)], "other than 8 requests were accepted")
    shown = run("list", "--db", place / "queue.db")[1].decode()
    expect("     1  20 W" in shown, shown)
    expect(not desk.left(), f"{desk.left()} is left")


@check
def stopped(folder):
    """Stopped before there was a reply, the same words go on, and there is one job."""
    port, desk = free_port(), Desk(folder)
    url = f"http://127.0.0.1:{port}"
    fax = "submit", "5550111", "--pages", "1", "-a", "now + 1 hour"
    for job, comes in enumerate((True, False, True), 1):
        data = desk.killed(port, *fax)
        number = number_of(data)
        expect(desk.left() == [number], f"request {number} was sent, and {desk.left()} is kept")
        with serving(folder, port):
            if comes:
                with socket.create_connection(("127.0.0.1", port), PATIENCE) as peer:
                    peer.sendall(data)
                    peer.recv(65536)
            time.sleep(1.1)  # `now` is another moment
            desk.does(job, url, *fax)
            expect(rows(folder, "SELECT count(*) FROM jobs") == [(job,)], f"{rows(folder, 'SELECT job FROM jobs')} are the jobs")
            expect(not desk.left(), "an answered request is left")


@check
def other_requests(folder):
    """Stopped, the same words go on only if they make the same request: from another folder, or with a file that has changed, both
    are sent, the old one first, and that is reported."""
    port, desk = free_port(), Desk(folder)
    url = f"http://127.0.0.1:{port}"
    for place, pages in ("one", 1), ("two", 2):
        (folder / place).mkdir()
        tiff(folder / place / "letter.tif", pages)
    fax = "submit", "5550111", "letter.tif"
    desk.place = folder / "one"
    desk.killed(port, *fax)
    with serving(folder, port):
        desk.place = folder / "two"
        status, out, err = desk.says(url, *fax)
        expect((status, out) == (0, "2\n"), f"from another folder it ends with {status}, and says {out!r} {err!r}")
        expect(re.search('left from before: submit 5550111 letter.tif: .*"job": 1', err) and "another request" in err, f"it says {err!r}")
    desk.killed(port, *fax)
    tiff(folder / "two" / "letter.tif", 3)
    with serving(folder, port):
        status, out, err = desk.says(url, *fax)
        expect((status, out) == (0, "4\n") and "left from before" in err, f"with another file: {status} {out!r} {err!r}")
        found = [re.search(r"totpages:(\d)\n.*tiff:0::(\S*)", answer_to(port, get(f"/jobs/{job}", CLOSE))[1].decode(), re.S)
                 for job in (1, 2, 3, 4)]
        wanted = [(str(pages), str(folder / place / "letter.tif")) for place, pages in (("one", 1), ("two", 2), ("two", 2), ("two", 3))]
        expect([one.groups() for one in found] == wanted, f"the jobs are of {[one.groups() for one in found]}")
        expect(not desk.left(), f"{desk.left()} is left")


@check
def forbidden(folder):
    """What a proxy lets this user never send stays, and is reported, and stops no request about something else."""
    port, desk = free_port(), Desk(folder)
    with serving(folder, port), Proxy(port, lambda data, hand_on: reply(403, "<html>", "text/html") if b"/modems/" in data
                                      else hand_on()) as proxy:
        desk.fails("password of ~/.netrc: 403", 3, proxy.url, "modems", "down", "ttyS0")
        number, = desk.left()
        for words, wanted in (FAX, "1\n"), (("suspend", "1"), "job 1 is suspended\n"):
            status, out, err = desk.says(proxy.url, *words)
            expect((status, out) == (0, wanted) and f"403 (kept in {desk.folder}/waiting/{number})" in err, f"{status} {out!r} {err!r}")
        desk.fails("modems down ttyS0: .*403.*faxq left", 3, proxy.url, "modems", "up", "ttyS0")
        expect(len(desk.left()) == 2 and number in desk.left(), f"{desk.left()} is left")


@check
def reused(folder):
    """A submission that was refused keeps its number when the same words hand it in again; where a late copy was accepted under it
    that is reported, and then it gets a new one."""
    port, desk = free_port(), Desk(folder)
    url = f"http://127.0.0.1:{port}"
    with serving(folder, port):
        desk.fails("refused: rejected", 1, url, "submit", "666", "--pages", "1")
        number, = [file.name for file in desk.folder.glob("refused/*")]
        late = answer_to(port, post("/jobs", number, "number:5550111\ntotpages:1\n", "desk", CLOSE))
        expect(late == (201, b'{"job":1}'), f"a copy is answered {late}")
        desk.fails("refused: number-reused", 1, url, "submit", "666", "--pages", "1")
        desk.fails("refused: rejected", 1, url, "submit", "666", "--pages", "1")
        again = [file.name for file in desk.folder.glob("refused/*")]
        expect(len(again) == 2 and number not in again, f"{number} was refused, and then {again}")


@check
def logins(folder):
    """What was kept for one login goes out under no other, as a proxy may take the login for the client."""
    def login(name):
        (folder / ".netrc").write_text(f"machine 127.0.0.1 login {name} password secret\n")
        (folder / ".netrc").chmod(0o600)

    desk = Desk(folder, None, folder)
    with Answers(reply(401, "<html>", "text/html"), TAKEN) as peer:
        login("anna")
        desk.fails("password", 3, peer.url, *FAX)
        login("bert")
        status, out, err = desk.says(peer.url, "left")
        expect(status == 3 and "kept for the login anna" in out, f"left says {status} {out!r} {err!r}")
        expect(len(peer.seen) == 1, f"it is sent under another login: {peer.seen[1:]}")
        desk.does("5", peer.url, "submit", "5550112", "--pages", "1")
        expect(b"Fax-Client: bert\r\n" in peer.seen[1] and len(desk.left()) == 1, f"{peer.seen[1:]}, and {desk.left()} is left")
        login("anna")
        desk.does('submit 5550111 --pages 1: {"job": 5}', peer.url, "left")
        expect(peer.seen[2] == peer.seen[0], f"another request is sent: {peer.seen}")


HOSTILE = "number:5550111\ntotpages:{pages}\nnpages:1\nstate:{state}\njobtag:a\u0085\u2028b\nstatus:old\\\nnpages:9\\\n" \
          "tiff:0::/etc/passwd\\\n\u009b2J\u2029\u202estatus\ntiff:0::{document}\n"


@check
def several_lines(folder):
    """A status of several lines is shown, and no line of it counts as one of the job; control characters of others' texts aren't
    printed; and `wait` ends with 1 only if the job failed."""
    port, desk = free_port(), Desk(folder)
    url = f"http://127.0.0.1:{port}"
    tiff(folder / "letter.tif", 3)
    with serving(folder, port):
        for number, (state, pages) in enumerate(((8, 3), (7, 1)), 1):
            body = HOSTILE.format(state=state, pages=pages, document=folder / "letter.tif")
            expect(answer_to(port, post("/imports", number, body, "old", CLOSE))[0] == 201, "an import is refused")
        for words, wanted, ends in (
                (("status", 1), "job 1 to 5550111 (a??b) is failed (old / npages:9 / tiff:0::/etc/passwd / ?2J??status): 1 of 3 pages", 0),
                (("why", 1), "job 1 failed: old / npages:9 / tiff:0::/etc/passwd / ?2J??status;", 0),
                (("wait", 1), "job 1 to 5550111 (a??b) is failed (old / ", 1), (("wait", 2), "job 2 to 5550111", 0),
                (("status",), "   JID Pri S", 0)):
            with attempt(words):
                status, out, err = desk.says(url, *words)
                expect(status == ends and out.startswith(wanted), f"it ends with {status}, and says {out!r} and {err!r}")
                expect(not re.search("[^ -~\n]", out), f"it prints {out!r}")
        with attempt("again"):
            desk.does("3", url, "again", "1")
            job = answer_to(port, get("/jobs/3", CLOSE))[1].decode()
            expect(job.count("\ntiff:") == 1 and f"tiff:0::{folder}/letter.from2.tif\n" in job, f"the new job is {job}")
    for answer in "jobid:1\nnumber:5550111\nstate:8\nstatus:x\n", "jobid:1\nstatus\n", "jobid:1\nnumber:5\nstate:99\nstatus:a\\\n":
        with attempt(answer), Answers(reply(200, answer, "text/plain")) as peer:
            status, out, err = desk.says(peer.url, "wait", 1)
            expect(status == 3 and "Traceback" not in err, f"wait ends with {status}, and says {out!r} and {err!r}")


@check
def left_before(folder):
    """What other words have left goes on before new ones, a refused submission is kept, and of two at once one waits."""
    port, desk = free_port(), Desk(folder)
    url = f"http://127.0.0.1:{port}"
    with serving(folder, port):
        # Two with other words are left, and a new one comes.
        desk.does("1", url, "submit", "5550111", "--pages", "1")
        for number, words in (("17", "submit 1 --pages 1"), ("18", "submit 2 --pages 1")):
            request = {"server": url, "client": "desk", "words": words.split(), "path": "/jobs",
                       "body": f"number:{number}\ntotpages:1\n"}
            (desk.folder / "waiting" / number).write_text(json.dumps(request))
        status, out, err = desk.says(url, "submit", "3", "--pages", "1")
        expect((status, out) == (0, "4\n") and err.count("left from before") == 2, f"{status} {out!r} {err!r}")
        (desk.folder / "waiting" / "19").write_text(json.dumps({**request, "body": "number:19\n"}))
        status, out, err = desk.says(url, "left")
        expect(status == 1 and "bad-body kind no-pages" in out, f"left says {status} {out!r} {err!r}")
        expect((desk.folder / "refused" / "19").exists(), "a refused submission isn't kept")
        desk.does(5, url, *"submit 2 --pages 1".split())
        expect(rows(folder, "SELECT number FROM replies ORDER BY rowid DESC LIMIT 1")[0][0] in (19, "19"),
               "a submission that was refused has another number when it is sent again")
        # Two at once: one waits for the other.
        both = [desk.start(url, "submit", "5550111", "--pages", "1") for _ in "ab"]
        jobs = sorted(int(one.communicate(timeout=PATIENCE)[0]) for one in both)
        expect(jobs == [6, 7], f"two at once are jobs {jobs}")


FAX, TAKEN = ("submit", "5550111", "--pages", "1"), reply(201, '{"job":5}')
NOTHING = [
    b"", reply(503, '{"no":27,"word":"unavailable"}'), reply(502, "<html>", "text/html"), reply(504, "<html>", "text/html"),
    reply(201, '{"job":', length=9), reply(500, "[]"), b"HTTP/1.1 201 Cre",
]
# What has to be corrected, and how it is reported.
MENDED = [
    (reply(401, "<html>", "text/html"), "password"), (reply(403, "<html>", "text/html"), "password"),
    (reply(403, '{"error":"blocked"}'), "password"), (reply(200, "<html>", "text/html"), "isn't a fax queue"),
    (reply(201, "{}"), "isn't a fax queue"), (reply(404, "<html>", "text/html"), "isn't a fax queue"),
    (reply(301, ""), "isn't a fax queue"), (b"SSH-2.0-OpenSSH\r\n", "isn't HTTP"),
]


@check
def answers(folder):
    """What isn't the queue's own says nothing of a request; what has to be corrected is reported at once, and the request is kept."""
    desk = Desk(folder)
    with attempt("what says nothing"), Answers(*NOTHING, TAKEN) as peer:
        status, out, err = desk.says(f"http://127.0.0.1:{peer.port}", *FAX)
        expect((status, out) == (0, "5\n"), f"behind what says nothing: {status} {out!r} {err!r}")
        expect(len(peer.seen) == len(NOTHING) + 1 and len(set(peer.seen)) == 1, f"other requests are sent: {peer.seen}")
    for number, (answer, wanted) in enumerate(MENDED):
        desk = Desk(folder, f"desk{number}")
        with attempt(answer), Answers(answer, TAKEN) as peer:
            desk.fails(wanted, 3, f"http://127.0.0.1:{peer.port}", *FAX)
            expect(len(desk.left()) == 1, f"{desk.left()} is kept")
            desk.does("5", f"http://127.0.0.1:{peer.port}", *FAX)
            expect(len(set(peer.seen)) == 1, f"other requests are sent: {peer.seen}")
    desk = Desk(folder, "told")
    with attempt("a refusal"), Answers(reply(403, '{"no":11,"notice":"No","word":"rejected"}')) as peer:
        desk.fails("refused: rejected notice No", 1, f"http://127.0.0.1:{peer.port}", *FAX)
    with attempt("a refusal for now"), Answers(b"", reply(507, '{"no":26,"word":"full"}')) as peer:
        desk.fails("refused: full.*may still come", 1, f"http://127.0.0.1:{peer.port}", *FAX)


@check
def faults(folder):
    """Where nobody listens faxq reports it at once, and goes on trying; wrong arguments are reported, and nothing is sent."""
    port, desk = free_port(), Desk(folder)
    asker = desk.start(f"http://127.0.0.1:{port}", *FAX)
    said = asker.stderr.readline()
    asker.kill()
    asker.communicate()
    expect("nobody listens" in said, f"where nobody listens it says {said!r}")
    for words, wanted in ((("submit", "5550111", "--pages", "1", "-i", "a\nnumber:1"), "jobtag has a line feed"),
                          (("submit", "5550111"), "--pages"), (("alter", "1", "priority"), "TAG=VALUE"),
                          (("submit", "5550111", folder / "none.tif"), "No such file"), (("submit", "5", faxq_file()), "isn't a TIFF"),
                          (("submit", "5", "--pages", "1", "-a", "soon"), "is no time"), (("kill", "0"), "no number of a job"),
                          (("modems", "up"), "wants a modem"), (("retire", "a b"), "no client's name"),
                          (("retire", "desk"), "your own name")):
        with attempt(words):
            desk.fails(wanted, 2, f"http://127.0.0.1:{port}", *words)
    desk.fails("is no address", 2, "127.0.0.1:4559", *FAX)


@check
def tls(folder):
    """A certificate has to be known, and name and password come from ~/.netrc."""
    wants("openssl")
    made = subprocess.run(["openssl", "req", "-x509", "-newkey", "ec", "-pkeyopt", "ec_paramgen_curve:P-256", "-nodes", "-keyout",
                           folder / "key", "-out", folder / "pem", "-days", "2", "-subj", "/CN=localhost", "-addext",
                           "subjectAltName=DNS:localhost"], capture_output=True, text=True)
    expect(made.returncode == 0, f"openssl says {made.stderr}")
    context = ssl.SSLContext(ssl.PROTOCOL_TLS_SERVER)
    context.load_cert_chain(folder / "pem", folder / "key")
    (folder / ".netrc").write_text("machine localhost login front password secret\n")
    (folder / ".netrc").chmod(0o600)
    desk = Desk(folder)
    port = free_port()
    with Answers(TAKEN, tls=context) as peer, serving(folder, port):
        desk.fails("certificate of localhost isn't known", 3, f"https://localhost:{peer.port}", *FAX)
        expect(not peer.seen and len(desk.left()) == 1, f"without trust is sent {peer.seen}, and kept {desk.left()}")
        desk.fails("certificate of 127.0.0.1 isn't known", 3, f"https://127.0.0.1:{peer.port}", "--ca", folder / "pem", *FAX)
        desk.does("5", f"https://localhost:{peer.port}", "--ca", folder / "pem", *FAX)
        expect(b"Authorization: Basic ZnJvbnQ6c2VjcmV0" in peer.seen[0], f"the password isn't said: {peer.seen}")
        desk.fails("no TLS is spoken", 3, f"https://127.0.0.1:{port}", *FAX)
    (folder / ".netrc").chmod(0o644)
    desk.fails("netrc", 3, "https://localhost:1", *FAX)


class Queue:
    """A queue whose jobs are asked after, with a desk and two modems."""

    def __init__(self, folder, port):
        self.port, self.desk, self.url, self.numbers = port, Desk(folder), f"http://127.0.0.1:{port}", iter(range(1, 1000))
        self.office = "--setup", folder / "setup", "--controls", folder / "controls"

    def does(self, wanted, *words):
        self.desk.does(wanted, self.url, *words)

    def fails(self, wanted, status, *words):
        self.desk.fails(wanted, status, self.url, *words)

    def why(self, job, wanted, *words):
        status, out, err = self.desk.says(self.url, "why", job, *words)
        expect(status == 0 and re.fullmatch(f"job {job} {wanted}\n", out), f"why {job} says {status} {out!r} {err!r}")

    def grant(self, modem, job):
        received = ask(self.port, f"/modems/{modem}/next", next(self.numbers))
        expect(received.get("job") == job, f"{modem} gets {received}, and should get job {job}")
        return received["grant"]

    def report(self, grant, what, **body):
        said = ask(self.port, f"/grants/{grant}/{what}", next(self.numbers), body)
        expect("no" not in said, f"{what} {body} is answered {said}")


@check
def reasons(folder):
    """`why` says why a job isn't sent, and what became of it; `again` hands in the pages that weren't confirmed."""
    port = free_port()
    with serving(folder, port):
        queue = Queue(folder, port)
        tiff(folder / "letter.tif", 3)
        called_and_tried(queue, folder / "letter.tif")
        waiting(queue)
        again(queue, folder)
        expect(not queue.desk.left(), f"{queue.desk.left()} is left")


def called_and_tried(queue, letter):
    """Two jobs of one number: the first fails behind its first page, and the second finds the number busy."""
    queue.does("1", "submit", "888", letter, "-P", "1", "-t", "1")
    queue.why(1, r"is ready, and goes when a modem \(ttyS0, ttyS1\) asks .* 0 other .* 0 are being sent.*", *queue.office)
    queue.why(1, "is ready, .*")
    queue.does("2", "submit", "888", "--pages", "1", "-P", "2")
    queue.why(2, "is ready, .*; 1 other ready jobs have its priority.*")
    first = queue.grant("ttyS0", 1)
    queue.why(1, "is being sent: a modem has it, and 0 of 3 pages were confirmed")
    queue.why(2, r"waits since 888 is being called: job 1, of 1 that there may be \(rule \^888\$ of .*controls\)", *queue.office)
    queue.why(2, r"waits since 888 is being called: job 1")
    queue.does("job 1 is active: a modem has it, and is asked to stop", "suspend", "1")
    queue.does("job 1 is active", "resume", "1")
    queue.report(first, "call", result="connected")
    queue.report(first, "page", page=1)
    queue.report(first, "outcome", dialed=True, outcome="retry", pages=1, reason="The line dropped")
    queue.why(1, "failed: Too many attempts to transmit; 1 of 12 calls and 1 of 1 tries are used, 1 of 3 pages were confirmed")
    second = queue.grant("ttyS0", 2)
    queue.report(second, "call", result="busy")
    queue.report(second, "outcome", dialed=True, outcome="retry", pages=0, reason="Busy")
    queue.why(2, r"was tried and waits until \d{4}-\d\d-\d\d \d\d:\d\d for its next try; 1 of 12 calls and 0 of 3 tries are used; "
              "the last one: Busy")


def waiting(queue):
    """Jobs that wait for their hours, their modem and their time, one that is suspended, and two that aren't there."""
    queue.does("3", "submit", "777", "--pages", "1")
    queue.why(3, r"waits for the hours in which 777 may be called: Never \(rule \^777\$ of .*\)", *queue.office)
    queue.does("4", "submit", "555", "--pages", "1", "--modem", "none")
    queue.why(4, r"waits for a modem 'none', and no modem of .*setup is one or in such a class", *queue.office)
    queue.does("5", "submit", "555", "--pages", "1", "--modem", "fast", "-a", "2033-05-18 03:33")
    queue.why(5, r"waits for its time to send, 2033-05-1\d \d\d:\d\d")
    queue.does("job 5 is suspended", "suspend", "5")
    queue.why(5, "is suspended: `faxq resume 5` lets it go on")
    queue.fails("refused: rejected notice Not to them", 1, "submit", "666", "--pages", "1")
    queue.fails("no such job", 1, "why", "99")


def again(queue, folder):
    """The two pages of the first job that weren't confirmed are a job of their own, with a document of these alone."""
    queue.does("6", "again", "1")
    job = queue.desk.says(queue.url, "status", "6")[1]
    expect("0 of 2 pages" in job, f"again makes {job}")
    description, = rows(folder, "SELECT * FROM jobs WHERE job = 6")
    document = re.search(r"tiff:0::([^\n]*)\n", "\n".join(map(str, description)))
    expect(document and heights(document[1]) == [2, 3], f"its document is of other pages: {description}")
    queue.fails("isn't over", 1, "again", "6")
    third = queue.grant("ttyS1", 6)
    queue.report(third, "call", result="connected")
    queue.report(third, "page", page=1)
    queue.report(third, "page", page=2)
    queue.report(third, "outcome", dialed=True, outcome="done", pages=2)
    queue.why(6, "was sent: all 2 pages were confirmed")
    queue.fails("all 2 pages of job 6 were confirmed", 1, "again", "6")
    expect(queue.desk.says(queue.url, "wait", "6")[0] == 0, "wait for a done job")


@check
def times(folder):
    """`times` prints when a job came, and when it was over; no other text is taken for that."""
    port, when = free_port(), "[0-9]{4}-[0-9]{2}-[0-9]{2} [0-9]{2}:[0-9]{2}:[0-9]{2}"
    with serving(folder, port):
        queue = Queue(folder, port)
        queue.does("1", "submit", "888", "--pages", "3")
        for wanted in "-", when:
            status, out, err = queue.desk.says(queue.url, "times", 1)
            expect(status == 0 and re.fullmatch(f"submitted {when}\nended {wanted}\n", out), f"it says {status} {out!r} {err!r}")
            if wanted == "-":
                queue.does("job 1 is failed", "kill", 1)
        queue.fails("no-job", 1, "times", 2)
    desk = Desk(folder / "other")
    for text in "submitted:1\n", "submitted:1\nended:x\n", "ended:0\nsubmitted:1\n", "submitted:1\nended:0\nmore:1\n", "jobid:1\n":
        with attempt(text), Answers(reply(200, text, "text/plain")) as peer:
            desk.fails("isn't a fax queue", 3, peer.url, "times", 1)


# ---- modems, and clients that are gone

HELD = "grant 1 job 1 number 888 pages 1-3 call"
NO_MODEMS = [  # texts that aren't a list of modems
    "ttyS0", "ttyS0:up", "ttyS0:up\nttyS1", "ttyS0:up\n\n", "\n", "ttyS0:up\r\n", "ttyS0:busy\n", "ttyS0:gone\n", "ttyS0:up \n",
    " ttyS0:up\n", ":up\n", "tty S0:up\n", f"{33 * 'm'}:up\n", "ttyS0:up grant 1\n", "ttyS0:UP\n", "ttyS0:up\x1b[2J\n",
    f"ttyS0:up {HELD} lost confirmed 0\n", f"ttyS0:up {HELD} none confirmed -1\n", f"ttyS0:up {HELD} none confirmed 00\n",
    f"ttyS0:up {HELD} none confirmed 0 and more\n", f"ttyS0:up {HELD} none confirmed \u0661\n",
    *(f"ttyS0:up {HELD} none confirmed 0\n".replace(old, new) for old, new in (
        ("grant 1", "grant 0"), ("job 1", "job 01"), ("job 1", "job 1000000"), ("888", "5550x"), ("888", ""), ("1-3", "1"),
        ("1-3", "0-3"), (" call", "  call"))),
    "   JID Pri S Number\n", "jobid:1\n", '{"no":8}\n', "<html>\n",
]


@check
def modems(folder):
    """`modems` prints each modem with the grant that it holds, also one that the setup lacks; no other text is taken for that."""
    port = free_port()
    with serving(folder, port):
        queue = Queue(folder, port)
        queue.does("ttyS0:up\nttyS1:up", "modems")
        queue.does("1", "submit", "888", "--pages", "3")
        grant = queue.grant("ttyS0", 1)
        queue.does(f"ttyS0:up {HELD} none confirmed 0\nttyS1:up", "modems")
        queue.report(grant, "call", result="connected")
        queue.report(grant, "page", page=1)
        for name in "ttyS0", "ttyS1":
            queue.does(f"modem {name} is down", "modems", "down", name)
        queue.does(f"ttyS0:down {HELD} connected confirmed 1\nttyS1:down", "modems")
    (folder / "setup").write_text("Modem: ttyS1\nModem: a.b\n")
    with Server(folder / "queue.db", "--setup", folder / "setup", port=port):
        queue.does(f"a.b:up\nttyS0:gone {HELD} connected confirmed 1\nttyS1:down", "modems")
    (folder / "setup").write_text("")
    with Server(folder / "none.db", "--setup", folder / "setup", port=port):
        expect(queue.desk.says(queue.url, "modems")[:2] == (0, ""), "a queue without modems isn't answered so")
    expect(not queue.desk.left(), f"{queue.desk.left()} is left")


@check
def other_modems(folder):
    """What isn't a list of modems is reported at once, what says nothing is asked for again, and an older queue is named so."""
    desk, shown = Desk(folder), f"a-b.C_9:up\nttyS0:gone {HELD} no-answer confirmed 0\n"
    for text in NO_MODEMS:
        with attempt(text), Answers(reply(200, text, "text/plain")) as peer:
            desk.fails("isn't a fax queue", 3, peer.url, "modems")
    for answer in reply(200, shown, "text/html"), reply(201, shown, "text/plain"), reply(200, '{"down":false}'):
        with attempt(answer), Answers(answer) as peer:
            desk.fails("isn't a fax queue", 3, peer.url, "modems")
    with attempt("what says nothing"), Answers(*NOTHING, reply(200, shown, "text/plain", length=999),
                                               reply(200, shown, "text/plain")) as peer:
        desk.does(shown[:-1], peer.url, "modems")
        expect(set(peer.seen) == {peer.seen[0]} and peer.seen[0].startswith(b"GET /modems "), f"it asks {peer.seen}")
    with attempt("an older queue"), Answers(reply(404, '{"no":3,"word":"no-route"}')) as peer:
        desk.fails("refused: no-route: .*older", 1, peer.url, "modems")


LAST, FLOOR = 10**18 - 1, '{"floor":999999999999999998}'
GIVEN_UP = 410, b'{"no":28,"word":"given-up"}'


@check
def retired(folder):
    """Over the bad line a client is retired, and again to no effect: from then on each request under its name is refused as given
    up, also one that was accepted before, and other clients are served as ever."""
    port, desk, shop = free_port(), Desk(folder), Desk(folder, "shop")
    with serving(folder, port), line_to(port, 3, 0.3) as (line, _):
        url = f"http://127.0.0.1:{line}"
        for number in 17, 18:
            status, _ = answer_to(port, post("/jobs", number, "number:5550111\ntotpages:1\n", "shop", CLOSE))
            expect(status == 201, f"request {number} is answered {status}")
        for _ in "ab":
            desk.does("client shop is retired", url, "retire", "shop")
        for number in 17, 19, LAST - 1:
            late = answer_to(port, post("/jobs", number, "number:5550111\ntotpages:1\n", "shop", CLOSE))
            expect(late == GIVEN_UP, f"request {number} is answered {late}")
        shop.fails("refused: given-up", 1, url, *FAX)
        shop.fails("refused: given-up", 1, url, "kill", "1")
        desk.does("3", url, *FAX)
        desk.does("job 1 is failed", url, "kill", "1")
        time.sleep(0.4)  # late ones come
    expect(rows(folder, "SELECT count(*) FROM jobs") == [(3,)], "there are other jobs than three")
    found = rows(folder, "SELECT client, upto FROM floors") + rows(folder, "SELECT number FROM replies WHERE client = 'shop'")
    expect([str(value) for row in found for value in row] == ["shop", str(LAST - 1), str(LAST)], f"the file has {found}")
    expect(not desk.left() and not shop.left(), f"{desk.left()} and {shop.left()} are left")


@check
def retired_later(folder):
    """Stopped before they were answered, two clients are retired by `left`, each by the request that was sent before; what was
    kept for such a client goes first; and no answer but that of its floor is believed."""
    port, desk = free_port(), Desk(folder)
    url = f"http://127.0.0.1:{port}"
    for client in "shop", "lab":
        data = desk.killed(port, "retire", client)
        expect(number_of(data) == str(LAST) and f"\r\nFax-Client: {client}\r\n".encode() in data
               and data.endswith(b'\r\n\r\n{"upto":999999999999999998}'), f"it sends {data}")
    expect(len(desk.left()) == 2, f"{desk.left()} is kept")
    with serving(folder, port):
        desk.does("\n".join(f'retire {client}: {{"floor": {LAST - 1}}}' for client in ("shop", "lab")), url, "left")
        expect(rows(folder, "SELECT client FROM floors ORDER BY client") == [("lab",), ("shop",)], "other clients are retired")
    desk.client = "old"
    desk.killed(port, *FAX)
    desk.client = "desk"
    with serving(folder, port):
        status, out, err = desk.says(url, "retire", "old")
        expect((status, out) == (0, "client old is retired\n") and 'left from before: submit 5550111 --pages 1: {"job": 1}' in err,
               f"it ends with {status}, and says {out!r} and {err!r}")
    expect(not desk.left(), f"{desk.left()} is left")
    for number, answer in enumerate((reply(200, "{}"), reply(200, '{"floor":3}'), reply(200, '{"floor":1e18}'), reply(201, FLOOR),
                                     reply(200, FLOOR, "text/plain"), reply(200, '{"job":1}'), reply(200, "<html>", "text/html"))):
        desk = Desk(folder, f"desk{number}")
        with attempt(answer), Answers(answer, *NOTHING, reply(200, FLOOR)) as peer:
            desk.fails("isn't a fax queue", 3, peer.url, "retire", "shop")
            expect(len(desk.left()) == 1, f"{desk.left()} is kept")
            desk.does("client shop is retired", peer.url, "retire", "shop")
            expect(len(set(peer.seen)) == 1 and not desk.left(), f"it sends {peer.seen}, and {desk.left()} is left")


# ---- purges

PURGE = "purge", "--days", "30"


def over(folder, url, desk, port):
    """Three jobs, of which two were over long ago."""
    with serving(folder, port):
        for _ in range(3):
            desk.says(url, *FAX)
        for job in 1, 3:
            desk.does(f"job {job} is failed", url, "kill", job)
    with database_of(folder / "queue.db") as database:
        database.execute(f"UPDATE times SET submitted = 1, ended = ended - {40 * 86400} WHERE ended > 0")


@check
def purged(folder):
    """Over the bad line `purge` deletes what was over so long ago, and nothing else; each of its requests is another one, and is
    accepted once."""
    port, desk = free_port(), Desk(folder)
    over(folder, f"http://127.0.0.1:{port}", desk, port)
    with serving(folder, port), line_to(port, 5, 0.3) as (line, _):
        url = f"http://127.0.0.1:{line}"
        desk.does("0 jobs purged", url, "purge", "--days", "60")
        desk.does("2 jobs purged", url, *PURGE)
        desk.does("0 jobs purged", url, *PURGE)
        desk.fails("no-job", 1, url, "status", 3)
        time.sleep(0.4)  # late ones come
    expect(rows(folder, "SELECT job FROM jobs") == [(2,)], "other jobs are left")
    found = rows(folder, "SELECT CAST(body AS TEXT) FROM replies ORDER BY rowid DESC LIMIT 4")
    expect_same([body for body, in reversed(found)], [f'{{"purged":{count}}}' for count in (0, 2, 0, 0)], "the last kept replies")
    expect(not desk.left(), f"{desk.left()} is left")


@check
def purged_later(folder):
    """Stopped before it was answered, the same words go on with the request that was sent, count what it deletes, and then ask with
    a new moment; `left` sends that request alone; and it stands behind no submission that a proxy lets nobody send."""
    port, desk = free_port(), Desk(folder)
    url = f"http://127.0.0.1:{port}"
    over(folder, url, desk, port)
    data = desk.killed(port, *PURGE)
    number, = desk.left()
    before = json.loads(data.rpartition(b"\r\n\r\n")[2])["before"]
    expect(number == number_of(data) and 0 <= time.time() - 30 * 86400 - before < 60, f"it sends {data}")
    time.sleep(1.1)  # `now` is another moment
    with serving(folder, port), Proxy(port) as proxy:
        (desk.folder / "waiting" / number).write_text((desk.folder / "waiting" / number).read_text().replace(url, proxy.url))
        desk.does("2 jobs purged", proxy.url, *PURGE)
        bodies = [json.loads(one.rpartition(b"\r\n\r\n")[2])["before"] for one in proxy.seen]
        expect(proxy.seen[0].rpartition(b"Fax-Number")[2] == data.rpartition(b"Fax-Number")[2], f"it goes on with {proxy.seen[0]}")
        expect(len(bodies) == 2 and bodies[1] > before == bodies[0], f"it asks for what was over before {bodies}")
    desk.killed(port, *PURGE)
    with serving(folder, port):
        desk.does('purge --days 30: {"purged": 0}', url, "left")
        desk.does("job 2 is failed", url, "kill", 2)
    before = json.loads(desk.killed(port, *PURGE).rpartition(b"\r\n\r\n")[2])["before"]
    with database_of(folder / "queue.db") as database:
        database.execute(f"UPDATE times SET submitted = 1, ended = {before}")
    time.sleep(1.1)
    with serving(folder, port):
        desk.does("1 jobs purged", url, *PURGE)  # which the request that was left doesn't delete
    with serving(folder, port), Proxy(port, lambda data, hand_on: reply(403, "<html>", "text/html") if b" /jobs HTTP" in data
                                      else hand_on()) as proxy:
        desk.fails("password", 3, proxy.url, *FAX)
        status, out, err = desk.says(proxy.url, *PURGE)
        expect((status, out) == (0, "0 jobs purged\n") and "left from before: submit" in err, f"{status} {out!r} {err!r}")
    expect(len(desk.left()) == 1, f"{desk.left()} is left")


@check
def purge_answers(folder):
    """It adds up what each request deletes, and believes no answer but the queue's; where the queue refuses it says why, and keeps
    nothing; and it wants a whole number of days, at least one."""
    done = reply(200, '{"purged":0}')
    for number, answer in enumerate((
            *(reply(200, body) for body in ("{}", '{"purged":-1}', '{"purged":"0"}', '{"purged":true}', '{"job":1,"state":8}')),
            reply(201, '{"purged":0}'), reply(200, '{"purged":0}', "text/plain"), reply(200, "<html>", "text/html"))):
        desk = Desk(folder, f"desk{number}")
        with attempt(answer), Answers(answer, done) as peer:
            desk.fails("isn't a fax queue", 3, peer.url, *PURGE)
            expect(len(desk.left()) == 1, f"{desk.left()} is kept")
    desk = Desk(folder)
    parts = [reply(200, f'{{"purged":{count}}}') for count in (1000, 1000, 500)]
    with attempt("many jobs"), Answers(*parts, *NOTHING, done) as peer:
        desk.does("2500 jobs purged", peer.url, *PURGE)
        numbers = [number_of(data) for data in peer.seen]
        expect(len(set(numbers)) == 4 and len(numbers) == 4 + len(NOTHING), f"it sends the numbers {numbers}")
        expect(all(data == peer.seen[numbers.index(number)] for number, data in zip(numbers, peer.seen)), "a repeat isn't the same")
    with attempt("a refusal"), Server(folder / "queue.db", before=preload(["clocks"], FIXED_MOMENT=1000)) as server:
        desk.fails("refused: purge-high: this machine's clock is ahead", 1, f"http://127.0.0.1:{server.port}", *PURGE)
        desk.does("0 jobs purged", f"http://127.0.0.1:{server.port}", "purge", "--days", "99999")
    for days in "0", "030", "-1", "1.5", "x", "", "100000":
        with attempt(days), Answers(done) as peer:
            desk.fails("whole number of days|expected one argument", 2, peer.url, "purge", "--days", days)
            expect(not peer.seen, f"it sends {peer.seen}")
    desk.fails("--days", 2, peer.url, "purge")
    expect(not desk.left(), f"{desk.left()} is left")
