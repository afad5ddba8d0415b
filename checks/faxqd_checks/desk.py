"""The desk before `serve`: each kind of file becomes a job with a document, from a form, a mail or a printer; an upload that is
repeated, over kills of desk and queue, is one fax, and its end one mail; hostile files are refused; nobody touches another's faxes;
and a failed fax goes on with the pages that are left.

It wants Debian's python3-flask, python3-waitress, python3-pil, bubblewrap, ghostscript, libtiff-tools and paps."""
import base64
import concurrent.futures
import contextlib
import email
import email.message
import email.policy
import email.utils
import http.client
import io
import itertools
import json
import os
import random
import re
import secrets
import struct
import subprocess
import sys
import threading
import time
import zlib

from . import shared
from .bad_line import line_to
from .mail_server import MailServer
from .runner import group
from .shared import (EXAMPLES, MANY, SETUP, TOP, Server, answer_to, attempt, expect, expect_same, free_port, get, option, post,
                     rows_of, rows_of_copy, said, wants)

check = group("desk", "Has the desk submit documents once, over kills, refuse hostile files, and keep users apart.", "waiting")
PYTHON = "/usr/bin/python3"
PATIENCE = 120
NEEDED = "import flask, waitress, PIL"

TWO_PAGES = b"""%!PS
/Helvetica findfont 40 scalefont setfont
100 700 moveto (First) show showpage
100 700 moveto (Second) show showpage
"""
THREE_PAGES = TWO_PAGES + b"100 700 moveto (Third) show showpage\n"
TEXT = "Grüße,\n\nwe confirm the order.\n\fA second page.\n".encode()


def png(width, height, rows=None):
    """A PNG in gray, white unless its rows are given."""
    def part(name, data):
        return struct.pack(">I", len(data)) + name + data + struct.pack(">I", zlib.crc32(name + data))

    pixels = zlib.compress(rows or (b"\0" + b"\xff" * width) * height, 9)
    return (b"\x89PNG\r\n\x1a\n" + part(b"IHDR", struct.pack(">IIBBBBB", width, height, 8, 0, 0, 0, 0)) + part(b"IDAT", pixels)
            + part(b"IEND", b""))


def within(what, holds, patience=PATIENCE):
    """Waits until something holds, as long as it may take on a busy machine."""
    return shared.within(what, holds, patience)


def wants_all():
    wants("bwrap", "gs", "tiff2pdf", "paps")
    if subprocess.run([PYTHON, "-c", NEEDED], capture_output=True).returncode != 0:
        wants("python3-flask, python3-waitress and python3-pil")


def converted(folder, kind, data):
    """The same pages in another format, made by the system's programs."""
    made, file = folder / f"made.{kind}", folder / "source.ps"
    file.write_bytes(data)
    device = {"pdf": "pdfwrite", "tif": "tiffg4", "jpg": "jpeg"}[kind]
    words = ["gs", "-q", "-dSAFER", "-dBATCH", "-dNOPAUSE", f"-sDEVICE={device}", "-r100", f"-sOutputFile={made}", file]
    subprocess.run(words, check=True, stdin=subprocess.DEVNULL, stdout=subprocess.DEVNULL)
    return made.read_bytes()


def toml_of(value):
    """A value in TOML."""
    if isinstance(value, dict):
        return "{" + ", ".join(f"{name} = {toml_of(one)}" for name, one in value.items()) + "}"
    return json.dumps(value)


class Desk:
    """The desk of a queue, and its users."""

    def __init__(self, folder, queue_port, before=(), **settings):
        self.folder, self.port, self.before, self.process = folder, free_port(), before, None
        values = {"listen": f"127.0.0.1:{self.port}", "server": f"http://127.0.0.1:{queue_port}", "folder": str(folder / "desk"),
                  "administrators": ["chief"], "pause": 0.2, **settings}
        (folder / "desk.toml").write_text("".join(f"{name} = {toml_of(value)}\n" for name, value in values.items()))
        self.start()

    def start(self):
        words = [*self.before, PYTHON, "-B", "-m", "faxdesk", self.folder / "desk.toml"]
        with open(self.folder / "errors", "a") as errors:
            self.process = subprocess.Popen(words, cwd=TOP / "desk", stdin=subprocess.DEVNULL, stdout=subprocess.PIPE,
                                            stderr=errors)
        line = self.process.stdout.readline()
        expect(line == f"faxdesk: listening at 127.0.0.1:{self.port}\n".encode(), f"the desk says {line} {self.errors()}")

    def __enter__(self):
        return self

    def __exit__(self, *_):
        self.kill()

    def kill(self):
        self.process.kill()
        self.process.wait()
        self.process.stdout.close()

    def errors(self):
        return (self.folder / "errors").read_text()

    def ask(self, method, path, body=None, user="anna", **fields):
        """The status and the JSON, or the text, of a reply."""
        names = {"Accept": "application/json", **{name.replace("_", "-"): value for name, value in fields.items()}}
        if user:
            names["X-Remote-User"] = user
        with contextlib.closing(http.client.HTTPConnection("127.0.0.1", self.port, timeout=PATIENCE)) as door:
            door.request(method, path, body, names)
            reply = door.getresponse()
            data = reply.read()
        return reply.status, json.loads(data) if reply.headers.get_content_type() == "application/json" else data

    def database(self, text, *values):
        """What the desk's database answers."""
        return rows_of(self.folder / "desk/desk.db", text, *values)

    def submit(self, data, user="anna", file_name="letter.pdf", token=None, **form):
        """Uploads a file; the status and what the desk answers."""
        form = {"token": token or secrets.token_urlsafe(16), "number": "+1 415 555-0100", **form}
        body, mark = io.BytesIO(), secrets.token_hex(16)
        for name, value in form.items():
            body.write(f'--{mark}\r\nContent-Disposition: form-data; name="{name}"\r\n\r\n{value}\r\n'.encode())
        body.write(f'--{mark}\r\nContent-Disposition: form-data; name="file"; filename="{file_name}"\r\n\r\n'.encode())
        body.write(data + f"\r\n--{mark}--\r\n".encode())
        return self.ask("POST", "/faxes", body.getvalue(), user, Content_Type=f"multipart/form-data; boundary={mark}")

    def fax(self, number, user="anna"):
        status, fax = self.ask("GET", f"/faxes/{number}", user=user)
        expect(status == 200, f"fax {number} of {user} is answered {status} {fax}")
        return fax

    def settled(self, number, *stages, user="anna"):
        """The fax as soon as it is in one of these stages."""
        seen = []

        def there():
            seen[:] = [self.fax(number, user)]
            return seen[0] if seen[0]["stage"] in stages else None

        return within(lambda: f"fax {number} in {stages}: {seen} {self.errors()[-2000:]}", there, PATIENCE)


@contextlib.contextmanager
def office(folder, controls="", **settings):
    """A queue with these controls, and its desk."""
    wants_all()
    (folder / "setup").write_text(SETUP + "JobReqOther: 0\n")
    (folder / "controls").write_text(controls)
    words = "--setup", folder / "setup", "--controls", folder / "controls", *MANY
    with Server(folder / "queue.db", *words, patience=PATIENCE) as server, Desk(folder, server.port, **settings) as desk:
        yield server, desk


def key_lines(server, job):
    status, text = answer_to(server.port, get(f"/jobs/{job}", "Connection: close\r\n"))
    expect_same(status, 200, f"job {job}")
    return dict(line.partition(":")[::2] for line in text.decode().splitlines())


def pages_in(file):
    """How many pages a TIFF has, as libtiff counts them."""
    ran = subprocess.run(["tiffinfo", file], capture_output=True, text=True)
    return ran.stdout.count("=== TIFF directory ") or ran.stdout.count("TIFF Directory at ")


@check
def each_kind(folder):
    """A file of each kind becomes a job with as many pages as its document has, under the user's name for it and the time to send;
    what it is its content says, and not its name."""
    with office(folder) as (server, desk):
        files = {"PDF": (converted(folder, "pdf", TWO_PAGES), 2), "PostScript": (TWO_PAGES, 2),
                 "TIFF": (converted(folder, "tif", THREE_PAGES), 3), "JPEG": (converted(folder, "jpg", TWO_PAGES), 1),
                 "PNG": (png(300, 200), 1), "text": (TEXT, 2)}
        for name, (data, pages) in files.items():
            with attempt(name):
                status, fax = desk.submit(data, file_name="x.bin", name=f"Bestellung ✓ {name}", time="2035-01-02 03:04")
                expect_same(status, 201, f"the status, with {fax}")
                fax = desk.settled(fax["id"], "submitted")
                job = key_lines(server, fax["job"])
                at = str(int(time.mktime((2035, 1, 2, 3, 4, 0, 0, 0, -1))))
                expect_same((job["number"], job["totpages"], job["jobtag"], job["tts"], job["owner"]),
                            ("+14155550100", str(pages), f"Bestellung ✓ {name}", at, "anna"), "the job")
                expect_same(pages_in(job["tiff"].removeprefix("0::")), pages, "the pages of the document")
                status, picture = desk.ask("GET", f"/faxes/{fax['id']}/pages/{pages}")
                expect(status == 200 and picture.startswith(b"\x89PNG"), f"the preview is {status} {picture[:20]}")
                expect_same(desk.ask("GET", f"/faxes/{fax['id']}/pages/{pages + 1}")[0], 404, "a page that isn't there")


@check
def resolutions(folder):
    """Fine has 196 lines to an inch, standard 98."""
    with office(folder) as (server, desk):
        for resolution, lines in ("fine", 196), ("standard", 98):
            fax = desk.settled(desk.submit(TWO_PAGES, resolution=resolution)[1]["id"], "submitted")
            document = key_lines(server, fax["job"])["tiff"].removeprefix("0::")
            shown = subprocess.run(["tiffinfo", document], capture_output=True, text=True).stdout
            expect(re.search(rf"Resolution: 204, {lines} ", shown), f"{resolution}: {shown[:600]}")
        expect_same(desk.submit(TWO_PAGES, resolution="coarse")[0], 400, "another resolution")


@check
def hostile(folder):
    """Files that are empty, too large, damaged, or another thing than their name says are refused with a sentence, and read nothing
    of the machine."""
    with office(folder, megabytes=2, pages=3) as (server, desk):
        (folder / "secret").write_text("secret")
        bomb = png(30000, 30000, zlib.decompress(zlib.compress(bytes(30001))) * 2)
        for data, reason_said, name in (
                (b"<!DOCTYPE html><p>Fax", "web page", "letter.pdf"), (b"MZ\x90\0\1\2", "none of", "letter.pdf"),
                (b"%PDF-1.4\nnothing", "can't be printed|no page", "letter.pdf"),
                (f"%!PS\n({folder}/secret) (r) file pop showpage".encode(), "can't be printed", "x.ps"),
                (b"%!PS\n(/etc/passwd) (r) file pop showpage", "can't be printed", "x.ps"),
                (b"%!PS\n(%pipe%touch /work/x) (w) file pop showpage", "can't be printed", "x.ps"),
                (b"%!PS\n" + b"showpage " * 4, "more than 3 pages", "x.ps"), (b"%!PS\n", "no page", "x.ps"),
                (b"II*\0\xff\xff\xff\xff", "can't be printed|no page", "x.tif"), (bomb, "can't be printed", "x.png"),
                (b"a\0b", "none of", "x.txt"), (b"  \n\t ", "none of", "x.txt")):
            with attempt((data[:40], reason_said)):
                status, fax = desk.submit(data, file_name=name)
                expect_same(status, 201, f"the status, with {fax}")
                reason = desk.settled(fax["id"], "unusable", "submitted")["reason"]
                expect(re.search(reason_said, reason), f"the reason is {reason!r}")
        for data, status in (b"", 400), (b"x" * 2_000_001, 400), (b"x" * 4_000_000, 413):
            with attempt(len(data)):
                expect_same(desk.submit(data)[0], status, "the status")
        with attempt("a name with slashes and line feeds"):
            fax = desk.submit(TWO_PAGES, file_name="../../etc/pass%0Awd")[1]
            expect(re.fullmatch(r"[^/\n]*", fax["file_name"]), f"the file's name is {fax['file_name']!r}")
        for number in "", "555x", "1" * 33, "5550111\ntotpages:1", "+", "٣٣":
            with attempt(number):
                expect_same(desk.submit(TWO_PAGES, number=number)[0], 400, "the status")
        for form in ({"name": "n" * 201}, {"time": "soon"}, {"token": "short"}, {"token": "with a blank"}):
            with attempt(form):
                expect_same(desk.submit(TWO_PAGES, **form)[0], 400, "the status")
        expect_same(rows_of_copy(folder / "queue.db", "SELECT count(*) FROM jobs"), [(0,)] if not any(
            fax["stage"] == "submitted" for fax in desk.ask("GET", "/faxes", user="chief")[1]["faxes"]) else [(1,)], "the jobs")


@check
def endless(folder):
    """A file that is never converted is refused when its time is over."""
    with office(folder, seconds=5) as (_, desk):
        fax = desk.submit(b"%!PS\n{} loop", file_name="x.ps")[1]
        reason = desk.settled(fax["id"], "unusable")["reason"]
        expect(re.search("longer than 5 s|can't be printed", reason), f"the reason is {reason!r}")


@check
def users(folder):
    """A user sees and changes the own faxes alone, an administrator all; without a name, under one that isn't, or from a form of
    another site nothing is done."""
    with office(folder) as (server, desk):
        fax = desk.settled(desk.submit(TWO_PAGES)[1]["id"], "submitted")["id"]
        within("the job is seen", lambda: desk.fax(fax)["state"] == "ready")
        for user in "otto", "chief":
            expect_same(desk.submit(TWO_PAGES, user)[0], 201, f"a fax of {user}")
        for method, path in (("GET", f"/faxes/{fax}"), ("GET", f"/faxes/{fax}/pages/1"), ("POST", f"/faxes/{fax}/kill"),
                             ("POST", f"/faxes/{fax}/again"), ("GET", "/faxes/99")):
            expect_same(desk.ask(method, path, user="otto")[0], 404, f"{method} {path} of another user")
        seen = [sorted({fax["owner"] for fax in desk.ask("GET", "/faxes", user=user)[1]["faxes"]})
                       for user in ("anna", "otto", "chief")]
        expect_same(seen, [["anna"], ["otto"], ["anna", "chief", "otto"]], "whose faxes are shown")
        expect_same(desk.ask("GET", "/faxes", Host="evil.example")[0], 421, "another name of the desk")
        for user in None, "anna otto", "../anna", "a" * 33:
            expect_same(desk.ask("GET", "/faxes", user=user)[0], 403, f"the user {user}")
        for fields in ({"Origin": "http://elsewhere.example"}, {"Origin": "null"}, {"Sec_Fetch_Site": "cross-site"},
                       {"Sec_Fetch_Site": "same-site"}):
            expect_same(desk.ask("POST", f"/faxes/{fax}/kill", **fields)[0], 403, f"a form with {fields}")
        expect_same(desk.fax(fax)["state"], "ready", "the state")
        own = {"Origin": f"http://127.0.0.1:{desk.port}", "Sec_Fetch_Site": "same-origin"}
        expect_same(desk.ask("POST", f"/faxes/{fax}/kill", user="chief", **own)[0], 202, "a form of its own")
        within("the fax is killed", lambda: desk.fax(fax)["state"] == "failed")


@check
def changed(folder):
    """Suspend, resume and kill do what they say, once; and what can't be done now is refused."""
    with office(folder) as (server, desk):
        fax = desk.settled(desk.submit(TWO_PAGES)[1]["id"], "submitted")["id"]
        for action, state in ("suspend", "suspended"), ("resume", "ready"), ("suspend", "suspended"), ("kill", "failed"):
            within(f"{action} is possible", lambda: desk.ask("POST", f"/faxes/{fax}/{action}")[0] == 202)
            within(f"the fax is {state}", lambda: desk.fax(fax)["state"] == state)
        expect_same(desk.ask("POST", f"/faxes/{fax}/resume")[0], 409, "resume of a fax that failed")
        expect("Killed" in desk.fax(fax)["next"], f"the sentence is {desk.fax(fax)['next']}")


@check
def given_up(folder):
    """A fax can be given up before the queue has its job: it is never submitted, or its job is killed if the queue may have
    it."""
    with office(folder, seconds=15) as (server, desk):
        within("the queue is seen", lambda: desk.ask("GET", "/health", user=None)[0] == 200)
        desk.submit(b"%!PS\n{} loop", file_name="x.ps")
        waiting = desk.submit(TWO_PAGES)[1]["id"]
        status, fax = desk.ask("POST", f"/faxes/{waiting}/kill")
        expect_same((status, fax["next"]), (202, "It is being given up."), "the answer for a file that isn't converted")
        expect("before it was submitted" in desk.settled(waiting, "unusable")["next"], "the sentence")
        server.kill()
        kept = desk.settled(desk.submit(TEXT)[1]["id"], "ready")["id"]
        within("its request is kept", lambda: any((folder / "desk/requests/waiting").iterdir()))
        answers = [desk.ask("POST", f"/faxes/{kept}/kill")[0] for _ in range(2)]
        expect_same(answers, [202, 409], "the answers while the queue is gone")
        server.start()
        within("its job is killed", lambda: desk.fax(kept)["state"] == "failed")
        expect("Killed" in desk.fax(kept)["next"], f"the sentence is {desk.fax(kept)['next']}")
        expect_same(rows_of_copy(folder / "queue.db", "SELECT count(*) FROM jobs"), [(1,)], "the jobs")


@check
def rest(folder):
    """Of a fax that failed the pages that weren't confirmed are submitted by a button, once; what is sent of a page is what its
    preview shows."""
    with office(folder) as (server, desk):
        fax = desk.settled(desk.submit(THREE_PAGES, name="Contract")[1]["id"], "submitted")
        for number, (path, body) in enumerate((("/modems/ttyS0/next", ""), ("/grants/1/call", '{"result":"connected"}'), (
            "/grants/1/page", '{"page":1}'), ("/grants/1/outcome", '{"dialed":true,"outcome":"fail","pages":1,"reason":"Paper jam"}')), 1):
            expect_same(answer_to(server.port, post(path, number, body, "ttyS0", "Connection: close\r\n"))[0], 200, path)
        within("the fax failed", lambda: desk.fax(fax["id"])["state"] == "failed")
        expect_same(desk.fax(fax["id"])["next"], "It failed: Paper jam. 1 of 3 pages were confirmed.", "the sentence")
        more = [desk.ask("POST", f"/faxes/{fax['id']}/again")[1]["id"] for _ in range(2)]
        expect(more[0] == more[1] != fax["id"], f"two presses of the button are the faxes {more}")
        new = desk.settled(more[0], "submitted")
        old, job = key_lines(server, fax["job"]), key_lines(server, new["job"])
        expect_same((job["totpages"], job["number"], job["jobtag"]), ("2", "+14155550100", "Contract"), "the job")
        expect_same(pages_in(job["tiff"].removeprefix("0::")), 2, "the pages of the document")
        pictures = [desk.ask("GET", path)[1] for path in (f"/faxes/{fax['id']}/pages/2", f"/faxes/{new['id']}/pages/1")]
        expect(pictures[0] == pictures[1] and old["tiff"] != job["tiff"], "the first page isn't the second one of before")


REJECTS = "^666$\n  RejectNotice = Not to them\n"


@check
def refused(folder):
    """What the queue refuses is reported, and isn't submitted again."""
    with office(folder, REJECTS) as (_, desk):
        fax = desk.settled(desk.submit(TWO_PAGES, number="666")[1]["id"], "refused")
        expect("Not to them" in fax["next"], f"the sentence is {fax['next']}")
        expect_same(desk.settled(desk.submit(TWO_PAGES)[1]["id"], "submitted")["job"], 1, "the next job")


@check
def once(folder):
    """An upload that comes several times at once under one token is one fax, and one job."""
    with office(folder) as (server, desk):
        token = secrets.token_urlsafe(16)
        with concurrent.futures.ThreadPoolExecutor(8) as pool:
            got = list(pool.map(lambda _: desk.submit(TWO_PAGES, token=token), range(8)))
        expect_same({fax["id"] for _, fax in got}, {1}, f"the faxes of {got}")
        desk.settled(1, "submitted")
        expect_same(desk.submit(TWO_PAGES, "otto", token=token)[1]["id"], 2, "the fax of another user with that token")
        for data, form in (THREE_PAGES, {}), (TWO_PAGES, {"number": "5550199"}), (TWO_PAGES, {"name": "Other"}):
            expect_same(desk.submit(data, token=token, **form)[0], 409, f"another fax under that token, {form}")
        desk.settled(2, "submitted", user="otto")
        expect_same(rows_of_copy(folder / "queue.db", "SELECT count(*) FROM jobs"), [(2,)], "the jobs")


class Worker:
    """worker.sh at a modem that sends each page at once, and writes down which."""

    def __init__(self, folder, port):
        self.folder, self.process = folder, None
        (folder / "modem").write_text(f'#!/bin/sh\n[ "$1" != dial ] || echo connected\n[ "$1" != page ] || echo "$2 $3" >> {folder}/pages\n')
        (folder / "modem").chmod(0o755)
        self.environment = {**os.environ, "FAXQD": f"http://127.0.0.1:{port}", "WAIT": "0.2", "PROGRAM": str(said.program)}
        self.start()

    def start(self):
        self.process = subprocess.Popen([EXAMPLES / "worker.sh", "ttyS0", self.folder / "ttyS0", self.folder / "modem"],
                                        stdin=subprocess.DEVNULL, stderr=subprocess.DEVNULL, env=self.environment)

    def kill(self):
        self.process.kill()
        self.process.wait()


def upload_until(ends, desk, user, sent):
    """Uploads one fax after another, each until it is answered."""
    while not ends.is_set():
        token, answered = secrets.token_urlsafe(16), False
        while not answered:
            with contextlib.suppress(OSError, http.client.HTTPException, ValueError):
                status, fax = desk.submit(TEXT, user, token=token)
                expect(status == 201, f"an upload is answered {status} {fax}")
                sent.append((user, fax["id"]))
                answered = True
            time.sleep(0.05)
        time.sleep(6 if said.all else 0.3)  # the worker has to send them all


STATES = "SELECT stage, state, count(*), min(id) FROM faxes GROUP BY stage, state"


@check
def killed(folder):
    """Over kills of the desk, the queue and the worker at random moments each upload that is repeated until it is answered is one fax
    and one job, and its end is mailed once; a mail that comes again, from a desk that was killed when it was sent, has the same name."""
    wants("flock")
    chance, sent, kills, over = random.Random(folder.name), [], int(option("kills", 200 if said.all else 6)), threading.Event()
    with MailServer() as mails, office(folder, **mails.settings()) as (server, desk):
        worker = Worker(folder, server.port)
        with concurrent.futures.ThreadPoolExecutor(3) as pool:
            tasks = [pool.submit(upload_until, over, desk, user, sent) for user in ("anna", "otto", "chief")]
            try:
                for _ in range(kills):
                    time.sleep(chance.uniform(0.1, 1.5))
                    one = chance.choice((desk, desk, server, worker))
                    one.kill()
                    one.start()
            finally:
                over.set()
            for task in tasks:
                task.result()
        try:
            within(lambda: f"all {len(sent)} faxes are sent: {desk.database(STATES)}",
                   lambda: all(desk.fax(number, user)["state"] == "done" for user, number in sent), 60 * PATIENCE)
            within("all mails", lambda: len({mail["Message-ID"] for _, mail in mails.mails}) >= len(sent))
        finally:
            worker.kill()
        jobs = {desk.fax(number, user)["job"] for user, number in sent}
        expect(len(sent) >= 3 and len({number for _, number in sent}) == len(sent) == len(jobs), f"the faxes are {sent}")
        expect_same(rows_of_copy(folder / "queue.db", "SELECT count(*) FROM jobs"), [(len(sent),)], "the jobs")
        names = [mail["Message-ID"] for _, mail in mails.mails]
        expect(len(set(names)) == len(sent) and len(names) - len(sent) <= kills, f"{len(sent)} ends are mailed {len(names)} times")
        expect("a fault of the desk" not in desk.errors(), desk.errors()[-3000:])


def ends(server, job, outcome, modem="ttyS0", numbers=itertools.count(1)):
    """Has the modem get this job, and reports its end."""
    def report(path, body=""):
        status, text = answer_to(server.port, post(path, next(numbers), body, modem, "Connection: close\r\n"))
        expect_same(status, 200, f"{path}, answered {text}")
        return json.loads(text)

    grant = report(f"/modems/{modem}/next")
    expect_same(grant["job"], job, "the job that the modem gets")
    report(f"/grants/{grant['grant']}/call", '{"result":"connected"}')
    pages = range(grant["from"], grant["to"] + 1 if outcome == "done" else grant["from"])
    for page in pages:
        report(f"/grants/{grant['grant']}/page", f'{{"page":{page}}}')
    report(f"/grants/{grant['grant']}/outcome",
           f'{{"dialed":true,"outcome":"{outcome}","pages":{len(pages)},"reason":"Paper jam"}}')


@check
def notices(folder):
    """The owner of a fax gets one mail when it is sent or failed, or if it can't be; also where the mail server doesn't answer at
    first, and over kills of the desk. Without a mail server a command gets it."""
    with MailServer() as mails, office(folder, **mails.settings()) as (server, desk):
        for text in TEXT, TEXT, b"<html>":
            desk.submit(text, name="Order")
        for number, outcome in (1, "done"), (2, "fail"):
            ends(server, desk.settled(number, "submitted")["job"], outcome)
        within("three mails", lambda: len(mails.mails) == 3)
        desk.kill()
        desk.start()
        desk.submit(b"<html>")
        within("a fourth mail", lambda: len(mails.mails) == 4)
        time.sleep(1)
        by_subject = {mail["Subject"]: (recipients, mail.get_content()) for recipients, mail in mails.mails}
        subjects = [f"Fax {number} to +14155550100 {end}" for number, end in ((1, "was sent"), (2, "failed"), (3, "failed"), (4, "failed"))]
        expect_same(sorted(by_subject), subjects, "the subjects")
        for subject, wanted in zip(subjects, (["Sent: all 2 pages were confirmed", "Name: Order", "Pages: 2 of 2"],
                                              ["It failed: Paper jam. 0 of 2", "https://fax.example/faxes/2"],
                                              ["The file is a web page."])):
            recipients, text = by_subject[subject]
            expect(recipients == ["anna@office.example"]
                   and all(part in text for part in wanted), f"{subject}: {recipients} {text}")
        expect_same(len({mail["Message-ID"] for _, mail in mails.mails}), 4, "the names of the mails")
    (folder / "two").mkdir()
    script = folder / "notice"
    script.write_text(f'#!/bin/sh\necho "$@" >> {folder}/said\ncat >> {folder}/text\n')
    script.chmod(0o755)
    with office(folder / "two", notice=[str(script)]) as (server, desk):
        desk.submit(b"<html>")
        within("the command runs", (folder / "text").exists)
        within("it is done", lambda: "web page" in (folder / "text").read_text())
        expect_same((folder / "said").read_text(), "1 anna failed\n", "its arguments")


@check
def notices_off(folder):
    """What is over while there are no notices gets no notice when there are; a recipient whom the mail server refuses for good keeps
    nothing up."""
    with MailServer() as mails, office(folder) as (server, desk):
        desk.submit(b"<html>")
        desk.settled(1, "unusable")
        time.sleep(1)
        desk.kill()
        with Desk(folder, server.port, **mails.settings(), addresses={"eve": "refused@x"}) as desk:
            desk.submit(b"<html>", "eve")
            desk.submit(b"<html>", "otto")
            within("one mail", lambda: mails.mails)
            time.sleep(1)
            expect_same([recipients for recipients, _ in mails.mails], [["otto@office.example"]], "who gets mails")


@check
def mail_server_away(folder):
    """A notice that the mail server doesn't accept is sent later."""
    with MailServer() as mails:
        away = mails.settings()
    with office(folder, **away) as (server, desk):
        desk.submit(b"<html>")
        within("the fault is logged", lambda: "the notice of fax 1 isn't accepted" in desk.errors())
        with MailServer(int(away["smtp"].rpartition(":")[2])) as mails:
            within("the mail", lambda: len(mails.mails) == 1)


def mailed(desk, message, recipient="5550111@fax.example"):
    """The status of the pipe that makes a fax of a mail, and what it says."""
    sender = email.utils.parseaddr(str(message["From"]))[1]
    ran = subprocess.run([PYTHON, "-B", "-m", "faxdesk.mail", desk.folder / "desk.toml", sender, recipient], cwd=TOP / "desk",
                         input=message.as_bytes(), capture_output=True, timeout=PATIENCE)
    return ran.returncode, ran.stderr.decode()


def mail_of(sender, name, *files, **fields):
    mail = email.message.EmailMessage(policy=email.policy.SMTP)
    mail["From"], mail["To"], mail["Subject"], mail[
        "Message-ID"] = sender, "5550111@fax.example", name, f"<{secrets.token_hex(8)}@x>"
    for field, value in fields.items():
        mail[field.replace("_", "-")] = value
    mail.set_content("The text.\n")
    for kind, file_name, data in files:
        mail.add_attachment(data, maintype=kind.partition("/")[0], subtype=kind.partition("/")[2], filename=file_name)
    return mail


# As Apple Mail and mailing lists nest what is attached.
NESTED = b"""From: anna@office.example
Message-ID: <nested@x>
Subject: Nested
MIME-Version: 1.0
Content-Type: multipart/signed; protocol="application/pgp-signature"; boundary=s

--s
Content-Type: multipart/alternative; boundary=a

--a
Content-Type: text/plain

See below.
--a
Content-Type: multipart/mixed; boundary=m

--m
Content-Type: text/html

<p>See below.<img src="cid:logo">
--m
Content-Type: image/png; name=logo.png
Content-ID: <logo>
Content-Disposition: inline; filename=logo.png

x
--m
Content-Type: application/pdf; name=order.pdf
Content-Disposition: inline; filename=order.pdf
Content-Transfer-Encoding: base64

PAGES
--m--

--a--

--s
Content-Type: application/pgp-signature; name=signature.asc

-----BEGIN PGP SIGNATURE-----
--s--
"""


@check
def mail_to_fax(folder):
    """A mail of a user becomes a fax of its attachments in order, or of its text, once; of anybody else it isn't accepted. What can't be
    sent is answered by mail, but not to a program; and where the desk doesn't answer the mail server tries again."""
    with MailServer() as mails, office(folder, **mails.settings(), addresses={"otto": "o.tto@elsewhere.example"}) as (server, desk):
        letter = mail_of("Anna <anna@office.example>", "Order ✓", ("application/pdf", "a.pdf",
                         converted(folder, "pdf", TWO_PAGES)), ("image/png", "b.png", png(40, 30)))
        for _ in range(2):
            expect_same(mailed(desk, letter), (0, ""), "the pipe")
        job = key_lines(server, desk.settled(1, "submitted")["job"])
        expect_same((job["totpages"], job["number"], job["jobtag"], job["owner"]), ("3", "5550111", "Order ✓", "anna"), "the job")
        expect_same(mailed(desk, mail_of("o.tto@elsewhere.example", "")), (0, ""), "a mail without attachments")
        expect_same(key_lines(server, desk.settled(2, "submitted", user="otto")["job"])["totpages"], "1", "the pages of a text")
        pages = base64.encodebytes(converted(folder, "pdf", THREE_PAGES))
        nested = email.message_from_bytes(NESTED.replace(b"PAGES", pages), policy=email.policy.SMTP)
        expect_same(mailed(desk, nested), (0, ""), "a mail with a nested attachment, a signature and a logo")
        expect_same(key_lines(server, desk.settled(3, "submitted")["job"])["totpages"], "3", "the pages of the nested attachment")
        for sender in "eve@elsewhere.example", "otto@office.example", "":
            expect_same(mailed(desk, mail_of(sender, ""))[0], 77, f"a mail of {sender}")
        expect_same(mailed(desk, mail_of("anna@office.example", ""), "sales@fax.example"),
                    (0, ""), "a recipient that is no number")
        within("it is answered", lambda: mails.mails)
        recipients, answer = mails.mails[0]
        expect(recipients == ["anna@office.example"] and "digits" in answer.get_content()
               and answer["In-Reply-To"], f"the answer is {answer}")
        program = mail_of("anna@office.example", "", Auto_Submitted="auto-generated")
        expect_same(mailed(desk, program, "sales@fax.example")[0], 65, "the mail of a program")
        desk.kill()
        expect_same(mailed(desk, letter)[0], 75, "without a desk")
        expect_same(rows_of_copy(folder / "queue.db", "SELECT count(*) FROM jobs"), [(3,)], "the jobs")
        desk.start()


@check
def printer(folder):
    """What is printed is a fax of the user, once, to the number that begins the job's title."""
    with office(folder) as (server, desk):
        file = folder / "print.pdf"
        file.write_bytes(converted(folder, "pdf", TWO_PAGES))

        def prints(title, *more, user="anna", **streams):
            environment = {**os.environ, "DEVICE_URI": f"faxdesk://127.0.0.1:{desk.port}"}
            return subprocess.run([PYTHON, "-B", TOP / "desk/faxdesk/cups", "7", user, title, "1", "", *more], env=environment,
                                  capture_output=True, timeout=PATIENCE, **streams)

        for _ in range(2):
            expect_same(prints("+1 415 555-0100: Report", file).returncode, 0, "the backend")
        with open(file, "rb") as data:
            expect_same(prints("5550111", stdin=data).returncode, 0, "the backend, from standard input")
        jobs = [key_lines(server, desk.settled(fax, "submitted")["job"]) for fax in (1, 2)]
        expect_same([(job["number"], job["jobtag"], job["totpages"], job["owner"]) for job in jobs],
                    [("+14155550100", "Report", "2", "anna"), ("5550111", "", "2", "anna")], "the jobs")
        for title in "Report", "5550111 3 pages", "2026-12-24 Report.pdf", "":
            expect_same(prints(title, file).returncode, 5, f"the title {title!r}")
        for fax, (title, name) in enumerate(((b"5550111:Gr\xfc\xdfe", "Gre"), ("5550111:" + "ü" * 120, "ü" * 100)), 3):
            expect_same(prints(title, file).returncode, 0, f"the title {title!r}")
            expect_same(key_lines(server, desk.settled(fax, "submitted")["job"])["jobtag"], name, "its name")
        for user in "✓", b"\xff", "anna otto":
            expect_same(prints("5550111", file, user=user).returncode, 5, f"the user {user!r}")
        desk.kill()
        expect_same(prints("5550111", file).returncode, 6, "without a desk")
        listed = subprocess.run([PYTHON, "-B", TOP / "desk/faxdesk/cups"], capture_output=True, text=True)
        expect(listed.stdout.startswith("network faxdesk "), f"it says {listed}")
        desk.start()


def metrics_of(desk):
    """The values that a monitor reads."""
    status, text = desk.ask("GET", "/metrics", user=None)
    expect(status == 200, f"the metrics are {status}")
    lines = [line for line in text.decode().splitlines() if not line.startswith("#")]
    expect(all(re.fullmatch(r'[a-z_]+(\{[a-z]+="[a-z]+"\})? [-+.e0-9a-z]+', line) for line in lines), f"the metrics are {text}")
    return {line.rpartition(" ")[0]: float(line.rpartition(" ")[2]) for line in lines}


@check
def monitored(folder):
    """A monitor sees jobs by state, the oldest ready one, modems, the last page, and whether the queue answers."""
    with office(folder) as (server, desk):
        within("the queue is seen", lambda: desk.ask("GET", "/health", user=None) == (200, b"ok\n"))
        desk.submit(TEXT)
        desk.submit(TEXT)
        ends(server, desk.settled(1, "submitted")["job"], "done")
        desk.settled(2, "submitted")
        def seen_in(state):
            return metrics_of(desk)[f'faxqd_jobs{{state="{state}"}}']
        within("the jobs are seen", lambda: seen_in("done") == 1 and seen_in("ready") == 1)
        seen = metrics_of(desk)
        expect_same([seen[f'faxqd_jobs{{state="{state}"}}']
                    for state in ("ready", "active", "done", "failed")], [1, 0, 1, 0], "jobs by state")
        expect_same([seen[f'faxqd_modems{{state="{state}"}}']
                    for state in ("up", "down", "gone", "holding")], [2, 0, 0, 0], "modems")
        for name in "faxqd_oldest_ready_seconds", "faxqd_last_page_seconds", "faxqd_seen_seconds":
            expect(0 <= seen[name] < PATIENCE, f"{name} is {seen[name]}")
        server.kill()
        within("the desk says that the queue is gone", lambda: desk.ask("GET", "/health", user=None)[0] == 503)
        expect_same(desk.submit(TEXT)[0], 201, "an upload while the queue is gone")
        server.start()
        desk.settled(3, "submitted")


class Described:
    """A client that is made of the desk's OpenAPI description: it has an operation for each, and takes no other reply than those that
    are described."""

    def __init__(self, desk, user="anna"):
        self.desk, self.user = desk, user
        self.all = json.loads((TOP / "desk/faxdesk/static/openapi.json").read_text())
        self.operations = {operation["operationId"]: (path, method, operation) for path, methods in self.all["paths"].items()
                           for method, operation in methods.items() if method != "parameters"}

    def found(self, value):
        """What a reference leads to."""
        if "$ref" not in value:
            return value
        for part in value["$ref"].removeprefix("#/").split("/"):
            value = value[part] if part in value else self.all[part]
        return value

    def wrong(self, schema, value, place="it"):
        """What is wrong with a value, or nothing."""
        schema = self.found(schema)
        if value is None and schema.get("nullable"):
            return None
        kinds = {"object": dict, "array": list, "integer": int, "string": str}
        if type(value) is not kinds[schema["type"]] or value not in schema.get("enum", [value]):
            return f"{place} is {value!r}"
        if schema["type"] == "array":
            return next((wrong for one in value if (wrong := self.wrong(schema["items"], one, place))), None)
        if schema["type"] != "object":
            return None
        names = schema["properties"]
        missing = set(schema["required"]) - set(value) or (set(value) - set(names) if schema.get("additionalProperties") is False else set())
        return f"{place} has {missing} or lacks it" if missing else next(
            (wrong for name in value if (wrong := self.wrong(names[name], value[name], f"{place}.{name}"))), None)

    def call(self, name, number=None, form=None):
        """The status and the value of an operation, which have to be described."""
        path, method, operation = self.operations[name]
        if form is not None:
            kinds = operation["requestBody"]["content"]["multipart/form-data"]["schema"]
            expect(set(form) <= set(kinds["properties"]) and set(kinds["required"]) <= set(form), f"{name}: {form} isn't described")
            data = form.pop("file")
            status, value = self.desk.submit(data, self.user, **form)
        else:
            status, value = self.desk.ask(method.upper(), path.replace("{number}", str(number)), user=self.user)
        reply = self.found(operation["responses"].get(str(status), {}))
        expect(reply, f"{name} is answered {status}, which isn't described: {value}")
        wrong = self.wrong(reply["content"]["application/json"]["schema"], value)
        expect(not wrong, f"{name} is answered {status}, and {wrong}")
        return status, value


@check
def described(folder):
    """The OpenAPI description is what the desk does: a client that is made of it submits, lists, shows, suspends, resumes, kills and
    sends again, and meets no other reply."""
    with office(folder) as (server, desk):
        client = Described(desk)
        expect_same(client.call("submit", form={"token": "short", "number": "1", "file": TEXT})[0], 400, "a short token")
        status, fax = client.call("submit", form={"token": "a-long-one", "number": "5550111", "file": TEXT, "resolution": "fine"})
        expect_same(status, 201, "the upload")
        expect_same(client.call("submit", form={"token": "a-long-one", "number": "5550112", "file": TEXT})[0], 409, "another fax")
        within("its job", lambda: client.call("show", fax["id"])[1]["state"] == "ready")
        for name, state in ("suspend", "suspended"), ("resume", "ready"), ("kill", "failed"):
            expect_same(client.call(name, fax["id"])[0], 202, name)
            within(state, lambda: client.call("show", fax["id"])[1]["state"] == state)
        expect_same(client.call("resume", fax["id"])[0], 409, "a fax that failed")
        expect_same((client.call("again", fax["id"])[0], client.call("again", 99)[0]), (201, 404), "the rest of faxes")
        expect_same(len(client.call("list")[1]["faxes"]), 2, "the faxes")
        served = desk.ask("GET", "/static/openapi.json", user=None)
        expect_same(served[1], client.all, "the description that the desk gives out")


@check
def by_faxq(folder):
    """`faxq submit` uploads a document to the desk once, over a bad line and kills, and prints its job; what can't be a fax is
    refused."""
    with office(folder, user="anna") as (server, desk), line_to(desk.port, 3, 1) as (port, _):
        (folder / "letter.ps").write_bytes(TWO_PAGES)
        (folder / "page.html").write_bytes(b"<html>")

        def start(*words):
            own = "--server", f"http://127.0.0.1:{server.port}", "--desk", f"http://127.0.0.1:{port}", "--folder", folder / "faxq"
            return subprocess.Popen([sys.executable, EXAMPLES / "faxq", *own, "--limit", "2", "--pause", "0.1", "submit", *words],
                                    stdin=subprocess.DEVNULL, stdout=subprocess.PIPE, stderr=subprocess.PIPE, text=True, cwd=folder)

        def says(*words):
            process = start(*words)
            out, err = process.communicate(timeout=PATIENCE)
            return process.returncode, out, err

        words, out = ("5550111", "letter.ps", "-i", "Letter", "-a", "now + 2 hours"), ""
        for _ in range(5):
            process = start(*words)
            time.sleep(0.3)
            process.kill()
            out = out or process.communicate()[0]
            if out:  # it had its job before it was killed
                break
        expect_same(out or says(*words)[1], "1\n", "the job of a fax that was begun")
        job = key_lines(server, 1)
        expect_same((job["number"], job["jobtag"], job["totpages"], job["state"]), ("5550111", "Letter", "2", "2"), "the job")
        expect_same(says("5550111", "letter.ps")[:2], (0, "2\n"), "another fax")
        for words, status, said_of in ((("5550111", "page.html"), 1, "refused: The file is a web page"), (("x", "letter.ps"), 1, "refused: The number"),
                                       (("5550111", "none.ps"), 2, "none.ps: No such file"), (("5550111", "letter.ps", "-P", "3"), 2, "no priority")):
            code, out, err = says(*words)
            expect((code, out) == (status, "") and said_of in err, f"{words} ends with {code}, and says {out!r} and {err!r}")
        expect_same(rows_of_copy(folder / "queue.db", "SELECT count(*) FROM jobs"), [(2,)], "the jobs")
        expect(not list((folder / "faxq/desk").iterdir()), "a fax that is submitted is kept")


@check
def cover_page(folder):
    """A cover page is the first page of a fax, with the note of its user; the same form again is the same fax."""
    (folder / "cover.txt").write_text("To {number}\nFrom {owner}: {name}\n\n{note}\n")
    with office(folder, cover=str(folder / "cover.txt")) as (server, desk):
        form = {"token": secrets.token_urlsafe(16), "cover": "on", "note": "Grüße {x}\n"}
        fax = desk.settled([desk.submit(TWO_PAGES, **form)[1]["id"] for _ in range(2)][1], "submitted")
        expect_same((fax["id"], fax["pages"]), (1, 3), "the fax and its pages")
        plain = desk.settled(desk.submit(TWO_PAGES)[1]["id"], "submitted")
        first, second = (desk.ask("GET", f"/faxes/{number}/pages/{page}")[1] for number, page in ((1, 2), (plain["id"], 1)))
        expect(first == second, "the document doesn't follow the cover page")
        expect_same(desk.submit(TWO_PAGES, cover="on", note="x" * 2001)[0], 400, "a long note")
    (folder / "cover.txt").write_text("{sender}")
    ran = subprocess.run([PYTHON, "-B", "-m", "faxdesk", folder / "desk.toml"], cwd=TOP / "desk", capture_output=True, text=True)
    expect(ran.returncode == 2 and "cover: 'sender'" in ran.stderr, f"of a wrong template it says {ran}")


@check
def settings(folder):
    """A fault in the settings is one line that names it."""
    wants_all()
    for text, named in (("pages = 0\n", "pages has to be above 0"), ("page = 5\n", "there is no setting page"), ("listen = 5\n", "listen isn't a text"),
                       ("listen = \"here\"\n", "listen isn't a host and a port"), ("smtp = \"localhost\"\n", "smtp isn't a host and a port"),
                       ("lmtp = \"4562\"\n", "lmtp isn't a host and a port"), ("days = -1\n", "days has to be 0 or above"),
                       ("pause = nan\n", "pause has to be above 0"), ("notice = \"x\"\n", "notice isn't a list of texts"), ("pages = \n", "desk.toml: "), ("server = \"ftp://x\"\n", "is no address")):
        with attempt(text):
            (folder / "desk.toml").write_text(f'folder = "{folder / "desk"}"\n{text}')
            ran = subprocess.run([PYTHON, "-B", "-m", "faxdesk", folder / "desk.toml"], cwd=TOP / \
                                 "desk", capture_output=True, text=True, timeout=PATIENCE)
            expect(ran.returncode == 2 and named in ran.stderr and ran.stderr.count(
                "\n") == 1 and not ran.stdout, f"it says {ran}")
