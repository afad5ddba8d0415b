"""The desk against users who mean ill, and those who have bad luck: odd requests and names, markup, a full disk, another queue
under its address, two desks on one folder, a clock that jumps, and somebody whose files never end."""
import contextlib
import html.parser
import http.client
import io
import os
import secrets
import socket
import struct
import subprocess
import time

from .desk import PATIENCE, PYTHON, TEXT, TWO_PAGES, check, ends, key_lines, office, pages_in, wants_all, within
from .mail_server import MailServer
from .shared import (CLOSE, NotTried, TOP, answer_to, attempt, expect, expect_same, free_port, post, preload, submission, wants)

SLOW = b"%!PS\n0 1 40000000 { pop } for showpage\n"  # takes seconds to print


def no_fault(desk):
    """The desk has had no fault of its own."""
    expect("fault of the desk" not in desk.errors() and "Exception on" not in desk.errors(), desk.errors()[-3000:])


MULTIPART = "multipart/form-data; boundary=mark"


def written(parts):
    """The parts of a form, each the rest of its head and its bytes."""
    return b"".join(b"--mark\r\nContent-Disposition: form-data; " + head + b"\r\n\r\n" + data + b"\r\n" for head, data in parts)


def form(desk, *parts, more=b"", kind=MULTIPART):
    """What the desk answers to a form of these parts."""
    return desk.ask("POST", "/faxes", written(parts) + more, Content_Type=kind)


def fax(name=b"", file_name=b'filename="a.ps"'):
    """The parts of a form that is a fax."""
    return ((b'name="token"', secrets.token_urlsafe(16).encode()), (b'name="number"', b"5550111"), (b'name="name"', name),
            (b'name="file"; ' + file_name, TWO_PAGES))


END = b"--mark--\r\n"


@check
def odd_requests(folder):
    """Whatever a request is, the reply is a fax or a sentence that says what is wrong, and never a fault of the desk."""
    with office(folder) as (_, desk):
        expect_same(desk.submit(TEXT)[0], 201, "a fax")
        large = "9" * 30
        for method, path in (("GET", f"/faxes/{large}"), ("POST", f"/faxes/{large}/kill"), ("GET", f"/faxes/1/pages/{large}"),
                             ("GET", f"/faxes/{2**63}"), ("GET", "/faxes/-1"), ("GET", "/faxes/%00"), ("GET", "/%ff"),
                             ("PUT", "/faxes")):
            with attempt(path):
                status, answer = desk.ask(method, path)
                expect(status in (404, 405) and answer["fault"], f"it is answered {status} {answer}")
        for origin in "http://[::1", "http://[", "\xff", "", "x" * 9000, f"http://127.0.0.1:{desk.port}.evil.example":
            expect_same(desk.ask("POST", "/faxes/1/kill", Origin=origin)[0], 403, f"a form of {origin[:50]}")
        many = tuple((f'name="x{place}"'.encode(), b"") for place in range(1500))
        for kind, parts, more in (("multipart/form-data", fax(), END), ("application/json", (), b'{"number":"5550111"}'),
                                  ("x", (), b""), (MULTIPART, (), written(fax())[:-40]), (MULTIPART, many, END),
                                  (MULTIPART, fax(file_name=b'filename="\xfc"'), END), (MULTIPART, fax(b"Gr\xfc\xdfe"), END),
                                  (MULTIPART, fax(b"a\x1bb"), END)):
            with attempt((kind, parts[:3], more[:40])):
                status, answer = form(desk, *parts, more=more, kind=kind)
                expect(status in (400, 413) and answer["fault"], f"it is answered {status} {answer}")
        no_fault(desk)


@check
def odd_names(folder):
    """Names that are text are kept as they are, also of letters that are newer than Python; files' names lose what isn't; a
    user is who the proxy says, whatever else the request says."""
    with office(folder) as (server, desk):
        for name in "Grüße \U0001fae8 \uf8ff", "a\\", "\u202eb", "::", "-i":
            with attempt(name):
                status, made = desk.submit(name.encode(), name=name)
                expect_same(status, 201, f"the status, with {made}")
                expect_same(key_lines(server, desk.settled(made["id"], "submitted")["job"])["jobtag"], name, "the job's tag")
        for file_name, wanted in ((b"filename*=UTF-8''a%0D%0Ab.pdf", "a b.pdf"), (b'filename="a\x01b"', "a b"),
                                  (b"filename*=UTF-8''%01", "file"),
                                  (b'filename="' + "\U0001fae8".encode() * 50 + b'"', "\U0001fae8" * 25)):
            with attempt(file_name):
                status, made = form(desk, *fax(file_name=file_name), more=END)
                expect_same((status, made.get("file_name")), (201, wanted), "the status and the file's name")
        for user in "ä", "OFFICE\\anna", "anna@office.example", "anna, chief", "a" * 33:
            status, answer = desk.ask("GET", "/faxes", user=user.encode().decode("latin-1"))
            expect(status == 403 and "letters, digits" in answer["fault"], f"the user {user} is answered {status} {answer}")
        for names, status in (((("X-Remote-User", "anna"), ("X-Remote-User", "chief")), 403),
                              ((("X_Remote_User", "chief"),), 403),
                              ((("X-Remote-User", "otto"), ("X_Remote_User", "chief")), 404)):
            expect_same(raw(desk, names), status, f"a request for anna's fax with {names}")
        no_fault(desk)


def raw(desk, fields):
    """The status for fax 1 with these fields, written as they are."""
    with contextlib.closing(http.client.HTTPConnection("127.0.0.1", desk.port, timeout=PATIENCE)) as door:
        door.putrequest("GET", "/faxes/1")
        for name, value in fields:
            door.putheader(name, value)
        door.endheaders()
        return door.getresponse().status


class Tags(html.parser.HTMLParser):
    """The elements of a page, each with its attributes."""

    def __init__(self, text):
        super().__init__()
        self.found = []
        self.feed(text)

    def handle_starttag(self, tag, attributes):
        self.found.append((tag, dict(attributes)))


@check
def markup(folder):
    """What users and modems write is text on every page, and no script but the desk's own would run."""
    bad = "<script>x</script><b onclick=x>'\"&"
    with office(folder) as (server, desk):
        made = desk.submit(TWO_PAGES, name=bad, file_name=bad.replace('"', "%22"))[1]
        job = desk.settled(made["id"], "submitted")["job"]
        for number, (path, body) in enumerate((("/modems/ttyS0/next", ""), ("/grants/1/outcome", (
                '{"dialed":false,"outcome":"fail","pages":0,"reason":"<b>jam</b><script>"}'))), 1):
            expect_same(answer_to(server.port, post(path, number, body, "ttyS0", CLOSE))[0], 200, path)
        within("the end is seen", lambda: desk.fax(made["id"])["state"] == "failed")
        expect_same(key_lines(server, job)["status"], "<b>jam</b><script>", "the job's status")
        for path in "/", f"/faxes/{made['id']}", f"/faxes/<b>{made['id']}", "/?before=<b>":
            with attempt(path):
                text = desk.ask("GET", path.replace("<", "%3C").replace(">", "%3E"), Accept="text/html")[1].decode()
                elements = Tags(text).found
                expect_same([more.get("src") for tag, more in elements if tag == "script"], ["/static/desk.js"], "the scripts")
                odd = [tag for tag, more in elements if tag == "b" or any(name.startswith("on") for name in more)]
                expect(not odd, f"it has {odd}")
                shows = path in ("/", f"/faxes/{made['id']}")
                expect("<b>jam" not in text and "&lt;b&gt;jam" in text or not shows, "the reason isn't shown as text")
        with contextlib.closing(http.client.HTTPConnection("127.0.0.1", desk.port, timeout=PATIENCE)) as door:
            door.request("GET", "/", headers={"X-Remote-User": "anna"})
            policy = door.getresponse().headers["Content-Security-Policy"]
        is_strict = "default-src 'none'" in policy and "script-src 'self';" in policy and "unsafe" not in policy
        expect(is_strict, f"the policy is {policy}")


@check
def full_disk(folder):
    """An upload for which there is no room is refused with a sentence, leaves nothing, and is accepted under the same token
    when there is; a monitor sees the fault."""
    text = b"A line of text.\n" * 25_000  # of 400 kB
    with office(folder, before=("prlimit", "--fsize=300000:")) as (_, desk):
        token = secrets.token_urlsafe(16)
        within("the desk is well", lambda: desk.ask("GET", "/health", user=None)[0] == 200)
        for _ in range(2):
            status, answer = desk.submit(text, token=token)
            expect(status == 503 and "can't store" in answer["fault"], f"it is answered {status} {answer}")
        expect_same(list((folder / "desk/uploads").iterdir()), [], "what is left of it")
        status, health = desk.ask("GET", "/health", user=None)
        expect(status == 503 and b"fault" in health, f"the desk's health is {status} {health}")
        expect_same(desk.submit(b"Another one.\n")[0], 201, "a smaller one")
        subprocess.run(["prlimit", "--pid", str(desk.process.pid), "--fsize=unlimited:"], check=True)
        expect_same([desk.submit(text, token=token)[1].get("id") for _ in range(2)], [2, 2], "the fax")


# A page that is large in any coding.
NOISE = b"%!PS\n0 1 60000 { pop rand 595 mod rand 842 mod 1 1 rectfill } for showpage\n"


@check
def no_room(folder):
    """A file for whose document there is no room isn't called damaged: it becomes a fax when there is room again."""
    wants("unshare", "nsenter")
    if os.getuid() != 0:
        raise NotTried("this isn't root")
    small = ("unshare", "--mount", "sh", "-c", f'mount -t tmpfs -o size=600k tmpfs {folder}/desk && exec "$@"', "sh")
    (folder / "desk").mkdir()
    with office(folder, before=small) as (server, desk):
        made = desk.submit(NOISE + b"% a comment\n" * 20_000, file_name="x.ps")[1]
        within("the fault is logged", lambda: "No space left" in desk.errors() or desk.fax(made["id"])["stage"] != "uploaded")
        expect_same(desk.fax(made["id"])["next"], "The file is being converted.", "the sentence")
        expect_same(desk.ask("GET", "/health", user=None)[0], 503, "the desk's health")
        larger = "mount", "-o", "remount,size=50m", folder / "desk"
        subprocess.run(["nsenter", "--target", str(desk.process.pid), "--mount", *larger], check=True)
        expect_same(desk.settled(made["id"], "submitted", "unusable")["reason"], "", "why it can't be used")
        expect_same(key_lines(server, 1)["totpages"], "1", "the pages of the job")


@check
def two_desks(folder):
    """A second desk on the folder of another waits until that ends, and disturbs nothing that it does."""
    with office(folder) as (server, desk):
        made = desk.submit(SLOW)[1]
        within("the conversion begins", lambda: list((folder / "desk/work").iterdir()))
        port = free_port()
        settings = (folder / "desk.toml").read_text().replace(f"127.0.0.1:{desk.port}", f"127.0.0.1:{port}")
        (folder / "second.toml").write_text(settings)
        with open(folder / "second", "w") as says:
            second = subprocess.Popen([PYTHON, "-B", "-m", "faxdesk", folder / "second.toml"], cwd=TOP / "desk",
                                      stdin=subprocess.DEVNULL, stdout=subprocess.PIPE, stderr=says)
        try:
            within("the second waits or listens", lambda: (folder / "second").read_text() or second.poll() is not None)
            text = (folder / "second").read_text()
            expect("another desk has the folder" in text, f"the second says {text}")
            expect_same(desk.settled(made["id"], "submitted", "unusable")["reason"], "", "why the first can't use the file")
            expect_same(pages_in(key_lines(server, 1)["tiff"][3:]), 1, "the pages")
            no_fault(desk)
            desk.kill()
            expect(second.stdout.readline() == f"faxdesk: listening at 127.0.0.1:{port}\n".encode(), "the second doesn't go on")
        finally:
            second.kill()
            second.wait()
            second.stdout.close()


@check
def another_queue(folder):
    """Where the queue was replaced or restored, and gives the numbers of faxes' jobs to other jobs, nobody's fax counts as sent
    with those, and no button changes them; the owners get a mail, and can send the pages again."""
    with MailServer() as mails, office(folder, pause=1.5, **mails.settings()) as (server, desk):
        for number in 1, 2:
            desk.submit(TWO_PAGES)
            desk.settled(number, "submitted")
        within("the jobs are seen", lambda: desk.fax(1)["state"] == desk.fax(2)["state"] == "ready")
        server.kill()
        for file in folder.glob("queue.db*"):
            file.unlink()
        server.start()
        for number in 1, 2:
            answer_to(server.port, submission(number, "other", CLOSE))
        desk.ask("POST", "/faxes/1/kill")
        within("fax 1 is lost", lambda: "doesn't have its job" in desk.fax(1)["next"])
        for number in 1, 2:
            expect_same(key_lines(server, number)["state"], "5", f"the state of the other job {number}")
            ends(server, number, "done")
        within("fax 2 is lost", lambda: "doesn't have its job" in desk.fax(2)["next"])
        within("two mails", lambda: len(mails.mails) == 2)
        subjects = sorted(mail["Subject"] for _, mail in mails.mails)
        expect_same(subjects, [f"Fax {number} to +14155550100 failed" for number in (1, 2)], "the mails")
        status, made = desk.ask("POST", "/faxes/2/again")
        expect_same((status, desk.settled(made["id"], "submitted")["job"]), (201, 3), "the same again")
        time.sleep(2)
        expect_same([desk.fax(number)["state"] for number in (1, 2)], [None, None], "the states of the lost ones")
        expect_same(len(mails.mails), 2, "the mails at the end")


@check
def clocks(folder):
    """A clock that jumps keeps no notice back, and the ages that a monitor sees don't jump with it."""
    now = int(time.time())
    (folder / "moment").write_text(str(now))
    with MailServer() as mails:
        mails.refuses = True
        with office(folder, before=preload(["clocks"], MOMENT_FILE=folder / "moment"), **mails.settings()) as (_, desk):
            desk.submit(b"<html>")
            within("the mail is refused", lambda: "isn't accepted" in desk.errors())
            (folder / "moment").write_text(str(now - 86400))
            mails.refuses = False
            within("the mail", lambda: mails.mails)
            (folder / "moment").write_text(str(now + 10 * 365 * 86400))
            desk.submit(b"<html>")
            within("another mail", lambda: len(mails.mails) == 2)
            shown = desk.ask("GET", "/metrics", user=None)[1].decode()
            ages = [float(line.split()[1]) for line in io.StringIO(shown) if line.startswith(("faxqd_seen", "faxqd_last_page"))]
            expect(len(ages) == 2 and all(0 <= age < PATIENCE for age in ages), f"the metrics are {shown}")


TIFF = struct.pack("<4sIHI", b"II*\0", 8, 0, 0)  # of a page without anything
# Has the desk's code run commands in place of ghostscript, as a file could have it that finds a hole there.
TAKEN_OVER = """import pathlib, sys
from faxdesk.documents import Documents, Unusable
from faxdesk.settings import Settings

class TakenOver(Documents):
    def run(self, room, files, seconds, *words):
        return super().run(room, files, seconds, *(["sh", "-c", sys.argv[2]] if words[0] == "gs" else ["true"]))

documents = TakenOver(Settings(folder=sys.argv[1]))
with open(sys.argv[3], "rb") as upload:
    name = documents.store(upload)
try:
    print(documents.file(documents.convert([name], "fine")[0]).read_bytes()[:8])
except Unusable as why:
    print(why)
"""


@check
def taken_over(folder):
    """Who takes a conversion over has its folder and its files alone: no file of the desk, no network, and no link that is left
    there leads the desk elsewhere."""
    wants_all()
    secret, place, server = folder / "secret", folder / "desk", socket.create_server(("127.0.0.1", 0))
    secret.write_bytes(TIFF)
    (folder / "x.ps").write_bytes(TWO_PAGES)
    made = "printf 'II*\\0\\10\\0\\0\\0\\0\\0\\0\\0\\0\\0' > fax.tif"  # TIFF
    connects = f"import socket; socket.create_connection(('127.0.0.1', {server.getsockname()[1]}))"
    for command, succeeds in (
            (made, True), (f"cat {secret} && {made}", False), (f"ls {place} && {made}", False),
            (f"echo x > {folder}/made && {made}", False), (f"echo x > /usr/made && {made}", False),
            (f"echo x > /in/0 && {made}", False), (f'/usr/bin/python3 -c "{connects}" && {made}', False),
            (f"ln -s {secret} fax.tif", False), (f"ln -sf {secret} errors; {made}", True),
            ("echo x > fax.tif", False), ("mkfifo fax.tif", False)):
        with attempt(command):
            words = PYTHON, "-B", "-c", TAKEN_OVER, place, f"cp /in/0 0.tif; {command}", folder / "x.ps"
            ran = subprocess.run(words, cwd=TOP / "desk", capture_output=True, text=True, timeout=PATIENCE)
            got = ran.stdout.startswith("b'II*"), ran.stdout.startswith("The file")
            expect_same(got, (succeeds, not succeeds), f"whether it is done, of {ran}")
            expect(secret.read_bytes() == TIFF and not (folder / "made").exists(), "a file outside is changed")


@check
def by_turns(folder):
    """Whoever has files that take all their time keeps nobody else's from being converted."""
    with office(folder, seconds=15) as (_, desk):
        for _ in range(5):
            desk.submit(b"%!PS\n{} loop", file_name="x.ps")
        made = desk.submit(TEXT, "otto")[1]
        desk.settled(made["id"], "submitted", user="otto")
        left = [fax["stage"] for fax in desk.ask("GET", "/faxes")[1]["faxes"]].count("uploaded")
        expect(left >= 1, "the other user's file was converted after all five")
