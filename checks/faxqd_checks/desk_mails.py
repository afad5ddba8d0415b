"""Mails that become faxes by LMTP, and mails that are damaged."""
import contextlib
import random
import re
import subprocess
import threading
import time

from .desk import NESTED, PATIENCE, PYTHON, TWO_PAGES, check, converted, key_lines, mail_of, office, png, within
from .mail_server import MailServer
from .shared import NotTried, Peer, TOP, Wrong, expect, expect_same, free_port, said

FAX = "5550111@fax.example"


def wants_lmtp():
    if subprocess.run([PYTHON, "-c", "import aiosmtpd"], capture_output=True).returncode != 0:
        raise NotTried("there is no python3-aiosmtpd")


class Sender:
    """A mail server that delivers to the desk by LMTP (RFC 2033)."""

    def __init__(self, port):
        self.peer = Peer(port, patience=60)
        expect(self.reply().startswith("220 "), "the greeting isn't one")

    def __enter__(self):
        expect(self.asks("LHLO mx.office.example").startswith("250"), "LHLO is refused")
        return self

    def __exit__(self, *_):
        self.peer.socket.close()

    def reply(self):
        """The next reply, with all its lines."""
        while not (found := re.match(rb"(?:\d{3}-.*\r\n)*\d{3} .*\r\n", self.peer.got)):
            expect(self.peer.take(), f"the connection ends after {self.peer.got!r}")
        self.peer.got = self.peer.got[found.end():]
        return found[0].decode("ascii")

    def asks(self, line):
        self.peer.say(f"{line}\r\n".encode())
        return self.reply()

    def begin(self, sender, *recipients):
        for line in f"MAIL FROM:<{sender}>", *(f"RCPT TO:<{recipient}>" for recipient in recipients), "DATA":
            answer = self.asks(line)
            expect(answer[:3] == ("354" if line == "DATA" else "250"), f"{line} is answered {answer}")

    def send(self, data):
        self.peer.say(re.sub(rb"(?m)^\.", b"..", re.sub(rb"\r?\n", b"\r\n", data)) + b"\r\n.\r\n")

    def deliver(self, data, sender, *recipients):
        """The reply to each recipient."""
        self.begin(sender, *recipients)
        self.send(data)
        return [self.reply() for _ in recipients]


@check
def lmtp(folder):
    """A mail that comes by LMTP is a fax for each recipient, and each recipient has a reply of its own; it is the same faxes if
    it comes again, as after a reply that was lost; a sender who is no user is refused for good, and where the desk can't accept
    it the mail server tries again. A mail that is too large gets as many replies."""
    wants_lmtp()
    port = free_port()
    with office(folder, lmtp=f"127.0.0.1:{port}", domain="office.example", megabytes=1) as (server, desk):
        letter = mail_of("anna@office.example", "Order ✓", ("application/pdf", "a.pdf", converted(folder, "pdf", TWO_PAGES)),
                         ("image/png", "b.png", png(40, 30))).as_bytes()
        recipients = FAX, "sales@fax.example", "+15550112@fax.example"
        for again in False, True:
            with Sender(port) as sender:
                if again:  # its reply is lost
                    sender.begin("anna@office.example", *recipients)
                    sender.send(letter)
            with Sender(port) as sender:
                replies = sender.deliver(letter, "anna@office.example", *recipients)
                codes = [answer[:9] for answer in replies]
                expect_same(codes, ["250 2.0.0", "554 5.6.0", "250 2.0.0"], f"the replies, {replies}")
                expect("only digits" in replies[1], f"a recipient that is no number is answered {replies[1]}")
        numbers = desk.database("SELECT number FROM faxes ORDER BY number")
        expect_same(numbers, [("+15550112",), ("5550111",)], "the faxes")
        job = key_lines(server, desk.settled(1, "submitted")["job"])
        expect_same((job["totpages"], job["jobtag"], job["owner"]), ("3", "Order ✓", "anna"), "the job")
        with Sender(port) as sender:
            for stranger in "eve@elsewhere.example", "":
                expect_same(sender.deliver(letter, stranger, FAX)[0][:9], "550 5.7.1", f"the reply to {stranger!r}")
            many = b"x" * 70 + b"\n"
            replies = sender.deliver(letter + many * 50_000, "anna@office.example", FAX, FAX)
            expect_same([answer[:3] for answer in replies], ["552"] * 2, "a large mail")
            answer = sender.asks("MAIL FROM:<anna@office.example> SIZE=99999999")
            expect(answer.startswith("552"), f"a mail of 100 MB is answered {answer}")
            long_line = sender.deliver(b"Subject: x\n\n" + b"y" * 5000 + b"\n", "anna@office.example", FAX)
            expect_same(long_line[0][:3], "250", "a line of 5000 letters")
        desk.settled(2, "submitted")
        desk.settled(3, "submitted", "unusable")
    (folder / "two").mkdir()
    with office(folder / "two", before=("prlimit", "--fsize=100000:"), lmtp=f"127.0.0.1:{port}", domain="office.example"), \
            Sender(port) as sender:
        letter = mail_of("anna@office.example", "", ("image/png", "b.png", b"\x89PNG\r\n\x1a\n" + bytes(200_000)))
        replies = sender.deliver(letter.as_bytes(), "anna@office.example", FAX)
        expect_same(replies[0][:9], "451 4.3.0", f"a mail for which there is no room, answered {replies}")


def deliver_until(ends, port, sent):
    """Delivers one mail after another to two recipients, each until both replies say that it is accepted."""
    while not ends.is_set():
        letter = mail_of("anna@office.example", f"{len(sent)}").as_bytes()
        replies = []
        while [answer[:3] for answer in replies] != ["250", "250"]:
            with contextlib.suppress(OSError, Wrong), Sender(port) as sender:
                replies = sender.deliver(letter, "anna@office.example", FAX, "5550112@fax.example")
            time.sleep(0.05)
        sent.append(letter)


@check
def lmtp_killed(folder):
    """Over kills of the desk at random moments a mail that is delivered until it is accepted is one fax for each recipient."""
    wants_lmtp()
    port, chance, ended, sent = free_port(), random.Random(folder.name), threading.Event(), []
    with office(folder, lmtp=f"127.0.0.1:{port}", domain="office.example") as (_, desk):
        sender = threading.Thread(target=deliver_until, args=(ended, port, sent), daemon=True)
        sender.start()
        for _ in range(100 if said.all else 4):
            time.sleep(chance.uniform(0.1, 1))
            desk.kill()
            desk.start()
        within("two mails are delivered", lambda: len(sent) > 1)
        ended.set()
        sender.join(PATIENCE)
        expect(not sender.is_alive(), f"after {len(sent)} mails one isn't accepted")
        count = "SELECT name, count(*), count(DISTINCT number) FROM faxes GROUP BY name ORDER BY CAST(name AS INTEGER)"
        expect_same(desk.database(count), [(f"{place}", 2, 2) for place in range(len(sent))], "the faxes")


def damaged(chance, message):
    """A message with some bytes changed, cut out or repeated."""
    data = bytearray(message)
    for _ in range(chance.randint(1, 6)):
        place, size = chance.randrange(len(data)), chance.choice((1, 1, 3, 30))
        new = chance.choice((b"", chance.randbytes(size), b"\r\n", b'"', b"=?utf-8?q?=00?=", b"<[", b"\xff\xfe", b"--s\n"))
        data[place:place + size] = new
    return bytes(data)


DAMAGED = (b"Message-ID: <[\nSubject: =?utf-8?b?=?=\nContent-Type: text/plain; charset=nonsense\n\nx\n",
           b"Message-ID: <\xff@x>\nSubject: Gr\xfc\xdfe\nContent-Type: application/pdf; name=\"\xff.pdf\"\n"
           b"Content-Disposition: attachment\n\nx\n",
           b"Subject: =?utf-8?q?a=00=0d=0aBcc:_x?=\nContent-Type: multipart/mixed\n\nx\n",
           b"Content-Type: multipart/mixed; boundary=\"\"\n\n--\n\nx\n", b"", b"\0", b"\n\n",
           b"Content-Disposition: attachment; filename*=utf-8''a%0d%0aX%3a%20y\nContent-Transfer-Encoding: base64\n\n!!\n",
           b"Content-Type: message/rfc822\n\nContent-Type: message/rfc822\n\n")


@check
def damaged_mails(folder):
    """A mail that is damaged, or has odd bytes in its headers, is a fax or is refused; the desk has no fault from it, and
    neither has the pipe."""
    wants_lmtp()
    port, chance = free_port(), random.Random(folder.name)
    with MailServer() as mails, office(folder, lmtp=f"127.0.0.1:{port}", **mails.settings()) as (_, desk):
        whole = mail_of("anna@office.example", "Order ✓", ("image/png", "b.png", png(4, 3))).as_bytes()
        tried = [*DAMAGED, *(damaged(chance, chance.choice((whole, NESTED))) for _ in range(400 if said.all else 12))]
        with Sender(port) as sender:
            for place, data in enumerate(tried):
                answer, = sender.deliver(data, "anna@office.example", f"{5550200 + place}@fax.example")
                expect(answer[:9] in ("250 2.0.0", "554 5.6.0"), f"{data[:300]!r} is answered {answer}")
        for data, recipient in (DAMAGED[0], FAX), (DAMAGED[1], FAX), (whole, b"\xff@fax.example"):
            ran = subprocess.run([PYTHON, "-B", "-m", "faxdesk.mail", folder / "desk.toml", "anna@office.example", recipient],
                                 cwd=TOP / "desk", input=data, capture_output=True, timeout=60)
            expect(ran.returncode in (0, 65) and b"Traceback" not in ran.stderr, f"of {data!r} the pipe says {ran}")
        within("all are looked at", lambda: not desk.database("SELECT 1 FROM faxes WHERE stage IN ('uploaded', 'ready')"), 60)
        expect("fault of the desk" not in desk.errors() and "session exception" not in desk.errors(), desk.errors()[-3000:])


@check
def odd_owners(folder):
    """The owner of each fax gets the mail whatever the user's name is; what users write doesn't become a header."""
    with MailServer() as mails, office(folder, **mails.settings()) as (_, desk):
        for user in ".", "a..b", "-", "_.-", "a" * 32, "otto":
            expect_same(desk.submit(b"<html>", user, name="x\r\nBcc: eve@elsewhere.example")[0], 201, f"an upload of {user}")
        within("six mails", lambda: len(mails.mails) >= 6)
        time.sleep(0.5)
        recipients = sorted(f"{user}@office.example" for user in (".", "a..b", "-", "_.-", "a" * 32, "otto"))
        expect_same(sorted(name for names, _ in mails.mails for name in names), recipients, "who gets mails")
        for _, mail in mails.mails:
            expect("Bcc" not in mail and "Name: x Bcc: eve" in mail.get_content(), f"a mail is {mail}")
