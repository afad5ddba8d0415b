"""Inputs past the short ones: many lines, long lines, and texts and numbers at their limits and one past them. A body that
gives up there without a cause would be proved, so it has to be seen here."""
import functools

from .runner import group
from .shared import SETUP, attempt, expect, run, say

check = group("long-inputs", "Sends inputs past the short ones, on both sides of their limits.", "computing")
PHRASES = {
    200: "OK", 201: "Created", 400: "Bad Request", 403: "Forbidden", 404: "Not Found", 409: "Conflict",
    413: "Payload Too Large",
}


# ---- messages and replies

class Conversation:
    """Messages, and the replies that are wanted."""

    def __init__(self, name, setup=SETUP, controls=""):
        self.name, self.setup, self.controls = name, setup, controls
        self.sent, self.wanted, self.error, self.number = b"", b"", b"", 0

    def post(self, path, body="", client="desk", moment=1000):
        """Sends a request with the next number."""
        self.number += 1
        body = body.encode()
        head = f"POST {path} HTTP/1.1\r\nFax-Client: {client}\r\nFax-Number: {self.number}\r\n"
        self.sent += f"{head}Fax-Moment: {moment}\r\nContent-Length: {len(body)}\r\n\r\n".encode() + body
        return self

    def get(self, path):
        self.sent += f"GET {path} HTTP/1.1\r\nFax-Moment: 1000\r\n\r\n".encode()
        return self

    def gives(self, status, body, kind="application/json"):
        """The reply to what was sent last."""
        body = body.encode()
        head = f"HTTP/1.1 {status} {PHRASES[status]}\r\nContent-Type: {kind}\r\nContent-Length: {len(body)}\r\n\r\n"
        self.wanted += head.encode() + body
        return self

    def ends_bad(self, status, body):
        """The reply to bytes that begin no message, which is the last."""
        head = f"HTTP/1.1 {status} {PHRASES[status]}\r\nContent-Type: application/json\r\n"
        self.wanted += f"{head}Content-Length: {len(body)}\r\nConnection: close\r\n\r\n{body}".encode()
        self.error = b"faxqd: ended bad\n"
        return self

    def bad_body(self, kind, line=None):
        where = "" if line is None else f'"line":{line},'
        return self.gives(400, f'{{"kind":"{kind}",{where}"no":6,"word":"bad-body"}}')

    def shows(self, **fields):
        """The reply that shows a job, with the fields that aren't those of the plain job."""
        return self.gives(200, job(**fields), "text/plain")


def job(extra="", **fields):
    """A job as key lines."""
    lines = {
        "jobid": 1, "number": "5550111", "modem": "any", "jobtag": "", "tts": 1000, "killtime": 0, "priority": 127,
        "npages": 0, "totpages": 1, "ntries": 0, "tottries": 0, "maxtries": 3, "ndials": 0, "totdials": 0,
        "maxdials": 12, "state": 5, "status": "",
    }
    lines.update(fields)
    return "".join(f"{tag}:{value}\n" for tag, value in lines.items()) + extra


SUBMISSION = "number:5550111\ntotpages:1\n"


def submitted(name, more="", setup=SETUP, controls=""):
    """A conversation that begins with an accepted submission."""
    return Conversation(name, setup, controls).post("/jobs", SUBMISSION + more).gives(201, '{"job":1}')


def granted(name, pages=1):
    """A conversation that begins with a submission and its grant."""
    talk = Conversation(name).post("/jobs", f"number:5550111\ntotpages:{pages}\n").gives(201, '{"job":1}')
    talk.post("/modems/ttyS0/next", client="w0")
    return talk.gives(200, f'{{"from":1,"grant":1,"job":1,"number":"5550111","to":{pages}}}')


def agrees(talk, folder):
    """The program answers as it should."""
    (folder / "setup").write_text(talk.setup)
    (folder / "controls").write_text(talk.controls)
    words = "--setup", folder / "setup", "--controls", folder / "controls"
    status, out, err, _ = run("replay", *words, input=talk.sent, patience=120)
    place = next((at for at, pair in enumerate(zip(out, talk.wanted)) if pair[0] != pair[1]), len(out))
    expect((status, err, out) == (1 if talk.error else 0, talk.error, talk.wanted),
           f"status {status}, error '{err.decode()}', differs at byte {place}: {out[max(0, place - 60):place + 60]}")


def conversations(part):
    """A check that has these conversations."""
    @functools.wraps(part)
    def tried(folder):
        talks = list(part())
        for talk in talks:
            with attempt(talk.name):
                agrees(talk, folder)
        say(f"{len(talks)} conversations")
    return check(tried)


def filled(size, front, back="\n"):
    """A text of that many bytes between a front and a back."""
    return front + "y" * (size - len(front) - len(back)) + back


# ---- key lines

@conversations
def key_lines():
    """A body of many and of long key lines is kept as it came, and its fault is told by its line."""
    for count in (1001, 4097):
        extra = "".join(f"x-{number}:{number}\n" for number in range(count))
        yield submitted(f"{count} extra lines", extra).get("/jobs/1").shows(extra=extra)
    extra = "a:\n" * ((65536 - len(SUBMISSION)) // 3)
    yield submitted("as many lines as fit", extra).get("/jobs/1").shows(extra=extra)
    for size in (256, 4095, 4096, 4097, 65536 - len(SUBMISSION)):
        extra = filled(size, "x-note:")
        yield submitted(f"an extra line of {size} bytes", extra).get("/jobs/1").shows(extra=extra)
    extra = "".join(filled(1000, f"x-{number}:") for number in range(30))
    yield submitted("thirty lines of 1,000 bytes", extra).get("/jobs/1").shows(extra=extra)
    yield submitted("a comment of 60,000 bytes", filled(60000, "#")).get("/jobs/1").shows()
    yield submitted("5,000 lines of blanks", " \t\n" * 5000).get("/jobs/1").shows()
    yield submitted("a status over 1,500 lines", "status:" + "on\\\n" * 1500 + "end\n").get("/jobs/1").shows()
    extra = f"{'t' * 64}:1\n"
    yield submitted("a tag of 64 bytes", extra).get("/jobs/1").shows(extra=extra)
    yield Conversation("a tag of 65 bytes").post("/jobs", f"{SUBMISSION}{'t' * 65}:1\n").bad_body("bad-tag", 3)
    for size in (65, 60000):
        yield Conversation(f"a line of {size} bytes without a colon").post("/jobs", "t" * size).bad_body("no-colon", 1)
    yield Conversation("a fault behind 2,000 lines").post("/jobs", "a:\n" * 2000 + "b").bad_body("no-colon", 2001)
    yield Conversation("twice behind 2,000 lines").post("/jobs", SUBMISSION + "a:\n" * 2000 + "number:1").bad_body("twice", 2003)
    yield Conversation("a status open after 1,500 lines").post("/jobs", "status:" + "a\\\n" * 1500).bad_body("open-end", 1500)


# ---- values of an order

@conversations
def orders():
    """A job tag, a number to dial, a modem and a number of pages are taken up to their limits, and no further."""
    yield submitted("a job tag of 200 bytes", f"jobtag:{'g' * 200}\n").get("/jobs/1").shows(jobtag="g" * 200)
    yield submitted("a job tag of 100 characters in 200 bytes", f"jobtag:{'é' * 100}\n").get("/jobs/1").shows(jobtag="é" * 100)
    for tag in ("g" * 201, "é" * 100 + "g", "g" * 60000):
        yield Conversation("too long a job tag").post("/jobs", f"{SUBMISSION}jobtag:{tag}\n").bad_body("bad-jobtag")
    talk = submitted("tags of an alteration").post("/jobs/1/suspend").gives(200, '{"job":1,"state":1}')
    talk.post("/jobs/1/alter", f"jobtag:{'g' * 201}\n").bad_body("bad-jobtag")
    talk.post("/jobs/1/alter", f"jobtag:{'g' * 200}\nmodem:{'m' * 32}\n").gives(200, '{"job":1,"state":1}')
    yield talk.get("/jobs/1").shows(jobtag="g" * 200, modem="m" * 32, state=1)
    talk = Conversation("numbers to dial")
    for number in ("12x", "+", "1+2", "++1", "1,2", "5550111w", "é", "-", "0" * 33, "+" + "0" * 33, "1" * 60000):
        talk.post("/jobs", f"number:{number}\ntotpages:1\n").bad_body("bad-dial")
    yield talk
    for number in ("0" * 32, "+" + "*" * 32, "#" * 32):
        talk = Conversation("numbers of 32 keys").post("/jobs", f"number:{number}\ntotpages:1\n").gives(201, '{"job":1}')
        yield talk.get("/jobs/1").shows(number=number)
    talk = Conversation("many separators").post("/jobs", f"number:{' -.()' * 10000}5\ntotpages:1\n").gives(201, '{"job":1}')
    yield talk.get("/jobs/1").shows(number="5")
    yield submitted("a modem of 32 characters", f"modem:{'m' * 32}\n").get("/jobs/1").shows(modem="m" * 32)
    for name in ("m" * 33, "m" * 60000):
        yield Conversation("too long a modem").post("/jobs", f"{SUBMISSION}modem:{name}\n").bad_body("bad-modem")
    for pages in ("9999", "000000000000009999"):
        talk = Conversation("9,999 pages").post("/jobs", f"number:5550111\ntotpages:{pages}\n").gives(201, '{"job":1}')
        yield talk.get("/jobs/1").shows(totpages=9999)
    for pages in ("10000", "0000000000000009999", "9" * 60000):
        yield Conversation("too many pages").post("/jobs", f"number:5550111\ntotpages:{pages}\n").bad_body("bad-pages")


# ---- fields and paths

@conversations
def fields():
    """Clients, modems and numbers in a path are taken up to their limits, and no further."""
    talk = Conversation("names of clients").post("/jobs", SUBMISSION, client="c" * 32).gives(201, '{"job":1}')
    for name in ("c" * 33, "c" * 16000):
        talk.post("/jobs", SUBMISSION, client=name).gives(400, '{"no":4,"word":"bad-client"}')
    yield talk
    setup = f"Modem: {'m' * 32}\n"
    talk = submitted("modems of 32 characters", setup=setup)
    talk.post(f"/modems/{'m' * 32}/down").gives(200, '{"down":true}').post(f"/modems/{'m' * 32}/ready").gives(200, '{"down":false}')
    for path in (f"/modems/{'m' * 33}/next", f"/modems/{'m' * 16000}/next", "/" + "j" * 16000):
        talk.post(path).gives(404, '{"no":3,"word":"no-route"}')
    talk.post(f"/modems/{'n' * 32}/next").gives(404, '{"no":9,"word":"no-modem"}')
    yield talk.post(f"/modems/{'m' * 32}/next").gives(200, '{"from":1,"grant":1,"job":1,"number":"5550111","to":1}')
    talk = Conversation("numbers in a path")
    for path, body in (("/jobs/" + "9" * 18, '{"no":8,"word":"no-job"}'), ("/jobs/" + "9" * 19, '{"no":3,"word":"no-route"}')):
        talk.get(path).gives(404, body).post(path + "/kill").gives(404, body)
    yield talk.get("/jobs/" + "1" * 16000).gives(404, '{"no":3,"word":"no-route"}')


@conversations
def heads():
    """Heads and bodies are taken up to their limits, behind an accepted submission, and no further."""
    bad, large = '{"no":1,"word":"bad-http"}', '{"no":2,"word":"too-large"}'
    lost = '{"no":8,"word":"no-job"}'
    for size in (16384, 16385):
        for front, head in (("\r\n" * 3000, ""), ("\n" * 7000, ""), ("", f"X: {'x' * 9000}\r\n"), ("\r\n", "Y:1\r\n" * 60)):
            start = f"{front}GET /jobs/9 HTTP/1.1\r\n{head}"
            talk = submitted(f"a head of {size} bytes")
            talk.sent += filled(size, start + "Z: ", "\r\n\r\n").encode()
            yield talk.gives(404, lost) if size == 16384 else talk.ends_bad(400, bad)
    for length, status, body in (("65537", 413, large), ("9" * 18, 413, large), ("9" * 19, 400, bad), ("0" * 18 + "1", 400, bad),
                                 ("9" * 16000, 400, bad), ("1e3", 400, bad), ("+1", 400, bad), ("", 400, bad)):
        talk = submitted("lengths that aren't taken")
        talk.sent += f"GET /jobs/9 HTTP/1.1\r\nContent-Length: {length}\r\n\r\n".encode() + b"y" * 65537
        yield talk.ends_bad(status, body)
    talk = submitted("a length that begins with 0")
    talk.sent += f"GET /jobs/9 HTTP/1.1\r\nContent-Length: {'0' * 13}65536\r\n\r\n".encode() + b"y" * 65536
    yield talk.gives(404, lost)
    talk = submitted("a length of eighteen digits 0")
    talk.sent += f"GET /jobs/9 HTTP/1.1\r\nContent-Length: {'0' * 18}\r\n\r\n".encode()
    yield talk.gives(404, lost)


@conversations
def moments():
    """What a message says of its moment is the time to send of the job that it hands in, if it is a moment."""
    cases = (("5", 5), ("0", 0), ("0" * 17 + "7", 7), ("4102444800", 4102444800), ("4102444801", 4102444800),
             ("9" * 18, 4102444800), ("9" * 19, 0), ("", 0), ("-1", 0), ("+1", 0), ("1.5", 0), ("5 5", 0), ("5\r\nFax-Moment: 5", 0),
             ("5\r\nfax-moment: 6", 0), ("1" * 16000, 0))
    for said, moment in cases:
        talk = Conversation(f"a moment of {said[:20]}")
        head = f"POST /jobs HTTP/1.1\r\nFax-Client: desk\r\nFax-Number: 1\r\nFax-Moment: {said}\r\n"
        talk.sent = f"{head}Content-Length: {len(SUBMISSION)}\r\n\r\n{SUBMISSION}GET /jobs/1 HTTP/1.1\r\n\r\n".encode()
        yield talk.gives(201, '{"job":1}').shows(tts=moment)


@conversations
def repeats():
    """A request as long as may be gets its reply again, and a byte of it less gets none; one from years before the clock is taken at
    the clock."""
    body = SUBMISSION + filled(65536 - len(SUBMISSION), "x-note:")
    talk = Conversation("65,536 bytes, repeated")
    for said, status, answer in ((body, 201, '{"job":1}'), (body, 201, '{"job":1}'), (body[:-2] + "\n", 409, '{"no":7,"word":"number-reused"}')):
        talk.number = 0
        talk.post("/jobs", said).gives(status, answer)
    yield talk.get("/jobs/2").gives(404, '{"no":8,"word":"no-job"}')
    late = 1000 + 10 * 366 * 86400
    talk = Conversation("ten years behind the clock").post("/jobs", SUBMISSION, moment=late).gives(201, '{"job":1}')
    talk.post("/jobs", SUBMISSION).gives(201, '{"job":2}').get("/jobs/2").shows(jobid=2, tts=late)
    talk.post("/jobs/2/kill").gives(200, '{"job":2,"state":8}')
    yield talk.post("/modems/ttyS0/next").gives(200, '{"from":1,"grant":1,"job":1,"number":"5550111","to":1}')


@conversations
def longest():
    """A job with the longest modem, tag, client and reason is shown, chosen and reported on."""
    modem, tag, client, reason = "m" * 32, "t" * 200, "c" * 32, "r" * 200
    long = {"modem": modem, "jobtag": tag}
    talk = Conversation("the longest of all", setup=f"Modem: {modem}\n")
    talk.post("/jobs", f"{SUBMISSION}modem:{modem}\njobtag:{tag}\n", client).gives(201, '{"job":1}').get("/jobs/1").shows(**long)
    talk.post(f"/modems/{modem}/next", client=client).gives(200, '{"from":1,"grant":1,"job":1,"number":"5550111","to":1}')
    talk.get("/jobs/1").shows(state=6, **long)
    talk.post("/grants/1/call", '{"result":"connected"}', client).gives(200, '{"stop":false}')
    talk.post("/grants/1/outcome", f'{{"dialed":true,"outcome":"fail","pages":0,"reason":"{reason}"}}', client)
    talk.gives(200, '{"job":1,"state":8}')
    yield talk.get("/jobs/1").shows(state=8, status=reason, ntries=1, tottries=1, totdials=1, **long)


# ---- reports

@conversations
def reports():
    """Reports are taken with reasons, pages, numbers and levels up to their limits, and no further."""
    talk = granted("empty bodies and bodies of blanks")
    for path in ("call", "page", "outcome"):
        for body in ("", " ", "\n" * 65000 if path == "page" else "\t"):
            talk.post(f"/grants/1/{path}", body).bad_body("bad-json")
    yield talk
    for reason in ("r" * 200, "é" * 100, "r" + '"' * 198 + "r", "\U0001f4e0" * 50):
        talk = granted("a reason of 200 bytes").post("/grants/1/call", '{"result":"connected"}').gives(200, '{"stop":false}')
        text = reason.replace('"', '\\"')
        talk.post("/grants/1/outcome", f'{{"dialed":true,"outcome":"fail","pages":0,"reason":"{text}"}}')
        talk.gives(200, '{"job":1,"state":8}').get("/jobs/1")
        yield talk.shows(state=8, status=reason, ntries=1, tottries=1, totdials=1)
    for reason in ("r" * 201, "é" * 100 + "r", "r" * 65000):
        talk = granted("a reason over 200 bytes")
        yield talk.post("/grants/1/outcome", f'{{"dialed":false,"outcome":"fail","pages":0,"reason":"{reason}"}}').bad_body("bad-field")
    talk = granted("page and pages at 9,999", 9999).post("/grants/1/call", '{"result":"connected"}').gives(200, '{"stop":false}')
    talk.post("/grants/1/page", '{"page":9999}').gives(409, '{"no":22,"npages":0,"word":"page-order"}')
    talk.post("/grants/1/page", '{"page":10000}').bad_body("bad-field").post("/grants/1/page", '{"page":0}').bad_body("bad-field")
    talk.post("/grants/1/outcome", '{"dialed":true,"outcome":"retry","pages":9999}').gives(409, '{"no":24,"word":"pages-mismatch"}')
    talk.post("/grants/1/outcome", '{"dialed":true,"outcome":"retry","pages":10000}').bad_body("bad-field")
    talk.post("/grants/1/page", f'{{"page":{"9" * 300}}}').bad_body("bad-field")
    # serde_json reads no number past the greatest of 64 bits with a point.
    talk.post("/grants/1/page", f'{{"page":{"9" * 60000}}}').bad_body("bad-json")
    yield talk.post("/grants/1/page", '{"page":1}').gives(200, '{"npages":1,"stop":false}')
    call = '"result":"busy"}'
    long = filled(65536 - len(call), '{"note":"', '",') + call
    keys = "{" + "".join(f'"k{number}":{number},' for number in range(4000)) + call
    for name, body in (("a text of 65,000 bytes", long), ("4,000 keys", keys), ("blanks round it", " " * 30000 + "{" + call + "\n" * 30000)):
        assert len(body) <= 65536
        yield granted(f"a call with {name}").post("/grants/1/call", body).gives(200, '{"stop":false}')
    deep = '{"note":' + "[" * 126 + "]" * 126 + "," + call
    yield granted("a call with 127 levels").post("/grants/1/call", deep).gives(200, '{"stop":false}')
    deep = '{"note":' + "[" * 127 + "]" * 127 + "," + call
    yield granted("a call with 128 levels").post("/grants/1/call", deep).bad_body("bad-json")


# ---- files

@conversations
def files():
    """Notices, rules, modems and classes are taken however many there are, up to their limits."""
    for notice in ("n" * 200, "é" * 100, "n" + '"' * 198 + "\\"):
        talk = Conversation("a notice of 200 bytes", controls=f"^5 RejectNotice = {notice}\n").post("/jobs", SUBMISSION)
        text = notice.replace("\\", "\\\\").replace('"', '\\"')
        yield talk.gives(403, f'{{"no":11,"notice":"{text}","word":"rejected"}}')
    rules = "".join(f"^6{number:04}$\n  MaxSendPages = 1\n" for number in range(3000)) + "^555\n  MaxSendPages = 2\n"
    talk = Conversation("3,000 rules before the one that matches", controls=rules)
    talk.post("/jobs", "number:5550111\ntotpages:3\n").gives(403, '{"no":12,"word":"too-many-pages"}')
    yield talk.post("/jobs", "number:5550111\ntotpages:2\n").gives(201, '{"job":1}')
    setup = "".join(f"Modem: m{number}\n" for number in range(3000))
    talk = submitted("the last of 3,000 modems", setup=setup)
    yield talk.post("/modems/m2999/next").gives(200, '{"from":1,"grant":1,"job":1,"number":"5550111","to":1}')
    setup = SETUP + "".join(f"ModemClass: c{number}:^ttyS0$\n" for number in range(1000))
    talk = submitted("the last of 1,000 classes", "modem:c999\n", setup=setup)
    talk.post("/modems/ttyS1/next").gives(200, '{"grant":0}')
    yield talk.post("/modems/ttyS0/next").gives(200, '{"from":1,"grant":1,"job":1,"number":"5550111","to":1}')


LAST_RULE, LAST_MODEM = '^555 RejectNotice = "No longer served"', "Modem: last"
# What stands before the last line of a setup and of controls.
BEFORE_LAST = (
    ("# a comment\n", "# a comment\n"), (f"# {'c' * 999}\n", f"# {'c' * 70000}\n"), ("Modem: ttyS0\n", "^6 MaxSendPages = 1\n"),
    ("FaxNumber: +1.415.555.0100\n", "  \t\n"), ("\n", "^6\n  RejectNotice = \"Another\"\n  MaxSendPages = 1\n"),
)


def ending_with(last, line, size):
    """A text of so many bytes, of this line again and again, and behind a comment of the last one."""
    times = (size - len(last) - 2) // len(line)
    return filled(size, times * line + "#", f"\n{last}")


@conversations
def large_files():
    """Of a setup and controls of 140 kB each, and of such as are as long as what a program reads at once, the last line holds."""
    for setup_line, controls_line in BEFORE_LAST:
        for size in (65536, 65537, 131072, 131073, 140000):
            setup = ending_with(LAST_MODEM, setup_line, size)
            talk = Conversation(f"files of {size} bytes", setup, ending_with(LAST_RULE, controls_line, size))
            assert len(talk.setup) == len(talk.controls) == size
            talk.post("/jobs", SUBMISSION).gives(403, '{"no":11,"notice":"No longer served","word":"rejected"}')
            talk.post("/jobs", "number:7\ntotpages:1\n").gives(201, '{"job":1}')
            yield talk.post("/modems/last/next").gives(200, '{"from":1,"grant":1,"job":1,"number":"7","to":1}')


@conversations
def many_jobs():
    """As many submissions as one input may have are each a job, and each again is the same job."""
    talk = Conversation("five hundred jobs")
    for number in range(1, 501):
        talk.post("/jobs", f"number:{number}\ntotpages:1\n").gives(201, f'{{"job":{number}}}')
    talk.get("/jobs/500").shows(jobid=500, number=500)
    yield talk.post("/modems/ttyS0/next").gives(200, '{"from":1,"grant":1,"job":1,"number":"1","to":1}')
    talk = Conversation("nearly five hundred jobs, and each submission again")
    for _ in range(2):
        talk.number = 0
        for number in range(1, 500):
            talk.post("/jobs", SUBMISSION).gives(201, f'{{"job":{number}}}')
    yield talk.get("/jobs/500").gives(404, '{"no":8,"word":"no-job"}')
