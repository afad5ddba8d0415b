"""A client of the queue: its requests, kept in a folder before they are sent, and the queue's own replies to them.

It needs Python's standard library alone. faxq and the desk are its users. docs/PROTOCOL.md has the requests and replies."""
import base64
import contextlib
import fcntl
import getpass
import http.client
import json
import netrc
import os
import re
import secrets
import socket
import ssl
import struct
import time
import urllib.parse

TAGS = ("jobid number modem jobtag tts killtime priority npages totpages ntries tottries maxtries ndials totdials "
        "maxdials state status").split()
STATES = "", "suspended", "pending", "sleeping", "blocked", "ready", "active", "done", "failed"
LETTERS = " TPSBWRDF"  # of the states, in a listing
OVER = 7, 8  # done and failed
REFUSALS = {
    "no-job": "there is no such job",
    "no-modem": "the setup has no such modem",
    "rejected": "faxes to this number aren't taken",
    "too-many-pages": "it has more pages than may be sent to this number",
    "job-over": "the job is done or failed, and stays so",
    "job-active": "a modem has the job",
    "not-suspended": "the job waits: suspend it first",
    "limit-reached": "no call or no try would be left to it",
    "full": "the queue takes no more jobs; its administrator begins a new one",
    "number-reused": "a request before was taken under its number: look at the queue",
    "given-up": "its client gave the number up, or is retired; it may have been accepted before",
    "purge-high": "this machine's clock is ahead of the queue's",
    "no-route": "this queue is older than its client, and has no such request",
}
NAME = r"[A-Za-z0-9._-]{1,32}"
HELD = (r" grant [1-9]\d{0,8} job [1-9]\d{0,5} number \+?[0-9*#]{1,32} pages [1-9]\d{0,3}-[1-9]\d{0,3} "
        r"call (?:none|connected|busy|no-answer|no-carrier|other) confirmed (?:0|[1-9]\d{0,3})")
TIMES = re.compile("submitted:([0-9]{1,10})\nended:([0-9]{1,10})\n")
MODEM = re.compile(rf"{NAME}:(?:(?:up|down)(?:{HELD})?|gone{HELD})", re.ASCII)
LAST_NUMBER = 999_999_999_999_999_999  # the greatest number of a request


class Fault(Exception):
    """What ends a request or a command, with the exit status of a command: 1 if the queue refused, 2 if the arguments are
    wrong, 3 if something has to be corrected first."""

    def __init__(self, text, status=3):
        super().__init__(text)
        self.status = status


class OtherLogin(Fault):
    """A request that was kept for another login."""


class Lost(Exception):
    """Why nobody knows what became of a request."""


def job_of(text):
    """The lines of a job as pairs, or nothing if the text isn't a whole job. The known tags come first; a status goes on in
    the next line after a backslash."""
    rest = text.split("\n")
    if rest.pop():
        return None
    pairs = []
    while rest:
        tag, colon, value = rest.pop(0).partition(":")
        if not colon or len(pairs) < len(TAGS) and tag != TAGS[len(pairs)]:
            return None
        while len(pairs) == len(TAGS) - 1 and value.endswith("\\") and rest:
            value = value[:-1] + "\n" + rest.pop(0)
        pairs.append((tag, value))
    known = dict(pairs[:len(TAGS)])
    numbers = [tag for tag in TAGS if tag not in ("number", "modem", "jobtag", "status")]
    whole = len(pairs) >= len(TAGS) and all(re.fullmatch("[0-9]{1,18}", known[tag]) for tag in numbers)
    return pairs if whole and known["state"] in "12345678" else None


def states_in(listing):
    """The state of each job of a listing, by the job's number."""
    return {int(line[:6]): LETTERS.index(line[11]) for line in listing.split("\n")[1:] if line}


def are_modems(text):
    """Whether this is the queue's list of its modems: whole lines, each as it is defined."""
    *lines, rest = text.split("\n")
    return not rest and all(MODEM.fullmatch(line) for line in lines)


def is_text(path, text):
    """Whether this is the queue's own text to such a GET."""
    if path == "/modems":
        return are_modems(text)
    if path.endswith("/times"):
        return bool(TIMES.fullmatch(text))
    return text.startswith("   JID Pri S ") if path in ("/jobs", "/jobs/newest") else bool(job_of(text))


def is_answer(method, path, status, form, received, text):
    """Whether this is the queue's own answer to such a request."""
    def number(key, most=10**18):
        return type(received.get(key)) is int and 0 < received[key] < most

    if status >= 400:
        word = received.get("word")
        return type(received.get("no")) is int and bool(re.fullmatch("[a-z-]{1,32}", str(word))) and word != "unavailable"
    if method == "GET":
        return status == 200 and form == "text/plain" and is_text(path, text)
    if path == "/numbers/floor":
        return status == 200 and number("floor") and received["floor"] == LAST_NUMBER - 1
    if path.startswith("/modems/"):
        return status == 200 and type(received.get("down")) is bool
    if path == "/jobs/purge":
        return status == 200 and type(received.get("purged")) is int and 0 <= received["purged"] < 10**6
    return number("job") and (status == 201 if path == "/jobs" else status == 200 and number("state", len(STATES)))


def refusal(text):
    """A refusal in words."""
    received = json.loads(text)
    more = " ".join(f"{key} {received[key]}" for key in ("kind", "line", "notice") if key in received)
    sentence = REFUSALS.get(received["word"], "")
    return f"refused: {received['word']}{' ' + more if more else ''}{': ' + sentence if sentence else ''}"


# ---- the queue

def login_at(host):
    """The name and the password that ~/.netrc has for a host, or none."""
    try:
        login = netrc.netrc().authenticators(host)
    except FileNotFoundError:
        return None
    except (OSError, netrc.NetrcParseError) as fault:
        raise Fault(f"~/.netrc: {fault}") from None
    return (login[0], login[2]) if login else None


class Queue:
    """Who asks, and where. `tell` gets a text for people."""

    kind, is_own = "fax queue", staticmethod(is_answer)

    def __init__(self, server, client=None, ca=None, limit=10, pause=2, tell=lambda text: None):
        self.url = server.rstrip("/")
        at = urllib.parse.urlsplit(self.url)
        try:
            self.host, self.port, self.path = at.hostname, at.port, at.path
        except ValueError as fault:
            raise Fault(f"'{self.url}' is no address: {fault}", 2) from None
        if at.scheme not in ("http", "https") or not self.host:
            raise Fault(f"'{self.url}' is no address: it is to begin with http:// or https://", 2)
        self.tls = None
        if at.scheme == "https":
            try:
                self.tls = ssl.create_default_context(cafile=ca)
            except OSError as fault:
                raise Fault(f"{ca}: {fault}", 2) from None
        login = login_at(self.host)
        self.fields, self.login = {"Connection": "close"}, login[0] if login else None
        if login:
            self.fields["Authorization"] = "Basic " + base64.b64encode(":".join(login).encode()).decode()
        self.client = client or self.login or getpass.getuser()
        if not re.fullmatch(NAME, self.client):
            raise Fault(f"'{self.client}' is no client's name: --client NAME gives one", 2)
        self.limit, self.pause, self.tell = limit, pause, tell

    def once(self, method, path, body=None, fields=()):
        """The queue's own reply, as its status and its text. Whatever else comes says nothing of the request."""
        kind = http.client.HTTPSConnection if self.tls else http.client.HTTPConnection
        more = {"context": self.tls} if self.tls else {}
        door = kind(self.host, self.port, timeout=self.limit, **more)
        try:
            door.request(method, self.path + path, body, {**self.fields, **dict(fields)})
            reply = door.getresponse()
            status, form = reply.status, reply.headers.get_content_type()
            text = reply.read(50_000_000).decode(errors="replace")
            if reply.length or not ("Content-Length" in reply.headers or reply.chunked):
                raise Lost("the reply is cut off")
        except ssl.SSLCertVerificationError as fault:
            raise Fault(f"the certificate of {self.host} isn't known: {fault.verify_message} (--ca FILE)") from None
        except ssl.SSLError as fault:
            if fault.reason in ("WRONG_VERSION_NUMBER", "HTTP_REQUEST", "RECORD_LAYER_FAILURE"):
                raise Fault(f"{self.url}: no TLS is spoken at this port") from None
            raise Lost(f"{fault}") from None
        except ConnectionRefusedError:
            raise Lost(f"nobody listens at {self.url}") from None
        except socket.gaierror as fault:
            if fault.errno == socket.EAI_AGAIN:
                raise Lost(f"{self.host}: {fault.strerror}") from None
            raise Fault(f"{self.host}: {fault.strerror}") from None
        except OSError as fault:  # a connection that was ended or broke is among these
            raise Lost(f"no reply: {fault}") from None
        except http.client.BadStatusLine:
            raise Fault(f"{self.url}: what answers at this port isn't HTTP") from None
        except http.client.HTTPException as fault:
            raise Lost(f"no whole reply: {fault!r}") from None
        finally:
            door.close()
        received = {}
        if form == "application/json":
            with contextlib.suppress(ValueError, RecursionError):
                received = json.loads(text)
        if self.is_own(method, path, status, form, received if isinstance(received, dict) else {}, text):
            return status, text
        if status >= 500:
            raise Lost(f"the reply is {status}")
        if status in (401, 403):
            raise Fault(f"{self.host} doesn't let '{self.client}' in by the name and password of ~/.netrc: {status}")
        raise Fault(f"{self.url} isn't a {self.kind}: it answers {status} {form}")

    def ask(self, method, path, body=None, fields=()):
        """The queue's reply, however often the line fails; and how often it was asked."""
        said, tries = None, 0
        while True:
            tries += 1
            try:
                return *self.once(method, path, body, fields), tries
            except Lost as why:
                if str(why) != said:
                    self.tell(f"{why}; trying again")
                said = str(why)
                time.sleep(self.pause)

    def text(self, path):
        """What the queue shows at a path."""
        status, text, _ = self.ask("GET", path)
        if status != 200:
            raise Fault(refusal(text), 1)
        return text

    def job(self, number):
        """The lines of a job, as a list of tags and values: the known tags, then the others."""
        return job_of(self.text(f"/jobs/{number}"))

    def listing(self):
        """The lines of all jobs, as the queue prints them."""
        return self.text("/jobs")


class Desk(Queue):
    """The desk in place of the queue. Its own replies have a fax or a fault."""

    kind = "fax desk"

    @staticmethod
    def is_own(_method, _path, status, _form, received, _text):
        return isinstance(received.get("fault"), str) if status >= 400 else type(received.get("id")) is int


class Impatient(Queue):
    """The same of one that asks once: where the line fails, `Lost` is raised."""

    def ask(self, method, path, body=None, fields=()):
        return *self.once(method, path, body, fields), 1


# ---- requests, kept before they are sent

def sync(folder):
    """Has the disk keep what names a folder has."""
    place = os.open(folder, os.O_RDONLY)
    os.fsync(place)
    os.close(place)


def put(file, data):
    """Writes a file whole or not at all, and on the disk."""
    new = file.with_name(file.name + ".new")
    with open(new, "wb") as out:
        out.write(data)
        out.flush()
        os.fsync(out.fileno())
    new.rename(file)
    sync(file.parent)


class Folder:
    """What isn't answered yet, in `waiting`, and the submissions that were refused, in `refused`: a file for each, named
    by the number of the request. A request has its server, client and login, the arguments that made it and when, its
    path and body, and its number if that isn't the file's name."""

    def __init__(self, path, tell=lambda text: None):
        self.waiting, self.refused = path / "waiting", path / "refused"
        path.mkdir(parents=True, exist_ok=True, mode=0o700)
        for folder in self.waiting, self.refused:
            folder.mkdir(exist_ok=True)
        sync(path)
        sync(path.parent)
        self.lock = open(path / "lock", "w")
        try:
            fcntl.flock(self.lock, fcntl.LOCK_EX | fcntl.LOCK_NB)
        except OSError:
            tell("waits for another process, whose request isn't answered yet")
            fcntl.flock(self.lock, fcntl.LOCK_EX)

    def left(self, folder, **like):
        """The requests of a folder with these values, by their numbers."""
        for file in sorted(folder.glob("[0-9]*[0-9]"), key=lambda file: int(file.name)):
            with contextlib.suppress(FileNotFoundError):  # another thread has sent it
                request = json.loads(file.read_text())
                if all(request[key] == like[key] for key in like):
                    yield file.name, request

    def was_refused(self, **like):
        """Whether a request with these values was refused, also one whose number is used."""
        requests = (json.loads(file.read_text()) for file in self.refused.glob("[0-9]*"))
        return any(all(request[key] == like[key] for key in like) for request in requests)

    def forget(self, words):
        """Deletes the refused requests of these arguments."""
        for file in self.refused.glob("[0-9]*"):
            if json.loads(file.read_text())["words"] == words:
                file.unlink()

    def new_number(self):
        """A number that wasn't used: the seconds since 1970 and eight random digits, or the one after the greatest that waits, so
        requests are sent in the order in which they were kept."""
        greatest = max((int(file.name) for file in self.waiting.glob("[0-9]*[0-9]")), default=0)
        return str(max(int(f"{int(time.time())}{secrets.randbelow(10**8):08}"), greatest + 1))

    def keep(self, request):
        """Keeps a new request under a number that is new also if the folder was lost or came from a backup, or if another machine has
        the same client. A submission that was refused keeps its number: a late copy of it may still be accepted, and both aren't."""
        same = {key: request[key] for key in ("server", "client", "words")}
        number = next((name for name, _ in self.left(self.refused, **same)), None)
        number = number or self.new_number()
        put(self.waiting / number, json.dumps(request).encode())
        (self.refused / number).unlink(missing_ok=True)
        return number

    def send(self, queue, number, request, before=False, note=lambda answer: None):
        """Sends a request until it is answered; its answer, or why it is refused. `note` gets the answer before the request is
        forgotten, so a caller that was killed between the two gets its answer once more."""
        fields = {"Fax-Client": request["client"], "Fax-Number": request.get("number", number), "Content-Type": "text/plain"}
        login, same = request.get("login", request["client"]), (None, request["client"])
        if queue.login != login and not (login in same and queue.login in same):  # a proxy may take the login for the client
            raise OtherLogin(f"kept for the login {login} at {queue.url}, and ~/.netrc has {queue.login or 'none'}")
        status, text, tries = queue.ask("POST", request["path"], request["body"].encode(), fields)
        if status in (200, 201):
            answer = json.loads(text)
            note(answer)
            (self.waiting / number).unlink()
            return answer
        if request["path"] == "/jobs":  # the number that goes to another request isn't used again
            word = json.loads(text)["word"]
            name = f"{number}.{word}" if word in ("number-reused", "given-up") else number
            (self.waiting / number).rename(self.refused / name)
        else:
            (self.waiting / number).unlink()
        late = "; a copy of it may still come, and be taken" if before or tries > 1 else ""
        raise Fault(refusal(text) + late, 1)


# ---- documents

def directories(data):
    """Where the directory of each page of a TIFF is, and the order of its bytes."""
    order = {b"II*\0": "<", b"MM\0*": ">"}[data[:4]]
    places, place = {}, struct.unpack_from(order + "I", data, 4)[0]
    while place and place not in places:
        places[place] = True
        count, = struct.unpack_from(order + "H", data, place)
        place, = struct.unpack_from(order + "I", data, place + 2 + 12 * count)
    return list(places), order


def pages_of(file):
    """The bytes of a TIFF, where the directory of each of its pages is, and the order of its bytes."""
    try:
        data = file.read_bytes()
        return data, *directories(data)
    except OSError as fault:
        raise Fault(f"{file}: {fault.strerror}", 2) from None
    except (KeyError, struct.error):
        raise Fault(f"{file} isn't a TIFF", 2) from None


def without_first(data, places, order, first):
    """A TIFF from this page on: the same bytes, with another page named as the first."""
    return data[:4] + struct.pack(order + "I", places[first - 1]) + data[8:]


# ---- bodies

def form_of(fields, files):
    """The body of a form (RFC 7578), and its type. A file has a name and its bytes."""
    mark = secrets.token_hex(16)
    parts = [(f'form-data; name="{name}"', str(value).encode()) for name, value in fields.items()]
    for name, data in files:
        quoted = "".join(letter for letter in name if letter.isprintable()).replace("\\", "/").replace('"', "'")
        parts.append((f'form-data; name="file"; filename="{quoted}"', data))
    body = b"".join(f"--{mark}\r\nContent-Disposition: {head}\r\n\r\n".encode() + data + b"\r\n" for head, data in parts)
    return body + f"--{mark}--\r\n".encode(), f"multipart/form-data; boundary={mark}"


def lines(pairs):
    """Key lines. A value is one line: a line feed in it would begin another."""
    text = ""
    for tag, value in pairs:
        if re.search(r"[\x00-\x08\x0a-\x1f\x7f-\x9f]", str(value)):
            raise Fault(f"{tag} has a line feed or another control character", 2)
        text += f"{tag}:{value}\n"
    return text
