"""What the checks share: the program, `serve` and its peers, `replay`, messages and their replies, the libraries that are
loaded before the program, the system's look at a queue's file, and how a fault is told."""
import argparse
import collections
import contextlib
import itertools
import os
import pathlib
import re
import resource
import select
import shutil
import socket
import sqlite3
import struct
import subprocess
import tempfile
import threading
import time

TOP = pathlib.Path(__file__).resolve().parent.parent.parent
CHECKS, CONVERSATIONS, EXAMPLES = TOP / "checks", TOP / "checks/conversations", TOP / "examples"
LIBRARIES = "clocks", "fail_device", "refuse_accept", "refuse_memory", "stop_disk", "unbuffered"
PATIENCE = 60  # seconds until whatever is awaited counts as never coming
LIMIT = 32768  # the kilobytes of data that the program may have, as docs/OPERATIONS.md says
SETUP = "Modem: ttyS0\nModem: ttyS1\n"
NO_WAITS = "".join(f"JobReq{why}: 0\n" for why in ("Busy", "NoAnswer", "NoCarrier", "Other", "Proto"))
MANY = "--connections", "1000000"
# The words of the run: the program, whether all is tried, where the libraries are, and the options by name.
said = argparse.Namespace(program=TOP / "crates/faxqd/out/faxqd", all=False, libraries=None, options={})


# ---- faults

class Wrong(Exception):
    """What the program does wrong."""


class NotTried(Exception):
    """What a check wants and the machine hasn't."""


class NotServing(Wrong):
    """A server that doesn't listen."""

    def __init__(self, told, process, patience=PATIENCE):
        with contextlib.suppress(subprocess.TimeoutExpired):
            process.wait(patience if told == b"" else 0)
        process.kill()
        self.said, self.err, self.status = told, process.communicate()[1], process.returncode
        super().__init__(f"says {told!r} and {self.err!r} where it should listen")


faults, seen = [], []  # those of the check that runs, and what it saw
lock = threading.Lock()


def fault(text):
    """A fault of the check that runs, which goes on."""
    with lock:
        faults.append(text)


def say(text):
    """What the check that runs has seen, which is told behind its time."""
    with lock:
        seen.append(text)


def expect(right, what):
    if not right:
        raise Wrong(what)


def expect_same(got, wanted, what):
    if got == wanted:
        return
    more = ""
    if isinstance(got, (bytes, str)) and isinstance(wanted, type(got)) and max(len(got), len(wanted)) > 400:
        place = next((at for at, pair in enumerate(zip(got, wanted)) if pair[0] != pair[1]), min(len(got), len(wanted)))
        start, more = max(0, place - 100), f"differs at {place}, "
        got, wanted = got[start:start + 400], wanted[start:start + 400]
    raise Wrong(f"{what}: {more}{got!r} in place of {wanted!r}")


def one_line(text, most=2000):
    text = str(text).replace("\n", "\\n")
    return text if len(text) <= most else f"{text[:most]}..."


def told(wrong):
    """What an exception says, on one line."""
    return one_line(wrong if isinstance(wrong, Wrong) else f"{type(wrong).__name__}: {wrong}")


@contextlib.contextmanager
def attempt(what):
    """What goes wrong within is a fault of this, and the check goes on behind it."""
    try:
        yield
    except NotTried:
        raise
    except Exception as wrong:
        fault(f"{one_line(what, 200)}: {told(wrong)}")


def within(what, holds, patience=PATIENCE, pause=0.05):
    """Waits until something holds, and gives it."""
    until = time.monotonic() + patience
    while not (found := holds()):
        if time.monotonic() >= until:
            raise Wrong(f"never comes: {what() if callable(what) else what}")
        time.sleep(pause)
    return found


def option(name, otherwise=None):
    """What the words of the run say by NAME=VALUE."""
    return said.options.get(name, otherwise)


def wants(*tools):
    """The check isn't tried on a machine that lacks one of these tools."""
    for tool in tools:
        if not shutil.which(tool):
            raise NotTried(f"there is no {tool}")


# ---- ports

ports = itertools.cycle(range(10000 + os.getpid() % 10000, 32000))  # below those that the system gives by itself


def free_port():
    """A port at which nobody listens. No two threads get the same one."""
    while True:
        with lock:
            number = next(ports)
        if is_free(number):
            return number


def is_free(number):
    """Whether nobody listens there. This doesn't listen itself: what another thread starts meanwhile would have the
    socket too, and the port would be taken for as long."""
    try:
        socket.create_connection(("127.0.0.1", number)).close()
    except ConnectionRefusedError:
        return True
    return False


# ---- messages and replies

CLOSE = "Connection: close\r\n"


def post(path, number, body="", client="desk", fields=""):
    head = f"POST {path} HTTP/1.1\r\nFax-Client: {client}\r\nFax-Number: {number}\r\n{fields}"
    return f"{head}Content-Length: {len(body.encode())}\r\n\r\n{body}".encode()


def submission(number, client="desk", fields=""):
    return post("/jobs", number, f"number:5550111\ntotpages:1\njobtag:fax {number}\n", client, fields)


def get(path, fields="", version="1.1"):
    return f"GET {path} HTTP/{version}\r\n{fields}\r\n".encode()


def reply(status, body, last=False, kind="application/json"):
    close = CLOSE if last else ""
    head = f"HTTP/1.1 {status}\r\nContent-Type: {kind}\r\nContent-Length: {len(body)}\r\n{close}\r\n"
    return f"{head}{body}".encode()


def created(job, last=False):
    return reply("201 Created", f'{{"job":{job}}}', last)


NO_JOB = reply("404 Not Found", '{"no":8,"word":"no-job"}')
NO_JOB_LAST = reply("404 Not Found", '{"no":8,"word":"no-job"}', last=True)
BAD_LAST = reply("400 Bad Request", '{"no":1,"word":"bad-http"}', last=True)
LARGE_LAST = reply("413 Payload Too Large", '{"no":2,"word":"too-large"}', last=True)
UNAVAILABLE = reply("503 Service Unavailable", '{"no":27,"word":"unavailable"}')
ASK = get("/jobs/999999")  # answered by NO_JOB, whatever the queue has


def length_of(head):
    """How long the body behind this head is."""
    found = re.search(rb"(?i)\r\nContent-Length: *(\d+)", head)
    return int(found[1]) if found else 0


def is_whole(data):
    """Whether these bytes have a message or a reply to its end."""
    head, end, body = data.partition(b"\r\n\r\n")
    return bool(end) and len(body) >= length_of(head)


class Peer:
    """One connection to a server."""

    def __init__(self, port, receives=None, patience=PATIENCE):
        self.socket = socket.socket()
        if receives is not None:
            self.socket.setsockopt(socket.SOL_SOCKET, socket.SO_RCVBUF, receives)
        self.socket.settimeout(patience)
        self.socket.setsockopt(socket.IPPROTO_TCP, socket.TCP_NODELAY, 1)
        try:
            self.socket.connect(("127.0.0.1", port))
        except OSError:
            self.socket.close()
            raise
        self.got = b""

    def __enter__(self):
        return self

    def __exit__(self, *_):
        self.socket.close()

    def say(self, data, size=None):
        """Sends data, in pieces of this size."""
        if size is None:
            self.socket.sendall(data)
            return
        for start in range(0, len(data), size):
            self.socket.sendall(data[start:start + size])
            time.sleep(0.0005)

    def stop(self):
        """Says that nothing more comes."""
        self.socket.shutdown(socket.SHUT_WR)

    def break_off(self):
        """Ends the connection with a reset."""
        self.socket.setsockopt(socket.SOL_SOCKET, socket.SO_LINGER, struct.pack("ii", 1, 0))
        self.socket.close()

    def take(self):
        """Waits for some bytes; gives whether there were any."""
        data = self.socket.recv(65536)
        self.got += data
        return bool(data)

    def reply(self):
        """The next reply; its head tells how long it is."""
        while b"\r\n\r\n" not in self.got:
            if not self.take():
                raise ConnectionError(f"the connection ends within a reply, behind {self.got!r}")
        head, _, rest = self.got.partition(b"\r\n\r\n")
        length = int(re.search(rb"\r\nContent-Length: (\d+)", head)[1])
        while len(rest) < length:
            if not self.take():
                raise ConnectionError(f"the connection ends within a reply, behind {self.got!r}")
            rest = self.got.partition(b"\r\n\r\n")[2]
        whole_length = len(head) + 4 + length
        answer, self.got = self.got[:whole_length], self.got[whole_length:]
        return answer

    def rest(self):
        """What comes until the connection ends."""
        with contextlib.suppress(ConnectionError):
            while self.take():
                pass
        return self.got

    def asks(self, message, wanted, what):
        self.say(message)
        expect_same(self.reply(), wanted, what)


def whole(port, data, size=None):
    """What comes for these bytes on a connection that says no more."""
    with Peer(port) as peer:
        with contextlib.suppress(OSError):
            peer.say(data, size)
            peer.stop()
        return peer.rest()


def exchange(port, data, patience=PATIENCE, reads=True):
    """The status and the body of the reply to a message that is the last of its connection, or none where it was lost."""
    with contextlib.suppress(OSError), Peer(port, patience=patience) as peer:
        peer.say(data)
        if not reads:
            return None
        while peer.take():
            pass
        head, end, body = peer.got.partition(b"\r\n\r\n")
        length = re.search(rb"\r\nContent-Length: (\d+)", head)
        if end and length and len(body) == int(length[1]):
            return int(head.split(b" ")[1]), body
    return None


def answer_to(port, data, patience=PATIENCE):
    """The status and the body of the reply to such a message, which has to come whole."""
    found = exchange(port, data, patience)
    expect(found is not None, f"there is no whole reply to {data[:100]!r}")
    return found


def conversed(port, *messages):
    """The replies to these messages, on one connection; less where it ends before."""
    got = []
    with contextlib.suppress(ConnectionError), Peer(port) as peer:
        for message in messages:
            peer.say(message)
            got.append(peer.reply())
    return got


HEAD = re.compile(rb"HTTP/1\.1 (\d{3}) ([A-Za-z ]+)\r\nContent-Type: (application/json|text/plain)\r\n"
                  rb"Content-Length: (0|[1-9]\d*)\r\n(Connection: close\r\n)?\r\n")


def reply_bytes(data):
    """The bytes of each of these replies, of which none is to HEAD."""
    found, at = [], 0
    while at < len(data):
        head = HEAD.match(data, at)
        expect(head, f"no head of a reply: {data[at:at + 200]!r}")
        end = head.end() + int(head[4])
        found.append(data[at:end])
        at = end
    return found


# ---- what is loaded before the program, and what it may take

def library(name):
    """The library of this name, which was compiled once for the run."""
    file = pathlib.Path(said.libraries or "/nowhere") / f"{name}.so"
    if not file.exists():
        raise NotTried("there is no gcc")
    return file


def loading(names, **settings):
    """The environment of a program that has these loaded first, as it differs, with these settings."""
    loaded = ":".join(str(library(name)) for name in names)
    return {"LD_PRELOAD": loaded, **{name: str(value) for name, value in settings.items()}}


def preload(names, **settings):
    """The words before such a program."""
    return ["env", *(f"{name}={value}" for name, value in loading(names, **settings).items())]


def compile_libraries(folder):
    """Compiles all libraries, at once."""
    compilers = [subprocess.Popen(["gcc", "-shared", "-fPIC", "-O1", "-o", folder / f"{name}.so", CHECKS / f"{name}.c"])
                 for name in LIBRARIES]
    expect(not any([compiler.wait() for compiler in compilers]), "a library of checks/ can't be compiled")


def limited(kilobytes, seconds=20):
    """The words before a program that may have so many kilobytes of data, and so many seconds of the processor."""
    return ["sh", "-c", f'ulimit -c 0; ulimit -t {seconds}; ulimit -d {kilobytes}; exec "$@"', "sh"]


# ---- the server

class Server:
    """`faxqd serve` on a file and a port, from when it listens until it ends or this ends it. Where `waits` is no, who
    starts it asks whether it listens."""

    def __init__(self, file, *words, port=None, host="127.0.0.1", before=(), folder=None, limits=None, waits=True,
                 patience=PATIENCE):
        self.file, self.chosen, self.host, self.port, self.patience = file, port is None, host, port, patience
        self.rest, self.before, self.folder, self.limits = words, before, folder, limits
        self.process, self.said = None, b""
        if waits:
            self.start()
        else:
            self.run()

    def __enter__(self):
        return self

    def __exit__(self, *_):
        if self.process.poll() is None:
            self.process.kill()
        self.process.communicate()

    def run(self):
        """Runs it, and doesn't wait until it listens."""
        if self.port is None:
            self.port = free_port()
        words = [*self.before, said.program, "serve", "--db", self.file, "--listen", f"{self.host}:{self.port}", *self.rest]
        self.process = subprocess.Popen(words, bufsize=0, cwd=self.folder, stdin=subprocess.DEVNULL,
                                        stdout=subprocess.PIPE, stderr=subprocess.PIPE, preexec_fn=self.limits)

    def listens(self):
        """Whether it says that it does; nothing else may be said."""
        ready, _, _ = select.select([self.process.stdout], [], [], self.patience)
        self.said = self.process.stdout.read(100) if ready else b"nothing"
        return self.said == b"faxqd: listening\n"

    def start(self):
        """Runs it, anew where it has ended, until it listens."""
        while True:
            self.run()
            if self.listens():
                self.chosen = False  # whoever asks it knows the port
                return
            wrong = NotServing(self.said, self.process, self.patience)
            if not self.chosen or is_free(self.port):
                raise wrong
            self.port = None  # another program has taken the port meanwhile

    def ends(self, what, patience=None, status=0, err=b""):
        """The server ends by itself, with this status, and has no more to say."""
        try:
            out, got = self.process.communicate(timeout=patience or slack())
        except subprocess.TimeoutExpired:
            raise Wrong(f"{what}: it doesn't end") from None
        expect(self.process.returncode == status, f"{what}: it ends with {self.process.returncode}, and says {got!r}")
        expect(out == b"" and got == err, f"{what}: it says {out!r} and {got!r}")

    def stopped(self, signal_number):
        """The server is told to stop, and has ended."""
        self.process.send_signal(signal_number)
        try:
            self.process.communicate(timeout=slack())
        except subprocess.TimeoutExpired:
            raise Wrong(f"signal {signal_number} doesn't end it") from None

    def kill(self):
        """Ends it at once. It has said nothing."""
        self.process.kill()
        _, err = self.process.communicate()
        expect(err == b"", f"it says {err!r}")

    def memory(self, line="VmRSS"):
        """How many bytes of memory it has; by another line of its status, the most that it had."""
        status = pathlib.Path(f"/proc/{self.process.pid}/status").read_text()
        return int(re.search(rf"{line}:\s+(\d+) kB", status)[1]) << 10

    def processor(self):
        """How many seconds it has had a processor."""
        return int(pathlib.Path(f"/proc/{self.process.pid}/schedstat").read_text().split()[0]) / 1e9


def settle(server, pause=1, limit=60):
    """Waits until the server has nothing to do for so many seconds, and for `limit` seconds at most."""
    used, end = -1.0, time.monotonic() + limit
    while server.processor() - used > 0.02:
        expect(time.monotonic() < end, f"the server is still busy after {limit} s")
        used = server.processor()
        time.sleep(pause)


class InThread:
    """A server of a check's own, in a thread, until its block ends."""

    def __init__(self, server):
        self.server, self.port = server, server.server_address[1]
        threading.Thread(target=server.serve_forever, daemon=True).start()

    def __enter__(self):
        return self

    def __exit__(self, *_):
        self.server.shutdown()
        self.server.server_close()


def busyness():
    """How many times as long something may take on this machine now: once if nothing else has the processors."""
    load, _, _, running, _ = pathlib.Path("/proc/loadavg").read_text().split()
    return 1 + max(float(load), int(running.split("/")[0]) - 1) / len(os.sched_getaffinity(0))


measured = []  # before the checks are run, since they keep the machine busy


def slack():
    """The seconds that a machine may add to a time limit: two, and twice what a start takes; and more while it is busy."""
    if not measured:
        start, more = time.monotonic(), 0
        with contextlib.suppress(Wrong, OSError), new_folder() as folder, Server(folder / "queue.db") as server:
            with Peer(server.port) as peer:
                peer.asks(ASK, NO_JOB, "a new file")
                more = 2 * (time.monotonic() - start)
        measured.append(2 + more)
    return measured[0] * busyness()


# ---- other runs of the program

def run(*words, before=(), patience=PATIENCE, **streams):
    """Runs the program; gives its status, what it says on both streams, and how long it took."""
    start = time.monotonic()
    streams = {"stdout": subprocess.PIPE, "stderr": subprocess.PIPE, **streams}
    if "input" not in streams and "stdin" not in streams:
        streams["stdin"] = subprocess.DEVNULL
    try:
        ran = subprocess.run([*before, said.program, *words], timeout=patience, **streams)
    except subprocess.TimeoutExpired:
        raise Wrong(f"'{' '.join(map(str, words))}' doesn't end") from None
    return ran.returncode, ran.stdout, ran.stderr, time.monotonic() - start


Ran = collections.namedtuple("Ran", "status out err seconds")
longest = collections.Counter()  # of each kind of run, the most seconds of the processor


def replay(data, *words, before=(), limit=LIMIT, kind="replay", environment=None):
    """A run of `replay` on these bytes, which may take so many kilobytes, if that is said, and 20 seconds of the processor."""
    files = [os.memfd_create(name) for name in ("input", "output", "error")]
    try:
        os.write(files[0], data)
        os.lseek(files[0], 0, os.SEEK_SET)
        process = subprocess.Popen([*(limited(limit) if limit else ()), *before, said.program, "replay", *words], stdin=files[0],
                                   stdout=files[1], stderr=files[2], env={**os.environ, **environment} if environment else None)
        if not limit:
            with contextlib.suppress(ProcessLookupError):
                resource.prlimit(process.pid, resource.RLIMIT_CPU, (20, 20))
        _, ended, usage = os.wait4(process.pid, 0)
        process.returncode = os.waitstatus_to_exitcode(ended)
        out, err = (os.pread(file, os.fstat(file).st_size, 0) for file in files[1:])
        seconds = usage.ru_utime + usage.ru_stime
        with lock:
            longest[kind] = max(longest[kind], seconds)
        return Ran(process.returncode, out, err, seconds)
    finally:
        for file in files:
            os.close(file)


def words_of(name):
    """The setup and the controls that the program has for a conversation."""
    setup, controls = (CONVERSATIONS / f"{name}.{kind}" for kind in ("setup", "controls"))
    words = ("--setup", setup if setup.exists() else CONVERSATIONS / "office.setup")
    return words + (("--controls", controls) if controls.exists() else ())


# ---- files

@contextlib.contextmanager
def new_folder(where=None):
    """A folder of its own, until this ends."""
    with tempfile.TemporaryDirectory(dir=where, ignore_cleanup_errors=True) as name:
        yield pathlib.Path(name).resolve()


def copied(file, folder):
    """A copy of a file and of what stands beside it, in this folder."""
    for part in file.parent.glob(f"{file.name}*"):
        shutil.copy(part, folder)
    return folder / file.name


@contextlib.contextmanager
def database_of(file):
    """The file, open by the system's sqlite, where each statement is a change of its own."""
    with contextlib.closing(sqlite3.connect(file, isolation_level=None)) as database:
        yield database


def rows_of(file, text, *values):
    """What the system's sqlite finds in a file."""
    with database_of(file) as database:
        return database.execute(text, values).fetchall()


def rows_of_copy(file, text, *values):
    """The same of a copy, since a server may have the file."""
    with new_folder() as folder:
        return rows_of(copied(file, folder), text, *values)


def changed(empty, folder, statements):
    """The file of a queue's folder once these have run on a copy of it."""
    shutil.copytree(empty, folder)
    with database_of(folder / "queue.db") as database:
        database.executescript(statements)
    return folder / "queue.db"


def empty_queue(folder):
    """The folder of a queue without jobs."""
    folder.mkdir()
    (folder / "queue.db").touch()
    expect(run("list", "--db", folder / "queue.db", patience=60)[0] == 0, "an empty file isn't listed")
    return folder
