"""The servers that bench/durable and bench/many-clients measure: what is asked of each, how it is started on new files and
ended, and what strace and valgrind count of it."""
import contextlib
import hashlib
import os
import pathlib
import re
import shutil
import signal
import socket
import struct
import subprocess
import sys
import tempfile
import time

HERE = pathlib.Path(__file__).resolve().parent
PROGRAM = None  # faxqd, once the options are read
BODY = "number:+1 415 555-0100\ntotpages:3\n"
PER_CONNECTION = 1000  # messages that a connection of faxqd has at most
TITLES = {"faxqd": "faxqd", "plain": "Python's `http.server` with `sqlite3`", "beanstalkd": "beanstalkd, `-f0`",
          "postgres": "PostgreSQL, a table of replies", "redis": "Redis, a script"}


def fail(text):
    sys.exit(f"{pathlib.Path(sys.argv[0]).name}: {text}")


# ---- what every script is told, and prints

def read_options(parser):
    """The options, once the program and the folder are known to be there."""
    global PROGRAM
    parser.add_argument("program", nargs="?", type=pathlib.Path, default=HERE.parent / "crates/faxqd/out/faxqd")
    parser.add_argument("--folder", type=pathlib.Path, default=".", help="where all write")
    options = parser.parse_args()
    PROGRAM = options.program.resolve()
    if not (PROGRAM.is_file() and os.access(PROGRAM, os.X_OK)):
        fail(f"there is no program {options.program}")
    if not options.folder.is_dir():
        fail(f"there is no folder {options.folder}")
    return options


@contextlib.contextmanager
def new_folder(options):
    """A folder in the one where all write, until the end."""
    with tempfile.TemporaryDirectory(dir=options.folder.resolve()) as folder:
        os.chmod(folder, 0o711)  # PostgreSQL has another user
        yield folder


def machine(folder):
    """When and where is measured."""
    kind = subprocess.run(["stat", "-f", "-c", "%T", folder], capture_output=True, text=True).stdout.strip()
    return f"{time.strftime('%Y-%m-%d')}, {os.cpu_count()} cores, {kind}"


def row(name, *values):
    print(f"| {name:<48} |" + "".join(f" {value:>12} |" for value in values))


# ---- what is asked of each server, and its answers

def http_message(number):
    return (f"POST /jobs HTTP/1.1\r\nFax-Client: desk\r\nFax-Number: {number}\r\n"
            f"Content-Length: {len(BODY)}\r\n\r\n{BODY}").encode()


def put_message():
    return f"put 0 0 60 {len(BODY)}\r\n{BODY}\r\n".encode()


def postgres_message(kind, words):
    return kind + struct.pack("!i", len(words) + 4) + words


def postgres_greeting():
    return postgres_message(b"", struct.pack("!i", 196608) + b"user\0postgres\0database\0postgres\0\0")


def redis_message(*words):
    return f"*{len(words)}\r\n".encode() + b"".join(f"${len(word)}\r\n{word}\r\n".encode() for word in words)


class Http:
    """A client of faxqd, and of the plain server."""
    COMPLETE, FAILED = re.compile(rb'\r\n\r\n\{"job":\d+\}$'), (b"HTTP/1.1 4", b"HTTP/1.1 5")
    per_connection = PER_CONNECTION

    def __init__(self, port):
        self.peer = socket.create_connection(("127.0.0.1", port))
        self.peer.setsockopt(socket.IPPROTO_TCP, socket.TCP_NODELAY, 1)

    def set_up(self):
        """What the server needs before it is asked."""

    def message(self, number):
        return http_message(number)

    def ask(self, message):
        self.peer.sendall(message)
        got = b""
        while not self.COMPLETE.search(got):
            data = self.peer.recv(4096)
            if not data or got.startswith(self.FAILED):
                fail(f"{message!r} is answered {got + data!r}")
            got += data


class Beanstalk(Http):
    COMPLETE, FAILED = re.compile(rb"^INSERTED \d+\r\n$"), (b"BURIED", b"OUT_OF", b"INTERNAL", b"DRAINING")
    per_connection = 10 ** 9

    def message(self, number):
        return put_message()


class Postgres(Http):
    """A client by PostgreSQL's own protocol, which asks one simple query each time."""
    COMPLETE, FAILED = re.compile(rb"Z\x00\x00\x00\x05.$", re.S), (b"E",)
    per_connection = 10 ** 9

    def __init__(self, port):
        super().__init__(port)
        self.ask(postgres_greeting())

    def set_up(self):
        self.ask(self.query(POSTGRES_TABLES))

    def query(self, text):
        return postgres_message(b"Q", text.encode() + b"\0")

    def message(self, number):
        return self.query(f"SELECT submit('desk', {number}, '{BODY}')")


class Redis(Http):
    COMPLETE, FAILED = re.compile(rb"^\$40\r\n\w{40}\r\n$"), (b"-",)

    def set_up(self):
        self.ask(redis_message("SCRIPT", "LOAD", REDIS_SCRIPT))


POSTGRES_TABLES = """
CREATE TABLE jobs (job bigserial PRIMARY KEY, dial text, pages int, moment bigint);
CREATE TABLE replies (client text, number bigint, said text, reply text, PRIMARY KEY (client, number));
CREATE FUNCTION submit(a_client text, a_number bigint, a_said text) RETURNS text LANGUAGE plpgsql AS $$
DECLARE kept replies%ROWTYPE; made text;
BEGIN
  SELECT * INTO kept FROM replies WHERE client = a_client AND number = a_number;
  IF FOUND THEN
    RETURN CASE WHEN kept.said = a_said THEN kept.reply ELSE 'number-reused' END;
  END IF;
  INSERT INTO jobs (dial, pages, moment) VALUES (substring(a_said from 'number:([^\n]*)'),
    substring(a_said from 'totpages:([0-9]*)')::int, extract(epoch from now()))
    RETURNING '{"job":' || job || '}' INTO made;
  INSERT INTO replies VALUES (a_client, a_number, a_said, made);
  RETURN made;
END $$;
"""
REDIS_SCRIPT = """
local kept = redis.call('HMGET', KEYS[1], 'said', 'reply')
if kept[1] then
  return redis.status_reply(kept[1] == ARGV[1] and kept[2] or 'number-reused')
end
local job = redis.call('INCR', 'jobs')
local made = '{"job":' .. job .. '}'
redis.call('HSET', 'job:' .. job, 'dial', string.match(ARGV[1], 'number:([^\\n]*)'),
  'pages', string.match(ARGV[1], 'totpages:([0-9]*)'), 'moment', redis.call('TIME')[1])
redis.call('HSET', KEYS[1], 'said', ARGV[1], 'reply', made)
return redis.status_reply(made)
"""
REDIS_SUM = hashlib.sha1(REDIS_SCRIPT.encode()).hexdigest()
CLIENTS = {"faxqd": Http, "plain": Http, "beanstalkd": Beanstalk, "postgres": Postgres, "redis": Redis}


# ---- the servers

def postgres_program():
    found = sorted(pathlib.Path("/usr/lib/postgresql").glob("*/bin/postgres"))
    return found[-1] if found else None


def as_postgres():
    """What stands before a command of PostgreSQL, which doesn't run as root."""
    return ["setpriv", "--reuid=postgres", "--regid=postgres", "--clear-groups"] if os.getuid() == 0 else []


def is_installed(kind):
    return {"faxqd": PROGRAM, "plain": sys.executable, "beanstalkd": shutil.which("beanstalkd"),
            "postgres": postgres_program(), "redis": shutil.which("redis-server")}[kind] is not None


class Server:
    """A server on a new file, until this ends it or it ends."""

    def __init__(self, kind, folder, before=(), served=1000000, filled=None):
        self.kind, self.folder = kind, tempfile.mkdtemp(dir=folder)
        if filled:
            filled.rename(f"{self.folder}/queue.db")
        with socket.create_server(("127.0.0.1", 0)) as probe:
            self.port = probe.getsockname()[1]
        words = getattr(self, f"{kind}_words")(f"{self.folder}/queue.db", str(served))
        says = kind in ("faxqd", "plain")
        self.process = subprocess.Popen([*before, *words], stdout=subprocess.PIPE if says else subprocess.DEVNULL,
                                        stderr=subprocess.PIPE if says else subprocess.DEVNULL)
        self.listens = b"listening" in self.process.stdout.readline() if says else self.is_reached()
        if self.listens and not says:
            client = CLIENTS[kind](self.port)
            client.set_up()
            client.peer.close()

    def faxqd_words(self, file, served):
        return [PROGRAM, "serve", "--db", file, "--listen", f"127.0.0.1:{self.port}", "--timeout", "3600",
                "--connections", served]

    def plain_words(self, file, _):
        return [sys.executable, HERE / "plain.py", file, str(self.port)]

    def beanstalkd_words(self, *_):
        return ["beanstalkd", "-l", "127.0.0.1", "-p", str(self.port), "-b", self.folder, "-f0"]

    def postgres_words(self, *_):
        if as_postgres():
            shutil.chown(self.folder, "postgres", "postgres")
        program = postgres_program()
        subprocess.run([*as_postgres(), program.with_name("initdb"), "-A", "trust", "-U", "postgres", "-D",
                        f"{self.folder}/data"], check=True, stdout=subprocess.DEVNULL, cwd=self.folder)
        return [*as_postgres(), program, "-D", f"{self.folder}/data", "-p", str(self.port), "-k", self.folder,
                "-h", "127.0.0.1"]

    def redis_words(self, *_):
        return ["redis-server", "--bind", "127.0.0.1", "--port", str(self.port), "--dir", self.folder, "--save", "",
                "--appendonly", "yes", "--appendfsync", "always"]

    def is_reached(self):
        """Whether it takes a connection in time."""
        end = time.monotonic() + 60
        while time.monotonic() < end and self.process.poll() is None:
            with contextlib.suppress(OSError, SystemExit):  # PostgreSQL says for a while that it starts
                client = CLIENTS[self.kind](self.port)
                client.peer.close()
                return True
            time.sleep(0.1)
        return False

    def __enter__(self):
        return self

    def __exit__(self, *_):
        self.end()
        shutil.rmtree(self.folder)

    def end(self):
        """Ends it, PostgreSQL with its other processes."""
        if self.process.poll() is None:
            self.process.send_signal(signal.SIGINT if self.kind == "postgres" else signal.SIGKILL)
        self.process.communicate()

    def end_itself(self):
        """Has it end by itself; gives whether it did."""
        if self.kind == "faxqd":
            socket.create_connection(("127.0.0.1", self.port)).close()  # the last one of those that it was to serve
        else:
            self.process.send_signal(signal.SIGINT if self.kind == "postgres" else signal.SIGTERM)
        try:
            self.process.communicate(timeout=60)
        except subprocess.TimeoutExpired:
            return False
        return True

    def memory(self):
        """What it has in memory, in kB."""
        status = pathlib.Path(f"/proc/{self.process.pid}/status").read_text()
        return int(re.search(r"VmRSS:\s+(\d+)", status)[1])


# ---- what tools count

class Runs:
    """One or more runs on one server: functions of its port, each of which asks so often over so many connections."""

    def __init__(self, functions, asks, connections):
        self.functions, self.asks, self.connections = functions, asks, connections


def counted(kind, folder, before, runs, read):
    """What a tool counts for a request of each run: a server has none of the runs, one the first, one the first two."""
    totals = []
    for many in range(len(runs.functions) + 1):
        with Server(kind, folder, before, 1 + many * runs.connections) as server:
            if not server.listens:
                return None
            for run in runs.functions[:many]:
                run(server.port)
            if not server.end_itself():
                return None
        totals.append(read())
        if totals[-1] is None:
            return None
    return [(behind - before) / runs.asks for before, behind in zip(totals, totals[1:])]


def syncs(kind, folder, runs):
    log = pathlib.Path(folder) / "strace"

    def read():
        end = time.monotonic() + 10
        while not (log.exists() and log.stat().st_size) and time.monotonic() < end:
            time.sleep(0.1)
        found = sum(int(line.split()[3]) for line in log.read_text().splitlines()
                    if line.split()[-1:] and line.split()[-1] in ("fsync", "fdatasync", "sync_file_range", "msync"))
        log.unlink()
        return found
    calls = "trace=fsync,fdatasync,sync_file_range,msync"
    strace = ["strace", "-D", "--seccomp-bpf", "-c", "-f", "-e", calls, "-o", log]
    return shutil.which("strace") and counted(kind, folder, strace, runs, read)


def instructions(kind, folder, runs):
    def read():
        logs = list(pathlib.Path(folder).glob("callgrind.*"))
        found = [re.search(r"^(?:totals|summary): (\d+)", log.read_text(), re.M) for log in logs]
        for log in logs:
            log.unlink()
        return max((int(one[1]) for one in found if one), default=None)
    valgrind = ["valgrind", "--tool=callgrind", "--trace-children=yes", f"--callgrind-out-file={folder}/callgrind.%p"]
    return shutil.which("valgrind") and counted(kind, folder, valgrind, runs, read)
