"""What the program says of its words and files, and how it ends: help, usage, the first fault of its files with its line,
and inputs past their limits."""
import os
import re
import shutil
import subprocess
import time

from .runner import group
from .place import Place, open_folder
from .shared import NotTried, attempt, expect, expect_same, said, say, submission, wants

check = group("commands", "Compares each fault line, each status and both streams, among them help, usage, and files missing or "
              "exchanged.", "computing")
WRITE_FAILED = b"faxqd: ended write-failed\n"
SERVE = "--db <FILE>", "--listen <ADDRESS>", "--connections <N>", "--timeout <SECONDS>", "--setup <FILE>", "--controls <FILE>"
ADDRESS = "--listen", "127.0.0.1:0"


# ---- words

FAULTY = [
    [], ["serve"], ["--replay"], ["-r"], ["replay", "more"], ["replay", "--port", "1"], ["replay", "--setup"],
    ["replay", "--controls"], ["replay", "--setup", "nothing", "--controls"], ["replay", "--setup", "--controls", "nothing"],
    ["replay", "--setup", "nothing", "--setup", "nothing"], ["--setup", "nothing", "replay"], ["--setup", "nothing"],
    ["replays"], ["Replay"], [""],
    ["serve", "--db", "queue.db"], ["serve", *ADDRESS], ["serve", "--db", "queue.db", "--listen"],
    ["serve", "--db", "queue.db", *ADDRESS, "--moment", "1"],
    ["list"], ["list", "--db"], ["list", "queue.db"], ["list", "--db", "queue.db", "more"],
    ["list", "--db", "queue.db", "--db", "queue.db"], ["list", "--db", "queue.db", *ADDRESS],
    ["check"], ["check", "--db"], ["check", "queue.db"], ["check", "--db", "queue.db", "more"],
    ["check", "--db", "queue.db", "--db", "queue.db"], ["check", "--db", "queue.db", "--moment", "1"],
]
FAULTY += [["serve", "--db", "queue.db", *ADDRESS, f"--connections={number}"]
           for number in ("0", "1000001", "-1", "+1", "", " 1", "1.0", "1e3", "x", "99999999999999999999")]
FAULTY += [["serve", "--db", "queue.db", *ADDRESS, f"--timeout={number}"]
           for number in ("0", "3601", "-1", "", "x", "99999999999999999999")]
FAULTY += [["list", "--db", "queue.db", f"--moment={number}"]
           for number in ("-1", "+1", "", " 1", "1.0", "1e3", "x", "1000000000000000000")]


@check
def usage(folder):
    """Words at fault are refused with status 2 and a text on standard error alone, and no file is made."""
    place = Place(folder)
    (folder / "nothing").touch()
    for words in FAULTY:
        with attempt(words):
            place.usage(*words)
    for words in [b"replay", b"\xff"], [b"\xff"], [b"replay", b"--setup", b"\xff"], [b"\xff", b"--help"]:
        with attempt(words):
            out, err = place.run(2, *words)
            expect_same((out, err), (b"", b"error: a word is not UTF-8\n"), "it says")
    expect(not (folder / "queue.db").exists(), "a usage fault makes a file")


HELPED = [("\nThe send queue of a fax server\n", [words]) for words in ("--help", "-h", "help")]
HELPED += [(f"\n  {command} ", ["--help"]) for command in ("replay", "serve", "list", "check", "sendfax", "import", "settings", "worker", "post")]
OPTIONS = {
    "replay": ("--setup <FILE>", "--controls <FILE>"), "serve": SERVE,
    "list": ("--db <FILE>", "--moment <SECONDS>", "--setup <FILE>", "--controls <FILE>"),
    "check": ("--db <FILE>",),
    "sendfax": ("-d <NUMBER>", "--pages <PAGES>", "-i <TAG>", "-P <PRIORITY>", "-t <TRIES>", "-T <DIALS>", "-a <TIME>",
                "-k <TIME>", "--moment <SECONDS>", "--request <NUMBER>", "--client <NAME>"),
    "import": ("--client <NAME>", "--request <NUMBER>", "<FILE>..."),
    "settings": ("--setup <FILE>", "--controls <FILE>"),
    "worker": ("--to <ADDRESS>", "--journal <FILE>", "--modem <MODEM>", "--wait <SECONDS>", "<WORD>..."),
    "post": ("--to <ADDRESS>", "--journal <FILE>", "--client <NAME>", "--key <KEY>", "--forget <KEY>", "--wait <SECONDS>"),
}
ASKED = {command: [[command, "--help"], [command, "-h"], ["help", command]] for command in OPTIONS}
ASKED["replay"] += [["replay", "--setup", "no/such", "--help"]]
ASKED["serve"] += [["serve", "--db", "no/such", "--help"]]


@check
def helps(folder):
    """Help tells each command and each option, on standard output alone, whatever else the words say."""
    place = Place(folder)
    wanted = HELPED + [(option, words) for command in OPTIONS for words in ASKED[command] for option in OPTIONS[command]]
    for text, words in wanted:
        with attempt(words):
            out, err = place.run(0, *words)
            expect(text in f"\n{out.decode()}", f"it doesn't say {text!r}")
            expect_same(err, b"", "standard error")
    say(f"{len(wanted)} texts")


@check
def version(folder):
    """The version names a commit, or zeros, and the kit."""
    place = Place(folder)
    for words in ["--version"], ["-V"]:
        with attempt(words):
            out, err = place.run(0, *words)
            expect(re.fullmatch(rb"faxqd 0 \(commit [0-9a-f]{10}, rattle-kit-\w+\)\n", out), f"it is {out!r}")
            expect_same(err, b"", "standard error")


@check
def help_fits(folder):
    """Each help fits a terminal, but for its usage and its example, and ends with one example of its command."""
    place = Place(folder)
    asked = [("serve", [words]) for words in ("--help", "-h", "help")]
    asked += [(command, words) for command in OPTIONS for words in ASKED[command][:3]]
    for command, words in asked:
        with attempt(words):
            out, err = place.run(0, *words)
            lines = out.decode().splitlines()
            expect_same(err, b"", "standard error")
            expect(out.count(b"\n") <= 24, "it has more than 24 lines")
            expect(all(len(line.encode()) <= 80 for line in lines[:-1] if not line.startswith("Usage:")),
                   "it has a line of more than 80 bytes")
            expect(lines.count("Example:") == 1, "it doesn't say once that an example follows")
            expect(lines[-2] == "Example:", "it doesn't end with one example")
            expect(lines[-1].startswith(f"  faxqd {command} "), "it has an example of another command")


@check
def full_output(folder):
    """Help, a request, an import, a listener's line and a reply that can't be written are a fault; what is wrong with words
    needs no stream."""
    place = Place(folder)
    (folder / "q1").write_text("number:5550111\ntotpages:1\n")
    for words, data in (["--help"], b""), (["replay", "--help"], b""), (SENDFAX, b""), (
            ["import", "--client", "old", "--request", "1", "q1"], b""), (
            ["serve", "--db", "queue.db", *ADDRESS], b""), (["replay"], submission(1)):
        with attempt(words), open("/dev/full", "wb") as full:
            _, err = place.run(1, *words, data=data, stdout=full)
            expect_same(err, WRITE_FAILED, "standard error")
    with attempt("no words where standard error is full"), open("/dev/full", "wb") as full:
        out, _ = place.run(2, stderr=full)
        expect_same(out, b"", "standard output")


# ---- sendfax

SENDFAX = ["sendfax", "-d", "5550111", "--pages", "1", "--request", "1"]
HEAD = "POST /jobs HTTP/1.1\r\nHost: localhost\r\nFax-Client: {}\r\nFax-Number: {}\r\nContent-Length: {}\r\n\r\n"
PRINTED = [
    (HEAD.format("desk", 7, 67) + "number:+14155550100\npriority:127\ntotpages:3\nmaxtries:3\nmaxdials:12\n",
     ["-d", "+1 415 555-0100", "--pages", "3", "--client", "desk", "--request", "7"]),
    (HEAD.format("sendfax", 8, 98) + "number:5550111\ntts:8200\nkilltime:86400\npriority:127\ntotpages:1\nmaxtries:3\n"
     "maxdials:12\njobtag:memo\n",
     ["-d", "5550111", "--pages", "1", "-a", "now + 2 hours", "-k", "1970-01-02T00:00:00Z", "-i", "memo", "--request", "8",
      "--moment", "1000"]),
]
LINES = [(f"tts:{seconds}", ["--pages", "1", "--moment", "1000", "-a", time_said]) for seconds, time_said in (
    (1000, "now"), (1060, "now + 1 minutes"), (173800, "now + 000002 days"), (0, "1970-01-01T01:00:00+01:00"),
    (86400, "1970-01-02T00:00:00.9Z"), (4102444800, "2100-01-01T00:00:00Z"))]
LINES += [
    ("tts:4102444800", ["--pages", "1", "--moment", "999999999999999999", "-a", "now"]),
    ("priority:255 totpages:9999 maxtries:1000 maxdials:1000", ["--pages", "9999", "-P", "255", "-t", "1000", "-T", "1000"]),
    ("priority:0 totpages:1 maxtries:1 maxdials:1", ["--pages", "1", "-P", "0", "-t", "1", "-T", "1"]),
]


@check
def sendfax_prints(folder):
    """What `sendfax` prints is the request of its words, and is taken; with no moment said, a time is by the machine's
    clock."""
    place = Place(folder)
    for wanted, words in PRINTED:
        with attempt(words):
            out, err = place.run(0, "sendfax", *words)
            expect_same((out, err), (wanted.encode(), b""), "it prints")
    for lines, words in LINES:
        with attempt(words):
            out, _ = place.run(0, "sendfax", "-d", "5550111", "--request", "8", *words)
            expect(set(lines.split()) <= set(out.decode().split("\n")), f"it doesn't print {lines}: {out!r}")
    with attempt("a request that is replayed"):
        request, _ = place.run(0, "sendfax", "-d", "5550111", "--pages", "1", "-P", "0", "-t", "1000", "-T", "1", "--request", "9")
        out, _ = place.run(0, "replay", data=request)
        expect(out.endswith(b'\r\n{"job":1}'), f"the request of sendfax isn't taken: {out!r}")
    with attempt("sendfax -a now"):
        before = int(time.time())
        out, _ = place.run(0, "sendfax", "-d", "5550111", "--pages", "1", "-a", "now", "--request", "10")
        sent = re.search(rb"(?m)^tts:(\d+)$", out)
        expect(sent and before <= int(sent[1]) <= time.time(), f"its moment isn't the machine's: {out!r}")


# The text at fault, and the words in which it is the first one.
BAD = [
    ("destination", ["-d", "call me", "-a", "later", "-k", "later", "-i", " a", "--client", "a b", "--request", "0"]),
    ("at", ["-d", "5550111", "-a", "later", "-k", "later", "-i", " a", "--client", "a b", "--request", "0"]),
    ("kill", ["-d", "5550111", "-k", "later", "-i", " a", "--client", "a b", "--request", "0"]),
    ("kill", ["-d", "5550111", "-k", "1969-12-31T23:59:59Z", "--request", "1", "-a", "now"]),
    ("tag", ["-d", "5550111", "-i", " a", "--client", "a b", "--request", "0"]),
    ("client", ["-d", "5550111", "--client", "a b", "--request", "0"]),
    *(("request", ["-d", "5550111", "--request", number]) for number in ("0", "01", "1234567890123456789")),
    ("destination", ["-d", "", "--request", "1"]),
    *(("at", ["-d", "5550111", "--request", "1", "-a", text]) for text in (
        "never", "", "2100-01-01T00:00:01Z", "1969-12-31T23:59:59.5Z", "1970-01-02T00:00:00", "now + 2 weeks",
        "now + 1000000 minutes", "now + 50000 days", "now + 2  hours", "now + -2 hours", "now+2 hours", "now + 2")),
]


@check
def sendfax_texts(folder):
    """The first text of `sendfax` at fault is named, with status 2, and nothing else is said."""
    place = Place(folder)
    for word, words in BAD:
        with attempt(words):
            out, err = place.run(2, "sendfax", "--pages", "1", "--moment", "1000", *words)
            expect_same((out, err), (b"", f"faxqd: bad {word}\n".encode()), "it says")


LACKS = """\
error: unexpected argument '{}' found

Usage: faxqd sendfax [OPTIONS] -d <NUMBER> --pages <PAGES> --request <NUMBER>

For more information, try '--help'.
"""
LACKED = [(f"-{letter}", [*SENDFAX[1:], f"-{letter}"]) for letter in "123DEGlmnNpRvw"]
LACKED += [(f"-{letter}", words) for letter in "AbBcCfFIorsSUVWxXyYz" for words in (
    [*SENDFAX[1:], f"-{letter}", "desk"], [f"-{letter}", "desk", *SENDFAX[1:]], [f"-{letter}desk", "-d", "5550111"])]
LACKED += [("-n", ["-nR"]), ("-f", ["-P", "1", "-f", "desk"]), ("report.ps", [*SENDFAX[1:], "report.ps"])]


@check
def sendfax_lacks(folder):
    """An option of sendfax(1) that isn't here is named, and nothing else is said."""
    place = Place(folder)
    for named, words in LACKED:
        with attempt(words):
            out, err = place.run(2, "sendfax", *words)
            expect_same((out, err), (b"", LACKS.format(named).encode()), "it says")


DIAL = ["-d", "5550111"]
TOLD = [("-P wants a number from 0 to 255", [*DIAL, "--pages", "1", "-P", priority])
        for priority in ("bulk", "normal", "high", "256", "")]
TOLD += [
    ("-P wants a number from 0 to 255", [*DIAL, "--pages", "1", "-P-1"]),
    ("-P wants a number from 0 to 255", ["-Phigh", *DIAL, "--pages", "1"]),
    ("-t wants a number from 1 to 1000", [*DIAL, "--pages", "1", "-t", "0"]),
    ("-T wants a number from 1 to 1000", [*DIAL, "--pages", "1", "-T", "x"]),
    ("--pages wants a number from 1 to 9999", [*DIAL, "--pages", "0"]),
]
SENDFAX_FAULTY = [
    [], [*DIAL, "--pages", "1"], [*DIAL, "--request", "1"], ["--pages", "1", "--request", "1"], [*SENDFAX[1:], "-n"],
    [*SENDFAX[1:], "more"], [*SENDFAX[1:], "--to"], [*SENDFAX[1:], "--to", "127.0.0.1:1", "--to", "127.0.0.1:1"],
    *([*DIAL, "--request", "1", "--pages", pages] for pages in ("0", "10000", "x")),
    *([*SENDFAX[1:], *words] for words in (
        ["-P", "256"], ["-P", "-1"], ["-t", "0"], ["-t", "1001"], ["-T", "0"], ["-T", "1001"], ["--moment", "x"],
        ["--moment", "1000000000000000000"])),
]


@check
def sendfax_usage(folder):
    """A number of `sendfax` past its limits is told with them, and words that are missing or too many are refused."""
    place = Place(folder)
    for text, words in TOLD:
        with attempt(words):
            out, err = place.run(2, "sendfax", "--request", "1", *words)
            expect_same((out, err), (b"", f"error: {text}\n".encode()), "it says")
    for words in SENDFAX_FAULTY:
        with attempt(words):
            place.usage("sendfax", *words)


# ---- files

# The setup, the controls, and the fault.
FILES = [
    (b'ModemClass: "fast:("', b"", "setup line 1: bad-pattern"),
    (b"Modem: ttyS0\n\nTimeZone: Mars\n", b'^5550\n  TimeOfDay = "Xx"\n', "setup line 3: bad-zone"),
    (b"Modem: ttyS0", b'^5550\n  TimeOfDay = "Xx"\n', "controls line 2: bad-hours"),
    (b"\177", b"", "setup line 1: no-colon"),
]
GOOD_SETUP = b'Modem: ttyS0\nModemClass: "fast:^ttyS0$"\n'
GOOD_CONTROLS = b'^5559 RejectNotice = "Number no longer served"\n'
# The fault of the setup is told before that of the controls, whatever these are; and one file may be given as the other.
NAMED = [
    ("cannot read no/such.setup", ["--setup", "no/such.setup"]),
    ("cannot read no/such.controls", ["--controls", "no/such.controls"]),
    ("cannot read no/such", ["--setup=no/such"]), ("cannot read .", ["--setup", "."]),
    ("cannot read .", ["--controls", "."]), ("cannot read ", ["--setup", ""]), ("cannot read ", ["--controls", ""]),
    ("cannot read no/setup", ["--controls", "no/controls", "--setup", "no/setup"]),
    ("cannot read no/setup", ["--controls", "bad", "--setup", "no/setup"]),
    ("setup line 1: no-colon", ["--controls", "no/controls", "--setup", "bad"]),
    ("setup line 1: no-colon", ["--controls", "bad", "--setup", "bad"]),
    ("cannot read no/controls", ["--setup", "setup", "--controls", "no/controls"]),
    ("controls line 1: no-rule", ["--setup", "setup", "--controls", "bad"]),
    ("controls line 1: no-equals", ["--controls", "setup"]), ("setup line 1: no-colon", ["--setup", "controls"]),
    ("setup line 1: no-colon", ["--setup", "controls", "--controls", "setup"]),
]
# `serve` looks at setup and controls, then at the database, then at the address.
SERVED = [
    ("cannot read no/setup", ["--setup", "no/setup", "--controls", "bad", "--db", ".", "--listen", "nowhere"]),
    ("controls line 1: no-rule", ["--setup", "setup", "--controls", "bad", "--db", ".", "--listen", "nowhere"]),
    ("database", ["--setup", "setup", "--db", ".", "--listen", "nowhere"]),
    *(("database", ["--db", file, "--listen", "nowhere"]) for file in ("no/such/queue.db", ":memory:", "")),
    *(("cannot listen", ["--db", "queue.db", "--listen", address])
      for address in ("nowhere", "", "127.0.0.1", "127.0.0.1:65536", "127.0.0.1:x", "192.0.2.1:4559")),
]


def with_files(folder):
    """A place with a setup, controls, and a file that is neither."""
    write_files(folder)
    return Place(folder)


def write_files(folder):
    for name, data in (("setup", GOOD_SETUP), ("controls", GOOD_CONTROLS), ("bad", b" x\n")):
        (folder / name).write_bytes(data)


@check
def file_faults(folder):
    """The first fault of the files is told with its line, that of the setup first; `serve` then looks at the database, and
    last at its address."""
    place = Place(folder)
    for setup, controls, text in FILES:
        (folder / "setup").write_bytes(setup)
        (folder / "controls").write_bytes(controls)
        with attempt(setup):
            place.fails(text, "replay", "--controls", "controls", "--setup", "setup")
    write_files(folder)
    for text, words in NAMED:
        with attempt(words):
            place.fails(text, "replay", *words)
    for text, words in SERVED:
        with attempt(words):
            place.fails(text, "serve", "--connections", "1", *words)


NOBODY = "setpriv", "--reuid=nobody", "--regid=nogroup", "--clear-groups"
# Where the user may read `setup` and `controls` alone, may write no file, and may not enter `inner`.
CLOSED = [
    ("cannot read closed", ["replay", "--setup", "closed"]), ("cannot read closed", ["replay", "--controls", "closed"]),
    ("cannot read closed", ["replay", "--setup", "setup", "--controls", "closed"]),
    ("cannot read inner/setup", ["replay", "--setup", "inner/setup"]), ("cannot read inner", ["replay", "--controls", "inner"]),
    ("cannot read closed", ["list", "--db", "closed.db", "--setup", "closed"]), ("database", ["list", "--db", "closed.db"]),
    ("database", ["list", "--db", "inner/queue.db"]), ("database", ["list", "--db", "inner/none.db"]),
    ("cannot read closed", ["import", "--client", "old", "--request", "1", "closed"]),
    ("cannot read closed", ["serve", *ADDRESS, "--db", "closed.db", "--controls", "closed"]),
    *(("database", ["serve", *ADDRESS, "--db", file])
      for file in ("closed.db", "read.db", "inner/queue.db", "inner/none.db", "new.db")),
]


def closed_place(folder):
    """A place that another user may look at, with files that he may not read, and the program, which he may run."""
    place = with_files(folder)
    place.program.unlink()
    shutil.copy(said.program, place.program)
    (folder / "inner").mkdir()
    for name in "closed", "inner/setup":
        (folder / name).write_bytes(GOOD_SETUP)
    for name in "closed.db", "read.db", "inner/queue.db":
        (folder / name).touch()
        place.run(0, "list", "--db", name)  # so it is a queue
    for name, mode in (".", 0o755), ("faxqd", 0o755), ("inner", 0o700), ("closed", 0o600), ("closed.db", 0o600):
        (folder / name).chmod(mode)
    return place


def files_in(folder):
    """All files of a folder, with their bytes."""
    return {file: file.read_bytes() for file in folder.glob("**/*") if file.is_file()}


@check
def closed_files(folder):
    """A setup, controls or a database that the user may not read, and a database that he may not write, are told in one line, and
    all files stay as they are."""
    wants("setpriv")
    place = closed_place(folder)
    if os.getuid() != 0 or subprocess.run([*NOBODY, folder / "faxqd", "--help"], capture_output=True).returncode != 0:
        raise NotTried("no other user may run the program")
    out, err = place.run(0, "replay", "--setup", "setup", "--controls", "controls", data=READY, before=NOBODY)
    expect((out[:13], err) == (b"HTTP/1.1 200 ", b""), f"with files that may be read it answers {out!r}, and says {err!r}")
    before = files_in(folder)
    for text, words in CLOSED:
        with attempt(words):
            out, err = place.run(1, *words, before=NOBODY)
            expect_same((out, err), (b"", f"faxqd: {text}\n".encode()), "it says")
            expect(files_in(folder) == before, "not all files are as they were")
    place.run(0, "replay", "--setup", "closed")  # which has no fault for who may read it
    for name in "closed.db", "read.db", "inner/queue.db":
        place.run(0, "list", "--db", name)


def message(path, body=""):
    head = f"POST {path} HTTP/1.1\r\nFax-Client: desk\r\nFax-Number: 1\r\nContent-Length: {len(body)}\r\n\r\n"
    return (head + body).encode()


READY, HANDED_IN = message("/modems/ttyS0/ready"), message("/jobs", "number:5559000\ntotpages:1")
REJECTED = '403 {"no":11,"notice":"Number no longer served","word":"rejected"}'
ANSWERED = [
    (READY, '404 {"no":9,"word":"no-modem"}', []), (READY, '404 {"no":9,"word":"no-modem"}', ["--controls", "controls"]),
    (READY, '200 {"down":false}', ["--setup", "setup"]), (READY, '200 {"down":false}', ["--setup=setup", "--controls=controls"]),
    (HANDED_IN, '201 {"job":1}', []), (HANDED_IN, '201 {"job":1}', ["--setup", "setup"]),
    (HANDED_IN, REJECTED, ["--controls", "controls"]), (HANDED_IN, REJECTED, ["--controls", "controls", "--setup", "setup"]),
]


@check
def files_change(folder):
    """The setup says which modems there are, and the controls which numbers are refused."""
    place = with_files(folder)
    for request, wanted, words in ANSWERED:
        with attempt(words):
            out, err = place.run(0, "replay", *words, data=request)
            got = f"{out.split(b' ')[1].decode()} {out.splitlines()[-1].decode()}"
            expect(got == wanted, f"{request[:40]!r} is answered {got}")
            expect_same(err, b"", "standard error")


@check
def reads_nothing(folder):
    """Where the words or the files are at fault nothing is read."""
    place = with_files(folder)
    for words in (["serve"], ["replay", "--help"], ["replay", "--setup", "bad"], ["replay", "--controls", "bad"],
                  ["replay", "--setup", "no/such"]):
        with attempt(words):
            (folder / "input").write_bytes(HANDED_IN)
            with open(folder / "input", "rb") as left:
                place.run(None, *words, stdin=left)
                expect_same(left.read(), HANDED_IN, "what is left of its input")


# ---- how an input ends

@check
def input_ends(folder):
    """An input ends well, by a broken message, or by a fault of a stream, and each is told."""
    place = Place(folder)
    with attempt("an empty input"):
        expect_same(place.run(0, "replay"), (b"", b""), "it says")
    with attempt("a broken message behind a good one"):
        out, err = place.run(1, "replay", data=HANDED_IN + b"POST /jobs HTT")
        expect_same(err, b"faxqd: ended bad\n", "standard error")
        expect(out.count(b"HTTP/1.1 ") == 2 and b'\r\n\r\n{"job":1}HTTP/1.1 400 Bad Request\r\n' in out, f"it answers {out!r}")
    with attempt("a folder as input"):
        with open_folder(folder) as left:
            expect_same(place.run(1, "replay", stdin=left), (b"", b"faxqd: ended read-failed\n"), "it says")
    # As many bytes as a message may have, and one more, without an end of the head.
    for size in 81920, 81921:
        with attempt(f"{size} bytes that begin no message"):
            out, err = place.run(1, "replay", data=b" " * size)
            expect_same(err, b"faxqd: ended bad\n", "standard error")
            expect(out.count(b'"word":"bad-http"') == 1, f"it answers {out!r}")


@check
def input_goes_on(folder):
    """An input has no end of its own, but for a message that says that it is the last, and for its 1,001st message."""
    place = Place(folder)
    with attempt("more bytes than the program holds at once"):
        times = -(-85000 // len(HANDED_IN))
        out, _ = place.run(0, "replay", data=HANDED_IN * times)
        expect(out.count(b"HTTP/1.1 201 Created") == times, f"{out.count(b'HTTP/1.1 201 Created')} of {times} are answered")
    ask = b"GET / HTTP/1.1\r\n\r\n"
    for last in (b"GET / HTTP/1.0\r\n", b"GET / HTTP/1.1\r\nConnection: TE , Close\r\n",
                 b"GET / HTTP/1.1\r\nConnection: te\r\nconnection:close\r\n"):
        with attempt(f"behind the last message: {last}"):
            out, _ = place.run(0, "replay", data=last + b"\r\n" + ask)
            expect((out.count(b"HTTP/1.1 404"), out.count(b"\nConnection: close")) == (1, 1), f"it answers {out!r}")
    with attempt("a message that isn't the last"):
        out, _ = place.run(0, "replay", data=b"GET / HTTP/1.1\r\nConnection: closed, un-close\r\n\r\n" + ask)
        expect((out.count(b"HTTP/1.1 404"), out.count(b"\nConnection")) == (2, 0), f"it answers {out!r}")
    with attempt("1,001 messages"):
        out, err = place.run(1, "replay", data=1001 * ask)
        expect_same(err, b"faxqd: ended bound\n", "standard error")
        expect(out.startswith(b"HTTP/1.1 404 Not Found\r\n"), f"the first reply is {out[:100]!r}")
        expect(out.count(b'"word":"no-route"') == 1000, "there aren't 1,000 replies")
