"""The commands that the documents have for their readers, taken out of the text and run."""
import os
import random
import re
import shlex
import subprocess
import threading
import time

from .desk import wants_all
from .faxq import tiff
from .runner import group
from .shared import (CLOSE, EXAMPLES, MANY, Peer, Server, TOP, answer_to, attempt, database_of, expect, expect_same, free_port,
                     get, post, rows_of, said, say, submission, wants, within)
from .unit import NOBODY, as_user, reachable

check = group("documents", "Runs the commands of the documents.", "waiting")
ADDRESS = "127.0.0.1:4559"


def text_of(name):
    return (TOP / "docs" / name).read_text()


def section_of(text, heading):
    """The text of a document under a heading."""
    return re.search(rf"(?ms)^## {heading}\n(.*?)(?=^## |\Z)", text)[1]


def code(text):
    """Each indented line, without its indent; a line that ends with a backslash goes on in the next."""
    return "".join(f"{line[4:]}\n" for line in text.split("\n") if line.startswith("    ")).replace("\\\n", " ").split("\n")


def examples(text):
    """Each command of curl, with the output that follows it in the document."""
    found, lines = [], code(text)
    for line, following in zip(lines, lines[1:]):
        if line.startswith("curl "):
            found.append((line, following))
    return found


@check
def curl(folder):
    """The examples of curl in PROTOCOL.md, run from top to bottom on a queue that is started as it says, print what it says; the
    first one prints the same twice."""
    wants("curl", "bash")
    text = text_of("PROTOCOL.md")
    start = shlex.split(re.search(r"for a new queue:\n`(.*?)`", text)[1])
    expect(start[:6] == ["./faxqd", "serve", "--db", "new.db", "--listen", ADDRESS], f"the queue is started by {start}")
    with Server(folder / "new.db", *start[6:], *MANY, folder=TOP) as server:
        def prints(command, wanted):
            command = command.replace(ADDRESS, f"127.0.0.1:{server.port}")
            ran = subprocess.run(["bash", "-c", command.replace("curl", "curl --silent --noproxy '*'", 1)], capture_output=True,
                                 text=True, timeout=60)
            expect_same(ran.stdout.strip(), wanted, f"{command} prints")

        shown = examples(text)
        expect(len(shown) == text.count("    curl "), "an example of curl isn't recognised")
        prints(*shown[0])
        for command, wanted in shown:
            with attempt(command):
                prints(command, wanted)


def shell(command, folder=None, **settings):
    """What a command prints, which has to succeed."""
    ran = subprocess.run(["sh", "-ec", command], cwd=folder, capture_output=True, text=True, timeout=60,
                         env={**os.environ, **settings})
    expect(ran.returncode == 0, f"`{command}` ends with {ran.returncode}, and says {ran.stderr!r}")
    return ran.stdout.strip()


@check
def start(folder):
    """The first command of OPERATIONS.md serves in a clone."""
    words = shlex.split(code(section_of(text_of("OPERATIONS.md"), "Start"))[0])
    expect(words[:6] == ["./faxqd", "serve", "--db", "queue.db", "--listen", ADDRESS], f"the first command is {words}")
    expect(os.access(TOP / words[0], os.X_OK), f"a clone has no {words[0]}")
    with Server(folder / "queue.db", *words[6:], folder=TOP):
        pass


class Load(threading.Thread):
    """A client that hands in faxes of 10 kB one after the other, so that about each two hundredth makes the server checkpoint."""

    def __init__(self, port, client):
        super().__init__(daemon=True)
        self.port, self.client, self.replies, self.ends = port, client, {}, False
        self.start()

    def run(self):
        number = 0
        while not self.ends:
            with Peer(self.port, patience=60) as peer:
                while not self.ends and number % 900 != 899:
                    number += 1
                    peer.say(post("/jobs", number, f"number:5550111\ntotpages:1\nnote:{'x' * 10000}\n", self.client))
                    self.replies[number] = peer.reply().partition(b"\r\n\r\n")[2].decode()
                    time.sleep(0.005)
            number += 1


@check
def copies(folder):
    """The commands of OPERATIONS.md that tell which job a submission became do so while the server takes faxes and
    checkpoints, and each copy is whole."""
    wants("sqlite3")
    lines = code(section_of(text_of("OPERATIONS.md"), "Who did what, and when"))
    commands = "\n".join(lines[lines.index("mkdir -m 700 /tmp/copy"):])
    chance, until, count = random.Random(18), time.monotonic() + (30 if said.all else 3), 0
    with Server(folder / "queue.db", *MANY, "--timeout", "60") as server:
        loads = [Load(server.port, client) for client in ("desk", "shop")]
        try:
            while time.monotonic() < until or count < 5:
                time.sleep(chance.uniform(0, 0.1))
                within("an answer", lambda: all(load.replies for load in loads), 60)
                count += 1
                is_sound_copy(folder, commands, server.process.pid, chance.choice(loads), count)
        finally:
            for load in loads:
                load.ends = True
            for load in loads:
                load.join()
    say(f"{count} copies, of up to {sum(len(load.replies) for load in loads)} faxes")


def is_sound_copy(folder, commands, process, load, count):
    """These commands make a sound copy that has the last reply."""
    number, reply = max(dict(load.replies).items())
    for old, new in (("systemctl kill --signal=STOP faxqd", f"kill -STOP {process}"),
                     ("systemctl kill --signal=CONT faxqd", f"kill -CONT {process}"), ("/var/lib/faxqd", str(folder)),
                     ("/tmp/copy", f"{folder}/copy-{count}"), ("'desk'", f"'{load.client}'"), ("= 7", f"= {number}")):
        expect(old in commands, f"the commands have no {old}")
        commands = commands.replace(old, new)
    expect_same(shell(commands), reply, f"request {number} of {load.client} in copy {count}")
    copy = folder / f"copy-{count}/queue.db"
    found = rows_of(copy, "PRAGMA integrity_check") + rows_of(copy, "SELECT (SELECT count(*) FROM jobs) - count(*) FROM replies")
    expect(found == [("ok",), (0,)], f"in copy {count} sqlite finds {found}: faults, and jobs without a reply")
    copy.unlink()


@check
def restored(folder):
    """The commands of OPERATIONS.md bring a backup back so that the server's own user serves it, without what came later."""
    commands = [line for line in code(section_of(text_of("OPERATIONS.md"), "Backup")) if re.match("cp |rm ", line)]
    expect([command.split()[0] for command in commands] == ["cp", "rm", "cp"], f"the commands are {commands}")
    state, said.program = folder / "state", reachable(folder)
    (folder / "backup").mkdir()
    state.mkdir(mode=0o700)
    if os.getuid() == 0:
        os.chown(state, NOBODY, NOBODY)
    backup, remove, restore = (line.replace("/var/lib/faxqd", str(state)).replace("/backup", f"{folder}/backup") for line in commands)
    with Server(state / "queue.db", *MANY, limits=as_user) as server:
        def jobs():
            return len(answer_to(server.port, get("/jobs", CLOSE))[1].splitlines()) - 1
        answer_to(server.port, submission(1, fields=CLOSE))
        server.kill()
        shell(backup)
        server.start()
        answer_to(server.port, submission(2, fields=CLOSE))
        expect(jobs() == 2, "the second fax isn't there")
        server.kill()
        shell(f"{remove}\n{restore}")
        server.start()
        expect(jobs() == 1, f"of a backup with one job there are {jobs()}")
        expect(answer_to(server.port, submission(3, fields=CLOSE)) == (201, b'{"job":2}'), "a fax isn't accepted after a restore")


@check
def purge(folder):
    """The commands of OPERATIONS.md that purge once delete the jobs that are older, while the server runs."""
    wants("curl", "flock")
    commands = [line for line in code(section_of(text_of("OPERATIONS.md"), "Purge")) if ADDRESS in line]
    expect([command.split()[0] for command in commands] == ["examples/purge.sh", "faxq"], f"the commands are {commands}")
    with Server(folder / "queue.db", *MANY) as server:
        for number in 1, 2, 3:
            answer_to(server.port, submission(number, fields=CLOSE))
        for number, job in (4, 1), (5, 2):
            answer_to(server.port, post(f"/jobs/{job}/kill", number, fields=CLOSE))
        settings = {"JOURNAL": str(folder / "journal"), "FAXQ_FOLDER": str(folder / "faxq"), "no_proxy": "*",
                    "PATH": f"{EXAMPLES}:{os.environ['PATH']}"}
        for job, command in zip((1, 2), commands):
            server.kill()
            with database_of(folder / "queue.db") as database:
                database.execute(f"UPDATE times SET submitted = 1, ended = ended - {31 * 86400} WHERE job = {job}")
            server.start()
            shown = shell(command.replace(ADDRESS, f"127.0.0.1:{server.port}"), TOP, **settings)
            expect(shown == "1 jobs purged", f"{command} says {shown}")
            expect(b"no-job" in answer_to(server.port, get(f"/jobs/{job}", CLOSE))[1], f"job {job} is still there")


# ---- faxes by efax

EFAX = """#!/bin/sh
# Prints what efax prints when it sends each page and the receiver confirms it.
echo "efax: 00:00 opened"
echo "efax: 00:01 connected"
for word; do
    case $word in *.tif) sleep "${EACH:-0}"; echo "efax: 00:02 sent -> $word"; echo "$word" >> "$SENT" ;; esac
done
echo "efax: 00:03 done, returning 0 (success)"
"""


def stubs(folder, pages):
    """A folder with an efax that sends what it is given, and tools that find so many pages in each document."""
    there = folder / "bin"
    there.mkdir()
    tiff(there / "page.tif", 1)
    listed = "TIFF Directory at 0x8\n" * pages
    for name, text in (("efax", EFAX), ("tiffinfo", f"#!/bin/sh\nprintf '{listed}'\n"),
                       ("tiffcp", f"#!/bin/sh\nfor word; do :; done\ncp {there}/page.tif \"$word\"\n")):
        (there / name).write_text(text)
        (there / name).chmod(0o755)
    return {"PATH": f"{there}:{os.environ['PATH']}", "SENT": str(folder / "sent")}


@check
def efax(folder):
    """A document that is handed in by `faxq submit` as in OPERATIONS.md is sent by efax-worker as started there; efax is a stub."""
    text, home = text_of("OPERATIONS.md"), folder / "home"
    worker = next(line for line in code(section_of(text, "Faxes by efax")) if "efax-worker" in line)
    submit = next(line for line in code(section_of(text, "Clients")) if line.startswith("faxq submit "))
    worker, submit = (re.sub(r"(?<![\w/])/var/", f"{folder}/var/", line) for line in (worker, submit))
    (folder / "var/spool/fax").mkdir(parents=True)
    home.mkdir()
    tiff(home / shlex.split(submit)[-1], 2)
    with Server(folder / "queue.db", "--setup", EXAMPLES / "office.setup", *MANY) as server:
        settings = {**stubs(folder, 2), "FAXQD": f"http://127.0.0.1:{server.port}", "FAXQ_FOLDER": str(folder / "faxq"),
                    "CLIENT": "desk", "WAIT": "0.2", "PROGRAM": str(said.program), "no_proxy": "*"}
        expect(shell(submit.replace("faxq", str(EXAMPLES / "faxq"), 1), home, **settings) == "1", "the fax isn't job 1")
        process = subprocess.Popen(["sh", "-c", f"exec env {worker}"], cwd=TOP, stdin=subprocess.DEVNULL, stderr=subprocess.PIPE,
                                   env={**os.environ, **settings})
        try:
            def over():
                shown = shell(f"{EXAMPLES}/faxq status 1", **settings)
                expect(" failed" not in shown, shown)
                return " is done: 2 of 2 pages confirmed" in shown
            within("the job is done", over, 90, 0.2)
        finally:
            process.kill()
            process.communicate()


# ---- the desk and faxq as they are installed

def installed(folder, heading):
    """Runs the commands under a heading that install files, below a folder."""
    for command in code(section_of(text_of("OPERATIONS.md"), heading)):
        if command.startswith(("install ", "cp ")):
            shell(re.sub(r"(?<=\s)/(usr|etc)/", rf"{folder}/\1/", command), TOP)


@check
def installed_faxq(folder):
    """faxq works where OPERATIONS.md installs it."""
    (folder / "usr/local/bin").mkdir(parents=True)
    installed(folder, "Clients")
    with Server(folder / "queue.db", *MANY) as server:
        listed = shell(f"{folder}/usr/local/bin/faxq --server http://127.0.0.1:{server.port} status")
        expect(listed.startswith("JID Pri S"), f"faxq says {listed!r}")


@check
def installed_desk(folder):
    """The desk runs as OPERATIONS.md installs it, with the example of its settings, and takes the upload of a program."""
    wants_all()
    wants("curl")
    (folder / "etc/systemd/system").mkdir(parents=True)
    installed(folder, "The desk")
    unit = (folder / "etc/systemd/system/faxqd-desk.service").read_text()
    command, environment = (re.search(rf"(?m)^{name}=(.*)$", unit)[1] for name in ("ExecStart", "Environment"))
    environment = dict(word.split("=", 1) for word in environment.replace("/usr/", f"{folder}/usr/").split())
    settings, port = folder / "etc/faxqd/desk.toml", free_port()
    with Server(folder / "queue.db", *MANY) as server:
        text = settings.read_text()
        for old, new in (("127.0.0.1:4560", f"127.0.0.1:{port}"), ("127.0.0.1:4559", f"127.0.0.1:{server.port}"),
                         ("/var/lib/faxqd-desk", f"{folder}/desk")):
            expect(text.count(old) == 1, f"the example of the settings hasn't {old}")
            text = text.replace(old, new)
        settings.write_text(text)
        process = subprocess.Popen(shlex.split(command.replace(" /etc/", f" {folder}/etc/")), stdin=subprocess.DEVNULL,
                                   stdout=subprocess.PIPE, env={**os.environ, **environment})
        try:
            expect(b"listening" in process.stdout.readline(), "the desk doesn't listen")
            (folder / "report.pdf").write_bytes(b"%!PS\nshowpage\n")
            upload = re.search(r"(?ms)^ +(curl -u anna .*?)\n\n", section_of(text_of("OPERATIONS.md"), "The desk"))[1]
            for old, new in (("\\\n", " "), ("-u anna", "-s --noproxy '*' -H 'X-Remote-User: anna'"),
                             ("https://fax.office.example", f"http://127.0.0.1:{port}")):
                upload = upload.replace(old, new)
            expect('"id":1' in shell(upload, folder), "the upload isn't fax 1")
            within("its job", lambda: answer_to(server.port, get("/jobs/1", CLOSE))[0] == 200)
        finally:
            process.kill()
            process.communicate()


# ---- the alarm

RULE = """groups:
- name: fax
  rules:
  - alert: NoPage
    expr: 'EXPRESSION'
"""
TRIED = """rule_files: [rule.yml]
tests:
- interval: 1m
  input_series:
  - {{series: 'faxqd_jobs{{state="ready"}}', values: '{}'}}
  - {{series: 'faxqd_jobs{{state="active"}}', values: '1'}}
  - {{series: 'faxqd_last_page_seconds', values: '{}'}}
  alert_rule_test:
  - {{eval_time: 0m, alertname: NoPage, exp_alerts: [{}]}}
"""


@check
def alarm(folder):
    """Prometheus raises the alarm of OPERATIONS.md if a job is ready and no page was confirmed for an hour, and only then."""
    wants("promtool")
    expression = re.search(r"An alarm: `(.*?)`", section_of(text_of("OPERATIONS.md"), "The desk"))[1]
    (folder / "rule.yml").write_text(RULE.replace("EXPRESSION", expression))
    for ready, seconds, is_raised in ((1, 3601, True), (9, 99999, True), (0, 99999, False), (1, 3600, False), (9, 5, False)):
        with attempt(f"{ready} ready jobs, the last page {seconds} s ago"):
            alert = '{exp_labels: {state: "ready"}}' if is_raised else ""
            (folder / "test.yml").write_text(TRIED.format(ready, seconds, alert))
            ran = subprocess.run(["promtool", "test", "rules", folder / "test.yml"], cwd=folder, capture_output=True, text=True)
            expect(ran.returncode == 0, f"the alarm is wrong: {ran.stdout}")
