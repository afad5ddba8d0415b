"""examples/demo shows what it says, and finds a page that goes twice and a fax that is missing."""
import collections
import concurrent.futures
import os
import re
import subprocess
import sys

from .runner import group
from .shared import CHECKS, EXAMPLES, TOP, attempt, expect, expect_same, free_port, said

check = group("demo", "Runs examples/demo.", "waiting")
# Three faxes, as its text says.
PAGES = [f"page {page} to {number}" for number, pages in (("5550101", 3), ("5550102", 2), ("5550103", 1))
         for page in range(1, pages + 1)]
HEAD = "   s  who    number   request                network            the queue's answer"
FATES = "passes", "is lost", "its reply is lost", "comes twice", "comes late", "comes again", "came again"
REQUEST = re.compile(rf" *\d+\.\d  (desk |ttyS[01])  (\d+) +(again )? *(/[\w/]+) +({'|'.join(FATES)})  +(-|[24]\d\d \{{.*)")
EVENT = re.compile(r" *\d+\.\d  (ttyS[01])  \* (calls \d+: (?:busy|connected)|sends page \d to \d+)")
SAID = re.compile(r" *\d+\.\d         \* (client|worker)\.sh: .*: faxqd: no answer; trying again")
JOB = re.compile(r" +\d 127 D 555010\d +(\d):\1 +\d:12 \d{4}-\d\d-\d\d \d\d:\d\d")
SUM = ("The network lost {} requests and {} replies, and repeated {} requests.\n"
       "Its clients made {} requests, and repeated {} of them until they were answered.\n")
WELL, WRONG = "Each page went once.", "WRONG: not each page went once, or the queue has not one job for each fax."
GIVEN_UP = '410 {"no":28,"word":"given-up"}'
# A queue that takes a submission for new whenever it comes: serves as the program does, but numbers each submission.
FORGETFUL = """\
#!{python}
import itertools, os, re, socket, socketserver, subprocess, sys
if sys.argv[1] != "serve":
    os.execv({program!r}, sys.argv)
sys.dont_write_bytecode = True
sys.path.insert(0, {checks!r})
from faxqd_checks.shared import is_whole

words, numbers = sys.argv[1:], itertools.count(10**17)  # above each number by the clock
place = words.index("--listen") + 1
address, words[place] = words[place].split(":"), "127.0.0.1:{port}"
subprocess.Popen([{program!r}, *words], stdout=subprocess.PIPE).stdout.readline()

class Peer(socketserver.BaseRequestHandler):
    def handle(self):
        message = b""
        while not is_whole(message) and (data := self.request.recv(65536)):
            message += data
        number = lambda found: b"%bFax-Number: %d" % (found[1], next(numbers))
        message = re.sub(rb"(?s)(POST /jobs .*?)Fax-Number: \\d+", number, message)
        with socket.create_connection(("127.0.0.1", {port})) as queue:
            queue.sendall(message)
            queue.shutdown(socket.SHUT_WR)
            while data := queue.recv(65536):
                self.request.sendall(data)

class Server(socketserver.ThreadingTCPServer):
    allow_reuse_address = daemon_threads = True

with Server((address[0], int(address[1])), Peer) as server:
    print("faxqd: listening", flush=True)
    server.serve_forever()
"""
# A queue that has room for two faxes. The last word is the setup.
SMALL = """\
#!/bin/sh
for word; do setup=$word; done
[ "$1" != serve ] || echo MaxJobs: 2 >> "$setup"
exec {program} "$@"
"""


def shown(program, *words):
    """The status of the demo with this program, and the lines that it prints."""
    ran = subprocess.run([EXAMPLES / "demo", *words], env={**os.environ, "PROGRAM": str(program)}, stdin=subprocess.DEVNULL,
                         capture_output=True, text=True, timeout=180)
    expect_same(ran.stderr, "", "standard error")
    return ran.returncode, ran.stdout


def in_table(lines):
    """The requests and the events of a table, of which each line has to be one of these."""
    requests, events = [], []
    for line in lines:
        if found := REQUEST.fullmatch(line):
            requests.append(found.groups())
        elif found := EVENT.fullmatch(line):
            events.append(found[2])
        else:
            expect(SAID.fullmatch(line), f"a line of the table is {line!r}")
    return requests, events


def is_as_it_says(status, text):
    """What the demo prints at its end is what its table has."""
    table, _, rest = text.partition("\n\nThe queue:\n\n")
    queue, _, rest = rest.partition("\n\nThe modems:\n\n")
    modems, _, end = rest.partition("\n\n")
    head, *lines = table.splitlines()
    expect_same(head, HEAD, "the head")
    requests, events = in_table(lines)
    pages = sorted(event.removeprefix("sends ") for event in events if event.startswith("sends "))
    expect_same(pages, sorted(PAGES), "the pages in the table")
    expect(sum(event.endswith(": busy") for event in events) == 1, f"not one call is busy: {events}")
    fates, answers = collections.Counter(fate for *_, fate, _ in requests), collections.defaultdict(set)
    expect_same(set(fates), set(FATES), "what the network does")
    latest = collections.Counter()
    for client, number, _, path, _, answer in requests:
        latest[client] = max(latest[client], int(number))
        answers[client, number, path] |= {answer.removesuffix(" twice")} - {"-", GIVEN_UP}
    # (the last that a worker asks may be lost when the demo ends)
    for (client, number, path), found in answers.items():
        expect(len(found) == 1 or not found and int(number) == latest[client], f"{path}, {number} of {client}, is answered by {found}")
    expect(len(queue.splitlines()) == 4 and all(map(JOB.fullmatch, queue.splitlines()[1:])), f"the queue is {queue!r}")
    expect_same(modems.splitlines(), [f"    {page} went once" for page in PAGES], "the modems' count")
    repeats, again = fates["comes twice"] + fates["came again"], sum(bool(again) for _, _, again, _, _, _ in requests)
    summed = SUM.format(fates["is lost"], fates["its reply is lost"], repeats, len(answers), again)
    expect_same((end, status), (f"{summed}{WELL}\n", 0), "its end and its status")


@check
def shows(folder):
    """The table has each request with an answer, always the same one, however often it comes, but for a worker's
    last, which may have none yet; each thing that the network does; and each page that a modem sends. What it sums up
    is in the table. It ends with 0, within a minute."""
    with concurrent.futures.ThreadPoolExecutor() as pool:
        runs = {seed: pool.submit(shown, said.program, "--seed", seed) for seed in ("1", "2")}
    for seed, run in runs.items():
        with attempt(f"seed {seed}"):
            is_as_it_says(*run.result())


@check
def twice(folder):
    """If the queue takes a repeated submission for a new one, the demo finds pages that go twice, and ends with 1."""
    program = folder / "forgetful"
    program.write_text(FORGETFUL.format(python=sys.executable, checks=str(CHECKS), program=str(said.program), port=free_port()))
    program.chmod(0o755)
    status, text = shown(program)
    expect_same((text.splitlines()[-1], status), (WRONG, 1), "its last line and its status")
    expect(re.search(r"(?m)^    page 1 to 555010\d went [23456] TIMES$", text), f"no page goes twice: {text}")


@check
def missing(folder):
    """If the queue refuses a fax, the demo finds that its page is missing, and ends with 1."""
    program = folder / "small"
    program.write_text(SMALL.format(program=said.program))
    program.chmod(0o755)
    status, text = shown(program)
    expect_same((text.splitlines()[-1], status), (WRONG, 1), "its last line and its status")
    expect("\n    page 1 to 5550103 went 0 TIMES\n" in text, f"no page is missing: {text}")


@check
def readme(folder):
    """What README.md shows of it, apart from what it leaves out, are lines such as it prints."""
    text = (TOP / "README.md").read_text().split("\n    examples/demo\n", 1)[1]
    block = re.search(r"(?:^    .*\n|^\n(?=    ))+", text.split("\n", 1)[1], re.M)[0]
    lines = [line[4:] for line in block.splitlines() if line.strip() not in ("", "..")]
    expect_same(lines[0], HEAD, "the head")
    expect(len(in_table(lines[1:-3])[0]) >= 5, "there are too few requests")
    summed = "".join(f"{line}\n" for line in lines[-3:-1])
    expect(re.fullmatch(SUM.replace("{}", r"\d+"), summed), f"it sums up {summed!r}")
    expect_same(lines[-1], WELL, "the last line")
