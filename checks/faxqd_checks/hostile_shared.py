"""What the checks of the group `hostile` share: how the program is run, what its replies are, and how many things are tried at
once."""
import collections
import concurrent.futures
import functools
import itertools
import json
import os
import re
import shutil
import threading

from . import shared
from .runner import group
from .shared import HEAD, LIMIT, Server, TOP, attempt, database_of, expect, expect_same, limited, lock, longest, new_folder, said, say

register = group("hostile", "Has the program meet what nobody should do to it: memory that gives out, cut, changed and "
                 "mixed messages, damaged files, many peers, and connections that fail. A part is tried, the "
                 "same part each time; --all tries all.")
SECOND = 1.0  # the processor's time that a run may take, a start included
SLACK = 2  # seconds until a server that should end counts as never ending
ROOM = "/dev/shm" if os.access("/dev/shm", os.W_OK) else None
trying = threading.local()  # what this thread has made for the thing that it tries
state = {"folders": iter(()), "tried": 0}


def check(function):
    """A check that has a folder in memory, and says how many things it has tried."""
    @functools.wraps(function)
    def tried(_):
        with new_folder(shared.option("folder", ROOM)) as work:
            state.update(folders=(work / str(number) for number in itertools.count(1)), tried=0)
            function()
        say(f"{state['tried']} tried")
        for kind, seconds in sorted(longest.items()):
            say(f"{kind} took {seconds:.2f} s at most")
    return register(tried)


def folder():
    """A new folder, which is there until what is tried has ended."""
    with lock:
        made = next(state["folders"])
    made.mkdir()
    if hasattr(trying, "folders"):
        trying.folders.append(made)
    return made


def chosen(things, most):
    """All of these, or that many at even distances."""
    things = list(things)
    if said.all or len(things) <= most:
        return things
    return [things[place * len(things) // most] for place in range(most)]


def count(tried=1):
    with lock:
        state["tried"] += tried


def try_one(name, function, *arguments):
    """Tries one thing, and removes the folders that it has made."""
    trying.folders = []
    with attempt(name):
        function(*arguments)
    for made in trying.folders:
        shutil.rmtree(made, ignore_errors=True)
    count()


def try_all(tasks):
    """Tries each of these, as many at a time as there are processors."""
    with concurrent.futures.ThreadPoolExecutor(len(os.sched_getaffinity(0))) as pool:
        for done in [pool.submit(try_one, *task) for task in tasks]:
            done.result()


class Limited(Server):
    """A server that may have so many kilobytes of data, and ends at once where it should."""

    def __init__(self, file, *words, before=(), limit=LIMIT, seconds=20):
        super().__init__(file, *words, before=[*limited(limit, seconds), *before])

    def ends(self, what):
        super().ends(what, SLACK)


def serving(file, *words, **more):
    """A server on this file, with little time for its peers."""
    return Limited(file, "--timeout", "5", *words, **more)


def tables(file):
    """The rows of all tables, as the system's sqlite reads them."""
    with database_of(file) as database:
        database.text_factory = bytes
        return {name: sorted(database.execute(f"SELECT * FROM {name}").fetchall(), key=repr)
                for name in ("jobs", "grants", "holds", "down", "replies", "meta", "floors", "times", "calls")}


def expect_rows(got, wanted, what):
    """These tables have these rows."""
    for name, rows in wanted.items():
        expect(got[name] == rows, f"the rows of {name} {what}: {got[name]!r} in place of {rows!r}")


def copied(file):
    """A copy of a file and of what stands beside it, in a folder of its own."""
    return shared.copied(file, folder())


# ---- replies

REFUSALS = {int(number): (word, int(status)) for number, word, status in
            re.findall(r"^\|(\d+)\|`(\S+)`\|(\d{3})\|", (TOP / "docs/PROTOCOL.md").read_text(), re.M)}
PHRASES = {200: b"OK", 201: b"Created", 400: b"Bad Request", 403: b"Forbidden", 404: b"Not Found", 409: b"Conflict", 410: b"Gone",
           413: b"Payload Too Large", 503: b"Service Unavailable", 507: b"Insufficient Storage"}
HELD = (r" grant [1-9]\d{0,8} job [1-9]\d{0,5} number \+?[0-9*#]{1,32} pages [1-9]\d{0,3}-\d{1,4} "
        r"call (none|connected|busy|no-answer|no-carrier|other) confirmed \d{1,4}")
MODEMS = re.compile(rf"([A-Za-z0-9._-]{{1,32}}:((up|down)({HELD})?|gone{HELD})\n)*", re.ASCII)
TIMES = re.compile(r"submitted:\d{1,10}\nended:\d{1,10}\n", re.ASCII)
ACCEPTED = ({"job"}, {"job", "state"}, {"grant"}, {"from", "grant", "job", "number", "to"}, {"stop"}, {"npages",
    "stop"}, {"down"}, {"floor"}, {"purged"})
Reply = collections.namedtuple("Reply", "status number body last")


def replies(data):
    """The replies that these bytes are, each well formed."""
    found, at = [], 0
    while at < len(data):
        head = HEAD.match(data, at)
        expect(head, f"no head of a reply: {data[at:at + 200]!r}")
        expect(not found or not found[-1].last, "a reply behind the last one")
        status, end = int(head[1]), head.end()
        expect_same(head[2], PHRASES.get(status), "a phrase")
        body = data[end:end + int(head[4])]
        if status == 404 and (body[:9] == b"HTTP/1.1 " or not body):
            body, number = b"", 3  # the reply to HEAD
        else:
            expect(len(body) == int(head[4]), f"a reply is cut: {data[at:at + 200]!r}")
            number = number_in(status, head[3], body)
        found.append(Reply(status, number, body, bool(head[5])))
        at = end + len(body)
    return found


def number_in(status, kind, body):
    """The number of a refusal, or 0; the body is one that the protocol has."""
    text = body.decode()
    if kind == b"text/plain":
        is_jobs = text.endswith("\n") and text.startswith(("jobid:", "   JID "))
        expect(status == 200 and (is_jobs or MODEMS.fullmatch(text) or TIMES.fullmatch(text)), f"a text: {body[:200]!r}")
        return 0
    said = json.loads(text)
    expect_same(json.dumps(said, sort_keys=True, separators=(",", ":"), ensure_ascii=False), text, "a body")
    if status < 400:
        expect(set(said) in ACCEPTED, f"a body: {text}")
        return 0
    expect_same((said["word"], status), REFUSALS.get(said["no"]), "a refusal")
    return said["no"]


def ended(ran, most=SECOND):
    """The replies of a run that ended as the protocol says."""
    found = replies(ran.out)
    numbers = [reply.number for reply in found]
    expect(ran.seconds <= most, f"it takes {ran.seconds:.2f} s")
    expect(27 not in numbers, "a message is unavailable, and there is memory")
    if ran.status == 0:
        expect_same(ran.err, b"", "what it says")
        expect(not {1, 2} & set(numbers), "it ends with 0 behind a broken message")
    else:
        expect(ran.status == 1, f"it ends with {ran.status}, and says {ran.err[:200]!r}")
        if ran.err == b"faxqd: ended bound\n":
            expect(len(found) == 1000, f"it ends bound behind {len(found)} messages")
        else:
            expect_same(ran.err, b"faxqd: ended bad\n", "what it says")
            expect(numbers[-1] in (1, 2) and found[-1].last, "it ends bad behind another reply")
    expect(not {1, 2} & set(numbers[:-1]), "a broken message isn't the last")
    return found
