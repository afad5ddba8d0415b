"""A command with a journal is killed at each call of the disk that it makes, before the call and in the midst of it, and the
files of its journal are laid out as a power loss may leave them. Each time the system's sqlite finds the journal sound, and in it
the request that the queue has had. Then the client goes on as faxqd(8) says, over a queue that has had the request or not: the
request has one number and one effect."""
import concurrent.futures
import sqlite3
import threading
import typing

from .disk import Disk, NAME, PAGE, STOPPED, every, lay, modes_of_run, rows, taken
from .journals import NOBODY, check, grant, printed
from .proxy import Proxy, number_of, path_of
from .shared import (CLOSE, MANY, NO_WAITS, Peer, SETUP, Server, Wrong, answer_to, attempt, expect, expect_same, fault,
                     get, post, preload, rows_of, run, say, told)

JOURNAL = "journal"
ORDER = "number:5550100\ntotpages:2\n"
SUBMITTED = post("/jobs", 1, ORDER, "other", CLOSE)
NEXT = "--modem", "ttyS0", "next"
CALL, CONFIRMED, END = ("call", "connected"), ("page",), ("end", "done")
ONE, TWO = (("--key", key, "/jobs", "order") for key in ("one", "two"))
PATIENCE = 60  # seconds


class Swept(typing.NamedTuple):
    """A command that is swept: what comes before it, its words, what it prints, what `next` prints before it is answered and
    after, and the state and the confirmed pages of each of the queue's jobs in the end."""
    name: str
    before: list
    words: tuple
    prints: tuple
    shown: list
    jobs: list


# A fax of two pages, and two submissions. What is expected is what faxqd(8) and docs/PROTOCOL.md say; state 5 is ready, 6
# active, and 7 done.
GO, ENDED = printed("go"), printed("job 1 state 7")
HELD = [grant("1-2"), grant("1-2", "connected"), grant("2-2", "connected"), grant("3-2", "connected"), printed("none")]
COMMANDS = [
    Swept("next, without a journal", [SUBMITTED], NEXT, HELD[0], HELD[:1], [("6", "0")]),
    Swept("next", [NEXT, SUBMITTED], NEXT, HELD[0], HELD[:1], [("6", "0")]),
    Swept("call", [SUBMITTED, NEXT], CALL, GO, HELD[:2], [("6", "0")]),
    Swept("page", [SUBMITTED, NEXT, CALL], CONFIRMED, GO, HELD[1:3], [("6", "1")]),
    Swept("end", [SUBMITTED, NEXT, CALL, CONFIRMED, CONFIRMED], END, ENDED, HELD[3:], [("7", "2")]),
    Swept("post, without a journal", [], ONE, (0, b'{"job":1}', b""), [], [("5", "0")]),
    Swept("post, another key", [ONE], TWO, (0, b'{"job":2}', b""), [], [("5", "0"), ("5", "0")]),
]


class State(typing.NamedTuple):
    """What a queue has: its files, its last reply, the state and the confirmed pages of each job, and who has which numbers."""
    files: dict
    reply: bytes
    jobs: list
    numbers: set


class Queue:
    """A queue by the messages that it has had. Each further one is taken by a server of its own, on the files that those before
    have left; the same messages once more have the same end, and need none."""

    def __init__(self, folder):
        self.folder, self.had, self.lock = folder, (), threading.Lock()
        self.states = {(): State({}, b"", [], set())}
        (folder / "setup").write_text(SETUP + NO_WAITS)

    @property
    def state(self):
        return self.states[self.had]

    def takes(self, data, _=None):
        """The reply to a message. Nothing, if something is wrong, which is a fault. A message that it has had changes nothing: it
        comes again if the reply is late."""
        with self.lock:
            had = self.had[:self.had.index(data) + 1] if data in self.had else (*self.had, data)
            try:
                if had not in self.states:
                    self.states[had] = self.after(data)
            except (Wrong, OSError) as wrong:
                fault(f"a queue that has had {had}: {told(wrong)}")
                return b""
            self.had = max(had, self.had, key=len)
            return self.states[had].reply

    def after(self, data):
        """The state after a message."""
        file = lay(self.folder / "queue", self.state.files) / NAME
        with Server(file, "--setup", self.folder / "setup", *MANY, before=clock(1000)) as server:
            with Peer(server.port) as peer:
                peer.say(data)
                reply = peer.reply()
            jobs = jobs_of(server)
            server.kill()
        files = taken(file.parent)
        expect_same(run("check", "--db", file)[:2], (0, b"faxqd: sound\n"), "`check`")
        return State(files, reply, jobs, set(rows_of(file, "SELECT client, number FROM replies")))


def jobs_of(server):
    """The state and the confirmed pages of each job."""
    found = []
    while (answer := answer_to(server.port, get(f"/jobs/{len(found) + 1}", CLOSE)))[0] == 200:
        lines = dict(line.split(":", 1) for line in answer[1].decode().splitlines()[:17] if ":" in line)
        found.append((lines["state"], lines["npages"]))
    expect_same(answer[0], 404, "the status of a job that isn't there")
    return found


def clock(moment, *more, **settings):
    """The words before a program for which the clock stands still."""
    return preload(["clocks", *more], FIXED_MOMENT=moment, **settings)


class Sweep:
    """A command, killed at each call of the disk."""

    def __init__(self, folder, swept):
        folder.mkdir()
        self.folder, self.swept, self.queue, self.journal = folder, swept, Queue(folder), folder / "journal"
        self.proxy = Proxy(None, self.queue.takes)
        self.client = "desk" if swept.words[0] == "--key" else "ttyS0"
        self.calls, self.left, self.tried, self.shown = 0, 0, set(), set()
        (folder / "order").write_text(ORDER)
        lay(self.journal, {})
        for words in swept.before:
            if words == SUBMITTED:
                self.queue.takes(words)
            else:
                expect_same(self.does(words)[0], 0, f"the status of {words}")
        self.files, self.before = taken(self.journal), self.queue.had
        expect_same(self.does(swept.words), swept.prints, "what it prints if nothing disturbs it")
        self.behind = self.queue.had
        *_, self.request = self.behind

    def does(self, words, before=None, to=None, wait=PATIENCE):
        """How a command ends, and what it prints on both streams."""
        words = [self.folder / word if word == "order" else word for word in words]
        kind = ["post", "--client", "desk"] if self.client == "desk" else ["worker"]
        start = *kind, "--to", to or f"127.0.0.1:{self.proxy.port}", "--journal", self.journal / JOURNAL, "--wait", str(wait)
        return run(*start, *words, before=before or clock(1000), patience=2 * PATIENCE)[:3]

    def run(self, modes, syncs):
        """Kills it at each call. What is wrong with the files that are left is a fault, and the others are tried."""
        try:
            while self.disturb(self.calls + 1, modes, syncs):
                self.calls += 1
            expect(self.calls > 0, "no call of the disk is seen")
        except (Wrong, OSError, sqlite3.Error) as wrong:
            fault(f"{self.swept.name}, call {self.calls + 1}, {told(wrong)}")

    def disturb(self, number, modes, syncs):
        """Kills it at this call, and tries all that may be left. Returns whether there was such a call."""
        ended, calls = self.killed_at(number)
        expect(ended in ((STOPPED, b"", b""), self.swept.prints), f"it ends with {ended}")
        was_killed, had = ended[0] == STOPPED, self.queue.had != self.before
        expect(self.queue.had == self.behind or was_killed and not had, f"it asks {self.queue.had[len(self.before):]}")
        disk = Disk(self.files, calls, syncs)
        expect(was_killed == (disk.stopped is not None), "the list of its calls doesn't end with the call")
        found = dict(left.by(every) for left in disk.files.values())
        expect(found == taken(self.journal), "the files aren't what its calls make of them, so there are other calls")
        for how, files in disk.layouts(modes, JOURNAL):
            self.left += 1
            mark = had, *sorted(files.items())
            if mark not in self.tried:
                self.tried.add(mark)
                with attempt(f"{self.swept.name}, call {number}, {how}{', after the request' if had else ''}"):
                    self.go_on(files, had)
        return was_killed

    def killed_at(self, number):
        """How it ends if it is killed at this call, and the list of its calls."""
        lay(self.journal, self.files)
        calls, armed = self.folder / "calls", self.folder / "armed"
        calls.write_bytes(b"")
        armed.touch()
        self.queue.had = self.before
        before = clock(1000, "stop_disk", DISK_FOLDER=self.journal, DISK_JOURNAL=calls, DISK_ARMED=armed, DISK_STOP=number)
        return self.does(self.swept.words, before), calls.read_bytes()

    def go_on(self, files, had):
        """The client goes on with these files, a second later."""
        last = last_number(lay(self.folder / "look", files))
        is_there = last == int(number_of(self.request))
        expect(is_there or not had, f"the queue has had the request, and the last number of the journal is {last}")
        lay(self.journal, files)
        self.queue.had = self.behind if had else self.before
        self.proxy.seen.clear()
        if self.client == "desk":
            expect_same(self.does(self.swept.words, clock(1001)), self.swept.prints, "the command, once more")
        else:
            self.drives(had)
        asked = [*([self.request] if had else []), *self.proxy.seen]
        same = {data for data in asked if path_of(data) == path_of(self.request)}
        expect(len(same) == 1, f"it asks the same by {same}")
        expect_same(self.queue.state.jobs, self.swept.jobs, "the state and the confirmed pages of each job")
        numbers = self.queue.states[self.before].numbers | {(self.client, int(number_of(data))) for data in asked}
        expect_same(self.queue.state.numbers, numbers, "the numbers of which the queue has replies")
        if (content := repr(rows(self.journal, JOURNAL))) not in self.shown:
            self.shown.add(content)
            self.shows()

    def drives(self, had):
        """A driver asks `next`, and does the command once more only if that shows that it isn't reported."""
        *before, behind = self.swept.shown
        shown = self.does(NEXT, clock(1001))
        if shown in before and not had:
            expect_same(self.does(self.swept.words, clock(1001)), self.swept.prints, "the command, once more")
        else:
            expect_same(shown, behind, "`next`")

    def shows(self):
        """The journal has the grant, or the answer under its key, and nothing that isn't answered."""
        if self.client == "desk":
            expect_same(self.does(self.swept.words, to=NOBODY, wait=0), self.swept.prints, "the same key without a queue")
        else:
            expect_same(self.does(["show"]), self.swept.shown[-1], "`show`")


def last_number(folder):
    """The last number that a journal has, if it has one, by the system's sqlite. What is left of a first command may be no
    database yet, of one page at most."""
    try:
        found = rows(folder, JOURNAL).get("journal", [])
    except sqlite3.DatabaseError:
        if (folder / JOURNAL).stat().st_size > PAGE:
            raise
        return None
    return found[0][2] if found else None


@check
def stops(folder):
    """A command that is killed at any call of the disk leaves its journal before or after a step, whatever a power loss leaves of
    the files, and with the request if the queue has had it. The client goes on, and the request has one number and one effect."""
    (modes, syncs), counts = modes_of_run(), []

    def swept(place, command):
        with attempt(command.name):
            sweep = Sweep(folder / str(place), command)
            sweep.run(modes, syncs)
            counts.append((1, sweep.calls, sweep.left, len(sweep.tried)))

    with concurrent.futures.ThreadPoolExecutor() as pool:
        list(pool.map(swept, range(len(COMMANDS)), COMMANDS))
    count, calls, left, different = [sum(column) for column in zip(*counts)]
    say(f"{count} commands, killed {calls} times, files left {left} times in {len(modes)} modes, {different} of them different")
