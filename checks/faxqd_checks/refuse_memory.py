"""Streams of messages, with each of the program's requests for memory refused in turn, one a run. A run has to end by itself.
Either it reports that memory ran out and has written nothing; or it answers as with ample memory; or it answers one message
by 503, which counts as lost: the other replies are those to the stream without that message. Each message has to be lost in
some run."""
from .runner import group
from .shared import CHECKS, UNAVAILABLE, attempt, expect, fault, get, loading, post, replay, run, say

check = group("refuse-memory", "Refuses each request for memory in turn, in streams of messages.", "computing")
SETUP = "--setup", CHECKS / "small.setup"
CONTROLS = "--controls", CHECKS / "small.controls"
NO_MEMORY = 1, b"", b"faxqd: no memory\n"
FAX = "number:+1 415 555-0100", "totpages:3"

# Client, number, moment, path and lines; or moment and path.
SUBMISSIONS = [
    ("desk", 1, 1000, "/jobs", *FAX),
    ("desk", 1, 2000, "/jobs", *FAX),
    ("lab", 1, 1500, "/jobs", *FAX),
    (1500, "/jobs/2"),
]
RULES = [
    ("desk", 1, 0, "/jobs", "number:5559000", "totpages:1"),
    ("desk", 1, 0, "/jobs", "number:5558000", "totpages:3"),
    ("desk", 1, 0, "/jobs", "number:5558000", "totpages:2"),
    ("desk", 2, 0, "/jobs", "number:5550111", "totpages:1"),
    (46799, "/jobs/2"),
    (46800, "/jobs/2"),
]
KILL_TIME = [
    ("desk", 1, 1000, "/jobs", "number:5550111", "totpages:1", "killtime:1500"),
    ("desk", 2, 1500, "/jobs/1/kill"),
    ("desk", 3, 1500, "/jobs", "number:5550112", "totpages:1"),
    (1400, "/jobs/1"),
]
CLIENT_REQUESTS = [
    ("desk", 1, 1000, "/jobs", *FAX),
    ("desk", 2, 1001, "/jobs/1/alter", "priority:10"),
    ("desk", 3, 1001, "/jobs/1/suspend"),
    ("desk", 2, 1001, "/jobs/1/alter", "priority:10"),
    ("desk", 4, 1002, "/jobs/1/resume"),
    ("desk", 5, 1003, "/jobs/9/kill"),
    ("desk", 6, 1003, "/jobs/1/kill"),
    (1003, "/jobs/1"),
]
ALTERATIONS = [
    ("desk", 1, 1000, "/jobs", "number:5550111", "totpages:1"),
    ("w0", 1, 1000, "/modems/ttyS0/next"),
    ("w0", 2, 1000, "/grants/1/call", '{"result":"busy"}'),
    ("w0", 3, 1000, "/grants/1/outcome", '{"dialed":true,"outcome":"retry","pages":0}'),
    ("desk", 2, 1000, "/jobs/1/suspend"),
    ("desk", 3, 1000, "/jobs/1/alter", "maxdials:1"),
    ("desk", 3, 1000, "/jobs/1/alter", "maxdials:2", "modem:fast"),
    (1000, "/jobs/1"),
]
CHOICE = [
    ("desk", 1, 1000, "/jobs", "number:5550113", "totpages:1", "priority:100"),
    ("desk", 2, 1000, "/jobs", "number:5550113", "totpages:1", "priority:126"),
    ("desk", 3, 1000, "/jobs", "number:5550111", "totpages:1"),
    ("desk", 4, 1000, "/jobs", "number:5550112", "totpages:1", "tts:500"),
    ("w1", 1, 1000, "/modems/ttyS1/next"),
    ("w0", 1, 1000, "/modems/ttyS0/next"),
    (1000, "/jobs/2"),
    (1000, "/jobs/newest"),
    (1000, "/modems"),
]
DROPPED = '{"dialed":true,"outcome":"retry","pages":2,"reason":"line dropped"}'
REPORTS = [
    ("desk", 1, 1000, "/jobs", *FAX),
    ("w0", 1, 1000, "/modems/ttyS0/next"),
    ("w0", 2, 1010, "/grants/1/page", '{"page":1}'),
    ("w0", 3, 1011, "/grants/1/call", '{"result":"connected"}'),
    ("w0", 2, 1012, "/grants/1/page", '{"page":1}'),
    ("w0", 5, 1020, "/grants/1/outcome", DROPPED),
    ("w0", 4, 1021, "/grants/1/page", '{"page":2}'),
    ("w0", 5, 1022, "/grants/1/outcome", DROPPED),
    (1022, "/jobs/1"),
]
TRIES = [
    ("desk", 1, 1000, "/jobs", "number:5550111", "totpages:2", "maxtries:2"),
    ("w0", 1, 1000, "/modems/ttyS0/next"),
    ("w0", 2, 1000, "/grants/1/call", '{"result":"connected"}'),
    ("w0", 3, 1000, "/grants/1/outcome", '{"dialed":true,"outcome":"retry","pages":0}'),
    ("w0", 4, 1060, "/modems/ttyS0/next"),
    ("w0", 5, 1060, "/grants/2/call", '{"result":"connected"}'),
    ("w0", 6, 1060, "/grants/2/outcome", '{"dialed":true,"outcome":"retry","pages":0}'),
    (1060, "/jobs/1"),
]
OLD = ("jobid:77", "number:555 0111", "tts:500", "priority:100", "npages:1", "totpages:3", "ntries:1", "tottries:1",
       "totdials:2", "state:6", "status:No carrier", "sender:A. Clerk")
IMPORTS = [
    ("old", 1, 1000, "/imports", *OLD),
    (1000, "/jobs/1"),
    ("old", 1, 1000, "/imports", *OLD),
    ("old", 2, 1000, "/imports", "number:5550112", "totpages:1", "state:9"),
    ("old", 2, 1000, "/imports", "number:5559000", "totpages:1", "state:8"),
    ("old", 3, 1000, "/imports", "number:5559000", "totpages:1", "state:2"),
    ("w0", 1, 1000, "/modems/ttyS0/next"),
    ("w0", 2, 1000, "/grants/1/call", '{"result":"busy"}'),
    (1000, "/jobs/1"),
]
FLOORS = [
    ("desk", 1, 1000, "/jobs", "number:5550111", "totpages:1"),
    ("desk", 5, 1000, "/numbers/floor", '{"upto":3}'),
    ("desk", 1, 1000, "/jobs", "number:5550111", "totpages:1"),
    ("desk", 6, 1000, "/numbers/floor", '{"upto":6}'),
    ("desk", 6, 1000, "/numbers/floor", '{"upto":2}'),
    (1000, "/jobs/1"),
]
PURGES = [
    ("desk", 1, 1000, "/jobs", "number:5550111", "totpages:1", "killtime:1500"),
    ("old", 1, 1000, "/imports", *OLD[:-2], "state:8"),
    ("w0", 1, 1000, "/modems/ttyS0/next"),
    ("w0", 2, 1000, "/grants/1/call", '{"result":"busy"}'),
    ("w0", 3, 1000, "/grants/1/outcome", '{"dialed":true,"outcome":"fail","pages":0}'),
    ("desk", 2, 1000, "/jobs", "number:5550113", "totpages:1", "killtime:1500"),
    ("adm", 1, 1500, "/jobs/purge", '{"before":1501}'),
    ("adm", 1, 1500, "/jobs/purge", '{"before":1500}'),
    ("adm", 2, 1500, "/jobs/purge", '{"before":1500}'),
    ("adm", 1, 1500, "/jobs/purge", '{"before":1500}'),
    (1600, "/jobs/1"),
    (1600, "/jobs/3/times"),
]


def message(told):
    if len(told) == 2:
        return get(told[1], f"Fax-Moment: {told[0]}\r\n")
    client, number, moment, path, *lines = told
    return post(path, number, "\n".join(lines), client, f"Fax-Moment: {moment}\r\n")


class Sweep:
    """A stream and its words, and what is answered with ample memory."""

    def __init__(self, folder, stream, *words):
        self.messages, self.words, self.count = [message(told) for told in stream], words, folder / "count"
        self.ample = self.answer(self.messages)
        self.lost = [self.without(place) for place in range(len(self.messages))]

    def answer(self, messages):
        return run("replay", *self.words, input=b"".join(messages), patience=60)[1]

    def without(self, place):
        """The replies without a message, with 503 in its place. Those to the messages before it are those to these alone."""
        before = self.answer(self.messages[:place])
        others = self.answer(self.messages[:place] + self.messages[place + 1:])
        return before + UNAVAILABLE + others[len(before):]

    def refused(self, number, messages):
        """How a run ends whose request of this number is refused."""
        loaded = loading(["refuse_memory"], REFUSE_REQUEST=number, COUNT_REQUESTS=self.count)
        return replay(b"".join(messages), *self.words, limit=None, environment=loaded)[:3]

    def requests(self, messages):
        """How many requests for memory there are, none refused."""
        expect(self.refused(0, messages)[1] == (self.ample if messages else b""), "it answers otherwise than with ample memory")
        return int(self.count.read_text())

    def run(self, has_start):
        """Refuses each request, or each but those that a run without messages makes too. Requests for memory come in the order
        of the messages, so a run loses the message that the last such run lost, or the one behind it."""
        first = 1 if has_start else self.requests([]) + 1
        total, last, ended = self.requests(self.messages), -1, 0
        for number in range(first, total + 1):
            with attempt(f"request {number} refused"):
                ran = self.refused(number, self.messages)
                if ran == NO_MEMORY:
                    ended += 1
                    continue
                status, out, err = ran
                expect((status, err) == (0, b""), f"it ends with {status}, and says {err!r} behind {out!r}")
                if out != self.ample and not (last >= 0 and out == self.lost[last]):
                    expect(last + 1 < len(self.lost) and out == self.lost[last + 1], f"it answers {out!r}")
                    last += 1
        if last + 1 < len(self.messages):
            fault(f"no run has lost message {last + 2}")
        if has_start and not ended:
            fault("no run ended for want of memory")
        say(f"requests {first} to {total}, {ended} runs without an answer")


@check
def without_files(folder):
    """A second submission is refused, or taken where the first is lost, and the time to send of a third tells the clock."""
    Sweep(folder, SUBMISSIONS).run(has_start=True)


@check
def with_files(folder):
    """With a setup and controls, which are read before, a second submission is refused, or taken where the first is lost."""
    Sweep(folder, SUBMISSIONS, *SETUP, *CONTROLS).run(has_start=True)


@check
def rules(folder):
    """The rules of numbers hold, and a job waits until Thursday, 08:00 in the zone of the setup."""
    Sweep(folder, RULES, *SETUP, *CONTROLS).run(has_start=False)


@check
def kill_time(folder):
    """A kill is refused once the kill time has come, and the next submission stores that the first job failed."""
    Sweep(folder, KILL_TIME).run(has_start=False)


@check
def client_requests(folder):
    """A job is suspended, altered, resumed and killed, or its request is lost."""
    Sweep(folder, CLIENT_REQUESTS).run(has_start=False)


@check
def alterations(folder):
    """A job is altered within its limits and not beyond, or its request is lost."""
    Sweep(folder, ALTERATIONS, *SETUP).run(has_start=False)


@check
def choice(folder):
    """Two modems get the jobs that go first, or their question is lost."""
    Sweep(folder, CHOICE, *SETUP).run(has_start=False)


@check
def reports(folder):
    """Reports that come out of order count once, or are lost."""
    Sweep(folder, REPORTS, *SETUP).run(has_start=False)


@check
def tries(folder):
    """A job with too many tries fails, or its report is lost."""
    Sweep(folder, TRIES, *SETUP).run(has_start=False)


@check
def imports(folder):
    """An import and its repeat are one job, which begins with its second page, or its request is lost."""
    Sweep(folder, IMPORTS, *SETUP, *CONTROLS).run(has_start=False)


@check
def floors(folder):
    """A reply that was given up isn't given again, and a floor that is too high or lower is refused, or its request is lost."""
    Sweep(folder, FLOORS, *SETUP).run(has_start=False)


@check
def purges(folder):
    """Jobs that are over leave with their grant, one whose kill time has come stays, and a later purge finds what the one before
    has left; or a request is lost."""
    Sweep(folder, PURGES, *SETUP).run(has_start=False)
