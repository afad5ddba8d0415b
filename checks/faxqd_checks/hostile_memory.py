"""Memory that gives out: each request for memory is refused in turn, one in each run."""
import collections
import contextlib
import functools
import re

from .hostile_shared import check, chosen, copied, expect_rows, folder, serving, tables, try_all
from .shared import (CONVERSATIONS, NotServing, Peer, TOP, UNAVAILABLE, expect, expect_same, lock, preload, replay,
                     reply_bytes, said, words_of)

# The messages of `retry-goes-on` begin with those of `submit`, `first-grant`, `page-before-call` and
# `outcome-before-page`, so these aren't tried by themselves.
CONVERSED = ("retry-goes-on", "time-of-day", "destination-rules", "alter-and-suspend", "alter-to-the-limit",
             "repeat-of-a-submission", "modem-down", "listing", "modems", "purge-at-a-kill-time", "purge-and-numbers")
NO_MEMORY = (1, b"", b"faxqd: no memory\n")
NOT_STARTED = (b"faxqd: no memory\n", b"faxqd: database\n", b"faxqd: cannot listen\n")
FILES = (  # what is read at a start: some at fault, behind lines that want memory
    ("setup", (TOP / "examples/office.setup").read_text()),
    ("controls", (TOP / "examples/office.controls").read_text()),
    ("setup", "Modem: ttyS0\nModemClass: fast:^ttyS0$\nTimeZone: EST5EDT,M3.2.0\n"),
    ("setup", 'Modem: ttyS0\nModemClass: "fast:("\n'),
    ("setup", "Modem: ttyS0\nModem: a b\n"),
    ("controls", '^5550\n  RejectNotice = "No longer served"\n  TimeOfDay = "Xx"\n'),
    ("controls", "^5550\n  MaxSendPages = 2\n(\n"),
    ("controls", "  MaxSendPages = 2\n"))
lost_places = collections.defaultdict(set)  # of each conversation, the messages that were answered 503
not_read = collections.Counter()  # of each file, the starts that ended for want of memory


def refusing(number, **settings):
    return preload(["refuse_memory", "clocks"], REFUSE_REQUEST=number, **settings)


class Conversation:
    """Messages with their moments, and what the program answers with ample memory."""

    def __init__(self, name, times=1):
        data = (CONVERSATIONS / f"{name}.in").read_bytes()
        self.name, self.words = f"{name}{', each message twice' if times > 1 else ''}", words_of(name)
        self.messages = [message for message in messages_of(data) for _ in range(times)]
        wanted = (CONVERSATIONS / f"{name}.out").read_bytes()
        self.replies = [reply for reply in reply_bytes(wanted) for _ in range(times)]

    def stream(self, places):
        return b"".join(self.messages[place][1] for place in places)

    def without(self, lost):
        return [place for place in range(len(self.messages)) if place not in lost]

    @functools.cache
    def replayed(self, lost=()):
        """The replies of `replay` to the messages without these."""
        ran = replay(self.stream(self.without(lost)), *self.words)
        expect_same((ran.status, ran.err), (0, b""), f"{self.name} with ample memory ends")
        got = reply_bytes(ran.out)
        expect(UNAVAILABLE not in got, f"{self.name} is unavailable, and there is memory")
        return got

    @functools.cache
    def served(self, places):
        """The replies of `serve` to the messages at these places, and the rows that its file then has."""
        file = new_file()
        got, _ = self.serve(file, 0, places)
        expect(len(got) == len(places) and UNAVAILABLE not in got, f"{self.name} with ample memory: {got!r}")
        return got, tables(file)

    def serve(self, file, number, places, connections=2, **settings):
        """The replies of a server, one of whose requests for memory is refused, to the messages at these places; and
        the messages that are answered 503, with the file as it then is. Where its first connection ends without a
        reply, all messages are sent on the second."""
        clock = file.with_name("moment")
        clock.write_text(str(self.messages[0][0]))
        before = refusing(number, MOMENT_FILE=clock, **settings)
        with serving(file, "--connections", str(connections), *self.words, before=before) as served:
            got, lost = self.said(served.port, file, places)
            if connections > 1:
                again, more = self.said(served.port, file, () if got else places)
                got, lost = got + again, lost + more
            served.ends(f"behind {self.name}")
        return got, lost

    def said(self, at, file, places):
        got, lost = [], []
        with contextlib.suppress(ConnectionError), Peer(at) as peer:
            for place in places:
                moment, message = self.messages[place]
                file.with_name("moment").write_text(str(moment))
                peer.say(message)
                got.append(peer.reply())
                if got[-1] == UNAVAILABLE:
                    lost.append((place, copied(file)))
        return got, lost


def messages_of(data):
    """The messages that these bytes are, each with its moment."""
    found, moment = [], 0
    while data:
        head = data.partition(b"\r\n\r\n")[0]
        length, said = (re.search(rb"\r\n%b: (\d+)" % name, head) for name in (b"Content-Length", b"Fax-Moment"))
        size, moment = len(head) + 4 + int(length[1] if length else 0), int(said[1]) if said else moment
        found.append((moment, data[:size]))
        data = data[size:]
    return found


def new_file():
    file = folder() / "queue.db"
    file.touch()
    return file


@check
def memory():
    """Each request for memory is refused in turn, in whole conversations through `replay` and through `serve` on a file, and
    while files are read: one message at most is lost, and is answered as ever when it comes again."""
    for front in "submit", "first-grant", "page-before-call", "outcome-before-page":
        longer = (CONVERSATIONS / "retry-goes-on.in").read_bytes()
        expect(longer.startswith((CONVERSATIONS / f"{front}.in").read_bytes()), f"{front} isn't tried")
    begun = set()  # the words whose start was tried
    for name in CONVERSED:
        once, twice = Conversation(name), Conversation(name, 2)
        is_new = once.words not in begun
        begun.add(once.words)
        tasks = [(f"{talk.name}, request {number} refused", function, talk, number)
                 for talk, function in ((once, refused_replay), (twice, refused_repeat))
                 for number in chosen(requests(talk, is_new and talk is once), 40)]
        tasks += [(f"{name} served, request {number} refused", refused_serve, once, number)
                  for number in chosen(served_requests(once, is_new), 32)]
        try_all(tasks)
        wanted = set(range(len(once.messages))) if said.all else set()
        expect(lost_places[once.name] and lost_places[once.name] >= wanted, f"no run loses each message of {name}")
    try_all([(f"{option} {text[-20:]!r}, request {number} refused", refused_reading, file, ample, number)
                        for option, text in FILES for file, ample, numbers in [read_ample(option, text)]
                        for number in chosen(numbers, 60)])
    expect(len(not_read) == len(FILES) and all(not_read.values()), "no start with a file ends for want of memory")


def counted(data, words):
    """How many requests for memory there are in a run of `replay` with ample memory, and how it ends."""
    count = folder() / "count"
    ran = replay(data, *words, before=preload(["refuse_memory"], COUNT_REQUESTS=count))
    total = int(count.read_text())
    expect(total > 0, "no request for memory is counted")
    return total, ran


def requests(talk, has_start):
    """The requests for memory of a conversation, with those of the start or without."""
    total, ran = counted(talk.stream(range(len(talk.messages))), talk.words)
    expect_same(reply_bytes(ran.out), talk.replies, f"{talk.name} with ample memory")
    return range(1 if has_start else counted(b"", talk.words)[0] + 1, total + 1)


def served_requests(talk, has_start):
    """The same of a server."""
    counts = []
    for places, connections in ((), 1), (range(len(talk.messages)), 2):
        count = folder() / "count"
        got, _ = talk.serve(new_file(), 0, places, connections, COUNT_REQUESTS=count)
        expect_same(got, talk.replies if places else [], f"{talk.name} served with ample memory")
        counts.append(int(count.read_text()))
    return range(1 if has_start else counts[0] + 1, counts[1] + 1)


def one_lost(talk, got):
    """The place of the message that was answered 503, if there is one."""
    lost = tuple(place for place, answer in enumerate(got) if answer == UNAVAILABLE)
    expect(len(lost) <= 1, f"{len(lost)} messages are answered 503")
    with lock:
        lost_places[talk.name].update(lost)
    return lost


def refused_replay(talk, number):
    """A run ends for want of memory and writes nothing, or each reply is 503 or that of the run without the message
    that is answered 503."""
    ran = replay(talk.stream(range(len(talk.messages))), *talk.words, before=refusing(number))
    if (ran.status, ran.out, ran.err) == NO_MEMORY:
        return
    expect_same((ran.status, ran.err), (0, b""), "it ends")
    got = reply_bytes(ran.out)
    lost = one_lost(talk, got)
    expect(len(got) == len(talk.messages), f"{len(got)} replies")
    expect_same([got[place] for place in talk.without(lost)], talk.replayed(lost), f"without the messages {lost}")


def refused_repeat(talk, number):
    """Where each message comes twice, a message that is lost is answered as ever when it comes again, and so are all
    others."""
    ran = replay(talk.stream(range(len(talk.messages))), *talk.words, before=refusing(number))
    if (ran.status, ran.out, ran.err) == NO_MEMORY:
        return
    expect_same((ran.status, ran.err), (0, b""), "it ends")
    got = reply_bytes(ran.out)
    others = [(answer, wanted) for answer, wanted in zip(got, talk.replies) if answer not in (wanted, UNAVAILABLE)]
    expect(len(got) == len(talk.messages) and not others, f"{len(got)} replies, and not as ever: {others[:1]}")
    one_lost(talk, got)


def refused_serve(talk, number):
    """A server that doesn't start says so, and the next one serves the file. Else each reply is 503 or that of the
    server that didn't get the message that is answered 503, and so are the rows at the end. Behind the 503 the rows are
    those before it, and there the same message is answered as ever."""
    file, every = new_file(), tuple(range(len(talk.messages)))
    try:
        got, lost = talk.serve(file, number, every)
    except NotServing as fault:
        expect(fault.status == 1 and fault.said == b"" and fault.err in NOT_STARTED, f"{fault}, and {fault.status}")
        got, lost = talk.serve(file, 0, every)
    expect(len(got) == len(every), f"{len(got)} replies")
    left = tuple(talk.without(one_lost(talk, got)))
    wanted, rows = talk.served(left)
    expect_same([got[place] for place in left], wanted, "the replies")
    expect_rows(tables(file), rows, f"without the messages {lost!r}")
    for place, kept in lost:
        expect_rows(tables(copied(kept)), talk.served(every[:place])[1], f"behind 503 for message {place}")
        again, _ = talk.serve(kept, 0, (place,))
        expect_same(again, [talk.replies[place]], f"message {place} sent again")


def read_ample(option, text):
    """A file, how a start with it ends with ample memory, and the requests for memory of this start."""
    file = folder() / "file"
    file.write_text(text)
    total, ran = counted(b"", (f"--{option}", file))
    expect(ran.status == 0 or ran.err.startswith(f"faxqd: {option} line".encode()), f"{option}: it says {ran.err!r}")
    return (option, file), (ran.status, ran.out, ran.err), range(1, total + 1)


def refused_reading(file, ample, number):
    """A start ends for want of memory, or as with ample memory: no fault of the file is told that it hasn't."""
    option, path = file
    ran = replay(b"", f"--{option}", path, before=refusing(number))
    expect((ran.status, ran.out, ran.err) in (ample, NO_MEMORY), f"it ends with {ran.status}, and says {ran.err!r}")
    with lock:
        not_read[path] += (ran.status, ran.out, ran.err) == NO_MEMORY
