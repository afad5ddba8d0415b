"""Messages, peers and connections that nobody should have. What the groups `long-inputs` and `server` try isn't tried here. The
limits of time and memory are those of a program that LLVM built."""
import contextlib
import random
import re
import select
import threading
import time

from .hostile_shared import (Limited, SLACK, check, chosen, copied, count, ended, expect_rows, folder, serving, tables, try_all,
                             try_one)
from .shared import (BAD_LAST, CONVERSATIONS, Peer, TOP, conversed, expect, expect_same, get, post, preload, replay, reply,
                     reply_bytes, said, whole, words_of)

SUBMISSION = (CONVERSATIONS / "submit.in").read_bytes()
NEXT = (CONVERSATIONS / "first-grant.in").read_bytes()[len(SUBMISSION):]
SETUP = ("--setup", CONVERSATIONS / "office.setup")
BAD = BAD_LAST
GRANT = post("/jobs", 1, "number:5550111\ntotpages:1\n") + post("/modems/ttyS0/next", 1, client="w0")


@check
def input_():
    """Cut, changed and mixed messages are answered as the protocol says, through `replay` and through `serve`, and in time."""
    tasks = []
    for name, front, message in ("a submission", b"", SUBMISSION), ("a next", SUBMISSION, NEXT):
        served = set(chosen(range(len(message)), 20))
        tasks += [(f"the first {size} bytes of {name}", prefix, front, message[:size], size in served)
                  for size in range(len(message))]
        for place, byte in chosen([(place, byte) for place in range(len(message)) for byte in b"\0\xff\r\n a"], 120):
            if message[place] != byte:
                data = front + message[:place] + bytes([byte]) + message[place + 1:]
                tasks.append((f"byte {place} of {name} is {byte}", changed, data, 1 + bool(front)))
    tasks += [(f"a head of {head} bytes, a body of {body}", limits, head, body)
              for head in (16383, 16384, 16385) for body in (65535, 65536, 65537)]
    tasks += [(name, answers, data, wanted) for name, data, wanted in named()]
    for front, back, most in ((b"Fax-Number: ", b"", 18), (b"number:", b"", 32)):
        for size in most - 1, most, most + 1:
            body = b"number:%b\ntotpages:1\n" % (b"1" * size if front == b"number:" else b"1")
            number = b"1" * size if front == b"Fax-Number: " else b"1"
            head = b"POST /jobs HTTP/1.1\r\nFax-Client: d\r\nFax-Number: %b\r\nContent-Length: %d\r\n\r\n"
            data = head % (number, len(body)) + body
            tasks.append((f"{front.decode()} of {size}", alike, data, SETUP, [201 if size <= most else 400]))
    sources = {file.stem: file.read_bytes() for file in sorted(CONVERSATIONS.glob("*.in"))}
    tasks += [(f"stream {number}", mixed, sources, number, number % (2 if said.all else 100) == 0)
              for number in range(0, 10000, 1 if said.all else 5)]
    try_all(tasks)


def named():
    """Messages at a limit or past it, with the replies that they get."""
    created = (CONVERSATIONS / "submit.out").read_bytes()
    for fields in 63, 64, 65:
        data = SUBMISSION.replace(b"Fax-Client", (fields - 4) * b"X: y\r\n" + b"Fax-Client")
        yield f"{fields} fields", data, [created if fields < 65 else BAD]
    for field in f"Content-Length: {'0' * 17}34", "Transfer-Encoding: chunked":
        yield field, SUBMISSION.replace(b"Content-Length: 34", field.encode()), [BAD]
    yield "a length of 18 digits", SUBMISSION.replace(b"Length: 34", b"Length: " + b"0" * 16 + b"34"), [created]
    brackets = post("/grants/1/call", 2, 200 * "[" + 200 * "]", "w0")
    yield "200 brackets in a call", GRANT + brackets, [None, None, refused("bad-json")]
    yield "not UTF-8", SUBMISSION.replace(b"number:+", b"number:\xff"), [refused("not-text", '"line":0,')]


def refused(kind, more=""):
    return reply("400 Bad Request", f'{{"kind":"{kind}",{more}"no":6,"word":"bad-body"}}')


def answers(data, wanted):
    """The replies are these, byte for byte, and any where there is None; through `serve` too."""
    ran = replay(data, *SETUP)
    ended(ran)
    got = reply_bytes(ran.out)
    expect(len(got) == len(wanted), f"{len(got)} replies")
    for reply, wanted_one in zip(got, wanted):
        expect_same(reply, wanted_one or reply, "a reply")
    same_served(data, SETUP)


def prefix(front, part, is_served):
    """Nothing is written for no bytes, else the refusal of a broken message, and no more; through `serve` too."""
    ran = replay(front + part, *SETUP)
    ended(ran)
    accepted = (CONVERSATIONS / "submit.out").read_bytes() if front else b""
    expect_same(ran.out, accepted + (BAD if part else b""), "the replies")
    expect_same((ran.status, ran.err), (1, b"faxqd: ended bad\n") if part else (0, b""), "it ends")
    if is_served:
        same_served(front + part, SETUP)


def changed(data, most):
    """A byte of a message is another."""
    found = ended(replay(data, *SETUP))
    expect(len(found) <= most + 1 and sum(reply.status < 300 for reply in found) <= most, f"the replies {found!r}")
    same_served(data, SETUP)


def alike(data, words, statuses):
    """The replies have these statuses, through `serve` too."""
    expect_same([reply.status for reply in ended(replay(data, *words))], statuses, "the replies")
    same_served(data, words)


def limits(head, body):
    """A submission whose head and body have so many bytes."""
    text = b"number:1\ntotpages:1\nx:"
    text += (body - len(text)) * b"y"
    start = b"POST /jobs HTTP/1.1\r\nFax-Client: d\r\nFax-Number: 1\r\nContent-Length: %d\r\nX: " % body
    data = start + (head - len(start) - 4) * b"x" + b"\r\n\r\n" + text
    alike(data, SETUP, [400 if head > 16384 else 413 if body > 65536 else 201])


def same_served(data, words):
    """Through `serve` these bytes get the replies that they get through `replay`. No message says its moment, and the
    machine's clock stands at the first one."""
    data = re.sub(rb"(?i)fax-moment", b"Fax-Nomoment", data)
    alone = replay(data, *words)
    before = preload(["clocks"], FIXED_MOMENT=0)
    with serving(folder() / "queue.db", "--connections", "1", *words, before=before) as served:
        got = whole(served.port, data)
        served.ends("behind these bytes")
    expect_same(got, alone.out, "through `serve`")


SPECIAL = (b"\0", b"\xff", b"\r", b"\n", b" ", b"\t", b":", b"/", b'"', b"{", b"}", b"\\", b"0", b"-", b"\r\n\r\n",
    b"close", b"HEAD ",
           b"9" * 18, b"18446744073709551616", b"65536", b"4102444801", b"1000000", b"256", b"\xc3\xa9", b"\xf0\x9f")


def mutated(sources, number):
    """The stream of this number, and the conversation that it was made of."""
    chance = random.Random(f"hostile {number}")
    names = list(sources)
    name = chance.choice(names)
    data = sources[name]
    for _ in range(chance.choice((1, 1, 2, 3, 5, 8))):
        places = sorted(chance.randrange(len(data) + 1) for _ in range(4))
        one, two = places[0], min(places[0] + chance.choice((1, 2, 8, 64, 512)), len(data))
        kind = chance.randrange(8)
        if kind == 0:
            data = data[:one] + bytes([chance.randrange(256)]) + data[one + 1:]
        elif kind == 1:
            special = chance.choice(SPECIAL)
            data = data[:one] + special + data[one + chance.choice((0, 1, len(special))):]
        elif kind == 2:
            data = data[:one] + data[two:]
        elif kind == 3:
            data = data[:two] + data[one:two] + data[two:]
        elif kind == 4:
            a, b, c, d = places
            data = data[:a] + data[c:d] + data[b:c] + data[a:b] + data[d:]
        elif kind == 5:
            other = sources[chance.choice(names)]
            start = chance.randrange(len(other) + 1)
            data = data[:one] + other[start:start + chance.choice((8, 64, 512, 4096))] + data[one:]
        elif kind == 6:
            numbers = list(re.finditer(rb"\d+", data))
            if numbers:
                found = chance.choice(numbers)
                new = chance.choice((b"0", b"1", b"00", b"%d" % (int(found[0][:18]) + 1), b"9" * 18, b"9" * 19,
                    b"65537", b"-1"))
                data = data[:found.start()] + new + data[found.end():]
        else:
            data = data[:max(places)]
    return data, name


def mixed(sources, number, is_served):
    """A stream by mutation ends by itself, with replies as the protocol has them."""
    data, name = mutated(sources, number)
    words = words_of(name)
    if "--controls" not in words and number % 2:
        words += ("--controls", TOP / "examples/office.controls")
    ended(replay(data, *words))
    if is_served:
        same_served(data, words)


# ---- peers

@check
def peers():
    """Among hundreds of peers that stay as long as they may, good ones are answered at once, and the server ends by itself; time
    runs fifty times as fast for it."""
    many = 1000 if said.all else 200
    kinds = ("say nothing", silent), ("say half a request", half), ("never read", unread)
    threads = [threading.Thread(target=try_one, args=(f"{many} peers that {what}", crowd, talk, many))
               for what, talk in kinds]
    for thread in threads:
        thread.start()
    for thread in threads:
        thread.join()


def silent(peer):
    """Says nothing."""


def half(peer):
    peer.say(SUBMISSION[:64])


def unread(peer):
    peer.say(200 * get("/jobs/1"))


def crowd(talk, many):
    """So many peers, at most a hundred at a time, of whom the server has 64 places for. Each good one is answered though.
    Then the server ends by itself."""
    faster, ahead, good = 50, 100, 10
    file = folder() / "queue.db"
    before = preload(["clocks"], FASTER=faster)
    with Limited(file, "--timeout", "1", "--connections", str(many + good + 1), before=before, seconds=600) as served:
        large = post("/jobs", 1, f"number:1\ntotpages:1\nnote:{60000 * 'x'}\n")
        expect(whole(served.port, large).startswith(b"HTTP/1.1 201 "), "the first of the peers isn't answered")
        waiting, made, answered = {}, 0, 0
        while made < many or waiting:
            while made < many and len(waiting) < ahead:
                peer = Peer(served.port, receives=4096)
                talk(peer)
                waiting[peer.socket.fileno()] = peer
                made += 1
                count()
                if made % (many // good) == 0:
                    answered += behind(served.port, len(waiting))
            ready, _, _ = select.select(list(waiting), [], [], 10)
            expect(ready or talk is unread, "no connection ends within ten seconds")
            for number in ready or list(waiting):
                if talk is unread or not got_more(waiting[number]):
                    waiting.pop(number).socket.close()
        expect(answered == good, f"{answered} good ones are answered")
        served.process.wait(30)
        served.ends("behind these peers")


def got_more(peer):
    with contextlib.suppress(ConnectionError):
        return peer.take()
    return False


def behind(at, ahead):
    """A good request behind so many peers is answered at once."""
    start = time.monotonic()
    with Peer(at) as peer:
        peer.say(get("/jobs/2"))
        expect(peer.reply().startswith(b"HTTP/1.1 404 "), "a good request isn't answered 404")
    took = time.monotonic() - start
    expect(took <= SLACK, f"a good request behind {ahead} peers is answered after {took:.1f} s")
    return 1


# ---- devices

@check
def devices():
    """A connection fails after each number of bytes of a message and of its reply, and the message that is sent again gets
    its one reply. Behind its fault the connection works again, so that what the server then takes or sends is seen."""
    for name, front, message in ("a submission", [], SUBMISSION), ("a next", [SUBMISSION], NEXT):
        before, _ = served_file(folder() / "queue.db", *front)
        after, (reply,) = served_file(copied(before), message)
        rows = tables(copied(before)), tables(after)
        tasks = [("writes", size, {"WRITE_FILE": SOCKET, "WRITE_FAILS": size, "FAILS_ONCE": 1})
                 for size in range(len(reply))]
        ways = [("reads", size, {"READ_FILE": SOCKET, "READ_FAILS": size, "FAILS_ONCE": 1})
                for size in range(len(message))]
        ways += [("writes", size, {"WRITE_FILE": SOCKET, "WRITE_FAILS": size, "FAILS_ONCE": 1, "WRITE_TAKES_NONE": 1})
                 for size in range(len(reply))]
        ways += [("breaks off", size, {}) for size in range(len(message))]
        tasks += chosen(ways, 80)
        try_all([(f"{name}, {way} {size} bytes, {more}", failing, before, rows, message, reply, way, size,
                              more) for way, size, more in tasks])


SOCKET = 7  # the file of a connection: behind the queue, its log, the means to wait and the listener


def served_file(file, *messages):
    """The file of a server that got these messages, and their replies."""
    with serving(file, *SETUP, "--connections", "1", before=preload(["clocks"], FIXED_MOMENT=1000)) as served:
        got = conversed(served.port, *messages)
        served.ends("behind a file's preparation")
    return file, got


def failing(before, rows, message, reply, way, size, settings):
    """Nothing comes but the bytes of the reply before the fault. On the next connection a submission that wasn't read
    has no job, and one that was has its own; then the message gets its reply, and the rows are those of the message
    that came once."""
    file = copied(before)
    device = preload(["fail_device", "clocks"], FIXED_MOMENT=1000, **settings)
    with serving(file, *SETUP, "--connections", "2", before=device) as served:
        if way == "breaks off":
            peer = Peer(served.port)
            peer.say(message[:size])
            peer.break_off()
        else:
            expect_same(whole(served.port, message), reply[:size] if way == "writes" else b"", "what comes")
        with Peer(served.port) as peer:
            peer.say(get("/jobs/1"))
            shown = peer.reply()
            kept = copied(file)
            peer.say(message)
            expect_same(peer.reply(), reply, "sent again")
        served.ends("behind a connection that fails")
    is_there = way == "writes" or message != SUBMISSION
    expect_same(shown[:13], b"HTTP/1.1 200 " if is_there else b"HTTP/1.1 404 ", "the job behind the fault")
    expect_rows(tables(kept), rows[way == "writes"], "behind the fault")
    expect_rows(tables(file), rows[1], "behind the message that is sent again")
