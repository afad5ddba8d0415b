"""Peers that stand where a script expects the queue: one that gives fixed answers, and a proxy that hands messages on."""
import contextlib
import re
import socket
import threading

from .shared import PATIENCE, is_whole, said


def reply(status, body, kind="application/json", length=None):
    """The bytes of a reply, which may claim another length."""
    length = len(body.encode()) if length is None else length
    return f"HTTP/1.1 {status} X\r\nContent-Type: {kind}\r\nContent-Length: {length}\r\n\r\n{body}".encode()


# What isn't the queue's answer to any request: the replies of proxies, half replies, and JSON of something else.
STRANGE = [
    reply(401, "<html>", "text/html"), reply(403, "<html>", "text/html"), reply(404, "<html>", "text/html"),
    reply(407, "<html>", "text/html"), reply(429, "slow down", "text/plain"), reply(200, "<html>", "text/html"),
    reply(200, "", "text/plain"), reply(200, '{"status":"ok"}'), reply(201, "{}"), reply(200, "[1]"),
    reply(301, "", "text/html"), reply(403, '{"error":"blocked","word":"no"}'), reply(404, '{"no":8,"word":"no-job"}', "text/html"),
    reply(502, "<html>", "text/html"), reply(503, '{"no":27,"word":"unavailable"}'), reply(200, '{"grant":1,"job":', length=99),
    reply(409, '{"no":8,"word":"\\u001b[2J"}'), b"HTTP/1.1 200 OK\r\nContent-Length: 5\r\n\r\n", b"",
]


# The same for the commands of a client, which look at status and body: a refusal is one without its content type, too.
STRANGE_TO_COMMANDS = [answer for answer in STRANGE if b"text/html" not in answer or b'"no":' not in answer]


class Listener:
    """Answers each connection's one message by `answer_to`, and keeps the messages in `seen`."""

    def __init__(self, tls=None):
        self.seen, self.tls = [], tls
        self.listener = socket.create_server(("127.0.0.1", 0), backlog=100)
        self.port = self.listener.getsockname()[1]
        threading.Thread(target=self.serve, daemon=True).start()

    def __enter__(self):
        return self

    def __exit__(self, *_):
        self.listener.close()

    @property
    def url(self):
        return f"http://127.0.0.1:{self.port}"

    def serve(self):
        with contextlib.suppress(OSError):
            while True:
                threading.Thread(target=self.carry, args=(self.listener.accept()[0],), daemon=True).start()

    def carry(self, peer):
        with contextlib.suppress(OSError), peer:
            peer.settimeout(PATIENCE)
            if self.tls:
                peer = self.tls.wrap_socket(peer, server_side=True)
            data = b""
            while not is_whole(data):
                if not (piece := peer.recv(65536)):
                    break
                data += piece
            if data:
                self.seen.append(data)
                peer.sendall(self.answer_to(data))
                peer.close()  # with TLS it is another one than the one of `with`


class Answers(Listener):
    """A peer that gives these answers one after the other, the last for ever."""

    def __init__(self, *answers, tls=None):
        self.answers = list(answers)
        super().__init__(tls)

    def answer_to(self, _):
        return self.answers.pop(0) if len(self.answers) > 1 else self.answers[0]


class Proxy(Listener):
    """A proxy to the queue at a port. `instead` may give another answer to a message: it is called with the message and
    with a function that hands it on and gives the queue's reply."""

    def __init__(self, queue, instead=None):
        self.queue, self.instead = queue, instead
        super().__init__()

    def hand_on(self, data):
        """The queue's reply to a message."""
        with socket.create_connection(("127.0.0.1", self.queue), PATIENCE) as queue:
            queue.sendall(data)
            got = b""
            while not is_whole(got):
                if not (piece := queue.recv(65536)):
                    break
                got += piece
            return got

    def answer_to(self, data):
        return self.instead(data, lambda: self.hand_on(data)) if self.instead else self.hand_on(data)


def number_of(data):
    """The Fax-Number of a message, or nothing."""
    found = re.search(rb"(?i)\r\nFax-Number: *(\d+)\r\n", data)
    return found and found[1].decode()


def path_of(data):
    """The path of a message."""
    return data.split(b" ", 2)[1].decode()


class Strange:
    """Gives each new request some answers that aren't the queue's, before the queue has it and after, then the queue's."""

    def __init__(self, answers=STRANGE, most=3):
        self.answers, self.most, self.given, self.next = answers, len(answers) if said.all else most, {}, 0

    def __call__(self, data, hand_on):
        given = self.given.setdefault((path_of(data), number_of(data)), [])
        if len(given) == self.most:
            return hand_on()
        given.append(self.answers[self.next % len(self.answers)])
        self.next += 1
        if len(given) % 2 == 0:
            hand_on()
        return given[-1]
