#!/usr/bin/env python3
"""A line that loses, doubles and delays messages: a proxy to put between clients and faxqd, to try them.

    examples/bad-line.py LISTEN SERVER [--seed N] [--late SECONDS] [--silent SECONDS]

Both are HOST:PORT. It takes one request after the other from each connection, and does one of these with it:

    passes             sends it on, and sends the reply back
    is lost            doesn't send it on
    its reply is lost  sends it on, and keeps the reply back
    comes twice        sends it on twice, and sends the second reply back
    comes late         sends it on after a while
    comes again        as `passes`, and sends the request on once more after a while

Each of six consecutive requests has another of these fates, in an order that the seed decides. If a request gets no
reply, its connection ends, at once or after a silence. Standard output gets a line for each request, once it was dealt
with: its place, client, number, method and path, its fate, and each reply of the server, also one that was kept back.
"""
import argparse
import random
import re
import socket
import threading
import time

FATES = "passes", "is lost", "its reply is lost", "comes twice", "comes late", "comes again"
TIMES = {"is lost": 0, "comes twice": 2}  # how often a request is sent on, if not once


def address(text):
    host, _, port = text.rpartition(":")
    return host, int(port)


def take(peer, kept):
    """The next message of a connection of which these bytes came before, or nothing; and what came behind it."""
    while True:
        head, end, rest = kept.partition(b"\r\n\r\n")
        if end:
            length = re.search(rb"(?i)\r\ncontent-length: *(\d+)", head)
            length = int(length[1]) if length else 0
            if len(rest) >= length:
                return head + end + rest[:length], rest[length:]
        data = peer.recv(65536)
        if not data:
            return b"", b""
        kept += data


def field(message, name):
    """The value of a field of a message's head, or a dash."""
    found = re.search(rb"(?i)\r\n" + name + rb": *([^\r\n]+)", message.partition(b"\r\n\r\n")[0])
    return found[1] if found else b"-"


def shown(reply):
    """The status of a reply, and its body up to the end of the line."""
    head, _, body = reply.partition(b"\r\n\r\n")
    return b" ".join([*head.split(b" ")[1:2], *body.splitlines()[:1]]) or b"nothing"


class Line:
    def __init__(self, words):
        self.words, self.chance, self.lock = words, random.Random(words.seed), threading.Lock()
        self.deck, self.count = [], 0

    def fate(self):
        """The place of the next message, what becomes of it, and how much later a late one comes."""
        with self.lock:
            if not self.deck:
                self.deck = self.chance.sample(FATES, len(FATES))
            self.count += 1
            return self.count, self.deck.pop(), self.chance.uniform(0.1, self.words.late)

    def tell(self, count, message, fate, replies):
        asked = b" ".join([field(message, b"fax-client"), field(message, b"fax-number"), message.split(b" HTTP", 1)[0]])
        line = b"%d: %b %b: %b" % (count, asked, fate.encode(), b", ".join(map(shown, replies)) or b"-")
        with self.lock:
            print(line.decode(errors="replace"), flush=True)

    def ask(self, message):
        """Sends a message on, and gives its reply, or nothing if there is none."""
        try:
            with socket.create_connection(self.words.server, 10) as server:
                server.sendall(message)
                server.shutdown(socket.SHUT_WR)
                return take(server, b"")[0]
        except OSError:
            return b""

    def ask_again(self, count, message, late):
        time.sleep(late)
        self.tell(count, message, "came again", [self.ask(message)])

    def carry(self, message):
        """Deals with a message as is its fate, and gives the reply that its sender gets, or nothing."""
        count, fate, late = self.fate()
        if fate == "comes late":
            time.sleep(late)
        replies = [self.ask(message) for _ in range(TIMES.get(fate, 1))]
        self.tell(count, message, fate, replies)
        if fate == "comes again":
            threading.Thread(target=self.ask_again, args=(count, message, late), daemon=True).start()
        return b"" if fate in ("is lost", "its reply is lost") else replies[-1]

    def serve(self, peer):
        with peer:
            try:
                message, kept = take(peer, b"")
                while message:
                    reply = self.carry(message)
                    if not reply:
                        time.sleep(self.words.silent)
                        return
                    peer.sendall(reply)
                    message, kept = take(peer, kept)
            except OSError:
                pass


def main():
    parser = argparse.ArgumentParser(description="A line that loses, doubles and delays messages")
    parser.add_argument("listen", type=address, metavar="LISTEN")
    parser.add_argument("server", type=address, metavar="SERVER")
    parser.add_argument("--seed", type=int, default=0, help="which fate comes when")
    parser.add_argument("--late", type=float, default=2, help="how much later a late message comes at most")
    parser.add_argument("--silent", type=float, default=0, help="how long a connection without a reply stays open")
    line = Line(parser.parse_args())
    with socket.create_server(line.words.listen) as listener:
        while True:
            peer, _ = listener.accept()
            threading.Thread(target=line.serve, args=(peer,), daemon=True).start()


main()
