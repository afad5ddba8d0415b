"""Sixteen clients ask at once. `serve` is held still while each sends a request, so that all of them are there as it goes on:
it decides them together, in one transaction, and no reply leaves before its commit. Its disk is stopped at each call that the
batch makes, and each of its syncs fails. Afterwards all requests of the batch are in the file or none is, none of them was
answered but by 503, and each sent again gets its reply, twice, whatever of the files the disk had kept."""
import contextlib
import errno
import json
import os
import random
import signal

from . import disk as disks
from .disk import Disk, NAME, Tools, lay, rows, taken
from .runner import group
from .shared import (ASK, NO_JOB, NO_WAITS, Peer, SETUP, Server, UNAVAILABLE, conversed, created, expect, expect_same, option, post,
                     preload, say, submission)

check = group("batches", "Has sixteen clients ask at once while a call of the disk fails or is the last one: all requests of a "
              "batch are kept or none, and none is answered before.", "computing")
CLIENTS = 16
PATIENCE = 60  # seconds until whatever is awaited counts as never coming
NEVER = 10 ** 9  # a call of the disk that isn't reached
MODES = {name: disks.MODES[name] for name in ("kept", "lost", "sectors")}


def name_of(place):
    return f"desk{place}"


class Together(Server):
    """A server on the files of a folder whose calls of the disk are told in a journal, and CLIENTS connections to it."""

    def __init__(self, tools, files, **settings):
        self.tools, self.laid, self.journal = tools, tools.folder / "together", tools.folder / "journal"
        self.armed, self.peers = tools.folder / "armed", []
        for file in self.journal, self.armed:
            file.unlink(missing_ok=True)
        self.journal.touch()
        lay(self.laid, files)
        told = {"DISK_FOLDER": self.laid, "DISK_JOURNAL": self.journal, "DISK_ARMED": self.armed, "DISK_STOP": NEVER, **settings}
        super().__init__(self.laid / NAME, "--setup", tools.folder / "setup", "--connections", "1000", port=tools.port,
                         before=preload(("clocks", "stop_disk"), FIXED_MOMENT=1000, **told), patience=PATIENCE)
        self.peers = [Peer(self.port, patience=PATIENCE) for _ in range(CLIENTS)]
        for peer in self.peers:  # so that each has its place
            peer.asks(ASK, NO_JOB, "an idle server")

    def __exit__(self, *more):
        for peer in self.peers:
            peer.socket.close()
        super().__exit__(*more)

    def hear(self, messages):
        """Has all these messages there as it goes on, each on its own connection."""
        self.process.send_signal(signal.SIGSTOP)
        os.waitid(os.P_PID, self.process.pid, os.WSTOPPED | os.WNOWAIT)
        try:
            for peer, message in zip(self.peers, messages):
                peer.say(message)
        finally:
            self.process.send_signal(signal.SIGCONT)

    def replies(self):
        """The next reply on each connection, or none where it ends before."""
        found = []
        for peer in self.peers:
            got = None
            with contextlib.suppress(ConnectionError):
                got = peer.reply()
            found.append(got)
            expect(got or not peer.got, f"a connection ends within a reply, behind {peer.got!r}")
        return found

    def disk(self, files):
        return Disk(files, self.journal.read_bytes())


def faxes(first=1):
    """A fax of each client."""
    return [submission(first, name_of(place)) for place in range(CLIENTS)]


def undisturbed(tools, files, *rounds):
    """What a server leaves that hears these in turn, all messages of one together."""
    with Together(tools, files) as server:
        for messages in rounds:
            server.hear(messages)
            expect(all(server.replies()), "a message isn't answered")
        server.process.kill()
        server.process.wait()
        return taken(server.laid)


def has_kept(tools, files):
    """The requests, by client and number, that these files have a reply to."""
    return {(row[0], row[1]) for row in rows(lay(tools.folder / "look", files)).get("replies", ())}


def starts_on(tools, files, messages, wanted):
    """A server starts on these files, and each message sent again gets such a reply, twice the same."""
    with Server(lay(tools.folder / "again", files) / NAME, "--setup", tools.folder / "setup", "--connections", "1000",
                port=tools.port, patience=PATIENCE) as server:
        first, second = ([conversed(server.port, message) for message in messages] for _ in range(2))
        expect_same(second, first, "the same requests once more are answered")
        for got, right in zip(first, wanted):
            expect(got and right(got[0]), f"behind the batch a request is answered {got}")
        server.process.terminate()


def is_a_new_job(got):
    return got.startswith(b"HTTP/1.1 201 Created\r\n")


@check
def together(folder):
    """Sixteen faxes that are there at once are sixteen jobs, behind one sync, and so are sixteen more."""
    tools = Tools(folder)
    files = undisturbed(tools, {})
    with Together(tools, files) as server:
        server.armed.touch()
        for turn in range(2):
            synced = server.disk(files).syncs
            server.hear(faxes(turn + 1))
            jobs = sorted(json.loads(got.partition(b"\r\n\r\n")[2])["job"] for got in server.replies() if got)
            expect(jobs == list(range(turn * CLIENTS + 1, (turn + 1) * CLIENTS + 1)), f"they are answered jobs {jobs}")
            found = server.disk(files).syncs - synced
            expect(found == 1, f"{CLIENTS} faxes that are there at once take {found} syncs")
        server.hear(faxes(2))
        expect(server.disk(files).syncs == synced + 1 and all(server.replies()), "repeats aren't answered")
        expect(server.disk(files).syncs == synced + 1, "repeats are synced")


@check
def expired(folder):
    """Faxes of a batch whose kill time is past fail by the next one of the same batch, as they would one after the other."""
    tools = Tools(folder)
    order = "number:5550111\ntotpages:1\nkilltime:500\n"
    messages = [post("/jobs", 1, order, name_of(place)) if place % 2 == 0 else fax for place, fax in enumerate(faxes())]
    files = undisturbed(tools, {}, messages)
    found = [(row[7], row[17]) for row in sorted(rows(lay(tools.folder / "look", files))["jobs"])]
    wanted = [(500, 4), (0, 1)] * (CLIENTS // 2)  # kill time and phase: failed, waiting
    expect_same(found, wanted, "the jobs of a batch are left with these kill times and phases")


@check
def stopped(folder):
    """Stopped at any call of the disk, a batch has had no reply, and all of it is kept or none."""
    tools = Tools(folder)
    files, messages = undisturbed(tools, {}), faxes()
    number, starts, kept_all, tried = 0, 0, 0, set()
    while True:
        number += 1
        with Together(tools, files, DISK_STOP=number) as server:
            server.armed.touch()
            server.hear(messages)
            got = server.replies()
            if all(got):
                break
            expect(not any(got), f"stopped at call {number}, some of a batch were answered")
            server.ends(f"stopped at call {number}", status=disks.STOPPED)
            disk = server.disk(files)
        for way, left in disk.layouts(MODES):
            mark = tuple(sorted(left.items()))
            if mark in tried:
                continue
            tried.add(mark)
            kept = has_kept(tools, left)
            expect(len(kept) in (0, CLIENTS), f"call {number}, {way}: {len(kept)} of {CLIENTS} requests are kept")
            kept_all += len(kept) == CLIENTS
            starts_on(tools, left, messages, [is_a_new_job] * CLIENTS)
            starts += 1
    expect(kept_all > 0, "no batch is kept that was stopped")
    say(f"{number - 1} stops, {starts} starts on what was left, of which {kept_all} had the whole batch")


class Mixed:
    """The requests of a batch, drawn at random: new faxes, others that are known, refused or ask for work, and how each
    may be answered when it is sent again behind it."""

    def __init__(self, chance):
        self.messages, self.wanted = [], []
        for place in range(CLIENTS):
            message, right = chance.choice([self.fax, self.fax, self.repeat, self.refused, self.question])(place)
            self.messages.append(message)
            self.wanted.append(right)
        self.messages[0], self.wanted[0] = self.fax(0)  # so that something is accepted

    @staticmethod
    def fax(place):
        return submission(2, name_of(place)), is_a_new_job

    @staticmethod
    def repeat(place):
        return submission(1, name_of(place)), lambda got: got == created(place + 1)

    @staticmethod
    def refused(place):
        return post("/jobs", 2, "number:5550111\ntotpages:none\n", name_of(place)), lambda got: got.startswith(b"HTTP/1.1 400 Bad Request\r\n")

    @staticmethod
    def question(place):
        return post(f"/modems/ttyS{place % 2}/next", 2, "", name_of(place)), lambda got: got.startswith((b"HTTP/1.1 200 OK\r\n", b"HTTP/1.1 409 Conflict\r\n"))


@check
def failing_sync(folder):
    """Where its sync fails, each request of a batch is answered 503, also what is known or refused, and nothing behind it.
    The next start has all of it or nothing."""
    tools = Tools(folder)
    (folder / "setup").write_text(SETUP + NO_WAITS)
    count, chance = int(option("batches", 100)), random.Random(int(option("seed", 1)))
    files = undisturbed(tools, {}, faxes())
    before, whole = has_kept(tools, files), 0
    for number in range(count):
        batch = Mixed(chance)
        with Together(tools, files, DISK_STOP=1, DISK_KIND="sync", DISK_ERROR=errno.EIO) as server:
            server.armed.touch()
            server.hear([message + ASK for message in batch.messages])
            got = server.replies()
            expect(all(one == UNAVAILABLE for one in got), f"batch {number}: behind a failed sync come {got}")
            expect(not any(server.replies()), f"batch {number}: something is answered behind a failed sync")
            server.ends(f"batch {number}", status=1, err=b"faxqd: database\n")
            disk = server.disk(files)
        expect(disk.failed[:1] == ["sync"], f"batch {number}: {disk.failed} failed")
        accepted = set()
        for way, left in disk.layouts(MODES):
            kept = has_kept(tools, left)
            expect(before <= kept, f"batch {number}, {way}: of what was accepted before, {before - kept} is lost")
            accepted.add(frozenset(kept - before))
        expect(len(accepted - {frozenset()}) <= 1, f"batch {number}: what is kept of it is {accepted}")
        whole += len(accepted) > 1
        if number % 10 == 0:
            for _, left in disk.layouts(MODES):
                starts_on(tools, left, batch.messages, batch.wanted)
    expect(whole > 0, "no batch is kept whose sync failed")
    say(f"{count} batches, of which {whole} could be found on the disk, and each could be lost")


@check
def failing_write(folder):
    """Where a call of the disk fails, each request of a batch gets its reply or 503, and sent again its reply."""
    tools = Tools(folder)
    files, messages = undisturbed(tools, {}), faxes()
    number, counts = 0, {}
    while True:
        number += 1
        with Together(tools, files, DISK_STOP=number, DISK_ERROR=errno.EIO) as server:
            server.armed.touch()
            server.hear(messages)
            got = server.replies()
            disk = server.disk(files)
            if not disk.failed:
                break
            accepted = {place for place, one in enumerate(got) if one and is_a_new_job(one)}
            for one in got:
                expect(one in (None, UNAVAILABLE) or is_a_new_job(one), f"call {number} fails, and a fax is answered {one!r}")
            counts[disk.failed[0], len(accepted)] = counts.get((disk.failed[0], len(accepted)), 0) + 1
            server.process.kill()
            server.process.wait()
            disk = server.disk(files)
        for way, left in disk.layouts({"kept": MODES["kept"], "lost": MODES["lost"]}):
            lost = {(name_of(place), 1) for place in accepted} - has_kept(tools, left)
            expect(not lost, f"call {number} fails, {way}: {lost} were answered, and aren't kept")
        starts_on(tools, left, messages, [is_a_new_job] * CLIENTS)
    expect(counts, "no call of the disk is seen")
    for (name, accepted), times in counts.items():
        say(f"{name}, {accepted} accepted {times}")
