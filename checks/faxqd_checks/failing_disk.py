"""One call of the disk fails in a conversation with `serve`, each one in turn, and so in a start on no file. Each reply is
right until one is 503. Behind that either the server goes on, and the same request under the same number gets its reply; or
the connection ends with no more replies, and the server with `faxqd: database` and status 1, though it may have more
connections. The files are then left as the disk may have them, and the server starts on them. Each request sent again under
its number gets its reply, twice, and the rows are those of a server that met no fault: one job, one grant."""
import contextlib
import errno
import re
import sqlite3
import subprocess

from . import disk as disks
from .disk import Disk, Office, PATIENCE, Tools, difference, lay, undisturbed
from .runner import group
from .shared import NO_JOB, Wrong, expect, fault, get, post, say, told

check = group("failing-disk", "Fails each call of the disk of a conversation and of a start in turn, and has writes find no "
              "room; the server ends where its store is shut, and goes on else, and each request sent again "
              "gets its one reply.", "computing")
# Each accepted request once, in order.
CONVERSATION = list({said[1:3]: said for said in disks.CONVERSATION if said[5] in (200, 201)}.values())
MODES = {name: disks.MODES[name] for name in ("kept", "lost", "sectors")}
UNAVAILABLE = b'{"no":27,"word":"unavailable"}'
ASK = get("/jobs/999999")
IS_OPEN = 404, NO_JOB.partition(b"\r\n\r\n")[2]  # what ASK is answered while the store is open
MANY = 1000  # connections
MOST_FAULTS = 5  # of a sweep


class Talker(Office):
    """A server whose messages each have ASK behind them, in one piece."""

    def say(self, said):
        _, client, number, path, body, _, _ = said
        with contextlib.suppress(ConnectionError):
            self.peer.sendall(post(path, number, body, client) + ASK)

    def hear(self):
        """The status and the body of the next reply, or none where the connection ends."""
        got, length = b"", None
        with contextlib.suppress(ConnectionError):
            while length is None or len(got.partition(b"\r\n\r\n")[2]) < length:
                wanted = 1 if length is None else length - len(got.partition(b"\r\n\r\n")[2])
                piece = self.peer.recv(wanted)
                if not piece:
                    break
                got += piece
                if length is None and got.endswith(b"\r\n\r\n"):
                    length = int(re.search(rb"\r\nContent-Length: (\d+)", got)[1])
        if not got:
            return None
        head, _, body = got.partition(b"\r\n\r\n")
        expect(length is not None and len(body) == length, f"the connection ends within a reply, behind {got!r}")
        return int(head.split(b" ")[1]), body

    def takes(self, said):
        """The request is accepted, and ASK is answered behind it."""
        self.say(said)
        self.hears((said[5], said[6].encode()), said)
        self.hears(IS_OPEN, said)

    def hears(self, wanted, said):
        got = self.hear()
        expect(got == wanted, f"number {said[2]} of {said[1]} is answered {got} where {wanted} should come")

    def is_shut(self, said, answer):
        """The status was 503, and nothing came behind it."""
        expect(answer == (503, UNAVAILABLE), f"number {said[2]} of {said[1]} is answered {answer}")
        behind = self.hear()
        expect(behind in (None, IS_OPEN), f"behind 503 for number {said[2]} of {said[1]} comes {behind}")
        return behind is None

    def gives_up(self):
        """It ends by itself, as it should behind a fault that has shut its store, or that a start has met."""
        try:
            out, err = self.process.communicate(timeout=PATIENCE)
        except subprocess.TimeoutExpired:
            raise Wrong("it has no store, and doesn't end") from None
        expect((self.process.returncode, out, err) == (1, b"", b"faxqd: database\n"),
               f"it has no store, and ends with {self.process.returncode}, {out!r} and {err!r}")

    def goes_on(self):
        expect(self.process.poll() is None, f"it ends with {self.process.returncode}, though it has connections left")
        self.peer.close()
        self.process.terminate()
        out, err = self.process.communicate()
        expect(out == b"" and err == b"", f"it says {out!r} and {err!r}")


class Failure:
    """Calls of the disk that fail: from which on, how many, of which kind, and why."""

    def __init__(self, tools, number, times, kind, error):
        self.tools, self.number, self.error = tools, number, error
        self.folder, self.journal, self.armed = (tools.folder / name for name in ("failing", "journal", "armed"))
        self.settings = {"DISK_FOLDER": self.folder, "DISK_JOURNAL": self.journal, "DISK_ARMED": self.armed, "DISK_STOP": number,
                         "DISK_TIMES": times, "DISK_ERROR": error, **({"DISK_KIND": kind} if kind else {})}

    def serve(self, files, is_armed=False):
        """A server on these files, for which no call fails before the file `armed` is there."""
        for file in self.journal, self.armed:
            file.unlink(missing_ok=True)
        self.journal.touch()
        if is_armed:
            self.armed.touch()
        lay(self.folder, files)
        return Talker(self.tools, self.folder, ("clocks", "stop_disk"), MANY, **self.settings)

    def meets(self, files):
        """Has a conversation on these files. Gives how it went, and the disk as the journal tells of it."""
        with self.serve(files) as server:
            server.starts()
            self.armed.touch()
            how = self.converse(server)
        return how, Disk(files, self.journal.read_bytes())

    def meets_start(self):
        """Has a start on no file. Gives how it went, and the disk."""
        with self.serve({}, is_armed=True) as server:
            if server.listens():
                how = "went on"
                server.goes_on()
            else:
                how = "ended"
                server.gives_up()
        return how, Disk({}, self.journal.read_bytes())

    def converse(self, server):
        """Whether nothing was answered 503, or the server went on behind it, or it ended as it should."""
        how = "unnoticed"
        for said in CONVERSATION:
            while True:
                server.say(said)
                answer = server.hear()
                if answer == (said[5], said[6].encode()):
                    server.hears(IS_OPEN, said)
                    break
                if server.is_shut(said, answer):
                    server.gives_up()
                    return "ended"
                expect(how == "unnoticed" or self.error == errno.ENOSPC, "it answers 503 once more")
                how = "went on"
        server.goes_on()
        return how


def starts_again(tools, files, rows):
    """The server starts on these files, each request gets its reply under its number, and the rows are those wanted."""
    folder = lay(tools.folder / "again", files)
    with Talker(tools, folder) as server:
        server.starts()
        for said in CONVERSATION + CONVERSATION:
            server.takes(said)
        expect(server.is_over(), "it is stopped without a reason")
    found = difference(rows, disks.rows(folder))
    expect(not found, f"behind the same once more the rows have {found}")


class Sweep:
    """Each call of the disk fails in turn, so many at a time, of a kind if one is said."""

    def __init__(self, folder, times, kind, error):
        self.tools, self.times, self.kind, self.error = Tools(folder), times, kind, error
        self.files = undisturbed(self.tools, {}, [])
        self.rows = self.tools.look(undisturbed(self.tools, self.files, CONVERSATION))
        self.tried, self.counts, self.faults = set(), {}, 0

    def run(self, meets):
        """Has each call fail until there is none; what goes wrong at one is a fault, and the others are tried."""
        number, is_there = 0, True
        while is_there and self.faults < MOST_FAULTS:
            number += 1
            try:
                is_there = meets(Failure(self.tools, number, self.times, self.kind, self.error))
            except (Wrong, OSError, sqlite3.Error) as wrong:
                self.faults += 1
                fault(f"{errno.errorcode[self.error]} at call {number}{f', a {self.kind}' if self.kind else ''}: {told(wrong)}")
        expect(self.counts, "no call of the disk is seen")
        for (name, how), count in self.counts.items():
            say(f"{name} {how} {count}")
        say(f"{len(self.tried)} starts on what was left")

    def conversation(self, failure):
        """Whether a call of a conversation failed."""
        how, disk = failure.meets(self.files)
        if not disk.failed:
            return False
        name = disk.failed[0]
        self.counts[name, how] = self.counts.get((name, how), 0) + 1
        expect(how == "ended" or name != "sync", f"a sync fails, and it {how}")
        expect(how != "ended" or self.error != errno.ENOSPC or name == "mark", f"there is no room, and it {how}")
        self.starts_on(disk.layouts(MODES) if how == "ended" else [(how, disks.taken(failure.folder))])
        return True

    def start(self, failure):
        """Whether a call of a start on no file failed."""
        how, disk = failure.meets_start()
        if not disk.failed:
            return False
        self.counts[disk.failed[0], how] = self.counts.get((disk.failed[0], how), 0) + 1
        others = set(disks.taken(failure.folder)) - {disks.NAME, f"{disks.NAME}-wal"}
        expect(not others, f"it leaves {others}")
        self.starts_on(disk.layouts(MODES))
        return True

    def starts_on(self, layouts):
        for _, left in layouts:
            mark = tuple(sorted(left.items()))
            if mark not in self.tried:
                self.tried.add(mark)
                starts_again(self.tools, left, self.rows)


@check
def any_call(folder):
    """A call of the disk that fails in a conversation is answered 503, and each request sent again gets its one reply."""
    sweep = Sweep(folder, 1, None, errno.EIO)
    sweep.run(sweep.conversation)


@check
def no_room(folder):
    """A write that finds no room is answered 503, and the server goes on."""
    sweep = Sweep(folder, 1, "write", errno.ENOSPC)
    sweep.run(sweep.conversation)


@check
def no_room_thrice(folder):
    """Three writes that find no room are answered 503, and the server goes on."""
    sweep = Sweep(folder, 3, "write", errno.ENOSPC)
    sweep.run(sweep.conversation)


@check
def start_any_call(folder):
    """A start at which a call of the disk fails says so and ends, or goes on, and the next one takes what it leaves."""
    sweep = Sweep(folder, 1, None, errno.EIO)
    sweep.run(sweep.start)


@check
def start_no_room(folder):
    """A start at which a write finds no room says so and ends, or goes on, and the next one takes what it leaves."""
    sweep = Sweep(folder, 1, "write", errno.ENOSPC)
    sweep.run(sweep.start)
