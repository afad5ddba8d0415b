"""The disk under `serve`: what is told of its calls, what a power loss may leave of them, and a conversation that is had
meanwhile. `stop_disk.c` is preloaded; it tells each call in a journal, and ends the process at a call of a given number, or has
it fail. What the calls before have written and not synced since may be on the disk or not, so the files are laid out in several
ways (`MODES`), each of which the engine's own model of a disk allows. Writes that the library doesn't see are a fault."""
import contextlib
import shutil
import sqlite3
import subprocess

from .shared import Peer, SETUP, Server, Wrong, database_of, expect, free_port, option, post, preload, said

PATIENCE = 60  # seconds until whatever is awaited counts as never coming
STOPPED = 77  # the status with which the library ends the process
PER_CONNECTION = 1000  # messages that a connection has at most
SECTOR = 512
PAGE = 4096
NAME = "queue.db"
REASONS = {200: "OK", 201: "Created", 409: "Conflict"}
OUTCOME = '{"dialed":true,"outcome":"retry","pages":2,"reason":"line dropped"}'

# One fax of three pages over a bad line: who says what under which number, and what is answered. Of a request with a
# name each call of the disk is a stop.
CONVERSATION = [
    ("submit", "desk", 1, "/jobs", "number:+1 415 555-0100\ntotpages:3\n", 201, '{"job":1}'),
    ("next", "w0", 1, "/modems/ttyS0/next", "", 200, '{"from":1,"grant":1,"job":1,"number":"+14155550100","to":3}'),
    (None, "w0", 2, "/grants/1/page", '{"page":1}', 409, '{"no":21,"word":"not-connected"}'),
    ("call", "w0", 3, "/grants/1/call", '{"result":"connected"}', 200, '{"stop":false}'),
    (None, "w0", 2, "/grants/1/page", '{"page":1}', 200, '{"npages":1,"stop":false}'),
    (None, "w0", 2, "/grants/1/page", '{"page":1}', 200, '{"npages":1,"stop":false}'),
    (None, "w0", 5, "/grants/1/outcome", OUTCOME, 409, '{"no":24,"word":"pages-mismatch"}'),
    ("page", "w0", 4, "/grants/1/page", '{"page":2}', 200, '{"npages":2,"stop":false}'),
    ("outcome", "w0", 5, "/grants/1/outcome", OUTCOME, 200, '{"job":1,"state":3}'),
]


# ---- what a power loss leaves of the changes that weren't synced, of a file that was so long at its last sync

def every(changes, length):
    return changes


def none(changes, length):
    return []


def first_half(changes, length):
    return changes[:len(changes) // 2]


def second_half(changes, length):
    return changes[len(changes) // 2:]


def other_bytes(changes, length):
    """All, but what was written past the end has other bytes."""
    def spoiled(change):
        if change[0] != "write":
            return change
        kind, place, data = change
        old = max(0, min(len(data), length - place))
        return kind, place, data[:old] + bytes(byte ^ 0xA5 for byte in data[old:])
    return [spoiled(change) for change in changes]


def pieces(size, odd=0):
    """Of each write every other piece of this size, counted from the start of the file."""
    def choose(changes, length):
        chosen = []
        for change in changes:
            if change[0] != "write":
                chosen.append(change)
                continue
            _, place, data = change
            first, last = place // size, (place + len(data) - 1) // size
            for piece in range(first + (first + odd) % 2, last + 1, 2):
                start, stop = max(piece * size, place), min((piece + 1) * size, place + len(data))
                chosen.append(("write", start, data[start - place:stop - place]))
        return chosen
    return choose


# For the database file, and for its log.
MODES = {
    "kept": (every, every),
    "lost": (none, none),
    "lost-wal": (every, none),
    "lost-db": (none, every),
    "part": (first_half, first_half),
    "torn": (second_half, second_half),
    "sectors": (pieces(SECTOR), pieces(SECTOR)),
}
MORE_MODES = {
    "odd-sectors": (pieces(SECTOR, 1), pieces(SECTOR, 1)),
    "bytes": (pieces(1), pieces(1)),
    "odd-bytes": (pieces(1, 1), pieces(1, 1)),
    "other-bytes": (other_bytes, other_bytes),
}
BROKEN_MODES = {"unsynced": (none, none), "unsynced-db": (none, every)}


def modes_of_run():
    """The ways in which files are left, and whether syncs count."""
    modes = {**MODES, **MORE_MODES} if said.all else MODES
    mode = option("mode")
    if mode:
        modes = {mode: {**MODES, **MORE_MODES, **BROKEN_MODES}[mode]}
    return modes, mode not in BROKEN_MODES


class Left:
    """A file: its bytes at its last sync, what changed since, and its names: the one on the disk or none, and behind it
    those that it had since the folder was synced."""

    def __init__(self, synced, names):
        self.synced, self.changes, self.names = synced, [], names

    def by(self, choose, more=()):
        """Its name and its bytes if these of the changes come to the disk, without a name where it isn't there."""
        naming = [("name", name) for name in self.names[1:]]
        chosen = choose(naming + self.changes + list(more), len(self.synced))
        name = self.names[-1] if chosen else self.names[0]
        data = bytearray(self.synced)
        for change in chosen:
            if change[0] == "name":
                name = change[1]
            elif change[0] == "write":
                _, place, written = change
                data.extend(bytes(max(0, place - len(data))))
                data[place:place + len(written)] = written
            elif change[0] == "cut":
                data = data[:change[1]] + bytes(max(0, change[1] - len(data)))
        return name, bytes(data)

    def sync(self):
        self.synced, self.changes = self.by(every)[1], []


class Disk:
    """The files of a folder as the journal of their calls tells them, and the call at which the process was stopped."""

    def __init__(self, files, journal, syncs=True):
        self.files, self.stopped, self.calls = {name: Left(data, [name]) for name, data in files.items()}, None, 0
        self.removed = []
        self.failed = []  # the kind of each call that failed, "mark" for a write of one byte
        self.syncs = 0  # how many were made
        at = 0
        while at < len(journal):
            self.calls += 1
            end = journal.index(b"\n", at)
            kind, name, place, count = journal[at:end].decode().split(" ")
            data = journal[end + 1:end + 1 + int(count)]
            at = end + 1 + int(count)
            call = kind, name, int(place), data
            if at == len(journal):
                self.stopped = call
                return
            end = journal.index(b"\n", at)
            result, at = int(journal[at:end]), end + 1
            if result < 0:
                self.failed.append("mark" if kind == "write" and len(data) == 1 else kind)
                continue
            self.syncs += kind == "sync"
            if kind != "sync" or syncs:
                self.make((kind, name, int(place), data[:result]) if kind == "write" else call)

    def make(self, call):
        kind, name, place, data = call
        if kind == "sync" and name == ".":
            self.removed = []
            for left in self.files.values():
                left.names = left.names[-1:]
        elif kind == "sync":
            self.files[name].sync()
        elif kind == "make":
            self.files[name] = Left(b"", [None, name])
        elif kind in ("rename", "unlink"):
            left, behind = self.files.pop(name), data.decode() or None
            expect(behind not in self.files, f"{behind} is replaced")
            left.names.append(behind)
            if behind:
                self.files[behind] = left
            else:
                self.removed.append(left)
        elif kind in ("write", "cut"):
            self.files[name].changes.append((kind, place, data) if kind == "write" else (kind, place))
        else:
            raise Wrong(f"{kind} of {name} isn't a call that this script knows")

    def layouts(self, modes, database=NAME):
        """The files that may be left of this database, each with how they came about."""
        for way, more in self.cuts():
            for mode, (of_file, of_others) in modes.items():
                files = {}
                for left in [*self.removed, *self.files.values()]:
                    choose = of_file if left.names[-1] == database else of_others
                    name, data = left.by(choose, more.get(left.names[-1], ()))
                    if name:
                        files[name] = data
                yield f"{way}, {mode}", files

    def cuts(self):
        """What of the last call is made: nothing, half of it, or its first sector."""
        if not self.stopped:
            yield "behind the last call", {}
            return
        kind, name, place, data = self.stopped
        what = f"{kind} of {len(data)} at {place}" if kind == "write" else kind
        yield f"before {what} of {name}", {}
        if kind == "write" and len(data) > 1:
            yield f"half of {what} of {name}", {name: [(kind, place, data[:len(data) // 2])]}
        if kind == "write" and len(data) > 2 * SECTOR:
            yield f"the first sector of {what} of {name}", {name: [(kind, place, data[:SECTOR])]}
        if kind == "cut":
            middle = (len(self.files[name].by(every)[1]) + place) // 2
            yield f"half of {what} of {name}", {name: [(kind, middle)]}


# ---- the files, and the system's look at them

def lay(folder, files):
    """A new folder with these files."""
    shutil.rmtree(folder, ignore_errors=True)
    folder.mkdir()
    for name, data in files.items():
        (folder / name).write_bytes(data)
    return folder


def taken(folder):
    return {file.name: file.read_bytes() for file in folder.iterdir()}


def rows(folder, name=NAME):
    """All rows of all tables, and what makes the tables, by the system's sqlite, which may change the files."""
    with database_of(folder / name) as database:
        def ask(text):
            return database.execute(text).fetchall()

        ask("PRAGMA synchronous = OFF")
        expect(ask("PRAGMA integrity_check") == [("ok",)], "sqlite finds the file unsound")
        made = ask("SELECT type, name, sql FROM sqlite_schema ORDER BY type DESC, name")
        tables = [name for kind, name, _ in made if kind == "table"]
        return {"": made, **{name: sorted(ask(f"SELECT * FROM {name}"), key=repr) for name in tables}}


NOTHING = {"": []}


def difference(wanted, found):
    """What is found too much, and what is missing."""
    told = []
    for name in sorted({*wanted, *found}):
        lines, others = wanted.get(name, []), found.get(name, [])
        told += [f"+{name or 'schema'}{line}" for line in others if line not in lines]
        told += [f"-{name or 'schema'}{line}" for line in lines if line not in others]
    return " ".join(told)[:300] or ("" if wanted == found else "the same rows, and not as often")


# ---- the server

class Tools:
    """A folder, with the setup, and a port."""

    def __init__(self, folder):
        self.folder, self.port = folder, free_port()
        (folder / "setup").write_text(SETUP)

    def look(self, files):
        """The rows. What is left of a start on an empty file may be no database yet, of one page at most."""
        try:
            return rows(lay(self.folder / "look", files))
        except sqlite3.DatabaseError:
            if len(files[NAME]) > PAGE:
                raise
            return NOTHING


class Office(Server):
    """`faxqd serve` on the file of a folder, for one connection or more. The machine's clock stands at one moment."""

    def __init__(self, tools, folder, libraries=("clocks",), connections=1, **settings):
        self.peer = None
        super().__init__(folder / NAME, "--setup", tools.folder / "setup", "--connections", str(connections), port=tools.port,
                         before=preload(libraries, FIXED_MOMENT=1000, **settings), waits=False, patience=PATIENCE)

    def __exit__(self, *_):
        if self.peer:
            self.peer.close()
        super().__exit__()

    def listens(self):
        """Whether it says that it does, and then there is a connection."""
        is_there = super().listens()
        expect(is_there or self.said == b"", f"it says {self.said!r} where it should listen")
        if is_there:
            self.connects()
        return is_there

    def connects(self):
        """Makes a connection, in place of the one before."""
        if self.peer:
            self.peer.close()
        self.peer = Peer(self.port, patience=PATIENCE).socket

    def starts(self):
        if not self.listens():
            raise Wrong(f"it doesn't start, and says {self.process.communicate()[1]!r}")

    def replies(self, said):
        """Whether the reply to a message comes, which is then the right one."""
        _, client, number, path, body, status, answer = said
        wanted = (f"HTTP/1.1 {status} {REASONS[status]}\r\nContent-Type: application/json\r\n"
                  f"Content-Length: {len(answer)}\r\n\r\n{answer}").encode()
        got = b""
        with contextlib.suppress(ConnectionError):
            self.peer.sendall(post(path, number, body, client))
            while len(got) < len(wanted) and (piece := self.peer.recv(len(wanted) - len(got))):
                got += piece
        expect(wanted.startswith(got), f"number {number} of {client} is answered {got!r}")
        return got == wanted

    def is_over(self):
        """Whether it ends by itself, and not by the library."""
        if self.peer:
            self.peer.close()
        try:
            _, err = self.process.communicate(timeout=PATIENCE)
        except subprocess.TimeoutExpired:
            raise Wrong("it doesn't end behind its connection") from None
        expect(self.process.returncode in (0, STOPPED), f"it ends with {self.process.returncode} and {err!r}")
        expect(err == b"", f"it says {err!r}")
        return self.process.returncode == 0


def undisturbed(tools, files, conversation):
    """What a server leaves that takes the whole conversation, by as many connections as it takes."""
    folder = lay(tools.folder / "undisturbed", files)
    with Office(tools, folder, connections=1 + max(0, len(conversation) - 1) // PER_CONNECTION) as server:
        server.starts()
        for place, said in enumerate(conversation):
            if place and place % PER_CONNECTION == 0:
                server.connects()
            expect(server.replies(said), f"number {said[2]} of {said[1]} isn't answered")
        expect(server.is_over(), "it is stopped without a reason")
    return taken(folder)
