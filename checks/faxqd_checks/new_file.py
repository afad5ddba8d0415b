"""How `faxqd` makes the file of a new queue, and when it doesn't."""
import fcntl
import subprocess

from .disk import NAME, PATIENCE, lay, taken
from .runner import group
from .shared import Peer, Server, attempt, database_of, expect, rows_of, said, submission

check = group("new-file", "Compares the empty database that a new queue begins as with the one that the system's sqlite "
              "makes; what else stands under the names that a start uses, and several starts at once.", "computing")
PAGE = 512
LOG, BESIDE = "queue.db-wal", "queue.db-empty"
VERSION = slice(96, 100)  # the number of the sqlite that has written the file
STARTS, ROUNDS = 6, 10  # starts at once, and how often
BUSY = b"faxqd: database\n"
SUBMISSION = submission(1)


def empty(folder, page):
    """The bytes of an empty database with a log, as the system's sqlite makes it."""
    file = folder / f"empty-{page}"
    with database_of(file) as database:
        for text in f"PRAGMA page_size = {page}", "PRAGMA journal_mode = WAL", "VACUUM":
            database.execute(text)
    return file.read_bytes()


def without_version(data):
    return data[:VERSION.start] + bytes(4) + data[VERSION.stop:]


class Start(Server):
    """`faxqd serve` on the file, one of several starts."""

    def __init__(self, folder, name=NAME):
        super().__init__(name, folder=folder.folder, waits=False, patience=PATIENCE)

    def answers(self):
        """Whether it takes a job."""
        with Peer(self.port, patience=PATIENCE) as peer:
            peer.say(SUBMISSION)
            return peer.reply().endswith(b'{"job":1}')

    def end(self, listened):
        """Ends it; gives what it said."""
        if listened:
            self.process.kill()
        return self.process.communicate(timeout=PATIENCE)[1]


class Folder:
    """A folder in which the program is run."""

    def __init__(self, scratch):
        self.scratch, self.folder = scratch, scratch / "queue"

    def starts(self, files, name=NAME):
        """Lays out the files, starts a server on a queue and ends it. Tells whether it listened, and the files behind it."""
        lay(self.folder, files)
        return self.starts_again(name)

    def starts_again(self, name=NAME):
        start = Start(self, name)
        listened = start.listens()
        told = start.end(listened)
        expect(told == (b"" if listened else BUSY), f"it says {told!r}")
        expect(listened or start.process.returncode == 1, f"it ends with {start.process.returncode}")
        return listened, taken(self.folder)

    def lists(self, files, name=NAME):
        """Lays out the files and lists the jobs of a queue. Tells whether there is one, and the files behind it."""
        lay(self.folder, files)
        done = subprocess.run([said.program, "list", "--db", name, "--moment", "1000"], cwd=self.folder, capture_output=True)
        expect((done.returncode, done.stderr) in ((0, b""), (1, BUSY)),
               f"'list' ends with {done.returncode} and says {done.stderr!r}")
        return done.returncode == 0, taken(self.folder)

    def page_size(self):
        return rows_of(self.folder / NAME, "PRAGMA page_size")[0][0]


def is_made(folder, files, what):
    """The queue is new, it has small pages, and nothing is left beside it."""
    started, left = folder.starts(files)
    expect(started, f"it doesn't start {what}")
    expect(sorted(left) == [NAME, LOG], f"{what} it leaves {sorted(left)}")
    expect(folder.page_size() == PAGE, f"{what} its pages have {folder.page_size()} bytes")
    return left


@check
def bytes_are_those_of_sqlite(scratch):
    """The empty database that a new queue begins as has the bytes that the system's sqlite makes, but for its version."""
    left, wanted = is_made(Folder(scratch), {}, "on no file"), empty(scratch, PAGE)
    found = [place for place, (one, other) in enumerate(zip(left[NAME], wanted)) if one != other]
    expect(without_version(left[NAME]) == without_version(wanted),
           f"the file has {len(left[NAME])} bytes and differs from that of sqlite at {found}")


@check
def pages_are_kept(scratch):
    """A file that is there keeps its pages, and one that is empty gets those of the engine."""
    folder = Folder(scratch)
    for page in 1024, 2048, 4096:
        with attempt(f"pages of {page}"):
            started, _ = folder.starts({NAME: empty(scratch, page)})
            expect(started and folder.page_size() == page, f"the file has pages of {folder.page_size()}")
    started, _ = folder.starts({NAME: b""})
    expect(started and folder.page_size() == 4096, f"an empty file gets pages of {folder.page_size()}")


@check
def left_of_a_start(scratch):
    """What a start that was stopped has left is taken over, and what is longer isn't of one, and stays."""
    whole, folder = empty(scratch, PAGE), Folder(scratch)
    for data in b"", whole[:100], whole, b"x" * PAGE:
        with attempt(f"{len(data)} bytes"):
            is_made(folder, {BESIDE: data}, f"beside {len(data)} bytes")
    files = {BESIDE: b"x" * (PAGE + 1)}
    expect(folder.starts(files) == (False, files), "a longer file isn't left as it is")


@check
def one_start_makes_it(scratch):
    """A start refuses while another one writes."""
    folder = Folder(scratch)
    lay(folder.folder, {BESIDE: b"x"})
    with open(folder.folder / BESIDE, "rb+") as other:
        fcntl.flock(other, fcntl.LOCK_EX)
        expect(folder.starts_again() == (False, {BESIDE: b"x"}), "it writes what another start has locked")


@check
def others_are_left(scratch):
    """A log or a journal without its file is the engine's matter, and so is what is no name of a file."""
    folder = Folder(scratch)
    for name in LOG, "queue.db-journal":
        with attempt(name):
            _, left = folder.starts({name: b""})
            expect(BESIDE not in left and len(left.get(NAME, b"")) != PAGE, "it makes a file beside it")
    for name in "", ":memory:", "file:queue.db", "missing/queue.db", "queue.db/":
        with attempt(f"'{name}'"):
            expect(folder.starts({}, name) == (False, {}), "it makes a file")


@check
def listing_makes_none(scratch):
    """`list` makes no file, and leaves what stands beside its name as it is."""
    folder = Folder(scratch)
    for files in {}, {LOG: b""}, {BESIDE: b"x"}:
        with attempt(f"beside {sorted(files)}"):
            expect(folder.lists(files) == (False, files), "it doesn't leave all as it is")


@check
def starts_at_once(folder):
    """Of six starts at once on one name one serves, and what it answered is there at the next start."""
    place = Folder(folder)
    for _ in range(ROUNDS):
        lay(place.folder, {})
        starts = [Start(place) for _ in range(STARTS)]
        listened = {}
        try:
            for start in starts:
                listened[start] = start.listens()
            serving = [start for start in starts if listened[start]]
            expect(len(serving) == 1, f"of {STARTS} starts at once {len(serving)} serve")
            expect(serving[0].answers(), "the one that serves doesn't take a job")
        finally:
            told = [start.end(listened.get(start, True)) for start in starts]
        expect(sorted(told) == [b""] + [BUSY] * (STARTS - 1), f"of {STARTS} starts at once it says {told}")
        expect(sorted(taken(place.folder)) == [NAME, LOG], "more than the file and its log is left")
        with Start(place) as again:
            expect(again.listens() and again.answers(), "a repeat isn't answered behind several starts")

