"""`serve` is stopped at each call of the disk that a request or a start makes, before the call and in the midst of it, and
the files are laid out as a power loss may leave them. Each time the system's sqlite finds the file sound, with all rows as
they were before or all as they are behind it, and behind it where the reply had come. The program then starts on it, the same
request gets its reply, and there is one job, one grant or one counted page."""
import sqlite3

from .disk import (CONVERSATION, Disk, NAME, Office, Tools, difference, every, lay, modes_of_run, rows, taken, undisturbed)
from .runner import group
from .shared import Wrong, attempt, database_of, expect, expect_same, fault, run, said, say, told

check = group("stops", "Stops `serve` at each call of the disk that a request or a start makes; the files are then left as "
              "a power loss may leave them, and it starts on them.", "computing")
INDEXES = "DROP TABLE calls; DROP INDEX grants_by_job; DROP INDEX jobs_by_choice; DROP INDEX jobs_by_killtime"
OLD_INDEXES = ("CREATE INDEX jobs_by_killtime ON jobs (phase, killtime); CREATE INDEX jobs_by_choice ON jobs (phase, priority, "
               "tts, job, next, killtime, dial, modem); CREATE TABLE calls (dial TEXT PRIMARY KEY NOT NULL, open INTEGER NOT "
               "NULL) STRICT")
FIRST_VERSION = f"{INDEXES}; DROP TABLE times; DROP TABLE floors; UPDATE meta SET version = 1; {OLD_INDEXES}"
SECOND_VERSION = f"{INDEXES}; DROP TABLE times; UPDATE meta SET version = 2; {OLD_INDEXES}"
# Behind the first of these it gives its replies up.
FLOORS = [CONVERSATION[0], ("floor", "desk", 5, "/numbers/floor", '{"upto":3}', 200, '{"floor":3}')]
# Two jobs that are over, of which the first has two grants, one that a modem has, one that waits, and a third that is over. A purge
# of what was over before takes out three of these.
SENT = '{"dialed":true,"outcome":"done","pages":1}'
OVER = [
    *CONVERSATION,
    (None, "desk", 2, "/jobs", "number:5550111\ntotpages:1\n", 201, '{"job":2}'),
    (None, "w0", 6, "/modems/ttyS0/next", "", 200, '{"from":1,"grant":2,"job":2,"number":"5550111","to":1}'),
    (None, "w0", 7, "/grants/2/call", '{"result":"connected"}', 200, '{"stop":false}'),
    (None, "w0", 8, "/grants/2/page", '{"page":1}', 200, '{"npages":1,"stop":false}'),
    (None, "w0", 9, "/grants/2/outcome", SENT, 200, '{"job":2,"state":7}'),
    (None, "desk", 3, "/jobs/1/kill", "", 200, '{"job":1,"state":8}'),
    (None, "desk", 4, "/jobs", "number:5550112\ntotpages:1\n", 201, '{"job":3}'),
    (None, "w0", 10, "/modems/ttyS0/next", "", 200, '{"from":1,"grant":3,"job":3,"number":"5550112","to":1}'),
    (None, "desk", 5, "/jobs", "number:5550113\ntotpages:1\n", 201, '{"job":4}'),
    (None, "desk", 6, "/jobs", "number:5550114\ntotpages:1\n", 201, '{"job":5}'),
    (None, "desk", 7, "/jobs/5/kill", "", 200, '{"job":5,"state":8}'),
]
LONG_AGO = ("INSERT INTO grants VALUES (4, 1, 'ttyS1', 1, 3, 1, 0, 1); UPDATE meta SET next_grant = 5; "
            "UPDATE times SET submitted = 900, ended = 900 WHERE ended > 0")
PURGE = "purge", "adm", 1, "/jobs/purge", '{"before":1000}', 200, '{"purged":3}'
BEFORE_PURGE = [(None, "desk", 8, "/jobs", "number:5550115\ntotpages:1\n", 201, '{"job":6}')]


def filling(first, last):
    """Requests numbered so. Each fiftieth gives up the replies to the others, so that the file stays small."""
    return [(None, "w9", number, "/numbers/floor", f'{{"upto":{number - 1}}}', 200, f'{{"floor":{number - 1}}}') if number % 50 == 0
            else (None, "w9", number, f"/modems/ttyS1/{'down' if number % 2 else 'ready'}", "", 200,
                  f'{{"down":{"true" if number % 2 else "false"}}}') for number in range(first, last + 1)]


FILL = 1450  # so many requests fill the log but for what a start writes, so that the next start copies it into the file
AGAIN = "outcome, first", "outcome, later", "new-file"  # with --all the start on what these leave is swept too
FEW = "kept", "lost", "lost-db", "sectors"  # without --all a full log, which is large, is left in these


class Sweep:
    """A request, or a start where none is asked, on these files. A server first takes what was said before."""

    def __init__(self, tools, name, files, before, asked):
        self.tools, self.name, self.files, self.before, self.asked = tools, name, files, before, asked
        self.rows_before = tools.look(undisturbed(tools, files, before) if asked else files)
        self.rows_behind = tools.look(undisturbed(tools, files, before + ([asked] if asked else [])))
        self.stops, self.calls, self.left, self.tried = 0, 0, 0, {}

    def run(self, modes, syncs):
        """Stops it at each call. What is wrong with the files that are left is a fault, and the others are tried."""
        try:
            while self.disturb(self.stops + 1, modes, syncs):
                self.stops += 1
            expect(self.stops > 0, "no call of the disk is seen")
        except (Wrong, OSError, sqlite3.Error) as wrong:
            fault(f"{self.name}, call {self.stops + 1}, {told(wrong)}")

    def disturb(self, number, modes, syncs):
        """Stops it at this call of the disk, and tries all that may be left. Tells whether there was such a call."""
        replied, ended, journal, folder = self.stop_at(number)
        expect(replied or not ended, "it ends, and hasn't answered")
        disk = Disk(self.files, journal, syncs)
        expect(ended == (disk.stopped is None), "the journal doesn't end with the call")
        calls, self.calls = self.calls, disk.calls
        expect(number == 1 or disk.calls == calls + (not ended), "it isn't one call more than before")
        found = dict(left.by(every) for left in disk.files.values())
        expect(found == taken(folder), "the files aren't as the journal tells, so there are other calls")
        for how, files in disk.layouts(modes):
            self.left += 1
            mark = replied, *sorted(files.items())
            if mark not in self.tried:
                where = f"{self.name}, call {number}, {how}"
                self.tried[mark] = where, files
                with attempt(f"{where}{', behind the reply' if replied else ''}"):
                    self.is_taken(files, replied)
        return not ended

    def stop_at(self, number):
        """Stops it at this call. Tells whether the reply had come, whether it ended by itself, and gives the journal and the
        folder."""
        folder, journal, armed = (self.tools.folder / name for name in ("stopped", "journal", "armed"))
        for file in journal, armed:
            file.unlink(missing_ok=True)
        journal.touch()
        if not self.asked:
            armed.touch()
        lay(folder, self.files)
        with Office(self.tools, folder, ("clocks", "stop_disk"), DISK_FOLDER=folder, DISK_JOURNAL=journal, DISK_ARMED=armed,
                    DISK_STOP=number) as server:
            replied = server.listens()
            if self.asked:
                expect(replied, "it doesn't start")
                for said_before in self.before:
                    expect(server.replies(said_before), f"number {said_before[2]} of {said_before[1]} isn't answered")
                armed.touch()
                replied = server.replies(self.asked)
            ended = server.is_over()
        return replied, ended, journal.read_bytes(), folder

    def is_taken(self, files, replied):
        """The rows are those before or behind it, and the program starts on them and gives the same reply."""
        self.is_either(files, replied)
        folder = lay(self.tools.folder / "again", files)
        with Office(self.tools, folder) as server:
            server.starts()
            if self.asked:
                expect(server.replies(self.asked), "the same request isn't answered")
            expect(server.is_over(), "it is stopped without a reason")
        found = difference(self.rows_behind, rows(folder))
        expect(not found, f"behind the same once more the rows have {found}")

    def is_either(self, files, replied):
        found = self.tools.look(files)
        before, behind = difference(self.rows_before, found), difference(self.rows_behind, found)
        expect(not behind or not replied, f"it had answered, and the rows have {behind}")
        expect(not behind or not before, f"the rows have {before} for those before, and {behind} for those behind it")


def changed(tools, files, statements):
    """The files once the system's sqlite ran these statements."""
    folder = lay(tools.folder / "changed", files)
    with database_of(folder / NAME) as database:
        database.executescript(statements)
    return taken(folder)


def swept(tools, sweeps):
    """Makes these sweeps, and with --all those of the next start on what some of them leave."""
    counts, (modes, syncs) = [], modes_of_run()

    def sweep_by(sweep):
        is_short = sweep.name.startswith("full-log") and not said.all and len(modes) > 1
        sweep.run({name: modes[name] for name in FEW} if is_short else modes, syncs)
        counts.append((1, sweep.stops, sweep.left, len(sweep.tried)))

    for sweep in sweeps:
        sweep_by(sweep)
        if said.all and sweep.name in AGAIN:
            for where, files in sweep.tried.values():
                sweep_by(Sweep(tools, f"{where}, then the next start", files, [], None))
    count, stops, left, different = [sum(column) for column in zip(*counts)]
    say(f"{count} sweeps, {stops} stops, files left {left} times in {len(modes)} modes, {different} of them different")


def request(folder, name):
    """A request is swept as the first one of its server, whose commit syncs twice, and as one behind others, whose commit syncs
    once."""
    tools = Tools(folder)
    files = undisturbed(tools, {}, [])
    asked = [(CONVERSATION[:place], one) for place, one in enumerate(CONVERSATION)] + [(FLOORS[:1], FLOORS[1])]
    swept(tools, [sweep for before, one in asked if one[0] == name
                  for sweep in (Sweep(tools, f"{name}, first", undisturbed(tools, files, before), [], one),
                                Sweep(tools, f"{name}, later", {}, before, one))])


def start(folder, name, files, statements=None):
    """A start is swept on these files, or on what a conversation leaves once these statements ran."""
    tools = Tools(folder)
    if files is None:
        files = undisturbed(tools, {}, CONVERSATION)
        files = changed(tools, files, statements) if statements else files
    swept(tools, [Sweep(tools, name, files, [], None)])


@check
def submit(folder):
    """A submission is one job, wherever the server was stopped, and is there if it was answered."""
    request(folder, "submit")


@check
def next_(folder):
    """A question for work is one grant, wherever the server was stopped, and is there if it was answered."""
    request(folder, "next")


@check
def call(folder):
    """The report of a call counts once, wherever the server was stopped, and is there if it was answered."""
    request(folder, "call")


@check
def page(folder):
    """The report of a page counts once, wherever the server was stopped, and is there if it was answered."""
    request(folder, "page")


@check
def outcome(folder):
    """The report of an outcome counts once, wherever the server was stopped, and is there if it was answered."""
    request(folder, "outcome")


@check
def floor(folder):
    """Replies that are given up are all there or all gone, wherever the server was stopped."""
    request(folder, "floor")


@check
def purge(folder):
    """The jobs of a purge have all left, with their times and grants, or none, wherever the server was stopped, and have left if
    it was answered; either file is sound."""
    tools = Tools(folder)
    files = changed(tools, undisturbed(tools, {}, OVER), LONG_AGO)
    for asked, jobs, grants in ([], 5, 4), ([PURGE], 2, 1):
        left = lay(folder / "left", undisturbed(tools, files, asked))
        found = rows(left)
        counts = [len(found[name]) for name in ("jobs", "times", "grants")]
        expect(counts == [jobs, jobs, grants], f"after {asked} there are {found}")
        expect_same(run("check", "--db", left / NAME)[:2], (0, b"faxqd: sound\n"), f"'check' after {asked}")
    swept(tools, [Sweep(tools, "purge, first", files, [], PURGE), Sweep(tools, "purge, later", files, BEFORE_PURGE, PURGE)])


@check
def new_file(folder):
    """A start on no file that was stopped leaves what the next one takes."""
    start(folder, "new-file", {})


@check
def empty_file(folder):
    """A start on an empty file that was stopped leaves what the next one takes."""
    start(folder, "empty-file", {NAME: b""})


@check
def without_indexes(folder):
    """A start that makes the indexes and was stopped leaves what the next one takes."""
    start(folder, "without-indexes", None, INDEXES)


@check
def version_1(folder):
    """A start on a file of version 1 that was stopped leaves what the next one takes."""
    start(folder, "version-1", None, FIRST_VERSION)


@check
def version_2(folder):
    """A start on a file of version 2 that was stopped leaves what the next one takes."""
    start(folder, "version-2", None, SECOND_VERSION)


@check
def as_it_was(folder):
    """A start that changes nothing and was stopped leaves what the next one takes."""
    start(folder, "as-it-was", None)


@check
def full_log(folder):
    """A start that copies a full log into its file and was stopped leaves what the next one takes."""
    tools = Tools(folder)
    full = undisturbed(tools, {}, filling(1, FILL))
    expect(len(undisturbed(tools, full, [])[NAME]) > len(full[NAME]), "a start on a full log doesn't copy it")
    swept(tools, [Sweep(tools, "full-log", full, [], None)])


@check
def full_log_request(folder):
    """A request that copies a full log into its file counts once, wherever the server was stopped."""
    tools = Tools(folder)
    files = undisturbed(tools, {}, filling(1, FILL - 10))
    asked = filling(FILL - 9, FILL + 10)
    before = next((place for place in range(len(asked))
                   if len(undisturbed(tools, files, asked[:place + 1])[NAME]) > len(files[NAME])), None)
    expect(before, "no request copies the log, or the start does")
    swept(tools, [Sweep(tools, "full-log, request", files, asked[:before], asked[before])])
