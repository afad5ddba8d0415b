"""Listings of files whose jobs stand at the edges of their columns. The system's sqlite writes the jobs into a file that
`list` has made."""
import shutil

from .runner import group
from .shared import attempt, database_of, expect, expect_same, run

check = group("listings", "Prints listings of jobs at the edges of their columns, in each state, and in zones.", "computing")
HEADING = "   JID Pri S Number               Tag              Pages     Dials TTS              Status\n"
HELD, WAITING, GRANTED, DONE, FAILED = range(5)
PLAIN = {
    "job": 1, "dial": "5550111", "modem": "any", "jobtag": "", "status": "", "extra": "", "tts": 1000, "killtime": 0,
    "priority": 127, "npages": 0, "totpages": 1, "ntries": 0, "tottries": 0, "maxtries": 3, "ndials": 0, "totdials": 0,
    "maxdials": 12, "phase": WAITING, "wish": 0, "next": 0,
}
LATEST = 4102444800  # the last moment, 2100-01-01T00:00:00Z
EASTERN = "EST5EDT,M3.2.0,M11.1.0"

# A job, the zone, and its line. The moment is 1000.
LINES = [
    ({"dial": "+14155550100", "jobtag": "Quarterly report", "totpages": 3}, "UTC0",
     "     1 127 W +14155550100         Quarterly re       0:3      0:12 1970-01-01 00:16\n"),
    ({"job": 99999, "priority": 99}, "UTC0",
     " 99999  99 W 5550111                                 0:1      0:12 1970-01-01 00:16\n"),
    ({"job": 999999, "priority": 255}, "UTC0",
     "999999 255 W 5550111                                 0:1      0:12 1970-01-01 00:16\n"),
    ({"dial": "+123456789012345678", "jobtag": "elevenchars"}, "UTC0",
     "     1 127 W +123456789012345678  elevenchars        0:1      0:12 1970-01-01 00:16\n"),
    ({"dial": "+1234567890123456789", "jobtag": "twelve chars"}, "UTC0",
     "     1 127 W +1234567890123456789 twelve chars       0:1      0:12 1970-01-01 00:16\n"),
    ({"dial": "+12345678901234567890", "jobtag": "thirteen char"}, "UTC0",
     "     1 127 W +1234567890123456789 thirteen cha       0:1      0:12 1970-01-01 00:16\n"),
    ({"npages": 999, "totpages": 9999, "totdials": 999, "maxdials": 1000}, "UTC0",
     "     1 127 W 5550111                            999:9999  999:1000 1970-01-01 00:16\n"),
    ({"npages": 9999, "totpages": 9999, "totdials": 1000, "maxdials": 1000}, "UTC0",
     "     1 127 W 5550111                           9999:9999 1000:1000 1970-01-01 00:16\n"),
    # A character of several bytes is one, and a tab shows no more than it does.
    ({"jobtag": "été\t~"}, "UTC0",
     "     1 127 W 5550111              ?t??~              0:1      0:12 1970-01-01 00:16\n"),
    ({"phase": FAILED, "status": "No carrier\nnaïve"}, "UTC0",
     "     1 127 F 5550111                                 0:1      0:12 1970-01-01 00:16 No carrier?na?ve\n"),
    # The later of the two times is shown, in the zone.
    ({"next": 1060}, "UTC0",
     "     1 127 S 5550111                                 0:1      0:12 1970-01-01 00:17\n"),
    ({"tts": 0}, EASTERN,
     "     1 127 W 5550111                                 0:1      0:12 1969-12-31 19:00\n"),
    ({"tts": LATEST, "next": LATEST + 86400}, "UTC0",
     "     1 127 P 5550111                                 0:1      0:12 2100-01-02 00:00\n"),
]

# A job in each state, by ascending numbers. The sixth is at a modem, and the fourth waits for its number.
STATES = [{"job": 10, "phase": HELD, "dial": "1"}, {"job": 11, "tts": 1001, "dial": "2"}, {"job": 12, "next": 1001, "dial": "3"},
          {"job": 13}, {"job": 14, "dial": "5"}, {"job": 15, "phase": GRANTED}, {"job": 16, "phase": DONE, "dial": "6"},
          {"job": 17, "phase": FAILED, "dial": "7"}]
GRANT = ("INSERT INTO grants (id, job, modem, first_page, last_page, call, pages, shut) VALUES (1, 15, 'ttyS0', 1, 1, 0, 0, 0);"
         "INSERT INTO holds (modem, job, id) VALUES ('ttyS0', 15, 1)")
STATE_LINES = """\
    10 127 T 1                                       0:1      0:12 1970-01-01 00:16
    11 127 P 2                                       0:1      0:12 1970-01-01 00:16
    12 127 S 3                                       0:1      0:12 1970-01-01 00:16
    13 127 B 5550111                                 0:1      0:12 1970-01-01 00:16
    14 127 W 5                                       0:1      0:12 1970-01-01 00:16
    15 127 R 5550111                                 0:1      0:12 1970-01-01 00:16
    16 127 D 6                                       0:1      0:12 1970-01-01 00:16
    17 127 F 7                                       0:1      0:12 1970-01-01 00:16
"""


def listed(folder, *words):
    """What `list` prints of the file."""
    status, out, err, _ = run("list", "--db", folder / "queue.db", *words, patience=60)
    expect(status == 0 and err == b"", f"'list' ends with {status}, and says {err!r}")
    return out.decode()


def listing(empty, folder, jobs, zone, more=""):
    """The listing of these jobs at the moment 1000."""
    shutil.copytree(empty, folder)
    with database_of(folder / "queue.db") as database:
        for job in jobs:
            row = {**PLAIN, **job}
            names = ", ".join(row)
            database.execute(f"INSERT INTO jobs ({names}) VALUES ({', '.join('?' * len(row))})", list(row.values()))
        database.executescript(f"UPDATE meta SET next_job = 1000000, next_grant = 2; {more}")
    (folder / "setup").write_text(f"Modem: ttyS0\nTimeZone: {zone}\n")
    return listed(folder, "--setup", folder / "setup", "--moment", "1000")


@check
def edges(folder):
    """Numbers, tags and statuses of every length and with characters that ASCII doesn't print, and times in zones, stand in
    their columns."""
    lists(folder, [([job], zone, "", line) for job, zone, line in LINES])


@check
def states(folder):
    """A job in each state is listed by its number, however the jobs stand in the file."""
    lists(folder, [(jobs, "UTC0", GRANT, STATE_LINES) for jobs in (STATES, STATES[::-1])])


def lists(folder, cases):
    """An empty queue has the heading alone, and each of these has its lines."""
    empty = folder / "empty"
    empty.mkdir()
    (empty / "queue.db").touch()
    expect_same(listed(empty), HEADING, "a queue without jobs is listed as")
    for number, (jobs, zone, more, lines) in enumerate(cases):
        with attempt(f"{jobs} in {zone}"):
            expect_same(listing(empty, folder / str(number), jobs, zone, more), HEADING + lines, "the listing")
