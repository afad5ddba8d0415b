"""What the desk keeps, and how much: limits of each user, what is deleted when, and faxes older than the newest 200."""
import concurrent.futures
import html.parser
import json
import secrets
import time

from .desk import REJECTS, TEXT, TWO_PAGES, check, ends, office, png, within
from .mail_server import MailServer
from .shared import attempt, database_of, expect, expect_same

DAY = 86400


def fault_of(got, status, part):
    """An upload is refused with this status, and with a sentence that has this."""
    expect(got[0] == status and part in got[1].get("fault", ""), f"an upload is answered {got}")


def files_in(desk):
    """The uploads and documents of a desk, without previews, each with its bytes."""
    folders = (desk.folder / "desk" / kind for kind in ("uploads", "documents"))
    return {file.name: file.stat().st_size for folder in folders for file in folder.iterdir() if file.suffix != ".png"}


@check
def waiting_limit(folder):
    """A user has as many faxes that aren't over as the settings allow: one more is refused with a sentence and nothing of it is
    stored, but a repeated one is the same fax; other users have their own limit, and an end makes room."""
    with office(folder, waiting=2) as (server, desk):
        token = secrets.token_urlsafe(16)
        expect_same(desk.submit(TEXT, token=token)[0], 201, "the first upload")
        with concurrent.futures.ThreadPoolExecutor(6) as pool:
            got = sorted(status for status, _ in pool.map(desk.submit, [TWO_PAGES] * 6))
        expect_same(got, [201, *[429] * 5], "six more at once")
        for number in 1, 2:
            desk.settled(number, "submitted")
        before = files_in(desk)
        fault_of(desk.submit(b"A third one.\n"), 429, "2 faxes that aren't over")
        expect_same(files_in(desk), before, "what is stored")
        status, fax = desk.submit(TEXT, token=token)
        expect_same((status, fax["id"]), (201, 1), "the first form again")
        expect_same(desk.submit(TEXT, "otto")[0], 201, "another user's upload")
        ends(server, 1, "done")
        within("the end is seen", lambda: desk.fax(1)["state"] == "done")
        expect_same(desk.submit(TEXT)[0], 201, "an upload after an end")
        fault_of(desk.submit(TEXT), 429, "2 faxes that aren't over")
        for fax in desk.ask("GET", "/faxes", user="chief")[1]["faxes"]:
            desk.settled(fax["id"], "submitted", user="chief")


@check
def daily_limit(folder):
    """A user uploads as many megabytes within 24 hours as the settings allow: more is refused with a sentence and isn't stored,
    whether the faxes of before are over or not, and is accepted the next day."""
    with office(folder, daily=1) as (_, desk):
        large = b"%!PS\n" + b"% a comment\n" * 50_000  # of 600,005 bytes, and without a page
        desk.settled(desk.submit(large)[1]["id"], "unusable")
        before = files_in(desk)
        fault_of(desk.submit(large + b"% another\n"), 429, "more than 1 MB")
        expect_same(files_in(desk), before, "what is stored")
        expect_same(desk.submit(large, "otto")[0], 201, "another user's upload")
        desk.database("UPDATE faxes SET created = created - ? WHERE owner = 'anna'", DAY + 1)
        expect_same(desk.submit(large + b"% another\n")[0], 201, "the same a day later")


def fill_for_retention(server, desk):
    """Faxes in each way to be over: 1 sent, 2 failed, 3 unusable, 5 the rest of 2, 6 sent, with the document of 1, 8 refused by
    the queue. 4 is suspended, and 7 and 9 wait."""
    for data, user in (TWO_PAGES, "anna"), (TEXT, "anna"), (b"<html>", "anna"), (png(40, 30), "anna"):
        desk.settled(desk.submit(data, user)[1]["id"], "submitted", "unusable")
    within("its state", lambda: desk.fax(4)["state"])
    expect_same(desk.ask("POST", "/faxes/4/suspend")[0], 202, "suspend")
    ends(server, desk.fax(1)["job"], "done")
    ends(server, desk.fax(2)["job"], "fail")
    within("the ends are seen", lambda: [desk.fax(number)["state"] for number in (1, 2, 4)] == ["done", "failed", "suspended"])
    expect_same(desk.ask("POST", "/faxes/2/again")[1]["id"], 5, "the rest")
    desk.settled(5, "submitted")
    expect_same(desk.submit(TWO_PAGES, "otto")[1]["id"], 6, "a fax with a document as another's")
    ends(server, desk.settled(5, "submitted")["job"], "done")
    ends(server, desk.settled(6, "submitted", user="otto")["job"], "done")
    expect_same(desk.submit(b"The newest.\n", "otto")[1]["id"], 7, "the newest")
    desk.settled(7, "submitted", user="otto")
    within("the last ends are seen", lambda: desk.fax(6, "otto")["state"] == desk.fax(5)["state"] == "done")
    desk.settled(desk.submit(TEXT, number="666")[1]["id"], "refused")
    expect_same(desk.settled(desk.submit(b"Really.\n", "otto")[1]["id"], "submitted", user="otto")["id"], 9, "the last one")
    within("nobody is to be told", lambda: desk.database("SELECT count(*) FROM faxes WHERE is_told = 1") == [(6,)])


@check
def retention(folder):
    """A fax that was over for as many days as the settings keep it is deleted with its files, unless another fax has them; what
    waits, was over later, or is the newest stays, and so does everything without the setting. Nobody's fax is deleted before
    its owner has the mail. What an upload left that became no fax is deleted, and the numbers of faxes aren't given again."""
    with MailServer() as mails, office(folder, REJECTS, **mails.settings()) as (server, desk):
        fill_for_retention(server, desk)
        documents = dict(desk.database("SELECT id, document FROM faxes"))
        uploads = {number: names.split() for number, names in desk.database("SELECT id, uploads FROM faxes")}
        long_ago = int(time.time()) - 31 * DAY
        desk.database("UPDATE faxes SET created = ?, ended = CASE WHEN ended > 0 THEN ? END WHERE id <> 6", long_ago, long_ago)
        desk.database("UPDATE faxes SET created = ?, ended = ? WHERE id = 6", long_ago, int(time.time()) - 29 * DAY)
        desk.kill()
        (folder / "desk/uploads" / ("a" * 64)).write_text("left by a desk that was killed")
        desk.start()
        within("the file of no fax is deleted", lambda: not (folder / "desk/uploads" / ("a" * 64)).exists())
        expect_same(desk.database("SELECT count(*) FROM faxes"), [(9,)], "without the setting the faxes that are left")
        expect(any((folder / "desk/requests/refused").iterdir()), "the refused request isn't there")
        desk.kill()
        text = (folder / "desk.toml").read_text()
        (folder / "desk.toml").write_text(f"{text}days = 30\n")
        desk.database("UPDATE faxes SET is_told = 0 WHERE id = 3")
        mails.refuses = True
        desk.start()
        numbers = "SELECT id FROM faxes ORDER BY id"
        within("old faxes are deleted", lambda: desk.database(numbers) == [(3,), (4,), (6,), (7,), (9,)])
        within("their files are deleted", lambda: not (folder / "desk/uploads" / uploads[2][0]).exists())
        within("the refused request is deleted", lambda: not any((folder / "desk/requests/refused").iterdir()))
        for number in 4, 6, 7, 9:
            with attempt(f"fax {number}"):
                expect(desk.ask("GET", f"/faxes/{number}/pages/1", user="chief")[0] == 200, "its page isn't shown")
        wanted = {name for number in (3, 4, 6, 7, 9) for name in uploads[number]}
        wanted |= {f"{documents[number]}.tif" for number in (4, 6, 7, 9)}
        within(lambda: f"{sorted(wanted)} are the files that are left, not {sorted(files_in(desk))}",
               lambda: sorted(files_in(desk)) == sorted(wanted))
        desk.kill()
        desk.database("UPDATE faxes SET stage = 'unusable', is_told = 1, created = 1, ended = 1 WHERE id IN (6, 9)")
        desk.start()
        within("another old one is deleted", lambda: desk.ask("GET", "/faxes/6", user="chief")[0] == 404)
        expect_same(desk.submit(TEXT, "otto")[1]["id"], 10, "the fax after the newest one, which is old as well")
        desk.settled(10, "submitted", user="otto")


class Links(html.parser.HTMLParser):
    """The links of a page."""

    def __init__(self, text):
        super().__init__()
        self.found, self.inside = [], None
        self.feed(text)

    def handle_starttag(self, tag, attributes):
        self.inside = dict(attributes) if tag == "a" else self.inside

    def handle_endtag(self, tag):
        self.inside = None if tag == "a" else self.inside

    def handle_data(self, data):
        if self.inside:
            self.found.append((self.inside["href"], data.strip()))

    def to(self, text):
        return next((place for place, said in self.found if said == text), None)


def walked(desk, user):
    """The numbers of the faxes on each page that a user sees, from link to link."""
    place, pages = "/", []
    while place:
        status, text = desk.ask("GET", place, user=user, Accept="text/html")
        expect_same(status, 200, f"the status of {place}")
        links = Links(text.decode())
        pages.append([int(said) for where, said in links.found if where == f"/faxes/{said}"])
        expect_same(links.to("Newest faxes"), "/" if place != "/" else None, f"the way back from {place}")
        place = links.to("Older faxes")
    return pages


@check
def older(folder):
    """Behind the newest 200 faxes links lead to all older ones of the user, and to nobody else's; programs get the same."""
    with office(folder) as (_, desk):
        row = ("INSERT INTO faxes (owner, token, created, number, name, resolution, file_name, uploads, stage, reason) "
               "VALUES (?, ?, 1, '5550111', '', 'fine', 'x', '', 'unusable', 'no')")
        owners = ["anna" if number % 3 else "otto" for number in range(1, 661)]
        with database_of(folder / "desk/desk.db") as database:
            database.execute("BEGIN")
            database.executemany(row, [(owner, f"token-{number}") for number, owner in enumerate(owners)])
            database.execute("COMMIT")
        own = [number for number in range(660, 0, -1) if number % 3]
        pages = walked(desk, "anna")
        expect_same([sorted(page, reverse=True) for page in pages], [own[:200], own[200:400], own[400:]], "anna's faxes")
        expect_same([len(page) for page in walked(desk, "otto")], [200, 20], "how many otto has on each page")
        expect_same([len(page) for page in walked(desk, "chief")], [200, 200, 200, 60], "how many all have on each page")
        listed, before = [], ""
        while faxes := desk.ask("GET", f"/faxes{before}")[1]["faxes"]:
            listed += sorted((fax["id"] for fax in faxes), reverse=True)
            before = f"?before={listed[-1]}"
        expect_same(listed, own, "what a program gets")
        for before in "x", "", "-1", "9" * 30, "0", "1.5", "5&before=6":
            with attempt(before):
                status, text = desk.ask("GET", f"/?before={before}", Accept="text/html")
                expect_same(status, 200, "the status")
        expect(json.dumps(desk.ask("GET", "/faxes?before=0")[1]) == '{"faxes": []}', "before the first fax there is one")
