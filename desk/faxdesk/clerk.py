"""What the desk does by itself: it makes documents of uploads, submits them to the queue, watches their jobs, and deletes what
is old. Killed at any moment, it continues with what it began."""
import json
import logging
import pathlib
import threading
import time

from .client import OVER, TAGS, TIMES, Fault, Impatient, Lost, job_of, lines, states_in
from .documents import Unusable
from .metrics import Metrics
from .notices import Notices

log = logging.getLogger("faxdesk")
RECENT = 60  # seconds for which a fault is shown
HOUR, DAY = 3600, 86400
GIVEN_UP = "It was given up before it was submitted."  # the reason of a fax that isn't to be submitted
LOOKS = 30  # after which a file whose conversion had a fault is tried again


class Clerk:
    """The desk as one client of the queue. Its requests are kept in a folder, as faxq keeps them."""

    def __init__(self, settings, store, documents, folder):
        self.settings, self.store, self.documents, self.folder = settings, store, documents, folder
        self.queue = Impatient(settings.server, settings.client)
        # The requests that were sent before, by this desk or by one that was killed.
        self.sent = {number for number, _ in self.folder.left(self.folder.waiting)}
        self.queue_trouble, self.last_fault = "The queue hasn't been asked yet.", float("-inf")
        self.metrics, self.notices = Metrics(), Notices(settings, store)
        self.converted = {}  # when a conversion for each user ended last
        self.faulty = {}  # the faxes whose conversion had a fault, each with the time of the next try
        self.next_cleaning = float("-inf")

    def start(self):
        for does in self.converts, self.asks, self.notices.sends, self.cleans:
            threading.Thread(target=self.goes_on, args=(does,), name=does.__name__, daemon=True).start()

    def goes_on(self, does):
        while True:
            try:
                does()
            except Exception:
                self.has_fault()
            time.sleep(self.settings.pause)

    def has_fault(self):
        """Logs a fault, which keeps one fax or one look from going on, and not the others."""
        log.exception("a fault of the desk")
        self.last_fault = time.monotonic()

    @property
    def trouble(self):
        """What is wrong, as a sentence, or nothing."""
        recent = time.monotonic() - self.last_fault < RECENT
        return self.queue_trouble or ("The desk has a fault, which its log shows." if recent else "")

    # ---- documents

    def converts(self):
        """Makes documents, by turns of the users, so that nobody waits for all files of another."""
        while faxes := [fax for fax in self.store.at("uploaded") if self.faulty.get(fax["id"], 0) <= time.monotonic()]:
            fax = min(faxes, key=lambda fax: (self.converted.get(fax["owner"], 0), fax["id"]))
            if fax["reason"] == GIVEN_UP:
                self.store.change(fax["id"], stage="unusable", ended=int(time.time()))
                continue
            try:
                document, pages = self.documents.convert(fax["uploads"].split(), fax["resolution"])
                self.store.change(fax["id"], stage="ready", document=document, pages=pages)
            except Unusable as why:
                self.store.change(fax["id"], stage="unusable", reason=str(why), ended=int(time.time()))
            except Exception:
                self.has_fault()
                self.faulty[fax["id"]] = time.monotonic() + LOOKS * self.settings.pause
            self.converted[fax["owner"]] = time.monotonic()

    def cleans(self):
        """Once an hour deletes the faxes that were over long ago, and the files that no fax has."""
        if time.monotonic() < self.next_cleaning:
            return
        self.next_cleaning = time.monotonic() + HOUR
        for fax in self.store.over_before(int(time.time()) - self.settings.days * DAY) if self.settings.days else ():
            if fax["stage"] == "refused":
                self.folder.forget(submission_of(fax))
            self.store.delete(fax["id"])
        self.documents.clean(self.store.files())

    def stored(self, owner):
        """The bytes that a user's faxes of the last day take."""
        return sum(map(self.documents.size, self.store.since(owner, int(time.time()) - DAY)))

    # ---- requests

    def asks(self):
        """One round: what is kept is sent, then the jobs are looked at."""
        try:
            kept = [request["words"] for _, request in self.folder.left(self.folder.waiting)]
            for fax in self.store.at("ready"):
                if submission_of(fax) not in kept:
                    self.keep_submission(fax)
            for fax in self.store.unfinished():
                if fax["reason"] == GIVEN_UP:
                    self.keep_action(fax, "kill")
            for number, request in list(self.folder.left(self.folder.waiting)):
                try:
                    self.send(number, request)
                except (Lost, Fault):
                    raise
                except Exception:
                    self.has_fault()
            self.look()
        except Lost as why:
            self.queue_trouble = f"The queue doesn't answer: {why}."
        except Fault as why:
            self.queue_trouble = f"The queue can't be asked: {why}."
        else:
            self.queue_trouble = ""

    def request(self, words, path, body):
        return {"server": self.queue.url, "client": self.queue.client, "login": self.queue.login, "words": words,
                "moment": int(time.time()), "path": path, "body": body}

    def keep_submission(self, fax):
        """Keeps the request that submits a fax, unless it was given up or refused."""
        words = submission_of(fax)
        if fax["reason"] == GIVEN_UP:
            self.store.change(fax["id"], stage="unusable", ended=int(time.time()))
            return
        if self.folder.was_refused(words=words):  # killed before it was noted
            self.refuse(fax["id"], "The queue refuses it, and may have accepted it before.")
            return
        pairs = [("number", fax["number"]), ("totpages", fax["pages"])]
        if fax["name"]:
            pairs.append(("jobtag", fax["name"]))
        if fax["send_at"]:
            pairs.append(("tts", fax["send_at"]))
        pairs += ("tiff", f"0::{self.documents.file(fax['document'])}"), ("owner", fax["owner"])
        self.folder.keep(self.request(words, "/jobs", lines(pairs)))

    def refuse(self, fax, reason):
        self.store.change(fax, stage="refused", reason=reason, ended=int(time.time()))

    def act(self, fax, action):
        """Does what a button says. A fax that has no job yet can be given up alone; if its submission may be under way, it is
        killed when the queue has answered."""
        if fax["stage"] == "submitted":
            self.keep_action(fax, action)
        else:
            self.store.change(fax["id"], reason=GIVEN_UP)

    def keep_action(self, fax, action):
        """Keeps the request that changes a job, unless it is kept already."""
        words = [action, str(fax["id"])]
        if not any(self.folder.left(self.folder.waiting, words=words)):
            self.folder.keep(self.request(words, f"/jobs/{fax['job']}/{action}", ""))

    def send(self, number, request):
        word, fax = request["words"][0], int(request["words"][1])

        def note(answer):
            if word == "submit":
                self.store.change(fax, stage="submitted", job=answer["job"])

        if word != "submit" and not self.has_job(fax):
            (self.folder.waiting / number).unlink()  # it would change another one's job
            return
        before = number in self.sent
        self.sent.add(number)
        try:
            self.folder.send(self.queue, number, request, before, note)
        except Fault as why:
            if why.status != 1:
                raise
            if word == "submit":
                self.refuse(fax, f"The queue refuses it. {why}")
            else:
                log.info("%s of fax %s: %s", word, fax, why)

    # ---- jobs

    def shown(self, path):
        """What the queue shows at a path, or nothing if it has no such job."""
        status, text = self.queue.once("GET", path)
        if status == 404 and json.loads(text)["word"] == "no-job":
            return None
        if status != 200:
            raise Lost(f"the reply is {status}")
        return text

    def has_job(self, number):
        """Whether the queue still has the job of a fax."""
        fax = self.store.fax(number)
        return bool(fax) and self.look_at(fax)

    def look(self):
        """Looks at the jobs that aren't over: at all of them if the queue didn't answer before, since it may be another one
        now. The newest are in one listing, which shows whether a look at one is due."""
        listing = self.shown("/jobs/newest")
        states = states_in(listing)
        self.metrics.saw(listing, states, self.shown("/modems"), lambda job: self.shown(f"/jobs/{job}/times"))
        for fax in self.store.unfinished():
            state = states.get(fax["job"])
            if self.queue_trouble or state is None or state == 6 or state != fax["state"]:
                self.look_at(fax)

    def look_at(self, fax):
        """Notes the state of a fax's job. Returns whether the queue has that."""
        text = self.shown(f"/jobs/{fax['job']}")
        if not is_job_of(fax, text):
            self.store.change(fax["id"], state=0, ended=int(time.time()))
            return False
        job = dict(job_of(text)[:len(TAGS)])
        state, ended = int(job["state"]), None
        if state in OVER:
            times = self.shown(f"/jobs/{fax['job']}/times")
            ended = int(TIMES.fullmatch(times)[2]) if times else None
        self.store.change(fax["id"], state=state, confirmed=int(job["npages"]), status=job["status"], ended=ended)
        return True


def submission_of(fax):
    """The arguments of the request that submits a fax."""
    return ["submit", str(fax["id"])]


def is_job_of(fax, text):
    """Whether this is a fax's job: a queue that was restored or replaced gives its number to another one."""
    more = dict(job_of(text)[len(TAGS):]) if text else {}
    name = pathlib.PurePath(more.get("tiff", "")).name
    return (more.get("owner"), name) == (fax["owner"], f"{fax['document']}.tif")
