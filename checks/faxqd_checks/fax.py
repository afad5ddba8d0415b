"""Real faxes: a document goes through the queue, examples/efax-worker, efax and a telephone line in memory to another efax. Each third reply of the queue is lost on its way. Each part has a queue, a worker and a line of its own."""
import functools
import itertools
import os
import random
import re
import shutil
import signal
import threading
import time

from .desk import Desk, wants_all
from .fax_line import Office, Tools, image, render
from .mail_server import MailServer
from .runner import group
from .shared import Wrong, expect, fault, new_folder, say, told, within

check = group("fax", "Sends real faxes over spandsp's soft modems and a line in memory; each page comes once and as it was "
              "sent.", "fax")


def fault_of(part, tools, folder):
    """What goes wrong in a part, or nothing."""
    office = Office(tools, folder)
    try:
        office.start()
        part(office)
        office.recorder.look()
    except Exception as wrong:
        says = (folder / "worker").read_text().strip() if office.worker else ""
        return told(wrong) + (f"; the worker says {says}" if says else "")
    finally:
        office.stop()


def part(function):
    """A check of an office of its own; the parts run side by side."""
    @functools.wraps(function)
    def tried(folder):
        if wrong := fault_of(function, Tools(), folder):
            raise Wrong(wrong)
    check(tried)
    return function


@part
def busy_and_cut(office):
    """The number is busy, then the line is cut in page 2, then all goes well, and each page comes once."""
    office.line.say("busy")
    office.send()
    office.await_line("a page is under way", 2)
    office.line.say("cut")
    office.has_sent([1, 2, 3], dials=3, tries=2)
    expect(office.line.happened("the number is busy") == 1, "the number wasn't busy")
    office.gives_reasons("busy", "page 2 isn't confirmed: no command/response from remote", "")


@part
def worker_killed(office):
    """The worker is killed twice within a call, which goes on, and each page comes once."""
    office.send()
    office.await_report("page", 1)
    office.kill(office.worker)
    office.start_worker()
    time.sleep(2)
    expect(len(office.calls()) == 1, f"there are {len(office.calls())} calls at a time")
    office.await_report("page", 2)
    office.kill(office.worker)
    office.start_worker()
    office.has_sent([1, 2, 3], dials=1, tries=1)


@part
def often_killed(office):
    """The worker is killed at a random moment again and again, and each page comes once."""
    chance = random.Random(7)
    office.send()
    for kills in itertools.count():
        if office.job().get("state") in ("7", "8"):
            break
        time.sleep(chance.uniform(0.2, 1.5 + kills / 10))  # so that a slow machine makes progress
        office.kill(office.worker)
        office.start_worker()
    office.has_received([1, 2, 3])
    office.ends_with(0, "is done")


@part
def commands_killed(office):
    """The worker's commands are killed at random moments, and the server with them, and each page comes once."""
    chance, kills = random.Random(8), 0
    office.send()
    while office.job().get("state") not in ("7", "8"):
        time.sleep(chance.uniform(0.1, 1))
        expect(office.worker.poll() is None, "the worker ends")
        kills += office.kill_next_commands(0.5)
        if chance.random() < 0.1:
            office.server.kill()
            office.server.start()
    expect(kills, "no command was killed")
    office.has_sent([1, 2, 3], dials=1, tries=1)


@part
def both_killed(office):
    """The worker and efax are killed within a call, and each page comes once, in two calls."""
    office.send()
    office.await_line("the call is connected")
    efax, = office.calls()
    office.worker.send_signal(signal.SIGSTOP)
    office.await_line("a page is under way", 2)
    os.kill(efax, signal.SIGKILL)
    office.kill(office.worker)
    office.start_worker()
    office.has_sent([1, 2, 3], dials=2, tries=2)


@part
def server_killed(office):
    """The server is killed within a call, which goes on, and each page comes once."""
    office.send()
    office.await_line("a page is confirmed")
    office.server.kill()
    time.sleep(2)
    office.server.start()
    office.has_sent([1, 2, 3], dials=1, tries=1)


@part
def suspended(office):
    """The job is suspended within a call, and resumed, and each page comes once."""
    office.recorder.loses = False  # a worker that is answered late sends another page
    office.send()
    office.await_report("call", 1)
    office.ask("/jobs/1/suspend")
    office.stops_at_page(office.is_in("1"), "stopped")
    office.ask("/jobs/1/resume")
    office.has_sent([1, 2, 3], dials=2, tries=2)


@part
def killed(office):
    """The job is killed within a call, and no page comes behind the one that is under way."""
    office.recorder.loses = False
    office.send()
    office.await_report("call", 1)
    office.ask("/jobs/1/kill")
    office.stops_at_page(office.is_in("8"), "Killed")
    office.gives_reasons("stopped")
    office.ends_with(1, "is failed (Killed)")


@part
def confirmation_lost(office):
    """The confirmation of page 2 is lost for good, so that the page comes twice, and the others once."""
    office.send()
    office.await_line("a page is under way", 2)
    office.line.say("deaf")
    office.has_sent([1, 2, 2, 3], dials=2, tries=2)


# What a job says of its document, and what becomes of the job.
UNFIT = [
    ("", "the job names 0 documents"), ("tiff:0::good.tif\ntiff:0::half.tif\n", "the job names 2 documents"),
    ("tiff:0::none.tif\n", "there is no document none.tif"), ("tiff:0::inner\n", "there is no document inner"),
    (f"tiff:0::{'x' * 5000}\n", "there is no document x"), ("tiff:0::\n", "there is no document"),
    ("tiff:0::../../../../../../etc/passwd\n", "there is no document ../"),
    ("tiff:0::/etc/passwd\n", "there is no document /etc/passwd"),
    ("tiff:0::text.tif\n", "the document can't be read: .*text.tif"),
    ("tiff:0::half.tif\n", "the document can't be read: "),
    ("tiff:0::colour.tif\n", "the document can't be read: "),
    ("totpages:4\ntiff:0::good.tif\n", "the document has 3 pages, and the job 4"),
    ("totpages:2\ntiff:0::good.tif\n", "the document has 3 pages, and the job 2"),
]


@part
def unfit_documents(office):
    """No call is made for a document that can't be sent, and none can be without a modem."""
    render(office.tools.document, office.folder / "good.tif", "-sDEVICE=tiffg3")
    render(office.tools.document, office.folder / "colour.tif", "-sDEVICE=tiff24nc", "-r20")
    (office.folder / "half.tif").write_bytes((office.folder / "good.tif").read_bytes()[:9000])
    (office.folder / "text.tif").write_text("no TIFF")
    (office.folder / "inner").mkdir()
    def fails(number, lines, status):
        office.ask("/jobs", "number:5550111\n" + ("" if "totpages" in lines else "totpages:3\n") + lines)
        job = office.is_in("8", number)
        expect(re.match(status, job["status"]) and job["totdials"] == "0", f"with {lines!r} the job is {job}")

    for number, (lines, status) in enumerate(UNFIT, 1):
        fails(number, lines, status)
    office.kill(office.worker)
    tiffcp = office.folder / "tiffcp"  # makes pages that efax can't read
    tiffcp.write_text(f'#!/bin/sh\nshift 4\nexec {shutil.which("tiffcp")} -c lzw "$@"\n')
    tiffcp.chmod(0o755)
    office.start_worker(PATH=f"{office.folder}:{os.environ['PATH']}")
    fails(len(UNFIT) + 1, "tiff:0::good.tif\n", "the document can't be read: .*TIFF")
    office.kill(office.worker)
    office.start_worker("/dev/nothing")
    office.ask("/jobs", "number:5550111\ntotpages:3\nmaxdials:2\ntiff:0::good.tif\n")
    job = office.is_in("8", len(UNFIT) + 2)
    expect((job["status"], job["totdials"]) == ("Too many attempts to dial", "2"), f"without a modem the job is {job}")
    why = "the call failed: can't open serial port /dev/nothing: No such file or directory"
    within(lambda: f"two reasons without a modem: {office.reasons()[-2:]}", lambda: office.reasons()[-2:] == [why, why])
    expect(office.line.happened("caller dials 5550111") == 0, "there was a call")


@part
def places_of_documents(office):
    """While there is no folder of documents the worker waits, and fails no job; and a comma in a path names no page."""
    office.kill(office.worker)
    place = office.folder / "mnt, 1"
    office.start_worker("/dev/nothing", place)
    office.ask("/jobs", "number:5550111\ntotpages:3\nmaxdials:1\ntiff:0::a,0/b,1.tif\n")
    within("it waits", lambda: f"there is no folder {place}" in (office.folder / "worker").read_text())
    time.sleep(1)
    said = (office.folder / "worker").read_text()
    expect(office.job()["state"] == "5" and said.count("there is no folder") == 1, f"the job is {office.job()}, and it says {said}")
    (office.folder / "made/a,0").mkdir(parents=True)
    render(office.tools.document, office.folder / "made/a,0/b,1.tif", "-sDEVICE=tiffg3")
    (office.folder / "made").rename(place)
    job = office.is_in("8")
    expect(job["totdials"] == "1", f"the job is {job}")
    office.gives_reasons("the call failed: can't open serial port /dev/nothing: No such file or directory")


@part
def by_desk(office):
    """A PDF that is uploaded to the desk comes page by page as its document is, and its owner gets a mail."""
    wants_all()
    with MailServer() as mails, Desk(office.folder, office.recorder.port, **mails.settings()) as desk:
        status, fax = desk.submit(office.tools.document.read_bytes(), number="+1 555-0111")
        expect(status == 201, f"the upload is answered {status} {fax}")
        office.has_sent([1, 2, 3], dials=1, tries=1)
        within("the mail", lambda: mails.mails)
        expect("all 3 pages were confirmed" in mails.mails[0][1].get_content(), f"the mail is {mails.mails[0][1]}")


@part
def header(office):
    """A line with time, number and page is above each page, and the page below it is as it was sent."""
    office.kill(office.worker)
    office.start_worker(options=("-l", "+1 415 555 0199"), HEADER="%Y   FROM   page %%d of %%d")
    office.send()
    office.is_in("7")
    sent = [image(f"{office.folder}/desk/documents/fax.tif,{page}")[2] for page in range(3)]
    received = [image(file)[2] for file in office.line.confirmed()]
    expect(len(received) == 3, f"{len(received)} pages have come")
    for page, (before, after) in enumerate(zip(sent, received), 1):
        above = len(after) - len(before)
        expect(above > 5 and after[above:] == before, f"page {page} has {above} lines above, and isn't as it was sent")


# Wrong workers: the part that finds each out, a text of the worker, and what stands in its place.
WRONG = {
    "reports a page before it is confirmed": (
        busy_and_cut,
        """while f" sent -> {first:04}.tif\\n" in said:""",
        """while first <= last and said.count(" header:[") >= first:"""),
    "reports two pages when one is confirmed": (
        server_killed,
        """                report("page")""",
        """                report("page"), report("page")"""),
    "takes a report for done if its command was killed": (
        commands_killed,
        """held, first = now, int(now["pages"].split("-")[0])""",
        """held, first = now, first + (action[0] == "page")"""),
    "forgets what efax wrote": (
        worker_killed,
        """said = log.read_text(errors="replace")""",
        """said = "" if call is None else log.read_text(errors="replace")"""),
    "leaves the directory of a page behind it": (
        killed,
        """            directory_first(self.folder / file)""",
        """            pass"""),
    "doesn't hand on its lock": (
        worker_killed,
        """pass_fds=[self.lock.fileno()]""",
        """pass_fds=[]"""),
}


def try_wrong(name, tools):
    """A worker that is wrong has to be found out by its part."""
    part, right, edit = WRONG[name]
    text = tools.worker.read_text()
    if text.count(right) != 1:
        fault(f"a worker that {name}: the worker has {text.count(right)} times {right}")
        return
    with new_folder() as folder:
        edited = Tools()
        edited.worker = folder / "worker.py"
        edited.worker.write_text(text.replace(right, edit))
        edited.worker.chmod(0o755)
        (folder / "office").mkdir()
        found = fault_of(part, edited, folder / "office")
    if found:
        say(f"a worker that {name} is found out: {found}")
    else:
        fault(f"a worker that {name} isn't found out by {part.__name__}")


@check(by_hand=True)
def wrong(folder):
    """Wrong workers, which are copies with an edit, are each found out."""
    tools = Tools()
    threads = [threading.Thread(target=try_wrong, args=(name, tools)) for name in WRONG]
    for thread in threads:
        thread.start()
    for thread in threads:
        thread.join()
