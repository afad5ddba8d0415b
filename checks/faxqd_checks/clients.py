"""examples/client.sh and import.sh: against what isn't the queue's answer, with requests that are left from before, with kills at
any moment, and with words and folders that are wrong."""
import concurrent.futures
import contextlib
import os
import random
import re
import signal
import subprocess
import time

from .journals import Line
from .proxy import STRANGE_TO_COMMANDS, Proxy, Strange, number_of, path_of, reply
from .runner import group
from .shared import (CLOSE, EXAMPLES, MANY, Server, answer_to, attempt, expect, expect_same, get, rows_of_copy, run, said,
                     wants)

check = group("clients", "Has examples/client.sh and import.sh hand each fax in once, and say what became of it.", "scripts")
SHELLS = "dash", "bash"
KINDS = "client.sh", "import.sh"
PATIENCE = 900 if said.all else 300
NOBODY = "127.0.0.1:1"
GOOD, BAD = "number:5550111\ntotpages:1\n", "number:666\ntotpages:1\n"


@contextlib.contextmanager
def queue(folder, instead=None):
    """A queue that refuses 666, with a proxy in front of it."""
    (folder / "setup").write_text("Modem: ttyS0\n")
    (folder / "controls").write_text("^666$\n  RejectNotice = not to \\033 \"job\":7\n")
    with Server(folder / "queue.db", *MANY, "--setup", folder / "setup", "--controls", folder / "controls") as server:
        with Proxy(server.port, instead) as proxy:
            yield server, proxy


def ran(words, url, **more):
    """How a script ends, and what it says on both streams."""
    environment = {**os.environ, "CLIENT": "desk", "FAXQD": url, "PROGRAM": str(said.program), **more}
    done = subprocess.run([str(word) for word in words], env=environment, capture_output=True, text=True, timeout=PATIENCE,
                          stdin=subprocess.DEVNULL)
    return done.returncode, done.stdout, done.stderr


def answered(kind, file, job):
    """What the script of this kind prints of a file that is this job."""
    return f'{{"job":{job}}}\n' if kind == "client.sh" else f'{file}: {{"job":{job},"state":5}}\n'


def each_script(tried):
    """Tries each script with each shell, side by side."""
    def one(shell, kind):
        with attempt(f"{shell} {kind}"):
            tried(shell, kind, f"{kind}-{shell}")

    with concurrent.futures.ThreadPoolExecutor() as pool:
        for shell in SHELLS:
            for kind in KINDS:
                pool.submit(one, shell, kind)


@check
def strange_answers(folder):
    """What isn't the queue's answer to the request, as a proxy's 401, 404, 200 or redirect, isn't taken for one: each fax and each
    imported file is one job, and its request is the same to the byte when it is sent again."""
    wants(*SHELLS)
    (folder / "file").write_text(GOOD)
    with queue(folder, Strange(STRANGE_TO_COMMANDS)) as (server, proxy):
        def tried(shell, kind, name):
            status, out, err = ran([shell, EXAMPLES / kind, folder / name, folder / "file"], proxy.url, CLIENT=name)
            expect_same(status, 0, f"how it ends, which says {err!r}")
            expect(out in [answered(kind, folder / "file", job) for job in (1, 2, 3, 4)], f"it says {out!r}")
            expect("\x1b" not in err, "a strange answer is printed raw")

        each_script(tried)
        expect_same(len({number_of(data) for data in proxy.seen}), 4, "the numbers of requests")
        expect_same(len(set(proxy.seen)), 4, "requests that differ")
    expect_same(rows_of_copy(folder / "queue.db", "SELECT count(*) FROM jobs"), [(4,)], "the jobs")


@check
def reported_once(folder):
    """That nothing but strange answers comes is reported once."""
    wants(*SHELLS)
    (folder / "file").write_text(GOOD)
    given = {}

    def instead(data, hand_on):
        client = re.search(rb"Fax-Client: (\S+)", data)[1]
        given[client] = given.get(client, 0) + 1
        return reply(401, "<html>", "text/html") if given[client] < 12 else hand_on()

    with queue(folder, instead) as (server, proxy):
        def tried(shell, kind, name):
            status, out, err = ran([shell, EXAMPLES / kind, folder / name, folder / "file"], proxy.url, CLIENT=name)
            wanted = 0, f"{kind}: {folder}/file: faxqd: no answer; trying again\n"
            expect_same((status, err), wanted, "its status, and what it says")

        each_script(tried)


def left(folder, kind, name, text):
    """Begins a request with this file as its body, as a script that is killed before it is answered."""
    (folder / name).write_text(text)
    path = "/jobs" if kind == "client.sh" else "/imports"
    status = run("post", "--to", NOBODY, "--journal", folder / "kept/journal", "--client", "desk", "--wait", "0", "--key",
                 folder / name, path, folder / name)[0]
    expect_same(status, 4, "how a request without a queue ends")


@check
def own_results(folder):
    """A file that is left from before, accepted or refused, isn't the result of a new one; it has its own when it is named again,
    without another request if it was accepted; a refused file may be corrected, and no late copy of it is accepted; the same file
    by another path is the same."""
    wants(*SHELLS)

    def tried(shell, kind, name):
        place = folder / name
        (place / "kept").mkdir(parents=True)
        with queue(place) as (server, proxy):
            results(shell, kind, place, proxy)

    each_script(tried)


def results(shell, kind, place, proxy):
    def does(name, text=None):
        if text:
            (place / name).write_text(text)
        return ran([shell, EXAMPLES / kind, place / "kept", place / name], proxy.url)

    def accepted(name, job):
        return 0, answered(kind, place / name, job), ""

    refused = 1, "", f"{kind}: {place}/bad: faxqd: refused 403 rejected\n"
    left(place, kind, "bad", BAD)
    expect_same(does("new", GOOD), accepted("new", 1), "a new file after one that is refused")
    expect_same(does("bad"), refused, "the refused one, named again")
    late = next(data for data in proxy.seen if BAD.encode() in data).replace(b"\r\n\r\n", f"\r\n{CLOSE}\r\n".encode(), 1)
    expect_same(answer_to(proxy.queue, late), (410, b'{"no":28,"word":"given-up"}'), "a late copy of the refused one")
    expect_same(does("bad", GOOD), accepted("bad", 2), "the refused one, corrected")
    left(place, kind, "good", GOOD)
    expect_same(does("newer", GOOD), accepted("newer", 4), "a new file after one that is accepted")
    count = len(proxy.seen)
    expect_same(does("good"), accepted("good", 3), "the accepted one, named again")
    expect_same(ran(["sh", "-c", f'cd {place} && exec {shell} {EXAMPLES / kind} kept good'], proxy.url),
                (0, answered(kind, "good", 3), ""), "the accepted one, by another path")
    expect_same(len(proxy.seen), count, "requests then")


@check
def killed(folder):
    """client.sh and import.sh, which are killed with their commands again and again over a network that loses and doubles messages,
    hand in each of their files once, and print the same of each afterwards."""
    wants(*SHELLS)
    count = 12

    def tried(shell, kind, name):
        place, chance = folder / name, random.Random(name)
        place.mkdir()
        files = [place / f"file {number}" for number in range(1, count + 1)]
        for file in files:
            file.write_text(f"{GOOD}note:{file.name}\n")
        with queue(place, Line(3)) as (server, proxy):
            parts = [files] if kind == "import.sh" else zip(files)
            words = [[shell, EXAMPLES / kind, place / "kept", *part] for part in parts]
            environment = {**os.environ, "CLIENT": "desk", "FAXQD": proxy.url, "PROGRAM": str(said.program)}
            for part in words:
                for _ in range(2 if len(words) > 1 else 12):
                    process = subprocess.Popen(part, env=environment, stdin=subprocess.DEVNULL, stdout=subprocess.DEVNULL,
                                               stderr=subprocess.DEVNULL, start_new_session=True)
                    time.sleep(chance.uniform(0, 0.6))
                    os.killpg(process.pid, signal.SIGKILL)
                    process.wait()
            first, again = ([ran(part, proxy.url) for part in words] for _ in "ab")
            expect_same([status for status, _, _ in first], [0] * len(words), f"how it ends: {first}")
            expect_same([out for _, out, _ in again], [out for _, out, _ in first], "what it prints when it is run once more")
            said_of = "".join(out for _, out, _ in first).splitlines()
            for file, line in zip(files, said_of, strict=True):
                job = re.search(r'\{"job":(\d+)', line)[1]
                shown = answer_to(server.port, get(f"/jobs/{job}", CLOSE))[1].decode()
                expect(f"\nnote:{file.name}\n" in shown, f"job {job} is {shown}")
            expect_same(rows_of_copy(place / "queue.db", "SELECT count(*) FROM jobs"), [(count,)], "the jobs")

    each_script(tried)


@check
def wrong(folder):
    """Wrong arguments, an address with TLS, a folder of an older script, another client's journal and a file that isn't there: each
    ends with one line, and sends nothing; import.sh brings the other files in."""
    wants(*SHELLS)
    (folder / "fax").write_text(GOOD)
    (folder / "old/waiting").mkdir(parents=True)
    (folder / "old/waiting/170000000000017").write_text(GOOD)
    with queue(folder) as (server, proxy):
        def tried(shell, kind, name):
            script = shell, EXAMPLES / kind
            expect_same(ran([*script, folder / name, folder / "fax"], proxy.url, CLIENT=f"other-{name}")[0], 0, "another client")
            line = f"{kind}: .*\n"
            for status, words, more in ((2, [], {}), (2, [folder / "new"], {}),
                                        (2, [folder / "new", folder / "fax"], {"FAXQD": "https://x"}),
                                        (1, [folder / "old", folder / "fax"], {}), (1, [folder / name, folder / "none"], {}),
                                        (1, [folder / name, folder / "fax"], {"CLIENT": "desk"})):
                got, out, err = ran([*script, *words], more.pop("FAXQD", proxy.url), **{"CLIENT": f"other-{name}", **more})
                what = f"{words} {more} ends with {got}, and says {out!r} {err!r}"
                expect((got, out) == (status, "") and re.fullmatch(line, err), what)

        each_script(tried)
        expect_same(len(proxy.seen), 4, "requests")
        expect(not (folder / "new").exists(), "a folder is made")
        (folder / "more").write_text(f"{GOOD}note:more\n")
        status, out, err = ran(["sh", EXAMPLES / "import.sh", folder / "import", folder / "none", folder / "more"], proxy.url)
        wanted = 1, f'{folder}/more: {{"job":5,"state":5}}\n', f"import.sh: {folder}/none: faxqd: cannot read {folder}/none\n"
        expect_same((status, out, err), wanted, "an import of which one file isn't there")
