"""What ab and wrk, where they are installed, see of `serve`."""
import re
import shutil
import subprocess
import urllib.request

from .runner import group
from .shared import MANY, NotTried, Server, expect, fault, say

check = group("load", "Has ab and wrk, where they are installed, load `serve`.")
ORDER = "number:5550111\ntotpages:1\n"
PATIENCE = 60  # seconds until a tool counts as never ending
ask = urllib.request.build_opener(urllib.request.ProxyHandler({})).open  # whatever proxy the machine has


def told_by(words):
    return subprocess.run(words, capture_output=True, timeout=PATIENCE, text=True, check=True).stdout


def ab(url, count, *words):
    """ab sends a request so many times, by HTTP/1.0; whether each was answered with 2xx."""
    text = told_by(["ab", "-q", "-n", str(count), *words, url])
    done = re.search(r"^Complete requests: +(\d+)$", text, re.M)
    failed = re.search(r"^Failed requests: +(\d+)$", text, re.M)
    return bool(done and failed and int(done[1]) == count and failed[1] == "0" and "Non-2xx" not in text), text


def wrk(url, *words):
    """wrk asks for a second; whether each request was answered with 2xx. It counts as an error of reading that a
    connection ends behind its 1,000th message."""
    text = told_by(["wrk", "-t1", "-d1", *words, url])
    count = int((re.search(r"(\d+) requests in", text) or [0, 0])[1])
    errors = re.search(r"Socket errors: connect (\d+), read (\d+), write (\d+), timeout (\d+)", text)
    ends = [int(part) for part in errors.groups()] if errors else [0] * 4
    return bool(count) and ends[1] <= count // 1000 and sum(ends) == ends[1] and "Non-2xx" not in text, text


def tried(url, folder):
    """What was tried, and whether it went well."""
    (folder / "order").write_text(ORDER)
    post = ("-p", folder / "order", "-T", "text/plain", "-H", "Fax-Client: desk", "-H", "Fax-Number: 1")
    if shutil.which("ab"):
        yield "ab, a submission 400 times", *ab(f"{url}/jobs", 400, "-c", "1", *post)
        yield "ab, a job shown 400 times", *ab(f"{url}/jobs/1", 400, "-c", "1")
        yield "ab, the same on four connections", *ab(f"{url}/jobs/1", 400, "-c", "4")
    if shutil.which("wrk"):
        yield "wrk, a listing", *wrk(f"{url}/jobs", "-c1")


@check
def no_failures(folder):
    """No request of ab and wrk fails, and a request that ab sends four hundred times is one job."""
    good = 0
    with Server(folder / "queue.db", *MANY) as server:
        url = f"http://127.0.0.1:{server.port}"
        order = urllib.request.Request(f"{url}/jobs", ORDER.encode(), {"Fax-Client": "desk", "Fax-Number": "1"})
        with ask(order, timeout=PATIENCE) as reply:
            expect(reply.read() == b'{"job":1}', "the first submission isn't job 1")
        for what, well, text in tried(url, folder):
            good += well
            if not well:
                fault(f"{what}: {text}")
        with ask(f"{url}/jobs", timeout=PATIENCE) as reply:
            lines = reply.read().decode().splitlines()
        expect(len(lines) == 2, f"a submission that came again is listed as {lines}")
    if not shutil.which("ab") and not shutil.which("wrk"):
        raise NotTried("neither ab nor wrk is installed")
    say(f"{good} went well")
