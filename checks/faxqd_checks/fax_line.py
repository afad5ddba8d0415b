"""A telephone line in memory between two soft modems, the queue with its worker at one of them, and who receives at the other."""
import contextlib
import fcntl
import itertools
import json
import os
import pathlib
import re
import signal
import socket
import struct
import subprocess
import sys
import tempfile
import threading
import time

from .shared import (CHECKS, CLOSE, EXAMPLES, MANY, NO_WAITS, TOP, NotTried, Peer, Server, expect, get, is_whole, library, option,
                     post, said, wants, within)

PATIENCE = 100  # seconds until whatever is awaited counts as never coming
SPEED = 3  # times as fast as a telephone line; efax waits in real time, and takes no more
# Three pages of some 13 kB each: efax reckons that a page lasts a second at least.
TEXT = """%!PS
/Courier findfont 9 scalefont setfont
/say { 9 string cvs show ( ) show } def
1 1 3 { /page exch def
  1 1 4 { /line exch def
    60 800 line 150 mul sub moveto
    page say
    1 1 9 { line mul page 7919 mul add line 104729 mul add 1000003 mod say } for
  } for
  showpage
} for
"""


# ---- what is sent and received

def image(file):
    """The lines of a page, without the white ones above and below."""
    with tempfile.NamedTemporaryFile() as plain:
        subprocess.run(["tiffcp", "-c", "none", "-r", "100000", file, plain.name], check=True, capture_output=True)
        data = plain.read()
    order = "<" if data[:2] == b"II" else ">"
    place, = struct.unpack_from(order + "I", data, 4)
    count, = struct.unpack_from(order + "H", data, place)
    tags = {}
    for entry in range(place + 2, place + 2 + 12 * count, 12):
        tag, kind = struct.unpack_from(order + "HH", data, entry)
        tags[tag], = struct.unpack_from(order + ("H" if kind == 3 else "I"), data, entry + 8)
    width, length, start = tags[256], tags[257], tags[273]
    across = (width + 7) // 8
    rows = [data[start + row * across:start + (row + 1) * across] for row in range(length)]
    white = (b"\xff" if tags[262] else b"\0") * across
    black = [row for row, line in enumerate(rows) if line != white]
    return width, tags[262], rows[black[0]:black[-1] + 1]


class Line(threading.Thread):
    """Two soft modems, what happens between them, and whoever receives at one of them."""

    def __init__(self, modems, folder):
        super().__init__(daemon=True)
        self.folder, self.caller, self.answerer = folder, folder / "caller", folder / "answerer"
        self.process = subprocess.Popen([modems, str(SPEED), self.caller, self.answerer], stdin=subprocess.PIPE,
                                        stdout=open(folder / "line", "w"))
        within("the line", lambda: self.happened("ready"), PATIENCE)
        self.received, self.receiver, self.ends = folder / "received", None, False
        self.received.mkdir()
        self.start()

    def happened(self, what):
        """How often it did."""
        return (self.folder / "line").read_text().count(f"{what}\n")

    def say(self, word):
        self.process.stdin.write(f"{word}\n".encode())
        self.process.stdin.flush()

    def run(self):
        """Receives call after call. Where the caller hung up and nothing more comes, it hangs up."""
        for call in itertools.count(1):
            with open(self.received / f"{call:02}.log", "w") as log:
                self.receiver = subprocess.Popen(["efax", "-v", "ewin", "-d", self.answerer, "-r", f"{call:02}"],
                                                 stdout=subprocess.DEVNULL, stderr=log, cwd=self.received,
                                                 env={**os.environ, "LD_PRELOAD": str(library("unbuffered"))})
            connected, left = self.happened("the call is connected"), None
            while self.receiver.poll() is None and not self.ends:
                time.sleep(0.05)
                if self.happened("the call is connected") > connected and left is None:
                    left = self.happened("caller hangs up")
                if left is not None and self.happened("caller hangs up") > left:
                    with contextlib.suppress(subprocess.TimeoutExpired):
                        self.receiver.wait(1.5)
                    break
            self.receiver.kill()
            self.receiver.wait()
            if self.ends:
                return

    def confirmed(self):
        """The pages that the receiver has confirmed, one behind the other."""
        found = []
        for log in sorted(self.received.glob("*.log")):
            for said in log.read_text(errors="replace").split(" received -> ")[1:]:
                if " sent MCF" in said:
                    found.append(self.received / said.split("\n")[0])
        return found

    def stop(self):
        self.ends = True
        self.join()
        self.process.stdin.close()
        self.process.wait()


# ---- the queue, and what goes to it

class Recorder(threading.Thread):
    """Stands before the queue, writes down what is asked and answered, and loses every third reply, once."""

    def __init__(self, server):
        super().__init__(daemon=True)
        self.server, self.listener, self.seen, self.asked = server, socket.create_server(("127.0.0.1", 0)), [], set()
        self.loses = True
        self.port = self.listener.getsockname()[1]
        self.start()

    def run(self):
        while True:
            peer, _ = self.listener.accept()
            threading.Thread(target=self.carry, args=(peer,), daemon=True).start()

    def carry(self, peer):
        with contextlib.suppress(OSError), peer:
            asked = b""
            while not is_whole(asked):
                piece = peer.recv(65536)
                if not piece:
                    return
                asked += piece
            answer = b""
            with socket.create_connection(("127.0.0.1", self.server), PATIENCE) as server:
                server.sendall(asked)
                server.shutdown(socket.SHUT_WR)
                while piece := server.recv(65536):
                    answer += piece
            if not answer:
                return
            path, body = asked.split(b" ")[1].decode(), asked.partition(b"\r\n\r\n")[2].decode()
            number = re.search(rb"(?i)\r\nFax-Number: *(\d+)", asked)
            self.seen.append((path, body, number and number[1], int(answer.split(b" ")[1])))
            if number and asked not in self.asked:
                self.asked.add(asked)
                if len(self.asked) % 3 == 0 and self.loses:
                    return
            peer.sendall(answer)

    def look(self):
        """What a worker reports it reports under one number, and is accepted."""
        numbers = {}
        for path, body, number, status in self.seen:
            if path.startswith("/grants/"):
                expect(status == 200, f"{path} {body} is answered {status}")
                expect(numbers.setdefault((path, body), number) == number, f"{path} {body} comes under two numbers")


def processes(program, argument):
    """The processes of a program that have this argument."""
    for entry in pathlib.Path("/proc").glob("[0-9]*/cmdline"):
        with contextlib.suppress(OSError):  # a process that has ended
            words = entry.read_text(errors="replace").split("\0")
            if words[0] == str(program) and str(argument) in words:
                yield int(entry.parent.name)


def killed(process):
    """Kills a process; returns whether it was there."""
    with contextlib.suppress(ProcessLookupError):
        os.kill(process, signal.SIGKILL)
        return True
    return False


class Office:
    """A queue with its file, a worker with its modem, and a line."""

    def __init__(self, tools, folder):
        self.tools, self.folder, self.number = tools, folder, 0
        self.server = self.line = self.worker = self.client = self.recorder = None

    def start(self):
        (self.folder / "setup").write_text("Modem: ttyS0\n" + NO_WAITS)
        self.server = Server(self.folder / "queue.db", "--setup", self.folder / "setup", *MANY, patience=PATIENCE)
        self.recorder = Recorder(self.server.port)
        self.line = Line(self.tools.modems, self.folder)
        # (PYTHONPATH is for the wrong workers, which are copies in another folder)
        self.environment = dict(os.environ, FAXQD=f"http://127.0.0.1:{self.recorder.port}", no_proxy="*", CLIENT="desk",
                                LIMIT="10", PAUSE="0.1", WAIT="0.3", PLUS="00", HEADER="", PROGRAM=str(said.program),
                                PYTHONPATH=str(TOP / "desk"))
        self.start_worker()

    def start_worker(self, device=None, documents=None, options=(), **more):
        words = ["ttyS0", self.folder / "ttyS0", documents or self.folder, "-d", device or self.line.caller, *options]
        with open(self.folder / "worker", "a") as says:
            self.worker = subprocess.Popen([self.tools.worker, *words], stderr=says, env={**self.environment, **more})

    def kill(self, process):
        process.kill()
        process.wait()

    def calls(self):
        """The processes of efax that were told to use the caller's modem."""
        return list(processes("efax", self.line.caller))

    def kill_commands(self):
        """Kills each command that has the worker's journal; returns how many these were."""
        return sum(killed(process) for process in list(processes(said.program, self.folder / "ttyS0/journal")))

    def kill_next_commands(self, patience):
        """Kills the first commands that are there within some seconds; returns how many these were."""
        end = time.monotonic() + patience
        while not (kills := self.kill_commands()) and time.monotonic() < end:
            time.sleep(0.002)
        return kills

    def send(self):
        """Has a client submit the fax of three pages, and wait for its end."""
        document = self.folder / "desk/documents/fax.tif"
        document.parent.mkdir(parents=True)
        render(self.tools.document, document, "-sDEVICE=tiffg3", "-r204x196", "-sPAPERSIZE=a4", "-dFIXEDMEDIA", "-dFitPage")
        faxq = f'"{sys.executable}" "{EXAMPLES}/faxq" --folder "{self.folder}/faxq"'
        script = f'{faxq} submit "+1 555-0111" "{document}" && exec {faxq} wait 1 --every 0.1'
        self.client = subprocess.Popen(["sh", "-c", script], stdout=subprocess.PIPE, stderr=subprocess.DEVNULL, text=True,
                                       env=self.environment)

    def ask(self, path, body=""):
        """What the queue answers to another client, or to a GET."""
        self.number += 1
        data = get(path, CLOSE) if body is None else post(path, self.number, body, "other", CLOSE)
        with Peer(self.server.port, patience=PATIENCE) as peer:
            peer.say(data)
            while peer.take():
                pass
        return peer.got.partition(b"\r\n\r\n")[2].decode()

    def job(self, number=1):
        return dict(line.split(":", 1) for line in self.ask(f"/jobs/{number}", None).splitlines() if ":" in line)

    def is_in(self, state, number=1):
        """The job, once it is in this state."""
        def look():
            expect(self.worker.poll() is None, "the worker ends")
            job = self.job(number)
            return job if job.get("state") == state else None

        return within(f"state {state} of job {number}", look, PATIENCE, 0.1)

    def await_line(self, what, times=1):
        """Waits until something has happened so often on the line."""
        within(f"{times} times {what}", lambda: self.line.happened(what) >= times, PATIENCE, 0.1)

    def await_report(self, what, times=1):
        """Waits until the worker has reported so many calls or pages."""
        within(f"report {times} of a {what}", lambda: len({body for path, body, _, _ in list(self.recorder.seen)
                                                           if path.endswith(f"/{what}")}) >= times, PATIENCE, 0.1)

    def has_sent(self, pages, dials, tries):
        """The job is done after so many calls, and these pages have come, in this order."""
        job = self.is_in("7")
        counts = tuple(int(job[tag]) for tag in ("npages", "totdials", "tottries"))
        expect(counts == (3, dials, tries), f"the job is done with npages, totdials, tottries {counts}")
        self.has_received(pages)
        called = self.line.happened("caller dials 0015550111")
        expect(called == dials, f"there were {called} calls, and the queue knows of {dials}")
        self.ends_with(0, "is done: 3 of 3 pages confirmed")

    def has_received(self, pages):
        document, = (self.folder / "desk/documents").iterdir()
        sent = [image(f"{document},{page}") for page in range(3)]
        received = [image(file) for file in self.line.confirmed()]
        expect(all(page in sent for page in received), "a page has come that wasn't sent so")
        come = [sent.index(page) + 1 for page in received]
        expect(come == pages, f"the pages that have come are {come}, and not {pages}")

    def stops_at_page(self, job, status):
        """A job that is to stop within its first page has that page, and perhaps the one that was under way by then."""
        expect(job["npages"] in ("1", "2") and job["status"] == status, f"the job is {job}")
        self.has_received(list(range(1, int(job["npages"]) + 1)))

    def reasons(self):
        """Why calls ended, as the worker reported it."""
        bodies = {path: body for path, body, _, _ in list(self.recorder.seen) if path.endswith("/outcome")}
        return [json.loads(body)["reason"] for body in bodies.values()]

    def gives_reasons(self, *wanted):
        """These are the reasons. The last may come a little later than the end of the job."""
        within(lambda: f"the reasons {wanted}: {self.reasons()}", lambda: self.reasons() == list(wanted))

    def ends_with(self, status, said):
        """How the client ends who waits, if there is one."""
        if self.client:
            out, _ = self.client.communicate(timeout=PATIENCE)
            expect(self.client.returncode == status and out.startswith("1\n") and said in out,
                   f"faxq ends with {self.client.returncode}, and says {out!r}")

    def stop(self):
        for process in filter(None, (self.client, self.worker, self.server and self.server.process)):
            self.kill(process)
        if self.line:
            for efax in self.calls():
                os.kill(efax, signal.SIGKILL)
            self.line.stop()


# ---- what both want

def render(document, file, *words):
    subprocess.run(["gs", "-q", "-dBATCH", "-dNOPAUSE", *words, f"-sOutputFile={file}", document], check=True)


def once(name, make):
    """The file of this name, which is made once for the run."""
    folder = pathlib.Path(library("unbuffered")).parent
    with open(folder / f"{name}.lock", "w") as lock:
        fcntl.flock(lock, fcntl.LOCK_EX)
        if not (folder / name).exists():
            make(folder / f"{name}.new")
            (folder / f"{name}.new").rename(folder / name)
    return folder / name


class Tools:
    """The modems, the document and the worker."""

    def __init__(self):
        wants("efax", "gs", "tiffinfo", "tiffcp", "tiff2pdf", "gcc")
        wanted = "#include <tiffio.h>\n#include <spandsp.h>\n"
        if subprocess.run(["gcc", "-E", "-"], input=wanted, capture_output=True, text=True).returncode:
            raise NotTried("there is no libspandsp")
        self.worker = pathlib.Path(option("worker", EXAMPLES / "efax-worker")).resolve()
        self.modems = once("soft_modems", self.make_modems)
        self.document = once("document.pdf", self.make_document)

    @staticmethod
    def make_modems(file):
        subprocess.run(["gcc", "-O2", "-o", file, CHECKS / "soft_modems.c", "-lspandsp"], check=True)

    @staticmethod
    def make_document(file):
        text = file.with_suffix(".ps")
        text.write_text(TEXT)
        render(text, file, "-sDEVICE=pdfwrite")
