"""Machines that are network namespaces of its own on this machine, a volume that they mount, and who asks the queues there."""
import contextlib
import json
import os
import random
import re
import socket
import subprocess
import threading
import time

from .shared import CLOSE, MANY, Server, TOP, Wrong, copied, database_of, expect, get, new_folder, post, told

PATIENCE = 120  # seconds until whatever is awaited counts as never coming
SETUP = "Modem: ttyS0\nModem: ttyS1\nJobReqProto: 0\nJobReqBusy: 0\nJobReqOther: 0\nJobReqNoAnswer: 0\n"


def done(*words):
    ran = subprocess.run([str(word) for word in words], stdin=subprocess.DEVNULL, capture_output=True, text=True)
    expect(ran.returncode == 0, f"{' '.join(map(str, words))} ends with {ran.returncode}: {ran.stdout}{ran.stderr}")
    return ran.stdout


# ---- who asks

class Asker(threading.Thread):
    """A client whose requests go to the first of some addresses that answers, each under its number until it is answered."""

    def __init__(self, name, addresses, fields="", seed=1):
        super().__init__(daemon=True)
        self.client, self.addresses, self.fields, self.chance = name, addresses, fields, random.Random(f"{seed} {name}")
        self.number, self.kept, self.ends, self.fault = 0, {}, False, None

    def run(self):
        try:
            while not self.ends:
                self.work()
        except Exception as fault:
            self.fault = Wrong(f"{self.client}: {told(fault)}")

    def exchange(self, address, data, reads=True):
        """The status and the body of a whole reply, or nothing."""
        with contextlib.suppress(OSError), socket.create_connection(address, 3) as peer:
            peer.sendall(data)
            if not reads:
                return None
            reply = b""
            while piece := peer.recv(65536):
                reply += piece
            head, end, body = reply.partition(b"\r\n\r\n")
            length = re.search(rb"\r\nContent-Length: (\d+)", head)
            if end and length and len(body) == int(length[1]):
                return int(head.split(b" ")[1]), body
        return None

    def message(self, number, path, body):
        return post(path, number, body, self.client, f"Host: fax\r\n{self.fields}{CLOSE}")

    def answer(self, data):
        for address in self.addresses:
            answer = self.exchange(address, data)
            if answer and answer[0] not in (502, 503, 504):
                return answer
        return None

    def ask(self, path, body=""):
        """The reply to a new request. Some replies are lost."""
        self.number += 1
        data, until = self.message(self.number, path, body), time.monotonic() + PATIENCE
        while True:
            expect(time.monotonic() < until, f"{path} of {self.client} isn't answered")
            if self.chance.random() < 0.1:
                self.exchange(self.addresses[0], data, reads=False)
            if answer := self.answer(data):
                if answer[0] in (200, 201):
                    self.kept[self.number] = data, answer
                return answer
            time.sleep(0.02)


class Desk(Asker):
    def work(self):
        order = f"number:555011{self.chance.randint(1, 3)}\ntotpages:{self.chance.randint(1, 3)}\nmaxtries:999\nmaxdials:999\n"
        status, body = self.ask("/jobs", order)
        expect(status == 201, f"a fax is answered {status} {body!r}")
        time.sleep(self.chance.random())


class Worker(Asker):
    def work(self):
        status, body = self.ask(f"/modems/{self.client}/next")
        expect(status in (200, 409), f"a question for work is answered {status} {body!r}")
        given = json.loads(body)
        given = given.get("held", given)
        grant, page = given["grant"], given.get("from")
        if not grant:
            time.sleep(0.3)
            return
        confirmed = 0
        if not given.get("called"):
            result = self.chance.choice(["connected"] * 4 + ["busy"])
            expect(self.report(grant, "call", result=result), f"the call of grant {grant} is refused")
            while result == "connected" and page <= given["to"] and self.chance.random() < 0.9:
                expect(self.report(grant, "page", page=page), f"page {page} of grant {grant} is refused")
                page, confirmed = page + 1, confirmed + 1
        outcome = "done" if page > given["to"] else "retry"
        expect(self.report(grant, "outcome", dialed=True, outcome=outcome, pages=confirmed), f"the end of grant {grant} is refused")

    def report(self, grant, what, **body):
        return self.ask(f"/grants/{grant}/{what}", json.dumps(body))[0] == 200


def all_end(askers):
    for asker in askers:
        asker.ends = True
    for asker in askers:
        asker.join(2 * PATIENCE)
        if asker.fault:
            raise asker.fault
        expect(not asker.is_alive(), f"{asker.client} doesn't end")


def sound(file, askers):
    """Another program's look at a copy of a file that no server has: what was accepted is there, and no page is granted
    again. Gives how many jobs there are."""
    with new_folder() as copy, database_of(copied(file, copy)) as database:
        def rows(text, *values):
            return database.execute(text, values).fetchall()

        expect(rows("PRAGMA integrity_check") == [("ok",)], "sqlite finds the file unsound")
        for asker in askers:
            for number, (_, answer) in asker.kept.items():
                kept = rows("SELECT status, body FROM replies WHERE client = ? AND number = ?", asker.client, number)
                expect(kept == [answer], f"request {number} of {asker.client} was answered {answer}, and there is {kept}")
        sent = {}
        for grant, job, first, pages in rows("SELECT id, job, first_page, pages FROM grants ORDER BY id"):
            expect(first == sent.get(job, 0) + 1, f"grant {grant} begins with page {first}, and {sent.get(job, 0)} were confirmed")
            sent[job] = first - 1 + pages
        (jobs, last), = rows("SELECT count(*), max(job) FROM jobs")
        expect(jobs == (last or 0), f"there are {jobs} jobs to {last}")
        return jobs


class Place:
    """Where `faxqd serve` is started: on a file, at an address, and inside a machine."""

    def __init__(self, file, host, port, setup, inside=()):
        self.file, self.host, self.port, self.setup, self.inside, self.server = file, host, port, setup, inside, None

    def start(self):
        """Starts it; whether it serves, or is refused."""
        self.server = Server(self.file, *MANY, "--setup", self.setup, host=self.host, port=self.port, before=self.inside, waits=False,
                             patience=PATIENCE)
        if self.server.listens():
            return True
        says = self.end()
        expect(b"faxqd: database\n" in says, f"a start says {says!r}")
        return False

    def end(self):
        self.server.process.kill()
        return self.server.process.communicate()[1]

    def served_after(self, limit, pause=0.2):
        """Starts it until it serves; how long that took."""
        start = time.monotonic()
        while not self.start():
            expect(time.monotonic() - start < limit, f"it doesn't serve within {limit} s")
            time.sleep(pause)
        return time.monotonic() - start


# ---- one queue, two machines

class Machine:
    """A network namespace with an address, and a mount of the volume."""

    def __init__(self, number, folder):
        self.number, self.folder, self.mount = number, folder, folder / f"mount{number}"
        self.mount.mkdir()
        self.holder = subprocess.Popen(["unshare", "--net", "sleep", "100000"])
        space = os.stat("/proc/self/ns/net").st_ino
        while os.stat(f"/proc/{self.holder.pid}/ns/net").st_ino == space:
            time.sleep(0.01)
        self.inside = ["nsenter", "-t", str(self.holder.pid), "-n"]
        done("ip", "link", "add", f"v{number}", "type", "veth", "peer", "name", "e0", "netns", self.holder.pid)
        done("ip", "link", "set", f"v{number}", "master", "br0", "up")
        for words in ("addr", "add", f"10.77.0.{number}/24", "dev", "e0"), ("link", "set", "e0", "up"), ("link", "set", "lo", "up"):
            done(*self.inside, "ip", *words)
        self.address = f"10.77.0.{number}", 4559
        self.server = Place(self.mount / "queue.db", f"10.77.0.{number}", 4559, folder / "setup", self.inside)

    def mounts(self):
        subprocess.run(["umount", "--lazy", str(self.mount)], capture_output=True)
        self.client = self.folder / f"client{self.number}"
        done(*self.inside, "glusterfs", "--volfile-server=10.77.0.1", "--volfile-id=q", f"--pid-file={self.client}", self.mount)

    def link(self, way):
        done("ip", "link", "set", f"v{self.number}", way)

    def is_lost(self):
        """The server and what mounts the volume are killed at once."""
        os.kill(int(self.client.read_text()), 9)
        return self.server.end()


class Volume:
    """A volume of three bricks, of which the third keeps no data, with the options of docs/OPERATIONS.md."""

    def __init__(self, folder):
        self.folder = folder
        for name, place in (("lib", "/var/lib/glusterd"), ("run", "/var/run/gluster"), ("log", "/var/log/glusterfs")):
            (folder / name).mkdir()
            done("mount", "--bind", folder / name, place)
        done("ip", "link", "set", "lo", "up")
        done("ip", "link", "add", "br0", "type", "bridge")
        done("ip", "addr", "add", "10.77.0.1/24", "dev", "br0")
        done("ip", "link", "set", "br0", "up")
        self.socket = folder / "run/glusterd.socket"
        (folder / "vol").write_text(
            "volume management\ntype mgmt/glusterd\noption working-directory /var/lib/glusterd\noption transport-type socket\n"
            f"option transport.socket.bind-address 10.77.0.1\noption glusterd-sockfile {self.socket}\nend-volume\n")
        done("glusterd", "-f", folder / "vol", "-p", folder / "glusterd.pid")
        until = time.monotonic() + PATIENCE
        while subprocess.run(self.words("volume", "list"), capture_output=True).returncode:
            expect(time.monotonic() < until, "glusterd doesn't answer")
            time.sleep(0.2)
        bricks = [f"10.77.0.1:{folder}/brick{brick}" for brick in (1, 2, 3)]
        self.tells("volume", "create", "q", "replica", "3", "arbiter", "1", *bricks, "force")
        options = re.findall(r"(?m)^    gluster volume set q (\S+) (\S+)$", (TOP / "docs/OPERATIONS.md").read_text())
        expect(options, "OPERATIONS.md has no options of a volume")
        for option, value in options:
            self.tells("volume", "set", "q", option, value)
        self.tells("volume", "start", "q")

    def words(self, *words):
        return ["gluster", "--mode=script", f"--glusterd-sock={self.socket}", *map(str, words)]

    def tells(self, *words):
        return done(*self.words(*words))

    def brick_is_lost(self):
        brick = re.search(r"(?m)^Brick \S*brick1 +\d+ +\d+ +Y +(\d+)", self.tells("volume", "status", "q"))
        os.kill(int(brick[1]), 9)

    def brick_is_back(self):
        self.tells("volume", "start", "q", "force")


def take_over(machine):
    """Starts a server where there is none, and gives the seconds until a client was answered."""
    start = time.monotonic()
    machine.server.served_after(PATIENCE)
    asker = Asker("probe", [machine.address])
    while not asker.exchange(machine.address, get("/jobs/999999", CLOSE)):
        expect(time.monotonic() - start < PATIENCE, "a server that listens doesn't answer")
    return time.monotonic() - start
