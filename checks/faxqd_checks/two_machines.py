"""Two machines with one queue, and two queues with one address. As root: it wants glusterfs-server and iproute2, or nginx and
openssl. It takes three minutes; a program that is built with checks starts slowly, and takes longer."""
import base64
import contextlib
import os
import random
import re
import subprocess
import sys
import time

from .machines import Asker, Desk, Machine, PATIENCE, Place, SETUP, Volume, Worker, all_end, done, sound, take_over
from .runner import group
from .shared import CHECKS, TOP, expect, free_port, option, rows_of, said, say, wants

check = group("two-machines", "A queue on a replicated volume is taken over by a second machine under load; and nginx gives "
              "eight clients two queues, which are killed.", by_hand=True)


# ---- one queue, two machines

@check
def volume(folder):
    """Two machines mount one replicated volume. Under the load of a client and two workers the server is killed and taken
    over by the other machine again and again; a brick is lost and comes back; a machine is lost with its mount; and one is
    cut off from the others, whose server has to end when it is back. Nothing that was accepted is lost, nothing is accepted
    twice, and no page is granted again."""
    wants("glusterd", "gluster", "glusterfs", "ip")
    if "FAXQD_APART" not in os.environ:  # once more, in namespaces of its own
        words = ["unshare", "--mount", "--net", "--pid", "--fork", "--kill-child", "--mount-proc", sys.executable, CHECKS / "run",
                 "--program", said.program, "two-machines.volume", *(f"{name}={value}" for name, value in said.options.items())]
        ran = subprocess.run(words, env={**os.environ, "FAXQD_APART": "1"}, text=True, capture_output=True)
        expect(ran.returncode == 0, f"it says {ran.stdout}{ran.stderr}")
        say(ran.stdout.split("two-machines.volume: ", 1)[1].split("\n")[0])
        return
    (folder / "setup").write_text(SETUP)
    folder.chmod(0o755)
    machines = Machines(folder, int(option("kills", 40)))
    machines.killed_again_and_again()
    machines.lost()
    machines.cut_off()
    machines.look()


class Machines:
    """Two machines with one volume, of which the first one serves, and who asks them."""

    def __init__(self, folder, kills):
        self.kills, self.chance, self.volume = kills, random.Random(1), Volume(folder)
        self.one, self.two = Machine(2, folder), Machine(3, folder)
        for machine in self.one, self.two:
            machine.mounts()
        expect(self.one.server.start(), "the first server doesn't start")
        addresses = [self.one.address, self.two.address]
        self.askers = [kind(name, addresses) for kind, name in ((Desk, "desk"), (Worker, "ttyS0"), (Worker, "ttyS1"))]
        for asker in self.askers:
            asker.start()
        expect(not self.two.server.start(), "a second server starts while the first one runs")

    def killed_again_and_again(self):
        """The server is killed and taken over so often, and meanwhile a brick is lost and comes back."""
        times = []
        for turn in range(self.kills):
            time.sleep(self.chance.uniform(0.3, 1))
            if turn == self.kills // 4:
                self.volume.brick_is_lost()
                time.sleep(1)
            if turn == self.kills * 3 // 4:
                self.volume.brick_is_back()
            self.one.server.end()
            self.one, self.two = self.two, self.one
            times.append(take_over(self.one))
        times.sort()
        say(f"{self.kills} take-overs behind a kill took {times[0]:.2f} to {times[-1]:.2f} s, half of them up to "
            f"{times[self.kills // 2]:.2f}")

    def lost(self):
        """A machine is lost with its mount."""
        time.sleep(1)
        self.one.is_lost()
        self.one, self.two = self.two, self.one
        say(f"behind the loss of a machine with its mount {take_over(self.one):.2f} s")
        self.two.mounts()

    def cut_off(self):
        """Cut off without a request in hand, the old server doesn't notice; back again, it may not take a request."""
        time.sleep(1)
        all_end(self.askers)
        self.one.link("down")
        old, self.one = self.one, self.two
        say(f"behind a cut {take_over(self.one):.1f} s")
        self.askers += [Desk("desk2", [self.one.address])]
        self.askers[-1].start()
        time.sleep(2)
        old.link("up")
        time.sleep(12)  # it finds the volume again
        stray = Asker("stray", [old.address])
        answer = stray.exchange(old.address, stray.message(1, "/jobs", "number:5550111\ntotpages:1\n"))
        expect(answer is None or answer[0] == 503, f"a server that was cut off takes a request when it is back: {answer}")
        process = old.server.server.process
        with contextlib.suppress(subprocess.TimeoutExpired):
            process.wait(PATIENCE)
        expect(process.poll() == 1, "a server that was cut off goes on when it is back")

    def look(self):
        """What was accepted is there, and a repeat gets its reply."""
        all_end(self.askers)
        self.one.server.end()
        jobs = sound(self.one.mount / "queue.db", self.askers)
        say(f"{sum(len(asker.kept) for asker in self.askers)} accepted, {jobs} jobs")
        expect(self.one.server.start(), "it doesn't start at the end")
        for asker in self.askers:
            for number, (data, answer) in asker.kept.items():
                again = asker.exchange(self.one.address, data)
                expect(again == answer, f"request {number} of {asker.client} was answered {answer}, and is answered {again}")
        self.one.server.end()


# ---- two queues, one address

def site(folder, port, ports, names):
    """nginx gives each client its queue by its name, as docs/OPERATIONS.md says."""
    text = (TOP / "docs/OPERATIONS.md").read_text()
    told = re.search(r"(?ms)^    (split_clients .*?^    \})\n", text) or re.search(r"(?ms)^    (upstream .*?^    \})\n", text)
    ask = re.search(r"(?m)^    (proxy_pass http://\$?\w+;)$", text)
    expect(told and ask, "OPERATIONS.md has no division of clients")
    division = told[1].replace("127.0.0.1:4559", f"127.0.0.1:{ports[0]}").replace("127.0.0.1:4561", f"127.0.0.1:{ports[1]}")
    secret = done("openssl", "passwd", "-apr1", "secret").strip()
    (folder / "users").write_text("".join(f"{name}:{secret}\n" for name in names))
    (folder / "conf").write_text(f"""pid {folder}/pid; error_log {folder}/errors; daemon off; user root; events {{}} http {{ access_log off;
        {"".join(f"{kind}_temp_path {folder}/{kind};" for kind in ("client_body", "proxy", "fastcgi", "uwsgi", "scgi"))}
        {division}
        server {{ listen 127.0.0.1:{port}; auth_basic "faxqd"; auth_basic_user_file {folder}/users; location / {{
            {ask[1]} proxy_http_version 1.0; proxy_set_header Connection close; proxy_request_buffering on;
            proxy_set_header Fax-Client $remote_user; }} }} }}""")


def kill_both(places, askers, kills):
    """Both queues are killed again and again while they are asked."""
    chance = random.Random(2)
    for place in places:
        expect(place.start(), "a queue doesn't start")
    try:
        for asker in askers:
            asker.start()
        for turn in range(kills):
            time.sleep(chance.uniform(0.05, 0.4))
            place = places[turn % 2]
            place.end()
            time.sleep(chance.uniform(0, 0.5))
            expect(place.start(), "a queue that was killed doesn't start")
        all_end(askers)
    finally:
        for place in places:
            if place.server:
                place.end()


@check
def queues(folder):
    """nginx gives each of eight clients its queue by its name, as docs/OPERATIONS.md says, while both queues are killed again and
    again, and each accepted fax is one job in one queue."""
    wants("nginx", "openssl")
    folder.chmod(0o755)
    kills, port, ports = int(option("kills", 40)), free_port(), [free_port(), free_port()]
    names = [f"client{number}" for number in range(8)]
    site(folder, port, ports, names)
    (folder / "setup").write_text(SETUP)
    places = [Place(folder / f"queue{at}.db", "127.0.0.1", ports[at], folder / "setup") for at in (0, 1)]
    askers = [Desk(name, [("127.0.0.1", port)], "Authorization: Basic " + base64.b64encode(f"{name}:secret".encode()).decode()
                   + "\r\n") for name in names]
    askers += [Worker(f"ttyS{at}", [("127.0.0.1", ports[at])]) for at in (0, 1)]  # each at its own queue
    nginx = subprocess.Popen(["nginx", "-c", folder / "conf", "-p", folder], stderr=subprocess.DEVNULL)
    try:
        kill_both(places, askers, kills)
    finally:
        nginx.terminate()
        nginx.wait()
    of = {}
    for place in places:
        for name, in rows_of(place.file, "SELECT DISTINCT client FROM replies"):
            expect(name not in of, f"{name} was answered by both queues")
            of[name] = place
    expect(len({of[name] for name in names}) == 2, "one queue has all clients")
    count = sum(sound(place.file, [asker for asker in askers if of.get(asker.client) == place]) for place in places)
    taken = sum(len(asker.kept) for asker in askers if isinstance(asker, Desk))
    expect(count == taken, f"{taken} faxes were taken, and are {count} jobs")
    shares = [sum(of[name] == place for name in names) for place in places]
    say(f"{kills} kills, {count} faxes of {shares[0]} and {shares[1]} clients, each one job")
