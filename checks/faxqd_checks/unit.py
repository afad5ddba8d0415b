"""The program under the limits of its unit, examples/faxqd.service, and the purge under those of its own. systemd's own lists of
system calls become a seccomp filter by way of libseccomp, the library that systemd uses, and the filter is loaded before the
program begins."""
import ctypes
import errno
import os
import pathlib
import re
import shutil
import signal
import socket
import string
import subprocess
import sys

from .runner import group
from .shared import (CLOSE, EXAMPLES, NotServing, NotTried, Peer, Server, TOP, Wrong, answer_to, created, expect, get, post,
                     said, wants)

check = group("unit", "Runs the program and the purge under the limits that their units set.", "waiting")
UNIT = EXAMPLES / "faxqd.service"
PURGE = TOP / "packaging/faxqd-purge.service"
FAXES = 60  # as large as they are here, they write more than the 1,000 pages after which SQLite checkpoints
NOBODY = 65534
KILL_PROCESS, ERROR, ALLOW = 0x80000000, 0x00050000, 0x7FFF0000  # actions of seccomp(2); an error adds its number
EQUAL, MASKED_EQUAL = 4, 7  # comparisons of seccomp_rule_add(3)
WRITE, EXECUTE, SHARED_EXECUTE = 2, 4, 0o100000  # PROT_WRITE, PROT_EXEC, SHM_EXEC


# ---- the unit

def service_of(text):
    """The values of each setting in the unit's section Service, in their order."""
    section, found = "", {}
    for line in text.replace("\\\n", " ").split("\n"):
        name, equals, value = line.partition("=")
        if line.startswith("["):
            section = line
        elif equals and section == "[Service]" and not line.startswith(("#", ";")):
            found.setdefault(name.strip(), []).append(value.strip())
    return found


def groups_of_calls():
    """The members of each of systemd's groups of system calls, which may be groups too."""
    found, members = {}, []
    shown = subprocess.run(["systemd-analyze", "--no-pager", "syscall-filter"], capture_output=True, text=True).stdout
    for line in shown.split("\n"):
        if line.startswith("@"):
            members = found.setdefault(line.strip(), [])
        elif not line.startswith(" "):
            members = []  # the group has ended; calls without a group follow the last one
        elif not line.strip().startswith("#"):
            members.append(line.strip())
    return found


def expanded(names, groups):
    """The system calls that these names stand for."""
    return set().union(*(expanded(groups[name], groups) if name.startswith("@") else {name} for name in names))


def allowed(lists, groups):
    """The system calls that these values of SystemCallFilter= allow, as systemd.exec(5) merges them: the first list allows its
    own and @default, each further one allows more, or less if it begins with `~`, and an empty one begins again."""
    calls = set()
    for text in lists:
        names = expanded(text.lstrip("~").split(), groups)
        if not text:
            calls = set()
        elif text.startswith("~"):
            expect(calls, "the unit's first list of system calls is one of forbidden calls")
            calls -= names
        else:
            calls |= names if calls else names | expanded(["@default"], groups)
    return calls


# ---- filters

class Comparison(ctypes.Structure):
    """scmp_arg_cmp of seccomp.h: the argument, how it is compared, and with what."""
    _fields_ = [("argument", ctypes.c_uint), ("how", ctypes.c_int), ("one", ctypes.c_uint64), ("two", ctypes.c_uint64)]


class Filters:
    """The seccomp filters of a unit, which are loaded one after the other."""

    def __init__(self, service):
        try:
            self.library = ctypes.CDLL("libseccomp.so.2")
        except OSError:
            raise NotTried("there is no libseccomp") from None
        self.library.seccomp_init.restype = ctypes.c_void_p
        self.contexts = [self.calls(service), self.memory(service), self.families(service)]

    def context(self, action):
        return ctypes.c_void_p(self.library.seccomp_init(ctypes.c_uint32(action)))

    def rule(self, context, action, call, *comparisons):
        """Adds a rule, unless this machine has no such system call."""
        number = self.library.seccomp_syscall_resolve_name(call.encode())
        if number < 0:
            return
        array = (Comparison * len(comparisons))(*(Comparison(*one) for one in comparisons))
        wrong = self.library.seccomp_rule_add_array(context, ctypes.c_uint32(action), number, len(comparisons), array)
        expect(wrong == 0, f"libseccomp refuses a rule for {call}: {os.strerror(-wrong)}")

    def calls(self, service):
        """SystemCallFilter=, for the machine's own architecture alone, as SystemCallArchitectures=native says."""
        expect(service["SystemCallArchitectures"] == ["native"], "the unit allows more than native system calls")
        expect("SystemCallErrorNumber" not in service, "the unit refuses system calls, and this kills")
        context = self.context(KILL_PROCESS)
        for call in allowed(service["SystemCallFilter"], groups_of_calls()):
            self.rule(context, ALLOW, call)
        return context

    def memory(self, service):
        """MemoryDenyWriteExecute=."""
        expect(service["MemoryDenyWriteExecute"] == ["yes"], "the unit allows memory that is written and executed")
        context, refuse = self.context(ALLOW), ERROR + errno.EPERM
        self.rule(context, refuse, "mmap", (2, MASKED_EQUAL, WRITE | EXECUTE, WRITE | EXECUTE))
        for call in "mprotect", "pkey_mprotect":
            self.rule(context, refuse, call, (2, MASKED_EQUAL, EXECUTE, EXECUTE))
        self.rule(context, refuse, "shmat", (2, MASKED_EQUAL, SHARED_EXECUTE, SHARED_EXECUTE))
        return context

    def families(self, service):
        """RestrictAddressFamilies=."""
        names, = service["RestrictAddressFamilies"]
        context, kept = self.context(ALLOW), {int(getattr(socket, name)) for name in names.split()}
        for family in set(range(46)) - kept:  # AF_MAX of Linux 5.10 to 6.18
            self.rule(context, ERROR + errno.EAFNOSUPPORT, "socket", (0, EQUAL, family, 0))
        return context

    def load(self):
        """Puts this process and what it becomes under them."""
        for context in reversed(self.contexts):  # the one that forbids seccomp(2) comes last
            if self.library.seccomp_load(context) != 0:
                os._exit(99)

    def confine(self):
        """The same for a process of the unit's user, who has no privilege."""
        as_user()
        self.load()


# ---- checks

def as_user():
    """Makes this process one of a user without privileges."""
    if os.getuid() == 0:
        os.setgroups([])
        os.setgid(NOBODY)
        os.setuid(NOBODY)
    os.umask(0o077)


def reachable(folder):
    """A copy of the program that such a user can reach."""
    folder.chmod(0o755)
    return shutil.copy(said.program, folder / "faxqd")


class Place:
    """A folder with the program, its files and its queue, and the unit's commands as they are there."""

    def __init__(self, folder):
        said.program = self.program = reachable(folder)  # `Server` runs it too
        self.etc, self.state = folder / "etc", folder / "state"
        self.etc.mkdir()
        for kind in "setup", "controls":
            shutil.copy(EXAMPLES / f"office.{kind}", self.etc)
        self.state.mkdir(mode=0o700)
        if os.getuid() == 0:
            os.chown(self.state, NOBODY, NOBODY)

    def words(self, command):
        """The words of a command of the unit, with this folder's paths."""
        for there, here in (("/usr/local/bin/faxqd", self.program), ("/etc/faxqd", self.etc), ("/var/lib/faxqd", self.state)):
            command = command.replace(there, str(here))
        return command.lstrip("-").split()


def forbids(filters):
    """The filters do forbid what the unit forbids, so the check can fail."""
    tries = """if True:
        import mmap, os, socket
        for name, act in (("memory", lambda: mmap.mmap(-1, 4096, prot=7)), ("socket", lambda: socket.socket(socket.AF_UNIX))):
            try:
                act()
            except OSError as wrong:
                print(name, wrong.errno, flush=True)
        os.chroot("/")"""
    ran = subprocess.run([sys.executable, "-c", tries], capture_output=True, text=True, preexec_fn=filters.load)
    wanted = -signal.SIGSYS, f"memory {errno.EPERM}\nsocket {errno.EAFNOSUPPORT}\n"
    expect((ran.returncode, ran.stdout) == wanted, f"a program that does what is forbidden ends with {ran}")


def started(file, *rest, limits):
    """The server, which listens."""
    try:
        return Server(file, *rest, limits=limits, patience=60)
    except NotServing as wrong:
        raise Wrong(f"the first start ends with status {wrong.status}, where {-signal.SIGSYS} is a forbidden system call") from None


def fax(number):
    """A submission of 40 kB, which the file keeps with the job and with the reply."""
    return post("/jobs", number, f"number:5550111\ntotpages:1\nnote:{'x' * 40000}\n")


@check
def limits(folder):
    """Under the unit's system calls, memory and sockets, without privileges, each of its first commands ends well, and the
    server makes a new file, takes faxes, checkpoints, is stopped, and goes on."""
    wants("systemd-analyze")
    service = service_of(UNIT.read_text())
    filters, place = Filters(service), Place(folder)
    forbids(filters)
    for command in service["ExecStartPre"]:
        ran = subprocess.run(place.words(command), stdin=subprocess.DEVNULL, capture_output=True, preexec_fn=filters.confine)
        fine = ran.returncode >= 0 if command.startswith("-") else ran.returncode == 0
        expect(fine, f"`{command}` ends with {ran.returncode}, and says {ran.stderr!r}")
    start, = service["ExecStart"]
    _, serve, _, file, _, _, *rest = place.words(start)
    expect((serve, pathlib.Path(file).parent) == ("serve", place.state), f"the unit's server is {start}")
    with started(pathlib.Path(file), *rest, limits=filters.confine) as server:
        size = os.stat(file).st_size
        for number in range(1, FAXES + 1):  # one connection each, since one for all may be over its time
            with Peer(server.port) as peer:
                peer.asks(fax(number), created(number), f"fax {number}")
        expect(os.stat(file).st_size > size + 1_000_000, f"no checkpoint comes: {file} has {os.stat(file).st_size} bytes")
        server.stopped(signal.SIGTERM)
        server.start()
        with Peer(server.port) as peer:
            peer.asks(fax(7), created(7), "the repeat of fax 7 after a restart")
        jobs = answer_to(server.port, get("/jobs", CLOSE))[1]
        expect(len(jobs.split(b"\n")) == FAXES + 2, f"after a restart the listing is {jobs!r}")


@check
def purge(folder):
    """Under the limits of the purge's unit, without privileges, the command of that unit has its answer, and keeps its folder for
    itself; what the unit has beside that is what the server's unit has."""
    wants("systemd-analyze", "curl", "flock")
    service, state = service_of(PURGE.read_text()), folder / "state"
    filters = Filters(service)
    forbids(filters)
    of_server = service_of(UNIT.read_text())
    names = [name for name in of_server if re.match("Protect|Private|RestrictA|RestrictN|IPAddress|Capability|NoNew", name)]
    other = [name for name in names if service.get(name) != of_server[name]]
    expect(len(names) > 10 and not other, f"of {names} the purge's unit has others: {other}")
    folder.chmod(0o755)
    script = shutil.copy(EXAMPLES / "purge.sh", folder)
    state.mkdir(mode=0o700)
    if os.getuid() == 0:
        os.chown(state, NOBODY, NOBODY)
    with Server(folder / "queue.db", "--connections", "9") as server:
        settings = dict(part.split("=", 1) for line in service["Environment"] for part in line.split())
        expect(settings["FAXQD"] == "http://127.0.0.1:4559", f"the unit asks {settings}")
        place, = service["StateDirectory"]
        expect(settings["JOURNAL"].startswith(f"/var/lib/{place}/"), f"the unit keeps its request in {settings}")
        settings |= {"FAXQD": f"http://127.0.0.1:{server.port}", "JOURNAL": str(state / "request"), "PATH": os.environ["PATH"]}
        command, = service["ExecStart"]
        words = string.Template(command.replace("/usr/lib/faxqd/purge.sh", script)).substitute(settings).split()
        expect(words[0] == script, f"the unit's command is {command}")
        ran = subprocess.run(words, env=settings, stdin=subprocess.DEVNULL, capture_output=True, text=True, timeout=60, cwd="/",
                             preexec_fn=filters.confine)
        expect((ran.returncode, ran.stdout, ran.stderr) == (0, "0 jobs purged\n", ""), f"it ends with {ran}")
    kept = {file.name: file.stat().st_mode & 0o777 for file in state.iterdir()}
    expect(kept == {"request.lock": 0o600}, f"it keeps {kept}")
