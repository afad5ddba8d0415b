"""The Debian package: what is in it, and, by hand, a throwaway root of Debian's own packages that it is installed in. The second
needs root, dpkg-deb, lintian, mmdebstrap, iproute2 and systemctl, and a mirror of Debian that apt reaches; the program is a built
one, and no script; it takes one to two minutes."""
import contextlib
import json
import os
import pathlib
import re
import shlex
import shutil
import signal
import subprocess
import time

from .documents import code, section_of, stubs, text_of
from .fax_line import Line, Tools
from .faxq import tiff
from .runner import group
from .shared import (CLOSE, EXAMPLES, MANY, Server, TOP, answer_to, attempt, expect, expect_same, get, post, reply_bytes,
                     run as run_program, said, wants, within)
from .unit import service_of

look = group("packaged", "Looks at what is in the Debian package, and how its worker's unit ends.", "waiting")
check = group("package", "Builds the Debian package, and tries it in a root of Debian's packages.", by_hand=True)
OLD_FORM = "0~20261129.fffffff"  # the greatest version of that day in the form that packages had before
MOMENTS = "2026-11-29T00:00:00Z", "2026-11-29T00:00:01Z", "2026-11-29T13:00:00Z", "2026-11-30T00:00:00Z"
NOBODY = 65534


def run(*words, **more):
    return subprocess.run([str(word) for word in words], stdin=subprocess.DEVNULL, capture_output=True, text=True, **more)


def done(*words, **more):
    ran = run(*words, **more)
    expect(ran.returncode == 0, f"{' '.join(map(str, words[:4]))} ends with {ran.returncode}: {ran.stdout[-500:]}{ran.stderr[-1500:]}")
    return ran.stdout


def versions(folder):
    """The version of a package of each of these moments, by packages of another program that are built in a repository of their
    own."""
    for name in "packaging", "examples", "desk", "man", "docs":
        shutil.copytree(TOP / name, folder / name)
    git = "git", "-C", folder, "-c", "user.name=check", "-c", "user.email=check@example.org"
    done(*git, "init", "--quiet")
    done(*git, "add", ".")
    for moment in MOMENTS:
        done(*git, "commit", "--quiet", "--allow-empty", "--message", moment, env={**os.environ, "GIT_COMMITTER_DATE": moment})
        built = done(folder / "packaging/build", "/bin/true", folder / "out")
        yield re.search(r"faxqd_(.*?)_\w+\.deb'", built)[1]


@look
def grows(folder):
    """The version of a later commit is greater, also within a day, and than each in the form that it had before."""
    wants("dpkg-deb", "objdump", "git")
    found = [OLD_FORM, *versions(folder)]
    for one, two in zip(found, found[1:]):
        expect(run("dpkg", "--compare-versions", one, "lt", two).returncode == 0, f"{two} isn't greater than {one}")


def extracted(folder):
    """The files of a package, whose program isn't looked at."""
    wants("dpkg-deb", "objdump", "git")
    done(TOP / "packaging/build", "/bin/true", folder / "out", env={**os.environ, "VERSION": "1.0"})
    package, = (folder / "out").glob("*.deb")
    done("dpkg-deb", "--raw-extract", package, folder / "root")
    return folder / "root"


@look
def as_installed(folder):
    """As it is installed no rule refuses or delays a fax, and each example rule is there to be taken; what an administrator may
    change is kept by an upgrade; no worker begins before an office's own program is there."""
    root = extracted(folder)
    controls = root / "etc/faxqd/office.controls"
    words = "--setup", root / "etc/faxqd/office.setup", "--controls", controls
    asked = [post("/jobs", place, f"number:{number}\ntotpages:9999\n") for place, number in
             enumerate(("110", "911", "+14155550100", "5550111", "5550112"), 1)]
    asked += [post("/modems/ttyS0/next", 1, "", "ttyS0"), post("/modems/ttyS1/next", 1, "", "ttyS1")]
    status, out, err, _ = run_program("replay", *words, input=b"".join(asked))
    expect((status, err) == (0, b""), f"with the package's files replay ends with {status}, and says {err!r}")
    heads = [reply.partition(b"\r\n")[0] for reply in reply_bytes(out)]
    expect(heads == 5 * [b"HTTP/1.1 201 Created"] + 2 * [b"HTTP/1.1 200 OK"], f"with the package's files faxes get {heads}")
    expect(b'"grant":2,"job":2' in out, f"with the package's files a fax waits: {out[-300:]!r}")
    rules = [line for line in (TOP / "examples/office.controls").read_text().split("\n") if line and line[0] != "#"]
    expect(rules and all(f"\n#{rule}\n" in controls.read_text() for rule in rules), "an example rule isn't in the package")
    kept = set((root / "DEBIAN/conffiles").read_text().split())
    expect(kept == {f"/{file.relative_to(root)}" for file in root.glob("etc/**/*") if file.is_file()}, f"conffiles are {kept}")
    unit = (root / "lib/systemd/system/faxqd-worker@.service").read_text()
    needs = re.search(r"(?m)^ConditionFileIsExecutable=(/\S+)$", unit)
    expect(needs and f" {needs[1]}\n" in re.search(r"(?m)^ExecStart=.*\n", unit)[0], "the worker's unit begins without its program")
    expect(not (root / needs[1].lstrip("/")).exists(), "the package has a program that takes jobs and sends nothing")
    expect(needs[1] in (root / "usr/share/doc/faxqd/OPERATIONS.md").read_text(), f"OPERATIONS doesn't mention {needs[1]}")


@look
def helpers(folder):
    """Each program beside faxqd runs where the package has it; so does the module that efax-worker needs."""
    root = extracted(folder)
    for name, words in ("efax-worker", "\nSends the faxes of one modem"), ("worker.sh", "the arguments are"), \
                       ("client.sh", "the arguments are"), ("import.sh", "the arguments are"), ("purge.sh", "the arguments are"):
        ran = run(root / "usr/lib/faxqd" / name)
        expect(ran.returncode in (1, 2) and words in f"\n{ran.stderr}", f"{name} ends with {ran.returncode}, and says {ran.stderr}")
    expect((root / "usr/share/doc/faxqd/examples/worker.nginx").exists(), "the package has no site for a worker")


@look
def units(folder):
    """systemd finds no fault in the package's units, nor in the drop-in for another worker that the worker's unit shows."""
    wants("systemd-analyze")
    root = extracted(folder)
    for target in pathlib.Path("/lib/systemd/system").glob("*.target"):
        shutil.copy(target, root / "lib/systemd/system")
    worker = root / "lib/systemd/system/faxqd-worker@.service"
    shown = re.findall(r"(?m)^#   (.*)$", worker.read_text())
    expect(shown[:3] == ["[Unit]", "ConditionFileIsExecutable=", "[Service]"], f"the worker's unit shows {shown}")
    drop_in = root / "etc/systemd/system/faxqd-worker@ttyS1.service.d/override.conf"
    drop_in.parent.mkdir(parents=True)
    drop_in.write_text("\n".join(shown))
    workers = "faxqd-worker@ttyS0.service", "faxqd-worker@ttyS1.service"
    for name in "faxqd.service", *workers, "faxqd-purge.service", "faxqd-purge.timer":
        ran = run("systemd-analyze", "verify", "--man=no", f"--root={root}", name)
        expect(ran.returncode == 0 and not ran.stderr, f"of {name} it says {ran.stderr}")


@look
def timer(folder):
    """The timer of the purge is installed and isn't enabled; its unit's script is there, and OPERATIONS states its days."""
    root = extracted(folder)
    unit = service_of((root / "lib/systemd/system/faxqd-purge.service").read_text())
    script, *_ = unit["ExecStart"][0].split()
    expect(os.access(root / script.lstrip("/"), os.X_OK), f"the package has no {script}")
    enabled = [file for file in root.glob("*/systemd/system/*.wants/*") if "purge" in file.name]
    scripts = "".join((root / f"DEBIAN/{name}").read_text() for name in ("preinst", "postinst"))
    expect(not enabled and "purge.timer" not in scripts, "the package enables the timer")
    settings = dict(part.split("=", 1) for line in unit["Environment"] for part in line.split())
    text = (root / "usr/share/doc/faxqd/OPERATIONS.md").read_text()
    expect("systemctl enable --now faxqd-purge.timer" in text, "OPERATIONS doesn't enable the timer")
    expect(f"{settings['DAYS']} days" in text, f"OPERATIONS doesn't state {settings['DAYS']} days")


@look
def log(folder):
    """The log of calls is rotated where the unit's worker writes it, below a folder that is root's alone, and no line is lost."""
    wants("logrotate")
    folder.chmod(0o755)
    root, private, logs = extracted(folder), folder / "private", folder / "log"
    private.mkdir(mode=0o700)
    (private / "faxqd").mkdir(mode=0o755)
    logs.symlink_to("private/faxqd")
    if os.getuid() == 0:
        os.chown(private / "faxqd", NOBODY, NOBODY)
    unit = (root / "lib/systemd/system/faxqd-worker@.service").read_text()
    expect("\nDynamicUser=yes\n" in unit and "\nLogsDirectory=faxqd\n" in unit, "the worker's log isn't where this check has it")
    file = re.search(r"LOG=(/\S+)", unit)[1]
    rules = folder / "logrotate"
    rules.write_text((root / "etc/logrotate.d/faxqd").read_text().replace("/var/log/faxqd", str(logs)))
    rotate = "logrotate", "--verbose", "--force", "--state", folder / "state", rules
    ran = run(*rotate)
    expect(ran.returncode == 0 and "error" not in ran.stderr, f"without a log logrotate says {ran.stderr}")
    calls = pathlib.Path(file.replace("/var/log/faxqd", str(logs)))
    for number in 1, 2, 3:
        with open(calls, "a") as written:  # as worker.sh does it, which opens the file for each line
            written.write(f"call {number}\n")
        ran = run(*rotate)
        expect(ran.returncode == 0 and "error" not in ran.stderr, f"logrotate says {ran.stderr}")
    there = {one.name: done("zcat", "--force", one) for one in logs.iterdir()}
    expect_same(there, {f"{calls.name}.1": "call 3\n", f"{calls.name}.2.gz": "call 2\n", f"{calls.name}.3.gz": "call 1\n"}, "the logs")


MODEM = """#!/bin/sh
# Sends pages, half a second each, and writes down when each begins and ends.
echo "$1 begins" >> "$SENT"
case $1 in dial) echo connected ;; page) sleep 0.5 ;; esac
echo "$1 ends" >> "$SENT"
"""


def stop(process, mode):
    """Stops the processes of a unit as systemd.kill(5) says of this KillMode=."""
    if mode == "control-group":
        os.killpg(process.pid, signal.SIGTERM)
    else:
        process.terminate()
    process.wait()
    if mode == "mixed":
        os.killpg(process.pid, signal.SIGKILL)


@look
def stopped(folder):
    """When a worker is stopped as its unit says, each page is sent once: worker.sh sends and reports the page that it has begun,
    and ends; what efax-worker has begun goes on, and the next worker waits for its end."""
    unit = (TOP / "packaging/faxqd-worker@.service").read_text()
    mode = (re.findall(r"(?m)^KillMode=(\S+)$", unit) or ["control-group"])[-1]
    settings = {**os.environ, **stubs(folder, 2), "EACH": "0.5", "WAIT": "0.2", "PROGRAM": str(said.program)}
    (folder / "modem").write_text(MODEM)
    (folder / "modem").chmod(0o755)
    tiff(folder / "letter.tif", 2)
    (folder / "setup").write_text("Modem: ttyS0\nJobReqProto: 0\n")
    for name, words in ("worker.sh", [folder / "modem"]), ("efax-worker", [folder, "-d", "/dev/null"]):
        sent = folder / name
        sent.mkdir()
        with attempt(name), Server(sent / "queue.db", *MANY, "--setup", folder / "setup") as server:
            settings |= {"FAXQD": f"http://127.0.0.1:{server.port}", "SENT": str(sent / "sent")}
            fax = f"number:5550111\ntotpages:2\ntiff:0::{folder}/letter.tif\n"
            expect(answer_to(server.port, post("/jobs", 1, fax, fields=CLOSE))[0] == 201, "the fax isn't accepted")
            def begin():
                return subprocess.Popen([EXAMPLES / name, "ttyS0", sent / "kept", *words], env=settings, stdin=subprocess.DEVNULL,
                                        start_new_session=True)
            def has(what):
                return (sent / "sent").exists() and what in (sent / "sent").read_text()
            process = begin()
            try:
                within("a page is under way", lambda: has("page begins") or has("0001.tif"), 60)
                time.sleep(0.2)
                stop(process, mode)
                process = begin()
                within("the job is done", lambda: b"\nstate:7\n" in answer_to(server.port, get("/jobs/1", CLOSE))[1], 60)
            finally:
                os.killpg(process.pid, signal.SIGKILL)
                process.wait()
            happened, job = (sent / "sent").read_text().split("\n"), answer_to(server.port, get("/jobs/1", CLOSE))[1]
            if name == "efax-worker":
                expect(happened == ["0001.tif", "0002.tif", ""] and b"\ntotdials:1\n" in job, f"the pages {happened} are sent: {job}")
            else:
                pages = [line for line in happened if line.startswith("page")]
                expect(pages == 2 * ["page begins", "page ends"], f"the pages aren't sent once each: {happened}")
                expect(b"\ntotdials:2\n" in job, f"the first worker went on after its page: {job}")


# ---- in a root of Debian's packages

def build(folder, version):
    done(TOP / "packaging/build", said.program, folder, env={**os.environ, "VERSION": version})
    package, = folder.glob(f"faxqd_{version}_*.deb")
    return package


class Root:
    """A throwaway root of Debian's own packages, with a network of its own: the unit's address may be in use here."""

    def __init__(self, place, *more):
        self.place = place
        self.network = subprocess.Popen(["unshare", "--net", "sleep", "100000"])
        while os.stat(f"/proc/{self.network.pid}/ns/net").st_ino == os.stat("/proc/self/ns/net").st_ino:
            time.sleep(0.01)
        done("nsenter", "-t", self.network.pid, "-n", "ip", "link", "set", "lo", "up")
        done("mmdebstrap", "--variant=minbase", f"--include={','.join(('adduser', 'curl', 'python3', 'libgcc-s1', *more))}",
             "bookworm", place)
        (place / "usr/sbin/policy-rc.d").write_text("#!/bin/sh\nexit 101\n")  # there is no systemd that could start anything
        (place / "usr/sbin/policy-rc.d").chmod(0o755)

    def inside(self, *words, user=None):
        as_user = ["setpriv", f"--reuid={user}", f"--regid={user}", "--clear-groups"] if user else []
        return ["nsenter", "-t", str(self.network.pid), "-n", "chroot", str(self.place), *as_user, *words]

    @contextlib.contextmanager
    def running(self, identity, settings, words, *options, **more):
        """A service, under the identity that these options of setpriv give. bwrap takes the place of chroot, in which the desk could
        make no sandbox."""
        own = ["nsenter", "-t", self.network.pid, "-n", "bwrap", "--bind", self.place, "/", "--proc", "/proc", "--dev", "/dev",
               *options, "--cap-add", "ALL"]
        start = ["setpriv", *identity, "env", "-i", "PATH=/usr/bin:/bin", *settings]
        process = subprocess.Popen([str(word) for word in (*own, *start, *words)], stdin=subprocess.DEVNULL, cwd="/",
                                   start_new_session=True, **more)
        try:
            yield process
        finally:
            os.killpg(process.pid, signal.SIGKILL)
            process.wait()

    def __enter__(self):
        return self

    def __exit__(self, *_):
        self.network.kill()
        self.network.wait()

    def does(self, *words, user=None):
        return done(*self.inside(*words, user=user))

    def install(self, package):
        shutil.copy(package, self.place / "tmp")
        return self.does("dpkg", "--install", "--force-confold", f"/tmp/{package.name}")

    def path(self, name):
        return self.place / name.lstrip("/")

    def unit(self, name="faxqd"):
        """The lines of a service's unit, each name with its values."""
        values = {}
        for line in self.path(f"/lib/systemd/system/{name}.service").read_text().replace("\\\n", " ").split("\n"):
            name, equals, value = line.partition("=")
            if equals and not line.startswith("#"):
                values.setdefault(name, []).append(value)
        return values

    @contextlib.contextmanager
    def serving(self):
        """The service, by its unit's own command lines and user."""
        unit = self.unit()
        expect(unit["User"] == ["faxqd"] and "DynamicUser" not in unit, "the unit isn't of the package's user")
        self.does(*unit["ExecStartPre"][0].split(), user="faxqd")
        process = subprocess.Popen(self.inside(*unit["ExecStart"][0].split(), user="faxqd"), stdin=subprocess.DEVNULL,
                                   stdout=subprocess.PIPE, stderr=subprocess.PIPE, text=True, cwd="/")
        try:
            first = process.stdout.readline()
            expect(first == "faxqd: listening\n", f"the service says {first!r} and {process.poll() and process.stderr.read()!r}")
            yield
        finally:
            process.kill()
            process.wait()

    def asks(self, *words):
        """What faxq says in there."""
        return self.does("env", "HOME=/root", "faxq", "--client", "desk", *words)


def is_installed(root, package):
    """What it installs stands where it should, with its owners and modes."""
    root.install(package)
    for name, mode, owner in (("/usr/bin/faxqd", 0o755, 0), ("/etc/faxqd/office.setup", 0o644, 0), ("/usr/bin/faxq", 0o755, 0)):
        there = root.path(name).stat()
        expect((there.st_mode & 0o777, there.st_uid) == (mode, owner), f"{name} is of {there.st_uid}, {there.st_mode & 0o777:o}")
    folder = root.path("/var/lib/faxqd").stat()
    faxqd = int(root.does("id", "-u", "faxqd"))
    expect((folder.st_mode & 0o777, folder.st_uid) == (0o700, faxqd) and faxqd, "the queue's folder isn't the user's alone")
    version = root.does("faxqd", "--version")
    expect(re.match(r"faxqd 0 \(commit (?!0{10})[0-9a-f]{10}, rattle-kit-(?!000)\w+\)", version), f"the version of the installed program is {version!r}")
    for page in ("man1/faxq.1.gz", "man5/faxqd.5.gz", "man8/faxqd.8.gz"):
        expect(root.path(f"/usr/share/man/{page}").exists(), f"{page} isn't there")


def own_program(root):
    """The office's own program of its modems."""
    modem = root.path("/etc/faxqd/modem")
    expect(not modem.exists(), "the package has a modem's program")
    modem.write_text("#!/bin/sh\necho \"$@\" >> /tmp/did\n[ \"$1\" != dial ] || echo connected\n")
    modem.chmod(0o755)


def dangling(root):
    """The links of the root that lead nowhere."""
    return set(root.does("find", "/", "-xdev", "-path", "/proc", "-prune", "-o", "-xtype", "l", "-print").split("\n"))


def is_used(root):
    """A fax is handed in, and the worker sends it."""
    with root.serving():
        expect(root.asks("submit", "5550111", "--pages", "2") == "1\n", "the first fax isn't job 1")
        shown = root.asks("why", "1", "--setup", "/etc/faxqd/office.setup", "--controls", "/etc/faxqd/office.controls")
        expect(shown.startswith("job 1 is ready"), shown)
        worker, = [line.partition("=")[2] for line in root.path("/lib/systemd/system/faxqd-worker@.service").read_text().split("\n")
                   if line.startswith("ExecStart=")]
        own_program(root)
        with subprocess.Popen(root.inside("env", "WAIT=0.2", "LOG=/tmp/calls", *worker.replace("%i", "ttyS0").split()),
                              stdin=subprocess.DEVNULL) as process:
            try:
                within("the worker sends it", lambda: "is done: 2 of 2 pages" in root.asks("status", "1"), pause=0.2)
                log = root.path("/tmp/calls")
                within("the worker logs the call", lambda: log.exists() and log.read_text().count("\tSEND\t") == 1)
            finally:
                process.kill()


def is_upgraded(root, package):
    """What the office changed stays, and so does the queue; a typo is reported before the service starts."""
    setup = root.path("/etc/faxqd/office.setup")
    setup.write_text(setup.read_text() + "Modem: ttyS2\n")
    done("systemctl", f"--root={root.place}", "enable", "faxqd-worker@ttyS0", "faxqd-purge.timer")
    root.install(package)
    expect(root.path("/etc/faxqd/modem").exists(), "the office's own program is gone")
    expect("Modem: ttyS2" in setup.read_text(), "the changed setup is gone")
    expect("2.0" in root.does("dpkg-query", "--show", "faxqd"), "it isn't upgraded")
    with root.serving():
        expect(root.asks("status", "1").startswith("job 1 to 5550111 is "), "job 1 is gone")
        expect(root.asks("modems", "down", "ttyS2") == "modem ttyS2 is down\n", "the changed setup isn't read")
        expect(root.asks("submit", "5550112", "--pages", "1") == "2\n", "the second fax isn't job 2")
    sound = setup.read_text()
    setup.write_text(sound + "TimeZone: nowhere\n")
    ran = run(*root.inside(*root.unit()["ExecStartPre"][0].split(), user="faxqd"))
    line = len(sound.split("\n"))
    expect(ran.returncode == 1 and ran.stderr.endswith(f"faxqd: setup line {line}: bad-zone\n"), f"of a typo it says {ran}")
    setup.write_text(sound)


def is_removed(root, package):
    """The queue and its setup outlast the package, until it is purged."""
    root.does("dpkg", "--remove", "faxqd")
    expect(not root.path("/usr/bin/faxqd").exists(), "the program is still there")
    expect(root.path("/var/lib/faxqd/queue.db").exists() and root.path("/etc/faxqd/office.setup").exists(),
           "the queue or its setup is gone before a purge")
    root.install(package)
    with root.serving():
        expect(root.asks("submit", "5550113", "--pages", "1") == "3\n", "the queue isn't the one from before")
    root.path("/etc/faxqd/modem").unlink()
    root.does("dpkg", "--purge", "faxqd")
    for name in "/var/lib/faxqd", "/etc/faxqd", "/usr/lib/faxqd", "/usr/share/doc/faxqd", "/lib/systemd/system/faxqd-purge.timer":
        expect(not root.path(name).exists(), f"{name} is there behind a purge")


@check
def debian(folder):
    """The Debian package is the same for the same program, and `lintian` finds no error; it is installed, started by its
    unit's own command line as its unit's user, used, upgraded, removed, put back and purged; then no link leads nowhere."""
    wants("dpkg-deb", "lintian", "mmdebstrap", "objdump", "ip", "systemctl")
    folder.chmod(0o755)
    one, two = build(folder, "1.0"), build(folder, "2.0")
    before = one.read_bytes()
    expect(build(folder, "1.0").read_bytes() == before, "the same program makes two packages")
    ran = run("lintian", "--allow-root", "--fail-on", "error", one)
    expect(ran.returncode == 0, f"lintian says {ran.stdout}")
    with Root(folder / "root") as root:
        before = dangling(root)
        is_installed(root, one)
        is_used(root)
        is_upgraded(root, two)
        is_removed(root, two)
        left = dangling(root) - before
        expect(not left, f"after a purge links lead nowhere: {sorted(left)}")


# ---- the desk's package

@look
def desk_package(folder):
    """The desk's package has each of its modules once, and its unit has no fault."""
    wants("dpkg-deb", "systemd-analyze")
    done(TOP / "packaging/build-desk", folder / "out", env={**os.environ, "VERSION": "1.0"})
    done("dpkg-deb", "--raw-extract", folder / "out/faxqd-desk_1.0_all.deb", folder / "root")
    names = {file.relative_to(TOP / "desk").as_posix() for file in (TOP / "desk/faxdesk").glob("**/*.*") if file.suffix != ".pyc"}
    there = {file.relative_to(folder / "root/usr/lib/faxqd").as_posix() for file in (folder / "root/usr/lib/faxqd").glob("**/*.*")}
    expect_same(sorted(there | {"faxdesk/__init__.py", "faxdesk/client.py"}), sorted(names), "the modules of the package and of faxq")
    for target in pathlib.Path("/lib/systemd/system").glob("*.target"):
        shutil.copy(target, folder / "root/lib/systemd/system")
    (folder / "root/usr/bin").mkdir()
    (folder / "root/usr/bin/python3").touch(mode=0o755)
    ran = run("systemd-analyze", "verify", "--man=no", f"--root={folder / 'root'}", "faxqd-desk.service")
    expect(ran.returncode == 0 and not ran.stderr, f"of faxqd-desk.service it says {ran.stderr}")


def documented_commands():
    """The commands by which OPERATIONS.md makes an office, each as its words."""
    return [shlex.split(line) for line in code(section_of(text_of("OPERATIONS.md"), "An office in ten minutes")) if line]


DESK_NEEDS = ("python3-flask", "python3-waitress", "python3-pil", "ghostscript", "libtiff-tools", "bubblewrap", "paps",
              "fonts-dejavu-core")


@check
def desk(folder):
    """Both packages are installed in a fresh Debian, and a PDF that is uploaded to the desk, started by its unit's own command line
    as its user, becomes a job; the documents outlast the package until it is purged."""
    wants("dpkg-deb", "lintian", "mmdebstrap", "objdump", "ip", "bwrap")
    folder.chmod(0o755)
    done(TOP / "packaging/build-desk", folder, env={**os.environ, "VERSION": "1.0"})
    package = folder / "faxqd-desk_1.0_all.deb"
    ran = run("lintian", "--allow-root", "--fail-on", "error", package)
    expect(ran.returncode == 0, f"lintian says {ran.stdout}")
    with Root(folder / "root", *DESK_NEEDS) as root:
        root.install(build(folder, "1.0"))
        root.install(package)
        with root.serving(), desk_serving(root):
            root.path("/tmp/report.ps").write_text("%!PS\nshowpage showpage\n")
            root.does("curl", "--silent", "--fail", "-H", "X-Remote-User: anna", "-F", "token=abcdefgh", "-F", "number=5550111", "-F",
                      "file=@/tmp/report.ps", "http://127.0.0.1:4560/faxes")
            within("its job", lambda: "0 of 2 pages" in run(*root.inside("faxq", "--client", "x", "status", "1")).stdout)
        document, = root.path("/var/lib/faxqd-desk/documents").iterdir()
        group = int(root.does("id", "-g", "faxqd-desk"))
        expect((document.stat().st_gid, document.stat().st_mode & 0o777) == (group, 0o640), f"the document is of {document.stat()}")
        root.does("dpkg", "--remove", "faxqd-desk")
        expect(document.exists(), "the documents are gone with the program")
        root.does("dpkg", "--purge", "faxqd-desk")
        expect(not root.path("/var/lib/faxqd-desk").exists(), "the documents are there after a purge")


@contextlib.contextmanager
def desk_serving(root):
    """The desk, by its unit's command line and user."""
    unit = root.unit("faxqd-desk")
    user, group = (root.does("id", option, unit["User"][0]).strip() for option in ("-u", "-g"))
    identity = f"--reuid={user}", f"--regid={group}", "--clear-groups"
    with root.running(identity, unit["Environment"][0].split(), unit["ExecStart"][0].split(), stdout=subprocess.PIPE,
                      stderr=subprocess.PIPE, text=True) as process:
        first = process.stdout.readline()
        expect(first == "faxdesk: listening at 127.0.0.1:4560\n", f"the desk says {first!r} and {process.poll() and process.stderr.read()!r}")
        yield


# ---- the office of the document

def worker_by_efax(root, modem, device):
    """The worker of a modem, as systemd starts it with the drop-in; the device replaces the modem's."""
    unit = root.unit("faxqd-worker@")
    drop_in = root.path("/etc/systemd/system/faxqd-worker@.service.d/efax.conf").read_text().replace("%i", modem)
    words, = re.findall(r"(?m)^ExecStart=(.+)$", drop_in)
    more, = re.findall(r"(?m)^SupplementaryGroups=(.+)$", drop_in)
    user, group = 61234, int(root.does("getent", "group", more).split(":")[2])
    for folder in "/var/lib/faxqd-worker", "/var/log/faxqd":
        root.path(folder).mkdir(exist_ok=True)
        os.chown(root.path(folder), user, user)
    device.resolve().chmod(0o666)
    identity = f"--reuid={user}", f"--regid={user}", f"--groups={group}"
    return root.running(identity, [*unit["Environment"][0].split(), "WAIT=0.5"], words.split(),
                        "--dev-bind", device.resolve(), f"/dev/{modem}")


def make_office(root, folder, commands):
    """Runs the commands in the root. What they say to systemd is done when all of them have run."""
    for words in commands:
        if words[0] == "systemctl":
            continue
        if words[0] == "apt-get":
            root.install(build(folder, "1.0"))
            root.install(folder / "faxqd-desk_1.0_all.deb")
        elif words[0] == "htpasswd":
            root.does("htpasswd", "-b", *words[1:], "secret")
        else:
            root.does(*words)
    asked = [words[1:] for words in commands if words[0] == "systemctl"]
    expect_same(asked, [["restart", "nginx", "faxqd-desk"], ["daemon-reload"], ["enable", "--now", "faxqd-worker@ttyS0"]], "what systemd is asked")


def upload(root):
    """What the office's user gets for a document that she uploads."""
    root.path("/tmp/report.ps").write_text("%!PS\n/Courier findfont 40 scalefont setfont 72 600 moveto (report) show showpage\n")
    return root.does("curl", "--silent", "--fail-with-body", "--cacert", "/etc/nginx/fax.pem", "--resolve", "fax.office.example:443:127.0.0.1",
                     "-u", "anna:secret", "-H", "Accept: application/json", "-F", "token=abcdefgh", "-F", "number=5550111", "-F",
                     "file=@/tmp/report.ps", "https://fax.office.example/faxes")


@check
def office(folder):
    """The commands of OPERATIONS.md make a fax office in a fresh Debian: what its user uploads through nginx, with TLS and her
    password, is received at the other end of a soft modem's line."""
    wants("dpkg-deb", "mmdebstrap", "ip", "bwrap", "efax")
    folder.chmod(0o755)
    done(TOP / "packaging/build-desk", folder, env={**os.environ, "VERSION": "1.0"})
    commands = documented_commands()
    more = [word for word in commands[0][2:] if not word.startswith("./")]
    with Root(folder / "root", *DESK_NEEDS, *more) as root, contextlib.ExitStack() as ends:
        make_office(root, folder, commands)
        ends.enter_context(root.serving())
        ends.enter_context(desk_serving(root))
        line = Line(Tools().modems, folder)
        ends.callback(line.stop)
        proxy = subprocess.Popen(root.inside("nginx", "-g", "daemon off;"), stdin=subprocess.DEVNULL)
        ends.callback(proxy.wait)
        ends.callback(proxy.terminate)
        ends.enter_context(worker_by_efax(root, "ttyS0", line.caller))
        within("an answer", lambda: root.asks("modems"))
        fax = json.loads(upload(root))
        expect(fax.get("number") == "5550111", f"the upload is answered {fax}")
        status = root.inside("faxq", "--client", "x", "status", "1")
        within("the fax is done", lambda: "is done: 1 of 1 pages" in run(*status).stdout, 100)
        expect(len(line.confirmed()) == 1, f"{len(line.confirmed())} pages are received")
        log = root.path("/var/log/nginx/fax.log").read_text()
        expect(re.search(r' anna - 201 "POST /faxes ', log), f"nginx logs {log}")
