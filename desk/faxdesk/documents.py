"""Documents: what is uploaded, and the TIFF that a modem sends of it.

Each is stored once, under its SHA-256. A conversion runs in a sandbox (bubblewrap) that has the system's programs, the files of
one fax and a folder of its own, and neither a network nor the desk's data; and with limits of time, memory and size."""
import errno
import hashlib
import logging
import os
import pathlib
import shutil
import struct
import subprocess
import tempfile
import threading
import time
import unicodedata

from .client import Fault, directories, pages_of, put, sync, without_first

log = logging.getLogger("faxdesk")

HERE = pathlib.Path(__file__).resolve().parent
LINES = {"fine": 196, "standard": 98}  # to an inch, by ITU-T T.4
DOTS = 204
MOST_OUTPUT = 200  # megabytes of each file that a conversion writes
MOST_PREVIEWS = 2  # that are made at the same time
RECENT = 3600  # seconds for which a file is kept that isn't a fax's yet
VARIABLES = {"PATH": "/usr/bin", "HOME": "/tmp", "LANG": "C.UTF-8"}
SEEN = "/usr", "/etc/alternatives", "/etc/fonts", "/etc/ghostscript", "/var/lib/ghostscript", "/var/cache/fontconfig"


class Unusable(Exception):
    """Why no fax can be made of a file, as a sentence."""


def kind_of(head, is_text):
    """Returns what a file is by its first bytes, whatever its name is."""
    if head.startswith(b"%PDF-") or head.startswith(b"%!PS"):
        return "page"
    if head[:4] in (b"II*\0", b"MM\0*"):
        return "tiff"
    if head.startswith(b"\x89PNG\r\n\x1a\n") or head.startswith(b"\xff\xd8\xff"):
        return "picture"
    if head.lstrip(b"\xef\xbb\xbf \t\r\n")[:1] == b"<":
        raise Unusable("The file is a web page. Print it to a PDF.")
    if is_text:
        return "text"
    raise Unusable("The file is none of PDF, PostScript, TIFF, PNG, JPEG and plain text.")


def is_plain_text(data):
    """Whether the bytes are UTF-8 with something to print."""
    try:
        text = data.decode()
    except UnicodeDecodeError:
        return False
    return bool(text.strip()) and not has_control(text, "\t\n\r\f")


def has_control(text, but=""):
    """Whether a text has a control character except these."""
    return any(unicodedata.category(letter) == "Cc" and letter not in but for letter in text)


def bytes_of(file):
    """The bytes of a file that was made in the sandbox, which isn't a link: that would lead the desk out of it."""
    try:
        with open(os.open(file, os.O_RDONLY | os.O_NOFOLLOW | os.O_NONBLOCK), "rb") as made:
            return made.read()
    except OSError as fault:
        log.info("%s: %s", file, fault)
        raise Unusable("The file can't be printed.") from None


class Documents:
    """The files of the desk: `uploads` and `documents`, and `work` for conversions."""

    def __init__(self, settings):
        self.settings, self.lock = settings, threading.Lock()
        self.stored = {}  # when this desk stored each name last, by the monotonic clock
        self.uploads, self.made, self.work = (settings.place / name for name in ("uploads", "documents", "work"))
        for folder in self.uploads, self.made:
            folder.mkdir(parents=True, exist_ok=True)
        # What a desk left that was killed.
        shutil.rmtree(self.work, ignore_errors=True)
        for file in self.uploads.glob(".*"):
            file.unlink()
        self.work.mkdir()
        sync(settings.place)
        self.previewing = threading.Semaphore(MOST_PREVIEWS)
        try:
            self.run(self.work, [], settings.seconds, "true")
        except (Unusable, OSError) as fault:
            raise Fault(f"no sandbox can be made, see the log: {fault}") from None

    def store(self, stream):
        """Stores an upload, and returns its SHA-256. A file that is empty or too large is unusable."""
        most, size, digest = self.settings.megabytes * 10**6, 0, hashlib.sha256()
        with tempfile.NamedTemporaryFile(dir=self.uploads, prefix=".", delete=False) as new:
            try:
                while piece := stream.read(65536):
                    size += len(piece)
                    if size > most:
                        raise Unusable(f"The file has more than {self.settings.megabytes} MB.")
                    digest.update(piece)
                    new.write(piece)
                if not size:
                    raise Unusable("The file is empty.")
                new.flush()
                os.fsync(new.fileno())
                self.is_stored(digest.hexdigest())
                os.rename(new.name, self.uploads / digest.hexdigest())
            except BaseException:
                os.unlink(new.name)
                raise
        sync(self.uploads)
        return digest.hexdigest()

    def is_stored(self, name):
        """Notes that a file is stored under this name now."""
        with self.lock:
            self.stored[name] = time.monotonic()

    def size(self, fax):
        """The bytes of a fax's uploads and document."""
        files = [self.uploads / name for name in fax["uploads"].split()] + [self.file(fax["document"])]
        return sum(file.stat().st_size for file in files if file.exists())

    def clean(self, used):
        """Deletes uploads, documents and previews of other names than these, unless they were stored just now: their faxes may
        not be in the database yet."""
        for file in *self.uploads.iterdir(), *self.made.iterdir():
            name = file.name.partition(".")[0]  # none of a file that is being written
            with self.lock:
                recent = time.monotonic() - self.stored.get(name, float("-inf")) < RECENT
                if name and name not in used and not recent:
                    file.unlink(missing_ok=True)

    def file(self, name):
        """The TIFF of this name."""
        return self.made / f"{name}.tif"

    def keep(self, data):
        """Stores a TIFF, and returns its name."""
        name = hashlib.sha256(data).hexdigest()
        self.is_stored(name)
        if not self.file(name).exists():
            put(self.file(name), data)
        return name

    def convert(self, uploads, resolution):
        """Makes one TIFF of uploads, in their order. Returns its name, and how many pages it has."""
        files = [self.uploads / upload for upload in uploads]
        with tempfile.TemporaryDirectory(dir=self.work) as room:
            made = self.printed(pathlib.Path(room), files, resolution, time.monotonic() + self.settings.seconds)
            data = bytes_of(made)
        try:
            pages = len(directories(data)[0])
        except (KeyError, struct.error):
            raise Unusable("The file can't be printed.") from None
        if pages > self.settings.pages:
            raise Unusable(f"The fax has more than {self.settings.pages} pages.")
        return self.keep(data), pages

    def printed(self, room, files, resolution, end):
        """Prints files into a TIFF within a folder, each by itself, so that none changes how the next is printed. All has to be
        done by then."""
        made = [f"{place}.tif" for place in range(len(files))]
        for place, name in enumerate(made):
            page = self.page_of(room, files, place, end)
            self.run(room, files, end - time.monotonic(), "gs", "-q", "-dSAFER", "-dBATCH", "-dNOPAUSE", "-sDEVICE=tiffg3", f"-r{DOTS}x{LINES[resolution]}",
                     f"-sPAPERSIZE={self.settings.paper}", "-dFIXEDMEDIA", "-dFitPage", f"-dLastPage={self.settings.pages + 1}",
                     f"-sOutputFile={name}", page)
            if not (room / name).exists() or not (room / name).stat().st_size:
                raise Unusable("A file has no page." if len(files) > 1 else "The file has no page.")
        self.run(room, files, end - time.monotonic(), "tiffcp", *made, "fax.tif")
        return room / "fax.tif"

    def page_of(self, room, files, place, end):
        """Makes what ghostscript reads of one of these files. Returns where that is in the sandbox."""
        data, source, made, seconds = files[place].read_bytes(), f"/in/{place}", f"/work/{place}", end - time.monotonic()
        kind = kind_of(data[:1024], is_plain_text(data))
        if kind == "page":
            return source
        if kind == "tiff":
            self.run(room, files, seconds, "tiff2pdf", "-o", made, source)
        elif kind == "picture":
            self.run(room, files, seconds, "/usr/bin/python3", "-I", "/picture.py", source, made)
        else:
            self.run(room, files, seconds, "sh", "-c", 'exec paps "$1" "$2" > "$3"', "sh", f"--paper={self.settings.paper}", source, made)
        return made

    def run(self, room, files, seconds, *words):
        """Runs a program in the sandbox for so many seconds at most. It has the files as `/in/0` and so on, and the folder as
        `/work`."""
        inputs = [word for place, file in enumerate(files) for word in ("--ro-bind", str(file), f"/in/{place}")]
        system = [word for place in SEEN for word in ("--ro-bind-try", place, place)]
        links = [word for name in ("bin", "lib", "lib64") for word in ("--symlink", f"usr/{name}", f"/{name}")]
        places = ["--dev", "/dev", "--size", str(MOST_OUTPUT * 10**6), "--tmpfs", "/tmp", "--ro-bind", str(HERE / "picture.py"), "/picture.py"]
        own = ["--bind", str(room), "/work", "--chdir", "/work"]
        alone = ["--unshare-all", "--die-with-parent", "--new-session", "--clearenv"]
        variables = [word for name, value in VARIABLES.items() for word in ("--setenv", name, value)]
        sandbox = ["bwrap", *system, *links, *places, *inputs, *own, *alone, *variables]
        limits = ["prlimit", f"--as={self.settings.memory * 10**6}", f"--cpu={self.settings.seconds}",
                  f"--fsize={MOST_OUTPUT * 10**6}", "--core=0", "--"]
        try:
            with tempfile.TemporaryFile() as errors:
                ran = subprocess.run([*sandbox, *limits, *words], stdin=subprocess.DEVNULL, stdout=subprocess.DEVNULL, stderr=errors,
                                     timeout=max(seconds, 0))
                errors.seek(max(errors.seek(0, os.SEEK_END) - 1000, 0))
                said = errors.read().decode(errors="replace")
        except subprocess.TimeoutExpired:
            raise Unusable(f"The files take longer than {self.settings.seconds} s to convert.") from None
        if ran.returncode != 0:
            log.info("%s ends with %s: %r", words[0], ran.returncode, said)
            if shutil.disk_usage(room).free < MOST_OUTPUT * 10**6:  # it may be that, so the file is tried again later
                raise OSError(errno.ENOSPC, os.strerror(errno.ENOSPC))
            raise Unusable("The file can't be printed: it is damaged, protected by a password, or too large.")

    def rest(self, name, first):
        """Makes the TIFF of this name from a page on. Returns its name, and how many pages it has."""
        data, places, order = pages_of(self.file(name))
        return self.keep(without_first(data, places, order, first)), len(places) - first + 1

    def preview(self, name, page):
        """Returns a page of the TIFF of this name as a PNG, half as large. It is made once."""
        made = self.made / f"{name}.{page}.png"
        with self.previewing:
            if not made.exists():
                with tempfile.TemporaryDirectory(dir=self.work) as room:
                    words = "/usr/bin/python3", "-I", "/picture.py", "--page", str(page), "/in/0", "/work/page"
                    self.run(pathlib.Path(room), [self.file(name)], self.settings.seconds, *words)
                    put(made, bytes_of(pathlib.Path(room) / "page"))
        return made.read_bytes()
