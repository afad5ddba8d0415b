"""The desk's settings: a file of TOML, each value of which has a default."""
import dataclasses
import math
import pathlib
import re
import tomllib

from .client import NAME, Fault


PAPERS = "a4", "letter", "legal"
WORDS = {str: "a text", int: "a whole number", float: "a number", tuple: "a list of texts", dict: "a table of texts"}


@dataclasses.dataclass(frozen=True)
class Settings:
    # Where the desk listens. It trusts only a proxy on this machine to state who the user is.
    listen: str = "127.0.0.1:4560"
    # The queue, and the desk's name as its client.
    server: str = "http://127.0.0.1:4559"
    client: str = "desk"
    # What the desk keeps: its database, uploads, documents and what the queue hasn't answered.
    folder: str = "/var/lib/faxqd-desk"
    # Who sees and changes all faxes.
    administrators: tuple = ()
    # Who asks, where no proxy says so: for one person on one machine. Without it such a request is refused.
    user: str = ""
    # Limits of a fax: megabytes of each file, pages, and the seconds and megabytes of memory that its conversion may take.
    megabytes: int = 20
    pages: int = 100
    seconds: int = 60
    memory: int = 1024
    # Limits of a user: faxes that aren't over, and megabytes of uploads and documents within 24 hours.
    waiting: int = 1000
    daily: int = 1000
    # Days after which a fax that is over is deleted with its documents; 0 keeps them. The newest fax stays. A form or a mail
    # that comes again after that is another fax; mail servers try for 5 days.
    days: int = 0
    # The paper: a4, letter or legal.
    paper: str = "a4"
    # Mail to owners when a fax is over: the mail server as host:port, which asks for neither TLS nor a login, as one on this machine;
    # the sender, and the domain of the users' addresses. A user whose address isn't the name at that domain is in `addresses`.
    smtp: str = ""
    sender: str = "fax@localhost"
    domain: str = "localhost"
    addresses: dict = dataclasses.field(default_factory=dict)
    # Where mail servers of this machine deliver mails that become faxes, by LMTP (python3-aiosmtpd), as 127.0.0.1:4562. As at
    # `listen`, everybody on this machine can act as any user.
    lmtp: str = ""
    # Without smtp, a command that gets the number of the fax, its owner and `done` or `failed` as arguments, and the text.
    notice: tuple = ()
    # The desk's address as people have it, as https://fax.office.example: for links in mails, and needed behind a proxy.
    link: str = ""
    # A file with the text of a cover page, in which {number}, {name}, {owner} and {note} are replaced; none without it.
    cover: str = ""
    # Seconds between two looks at the queue.
    pause: float = 2.0

    @property
    def place(self):
        return pathlib.Path(self.folder)

    def address(self, name="listen"):
        """The host and the port of a setting."""
        host, _, port = getattr(self, name).rpartition(":")
        return host.strip("[]"), int(port)

    def cover_page(self, number, name, owner, note):
        """The text of a fax's cover page, or none without a template."""
        if not self.cover:
            return None
        return pathlib.Path(self.cover).read_text().format(number=number, name=name, owner=owner, note=note)

    def address_of(self, user):
        """The mail address of a user."""
        return self.addresses.get(user, f"{user}@{self.domain}")

    def user_of(self, address):
        """The user of a mail address, or none."""
        for user, own in self.addresses.items():
            if own.lower() == address.lower():
                return user
        name, _, domain = address.rpartition("@")
        known = domain.lower() == self.domain.lower() and re.fullmatch(NAME, name) and name not in self.addresses
        return name if known else None


def read_settings(file):
    """The settings of a file, or a fault that names the first line or value that is wrong."""
    try:
        values = tomllib.loads(pathlib.Path(file).read_text())
    except (OSError, UnicodeDecodeError, tomllib.TOMLDecodeError) as fault:
        raise Fault(f"{file}: {fault}", 2) from None
    for name in "administrators", "notice":
        if isinstance(values.get(name), list) and all(isinstance(word, str) for word in values[name]):
            values[name] = tuple(values[name])
    kinds = {name: type(value) for name, value in dataclasses.asdict(Settings()).items()}
    for name, value in values.items():
        if name not in kinds:
            raise Fault(f"{file}: there is no setting {name}", 2)
        if type(value) is not kinds[name] and not (kinds[name] is float and type(value) is int):
            raise Fault(f"{file}: {name} isn't {WORDS[kinds[name]]}", 2)
        if kinds[name] is dict and not all(isinstance(one, str) for one in value.values()):
            raise Fault(f"{file}: {name} isn't {WORDS[dict]}", 2)
        if kinds[name] in (int, float) and not (0 < value < math.inf or name == "days" and value == 0):
            raise Fault(f"{file}: {name} has to be {'0 or above' if name == 'days' else 'above 0'}", 2)
    settings = Settings(**values)
    if settings.paper not in PAPERS:
        raise Fault(f"{file}: paper is none of {', '.join(PAPERS)}", 2)
    try:
        settings.cover_page("", "", "", "")
    except (OSError, ValueError, LookupError, AttributeError) as fault:
        raise Fault(f"{file}: cover: {fault}", 2) from None
    for name in "listen", "smtp", "lmtp":
        if not re.fullmatch(r"\S+:[0-9]{1,5}|", getattr(settings, name)) or name == "listen" and not settings.listen:
            raise Fault(f"{file}: {name} isn't a host and a port, as 127.0.0.1:4560", 2)
    return settings
