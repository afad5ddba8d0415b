"""The desk behind the programs that bring mails and prints: a Postfix and a cupsd, each with files and a port of its own. By
hand: they want root, Debian's postfix, python3-aiosmtpd, cups-daemon and cups-client, and what the desk wants."""
import contextlib
import os
import pathlib
import re
import shutil
import smtplib
import subprocess

from .desk import TWO_PAGES, converted, key_lines, mail_of, office, within
from .desk_mails import wants_lmtp
from .documents import section_of, text_of
from .mail_server import MailServer
from .runner import group
from .shared import NotTried, TOP, expect, expect_same, free_port, is_free, rows_of_copy, wants

check = group("deliveries", "Has Postfix bring mails to the desk, by LMTP and by a pipe, and CUPS what is printed.",
              by_hand=True)

MAIN = """compatibility_level = 3.6
queue_directory = {0}/queue
data_directory = {0}/data
command_directory = /usr/sbin
daemon_directory = /usr/lib/postfix/sbin
mail_owner = postfix
setgid_group = postdrop
myhostname = mx.office.example
mydestination =
inet_interfaces = 127.0.0.1
inet_protocols = ipv4
maillog_file = {0}/log/mail
maillog_file_prefixes = {0}
alias_maps =
minimal_backoff_time = 1s
queue_run_delay = 1s
relayhost = [127.0.0.1]:{1}
"""
MASTER = """127.0.0.1:{} inet n - n - - smtpd
pickup unix n - n 60 1 pickup
cleanup unix n - n - 0 cleanup
qmgr unix n - n 1 1 qmgr
rewrite unix - - n - - trivial-rewrite
bounce unix - - n - 0 bounce
defer unix - - n - 0 bounce
trace unix - - n - 0 bounce
verify unix - - n - 1 verify
proxymap unix - - n - - proxymap
smtp unix - - n - - smtp
error unix - - n - - error
retry unix - - n - - error
lmtp unix - - n - - lmtp
anvil unix - - n - 1 anvil
scache unix - - n - 1 scache
postlog unix-dgram n - n - 1 postlogd
"""


def wants_root(*tools):
    wants(*tools)
    if os.getuid() != 0:
        raise NotTried("this isn't root")


@contextlib.contextmanager
def postfix(folder, main, master, relay):
    """A Postfix with these lines more in its files, which sends everything else to that port; its own port."""
    wants_root("postfix")
    folder.chmod(0o755)
    for name in "etc", "queue", "data", "log":
        (folder / name).mkdir()
    shutil.chown(folder / "data", "postfix")
    port = free_port()
    (folder / "etc/main.cf").write_text(MAIN.format(folder, relay) + main)
    (folder / "etc/master.cf").write_text(MASTER.format(port) + master)
    (folder / "etc/dynamicmaps.cf").touch()
    subprocess.run(["postfix", "-c", folder / "etc", "start"], check=True, capture_output=True)
    try:
        within("Postfix listens", lambda: not is_free(port))
        yield port
    finally:
        subprocess.run(["postfix", "-c", folder / "etc", "stop"], check=True, capture_output=True)


def job_of(desk, server, number, user="anna"):
    """The lines of the job of a fax that comes."""
    within(f"fax {number}", lambda: desk.ask("GET", f"/faxes/{number}", user=user)[0] == 200)
    return key_lines(server, desk.settled(number, "submitted", user=user)["job"])


def lines_of(text, indent):
    """The lines of a text that are indented so far."""
    return "".join(f"{line[indent:]}\n" for line in text.split("\n") if line.startswith(" " * indent))


def delivers(folder, desk, server, port, mails, log):
    """A mail of a user is one fax for each recipient; one of a stranger or to no number comes back or is answered; a mail that
    comes while the desk is away is a fax later."""
    letter = mail_of("anna@office.example", "Order", ("application/pdf", "a.pdf", converted(folder, "pdf", TWO_PAGES)))
    with smtplib.SMTP("127.0.0.1", port) as sender:
        sender.send_message(letter, "anna@office.example", ["5550111@fax.example", "+15550112@fax.example"])
        for number in 1, 2:
            job = job_of(desk, server, number)
            expect_same((job["totpages"], job["jobtag"], job["owner"]), ("2", "Order", "anna"), f"job {number}")
        sender.send_message(letter, "eve@elsewhere.example", ["5550111@fax.example"])
        sender.send_message(mail_of("anna@office.example", "x"), "anna@office.example", ["sales@fax.example"])
        within(lambda: f"two answers, {mails.mails} {log.read_text()[-3000:]}", lambda: len(mails.mails) >= 2)
        about = {recipients[0]: mail for recipients, mail in mails.mails}
        expect_same(set(about), {"eve@elsewhere.example", "anna@office.example"}, "who gets answers")
        expect("may not send faxes" in about["eve@elsewhere.example"].as_string(), "the stranger doesn't learn why")
        expect("only digits" in about["anna@office.example"].as_string(), "the user doesn't learn why")
        desk.kill()
        sender.send_message(mail_of("anna@office.example", "Later"), "anna@office.example", ["5550113@fax.example"])
        within("it is put off", lambda: "status=deferred" in log.read_text())
    desk.start()
    expect_same(job_of(desk, server, 3)["jobtag"], "Later", "the fax of the mail that waited")
    expect_same(rows_of_copy(folder / "desk/desk.db", "SELECT count(*) FROM faxes"), [(3,)], "the faxes")


@check
def by_lmtp(folder):
    """With the lines of OPERATIONS.md a Postfix delivers mails to the desk by LMTP."""
    wants_lmtp()
    lmtp, place = free_port(), folder / "postfix"
    main = lines_of(re.search(r"(?ms)\*\*Mail to fax.*?(?=^- )", section_of(text_of("OPERATIONS.md"), "The desk"))[0], 6)
    expect("127.0.0.1:4562" in main and len(main.splitlines()) == 1, f"OPERATIONS.md has the lines {main!r}")
    place.mkdir()
    folder.chmod(0o755)
    with MailServer() as mails, office(folder, lmtp=f"127.0.0.1:{lmtp}", **mails.settings()) as (server, desk), \
            postfix(place, main.replace("127.0.0.1:4562", f"127.0.0.1:{lmtp}"), "", mails.port) as port:
        delivers(folder, desk, server, port, mails, place / "log/mail")


@check
def by_a_pipe(folder):
    """With the lines of desk/faxdesk/mail.py a Postfix delivers mails to the desk by a pipe."""
    place = folder / "postfix"
    text = (TOP / "desk/faxdesk/mail.py").read_text()
    master = lines_of(text.partition("master.cf")[2].partition("It ends with")[0], 4)
    for old, new in (("user=faxqd-desk", "user=nobody"), ("/usr/local/lib/faxqd", str(TOP / "desk")),
                     ("/etc/faxqd", str(folder)), ("/usr/bin/env", "/usr/bin/env PYTHONDONTWRITEBYTECODE=1")):
        expect(master.count(old) == 1, f"mail.py hasn't {old} once in {master!r}")
        master = master.replace(old, new)
    main = "transport_maps = inline:{ fax.example=faxdesk: }\nfaxdesk_destination_recipient_limit = 1\n"
    expect("`faxdesk_destination_recipient_limit = 1`" in text, "mail.py doesn't limit the recipients")
    place.mkdir()
    folder.chmod(0o755)
    with MailServer() as mails, office(folder, **mails.settings()) as (server, desk), \
            postfix(place, main, master, mails.port) as port:
        delivers(folder, desk, server, port, mails, place / "log/mail")


FILES = """ServerRoot {0}/etc
ServerBin {0}/bin
CacheDir {0}/cache
StateDir {0}/state
RequestRoot {0}/spool
TempDir {0}/spool/tmp
AccessLog {0}/log/access
ErrorLog {0}/log/error
PageLog {0}/log/page
User lp
Group lp
"""
RULES = """Listen 127.0.0.1:{}
Browsing Off
JobRetryInterval 1
<Location />
  Order allow,deny
  Allow all
</Location>
<Policy default>
  <Limit All>
    Order allow,deny
    Allow all
  </Limit>
</Policy>
"""


@contextlib.contextmanager
def cups(place):
    """A cupsd with the backend as OPERATIONS.md installs it; its address."""
    wants_root("cupsd", "lp", "lpadmin")
    for name in "etc", "cache", "state", "spool/tmp", "log", "bin/backend":
        (place / name).mkdir(parents=True)
    for part in pathlib.Path("/usr/lib/cups").iterdir():
        if part.name != "backend":
            (place / "bin" / part.name).symlink_to(part)
    (place / "bin/faxdesk").symlink_to(TOP / "desk/faxdesk")  # where the backend finds the desk's modules
    command = re.search(r"`(install [^`]*)/usr/lib/cups([^`]*)`", section_of(text_of("OPERATIONS.md"), "The desk"))
    subprocess.run(f"{command[1]}{place}/bin{command[2]}".split(), cwd=TOP, check=True)
    port = free_port()
    (place / "etc/cups-files.conf").write_text(FILES.format(place))
    (place / "etc/cupsd.conf").write_text(RULES.format(port))
    words = ["cupsd", "-f", "-c", place / "etc/cupsd.conf", "-s", place / "etc/cups-files.conf"]
    process = subprocess.Popen(words, stdin=subprocess.DEVNULL, stdout=subprocess.DEVNULL, stderr=subprocess.DEVNULL)
    try:
        within("cupsd listens", lambda: not is_free(port))
        yield f"127.0.0.1:{port}"
    finally:
        process.terminate()
        process.wait()


@check
def by_cups(folder):
    """With the backend as OPERATIONS.md installs it what is printed by CUPS is a fax of its user, once, also where the desk is
    away at first; a title that is no number ends the job."""
    place = folder / "cups"
    folder.chmod(0o755)
    with office(folder) as (server, desk), cups(place) as address:
        def does(*words):
            ran = subprocess.run([str(word) for word in words], env={**os.environ, "CUPS_SERVER": address},
                                 capture_output=True, text=True)
            expect(ran.returncode == 0, f"{words} says {ran.stderr}")
            return ran.stdout

        does("lpadmin", "-p", "fax", "-E", "-v", f"faxdesk://127.0.0.1:{desk.port}", "-m", "raw")
        (folder / "report.pdf").write_bytes(converted(folder, "pdf", TWO_PAGES))
        for title in "Report", "+1 415 555-0100: Report":
            does("lp", "-d", "fax", "-U", "anna", "-t", title, folder / "report.pdf")
        job = job_of(desk, server, 1)
        got = job["number"], job["jobtag"], job["totpages"], job["owner"]
        expect_same(got, ("+14155550100", "Report", "2", "anna"), "the job")
        within("no job is left", lambda: not does("lpstat", "-o"))
        desk.kill()
        does("lp", "-d", "fax", "-U", "otto", "-t", "5550111", folder / "report.pdf")
        log = place / "log/error"
        within("CUPS puts it off", lambda: "status 6 (retry job later)" in log.read_text())
        desk.start()
        expect_same(job_of(desk, server, 2, "otto")["number"], "5550111", "the number")
        within("no job is left", lambda: not does("lpstat", "-o"))
        expect_same(desk.database("SELECT count(*) FROM faxes"), [(2,)], "the faxes")
