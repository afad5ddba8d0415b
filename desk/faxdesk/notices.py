"""Notices: what an owner gets when a fax is over, by mail or by a command of the office's own.

A notice is marked as sent after the mail server or the command has accepted it. A desk that is killed between the two sends
it once more, under the same Message-ID, by which a reader can recognise it."""
import email.message
import email.policy
import email.utils
import logging
import smtplib
import subprocess
import time

from .sentences import sentence, shown
from .store import has_failed

log = logging.getLogger("faxdesk")
LIMIT = 30  # seconds for a mail or a command
LONGEST = 600  # seconds until a notice that wasn't accepted is sent again


def subject(fax):
    return f"Fax {fax['id']} to {fax['number']} {'failed' if has_failed(fax) else 'was sent'}"


def body(settings, fax):
    lines = [sentence(fax), "", f"Fax: {fax['id']}", f"Number: {fax['number']}", f"Name: {fax['name'] or fax['file_name']}"]
    if fax["pages"]:
        lines.append(f"Pages: {fax['confirmed']} of {fax['pages']} confirmed")
    lines.append(f"Submitted: {shown(fax['created'])}")
    if fax["ended"]:
        lines.append(f"Ended: {shown(fax['ended'])}")
    if settings.link:
        lines += "", f"{settings.link.rstrip('/')}/faxes/{fax['id']}"
    return "\n".join(lines) + "\n"


def message(settings, fax):
    """The mail to the owner of a fax (RFC 5322; RFC 3834: nothing answers it)."""
    mail = email.message.EmailMessage(policy=email.policy.SMTP)
    mail["From"], mail["To"] = settings.sender, settings.address_of(fax["owner"])
    mail["Subject"], mail["Date"] = subject(fax), email.utils.formatdate()
    domain = email.utils.parseaddr(settings.sender)[1].rpartition("@")[2]
    mail["Message-ID"] = f"<fax-{fax['id']}-{fax['created']}@{domain}>"
    mail["Auto-Submitted"] = "auto-generated"
    mail.set_content(body(settings, fax))
    return mail


def send(settings, mail):
    with smtplib.SMTP(*settings.address("smtp"), timeout=LIMIT) as server:
        server.send_message(mail)


class Notices:
    def __init__(self, settings, store):
        self.settings, self.store = settings, store
        self.later = {}  # the faxes whose notice wasn't accepted, each with the time of the next try and the pause before it

    def sends(self):
        """Sends what is due. What isn't accepted is sent later, in pauses that grow; what never will be is logged. Without a mail
        server or a command nothing is kept for the time when there is one."""
        for fax in self.store.to_tell():
            if not self.settings.smtp and not self.settings.notice:
                self.store.change(fax["id"], is_told=1)
            elif self.later.get(fax["id"], (0, 0))[0] <= time.monotonic():
                self.tell(fax)

    def tell(self, fax):
        try:
            self.send(fax)
        except smtplib.SMTPRecipientsRefused as fault:
            codes = [code for code, _ in fault.recipients.values()]
            self.put_off(fax, fault, all(500 <= code < 600 for code in codes))
        except Exception as fault:  # of whatever kind, it keeps no other notice from being sent
            self.put_off(fax, fault, False)
        else:
            self.later.pop(fax["id"], None)
            self.store.change(fax["id"], is_told=1)

    def put_off(self, fax, fault, is_final):
        log.info("the notice of fax %s isn't accepted: %s", fax["id"], fault)
        if is_final:
            self.store.change(fax["id"], is_told=1)
            return
        pause = min(2 * self.later.get(fax["id"], (0, self.settings.pause))[1], LONGEST)
        self.later[fax["id"]] = time.monotonic() + pause, pause

    def send(self, fax):
        if self.settings.smtp:
            send(self.settings, message(self.settings, fax))
        else:
            state = "failed" if has_failed(fax) else "done"
            subprocess.run([*self.settings.notice, str(fax["id"]), fax["owner"], state], input=body(self.settings, fax).encode(),
                           timeout=LIMIT, check=True)
