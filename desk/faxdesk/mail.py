"""Makes a fax of a mail, which it reads from standard input, as a mail server's pipe. The desk does the same by LMTP.

    python3 -m faxdesk.mail SETTINGS SENDER RECIPIENT < MESSAGE

SENDER and RECIPIENT are those of the envelope, which the mail server has to have checked; what the message states as its sender
doesn't matter. The number to dial is before the @ of RECIPIENT, as in 5550111@fax.example. SENDER has to be a user: SETTINGS
have their addresses. The fax has the attachments in order, or the text where there is none; its name is the subject. The same message
again (by its Message-ID) is the same fax. What can't be sent is answered by a mail to the sender, if that is a user.

In Postfix's master.cf, with `fax.example faxdesk:` in the transport_maps, and in main.cf the line
`faxdesk_destination_recipient_limit = 1`:

    faxdesk unix - n n - 1 pipe user=faxqd-desk argv=/usr/bin/env PYTHONPATH=/usr/local/lib/faxqd
      /usr/bin/python3 -m faxdesk.mail /etc/faxqd/desk.toml ${sender} ${recipient}

It ends with 0; with 77 (EX_NOPERM of sysexits.h) if the sender is no user, 65 (EX_DATAERR) if the message has nothing to send
or the desk refuses it and no mail can say so, and 75 (EX_TEMPFAIL) if the desk doesn't answer, so the mail server tries again.
"""
import argparse
import email
import email.message
import email.policy
import email.utils
import hashlib
import logging
import os
import smtplib
import sys

from .client import Fault
from .notices import send
from .settings import read_settings
from .submitting import Away, Refused, submit

log = logging.getLogger("faxdesk")

MOST_NAME = 200  # bytes of a fax's name
SIGNATURES = "application/pgp-signature", "application/pkcs7-signature", "application/x-pkcs7-signature"


def header(message, name):
    """A header of a message, as one line; empty if it is missing or can't be read, for which Python's parser raises exceptions
    of many kinds."""
    try:
        text = str(message[name] or "")
    except Exception:
        return ""
    return "".join(letter if letter.isprintable() else " " for letter in text).replace("\ufffd", "?").strip()


def is_attachment(part):
    """Whether a part of a message is to be sent: it is attached or has a name, and is no signature and no picture of a text."""
    kind = part.get_content_type()
    if part.is_multipart() or kind in SIGNATURES:
        return False
    if part.get_content_disposition() == "attachment":
        return True
    return bool(part.get_filename()) and not (kind.startswith("image/") and part["Content-ID"])


def parts_of(message):
    """The attachments of a message wherever they are in it, each with its name; or its text."""
    try:
        found = [(part.get_filename() or f"part.{part.get_content_subtype()}", part.get_payload(decode=True))
                 for part in message.walk() if is_attachment(part)]
        if not found and (text := message.get_body(("plain",))):
            found.append(("mail.txt", text.get_content().encode()))
    except Exception:  # see `header`
        raise Refused("The mail can't be read: a part of it is damaged.") from None
    if not found:
        raise Refused("The mail has neither an attachment nor a text.")
    return found


def answer(settings, sender, message, why):
    """A mail to the sender with the reason; not to what was sent by a program (RFC 3834)."""
    mail = email.message.EmailMessage(policy=email.policy.SMTP)
    mail["From"], mail["To"] = settings.sender, sender
    mail["Subject"], mail["Date"] = "Your fax wasn't accepted", email.utils.formatdate()
    mail["Message-ID"], mail["Auto-Submitted"] = email.utils.make_msgid(), "auto-replied"
    if header(message, "Message-ID"):
        mail["In-Reply-To"] = header(message, "Message-ID")
    mail.set_content(f"{why}\n")
    send(settings, mail)


def is_answered(settings, sender, message, why):
    """Whether a mail to the sender says so."""
    if not settings.smtp or (header(message, "Auto-Submitted") or "no").lower() != "no":
        return False
    try:
        answer(settings, sender, message, why)
    except (OSError, smtplib.SMTPException) as fault:
        log.warning("the answer to %s isn't accepted: %s", sender, fault)
        return False
    return True


def deliver(settings, sender, recipient, data):
    """Makes a fax of the bytes of a message. Returns the status, and why."""
    user = settings.user_of(sender)
    if not user:
        return os.EX_NOPERM, f"{sender or 'the sender'} may not send faxes"
    recipient = recipient.encode(errors="replace").decode()
    message = email.message_from_bytes(data, policy=email.policy.default)
    message_id = header(message, "Message-ID") or data
    fields = {"token": "mail-" + hashlib.sha256(f"{message_id} {recipient}".encode()).hexdigest()[:40],
              "number": recipient.partition("@")[0],
              "name": header(message, "Subject").encode()[:MOST_NAME].decode(errors="ignore")}
    try:
        return os.EX_OK, f"it is fax {submit(settings.address(), user, fields, parts_of(message))}"
    except Away as why:
        return os.EX_TEMPFAIL, str(why)
    except Refused as why:
        return os.EX_OK if is_answered(settings, sender, message, why) else os.EX_DATAERR, str(why)


def main():
    form = argparse.RawDescriptionHelpFormatter
    words = argparse.ArgumentParser(prog="faxdesk.mail", description=__doc__, formatter_class=form)
    words.add_argument("settings")
    words.add_argument("sender")
    words.add_argument("recipient")
    said = words.parse_args()
    try:
        settings = read_settings(said.settings)
    except Fault as fault:
        print(f"faxdesk: {fault}", file=sys.stderr)
        return os.EX_TEMPFAIL
    status, why = deliver(settings, said.sender, said.recipient, sys.stdin.buffer.read())
    if status != os.EX_OK:
        print(f"faxdesk: {why}", file=sys.stderr)
    return status


if __name__ == "__main__":
    sys.exit(main())
