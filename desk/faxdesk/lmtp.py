"""Makes faxes of mails that come by LMTP (RFC 2033), with Debian's python3-aiosmtpd.

Each recipient of a mail is one fax and gets a reply of its own, with the status that faxdesk.mail has. A mail that comes again,
as after a reply that was lost, is the same faxes."""
import asyncio
import ipaddress
import logging
import os

from aiosmtpd.controller import Controller
from aiosmtpd.lmtp import LMTP

from .mail import deliver

log = logging.getLogger("faxdesk")
logging.getLogger("mail.log").setLevel(logging.WARNING)  # aiosmtpd's, which has a line for each command

REPLIES = {os.EX_OK: "250 2.0.0", os.EX_NOPERM: "550 5.7.1", os.EX_DATAERR: "554 5.6.0", os.EX_TEMPFAIL: "451 4.3.0"}
MOST_REPLY = 500  # bytes of a reply (RFC 5321, 4.5.3.1.5)
PATIENCE = 60  # seconds until it listens, on a busy machine
LONGEST_LINE = 10**6  # bytes of a line; some programs send longer ones than RFC 5321 allows


class Session(LMTP):
    line_length_limit = LONGEST_LINE

    async def push(self, status):
        """Sends a reply: to each recipient of a mail that aiosmtpd itself refuses."""
        is_of_mail = isinstance(status, str) and status.startswith(("500 Line too long", "552 Error: Too much mail data"))
        await super().push("\r\n".join([status] * len(self.envelope.rcpt_tos)) if is_of_mail else status)


class Handler:
    def __init__(self, settings):
        self.settings = settings

    async def handle_MAIL(self, _server, session, envelope, address, options):
        """Accepts mails from this machine alone, as the pages accept users' names."""
        if not ipaddress.ip_address(session.peer[0]).is_loopback:
            return "550 5.7.1 Only this machine may ask the desk."
        envelope.mail_from = address
        envelope.mail_options.extend(options)
        return "250 2.1.0 OK"

    async def handle_DATA(self, _server, _session, envelope):
        replies = [asyncio.to_thread(self.reply, envelope.mail_from, name, envelope.content) for name in envelope.rcpt_tos]
        return "\r\n".join(await asyncio.gather(*replies))

    def reply(self, sender, recipient, data):
        try:
            status, why = deliver(self.settings, sender, recipient, data)
        except Exception:
            log.exception("a fault of the desk")
            status, why = os.EX_TEMPFAIL, "the desk has a fault, which its log shows"
        text = "".join(letter if letter.isascii() and letter.isprintable() else "?" for letter in f"{REPLIES[status]} {why}")
        return text[:MOST_REPLY]


class Mails(Controller):
    """LMTP in a thread, for mails of as many bytes as a fax's files have in base64."""

    def __init__(self, settings):
        host, port = settings.address("lmtp")
        super().__init__(Handler(settings), hostname=host, port=port, server_hostname="faxdesk", ready_timeout=PATIENCE,
                         data_size_limit=settings.megabytes * 1_500_000 + 10**6)

    def factory(self):
        return Session(self.handler, **self.SMTP_kwargs)
