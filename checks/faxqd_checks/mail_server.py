"""A mail server of a check's own."""
import contextlib
import email
import email.policy
import re
import socketserver

from .shared import InThread


class MailServer(InThread):
    """Accepts mails (RFC 5321), and keeps each with its recipients."""

    def __init__(self, port=0):
        self.mails, self.refuses, sink = [], False, self

        class Handler(socketserver.StreamRequestHandler):
            def handle(self):
                self.wfile.write(b"220 sink\r\n")
                recipients = []
                while line := self.line():
                    verb = line[:4].upper()
                    if verb == b"DATA":
                        self.wfile.write(b"354 go on\r\n")
                        data = b""
                        while (line := self.line()) and line != b".\r\n":
                            data += line
                        if not line:
                            return
                        sink.mails.append((recipients, email.message_from_bytes(data, policy=email.policy.default)))
                        recipients = []
                    elif verb == b"RCPT":
                        recipients.append(re.search(rb"<(.*)>", line)[1].decode())
                    refused = verb == b"RCPT" and "refused" in recipients[-1]
                    answer = b"550 no\r\n" if refused else b"451 later\r\n" if sink.refuses else b"250 yes\r\n"
                    self.wfile.write({b"QUIT": b"221 ends\r\n"}.get(verb, answer))
                    if verb == b"QUIT":
                        return

            def line(self):
                """The next line, or nothing where the connection ends."""
                with contextlib.suppress(ConnectionError):
                    return self.rfile.readline()

        class Listener(socketserver.ThreadingTCPServer):
            allow_reuse_address = daemon_threads = True

        super().__init__(Listener(("127.0.0.1", port), Handler))
        self.address = f"127.0.0.1:{self.port}"

    def settings(self):
        return {"smtp": self.address, "sender": "fax@office.example", "domain": "office.example", "link": "https://fax.example"}
