"""Submits a fax to the desk on this machine for a user: for mail and for printers. They try again if the desk doesn't answer, under
the same token, so it is one fax."""
import http.client
import json

from .client import form_of

LIMIT = 60  # seconds


class Refused(Exception):
    """Why the desk doesn't accept a fax."""


class Away(Exception):
    """Why the desk doesn't answer."""


def submit(address, user, fields, files):
    """Submits a fax, and returns its number at the desk. The fields have its token."""
    body, kind = form_of(fields, files)
    user = user.encode(errors="surrogateescape").decode("latin-1")  # the bytes, as a header has them
    connection = http.client.HTTPConnection(*address, timeout=LIMIT)
    try:
        connection.request("POST", "/faxes", body, {"Content-Type": kind, "X-Remote-User": user, "Accept": "application/json"})
        reply = connection.getresponse()
        status, received = reply.status, json.loads(reply.read())
        if status == 201:
            return received["id"]
        if 400 <= status < 500:
            raise Refused(received["fault"])
        raise Away(f"the desk answers {status}")
    except (OSError, ValueError, KeyError, TypeError, http.client.HTTPException) as fault:
        raise Away(f"the desk doesn't answer: {fault}") from None
    finally:
        connection.close()
