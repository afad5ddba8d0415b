"""The desk of a fax office: it takes documents from people, and submits them to a queue of faxqd.

    python3 -m faxdesk SETTINGS

SETTINGS is a file of TOML; desk/faxdesk/settings.py has its values."""
import argparse
import logging
import os
import sys

import waitress

from .clerk import Clerk
from .client import Fault, Folder
from .documents import Documents
from .settings import read_settings
from .store import Store
from .web import application


# Bytes of a request's body that are read at all. What is larger than the settings say, and not than this, is answered in words.
MOST_BODY = 10**9
THREADS = 32  # for requests, of which many may wait for previews


def mails_of(settings):
    """What accepts mails, or nothing without the setting."""
    if not settings.lmtp:
        return None
    try:
        from .lmtp import Mails
    except ImportError:
        raise Fault("lmtp: there is no python3-aiosmtpd", 2) from None
    return Mails(settings)


def main():
    words = argparse.ArgumentParser(prog="faxdesk", description=__doc__, formatter_class=argparse.RawDescriptionHelpFormatter)
    words.add_argument("settings")
    said = words.parse_args()
    logging.basicConfig(level=logging.INFO, format="faxdesk: %(message)s")
    os.umask(0o027)
    try:
        settings = read_settings(said.settings)
        settings.place.mkdir(parents=True, exist_ok=True)
        folder = Folder(settings.place / "requests", lambda _: logging.info("another desk has the folder; waits for its end"))
        documents = Documents(settings)
        store = Store(settings.place / "desk.db")
        clerk = Clerk(settings, store, documents, folder)
        host, port = settings.address()
        mails = mails_of(settings)
        server = waitress.create_server(application(settings, store, documents, clerk), host=host, port=port, threads=THREADS,
                                        ident=None, max_request_body_size=MOST_BODY)
        if mails:
            mails.start()
    except Fault as fault:
        print(f"faxdesk: {fault}", file=sys.stderr)
        return fault.status
    except OSError as fault:
        print(f"faxdesk: {fault}", file=sys.stderr)
        return 1
    clerk.start()
    print(f"faxdesk: listening at {settings.listen}", flush=True)
    server.run()
    return 0


sys.exit(main())
