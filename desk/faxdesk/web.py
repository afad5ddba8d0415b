"""The desk's pages, and the same as JSON for programs."""
import datetime
import io
import ipaddress
import re
import secrets
import sqlite3
import threading
import urllib.parse

import flask
import werkzeug.exceptions

from .client import NAME, STATES
from .documents import LINES, Unusable, has_control
from .sentences import sentence, shown
from .store import has_failed

MOST_NAME = 200  # bytes of a fax's name, as a job tag has them
MORE = 10**6  # bytes of a form beside its files
MOST_FILES = 20
MOST_FILE_NAME = 100  # bytes of a file's name that are kept
LAST_MOMENT = 4102444800  # the last one that the queue takes
LAST_FAX = 2**63 - 1  # the greatest number of a row in SQLite
MOST_NOTE = 2000  # characters of the note on a cover page
ACTIONS = {"suspend": (2, 3, 4, 5, 6), "resume": (1,), "kill": (1, 2, 3, 4, 5, 6)}  # by the states of jobs


class Refused(Exception):
    """Why a request isn't accepted: a status, and a sentence."""

    def __init__(self, status, sentence):
        super().__init__(sentence)
        self.status = status


def number_in(text):
    """The number to dial that a user wrote, without separators, as the queue has it."""
    digits = re.sub(r"[-. ()]", "", text)
    if not re.fullmatch(r"\+?[0-9*#]{1,32}", digits):
        raise Refused(400, "The number may contain only digits, *, #, a leading + and separators, as +1 415 555-0100.")
    return digits


def name_in(text):
    """The name that a user gave a fax: one line. What wasn't UTF-8 has become U+FFFD."""
    name = re.sub(r"\s+", " ", text).strip()
    if len(name.encode()) > MOST_NAME or has_control(name) or "\ufffd" in name:
        raise Refused(400, f"The name is one line of at most {MOST_NAME} bytes in UTF-8.")
    return name


def file_name_in(text):
    """The name of an uploaded file without its folder and control characters, or the end of a long one."""
    name = text.replace("\\", "/").rpartition("/")[2].encode()[-MOST_FILE_NAME:].decode(errors="ignore")
    return " ".join("".join(" " if has_control(letter) else letter for letter in name).split()) or "file"


def moment_in(text):
    """The time that a user wrote, as `2026-12-24T18:00`, in the desk's time zone; or none."""
    if not text.strip():
        return None
    try:
        moment = int(datetime.datetime.fromisoformat(text.strip()).timestamp())
    except (ValueError, OverflowError):
        moment = -1
    if not 0 <= moment <= LAST_MOMENT:
        raise Refused(400, f"'{text}' isn't a time such as 2026-12-24 18:00.")
    return moment


def as_json(fax):
    state = STATES[fax["state"]] if fax["state"] else None
    keys = "id owner number name created send_at file_name stage reason pages job confirmed status ended".split()
    return {**{key: fax[key] for key in keys}, "state": state, "next": sentence(fax)}


def application(settings, store, documents, clerk):
    app = flask.Flask("faxdesk")
    app.config["MAX_CONTENT_LENGTH"] = settings.megabytes * 10**6 + MORE
    app.jinja_env.globals.update(sentence=sentence, shown=shown, has_failed=has_failed, STATES=STATES, clerk=clerk,
                                 settings=settings)
    request, one_by_one = flask.request, threading.Lock()

    # ---- who

    def who():
        """The name of the user, which a proxy on this machine states."""
        if not ipaddress.ip_address(request.remote_addr).is_loopback:
            raise Refused(403, "Only this machine may ask the desk.")
        name = request.headers.get("X-Remote-User") or settings.user
        if not name:
            raise Refused(403, "The proxy states no user's name in X-Remote-User.")
        if not re.fullmatch(NAME, name):
            raise Refused(403, "The user's name isn't 1 to 32 letters, digits, '.', '_' and '-'.")
        return name

    def is_administrator():
        return who() in settings.administrators

    def own_fax(number):
        """The fax of that number, which is the user's own, or any for administrators."""
        fax = store.fax(number) if number <= LAST_FAX else None
        if not fax or fax["owner"] != who() and not is_administrator():
            raise Refused(404, "There is no such fax.")
        return fax

    hosts = settings.listen, urllib.parse.urlsplit(settings.link).netloc

    @app.before_request
    def refuse_foreign_requests():
        """The desk answers under its own names alone, so no name of another site leads to it; and a form of another site isn't
        accepted (Fetch Metadata, and the field Origin of RFC 6454)."""
        if request.host not in hosts and request.host.rpartition(":")[0] not in ("127.0.0.1", "localhost", "[::1]"):
            raise Refused(421, f"The desk isn't known as {request.host}: its setting `link` is its address.")
        if request.method != "POST":
            return
        own = f"http://{request.host}", f"https://{request.host}"
        site = request.headers.get("Sec-Fetch-Site", "none")
        if request.headers.get("Origin", own[0]) not in own or site not in ("same-origin", "none"):
            raise Refused(403, "The form is of another site.")

    # ---- replies

    def wants_json():
        return request.accept_mimetypes.best_match(["text/html", "application/json"]) == "application/json"

    def answer(fax, status=303):
        """The fax: as JSON, or by a redirection to its page."""
        page = flask.url_for("one", number=fax["id"])
        if wants_json():
            return as_json(fax), 201 if status == 303 else status, {"Location": page}
        return flask.redirect(page, 303)

    @app.errorhandler(Refused)
    @app.errorhandler(Unusable)
    def refuse(why):
        status = getattr(why, "status", 400)
        if wants_json():
            return {"fault": str(why)}, status
        return flask.render_template("fault.html", fault=str(why)), status

    @app.errorhandler(werkzeug.exceptions.HTTPException)
    def refuse_request(why):
        sentences = {413: f"The file has more than {settings.megabytes} MB.", 404: "There is no such page."}
        return refuse(Refused(why.code, sentences.get(why.code, why.description)))

    @app.errorhandler(OSError)
    @app.errorhandler(sqlite3.OperationalError)
    def refuse_unstored(fault):
        clerk.has_fault()
        return refuse(Refused(503, f"The desk can't store or read it now: {getattr(fault, 'strerror', None) or fault}."))

    @app.after_request
    def restrict_contents(reply):
        reply.headers["Content-Security-Policy"] = (
            "default-src 'none'; style-src 'self'; script-src 'self'; img-src 'self'; connect-src 'self'; form-action 'self'; "
            "base-uri 'none'; frame-ancestors 'none'")
        reply.headers["X-Content-Type-Options"] = "nosniff"
        reply.headers["Referrer-Policy"] = "same-origin"
        if "Cache-Control" not in reply.headers:
            reply.headers["Cache-Control"] = "no-store"
        return reply

    # ---- pages

    def listed():
        """The user's faxes, or all for administrators: the newest, or those before the number that the query states; and
        whether there are older ones."""
        before = request.args.get("before", LAST_FAX, int)
        return store.newest(None if is_administrator() else who(), max(0, min(before, LAST_FAX)))

    @app.get("/")
    def index():
        user, (faxes, more) = who(), listed()
        older = min(fax["id"] for fax in faxes) if more else None
        return flask.render_template("index.html", user=user, all=is_administrator(), token=secrets.token_urlsafe(16),
                                     faxes=faxes, older=older, is_newest="before" not in request.args)

    @app.get("/faxes")
    def listing():
        return {"faxes": [as_json(fax) for fax in listed()[0]]}

    def refuse_over_limit(user):
        """Refuses a fax of a user who has as many as the settings allow."""
        if store.waiting(user) >= settings.waiting:
            raise Refused(429, f"You have {settings.waiting} faxes that aren't over, and can't have more at the same time.")
        if clerk.stored(user) + (request.content_length or 0) > settings.daily * 10**6:
            raise Refused(429, f"Your files of the last 24 hours would take more than {settings.daily} MB.")

    @app.post("/faxes")
    def submit():
        """Accepts a fax. The same form again is the same fax, by its token."""
        user, form = who(), request.form
        if not form:
            raise Refused(400, "The form can't be read: it isn't multipart/form-data in UTF-8, or a part of it is missing.")
        token = form.get("token", "")
        if not re.fullmatch(r"[A-Za-z0-9._~-]{8,64}", token):
            raise Refused(400, "The form has no token: 8 to 64 letters, digits, '.', '_', '~' and '-', new for each fax.")
        values = {"number": number_in(form.get("number", "")), "name": name_in(form.get("name", "")),
                  "send_at": moment_in(form.get("time", "")), "resolution": form.get("resolution", "fine")}
        if values["resolution"] not in LINES:
            raise Refused(400, "The resolution is fine or standard.")
        files = [file for file in request.files.getlist("file") if file.filename]
        if not 1 <= len(files) <= MOST_FILES:
            raise Refused(400, f"The form has 1 to {MOST_FILES} files.")
        names = ", ".join(file_name_in(file.filename) for file in files)
        streams = [file.stream for file in files]
        note = form.get("note", "")
        if len(note) > MOST_NOTE:
            raise Refused(400, f"The note has at most {MOST_NOTE} characters.")
        if form.get("cover") and (page := settings.cover_page(values["number"], values["name"], user, note)):
            streams.insert(0, io.BytesIO(page.encode()))
        with one_by_one:
            if not store.with_token(user, token):
                refuse_over_limit(user)
            values["uploads"] = " ".join(map(documents.store, streams))
            fax = store.add(user, token, **values, file_name=names, stage="uploaded")
        if any(fax[name] != value for name, value in values.items()):
            raise Refused(409, f"This form was sent before, as fax {fax['id']}. Load the page again for another fax.")
        return answer(fax)

    @app.get("/faxes/<int:number>")
    def one(number):
        fax = own_fax(number)
        if wants_json():
            return as_json(fax)
        return flask.render_template("fax.html", user=who(), fax=fax, actions=actions(fax), token=secrets.token_urlsafe(16))

    @app.get("/faxes/<int:number>/pages/<int:page>")
    def preview(number, page):
        fax = own_fax(number)
        if not fax["document"] or not 1 <= page <= fax["pages"]:
            raise Refused(404, "There is no such page.")
        reply = flask.make_response(documents.preview(fax["document"], page))
        reply.headers.update({"Content-Type": "image/png", "Cache-Control": "private, no-cache"})  # of this user alone
        reply.set_etag(f"{fax['document']}.{page}")
        return reply.make_conditional(request)

    # ---- changes

    def actions(fax):
        """What can be done with a fax: with its job, or a new one with the pages that weren't confirmed."""
        if fax["stage"] in ("uploaded", "ready"):
            return [] if fax["reason"] else ["kill"]
        if fax["stage"] != "submitted" or fax["state"] is None:
            return []
        found = [action for action, states in ACTIONS.items() if fax["state"] in states]
        return found + ["again"] if has_failed(fax) and fax["confirmed"] < fax["pages"] else found

    @app.post("/faxes/<int:number>/<any(suspend, resume, kill):action>")
    def act(number, action):
        fax = own_fax(number)
        if action not in actions(fax):
            raise Refused(409, f"This can't be done now. {sentence(fax)}")
        clerk.act(fax, action)
        return answer(store.fax(number), 202)

    @app.post("/faxes/<int:number>/again")
    def again(number):
        fax, token = own_fax(number), f"again-{number}"  # one for each fax, however often the button is pressed
        if found := store.with_token(fax["owner"], token):
            return answer(found)
        if "again" not in actions(fax):
            raise Refused(409, f"Nothing of the fax is left to send. {sentence(fax)}")
        document, pages = documents.rest(fax["document"], fax["confirmed"] + 1)
        same = {key: fax[key] for key in ("number", "name", "resolution", "file_name", "uploads")}
        return answer(store.add(fax["owner"], token, **same, rest_of=fax["id"], stage="ready", document=document, pages=pages))

    # ---- for machines

    @app.get("/health")
    def health():
        return (clerk.trouble + "\n", 503) if clerk.trouble else ("ok\n", 200)

    @app.get("/metrics")
    def metrics():
        return flask.Response(clerk.metrics.text(), content_type="text/plain; version=0.0.4; charset=utf-8")

    return app
