"""The plain server of bench/durable, as it is written in an afternoon.

    plain.py FILE PORT
"""
import http.server
import sqlite3
import sys
import time


class Plain(http.server.BaseHTTPRequestHandler):
    """Takes submissions as faxqd does, each once, in a table of jobs and one of replies."""
    protocol_version = "HTTP/1.1"
    disable_nagle_algorithm = True

    def do_POST(self):
        path, client, number = self.path, self.headers["Fax-Client"], int(self.headers["Fax-Number"])
        body = self.rfile.read(int(self.headers["Content-Length"]))
        lines = dict(line.split(":", 1) for line in body.decode().splitlines())
        database = self.server.database
        kept = database.execute("SELECT said, reply FROM replies WHERE client = ? AND number = ?",
                                (client, number)).fetchone()
        if kept:
            status, reply = (201, kept[1]) if kept[0] == body else (409, b'{"no":7,"word":"number-reused"}')
        else:
            database.execute("BEGIN")
            job = database.execute("INSERT INTO jobs (dial, pages, moment) VALUES (?, ?, ?)",
                                   (lines["number"], int(lines["totpages"]), int(time.time()))).lastrowid
            status, reply = 201, b'{"job":%d}' % job
            database.execute("INSERT INTO replies VALUES (?, ?, ?, ?)", (client, number, body, reply))
            database.execute("COMMIT")
        self.send_response(status)
        self.send_header("Content-Type", "application/json")
        self.send_header("Content-Length", str(len(reply)))
        self.end_headers()
        self.wfile.write(reply)

    def log_message(self, *_):
        pass


def main(file, port):
    server = http.server.HTTPServer(("127.0.0.1", int(port)), Plain)
    server.database = sqlite3.connect(file, isolation_level=None)
    server.database.execute("PRAGMA journal_mode = WAL")
    server.database.execute("PRAGMA synchronous = FULL")
    server.database.execute("CREATE TABLE jobs (job INTEGER PRIMARY KEY, dial TEXT, pages INTEGER, moment INTEGER)")
    server.database.execute("CREATE TABLE replies (client TEXT, number INTEGER, said BLOB, reply BLOB, "
                            "PRIMARY KEY (client, number))")
    print("listening", flush=True)
    server.serve_forever()


main(*sys.argv[1:])
