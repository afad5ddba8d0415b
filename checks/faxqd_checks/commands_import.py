"""`import`: what it prints of an older queue's files, and what it refuses."""
import re

from .commands import HEAD, check
from .place import Place
from .shared import attempt, expect, expect_same

FIRST, SECOND = b"number:5550111\ntotpages:1\n", b"number:5550112\ntotpages:3\nnpages:1\nstate:6\nstatus:No carrier\n"
LAST = 999999999999999999  # the last number of a request
IMPORT = ["import", "--client", "old", "--request"]


def with_spool(folder):
    """A place with files of an older queue."""
    files = {"q1": FIRST, "q 2": SECOND, "nothing": b"", "-q": FIRST, "long": b"x" * 65536, "longer": b"x" * 65537}
    for name, data in files.items():
        (folder / name).write_bytes(data)
    return Place(folder)


def requests(folder, number, names):
    """The imports of these files, from this number on."""
    wanted = b""
    for place, name in enumerate(names):
        data = (folder / name).read_bytes()
        wanted += HEAD.replace("/jobs", "/imports").format("old", number + place, len(data)).encode() + data
    return wanted


@check
def import_prints(folder):
    """What `import` prints is the import of each file, under numbers in order; it is taken, and taken once."""
    place = with_spool(folder)
    for number, names in ((1, ["q1"]), (7, ["q1", "q 2"]), (LAST - 1, ["q 2", "q1"]), (1, ["q1", "q1", "q1"]), (1, ["nothing"]),
                          (5, ["--", "-q", "q1"]), (LAST, ["q1"]), (1, ["long"])):
        with attempt(names):
            out, err = place.run(0, *IMPORT, str(number), *names)
            expect_same(out, requests(folder, number, [name for name in names if name != "--"]), "it prints")
            expect_same(err, b"", "standard error")
    with attempt("the length of a file"):
        out, _ = place.run(0, *IMPORT, "1", "q1")
        expect(b"\r\nContent-Length: 26\r\n\r\n" in out, f"the import of q1 has another length: {out!r}")
    with attempt("the imports, twice"):
        data, _ = place.run(0, *IMPORT, "1", "q1", "q 2")
        out, _ = place.run(0, "replay", data=data + data)
        expect(out.count(b"HTTP/1.1 201 Created") == 4, f"the imports aren't taken: {out!r}")
        expect(re.findall(rb'\{"job":(\d+),"state":5\}', out) == [b"1", b"2", b"1", b"2"], f"the imports aren't taken once: {out!r}")


REFUSED = [(2, "bad client", ["--client", client, "--request", "0", "no/such"]) for client in ("", "a b", "a" * 33)]
REFUSED += [(2, "bad request", ["--client", "old", "--request", number, "no/such"])
            for number in ("0", "01", "", "x", "1234567890123456789")]
REFUSED += [
    (2, "bad request", [*IMPORT[1:], str(LAST), "q1", "q1"]), (1, "too large longer", [*IMPORT[1:], "1", "q1", "longer", "no/such"]),
    (1, "too large /dev/zero", [*IMPORT[1:], "1", "/dev/zero"]),
    (1, "cannot read no/such", [*IMPORT[1:], "1", "q1", "no/such", "longer"]),
    (1, "cannot read .", [*IMPORT[1:], "1", "q1", ".", "q1"]), (1, "cannot read ", [*IMPORT[1:], "1", ""]),
]
FAULTY = [
    [], ["q1"], ["--client", "old", "q1"], ["--request", "1", "q1"], ["--client", "old", "--request", "1"],
    ["--client", "old", "--request", "1", "--client", "old", "q1"], [*IMPORT[1:], "1", "--db", "queue.db", "q1"],
    [*IMPORT[1:], "1", "-q1"],
]


@check
def import_refuses(folder):
    """Where a text or a file is at fault `import` tells the first one and prints nothing."""
    place = with_spool(folder)
    for status, text, words in REFUSED:
        with attempt(words):
            out, err = place.run(status, "import", *words)
            expect_same((out, err), (b"", f"faxqd: {text}\n".encode()), "it says")
    for words in FAULTY:
        with attempt(words):
            place.usage("import", *words)


@check
def import_many(folder):
    """Ten thousand files are imported at once: what is printed stands in memory, of which there are 100 MB, until all are
    read."""
    place, spool = Place(folder), folder / "spool"
    spool.mkdir()
    for number in range(1, 10001):
        (spool / f"q{number:05}").write_text(f"number:5550111\ntotpages:1\nexternal:{number}\n")
    little = ["sh", "-c", 'ulimit -v 100000; exec "$@"', "sh"]
    out, err = place.run(0, *IMPORT, "1", *sorted(file.name for file in spool.iterdir()), folder=spool, before=little)
    expect_same(err, b"", "standard error")
    expect(out.count(b"POST /imports HTTP/1.1\r\n") == 10000, "ten thousand files aren't imported")
    expect(out.count(b"\r\nFax-Number: 10000\r\n") == 1, "the last of ten thousand files has another number")
