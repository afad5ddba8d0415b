"""The example files."""
from .runner import group
from .shared import EXAMPLES, TOP, attempt, expect, expect_same, run

check = group("example-files", "Runs the examples.", "computing")
SETUP = "--setup", EXAMPLES / "office.setup"
CONTROLS = "--controls", EXAMPLES / "office.controls"
ANSWERED = [
    ("submit.http", TOP / "crates/faxqd/stdout", *SETUP, *CONTROLS),
    ("one-fax.http", EXAMPLES / "one-fax.replies", *SETUP),
    ("one-fax.http", EXAMPLES / "one-fax.replies", *SETUP, *CONTROLS),
    ("bad-line.http", EXAMPLES / "bad-line.replies", *SETUP),
]


@check
def replies(folder):
    """It answers the example submission as it does without the example files, one fax to its end as one-fax.replies says,
    with the controls and without, and what it hears of a fax over a bad line as bad-line.replies says."""
    for requests, replies_file, *words in ANSWERED:
        with attempt(f"{requests} with {words}"), open(EXAMPLES / requests, "rb") as messages:
            status, out, err, _ = run("replay", *words, stdin=messages)
            expect_same(out, replies_file.read_bytes(), "the replies")
            expect((status, err) == (0, b""), f"it ends with {status}, and says {err!r}")
