"""The transcripts of checks/conversations/."""
import concurrent.futures
import os

from .runner import group
from .shared import CONVERSATIONS, attempt, expect, expect_same, run, say, words_of

check = group("conversations", "Sends each transcript of checks/conversations/, and compares the replies byte for byte.", "computing")


@check
def replies(folder):
    """The program answers each NAME.in by NAME.out, says NAME.err on standard error where there is such a file, and then ends
    with 1, else with 0."""
    names = [file.stem for file in sorted(CONVERSATIONS.glob("*.in"))]
    expect(names, "there are no transcripts")
    with concurrent.futures.ThreadPoolExecutor(len(os.sched_getaffinity(0))) as pool:
        list(pool.map(attempted, names))
    say(f"{len(names)} transcripts")


def attempted(name):
    """What goes wrong with a transcript is a fault of it alone."""
    with attempt(name):
        agrees(name)


def agrees(name):
    """The program answers this transcript as it should, with its setup or office.setup, and its controls if any."""
    errors = CONVERSATIONS / f"{name}.err"
    wanted = errors.read_bytes() if errors.exists() else b""
    with open(CONVERSATIONS / f"{name}.in", "rb") as messages:
        status, out, err, _ = run("replay", *words_of(name), stdin=messages, patience=60)
    expect_same(out, (CONVERSATIONS / f"{name}.out").read_bytes(), "the replies")
    expect_same(err, wanted, "standard error")
    expect(status == (1 if wanted else 0), f"it ends with {status}")
