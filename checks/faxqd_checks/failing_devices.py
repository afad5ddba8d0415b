"""A submission with an input that fails, or an output that fails or takes nothing more, after each number of bytes that comes
before its end."""
from .runner import group
from .shared import CONVERSATIONS, attempt, expect_same, preload, run

check = group("failing-devices", "Has the input or the output fail after each number of bytes.", "computing")
MESSAGE, REPLY = ((CONVERSATIONS / f"submit.{kind}").read_bytes() for kind in ("in", "out"))


def ends(word, data, wanted, **settings):
    """Where the device fails so, the program has written this, ends by this word, and with status 1."""
    with attempt(settings):
        status, out, err, _ = run("replay", before=preload(["fail_device"], **settings), input=data)
        expect_same((status, err), (1, f"faxqd: ended {word}\n".encode()), "it ends, and says")
        expect_same(out, wanted, "it writes")


@check
def reads(folder):
    """A read that fails within the message leaves the output empty, and one that fails behind it leaves the reply."""
    for passed in range(len(MESSAGE) + 1):
        for once in {}, {"FAILS_ONCE": 1}:
            ends("read-failed", MESSAGE, b"" if passed < len(MESSAGE) else REPLY, READ_FAILS=passed, **once)


@check
def writes(folder):
    """Of an output that fails the bytes before are those of the reply, and no byte follows, also where it would take more
    behind its fault."""
    for passed in range(len(REPLY)):
        for more in {}, {"FAILS_ONCE": 1}, {"WRITE_TAKES_NONE": 1}:
            ends("write-failed", MESSAGE + MESSAGE, REPLY[:passed], WRITE_FAILS=passed, **more)
