"""`settings`: what setup and controls mean, and which lines of them aren't used."""
from .runner import group
from .shared import EXAMPLES, expect, expect_same, run

check = group("settings", "Has `settings` print what files mean, and compares that with man/faxqd.5.", "waiting")

# What a setup and controls without a line mean, by man/faxqd.5.
SETUP = """setup:
  JobReqBusy: 180
  JobReqNoAnswer: 300
  JobReqNoCarrier: 300
  JobReqOther: 300
  JobReqProto: 60
  MaxJobs: 999999
  MaxGrants: 999999999
  TimeZone: UTC0
"""
OTHERS = """  any other number
    MaxConcurrentCalls = 1
    TimeOfDay = Any
"""


def settings(folder, setup=None, controls=None):
    """What `settings` prints of these texts, and its status."""
    words = []
    for name, text in (("setup", setup), ("controls", controls)):
        if text is not None:
            file = folder / name
            file.write_bytes(text if isinstance(text, bytes) else text.encode())
            words += [f"--{name}", file]
    status, out, err, _ = run("settings", *words)
    return out.decode(), status, err.decode()


def shows(folder, setup, controls, wanted, status):
    expect_same(settings(folder, setup, controls), (wanted, status, ""), f"{setup!r} and {controls!r}")


@check
def meaning(folder):
    """Each setting and each rule is printed as it holds, in the syntax of its file: the last line of a name, hours as ranges of
    each day, and a range over midnight as two."""
    shows(folder, None, None, f"{SETUP}controls:\n{OTHERS}", 0)
    setup = ("# modems\nModem: ttyS0\nmodem: \"ttyS1\"\nModemClass: fast:^ttyS[01]$\nJobReqBusy: 5\nJobReqBusy: 60\n"
             "MaxJobs: 7\nTimeZone: CET-1CEST,M3.5.0,M10.5.0/3\n")
    means = ("setup:\n  Modem: ttyS0\n  Modem: ttyS1\n  ModemClass: fast:^ttyS[01]$\n"
             + SETUP[len("setup:\n"):].replace("Busy: 180", "Busy: 60").replace("MaxJobs: 999999", "MaxJobs: 7")
             .replace("UTC0", "CET-1CEST,M3.5.0,M10.5.0/3"))
    controls = ("^555 MaxConcurrentCalls = 2\n\tMaxSendPages = 40\n  TimeOfDay = \"Wk0800-1800,Sa2200-0600\"\n"
                "^0190 RejectNotice=\"Costly\"\n  timeofday = Never\n")
    days = "".join(f" {day}0800-1800" for day in ("Mo", "Tu", "We", "Th", "Fr"))
    rules = (f"controls:\n  ^555\n    MaxConcurrentCalls = 2\n    MaxSendPages = 40\n    TimeOfDay ={days} Sa0000-0600 Sa2200-2400\n"
             "  ^0190\n    MaxConcurrentCalls = 1\n    TimeOfDay = Never\n    RejectNotice = \"Costly\"\n" + OTHERS)
    shows(folder, setup, controls, means + rules, 0)


@check
def unused(folder):
    """A setting and a parameter whose name isn't known, a parameter that isn't indented and a byte order mark are named with
    their line, with status 3; comments, empty lines and known names of any letter case aren't."""
    for line in "JobReqBussy: 60", "RejectNotise: no", "\N{BYTE ORDER MARK}Modem: ttyS0", "ModemClasses: fast:x":
        shows(folder, f"# one\n\n{line}\nMAXJOBS: 999999\n", None,
              f"{SETUP}not used: setup line 3: {line}\ncontrols:\n{OTHERS}", 3)
    rule = "    MaxConcurrentCalls = 1\n    TimeOfDay = Any\n"
    for text, patterns, lines in (
            ("^555\n  RejectNotise = \"no\"\n", ["^555"], [(2, "  RejectNotise = \"no\"")]),
            ("^555 MaxSendPage = 3\n", ["^555"], [(1, "^555 MaxSendPage = 3")]),
            ("^555\nMaxConcurrentCalls=2\n", ["^555", "MaxConcurrentCalls=2"], [(2, "MaxConcurrentCalls=2")]),
            ("^555\nMaxConcurrentCalls = 2\n", ["^555", "MaxConcurrentCalls"], [(2, "MaxConcurrentCalls = 2")]),
            ("\N{BYTE ORDER MARK}^555\n", ["\N{BYTE ORDER MARK}^555"], [(1, "\N{BYTE ORDER MARK}^555")]),
            ("# a = b\n^555 # x = y\n  # RejectNotise = z\n\n\tMAXCONCURRENTJOBS = 1\n", ["^555"], [])):
        shown = "".join(f"  {pattern}\n{rule}" for pattern in patterns)
        named = "".join(f"not used: controls line {number}: {line}\n" for number, line in lines)
        shows(folder, None, text, f"{SETUP}controls:\n{shown}{OTHERS}{named}", 3 if lines else 0)


@check
def faults(folder):
    """A fault of either file, and a file that isn't there, end it as they end the server, and nothing is printed."""
    for setup, controls, line in (("Modem ttyS0\n", "", "setup line 1: no-colon"), ("", "^5 x\n", "controls line 1: no-equals"),
                                  ("MaxJobs: 0\n", "(\n", "setup line 1: bad-value"), (b"\xff\n", "", "setup line 0: not-text"),
                                  ("", b"\xff\n", "controls line 0: not-text")):
        expect_same(settings(folder, setup, controls), ("", 1, f"faxqd: {line}\n"), f"{setup!r} and {controls!r}")
    status, out, err, _ = run("settings", "--setup", folder / "none")
    expect_same((status, out, err), (1, b"", f"faxqd: cannot read {folder / 'none'}\n".encode()), "no file")


@check
def examples(folder):
    """Each line of the example files is used."""
    status, out, err, _ = run("settings", "--setup", EXAMPLES / "office.setup", "--controls", EXAMPLES / "office.controls")
    expect(status == 0 and b"not used" not in out, f"it ends with {status}, and prints {out!r} and {err!r}")
