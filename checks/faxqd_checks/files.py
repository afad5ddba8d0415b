"""What the program says of setups and controls: a faulty text is told with its first faulty line and the kind of the fault,
and nothing is answered; a text without a fault is read in silence."""
from .runner import group
from .shared import attempt, expect_same, run, say

check = group("files", "Compares the first fault of texts of setup and controls.", "computing")

# A fault, or nothing where there is none, and the text that has it.
SETUP_LINES = [
    ("", b""),
    ("", b'\n \t\n# a comment: "\n\t # another\n'),
    ("", b'LogFacility: daemon # unknown\nA:\nb:"c" \t\n"d": \t"#"\ne:f"g'),
    ("0: not-text", b'Modem: a\n\xff'),
    ("0: not-text", b'none\n# \xc3'),
    ("1: no-colon", b'Modem'),
    ("3: no-colon", b'\n#\n Modem: a'),
    ("1: no-colon", b'\tModem: a'),
    ("1: no-colon", b'Modem : a'),
    ("1: no-colon", b'Log Facility: a'),
    ("1: no-colon", b': a'),
    ("1: no-colon", b'\r\n'),
    ("1: bad-quote", b'Other: "a'),
    ("1: bad-quote", b'Other: "'),
    ("1: bad-quote", b'Other: "a" b'),
    ("1: bad-quote", b'Modem: "a" # note'),
    ("1: bad-quote", b'Other: "a\\"b"'),
]
SETUP_MODEMS = [
    ("", b'Modem: AZaz09._-\nModem: AZaz09._-\nMODEM:' + 32 * b"m" + b'\nmodem:\t"a"  \n'),
    ("1: bad-value", b'Modem: a b'),
    ("1: bad-value", b'Modem:'),
    ("1: bad-value", b'Modem: ""'),
    ("1: bad-value", b'Modem: " a"'),
    ("1: bad-value", b'Modem: a/b'),
    ("1: bad-value", b'Modem: a\r\n'),
    ("1: bad-value", b'Modem: \xc3\xa9'),
    ("1: bad-value", b'Modem: 123456789012345678901234567890123'),
    ("", b'ModemClass: any:x\nModemClass: fast:\nModemClass: "fast:^a|b$"\nmodemclass: fast::a # b\n'),
    ("1: bad-value", b'ModemClass: fast'),
    ("1: bad-value", b'ModemClass:'),
    ("1: bad-value", b'ModemClass: :a'),
    ("1: bad-value", b'ModemClass: a b:^x'),
    ("1: bad-value", b'ModemClass: ' + 33 * b"c" + b':a'),
    ("2: bad-pattern", b'Modem: a\nModemClass: b:[\n'),
    ("1: bad-pattern", b'ModemClass: a:x{2,1}'),
    ("1: bad-pattern", b'ModemClass: a:(?=x)'),
    ("1: bad-value", b'ModemClass: a b:('),
    ("1: bad-pattern", b'ModemClass: a:(\nModemClass: b'),
    # A good pattern may be long.
    ("", b'ModemClass: a:^' + 500 * b"m" + b'$\n'),
    ("2: bad-value", b'ModemClass: a:' + 500 * b"m" + b'\nMaxJobs: 0'),
]
SETUP_NUMBERS = [case for name in (b"JobReqBusy", b"JobReqNoAnswer", b"JobReqNoCarrier", b"JobReqOther", b"JobReqProto") for case in (
    ("", b'%b: 0\n%b: 86400\n%b: "000000000000000001"\n' % (name, name, name)),
    ("1: bad-value", b"%b: 86401" % name),
    ("2: bad-value", b"%b: 1\n%b: 1s\n%b: 2" % (name, name, name)),
    ("1: bad-value", b"%b:" % name))]
SETUP_NUMBERS += [
    ("1: bad-value", b'JobReqOther: -1'),
    ("1: bad-value", b'JobReqOther: +1'),
    ("1: bad-value", b'JobReqOther: 1.5'),
    ("1: bad-value", b'JobReqBusy: 90 # seconds'),
    ("", b'MaxJobs: 1\nMaxJobs: 999999\n'),
    ("1: bad-value", b'MaxJobs: 0'),
    ("1: bad-value", b'MaxJobs: 1000000'),
    ("1: bad-value", b'MaxJobs:'),
    ("", b'MaxGrants: 1\nMaxGrants: 999999999\n'),
    ("1: bad-value", b'MaxGrants: 0'),
    ("1: bad-value", b'MaxGrants: 1000000000'),
    ("1: bad-value", b'MaxGrants: 0000000000000000001'),
    ("", b'TimeZone: UTC0\ntimezone: "EST5EDT,M3.2.0,M11.1.0"\nTimeZone: <+0330>-3:30\n'),
    ("1: bad-zone", b'TimeZone:'),
    ("1: bad-zone", b'TimeZone: ""'),
    ("1: bad-zone", b'TimeZone: Europe/Paris'),
    ("1: bad-zone", b'TimeZone: EST5EDT,'),
    ("1: bad-zone", b'TimeZone: "UTC0 "'),
    ("2: bad-zone", b'TimeZone: UTC0\nTimeZone: UTC\nTimeZone: UTC0'),
    ("2: no-colon", b'Modem: a\nnone\nMaxJobs: 0'),
    ("1: bad-pattern", b'ModemClass: a:(\nTimeZone: x'),
]
CONTROLS_LINES = [
    ("", b""),
    ("", b'\n \t\n# a comment (\n\t # another\n'),
    ("", b'^5\n^6 # no parameter (\n^7 #\n\tUnknown=\n  =x\n "a b" = "#" \n^8 Unknown = a"b\n'),
    ("0: not-text", b'^5\n  MaxSendPages = \xff'),
    ("0: not-text", b'(\n# \xc3'),
    ("1: no-rule", b'  MaxSendPages = 2'),
    ("3: no-rule", b'# x\n\n\tnone'),
    ("1: no-rule", b' MaxSendPages = 0'),
    ("1: no-equals", b'^5 MaxSendPages'),
    ("2: no-equals", b'^5\n MaxSendPages: 2'),
    ("1: no-equals", b'^5 (\r\n'),
    ("2: bad-quote", b'^5\n Unknown = "x'),
    ("1: bad-quote", b'^5 RejectNotice = "a" b'),
    ("1: bad-quote", b'^5 RejectNotice = "a" # b'),
    ("1: bad-quote", b'^5 "a" = "'),
    ("1: bad-pattern", b'('),
    ("3: bad-pattern", b'^5\n\n[ MaxSendPages = 2'),
    ("1: bad-pattern", b'( MaxSendPages = 0'),
    ("1: bad-pattern", b'( # a comment'),
    ("1: bad-pattern", b'+1415'),
    ("1: bad-pattern", b'(\n^5 MaxSendPages = 0'),
    ("2: bad-pattern", b'^5\n(?:[a&&b]?){4294967295} MaxSendPages = 0\n('),
    ("1: bad-value", b'^5 MaxSendPages = 0\n( MaxSendPages = 0'),
    ("", b'^' + 65 * b"5" + b'$\n^' + 500 * b"6" + b' MaxSendPages = 2\n'),
    ("1: bad-value", 65 * b"5" + b' MaxSendPages = 0'),
    ("2: no-equals", 500 * b"5" + b'\n MaxSendPages'),
    ("1: bad-pattern", 65 * b"5" + b'( MaxSendPages = 0'),
]
CONTROLS_NUMBERS = [case for name in (b"MaxConcurrentCalls", b"MaxConcurrentJobs") for case in (
    ("", b'^5 %b = 1\n %b=1000\n\t%b\t=\t"000000000000000002"\t\n' % (name, name, name)),
    ("2: bad-value", b"^5\n %b = 0\n %b = 1" % (name, name)),
    ("2: bad-value", b"^5\n %b = 1001" % name),
    ("2: bad-value", b"^5\n %b =" % name),
    ("2: bad-value", b"^5\n %b = 1 # one" % name))]
CONTROLS_NUMBERS += [
    ("", b'^5 MaxSendPages = 1\n MAXSENDPAGES = 9999\n'),
    ("2: bad-value", b'^5\n MaxSendPages = 0'),
    ("2: bad-value", b'^5\n MaxSendPages = 10000'),
    ("2: bad-value", b'^5\n maxsendpages = two'),
    ("1: bad-value", b'^5 MaxSendPages ='),
    ("", b'5 RejectNotice = ' + 200 * b"x"),
    ("1: bad-value", b'5 RejectNotice = ' + 201 * b"x"),
    ("1: bad-value", b'5 RejectNotice = "' + 199 * b"x" + b'\xc3\xa9"'),
    ("", b'^5\n RejectNotice = ""\n RejectNotice =\n RejectNotice = a # b\n'),
    ("2: bad-value", b'^5\n RejectNotice = a\tb'),
    ("2: bad-value", b'^5\n RejectNotice = "\t"'),
    ("2: bad-value", b'^5\n RejectNotice = a\x7f'),
    ("2: bad-value", b'^5\n RejectNotice = a\r\n'),
    # U+0080 and U+009F are control characters, U+00A0 is none.
    ("2: bad-value", b'^5\n RejectNotice = a\xc2\x80b'),
    ("2: bad-value", b'^5\n RejectNotice = a\xc2\x9fb'),
    ("3: no-equals", b'^5\n RejectNotice = a\xc2\xa0b\n x'),
    ("1: bad-value", b'^5 MaxSendPages = 0\n('),
]
CONTROLS_HOURS = [("2: bad-hours", f"^5\n  TimeOfDay = {text}".encode()) for text in (
    "", '" \t"', "Mo,", ",Mo", "Mo,,Tu", ",Xx", "Xx", "Mon", "M", "0800-1700", "AnyMo", "MoAny", "WkNever", "Mo Tu", "Wk0800",
    "Wk0800-", "Wk2500-0100", "Wk2400-0100", "Wk0860-0900", "Wk0800-0960", "Wk0800-2401", "Wk0800_1700", "Wk 0800-1700",
    "Wk0800 -1700", "Wk0800-17000", "Wk800-1700", "Wk0800-1700Sa", "Wk0800,Xx,", "Mo,Xx,Wk0800", "Mo;Tu", 'Mo"',
    "Mo # Monday")]
CONTROLS_HOURS += [("", f"^5\n  timeofday={text}".encode()) for text in (
    "Any", "never", "SuMoTuWeThFrSa", "WKSU", "MoMo", "Wk0000-2400", "Wk2359-0000", "Wk0900-0900", '" Mo , Tu0000-0001\t"',
    "Mo ,Tu")]
CONTROLS_HOURS += [
    ("2: bad-hours", b'^5\n TimeOfDay = Xx\n TimeOfDay = Any\n('),
    ("1: bad-hours", b'^5 TimeOfDay = Xx'),
    ("1: bad-quote", b'^5 TimeOfDay = "Mo'),
]
SETUPS, CONTROLS = SETUP_LINES + SETUP_MODEMS + SETUP_NUMBERS, CONTROLS_LINES + CONTROLS_NUMBERS + CONTROLS_HOURS


def tells(folder, option, cases):
    """The program tells the fault of each of these texts, or nothing."""
    for fault, text in cases:
        with attempt(f"{option} {text}"):
            (folder / "file").write_bytes(text)
            status, out, err, _ = run("replay", f"--{option}", folder / "file", patience=60)
            wanted = f"faxqd: {option} line {fault}\n".encode() if fault else b""
            expect_same((status, out, err), (1 if fault else 0, b"", wanted), "it ends, and says")
    say(f"{len(cases)} texts")


@check
def setups(folder):
    """The first faulty line of a setup is told with the kind of its fault: of its lines, modems, classes, numbers and zones."""
    tells(folder, "setup", SETUPS)


@check
def controls(folder):
    """The first faulty line of controls is told with the kind of its fault: of their lines, numbers, notices and hours."""
    tells(folder, "controls", CONTROLS)


def kinds():
    """The kinds of fault that there are."""
    return {fault.split(": ")[1] for fault, _ in SETUPS + CONTROLS if fault}
