"""The manuals in man/, and the completion of the shell."""
import re
import subprocess

from .files import kinds
from .runner import group
from .shared import TOP, attempt, expect, post, run, said, wants

check = group("manuals", "Compares man/ with each command, option, default and fault that the program and faxq have, and so the "
              "words that the shell completes.", "waiting")
COMMANDS = TOP / "man/faxqd.8"
FORMATS = TOP / "man/faxqd.5"
DESK = TOP / "man/faxq.1"
COMPLETION = TOP / "man/completion.bash"
FAXQ = TOP / "examples/faxq"


def told_by(*words, **more):
    return subprocess.run([str(word) for word in words], capture_output=True, text=True, **more)


def options_of(help_text):
    """Each option that a help text has, with what it says of it."""
    items = re.split(r"(?m)^ +(?=-)", help_text.split("ptions:\n", 1)[1])
    return {one: item for item in items for one in re.findall(r"^(?:-h, )?(--[a-z-]+|-\w)", item) if one != "--help"}


def completed(words, *files):
    """What bash completes behind these words, the last of them a beginning."""
    command = words[0]
    text = f'. {COMPLETION}; COMP_WORDS=("$@"); COMP_CWORD=$(($# - 1)); _{command}; printf "%s\\n" "${{COMPREPLY[@]}}"'
    return set(told_by("bash", "-c", text, "bash", *words).stdout.split())


@check
def commands(folder):
    """The manual has each command and each option with its default, and the shell completes the same words."""
    manual = COMMANDS.read_text()
    shown = told_by(said.program, "--help").stdout
    names = set(re.findall(r"(?m)^  ([a-z]+) +[A-Z]", shown)) - {"help"}
    with attempt("the commands"):
        expect(names == set(re.findall(r"(?m)^\.Ss (\w+)$", manual)), f"the manual hasn't the commands {names}")
        expect(completed(["faxqd", ""]) == names | {"help"}, "the shell completes other commands")
    for name in sorted(names):
        with attempt(name):
            has_options(manual, name)
    for words in ("faxqd", "list", "--db", "READ"), ("faxq", "why", "1", "--setup", "READ"):
        with attempt(words):
            there = told_by("bash", "-c", f'cd {TOP}; . {COMPLETION}; COMP_WORDS=("$@"); COMP_CWORD=$(($# - 1)); _{words[0]}; '
                            'echo "${COMPREPLY[@]}"', "bash", *words).stdout.split()
            expect(there == ["README.md"], f"the shell completes them to {there}")


def has_options(manual, name):
    """The manual has each option of this command, with its default, and the shell completes them."""
    synopsis = re.search(rf"(?ms)^\.Cm {name}$(.*?)^\.(?:Nm|Sh)", manual)[1]
    options = options_of(told_by(said.program, name, "--help").stdout)
    listed = {f"-{one}" for one in re.findall(r"\bFl (\S+)", synopsis)}
    expect(listed == set(options), f"{name} has {sorted(options)}, and the manual {sorted(listed)}")
    text = re.search(rf"(?ms)^\.Ss {name}$(.*?)^\.S[hs]", manual)[1]
    for option in sorted(set(options) - {"--setup", "--controls"}):
        with attempt(f"{name} {option}"):
            item = re.search(rf"(?ms)^\.It Fl {option[1:]}\b(.*?)(?=^\.It|^\.El)", text)
            expect(item or name != "serve" and option == "--db", f"the manual doesn't say what {name} {option} is")
            default = re.search(r"\[default:\s+(\S+)\]", options[option])
            shown = default and (f"{int(default[1]):,}" if default[1].isdigit() else default[1])
            expect(not default or re.search(rf"Without it,\n?.*\b{shown}\b", item[1]),
                   f"the manual has another default of {name} {option} than {shown}")
    for option in [*options, "--help"]:
        expect(option in completed(["faxqd", name, "-"]), f"the shell doesn't complete {name} {option}")


@check
def faxq(folder):
    """The shell completes each command of faxq, and each of its options."""
    names = set(re.findall(r'command\("(\w+)"', FAXQ.read_text())) | {"suspend", "resume", "kill"}
    expect(names <= completed(["faxq", ""]), f"the shell doesn't complete {names - completed(['faxq', ''])}")
    for name in names:
        missing = set(options_of(told_by(FAXQ, name, "--help").stdout)) - {"-h"} - completed(["faxq", name, "-"])
        expect(not missing, f"the shell doesn't complete {name} {missing}")


@check
def faxq_page(folder):
    """The manual of faxq has each command, each option with its default, each variable and each exit status."""
    manual, source = DESK.read_text(), FAXQ.read_text()
    names = set(re.findall(r'command\("(\w+)"', source)) | {"suspend", "resume", "kill"}
    with attempt("the commands"):
        expect(names == set(re.findall(r"(?m)^\.Ss (\w+)$", manual)), f"the manual hasn't the commands {sorted(names)}")
    general = manual[:manual.index(".Ss")]
    is_told(general, "faxq", set(options_of(told_by(FAXQ, "--help").stdout)) - {"-h"})
    for name in sorted(names):
        with attempt(name):
            part = re.search(rf"(?ms)^\.Ss {name}$(.*?)^\.S[hs]", manual)[1]
            expect(part.startswith(f"\n.Nm\n.Cm {name}\n"), f"the manual doesn't show {name}")
            is_told(part, name, set(options_of(told_by(FAXQ, name, "--help").stdout)) - {"-h"})
    with attempt("defaults"):
        defaults = re.findall(r'"(--\w+)",(?:(?!"--).)*?default=(?:os\.environ\.get\("(\w+)"(?:, "?([^")]+))?|(\d+))', source, re.S)
        expect(len(defaults) >= 5, f"faxq has the defaults {defaults}")
        for option, variable, value, number in defaults:
            item = re.search(rf"(?ms)^\.It Fl {option[1:]}\b(.*?)(?=^\.It|^\.El)", manual)[1]
            expect(not variable or f"\n.Ev {variable} ,\n" in item, f"the manual hasn't the variable of {option}")
            expect(re.search(rf"(?ms)^Without it,.*{re.escape(value or number)}", item), f"the manual has another default of {option}")
    variables = set(re.findall(r'environ\.get\("(\w+)"', source))
    listed = set(re.search(r"(?m)^\.It Ev (.*)$", manual)[1].split(" , "))
    expect(listed == variables, f"the manual has the variables {sorted(listed)}, and faxq {sorted(variables)}")
    statuses, listed = re.findall(r"\b\d\b", re.search(r"It ends with .*", source)[0]), re.findall(r"(?m)^\.It (\d)$", manual)
    expect(listed == statuses, f"the manual has the statuses {listed}, and faxq {statuses}")


def is_told(part, name, options):
    """This part of a manual has just these options, in its synopsis and as items."""
    shown = {f"-{one}" for one in re.findall(r"(?m)^\.(?:Op )?Fl (\S+)", part)}
    expect(shown == options, f"{name} has the options {sorted(options)}, and the manual shows {sorted(shown)}")
    for option in options:
        expect(re.search(rf"(?m)^\.It Fl {option[1:]}\b", part), f"the manual doesn't say what {name} {option} is")


@check
def formats(folder):
    """The manual of the files has each fault and each name that the program knows, and its examples are taken."""
    manual = FORMATS.read_text()
    words, listed = kinds(), set(re.findall(r"(?m)^\.It ([a-z]+-[a-z]+)$", manual))
    expect(words and words == listed, f"the check files knows the faults {sorted(words)}, and the manual {sorted(listed)}")
    setup, controls, job = re.findall(r"(?ms)^\.Bd -literal -offset indent\n(.*?)^\.Ed", manual)
    (folder / "setup").write_text(setup)
    (folder / "controls").write_text(controls.replace("\\&", ""))
    words = "--setup", folder / "setup", "--controls", folder / "controls"
    with attempt("the examples of faxqd(5)"):
        status, out, err, _ = run("replay", *words, input=post("/jobs", 1, job))
        expect(status == 0 and out.endswith(b'{"job":1}'), f"they give {status}, {out} and {err}")
    known = (set(re.findall(r"(?m)^(?:# )?([A-Z]\w+)[:=]", (TOP / "examples/office.setup").read_text()))
             | set(re.findall(r"(?m)^  (\w+) = ", (TOP / "examples/office.controls").read_text())))
    for one in known:
        expect(re.search(rf"(?m)^\.It Cm .*\b{one}\b", manual), f"faxqd(5) doesn't tell {one}")


@check
def lint(folder):
    """mandoc finds nothing to say about the manuals."""
    wants("mandoc")
    for page in COMMANDS, FORMATS, DESK:
        # Where they aren't installed, each is reported as not found by the others.
        found = [line for line in told_by("mandoc", "-T", "lint", page).stdout.splitlines()
                 if not re.search(r"referenced manual not found: Xr (faxqd [58]|faxq 1)( |$)", line)]
        expect(not found, f"mandoc says {found}")
