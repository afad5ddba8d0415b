"""Which checks there are, and how they are run: side by side or alone, each with its time, and each fault told."""
import argparse
import contextlib
import fnmatch
import functools
import importlib
import itertools
import multiprocessing
import os
import pathlib
import re
import shutil
import signal
import sys
import time
import typing
from multiprocessing import connection

from . import shared
from .shared import NotTried, fault, said, told

MOST_TOLD = 20  # faults of one check
OPTIONS = "faxq", "folder", "keep", "kills", "mode", "page", "picture", "purge", "seed", "worker"


class Check(typing.NamedTuple):
    """A function that looks at the program, with what stands before it in the list."""
    name: str
    function: typing.Callable
    beside: str | None  # checks with the same word are run side by side, those without one alone
    by_hand: bool

    @property
    def sentence(self):
        return " ".join(self.function.__doc__.split("\n\n")[0].split())


checks, groups = {}, {}


def group(name, sentence, beside=None, by_hand=False):
    """What registers the checks of a group, which may be named together."""
    groups.setdefault(name, sentence)

    def register(function=None, *, beside=beside, by_hand=by_hand):
        if function is None:
            return functools.partial(register, beside=beside, by_hand=by_hand)
        full = f"{name}.{function.__name__.strip('_').replace('_', '-')}"
        checks[full] = Check(full, function, beside, by_hand)
        return function
    return register


def chosen(names):
    """The checks of these names, groups or patterns; all but those by hand where there are none."""
    if not names:
        return [check for check in checks.values() if not check.by_hand]
    found = set()
    for name in names:
        part = [check for check in checks.values() if check.name.split(".")[0] == name]
        by_name = {check.name for check in part if not check.by_hand} or {check.name for check in part}
        by_name |= set(fnmatch.filter(checks, name))
        if not by_name:
            sys.exit(f"checks/run: there is no check {name}; see --list")
        found |= by_name
    return [check for check in checks.values() if check.name in found]


def folder_of(name):
    """The folder of a check, which is gone when the check ends unless it is to be kept."""
    kept = shared.option("keep")
    if not kept:
        return shared.new_folder(shared.option("folder"))
    folder = pathlib.Path(kept).resolve() / name
    folder.mkdir(parents=True)
    return contextlib.nullcontext(folder)


def tried(name, place):
    """Runs one check, in a process of its own: its faults, what it says or why it isn't tried, and its seconds."""
    start, lacks = time.monotonic(), ""
    first = 10000 + os.getppid() * 7919 % 6000 + place % 160 * 100  # checks side by side have no port in common
    shared.ports, shared.faults[:], shared.seen[:] = itertools.cycle(range(first, first + 100)), [], []
    try:
        with folder_of(name) as folder:
            checks[name].function(folder)
    except NotTried as wrong:
        lacks = str(wrong)
    except Exception as wrong:
        fault(told(wrong))
    return shared.faults[:], "; ".join(shared.seen), lacks, time.monotonic() - start


class Report:
    """What became of the checks."""

    def __init__(self):
        self.passed, self.failed, self.faults = 0, 0, []

    def take(self, name, faults, says, lacks, seconds):
        """Says how a check went, and keeps its faults for the end."""
        self.failed += bool(faults)
        self.passed += not faults and not lacks
        how = "FAULT" if faults else "-" if lacks else "ok"
        more = f"not tried: {lacks}" if lacks else says
        print(f"{how:5} {seconds:6.1f} s  {name}{': ' if more else ''}{more}", flush=True)
        self.faults += [f"{name}: {text}" for text in faults[:MOST_TOLD]]
        if len(faults) > MOST_TOLD:
            self.faults.append(f"{name}: and {len(faults) - MOST_TOLD} more")

    def end(self, seconds):
        """Says all faults, and how many checks passed and failed."""
        for line in self.faults:
            print(line)
        print(f"{seconds:.0f} s")
        print(f"{self.passed} passed, {self.failed} failed")


def run_all(wanted, at_once, report):
    """Runs these checks, those with the same word side by side, or all of them."""
    places = itertools.count()
    words = {check.name: "all" if at_once else check.beside or check.name for check in wanted}
    for beside in dict.fromkeys(words.values()):
        part = [name for name, word in words.items() if word == beside]
        run_part(part, len(os.sched_getaffinity(0)) if beside == "computing" else len(part), places, report)


def run_part(names, most, places, report):
    """Runs these checks, so many at a time, each in a process of its own."""
    fork, waiting, going = multiprocessing.get_context("fork"), list(names), {}
    try:
        while waiting or going:
            while waiting and len(going) < most:
                here, there = fork.Pipe(duplex=False)
                process = fork.Process(target=lambda *words: there.send(tried(*words)), args=(waiting[0], next(places)))
                process.start()
                there.close()
                going[here] = waiting.pop(0), process
            for here in connection.wait(going):
                name, process = going.pop(here)
                try:
                    found = here.recv()
                except EOFError:
                    found = ["its process ended"], "", "", 0
                process.join()
                here.close()
                report.take(name, *found)
    finally:
        for _, process in going.values():
            process.terminate()


def listed(wanted):
    """Says each check with its sentence."""
    for name, sentence in groups.items():
        part = [check for check in wanted if check.name.split(".")[0] == name]
        if part:
            print(f"{name}: {sentence}")
        for check in part:
            print(f"  {check.name}{' (by hand)' if check.by_hand else ''}: {check.sentence}")


def words(arguments, modules):
    """The words of the run, with the check modules loaded."""
    parser = argparse.ArgumentParser(
        prog="checks/run", description="Runs the checks of the program.", formatter_class=argparse.RawTextHelpFormatter,
        epilog=(shared.CHECKS / "faxqd_checks/help.txt").read_text())
    parser.add_argument("names", nargs="*", metavar="NAME", help="a check, a group of them, or OPTION=VALUE; without a name, all "
                        "but those by hand")
    parser.add_argument("--list", action="store_true", help="say each check with its sentence")
    parser.add_argument("--all", action="store_true", help="try all of what a check else tries a part of")
    parser.add_argument("--at-once", action="store_true", help="run all side by side, for those that don't measure time")
    parser.add_argument("--program", metavar="FILE", type=pathlib.Path, default=said.program, help="another program")
    given = parser.parse_args(arguments)
    for module in modules:
        importlib.import_module(f".{module}", __package__)
    return given


def main(arguments, modules):
    given = words(arguments, modules)
    said.program, said.all = given.program.resolve(), given.all
    said.options = dict(word.split("=", 1) for word in given.names if re.match(r"\w+=", word))
    if unknown := set(said.options) - set(OPTIONS):
        sys.exit(f"checks/run: there is no option {', '.join(sorted(unknown))}; see --help")
    names = [word for word in given.names if not re.match(r"\w+=", word)]
    if given.list:
        listed(chosen(names) if names else list(checks.values()))
        return 0
    wanted, report, start = chosen(names), Report(), time.monotonic()
    if not os.access(said.program, os.X_OK):
        sys.exit(f"checks/run: there is no program {said.program}")
    signal.signal(signal.SIGTERM, lambda *_: sys.exit(1))  # so that no server and no folder is left
    with shared.new_folder() as folder:
        said.libraries = folder
        if shutil.which("gcc"):
            shared.compile_libraries(folder)
        shared.slack()
        try:
            run_all(wanted, given.at_once, report)
        finally:
            report.end(time.monotonic() - start)
    return 1 if report.failed else 0
