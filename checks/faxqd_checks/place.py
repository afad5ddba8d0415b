"""A folder in which the program is run by its name, as in a shell."""
import contextlib
import os
import subprocess

from .shared import Wrong, expect, expect_same, said


class Place:
    """A folder with the program as `faxqd`: help and usage say the name by which it is called."""

    def __init__(self, folder):
        self.folder, self.program = folder, folder / "faxqd"
        self.program.symlink_to(said.program)

    def run(self, status, *words, data=b"", folder=None, before=(), **streams):
        """Runs it on these bytes; it has to end with this status, if one is said. Gives what it says on both streams."""
        streams = {"stdout": subprocess.PIPE, "stderr": subprocess.PIPE, **streams}
        if "stdin" not in streams:
            streams["input"] = data
        try:
            ran = subprocess.run([*before, self.program, *words], cwd=folder or self.folder, timeout=60, **streams)
        except subprocess.TimeoutExpired:
            raise Wrong(f"{words} doesn't end") from None
        expect(status in (None, ran.returncode), f"it ends with {ran.returncode}, and says {ran.stderr!r}")
        return ran.stdout, ran.stderr

    def fails(self, text, *words):
        """It has one line for standard error, and nothing else."""
        expect_same(self.run(1, *words), (b"", f"faxqd: {text}\n".encode()), "it says")

    def usage(self, *words):
        """The words are refused, on standard error alone."""
        out, err = self.run(2, *words)
        expect_same(out, b"", "standard output")
        expect(any(line.startswith((b"error: ", b"Usage: ")) for line in err.splitlines()),
               f"it doesn't say what is wrong: {err!r}")


@contextlib.contextmanager
def open_folder(folder):
    """The folder itself, as a file that can't be read."""
    file = os.open(folder, os.O_RDONLY)
    try:
        yield file
    finally:
        os.close(file)
