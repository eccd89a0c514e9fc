"""Runs the program: over files, or over texts that are given; within a time, and so that it can be stopped."""

import os
import subprocess
import tempfile

HERE = os.path.dirname(os.path.dirname(os.path.abspath(__file__)))

# What the program ends with; README.md has the table.
PRINTED, NO_PARSE, USAGE, REFUSED, BAD_INPUT, BUDGET, UNREAD, UNWRITTEN, NO_MEMORY, NO_CURSOR, NO_DEPTH = range(11)
NOT_BUILT = 126  # of the script `iguana`, where the program can't be built


class Ended:
    """How a run ended: its status, None where its time was up or it was stopped; what it printed; its note."""

    def __init__(self, status, output=b"", note=b""):
        self.status, self.output = status, output
        self.note = note.decode("utf-8", "replace").rstrip("\n")

    @property
    def text(self):
        """What the program printed, as text."""
        return self.output.decode("utf-8", "replace")


class Run:
    """A run of the program that has begun: its words, in the folder where its files are named from."""

    def __init__(self, words, program=None, folder=None):
        self.stopped = False
        self.process = subprocess.Popen([program or find_program(), *words], cwd=folder, stdin=subprocess.DEVNULL,
                                        stdout=subprocess.PIPE, stderr=subprocess.PIPE)

    def stop(self):
        """Ends the run before its time; whoever waits for it is told that there is no status."""
        self.stopped = True
        self.process.kill()

    def wait(self, seconds=None):
        """How it ended, or that it didn't within the seconds, and then it is stopped."""
        try:
            output, note = self.process.communicate(timeout=seconds)
        except subprocess.TimeoutExpired:
            self.stop()
            self.process.communicate()
        if self.stopped:
            return Ended(None)
        return Ended(self.process.returncode, output, note)


def find_program(named=None):
    """The program: the one that is named, or that the variable IGUANA names, or else `iguana` of this repository."""
    return os.path.abspath(named or os.environ.get("IGUANA") or os.path.join(HERE, "iguana"))


def run(words, texts=None, program=None, seconds=None):
    """How the program ends with these words, within the seconds where there are any.

    Where texts are given, a mapping of names to texts or bytes, the words name them as files, as in
    `run(["forest", "g", "i"], {"g": grammar, "i": text})`. Else files are named from where the caller stands.
    """
    if texts is None:
        return Run(words, program).wait(seconds)
    with tempfile.TemporaryDirectory() as folder:
        put_texts(folder, texts)
        return Run(words, program, folder).wait(seconds)


def put_texts(folder, texts):
    """Writes the texts to files of the folder."""
    for name, text in texts.items():
        with open(os.path.join(folder, name), "wb") as file:
            file.write(text.encode("utf-8", "surrogatepass") if isinstance(text, str) else text)
