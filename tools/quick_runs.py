"""Runs the program many times with little cost: its files stand in one folder in memory, and it is given no pipes."""

import os
import resource
import shutil
import subprocess
import tempfile

MEMORY = 4 << 30  # bytes that a run may have at most
MOST_SHOWN = 4_000  # characters of a text


class Said:
    """How a run ended: its status, which is negative where a signal ended it; what went to out, and to notes."""

    def __init__(self, status, out, notes):
        self.status, self.out, self.notes = status, out, notes

    def __eq__(self, other):
        return (self.status, self.out, self.notes) == (other.status, other.out, other.notes)

    def __str__(self):
        return f"status {self.status}, out {self.out[:200]!r}, notes {self.notes[:200]!r}"


class Bench:
    """A folder in memory, in which the program is run. The caller stands in it until `close`."""

    def __init__(self, program, seconds):
        self.program, self.seconds, self.runs = program, seconds, 0
        self.folder = tempfile.mkdtemp(prefix="iguana-", dir="/dev/shm" if os.path.isdir("/dev/shm") else None)
        self.came_from = os.getcwd()
        os.chdir(self.folder)
        self.streams = [os.open(name, os.O_RDWR | os.O_CREAT, 0o600) for name in (".out", ".notes")]
        self.actions = [(os.POSIX_SPAWN_OPEN, 0, "/dev/null", os.O_RDONLY, 0)]
        self.actions += [(os.POSIX_SPAWN_DUP2, stream, place) for place, stream in enumerate(self.streams, 1)]
        for kind, most in ((resource.RLIMIT_AS, MEMORY), (resource.RLIMIT_CORE, 0)):
            resource.setrlimit(kind, (most, resource.getrlimit(kind)[1]))

    def close(self):
        os.chdir(self.came_from)
        shutil.rmtree(self.folder)

    def put(self, name, data):
        with open(name, "wb") as file:
            file.write(data)

    def run(self, *words):
        """How the program ends with the words. SIGXCPU ends it where it takes too much processor time."""
        self.runs += 1
        for stream in self.streams:
            os.ftruncate(stream, 0)
            os.lseek(stream, 0, os.SEEK_SET)
        process = os.posix_spawn(self.program, [self.program, *words], os.environ, file_actions=self.actions)
        try:
            resource.prlimit(process, resource.RLIMIT_CPU, (self.seconds, self.seconds + 1))
        except ProcessLookupError:
            pass  # it has ended already
        status = os.waitstatus_to_exitcode(os.waitpid(process, 0)[1])
        return Said(status, *(os.pread(stream, os.fstat(stream).st_size, 0) for stream in self.streams))


def built(program):
    """The program itself, where the script of this repository was named, which looks each time whether to build."""
    if os.path.basename(os.path.dirname(program)) != "out" and os.path.exists(os.path.join(os.path.dirname(program), "crates.txt")):
        subprocess.run([program, "check", ""], capture_output=True, check=False)
        return os.path.join(os.path.dirname(program), "crates", "iguana", "out", "iguana")
    return program


def told(data):
    """A text as it is shown."""
    try:
        text = data.decode("utf-8")
    except UnicodeDecodeError:
        text = repr(data)
    return text if len(text) <= MOST_SHOWN else f"{text[:MOST_SHOWN]}\n.. {len(data)} bytes; --keep writes all"


def keep(folder, name, grammar, text):
    os.makedirs(folder, exist_ok=True)
    for ending, data in (("ig", grammar), ("txt", text)):
        with open(os.path.join(folder, f"{name}.{ending}"), "wb") as file:
            file.write(data)
