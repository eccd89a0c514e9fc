#!/usr/bin/env python3
"""Measures ways to parse many files, on the same files: many_files.py [OPTION ..]

    --program PATH   the program itself, else crates/iguana/out/iguana of this repository
    --files N        so many files of JSON (else 1,000), of at least
    --size N         so many characters each (else 500)
    --jobs N         so many jobs in a list (else 64, the most that a list may have)
    --at-once N      so many processes at a time (else the number of cores)
    --operands N     sums of so many operands in the second table (else 20,000)
    --runs N         the least of N runs (else 3)
    --only FIRST     or SECOND, one table alone

The first table has lists of jobs, by `batch`, one after another and several at once; a loop of the shell with a process
for each file; and one process a file, several at once, by xargs. Processor time is that of all processes, the shells and
xargs with them; memory is the peak of the largest one. The second table has one list of long sums beside as many single
commands. All output goes to files. Ends with status 1 where two ways give different answers.

Memory of less than about 12 MB can't be told: that is what the measuring process itself has.
"""

import argparse
import hashlib
import os
import subprocess
import sys
import tempfile
import time

import emit
from beside import write
from workloads import GRAMMARS, json_input, sum_input

HERE = os.path.dirname(os.path.abspath(__file__))
PROGRAM = os.path.join(HERE, "..", "crates", "iguana", "out", "iguana")
JSON = os.path.join(HERE, "..", "examples", "json", "grammar.ig")
# The words of each shell: the program, how many processes at once.
LISTS = 'for list in lists/*; do "$1" batch "$list" > "out/${list##*/}" || exit 1; done'
LISTS_AT_ONCE = """find lists -type f -print0 | xargs -0 -P "$2" -n 1 sh -c '"$1" batch "$2" > "out/${2##*/}"' sh "$1" """
LOOP = 'for file in files/*; do "$1" forest grammar.ig "$file" > "out/${file##*/}" || exit 1; done'
AT_ONCE = """find files -type f -print0 | xargs -0 -P "$2" -n 1 sh -c '"$1" forest grammar.ig "$2" > "out/${2##*/}"' sh "$1" """


class Used:
    """What a run took: seconds that passed, seconds of processor time, and MB of the largest process."""

    def __init__(self, passed, usage):
        self.passed, self.processor, self.memory = passed, usage.ru_utime + usage.ru_stime, usage.ru_maxrss / 1024


class Folder:
    """A folder with a grammar, files, and lists of the jobs that these are."""

    def __init__(self, folder, grammar, texts, jobs):
        self.folder = folder
        write(folder, "grammar.ig", grammar)
        for number, text in enumerate(texts):
            write(folder, f"files/{number:05}", text)
        names = sorted(os.listdir(os.path.join(folder, "files")))
        for first in range(0, len(names), jobs):
            lines = "".join(f"grammar.ig files/{name}\n" for name in names[first : first + jobs])
            write(folder, f"lists/{first:05}", lines)

    def run(self, script, program, at_once):
        """What the script takes; the answers stand in the folder `out` afterwards."""
        subprocess.run(["rm", "-rf", "out"], cwd=self.folder, check=True)
        os.mkdir(os.path.join(self.folder, "out"))
        begun = time.monotonic()
        process = subprocess.Popen(["sh", "-c", script, "sh", program, str(at_once)], cwd=self.folder, stdin=subprocess.DEVNULL)
        _, status, usage = os.wait4(process.pid, 0)
        process.returncode = os.waitstatus_to_exitcode(status)
        if process.returncode != 0:
            sys.exit(f"many_files: status {process.returncode} of: {script}")
        return Used(time.monotonic() - begun, usage)

    def answers(self, in_lists):
        """The answers, in the order of the files, as one number."""
        whole, out = hashlib.sha256(), os.path.join(self.folder, "out")
        for name in sorted(os.listdir(out)):
            with open(os.path.join(out, name), "rb") as file:
                for answer in jobs_of(file) if in_lists else [file.read()]:
                    whole.update(b"%d " % len(answer) + answer)
        return whole.hexdigest()


def jobs_of(file):
    """What each job of a list printed."""
    for line in iter(file.readline, b""):
        words = line.split()
        yield file.read(int(words[5]))
        file.read(int(words[7]))


def least(folder, script, options, at_once, in_lists):
    """The run that took the least processor time, and the answers."""
    runs = [folder.run(script, options.program, at_once) for _ in range(options.runs)]
    return min(runs, key=lambda used: used.processor), folder.answers(in_lists)


def first_table(options, folder):
    """The lines of the first table, and whether all ways gave the same."""
    texts = (json_input(options.size + k % 100) for k in range(options.files))
    with open(JSON, encoding="utf-8") as file:
        files = Folder(folder, file.read(), texts, options.jobs)
    many, answers = options.at_once, set()
    yield "| Way | Processes | At once | Files a second | Milliseconds of processor time a file | Memory of one, MB |"
    yield "|---|---|---|---|---|---|"
    lists = -(-options.files // options.jobs)
    for way, script, processes, at_once, in_lists in (
        (f"lists of {options.jobs}", LISTS, lists, 1, True), (f"lists of {options.jobs}", LISTS_AT_ONCE, lists, many, True),
        ("a loop", LOOP, options.files, 1, False), ("xargs", AT_ONCE, options.files, many, False),
    ):
        used, answer = least(files, script, options, at_once, in_lists)
        answers.add(answer)
        yield (f"| {way} | {processes:,} | {at_once} | {options.files / used.passed:.0f} "
               f"| {used.processor * 1000 / options.files:.2f} | {used.memory:.0f} |")
    check(answers)


def second_table(options, folder):
    """The lines of the second table, and whether both ways gave the same."""
    texts = (sum_input(options.operands, number) for number in range(1, options.jobs + 1))
    sums, answers = Folder(folder, emit.iguana(GRAMMARS["strata"]), texts, options.jobs), set()
    yield f"| {options.jobs} sums of {options.operands:,} operands | Seconds of processor time | Seconds | Memory of one process, MB |"
    yield "|---|---|---|---|"
    for way, script, in_lists in (("one list", LISTS, True), ("single commands, one after another", LOOP, False)):
        used, answer = least(sums, script, options, 1, in_lists)
        answers.add(answer)
        yield f"| {way} | {used.processor:.2f} | {used.passed:.2f} | {used.memory:.0f} |"
    check(answers)


def check(answers):
    """Ends where there are different answers."""
    if len(answers) != 1:
        sys.exit("many_files: two ways give different answers")


def main():
    parser = argparse.ArgumentParser(description=__doc__, formatter_class=argparse.RawDescriptionHelpFormatter, usage=argparse.SUPPRESS)
    parser.add_argument("--program", default=PROGRAM, help=argparse.SUPPRESS)
    for name, usual in (("files", 1000), ("size", 500), ("jobs", 64), ("at-once", os.cpu_count() or 1), ("operands", 20_000), ("runs", 3)):
        parser.add_argument(f"--{name}", type=int, default=usual, help=argparse.SUPPRESS)
    parser.add_argument("--only", choices=("FIRST", "SECOND"), help=argparse.SUPPRESS)
    options = parser.parse_args()
    options.program = os.path.abspath(options.program)
    for name, table in (("FIRST", first_table), ("SECOND", second_table)):
        if options.only in (None, name):
            with tempfile.TemporaryDirectory() as folder:
                for line in table(options, folder):
                    print(line, flush=True)
                print()


if __name__ == "__main__":
    sys.exit(main())
