#!/usr/bin/env python3
"""Measures how many small files are parsed on all cores, with xargs: files.py [--program FILE] [--files N] [--size N]

Makes N files (else 1,000) of JSON, of at least SIZE characters each (else 500), and runs the program on each of them,
with one process at a time, two, and so on up to the number of cores. The last line runs a program that does nothing, to
show what the processes alone cost. Prints a table in Markdown: files for each second that passes, and milliseconds of
processor time for each file, that of the shells and of xargs with it.
"""

import argparse
import os
import resource
import subprocess
import sys
import tempfile
import time

from beside import write
from workloads import json_input

HERE = os.path.dirname(os.path.abspath(__file__))
EACH = """find "$1" -name '*.json' -print0 | xargs -0 -P "$2" -n 1 sh -c '"$1" forest "$2" "$3" > "$3.forest"' sh "$3" "$4" """


def processor():
    """Seconds of processor time that processes which were started have taken so far."""
    usage = resource.getrusage(resource.RUSAGE_CHILDREN)
    return usage.ru_utime + usage.ru_stime


def main():
    parser = argparse.ArgumentParser(description=__doc__.split("\n", 1)[0])
    parser.add_argument("--program", default=os.path.join(HERE, "..", "iguana"))
    parser.add_argument("--files", type=int, default=1000)
    parser.add_argument("--size", type=int, default=500)
    options = parser.parse_args()
    grammar = os.path.join(HERE, "..", "examples", "json", "grammar.ig")
    cores = os.cpu_count() or 1
    at_once = sorted({1, cores} | {2**k for k in range(10) if 2**k < cores})
    print("| Program | At once | Files a second | Milliseconds a file |\n|---|---|---|---|")
    with tempfile.TemporaryDirectory() as folder:
        for k in range(options.files):
            write(folder, f"{k % 10}/{k}.json", json_input(options.size + k % 100))
        for name, program, number in [("iguana", os.path.abspath(options.program), n) for n in at_once] + [("true", "/bin/true", cores)]:
            begun, used = time.monotonic(), processor()
            done = subprocess.run(["sh", "-c", EACH, "sh", folder, str(number), program, grammar], check=False)
            seconds, used = time.monotonic() - begun, processor() - used
            said = f"status {done.returncode}" if done.returncode else f"{options.files / seconds:.0f}"
            print(f"| {name} | {number} | {said} | {used * 1000 / options.files:.1f} |", flush=True)


if __name__ == "__main__":
    sys.exit(main())
